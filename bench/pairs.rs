//! The work of `page_bench` over a sorted list of pairs: `pairs ROWS VALUE ROUNDS`.
//!
//! Each round puts rows in, in no order, looks each of them up and takes each out. It prints how
//! many rows it found, and the nanoseconds that a put, a search and a removal took in the least
//! round.

#[allow(dead_code)]
mod files;

use files::{print, run_words};
use std::io::Write;
use std::process::ExitCode;
use std::time::Instant;

const USAGE: &str = "usage: pairs ROWS VALUE ROUNDS";

type Pair = (Vec<u8>, Vec<u8>);

/// The key of a row, of 16 bytes. The rows are put in in an order of their own.
fn key(row: u32, rows: u32) -> Vec<u8> {
    let mut key = vec![48; 12];
    key.extend((row * 89 % rows).to_be_bytes());
    key
}

fn place_of(pairs: &[Pair], key: &[u8]) -> Result<usize, usize> {
    pairs.binary_search_by(|pair| pair.0.as_slice().cmp(key))
}

#[inline(never)]
fn put_all(pairs: &mut Vec<Pair>, keys: &[Vec<u8>], value: &[u8]) {
    for key in keys {
        if let Err(place) = place_of(pairs, key) {
            pairs.insert(place, (key.clone(), value.to_vec()));
        }
    }
}

#[inline(never)]
fn count_all(pairs: &[Pair], keys: &[Vec<u8>], value: &[u8]) -> usize {
    let found = keys.iter().filter(|key| match place_of(pairs, key) {
        Ok(place) => pairs[place].1.len() == value.len(),
        Err(_) => false,
    });
    found.count()
}

#[inline(never)]
fn take_all(pairs: &mut Vec<Pair>, keys: &[Vec<u8>]) {
    for key in keys {
        if let Ok(place) = place_of(pairs, key) {
            pairs.remove(place);
        }
    }
}

/// A round over all keys: how many rows it found, and how long its parts took.
fn round(pairs: &mut Vec<Pair>, keys: &[Vec<u8>], value: &[u8]) -> (usize, [u128; 3]) {
    let start = Instant::now();
    put_all(pairs, keys, value);
    let put = Instant::now();
    let found = count_all(pairs, keys, value);
    let searched = Instant::now();
    take_all(pairs, keys);
    let times = [put - start, searched - put, searched.elapsed()];
    (found, times.map(|time| time.as_nanos()))
}

fn run(words: &[String]) -> Result<(), String> {
    let [rows, len, rounds, ..] = words else {
        return Err(USAGE.into());
    };
    let rows: u32 = rows.parse().map_err(|_| USAGE)?;
    let len: usize = len.parse().map_err(|_| USAGE)?;
    let rounds: u32 = rounds.parse().map_err(|_| USAGE)?;
    let keys: Vec<_> = (0..rows).map(|row| key(row, rows)).collect();
    let value = vec![7; len];
    let mut pairs = Vec::new();
    let mut found = 0;
    let mut least = [u128::MAX; 3];
    for _ in 0..rounds {
        let (here, times) = round(&mut pairs, &keys, &value);
        found += here;
        for (least, time) in least.iter_mut().zip(times) {
            *least = time.min(*least);
        }
    }
    let [puts, searches, removals] = least.map(|time| time / u128::from(rows));
    print(|out| writeln!(out, "{found}\n{puts} {searches} {removals}"))
}

fn main() -> ExitCode {
    run_words("pairs", run)
}
