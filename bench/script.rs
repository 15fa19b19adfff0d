//! The schema and lane files as the peer reads them; the grammar is in docs/FORMATS.md.
//!
//! A bad line is refused by its number alone. That two indexes have one name isn't looked for, nor
//! where a setting stands or what it is.

use crate::files::{load, speaking_lines};

pub type Field = Vec<u8>;
pub type Key = Vec<Field>;

/// What the schema says of an index.
pub struct Shape {
    pub name: Vec<u8>,
    fields: usize,
}

/// Which row a seek asks for: the first that isn't below its tuple, or is above it, or the last that
/// isn't above it, or is below it.
#[derive(Clone, Copy)]
pub enum Mode {
    Ge,
    G,
    Le,
    L,
}

pub enum Operation {
    Get(Key),
    Put(Key, Field),
    Set(Key, Field),
    Del(Key),
    Seek(Mode, Key),
}

/// A line that asks. `index` is the place of its index in the schema.
pub struct Line {
    pub number: usize,
    pub index: usize,
    pub operation: Operation,
}

/// What the files of a run say.
pub struct Script {
    pub shapes: Vec<Shape>,
    pub lanes: Vec<Vec<Line>>,
}

impl Script {
    pub fn load(schema: &str, lanes: &[String]) -> Result<Script, String> {
        let shapes = read_file(schema, read_schema)?;
        let read = |lane: &String| read_file(lane, |text| read_lane(text, &shapes));
        let lanes = lanes.iter().map(read).collect::<Result<_, _>>()?;
        Ok(Script { shapes, lanes })
    }
}

/// The number of the first line that isn't in the grammar.
struct BadLine(usize);

const KEY_BYTES: usize = 767;
const VALUE_BYTES: usize = 2048;

fn read_file<T>(file: &str, read: impl FnOnce(&[u8]) -> Result<T, BadLine>) -> Result<T, String> {
    let read = read(&load(file)?);
    read.map_err(|BadLine(number)| format!("{file}: line {number} isn't in the grammar"))
}

fn read_schema(text: &[u8]) -> Result<Vec<Shape>, BadLine> {
    speaking_lines(text)
        .filter(|(_, line)| !is_setting(line))
        .map(|(number, line)| read_shape(line).ok_or(BadLine(number)))
        .collect()
}

/// A line that sets a size, which a map has no use for.
fn is_setting(line: &[u8]) -> bool {
    let words = ["blocks", "pages", "parts", "cells", "nodes", "fold_bits", "max_changes"];
    let first = line.split(|&byte| byte == b' ').next();
    words.iter().any(|word| first == Some(word.as_bytes()))
}

fn read_lane(text: &[u8], shapes: &[Shape]) -> Result<Vec<Line>, BadLine> {
    let read = |(number, line)| read_line(number, line, shapes).ok_or(BadLine(number));
    speaking_lines(text).map(read).collect()
}

fn read_shape(line: &[u8]) -> Option<Shape> {
    let mut words = line.split(|&byte| byte == b' ');
    let (verb, name, fields) = (words.next()?, words.next()?, words.next()?);
    let fields = match fields {
        b"1" => 1,
        b"2" => 2,
        b"3" => 3,
        b"4" => 4,
        _ => return None,
    };
    let is_shape = verb == b"index" && is_name(name) && words.next().is_none();
    is_shape.then(|| Shape {
        name: name.to_vec(),
        fields,
    })
}

fn is_name(word: &[u8]) -> bool {
    let fits = |byte: &u8| matches!(byte, b'a'..=b'z' | b'0'..=b'9' | b'_');
    word.len() <= 32 && word.first().is_some_and(u8::is_ascii_lowercase) && word.iter().all(fits)
}

fn read_line(number: usize, line: &[u8], shapes: &[Shape]) -> Option<Line> {
    let mut words = line.split(|&byte| byte == b' ');
    let (verb, name, third) = (words.next()?, words.next()?, words.next()?);
    let index = shapes.iter().position(|shape| shape.name == name)?;
    let fields = shapes[index].fields;
    let key = |word| read_tuple(word).filter(|key| key.len() == fields);
    let operation = match verb {
        b"get" => Operation::Get(key(third)?),
        b"del" => Operation::Del(key(third)?),
        b"put" => Operation::Put(key(third)?, read_value(words.next()?)?),
        b"set" => Operation::Set(key(third)?, read_value(words.next()?)?),
        b"seek" => {
            let tuple = read_tuple(words.next()?).filter(|tuple| tuple.len() <= fields)?;
            Operation::Seek(read_mode(third)?, tuple)
        }
        _ => return None,
    };
    words.next().is_none().then_some(Line {
        number,
        index,
        operation,
    })
}

fn read_mode(word: &[u8]) -> Option<Mode> {
    match word {
        b"ge" => Some(Mode::Ge),
        b"g" => Some(Mode::G),
        b"le" => Some(Mode::Le),
        b"l" => Some(Mode::L),
        _ => None,
    }
}

fn read_tuple(word: &[u8]) -> Option<Key> {
    let tuple: Key = word
        .split(|&byte| byte == b',')
        .map(read_field)
        .collect::<Option<_>>()?;
    let bytes: usize = tuple.iter().map(Vec::len).sum();
    (bytes <= KEY_BYTES).then_some(tuple)
}

fn read_value(word: &[u8]) -> Option<Field> {
    read_field(word).filter(|value| value.len() <= VALUE_BYTES)
}

fn read_field(word: &[u8]) -> Option<Field> {
    match word {
        b"" => return None,
        b"~" => return Some(Vec::new()),
        _ => {}
    }
    let mut field = Vec::with_capacity(word.len());
    let mut rest = word.iter();
    while let Some(&byte) = rest.next() {
        field.push(match byte {
            b'%' => 16 * read_digit(*rest.next()?)? + read_digit(*rest.next()?)?,
            b',' => return None,
            b'!'..=b'}' => byte,
            _ => return None,
        });
    }
    Some(field)
}

fn read_digit(byte: u8) -> Option<u8> {
    char::from(byte).to_digit(16).map(|digit| digit as u8)
}
