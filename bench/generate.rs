//! Writes the files of a measurement: `generate KIND LANES LINES SEED FOLDER`.
//!
//! FOLDER gets `bench.schema` and, for each lane from 1, `bench-LANE.lane` with a comment and its
//! part of LINES lines that ask. The same words write the same bytes.

use std::env;
use std::fs::{self, File};
use std::io::{self, BufWriter, Write};
use std::path::Path;
use std::process::ExitCode;

const USAGE: &str = "usage: generate gets|seeks|puts|random|descending|front|mix|churn|split LANES LINES SEED FOLDER";
const INDEXES: &str =
    "# rows with even numbers, and rows with odd ones\nindex item 1\nindex price 2\n";

#[derive(Clone, Copy)]
enum Kind {
    /// A fifth of the lines put keys in no order, the others get these with skew. Each lane has
    /// keys of its own.
    Gets,
    /// A fifth of the lines put keys in no order, the others seek, in all modes alike, the row next to
    /// a key that hardly any row has. Each lane has keys of its own.
    Seeks,
    /// Each key is above those that the lane put before.
    Puts,
    /// Puts of keys in no order. Each lane has keys of its own.
    Random,
    /// Each key is below those that the lane put before.
    Descending,
    /// Half of the lines put keys, each above those before, and the others delete them in that
    /// order, so that each takes the first row out.
    Front,
    /// A tenth of the lines put keys in no order, three tenths get each of them three times, so that
    /// leaves are hashed, and the others delete them and put them again in turn. Each lane has keys of
    /// its own.
    Churn,
    /// A fifth of the lines put keys in no order, three fifths get each of them three times, and the
    /// others put as many keys beside them, so that hashed leaves are split. Each lane has keys of its
    /// own.
    Split,
    /// Two gets for a put and a del, with skew, over an eighth as many keys as lines. All lanes ask
    /// for the same keys.
    Mix,
}

struct Plan {
    kind: Kind,
    lanes: u64,
    /// Of all lanes together.
    lines: u64,
    seed: u64,
}

impl Plan {
    /// How many lines that lane has, from 0. The first lanes have what can't be shared out.
    fn lines_of(&self, lane: u64) -> u64 {
        self.lines / self.lanes + u64::from(lane < self.lines % self.lanes)
    }
}

/// The schema, with a page for each fifty lines, which are fewer rows than a page has that was split,
/// and no fewer pages than a run has by default.
fn schema(lines: u64) -> String {
    let pages = (lines / 50).clamp(4096, 65_536);
    format!("pages {pages}\n{INDEXES}")
}

/// Numbers that look random: a counter with a large odd stride, scattered.
struct Numbers(u64);

impl Numbers {
    fn next(&mut self) -> u64 {
        self.0 = self.0.wrapping_add(0x9e37_79b9_7f4a_7c15);
        scatter(self.0)
    }

    fn below(&mut self, end: u64) -> u64 {
        self.next() % end
    }

    /// Halves `end` some times, each number of times being as likely, and draws below what is left:
    /// the n-th key is asked for about 1/n as often as the first.
    fn skewed(&mut self, end: u64) -> u64 {
        let halvings = self.below(u64::from(u64::BITS - end.leading_zeros()));
        self.below(end >> halvings)
    }
}

/// A permutation of the numbers, so distinct rows have distinct keys.
fn scatter(number: u64) -> u64 {
    let number = (number ^ (number >> 30)).wrapping_mul(0xbf58_476d_1ce4_e5b9);
    let number = (number ^ (number >> 27)).wrapping_mul(0x94d0_49bb_1331_11eb);
    number ^ (number >> 31)
}

/// The index and the key of a number. Of one index, a greater number has a greater key.
fn key(number: u64) -> String {
    if number % 2 == 0 {
        format!("item {number:016x}")
    } else {
        format!("price {:012x},{:04x}", number >> 16, number & 0xffff)
    }
}

/// A value of 20 to 36 bytes, of which one is escaped; one in 64 is the empty value.
fn value(draw: u64) -> String {
    if draw % 64 == 0 {
        return "~".to_string();
    }
    let digits = 16 + (draw % 17) as usize;
    format!("row%20{draw:0digits$x}")
}

/// A seek in a drawn mode by the key of a drawn number.
fn seek(numbers: &mut Numbers) -> String {
    let mode = ["ge", "g", "le", "l"][numbers.below(4) as usize];
    let key = key(numbers.next());
    let (index, tuple) = key.split_once(' ').expect("a key stands behind its index");
    format!("seek {index} {mode} {tuple}")
}

/// The number of the row that a lane comes to after so many: rows of all lanes rise together.
fn rising(plan: &Plan, lane: u64, row: u64) -> u64 {
    2 * (row / 2 * plan.lanes + lane) + row % 2
}

/// Line `line` of lane `lane`, both from 0.
fn text_of(plan: &Plan, lane: u64, line: u64, numbers: &mut Numbers) -> String {
    let put = |number, draw| format!("put {} {}", key(number), value(draw));
    match plan.kind {
        Kind::Puts => put(rising(plan, lane, line), numbers.next()),
        Kind::Random => put(scatter(lane << 40 | line), numbers.next()),
        Kind::Descending => {
            // no lane comes to a number above this one
            let most = 4 * (plan.lines + plan.lanes);
            put(most - rising(plan, lane, line), numbers.next())
        }
        Kind::Front => {
            let rows = plan.lines_of(lane).div_ceil(2);
            if line < rows {
                put(rising(plan, lane, line), numbers.next())
            } else {
                format!("del {}", key(rising(plan, lane, line - rows)))
            }
        }
        Kind::Gets => {
            let rows = plan.lines_of(lane).div_ceil(5);
            let own = |row| scatter(lane << 40 | row);
            if line < rows {
                put(own(line), numbers.next())
            } else {
                format!("get {}", key(own(numbers.skewed(rows))))
            }
        }
        Kind::Churn => {
            let rows = plan.lines_of(lane).div_ceil(10);
            let own = |row| scatter(lane << 40 | row);
            match line / rows {
                0 => put(own(line), numbers.next()),
                1..4 => format!("get {}", key(own(line % rows))),
                _ if line % 2 == 0 => format!("del {}", key(own(line / 2 % rows))),
                _ => put(own(line / 2 % rows), numbers.next()),
            }
        }
        Kind::Split => {
            let rows = plan.lines_of(lane).div_ceil(5);
            let own = |row| scatter(lane << 40 | row);
            match line / rows {
                1..4 => format!("get {}", key(own(line % rows))),
                0 => put(own(line), numbers.next()),
                _ => put(own(line - 3 * rows), numbers.next()),
            }
        }
        Kind::Seeks => {
            if line < plan.lines_of(lane).div_ceil(5) {
                put(scatter(lane << 40 | line), numbers.next())
            } else {
                seek(numbers)
            }
        }
        Kind::Mix => {
            let number = scatter(numbers.skewed(plan.lines.div_ceil(8)));
            match numbers.below(4) {
                0 => put(number, numbers.next()),
                1 => format!("del {}", key(number)),
                _ => format!("get {}", key(number)),
            }
        }
    }
}

fn write_lane(plan: &Plan, lane: u64, file: File) -> io::Result<()> {
    let mut out = BufWriter::new(file);
    let mut numbers = Numbers(scatter(plan.seed) ^ scatter(lane + 1));
    writeln!(
        out,
        "# lane {} of {}, seed {}",
        lane + 1,
        plan.lanes,
        plan.seed
    )?;
    for line in 0..plan.lines_of(lane) {
        writeln!(out, "{}", text_of(plan, lane, line, &mut numbers))?;
    }
    out.flush()
}

fn write_all(plan: &Plan, folder: &Path) -> io::Result<()> {
    fs::create_dir_all(folder)?;
    fs::write(folder.join("bench.schema"), schema(plan.lines))?;
    for lane in 0..plan.lanes {
        let name = format!("bench-{}.lane", lane + 1);
        write_lane(plan, lane, File::create(folder.join(name))?)?;
    }
    Ok(())
}

fn read_words(words: &[String]) -> Option<(Plan, &Path)> {
    let [kind, lanes, lines, seed, folder] = words else {
        return None;
    };
    let kind = match kind.as_str() {
        "gets" => Kind::Gets,
        "seeks" => Kind::Seeks,
        "puts" => Kind::Puts,
        "random" => Kind::Random,
        "descending" => Kind::Descending,
        "front" => Kind::Front,
        "mix" => Kind::Mix,
        "churn" => Kind::Churn,
        "split" => Kind::Split,
        _ => return None,
    };
    let plan = Plan {
        kind,
        lanes: lanes.parse().ok().filter(|&lanes| lanes > 0)?,
        lines: lines.parse().ok()?,
        seed: seed.parse().ok()?,
    };
    Some((plan, Path::new(folder)))
}

fn main() -> ExitCode {
    let words: Vec<String> = env::args().skip(1).collect();
    let Some((plan, folder)) = read_words(&words) else {
        eprintln!("{USAGE}");
        return ExitCode::from(2);
    };
    match write_all(&plan, folder) {
        Ok(()) => ExitCode::SUCCESS,
        Err(error) => {
            eprintln!("generate: {}: {error}", folder.display());
            ExitCode::FAILURE
        }
    }
}
