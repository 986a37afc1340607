//! Times inserts and then deletes through the library's `receive` against two Rust programs, the plain one of
//! tests/native/reference.rs and the one with a table in tabled.rs: the same operations, the same checks, all
//! optimised. With a file's name it also draws the time of a call over the rows there. With `only` and a side, which is
//! `library` or `table`, it does the work of that side once and prints nothing, for a counter of instructions.

mod plot;
#[path = "../tests/native/reference.rs"]
#[allow(dead_code)]
mod reference;
#[allow(dead_code)]
mod table;
#[allow(dead_code)]
mod tabled;

use reference::{Id, Insert, Operation, Reply, Sheet, Turn, BEGIN, END};
use std::time::{Duration, Instant};
use tabled::Tabled;

extern "C" {
    /// Receives the first `rows` inserts of `crates/workload` on an empty replica and then the deletes of the same
    /// characters, and returns how many were carried out.
    fn workload_run(rows: u64) -> u64;
}

const COUNT: u64 = 1024;
const RUNS: usize = 5;

fn id(k: u64) -> Id {
    Id { laptop: (k % 16 + 1) as u8, clock: (k / 16 + 1) as u16 }
}

/// Sixteen laptops in turn: each types after the character typed before, or between the marks.
fn insert(k: u64) -> Operation {
    let previous = if k % 4 == 0 { BEGIN } else { id(k - 1) };
    Operation::Insert(Insert { id: id(k), code: 97 + (k % 26) as u32, previous, next: END })
}

fn erase(k: u64) -> Operation {
    Operation::Turn(Turn { sender: (k % 16 + 1) as u8, id: id(k), turn: 1 })
}

/// Receives the operations, and counts those carried out.
fn carried(rows: u64, mut receive: impl FnMut(&Operation) -> Reply) -> u64 {
    let operations = (0..rows).map(insert).chain((0..rows).map(erase));
    operations.map(|o| u64::from(matches!(receive(&o), Reply::Done { .. }))).sum()
}

fn plain_run(rows: u64) -> u64 {
    let mut sheet = Sheet::empty(16);
    carried(rows, |o| sheet.receive(o))
}

fn tabled_run(rows: u64) -> u64 {
    let mut sheet = Tabled::empty(16);
    carried(rows, |o| sheet.receive(o))
}

fn library_run(rows: u64) -> u64 {
    unsafe { workload_run(rows) }
}

/// Microseconds of a call: of the shortest of several runs, each long enough to be timed.
fn per_call(run: fn(u64) -> u64, rows: u64) -> f64 {
    let times = COUNT / rows;
    let mut shortest = Duration::MAX;
    for _ in 0..RUNS {
        let began = Instant::now();
        for _ in 0..times {
            assert_eq!(run(rows), 2 * rows);
        }
        shortest = shortest.min(began.elapsed());
    }
    shortest.as_secs_f64() * 1e6 / (2 * COUNT) as f64
}

/// The work of one side, once.
fn only(side: &str) {
    let run = if side == "library" { library_run } else { tabled_run };
    assert_eq!(run(COUNT), 2 * COUNT);
}

fn main() {
    let words: Vec<String> = std::env::args().skip(1).collect();
    if let [first, side] = &words[..] {
        if first == "only" {
            return only(side);
        }
    }
    table::head();
    table::row("receive, 1,024 inserts and 1,024 deletes", &|| plain_run(COUNT), &|| library_run(COUNT));
    table::row("the same, against the Rust with a table", &|| tabled_run(COUNT), &|| library_run(COUNT));
    println!("\n{:<44} {:>12} {:>12} {:>12}", "microseconds of a call, by rows", "plain Rust", "with a table", "library");
    let mut points = Vec::new();
    for rows in [64, 128, 256, 512, 1024] {
        let times = [plain_run as fn(u64) -> u64, tabled_run, library_run].map(|run| per_call(run, rows));
        println!("{rows:<44} {:>12.2} {:>12.2} {:>12.2}", times[0], times[1], times[2]);
        points.push((rows, times));
    }
    let growth = |side: usize| points[4].1[side] / points[0].1[side];
    println!("{:<44} {:>12.1} {:>12.1} {:>12.1}", "1,024 rows to 64", growth(0), growth(1), growth(2));
    println!();
    if let Some(file) = words.first() {
        std::fs::write(file, plot::drawn(&points)).expect("the picture cannot be written");
    }
}
