//! Times one edit on a saved sheet, through the C calls of the static library and through those of tabled_calls.rs: a
//! Rust program that splits, reads the numbers, makes a table, checks the form and writes. Both sides answer the same
//! number and leave the same bytes, which is checked on the way. With `once` it makes one call of wimtaze_receive and
//! prints nothing, for a counter of instructions.

#[path = "../tests/native/library.rs"]
#[allow(dead_code)]
mod library;
#[path = "../tests/native/reference.rs"]
#[allow(dead_code)]
mod reference;
#[allow(dead_code)]
mod tabled;
mod tabled_calls;

use library::{wimtaze_erase, wimtaze_receive, wimtaze_restore, wimtaze_type};
use std::hint::black_box;
use std::time::Instant;
use tabled_calls::{erase_call, receive_call, restore_call, type_call, Outputs};

const SHEET: usize = 51_212;
const LINE: usize = 37;
const RUNS: usize = 5;

/// A sheet of so many rows: how many calls on it are timed together, which is few, so that other work on the machine
/// spares some of the runs; and the most that the library may take of the Rust's time.
struct Size {
    rows: u64,
    name: &'static str,
    calls: u32,
    bar: f64,
}

const SIZES: [Size; 2] = [
    Size { rows: 1023, name: "1,023 rows", calls: 20, bar: 0.25 },
    Size { rows: 64, name: "64 rows", calls: 400, bar: 0.5 },
];

/// What is done to a sheet.
enum Edit {
    Receive(Vec<u8>),
    Type(u64),
    Erase(u64),
    Restore(u64, u64),
}

/// An edit, what it is called, and the sheet that it is made on.
struct Case {
    name: &'static str,
    sheet: Vec<u8>,
    edit: Edit,
}

/// The lent outputs of the library's calls.
struct Lent {
    sheet: Box<[u8; SHEET]>,
    line: [u8; LINE],
}

impl Lent {
    fn new() -> Lent {
        Lent { sheet: Box::new([0; SHEET]), line: [0; LINE] }
    }

    fn written(&self, returned: u64) -> (&[u8], &[u8]) {
        (&self.sheet[..(returned >> 32 & 0xffff) as usize], &self.line[..(returned >> 48) as usize])
    }
}

fn library(sheet: &[u8], edit: &Edit, out: &mut Lent) -> u64 {
    let (s, n, f, l) = (sheet.as_ptr(), sheet.len(), out.sheet.as_mut_ptr(), out.line.as_mut_ptr());
    unsafe {
        match edit {
            Edit::Receive(line) => wimtaze_receive(s, n, line.as_ptr(), line.len(), f, SHEET),
            Edit::Type(gap) => wimtaze_type(s, n, *gap, 97, f, SHEET, l, LINE),
            Edit::Erase(place) => wimtaze_erase(s, n, *place, f, SHEET, l, LINE),
            Edit::Restore(laptop, clock) => wimtaze_restore(s, n, *laptop, *clock, f, SHEET, l, LINE),
        }
    }
}

fn tabled(sheet: &[u8], edit: &Edit, out: &mut Outputs) -> u64 {
    match edit {
        Edit::Receive(line) => receive_call(sheet, line, out),
        Edit::Type(gap) => type_call(sheet, *gap, 97, out),
        Edit::Erase(place) => erase_call(sheet, *place, out),
        Edit::Restore(laptop, clock) => restore_call(sheet, *laptop, *clock, out),
    }
}

/// The sheet after an edit through the library.
fn after(sheet: &[u8], edit: Edit) -> Vec<u8> {
    let mut out = Lent::new();
    let returned = library(sheet, &edit, &mut out);
    assert_eq!(returned & 3, 0);
    out.written(returned).0.to_vec()
}

/// The sheet of laptop 1, which typed so many characters: each at the end, but every fourth in the middle.
fn typed(rows: u64) -> Vec<u8> {
    let gap = |k: u64| if k % 4 == 3 { k / 2 } else { k };
    (0..rows).fold(b"S2\t1\t0\n".to_vec(), |sheet, k| after(&sheet, Edit::Type(gap(k))))
}

/// The identifier of the k-th row, from 1: the two fields after `C`, with the tab between them.
fn identifier(sheet: &[u8], k: u64) -> String {
    let line = sheet.split(|b| *b == b'\n').nth(k as usize).unwrap();
    let fields: Vec<&str> = std::str::from_utf8(line).unwrap().split('\t').collect();
    fields[1..3].join("\t")
}

/// Laptop 2's first character, typed between the row in the middle and the one below, or below the last.
fn received(sheet: &[u8], rows: u64, middle: bool) -> Edit {
    let ids = match middle {
        true => [identifier(sheet, rows / 2), identifier(sheet, rows / 2 + 1)],
        false => [identifier(sheet, rows), "0\t1".into()],
    };
    Edit::Receive(format!("I\t2\t1\t97\t{}\n", ids.join("\t")).into_bytes())
}

/// What is timed at so many rows.
fn cases(rows: u64) -> [Case; 5] {
    let (sheet, middle) = (typed(rows), rows / 2);
    let hidden = after(&sheet, Edit::Erase(middle));
    let named = identifier(&sheet, middle);
    let (laptop, clock) = named.split_once('\t').unwrap();
    let restore = Edit::Restore(laptop.parse().unwrap(), clock.parse().unwrap());
    [
        Case { name: "wimtaze_receive, in the middle", edit: received(&sheet, rows, true), sheet: sheet.clone() },
        Case { name: "wimtaze_receive, at the end", edit: received(&sheet, rows, false), sheet: sheet.clone() },
        Case { name: "wimtaze_type", edit: Edit::Type(middle), sheet: sheet.clone() },
        Case { name: "wimtaze_erase", edit: Edit::Erase(middle), sheet },
        Case { name: "wimtaze_restore", edit: restore, sheet: hidden },
    ]
}

/// What the last of so many calls returned, and the microseconds of one.
fn timed(calls: u32, mut call: impl FnMut() -> u64) -> (u64, f64) {
    let (began, mut returned) = (Instant::now(), 0);
    for _ in 0..calls {
        returned = black_box(call());
    }
    (returned, began.elapsed().as_secs_f64() * 1e6 / f64::from(calls))
}

/// Times both sides in turns, checks that they leave the same, and prints the shortest run of either.
fn row(case: &Case, size: &Size) {
    let (mut theirs, mut ours) = (Outputs::default(), Lent::new());
    let (mut slow, mut fast) = (f64::MAX, f64::MAX);
    for _ in 0..RUNS {
        let (expected, time) = timed(size.calls, || tabled(black_box(&case.sheet), &case.edit, &mut theirs));
        slow = slow.min(time);
        let (returned, time) = timed(size.calls, || library(black_box(&case.sheet), &case.edit, &mut ours));
        fast = fast.min(time);
        assert_eq!((returned, returned & 3), (expected, 0), "{}", case.name);
        assert_eq!(ours.written(returned), (&theirs.sheet[..], &theirs.line[..]), "{}", case.name);
    }
    let name = format!("{}, {}", case.name, size.name);
    println!("{name:<44} {slow:>12.2} {fast:>12.2} {:>7.2} {:>7.2}", fast / slow, size.bar);
}

/// One call of wimtaze_receive, at 1,023 rows and in the middle.
fn once() {
    let (sheet, mut out) = (typed(1023), Lent::new());
    assert_eq!(library(&sheet, &received(&sheet, 1023, true), &mut out) & 3, 0);
}

fn main() {
    if std::env::args().nth(1).as_deref() == Some("once") {
        return once();
    }
    println!("\n{:<44} {:>12} {:>12} {:>7} {:>7}", "microseconds of a call", "with a table", "library", "ratio", "bar");
    for size in &SIZES {
        cases(size.rows).iter().for_each(|case| row(case, size));
    }
}
