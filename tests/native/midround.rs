//! Document 02, Req 13: sixteen laptops in the middle of a round, over the static library. Each types, erases, restores,
//! pastes, receives some of what the others sent in any order, saves, loads and begins anew from a heap; some lines are
//! made up by nobody's program. At every hundredth step every two sheets are compared: where no identifier stands for
//! different inserts on the two, among rows held, the rows that both hold stand in the same order on both, and so do
//! those that both show in their texts. Pairs where an identifier does stand for two inserts are counted, and among
//! them those where the order differs: the premise is needed.

#[allow(dead_code)]
mod library;

use library::{
    wimtaze_build, wimtaze_empty, wimtaze_erase, wimtaze_load, wimtaze_paste, wimtaze_receive, wimtaze_restore,
    wimtaze_text, wimtaze_type,
};
use std::collections::HashMap;

const LAPTOPS: usize = 16;
const ROUNDS: u64 = 24;
const STEPS: usize = 3_000;
const BETWEEN: usize = 100;
const SHEET_MAX: usize = 51_212;
const LINES_MAX: usize = 37_888;
const TEXT_MAX: usize = 4_096;

/// SplitMix64.
struct Random(u64);

impl Random {
    fn next(&mut self) -> u64 {
        self.0 = self.0.wrapping_add(0x9e37_79b9_7f4a_7c15);
        let a = (self.0 ^ self.0 >> 30).wrapping_mul(0xbf58_476d_1ce4_e5b9);
        let b = (a ^ a >> 27).wrapping_mul(0x94d0_49bb_1331_11eb);
        b ^ b >> 31
    }

    fn below(&mut self, n: usize) -> usize {
        (self.next() % n as u64) as usize
    }
}

// ---- calls

/// What a call returned: its word, the first output's length and the second's.
struct Reply {
    word: u64,
    written: usize,
    line: usize,
}

fn reply(number: u64) -> Reply {
    Reply { word: number & 3, written: (number >> 32 & 0xffff) as usize, line: (number >> 48) as usize }
}

/// The sheet as a call left it, where it is done or waits, and the lines that it sends.
fn after(sheet: &mut Vec<u8>, number: u64, out: &[u8], lines: &[u8], sent: &mut Vec<Vec<u8>>) {
    let reply = reply(number);
    if reply.word > 1 || reply.written == 0 {
        return;
    }
    *sheet = out[..reply.written].to_vec();
    sent.extend(lines[..reply.line].split_inclusive(|&b| b == b'\n').map(<[u8]>::to_vec));
}

struct Laptop {
    number: u64,
    sheet: Vec<u8>,
}

impl Laptop {
    fn begin(number: u64) -> Laptop {
        let mut out = vec![0; SHEET_MAX];
        let told = reply(unsafe { wimtaze_empty(number, out.as_mut_ptr(), out.len()) });
        assert_eq!(told.word, 0);
        out.truncate(told.written);
        Laptop { number, sheet: out }
    }

    fn receive(&mut self, line: &[u8]) {
        let mut out = vec![0; SHEET_MAX];
        let (sheet, length) = (self.sheet.as_ptr(), self.sheet.len());
        let told =
            unsafe { wimtaze_receive(sheet, length, line.as_ptr(), line.len(), out.as_mut_ptr(), out.len()) };
        after(&mut self.sheet, told, &out, &[], &mut Vec::new());
    }

    /// Types, erases, restores or pastes somewhere.
    fn edit(&mut self, chance: &mut Random, sent: &mut Vec<Vec<u8>>) {
        let (mut out, mut lines) = (vec![0; SHEET_MAX], vec![0; LINES_MAX]);
        let (sheet, length) = (self.sheet.as_ptr(), self.sheet.len());
        let rows = rows_of(&self.sheet);
        let shown = rows.iter().filter(|row| row.turn % 2 == 0).count();
        let gap = chance.below(shown + 1) as u64;
        let (to, size, lent, most) = (out.as_mut_ptr(), out.len(), lines.as_mut_ptr(), lines.len());
        let told = match chance.below(8) {
            0 | 1 if shown > 0 => {
                let place = 1 + chance.below(shown) as u64;
                unsafe { wimtaze_erase(sheet, length, place, to, size, lent, most) }
            }
            2 if !rows.is_empty() => {
                let id = rows[chance.below(rows.len())].id;
                unsafe { wimtaze_restore(sheet, length, id.0, id.1, to, size, lent, most) }
            }
            3 => {
                let block = &"Bye: Novák.".as_bytes()[..chance.below(4)];
                unsafe { wimtaze_paste(sheet, length, gap, block.as_ptr(), block.len(), to, size, lent, most) }
            }
            _ => unsafe { wimtaze_type(sheet, length, gap, 97 + chance.below(26) as u32, to, size, lent, most) },
        };
        after(&mut self.sheet, told, &out, &lines, sent);
    }

    /// Saves and loads for use, or begins anew with what can be built of all that was ever sent.
    fn restart(&mut self, chance: &mut Random, sent: &[Vec<u8>]) {
        let mut out = vec![0; SHEET_MAX];
        let told = if chance.below(2) == 0 {
            unsafe { wimtaze_load(self.sheet.as_ptr(), self.sheet.len(), out.as_mut_ptr(), out.len()) }
        } else {
            let some = sent.iter().filter(|_| chance.below(2) == 0).flatten().copied();
            let heap: Vec<u8> = some.collect();
            unsafe { wimtaze_build(self.number, heap.as_ptr(), heap.len(), out.as_mut_ptr(), out.len()) }
        };
        after(&mut self.sheet, told, &out, &[], &mut Vec::new());
    }

    fn text(&self) -> String {
        let mut out = vec![0; TEXT_MAX];
        let told = reply(unsafe {
            wimtaze_text(self.sheet.as_ptr(), self.sheet.len(), out.as_mut_ptr(), out.len())
        });
        assert_eq!(told.word, 0);
        out.truncate(told.written);
        String::from_utf8(out).unwrap()
    }
}

/// A line of nobody's program: an identifier that somebody may have used, between two rows of a sheet.
fn made_up(rows: &[Row], chance: &mut Random) -> Vec<u8> {
    let at = chance.below(rows.len() + 1);
    let below = at + chance.below(rows.len() + 1 - at);
    let previous = if at == 0 { (0, 0) } else { rows[at - 1].id };
    let next = if below == rows.len() { (0, 1) } else { rows[below].id };
    let (laptop, clock) = (1 + chance.below(LAPTOPS), 1 + chance.below(12));
    let letter = 65 + chance.below(26);
    let numbers = [laptop as u64, clock as u64, letter as u64, previous.0, previous.1, next.0, next.1];
    let fields: Vec<String> = numbers.iter().map(u64::to_string).collect();
    format!("I\t{}\n", fields.join("\t")).into_bytes()
}

// ---- sheets

#[derive(Clone, PartialEq)]
struct Row {
    id: (u64, u64),
    code_point: u64,
    turn: u64,
    between: [u64; 4],
}

/// The rows of a saved sheet, from the top.
fn rows_of(sheet: &[u8]) -> Vec<Row> {
    let text = std::str::from_utf8(sheet).unwrap();
    let rows = text.lines().filter_map(|line| line.strip_prefix("C\t"));
    rows.map(|line| {
        let numbers: Vec<u64> = line.split('\t').map(|n| n.parse().unwrap()).collect();
        Row {
            id: (numbers[0], numbers[1]),
            code_point: numbers[2],
            turn: numbers[3],
            between: [numbers[4], numbers[5], numbers[6], numbers[7]],
        }
    })
    .collect()
}

/// Of the rows that both hold the identifiers, as they stand on the first; and the letters of those that both show.
fn common(rows: &[Row], other: &HashMap<(u64, u64), Row>) -> (Vec<(u64, u64)>, Vec<(u64, u64)>) {
    let held: Vec<&Row> = rows.iter().filter(|row| other.contains_key(&row.id)).collect();
    let shown = held.iter().filter(|row| row.turn % 2 == 0 && other[&row.id].turn % 2 == 0);
    (held.iter().map(|row| row.id).collect(), shown.map(|row| row.id).collect())
}

fn by_identifier(rows: &[Row]) -> HashMap<(u64, u64), Row> {
    rows.iter().map(|row| (row.id, row.clone())).collect()
}

/// Whether no identifier stands for different inserts on the two, among rows held.
fn one_meaning(rows: &[Row], other: &HashMap<(u64, u64), Row>) -> bool {
    rows.iter().all(|row| {
        other.get(&row.id).map_or(true, |twin| twin.code_point == row.code_point && twin.between == row.between)
    })
}

#[derive(Default)]
struct Counted {
    alike: u64,
    with_common: u64,
    lacking: u64,
    two_meanings: u64,
    order_differs: u64,
}

/// Compares every two sheets.
fn compare(laptops: &[Laptop], counted: &mut Counted) {
    let sheets: Vec<Vec<Row>> = laptops.iter().map(|laptop| rows_of(&laptop.sheet)).collect();
    let tables: Vec<_> = sheets.iter().map(|rows| by_identifier(rows)).collect();
    for (laptop, rows) in laptops.iter().zip(&sheets) {
        let shown = rows.iter().filter(|row| row.turn % 2 == 0);
        let letters: String = shown.map(|row| char::from_u32(row.code_point as u32).unwrap()).collect();
        assert_eq!(laptop.text(), letters, "the text of laptop {}", laptop.number);
    }
    for i in 0..laptops.len() {
        for j in i + 1..laptops.len() {
            let (here, shown_here) = common(&sheets[i], &tables[j]);
            let (there, shown_there) = common(&sheets[j], &tables[i]);
            if !one_meaning(&sheets[i], &tables[j]) {
                counted.two_meanings += 1;
                counted.order_differs += u64::from(here != there);
                continue;
            }
            assert_eq!(here, there, "rows of laptops {} and {}", i + 1, j + 1);
            assert_eq!(shown_here, shown_there, "texts of laptops {} and {}", i + 1, j + 1);
            counted.alike += 1;
            counted.with_common += u64::from(here.len() > 1);
            counted.lacking += u64::from(here.len() < sheets[i].len() && here.len() < sheets[j].len());
        }
    }
}

/// One round; in a hostile one some lines are made up.
fn round(seed: u64, hostile: bool, counted: &mut Counted) {
    let mut chance = Random(seed);
    let mut laptops: Vec<Laptop> = (1..=LAPTOPS as u64).map(Laptop::begin).collect();
    let mut sent: Vec<Vec<u8>> = Vec::new();
    for step in 1..=STEPS {
        let at = chance.below(LAPTOPS);
        match chance.below(20) {
            0 if hostile => {
                let line = made_up(&rows_of(&laptops[at].sheet), &mut chance);
                laptops[at].receive(&line);
                sent.push(line);
            }
            1 if chance.below(10) == 0 => laptops[at].restart(&mut chance, &sent),
            2..=5 => laptops[at].edit(&mut chance, &mut sent),
            _ if !sent.is_empty() => {
                let recent = sent.len().min(40);
                let line = sent[sent.len() - 1 - chance.below(recent)].clone();
                laptops[at].receive(&line);
            }
            _ => {}
        }
        if step % BETWEEN == 0 {
            compare(&laptops, counted);
        }
    }
}

fn main() {
    let mut counted = Counted::default();
    for seed in 0..ROUNDS {
        round(seed, seed % 2 == 1, &mut counted);
    }
    println!(
        "{} pairs of sheets agree: {} have two rows or more in common, {} each lack rows of the other; \
         {} pairs with an identifier for two inserts, of which {} stand in another order",
        counted.alike, counted.with_common, counted.lacking, counted.two_meanings, counted.order_differs
    );
    let least = ROUNDS * (STEPS / BETWEEN) as u64;
    assert!(counted.with_common > least && counted.lacking > least && counted.two_meanings > least);
    assert!(counted.order_differs > 0);
}
