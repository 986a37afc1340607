//! The C calls of the static library against the plain reference, call by call: random histories of up to sixteen
//! laptops with lines lost, repeated and reordered, made-up sheets and such as other programs write, heaps of lines,
//! lists and answers, archives, damaged lines, sheets, heaps, lists, archives and blocks of text, outputs of every
//! length.
//! A call passes if the returned number and every byte of its inputs and outputs, and of the guards around them, are
//! what the reference says.
//!
//! Without arguments the seeds are fixed and every reply must be met. With SECONDS and SEED it goes on for so long from
//! that seed, and stops at the first seed where there is a difference; the same seed finds it again at once.

mod library;
#[allow(dead_code)]
mod reference;

use library::{
    wimtaze_answer, wimtaze_archive, wimtaze_build, wimtaze_counts, wimtaze_downgrade, wimtaze_empty, wimtaze_erase,
    wimtaze_list, wimtaze_load, wimtaze_moved, wimtaze_paste, wimtaze_receive, wimtaze_receive_at, wimtaze_restore,
    wimtaze_text, wimtaze_type, wimtaze_unarchive, wimtaze_upgrade,
};
use reference::{Form, Operation, Outcome, Reply};
use std::collections::BTreeMap;
use std::time::{Duration, Instant};

const SMALL_CALLS: u64 = 400_000;
const LARGE_SHEETS: u64 = 200;
const GUARD: usize = 16;
const BETWEEN_LINES: Duration = Duration::from_secs(5);

// ---- chance

/// SplitMix64.
struct Random(u64);

impl Random {
    fn next(&mut self) -> u64 {
        self.0 = self.0.wrapping_add(0x9e37_79b9_7f4a_7c15);
        let a = (self.0 ^ self.0 >> 30).wrapping_mul(0xbf58_476d_1ce4_e5b9);
        let b = (a ^ a >> 27).wrapping_mul(0x94d0_49bb_1331_11eb);
        b ^ b >> 31
    }

    fn below(&mut self, n: usize) -> usize {
        (self.next() % n as u64) as usize
    }

    fn one_in(&mut self, n: usize) -> bool {
        self.below(n) == 0
    }

    fn pick<T: Copy>(&mut self, from: &[T]) -> T {
        from[self.below(from.len())]
    }

    fn noise(&mut self, n: usize) -> Vec<u8> {
        let mut bytes: Vec<u8> = (0..n.div_ceil(8)).flat_map(|_| self.next().to_le_bytes()).collect();
        bytes.truncate(n);
        bytes
    }
}

// ---- one call

enum Call<'a> {
    Empty(u64),
    Receive(&'a [u8], &'a [u8]),
    ReceiveAt(&'a [u8], &'a [u8], u64),
    Type(&'a [u8], u64, u32),
    Erase(&'a [u8], u64),
    Restore(&'a [u8], u64, u64),
    Paste(&'a [u8], u64, &'a [u8]),
    Build(u64, &'a [u8]),
    Load(&'a [u8]),
    List(&'a [u8]),
    Answer(&'a [u8], &'a [u8]),
    Text(&'a [u8]),
    Counts(&'a [u8]),
    Upgrade(&'a [u8]),
    Downgrade(&'a [u8]),
    Archive(&'a [u8]),
    Unarchive(&'a [u8]),
}

impl Call<'_> {
    fn name(&self) -> &'static str {
        match self {
            Call::Empty(..) => "empty",
            Call::Receive(..) => "receive",
            Call::ReceiveAt(..) => "receive_at",
            Call::Type(..) => "type",
            Call::Erase(..) => "erase",
            Call::Restore(..) => "restore",
            Call::Paste(..) => "paste",
            Call::Build(..) => "build",
            Call::Load(..) => "load",
            Call::List(..) => "list",
            Call::Answer(..) => "answer",
            Call::Text(..) => "text",
            Call::Counts(..) => "counts",
            Call::Upgrade(..) => "upgrade",
            Call::Downgrade(..) => "downgrade",
            Call::Archive(..) => "archive",
            Call::Unarchive(..) => "unarchive",
        }
    }

    /// The sheet, the heap or the archive, and the line, the block or the list, that are handed over.
    fn inputs(&self) -> (&[u8], &[u8]) {
        match self {
            Call::Empty(_) => (&[], &[]),
            Call::Receive(sheet, line) | Call::ReceiveAt(sheet, line, _) => (sheet, line),
            Call::Paste(sheet, _, block) => (sheet, block),
            Call::Answer(sheet, list) => (sheet, list),
            Call::Type(sheet, ..) | Call::Erase(sheet, _) | Call::Restore(sheet, ..) => (sheet, &[]),
            Call::Load(sheet) | Call::List(sheet) | Call::Text(sheet) | Call::Counts(sheet) => (sheet, &[]),
            Call::Upgrade(sheet) | Call::Downgrade(sheet) | Call::Archive(sheet) => (sheet, &[]),
            Call::Build(_, heap) => (heap, &[]),
            Call::Unarchive(archive) => (archive, &[]),
        }
    }

    fn expected(&self) -> Outcome {
        match *self {
            Call::Empty(number) => reference::empty_call(number),
            Call::Receive(sheet, line) => reference::receive_call(sheet, line),
            Call::ReceiveAt(sheet, line, gap) => reference::receive_at_call(sheet, line, gap),
            Call::Type(sheet, gap, code) => reference::type_call(sheet, gap, code),
            Call::Erase(sheet, place) => reference::erase_call(sheet, place),
            Call::Restore(sheet, laptop, clock) => reference::restore_call(sheet, laptop, clock),
            Call::Paste(sheet, gap, block) => reference::paste_call(sheet, gap, block),
            Call::Build(number, heap) => reference::build_call(number, heap),
            Call::Load(sheet) => reference::load_call(sheet),
            Call::List(sheet) => reference::list_call(sheet),
            Call::Answer(sheet, list) => reference::answer_call(sheet, list),
            Call::Text(sheet) => reference::text_call(sheet),
            Call::Counts(sheet) => reference::counts_call(sheet),
            Call::Upgrade(old) => reference::upgrade_call(old),
            Call::Downgrade(sheet) => reference::downgrade_call(sheet),
            Call::Archive(sheet) => reference::archive_call(sheet),
            Call::Unarchive(archive) => reference::unarchive_call(archive),
        }
    }

    fn made(&self, sheet: &mut Lent, line: &mut Lent, first: &mut Lent, second: &mut Lent) -> u64 {
        let ((s, s_len), (l, l_len)) = (sheet.lend(), line.lend());
        let ((f, f_len), (o, o_len)) = (first.lend(), second.lend());
        // Each pointer and length is a part of its own vector.
        unsafe {
            match *self {
                Call::Empty(number) => wimtaze_empty(number, f, f_len),
                Call::Receive(..) => wimtaze_receive(s, s_len, l, l_len, f, f_len),
                Call::ReceiveAt(_, _, gap) => wimtaze_receive_at(s, s_len, l, l_len, gap, f, f_len),
                Call::Type(_, gap, code) => wimtaze_type(s, s_len, gap, code, f, f_len, o, o_len),
                Call::Erase(_, place) => wimtaze_erase(s, s_len, place, f, f_len, o, o_len),
                Call::Restore(_, laptop, clock) => wimtaze_restore(s, s_len, laptop, clock, f, f_len, o, o_len),
                Call::Paste(_, gap, _) => wimtaze_paste(s, s_len, gap, l, l_len, f, f_len, o, o_len),
                Call::Build(number, _) => wimtaze_build(number, s, s_len, f, f_len),
                Call::Load(_) => wimtaze_load(s, s_len, f, f_len),
                Call::List(_) => wimtaze_list(s, s_len, f, f_len),
                Call::Answer(..) => wimtaze_answer(s, s_len, l, l_len, f, f_len),
                Call::Text(_) => wimtaze_text(s, s_len, f, f_len),
                Call::Counts(_) => wimtaze_counts(s, s_len),
                Call::Upgrade(_) => wimtaze_upgrade(s, s_len, f, f_len),
                Call::Downgrade(_) => wimtaze_downgrade(s, s_len, f, f_len),
                Call::Archive(_) => wimtaze_archive(s, s_len, f, f_len),
                Call::Unarchive(_) => wimtaze_unarchive(s, s_len, f, f_len),
            }
        }
    }
}

/// Bytes that the library is lent, between guards.
#[derive(Clone, PartialEq, Eq)]
struct Lent(Vec<u8>);

impl Lent {
    fn noise(random: &mut Random, room: usize) -> Lent {
        Lent(random.noise(room + 2 * GUARD))
    }

    /// The same, with these bytes at the front of the lent part.
    fn with(&self, bytes: &[u8]) -> Lent {
        let mut all = self.0.clone();
        all[GUARD..GUARD + bytes.len()].copy_from_slice(bytes);
        Lent(all)
    }

    fn holding(random: &mut Random, bytes: &[u8]) -> Lent {
        Lent::noise(random, bytes.len()).with(bytes)
    }

    fn lend(&mut self) -> (*mut u8, usize) {
        let room = self.0.len() - 2 * GUARD;
        (self.0[GUARD..].as_mut_ptr(), room)
    }
}

// ---- made-up bytes

const NUMBERS: [&str; 36] = [
    "0", "1", "2", "3", "4", "5", "15", "16", "17", "127", "128", "253", "254", "255", "256", "257", "2047", "2048",
    "55295", "55296", "57343", "57344", "65534", "65535", "65536", "65537", "1114111", "1114112", "4294967295",
    "4294967296", "4294967297", "18446744073709551615", "18446744073709551616", "18446744073709551617",
    "340282366920938463463374607431768211457", "9999999999999999999999999999999999999999",
];
const MALFORMED: [&str; 8] = ["", "00", "01", "-1", "+1", " 1", "1\t", "a"];
const LETTERS: &[u8] = b"IDECSHKPidecshkp0123456789\t\t\n\n\r .-";
const CODE_POINTS: [u32; 23] = [
    0, 8, 9, 10, 11, 13, 31, 32, 126, 127, 128, 159, 2047, 2048, 55_295, 57_344, 65_533, 65_535, 65_536, 1_114_111, 97,
    0x265e, 0xfeff,
];
const NO_CODE_POINTS: [u32; 5] = [55_296, 57_343, 1_114_112, 65_536 * 65_535, u32::MAX];

/// What UTF-8 never has, or only with more bytes behind it: longer forms than needed, the first and the last of each
/// length; surrogates; above U+10FFFF; bytes that begin nothing; cut characters; another byte in the middle of one.
const NO_UTF8: [&[u8]; 36] = [
    b"\xc0\x80", b"\xc1\xbf", b"\xe0\x80\x80", b"\xe0\x9f\xbf", b"\xf0\x80\x80\x80", b"\xf0\x8f\xbf\xbf",
    b"\xed\xa0\x80", b"\xed\xbf\xbf", b"\xed\xa1\x8c\xed\xbe\xb4", b"\xf4\x90\x80\x80", b"\xf5\x80\x80\x80",
    b"\xf7\xbf\xbf\xbf", b"\xf8\x88\x80\x80\x80", b"\xfc\x84\x80\x80\x80\x80", b"\xfe", b"\xff", b"\x80", b"\xbf",
    b"\xc2", b"\xdf", b"\xe0", b"\xe0\xa0", b"\xe2\x82", b"\xed\x9f", b"\xef\xbf", b"\xf0", b"\xf0\x90",
    b"\xf0\x9f\x98", b"\xf4\x8f", b"\xf4\x8f\xbf", b"\xc2\xc2\x80", b"\xc3a", b"\xe2a\xac", b"\xe2\x82\xc0",
    b"\xf0\x9f\x98a", b"\xf0\x90\x7f\x80",
];

/// How far a made-up row's neighbours may be from it; at 0 they are the marks.
const REACHES: [usize; 4] = [0, 1, 2, 1024];

type Id = (usize, usize);
const BEGIN: Id = (0, 0);
const END: Id = (0, 1);

/// Rows, each with its neighbours. The first character of a block at the top goes below 1/1, and the second below 1/2,
/// where it meets 9.
const SHUT_BEHIND: [(Id, Id, Id); 6] = [
    ((1, 1), BEGIN, END),
    ((9, 1), (1, 1), (9, 2)),
    ((1, 2), (1, 1), END),
    ((2, 1), (1, 2), (2, 2)),
    ((2, 2), (2, 1), (9, 2)),
    ((9, 2), BEGIN, END),
];

/// So many rows, each between the one above and the one below: what is typed between the marks meets 9.
fn chained(count: usize) -> Vec<(Id, Id, Id)> {
    let end = |k| if k == 0 { BEGIN } else if k > count { END } else { (1, k) };
    (1..=count).map(|k| ((1, k), end(k - 1), end(k + 1))).collect()
}

/// The last four fields of an insert's line or a row's.
fn ends(previous: Id, next: Id) -> String {
    format!("{}\t{}\t{}\t{}", previous.0, previous.1, next.0, next.1)
}

/// Which identifiers made-up operations speak of: few, so that they meet.
#[derive(Clone, Copy)]
struct Universe {
    laptops: usize,
    clocks: usize,
}

impl Random {
    fn code_point(&mut self) -> u32 {
        match self.below(40) {
            0 => self.pick(&NO_CODE_POINTS),
            1..=9 => self.pick(&CODE_POINTS),
            _ => 97 + self.below(26) as u32,
        }
    }

    /// A block of text in UTF-8: a few characters or none, now and then more.
    fn block(&mut self) -> Vec<u8> {
        let most = self.pick(&[1, 3, 3, 6, 6, 12, 40]);
        let codes = (0..self.below(most + 1)).map(|_| self.code_point());
        codes.filter_map(char::from_u32).collect::<String>().into_bytes()
    }

    /// The same with something in it that is mostly no UTF-8, or what is left of it, or any bytes.
    fn malformed_block(&mut self) -> Vec<u8> {
        let mut block = self.block();
        let at = self.below(block.len() + 1);
        match self.below(6) {
            0 => block.truncate(at),
            1 if at < block.len() => block[at] = self.next() as u8,
            2 => {
                let length = self.below(8);
                block = self.noise(length);
            }
            _ => drop(block.splice(at..at, self.pick(&NO_UTF8).iter().copied())),
        }
        block
    }

    fn id(&mut self, of: Universe) -> Id {
        (1 + self.below(of.laptops), 1 + self.below(of.clocks))
    }

    /// The turn of a made-up line: mostly a small one, so that several of one row meet.
    fn turn(&mut self) -> usize {
        match self.below(40) {
            0 => self.pick(&[0, 256]),
            1..=5 => self.pick(&[127, 253, 254, 255]),
            _ => 1 + self.below(4),
        }
    }

    /// The turn of a made-up row, hidden once in so many times.
    fn row_turn(&mut self, hidden: usize) -> usize {
        let turns = if self.one_in(hidden) { [1, 1, 1, 3, 253, 255] } else { [0, 0, 0, 0, 2, 254] };
        self.pick(&turns)
    }

    /// A made-up operation line whose numbers are mostly in range.
    fn line(&mut self, of: Universe) -> Vec<u8> {
        let (laptop, clock) = self.id(of);
        let sender = 1 + self.below(of.laptops);
        match self.below(12) {
            0 => return format!("D\t{sender}\t{laptop}\t{clock}\n").into_bytes(),
            1..=3 => return format!("E\t{sender}\t{laptop}\t{clock}\t{}\n", self.turn()).into_bytes(),
            _ => {}
        }
        let previous = if self.one_in(4) { BEGIN } else { self.id(of) };
        let next = if self.one_in(4) { END } else { self.id(of) };
        format!("I\t{laptop}\t{clock}\t{}\t{}\n", 97 + self.below(3), ends(previous, next)).into_bytes()
    }

    /// Rows with each previous above and each next below, and then some waiting operations: mostly in form.
    fn sheet(&mut self, of: Universe, rows: usize, waiting: usize) -> Vec<u8> {
        let clock = match self.below(4) {
            0 => self.pick(&[0, 65_534, 65_535]),
            1 => 30_000 + self.below(10_000),
            _ => self.below(of.clocks + 1),
        };
        let mut sheet = format!("S2\t{}\t{clock}\n", 1 + self.below(of.laptops)).into_bytes();
        let mut ids: Vec<Id> = (1..=of.laptops).flat_map(|l| (1..=of.clocks).map(move |c| (l, c))).collect();
        self.shuffle(&mut ids);
        ids.truncate(rows);
        if self.one_in(2) {
            ids.sort();
        }
        let (up, down, hidden) = (self.pick(&REACHES), self.pick(&REACHES), 2 + self.below(6));
        let beyond = if self.one_in(60) { self.below(rows + 1) } else { rows };
        for (k, id) in ids.iter().enumerate() {
            let up = self.below(up.min(k) + 1);
            let down = self.below(down.min(ids.len() - 1 - k) + 1);
            let previous = if up == 0 { BEGIN } else { ids[k - up] };
            let next = if down == 0 { END } else { ids[k + down] };
            let (code, turn) = (self.pick(&CODE_POINTS), if k == beyond { 256 } else { self.row_turn(hidden) });
            let ends = ends(previous, next);
            sheet.extend(format!("C\t{}\t{}\t{code}\t{turn}\t{ends}\n", id.0, id.1).into_bytes());
        }
        for _ in 0..waiting {
            let line = self.line(of);
            self.add_waiting(&mut sheet, line);
        }
        sheet
    }

    /// Hidden rows that name each other, so that what is typed meets 9, or the second character of a block does; now
    /// and then as many rows as a sheet has.
    fn shut(&mut self) -> Vec<u8> {
        let clock = self.pick(&[0, 0, 65_533, 65_534, 65_535]);
        let mut sheet = format!("S2\t5\t{clock}\n");
        let rows = match self.below(16) {
            0 => chained(1024),
            1..=7 => chained(2),
            _ => SHUT_BEHIND.to_vec(),
        };
        for (id, previous, next) in rows {
            sheet += &format!("C\t{}\t{}\t97\t{}\t{}\n", id.0, id.1, self.row_turn(1), ends(previous, next));
        }
        sheet.into_bytes()
    }

    /// A sheet as another program may write it: rows change places, or take other neighbours that stand above and below
    /// them, or two become each other's neighbours. Mostly it is in form still.
    fn foreign(&mut self, sheet: &[u8]) -> Vec<u8> {
        let mut rows = rows(sheet);
        rows.retain(|row| row.len() == 8);
        for _ in 0..if rows.len() < 2 { 0 } else { 1 + self.below(3) } {
            let (k, last) = (self.below(rows.len()), rows.len() - 1);
            let next = (k + 1).min(last);
            match self.below(5) {
                0 => rows.swap(k, next),
                1 => {
                    let other = self.below(rows.len());
                    rows.swap(k, other);
                }
                2 | 3 => {
                    let (up, down) = (self.below(k + 1), self.below(last - k + 1));
                    let previous = if up == 0 { [0, 0] } else { [rows[k - up][0], rows[k - up][1]] };
                    let next = if down == 0 { [0, 1] } else { [rows[k + down][0], rows[k + down][1]] };
                    rows[k].splice(4.., previous.into_iter().chain(next));
                }
                _ if k < next => {
                    let ids = [rows[k][0], rows[k][1], rows[next][0], rows[next][1]];
                    rows[k][6..].copy_from_slice(&ids[2..]);
                    rows[next][4..6].copy_from_slice(&ids[..2]);
                }
                _ => {}
            }
        }
        let fields = |row: &Vec<u64>| row.iter().map(|n| format!("\t{n}")).collect::<String>();
        let rows: String = rows.iter().map(|row| format!("C{}\n", fields(row))).collect();
        let mut others = lines_of(sheet).filter(|line| !line.starts_with(b"C"));
        let head = others.next().unwrap_or_default();
        [head, rows.as_bytes(), &others.collect::<Vec<_>>().concat()].concat()
    }

    /// Adds the line if the sheet stays in form, and now and then if it does not.
    fn add_waiting(&mut self, sheet: &mut Vec<u8>, line: Vec<u8>) {
        let length = sheet.len();
        sheet.extend(line);
        if reference::read_sheet(sheet).is_err() && !self.one_in(200) {
            sheet.truncate(length);
        }
    }

    /// Adds operations that wait for 6/1 to 6/last, or for each other, beside the rows of the sheet.
    fn add_awaiting(&mut self, sheet: &mut Vec<u8>, rows: &[Id], last: usize, count: usize) {
        for k in 1..=count {
            let needed = if self.one_in(3) { (7, 1 + self.below(count)) } else { (6, 1 + self.below(last)) };
            let other = if self.one_in(4) || rows.is_empty() { needed } else { self.pick(rows) };
            let line = match self.below(5) {
                0 => format!("E\t{}\t{}\t{}\t{}\n", 1 + self.below(16), needed.0, needed.1, self.turn()),
                1 => format!("I\t7\t{k}\t97\t{}\n", ends(BEGIN, needed)),
                2 => format!("I\t7\t{k}\t97\t{}\n", ends(needed, END)),
                3 => format!("I\t7\t{k}\t97\t{}\n", ends(needed, other)),
                _ => format!("I\t7\t{k}\t97\t{}\n", ends(other, needed)),
            };
            self.add_waiting(sheet, line.into_bytes());
        }
    }

    /// Operations of one sender that wait for characters that are nowhere, and how many of them are inserts.
    fn crowd(&mut self, sender: usize, count: usize) -> (Vec<u8>, usize) {
        let (mut crowd, mut inserts) = (Vec::new(), 0);
        for k in 0..count {
            let line = if self.one_in(2) {
                inserts += 1;
                format!("I\t{sender}\t{}\t97\t{sender}\t60000\t0\t1\n", 30_000 + k)
            } else {
                format!("E\t{sender}\t16\t{}\t{}\n", 40_000 + k / 2, 1 + k % 2)
            };
            crowd.extend(line.into_bytes());
        }
        (crowd, inserts)
    }

    fn shuffle<T>(&mut self, all: &mut [T]) {
        for k in (1..all.len()).rev() {
            all.swap(k, self.below(k + 1));
        }
    }

    /// Made-up operation lines on few identifiers, mostly with one insert for each.
    fn heap_lines(&mut self) -> Vec<Vec<u8>> {
        let of = Universe { laptops: 1 + self.below(5), clocks: 2 + self.below(6) };
        let (twice, most) = (self.one_in(5), self.pick(&[3, 12, 30, 60]));
        let mut lines: Vec<Vec<u8>> = Vec::new();
        for _ in 0..self.below(most + 1) {
            let line = self.line(of);
            let id = |line: &[u8]| numbers(line, "I").pop().map(|ns| (ns[0], ns[1]));
            let again = id(&line).is_some() && lines.iter().any(|other| id(other) == id(&line));
            if twice || !again {
                lines.push(line);
            }
        }
        lines
    }

    /// So many inserts of a history: each between two that stand in this order, near each other, and mostly known by
    /// then; so some cross, since where each is placed is only guessed.
    fn history_lines(&mut self, count: usize, laptops: usize) -> Vec<Vec<u8>> {
        let (mut order, mut clocks): (Vec<Id>, Vec<usize>) = (vec![BEGIN, END], vec![0; laptops + 1]);
        let (reach, spread) = (self.pick(&[1, 1, 1, 2, 8]), self.pick(&[1, 8, 1024]));
        let mut lines = Vec::new();
        for _ in 0..count {
            let laptop = 1 + self.below(laptops);
            clocks[laptop] += 1;
            let top = order.len() - 1;
            let at = if self.one_in(2) { top.saturating_sub(1 + self.below(spread)) } else { self.below(top) };
            let below = (at + 1 + self.below(reach)).min(top);
            let id = (laptop, clocks[laptop]);
            let code = self.pick(&CODE_POINTS);
            lines.push(format!("I\t{}\t{}\t{code}\t{}\n", id.0, id.1, ends(order[at], order[below])).into_bytes());
            order.insert(at + 1 + self.below(below - at), id);
        }
        lines
    }

    /// Erase and restore lines of the characters of these lines, and now and then of another.
    fn turn_lines(&mut self, inserts: &[Vec<u8>], count: usize) -> Vec<Vec<u8>> {
        let turn = |random: &mut Random| {
            let line = if inserts.is_empty() { None } else { Some(&inserts[random.below(inserts.len())]) };
            let named = line.and_then(|line| numbers(line, "I").pop()).filter(|_| !random.one_in(12));
            let (laptop, clock) = named.map_or((16, 60_000 + random.below(3) as u64), |ns| (ns[0], ns[1]));
            let (sender, turn) = (1 + random.below(16), random.pick(&[1, 1, 1, 2, 2, 3, 4, 254, 255]));
            match turn {
                1 if random.one_in(2) => format!("D\t{sender}\t{laptop}\t{clock}\n").into_bytes(),
                _ => format!("E\t{sender}\t{laptop}\t{clock}\t{turn}\n").into_bytes(),
            }
        };
        (0..count).map(|_| turn(self)).collect()
    }

    /// The lines as they come: some lost, some repeated, an `E` line of turn 1 as a `D` line, in any order; now and
    /// then damaged.
    fn heap(&mut self, lines: &[Vec<u8>]) -> Vec<u8> {
        let (lost, again) = (self.pick(&[4, 20, 10_000]), self.pick(&[3, 20, 10_000]));
        let mut heap = Vec::new();
        for line in lines {
            if self.one_in(lost) {
                continue;
            }
            heap.push(line.clone());
            while self.one_in(again) {
                let mut repeat = line.clone();
                if let Some([sender, laptop, clock, 1]) = numbers(line, "E").pop().as_deref() {
                    repeat = format!("D\t{sender}\t{laptop}\t{clock}\n").into_bytes();
                }
                heap.push(repeat);
            }
        }
        match self.below(6) {
            0 => {}
            1 => heap.reverse(),
            _ => self.shuffle(&mut heap),
        }
        let heap = heap.concat();
        if self.one_in(10) { self.damaged(&heap) } else { heap }
    }

    /// A list of some of a sheet's rows and of a few others, or what is nearly one.
    fn list(&mut self, sheet: &[u8], of: Universe) -> Vec<u8> {
        let (missing, others) = (self.pick(&[1, 2, 3, 8, 10_000]), self.pick(&[0, 0, 1, 6]));
        let mut ids: Vec<(u64, u64)> = rows(sheet).iter().map(|row| (row[0], row[1])).collect();
        ids.retain(|_| !self.one_in(missing));
        ids.extend((0..others).map(|_| self.id(of)).map(|(laptop, clock)| (laptop as u64, clock as u64)));
        if self.one_in(24) {
            ids.push((1 + self.below(of.laptops) as u64, 0));
        }
        ids.sort();
        ids.dedup();
        let own = numbers(sheet, "S2").pop().filter(|_| self.one_in(4));
        let laptop = own.map_or(1 + self.below(16) as u64, |head| head[0]);
        let mut words = if self.one_in(60) { self.full_words() } else { words_of(&ids) };
        let mut total = ones(&words).min(1024);
        match self.below(24) {
            0 => {
                let (above, below) = (total + 1, total.saturating_sub(1));
                total = self.pick(&[above, below, 0, 1024, 1025, total + 65_536, total + (1 << 32)]);
            }
            1..=4 => self.spoil(&mut words, &mut total),
            5 => {
                let list = list_of(laptop, total, &words);
                return self.damaged(&list);
            }
            _ => {}
        }
        list_of(laptop, total, &words)
    }

    /// Words at the limit of what can be listed and above it, all of them whole or with one clock each.
    fn full_words(&mut self) -> Vec<[u64; 3]> {
        let (count, whole) = self.pick(&[(15, true), (16, true), (17, true), (40, true), (1024, false), (1030, false)]);
        let place = |k: u64| (1 + k / 1023, 1 + k % 1023);
        let word = if whole { u64::MAX } else { 1 << self.below(64) };
        (0..count).map(place).map(|(laptop, index)| [laptop, index, word]).collect()
    }

    /// Words are repeated, parted in two or put in another order, with the total that they then have; or one of their
    /// numbers is out of its range, or just within it.
    fn spoil(&mut self, words: &mut Vec<[u64; 3]>, total: &mut u64) {
        if words.is_empty() {
            words.push([1, 1, 3]);
        }
        let (j, k) = (self.below(words.len()), self.below(words.len()));
        match self.below(7) {
            0 | 1 => words.insert(k, words[j]),
            2 => {
                let [laptop, index, word] = words[k];
                let low = word & word.wrapping_neg();
                words[k][2] = if word == low { word } else { word - low };
                words.insert(k, [laptop, index, low]);
            }
            3 | 4 => words.swap(j, k),
            5 => words[k][2] = self.pick(&[0, u64::MAX, 1 << 63]),
            _ => words[k][self.pick(&[0, 1])] = self.pick(&[0, 1, 16, 17, 256, 1023, 1024, 65_536, u64::MAX]),
        }
        *total = ones(words).min(1024);
    }

    /// The archive of a sheet, whatever its form, or what is nearly one: its rows are changed once or twice, there may
    /// be more of them than there are places, one may be a saved sheet's, the clock may be too low, and bytes damaged.
    fn archive(&mut self, sheet: &[u8]) -> Vec<u8> {
        let Ok(read) = reference::read_numbers(sheet, Form::Second) else { return self.damaged(sheet) };
        let whole = reference::archive_bytes(&read);
        let mut rows = numbers(&whole, "P");
        for _ in 0..self.pick(&[0, 0, 1, 1, 2]) {
            self.misarrange(&mut rows);
        }
        if rows.len() > 1000 && self.one_in(3) {
            for k in rows.len() as u64..1025 + self.pick(&[0, 0, 1, 500]) {
                rows.push(vec![1 + self.below(1024) as u64, 16, 60_000 + k, 97, 0, 0, 0, 0, 1]);
            }
            rows.iter_mut().for_each(|row| row[0] = row[0].min(1024));
        }
        let saved = if self.one_in(24) { self.below(rows.len() + 1) } else { rows.len() };
        let archive = archive_with(&whole, &rows, saved);
        match self.below(8) {
            0 => with_clock(&archive, self.below(usize::from(read.clock) + 1) as u64),
            1 => self.damaged(&archive),
            _ => archive,
        }
    }

    /// A place is changed, doubled or exchanged with another's; a row is lost, doubled or exchanged with another, or
    /// has another's identifier; an identifier comes again at a place of its own.
    fn misarrange(&mut self, rows: &mut Vec<Vec<u64>>) {
        if rows.is_empty() {
            return rows.push(vec![self.pick(&[0, 1, 2]), 1, 1, 97, 0, 0, 0, 0, 1]);
        }
        let (j, k, count) = (self.below(rows.len()), self.below(rows.len()), rows.len() as u64);
        let (one, other) = (rows[j].clone(), rows[k].clone());
        match self.below(10) {
            0 => rows[k][0] = self.pick(&[0, count + 1, 1024, 1025, other[0] + 65_536, other[0] + (1 << 32)]),
            1 => rows[k][0] = one[0],
            2..=4 => (rows[j][0], rows[k][0]) = (other[0], one[0]),
            5 => drop(rows.remove(k)),
            6 => rows.insert(k, one),
            7 => rows.swap(j, k),
            8 => rows[k][1..3].copy_from_slice(&one[1..3]),
            _ => rows.insert(k, [&[count + 1], &other[1..]].concat()),
        }
    }

    fn damaged(&mut self, bytes: &[u8]) -> Vec<u8> {
        let mut b = bytes.to_vec();
        let at = self.below(b.len().max(1)).min(b.len());
        match self.below(12) {
            0 if !b.is_empty() => b[at] = self.pick(LETTERS),
            1 if !b.is_empty() => b[at] = self.next() as u8,
            2 if !b.is_empty() => drop(b.remove(at)),
            3 => b.insert(at, self.pick(LETTERS)),
            4 => b.truncate(at),
            5 => b.push(self.pick(LETTERS)),
            6 => b.extend_from_slice(bytes),
            7 | 8 => b = self.with_lines_moved(bytes),
            _ => b = self.with_field_replaced(bytes),
        }
        b
    }

    fn with_field_replaced(&mut self, bytes: &[u8]) -> Vec<u8> {
        let mut parts: Vec<Vec<u8>> =
            bytes.split_inclusive(|b| *b == b'\t' || *b == b'\n').map(<[u8]>::to_vec).collect();
        if parts.is_empty() {
            return Vec::new();
        }
        let k = self.below(parts.len());
        let end = parts[k].pop().unwrap();
        let field = if self.one_in(6) { self.pick(&MALFORMED) } else { self.pick(&NUMBERS) };
        parts[k] = field.as_bytes().to_vec();
        parts[k].push(end);
        parts.concat()
    }

    /// A saved sheet, or some of its lines, as the first form had them.
    fn partly_in_first_form(&mut self, sheet: &[u8]) -> Vec<u8> {
        let (head, rows, waiting) = (!self.one_in(4), self.one_in(2), self.one_in(2));
        in_first_form(sheet, head, rows, waiting)
    }

    /// A sheet to take to the other form, or what is nearly one: of either form, or partly of each; its clock may be
    /// too low, and its lines damaged.
    fn for_other_form(&mut self, sheet: &[u8]) -> Vec<u8> {
        let mut whole = if self.one_in(2) { in_first_form(sheet, true, true, true) } else { with_low_turns(sheet) };
        if self.one_in(5) {
            let lower = self.below(clock(sheet).unwrap_or(0).min(65_535) as usize + 1);
            whole = with_clock(&whole, lower as u64);
        }
        match self.below(8) {
            0 => sheet.to_vec(),
            1 => self.partly_in_first_form(sheet),
            2 => self.damaged(&whole),
            3 => {
                let damaged = self.damaged(sheet);
                self.partly_in_first_form(&damaged)
            }
            _ => whole,
        }
    }

    fn with_lines_moved(&mut self, bytes: &[u8]) -> Vec<u8> {
        let mut lines: Vec<Vec<u8>> = bytes.split_inclusive(|b| *b == b'\n').map(<[u8]>::to_vec).collect();
        if lines.is_empty() {
            return Vec::new();
        }
        let (j, k) = (self.below(lines.len()), self.below(lines.len()));
        match self.below(4) {
            0 => lines.swap(j, k),
            1 => lines.insert(j, lines[k].clone()),
            2 => drop(lines.remove(j)),
            _ => lines.push(self.line(Universe { laptops: 3, clocks: 4 })),
        }
        lines.concat()
    }
}

/// A saved sheet with the fields of each of its lines changed, as far as it can be read.
fn with_fields(sheet: &[u8], change: impl Fn(&mut Vec<String>)) -> Vec<u8> {
    let mut lines = Vec::new();
    for line in String::from_utf8_lossy(sheet).lines() {
        let mut fields: Vec<String> = line.split('\t').map(str::to_string).collect();
        change(&mut fields);
        lines.push(fields.join("\t") + "\n");
    }
    lines.concat().into_bytes()
}

fn is_odd(field: &str) -> bool {
    field.ends_with(['1', '3', '5', '7', '9'])
}

/// A saved sheet with its first line, its rows or what waits on it as the first form had them.
fn in_first_form(sheet: &[u8], head: bool, rows: bool, waiting: bool) -> Vec<u8> {
    with_fields(sheet, |fields| match fields[0].as_str() {
        "S2" if head => fields[0] = "S".into(),
        "C" if rows && fields.len() == 9 => fields[4] = if is_odd(&fields[4]) { "0" } else { "1" }.into(),
        "E" if waiting && fields.len() == 5 => {
            fields[0] = "D".into();
            fields.pop();
        }
        _ => {}
    })
}

/// A saved sheet with no turn above 1 that shows the same.
fn with_low_turns(sheet: &[u8]) -> Vec<u8> {
    with_fields(sheet, |fields| match fields[0].as_str() {
        "C" if fields.len() == 9 => fields[4] = if is_odd(&fields[4]) { "1" } else { "0" }.into(),
        "E" if fields.len() == 5 => fields[4] = "1".into(),
        _ => {}
    })
}

/// The clock of a saved sheet of either form, in its first line.
fn clock(sheet: &[u8]) -> Option<u64> {
    String::from_utf8_lossy(sheet).lines().next()?.split('\t').nth(2)?.parse().ok()
}

fn with_site(sheet: &[u8], laptop: u64, clock: u64) -> Vec<u8> {
    with_fields(&with_clock(sheet, clock), |fields| {
        if fields[0].starts_with('S') && fields.len() == 3 {
            fields[1] = laptop.to_string();
        }
    })
}

fn with_clock(sheet: &[u8], clock: u64) -> Vec<u8> {
    with_fields(sheet, |fields| {
        if fields[0].starts_with('S') && fields.len() == 3 {
            fields[2] = clock.to_string();
        }
    })
}

/// The same sheet with the clock that loading gives it: the largest of its own and those of its laptop's inserts.
fn with_raised_clock(sheet: &[u8]) -> Vec<u8> {
    let heads = numbers(sheet, "S").into_iter().chain(numbers(sheet, "S2"));
    let inserts = numbers(sheet, "C").into_iter().chain(numbers(sheet, "I"));
    let laptop = heads.map(|head| head[0]).next();
    let clocks = inserts.filter(|i| Some(i[0]) == laptop).map(|i| i[1]);
    with_clock(sheet, clocks.chain(clock(sheet)).max().unwrap_or(0))
}

/// The numbers of the lines with this letter, as far as they can be read.
fn numbers(bytes: &[u8], letter: &str) -> Vec<Vec<u64>> {
    let text = String::from_utf8_lossy(bytes);
    let lines = text.lines().filter_map(|line| line.strip_prefix(letter)?.strip_prefix('\t'));
    lines.map(|fields| fields.split('\t').map(|f| f.parse().unwrap_or(0)).collect()).collect()
}

/// The words of a list that mark these identifiers: laptop, index and word.
fn words_of(ids: &[(u64, u64)]) -> Vec<[u64; 3]> {
    let mut words: BTreeMap<(u64, u64), u64> = BTreeMap::new();
    for (laptop, clock) in ids {
        *words.entry((*laptop, clock / 64)).or_default() |= 1 << (clock % 64);
    }
    words.into_iter().map(|((laptop, index), word)| [laptop, index, word]).collect()
}

fn ones(words: &[[u64; 3]]) -> u64 {
    words.iter().map(|word| u64::from(word[2].count_ones())).sum()
}

/// A list with these numbers, whatever they are.
fn list_of(laptop: u64, total: u64, words: &[[u64; 3]]) -> Vec<u8> {
    let words: String = words.iter().map(|[laptop, index, word]| format!("K\t{laptop}\t{index}\t{word}\n")).collect();
    format!("H\t{laptop}\t{total}\n{words}").into_bytes()
}

/// An archive with these rows in place of its own; the one at `saved`, if there is one, as a saved sheet has it.
fn archive_with(archive: &[u8], rows: &[Vec<u64>], saved: usize) -> Vec<u8> {
    let fields = |ns: &[u64]| ns.iter().map(|n| format!("\t{n}")).collect::<String>();
    let line = |(k, row): (usize, &Vec<u64>)| match k == saved {
        true => format!("C{}\n", fields(&row[1..])),
        false => format!("P{}\n", fields(row)),
    };
    let rows: String = rows.iter().enumerate().map(line).collect();
    let mut others = lines_of(archive).filter(|line| !line.starts_with(b"P"));
    let head = others.next().unwrap_or_default();
    [head, rows.as_bytes(), &others.collect::<Vec<_>>().concat()].concat()
}

/// The inserts of a sheet's rows, without their turns; and those that wait.
fn inserts(sheet: &[u8]) -> (Vec<Vec<u64>>, Vec<Vec<u64>>) {
    let held = rows(sheet).into_iter().map(|row| [&row[..3], &row[4..]].concat()).collect();
    (held, numbers(sheet, "I"))
}

/// Whether the request's premises hold of a sheet that was listed, another, and its answer: there is space, and no
/// identifier stands for different inserts on the two. Both were begun from empty sheets, or built.
fn can_catch_up(asker: &[u8], other: &[u8], answer: &[u8]) -> bool {
    let ((rows, waiting), (others, _)) = (inserts(asker), inserts(other));
    let space = rows.len() + waiting.len() + numbers(answer, "I").len() <= 1024;
    let agree = |i: &Vec<u64>| others.iter().all(|o| o[..2] != i[..2] || o == i);
    space && rows.iter().chain(&waiting).all(agree)
}

/// Whether a sheet holds every row of another, all of its fields, with at least its turn.
fn holds_all(sheet: &[u8], other: &[u8]) -> bool {
    let held = rows(sheet);
    let same = |r: &[u64], o: &[u64]| r[..3] == o[..3] && r[4..] == o[4..] && r[3] >= o[3];
    rows(other).iter().all(|o| held.iter().any(|r| same(r, o)))
}

fn waits(sheet: &[u8]) -> bool {
    !numbers(sheet, "I").is_empty() || !numbers(sheet, "E").is_empty()
}

/// The lines that stand one behind the other.
fn lines_of(bytes: &[u8]) -> impl Iterator<Item = &[u8]> {
    bytes.split_inclusive(|b| *b == b'\n')
}

/// The rows of a saved sheet with at least an identifier, a code point and a turn.
fn rows(sheet: &[u8]) -> Vec<Vec<u64>> {
    numbers(sheet, "C").into_iter().filter(|row| row.len() > 3).collect()
}

/// Whether a sheet holds all that the operation of a line needs.
fn has_needs(sheet: &[u8], line: &[u8]) -> bool {
    let rows = rows(sheet);
    let held = |id: &[u64]| id[0] == 0 || rows.iter().any(|row| row[..2] == *id);
    match numbers(line, "I").pop() {
        Some(insert) => held(&insert[3..5]) && held(&insert[5..7]),
        None => numbers(line, "E").into_iter().chain(numbers(line, "D")).any(|turn| held(&turn[1..3])),
    }
}

/// The lines that would be received to make the rows of a sheet, from any sender.
fn lines_of_rows(sheet: &[u8]) -> Vec<Vec<u8>> {
    let id = |row: &[u64]| format!("{}\t{}", row[0], row[1]);
    let (mut inserts, mut turns) = (Vec::new(), Vec::new());
    for row in rows(sheet) {
        inserts.push(format!("I\t{}\t{}\t{}\t{}\n", id(&row), row[2], id(&row[4..]), id(&row[6..])).into_bytes());
        if row[3] > 0 {
            turns.push(format!("E\t9\t{}\t{}\n", id(&row), row[3]).into_bytes());
        }
    }
    [inserts, turns].concat()
}

/// Whether what waited on a sheet and is gone from the one that a call left was thrown out for condition 8: its
/// neighbours stand there in the other order.
fn thrown_for_8(sheet: &[u8], left: &[u8]) -> bool {
    let (rows, waiting) = (rows(left), numbers(left, "I"));
    let place = |id: &[u64]| match id {
        [0, 0] => Some(0),
        [0, _] => Some(rows.len() + 1),
        _ => rows.iter().position(|row| row[..2] == *id).map(|k| k + 1),
    };
    let gone = |i: &Vec<u64>| place(&i[..2]).is_none() && !waiting.contains(i);
    numbers(sheet, "I").iter().filter(|i| gone(i)).all(|i| match (place(&i[3..5]), place(&i[5..7])) {
        (Some(previous), Some(next)) => previous >= next,
        _ => false,
    })
}

/// How many rows a saved sheet shows, as far as it can be read.
fn shown(sheet: &[u8]) -> usize {
    rows(sheet).iter().filter(|row| row[3] % 2 == 0).count()
}

// ---- the comparison

/// What a call wrote, if it wrote: the first output and the line.
type Written = Option<(Vec<u8>, Vec<u8>)>;

struct Tester {
    random: Random,
    seed: u64,
    calls: u64,
    failed: u64,
    /// What the last call answered.
    last: Reply,
    met: BTreeMap<(&'static str, String), u64>,
    start: Instant,
    told: Duration,
}

/// Whether a call that does not type leaves another clock.
fn raises(call: &Call, outcome: &Outcome) -> bool {
    let (sheet, _) = call.inputs();
    let begins_or_types = matches!(call, Call::Empty(..) | Call::Build(..) | Call::Type(..) | Call::Paste(..));
    !begins_or_types
        && !matches!(call, Call::List(..) | Call::Answer(..) | Call::Text(..) | Call::Counts(..))
        && !outcome.first.is_empty()
        && clock(&outcome.first) != clock(sheet)
}

/// Refusals that a reader of the other form would not give: of a waiting line or a number in a row that only that form
/// has, and of two erases that are equal here; and 15 where no row has a turn above 1.
fn crosses(call: &Call, outcome: &Outcome) -> Option<&'static str> {
    let (sheet, _) = call.inputs();
    let has = |letter, count| numbers(sheet, letter).iter().any(|ns| ns.len() == count);
    match (call, outcome.reply) {
        (Call::Upgrade(_), Reply::Refused(1)) if has("S", 2) && has("E", 4) => Some("E"),
        (Call::Downgrade(_), Reply::Refused(1)) if has("S2", 2) && has("D", 3) => Some("D"),
        (Call::Upgrade(_), Reply::Refused(2)) => rows(sheet).iter().any(|row| row[3] > 1).then_some("shown"),
        (Call::Upgrade(_), Reply::Refused(3)) => {
            let erases = numbers(sheet, "D");
            (1..erases.len()).any(|k| erases[..k].contains(&erases[k])).then_some("twice")
        }
        (Call::Downgrade(_), Reply::Refused(15)) => rows(sheet).iter().all(|row| row[3] < 2).then_some("waiting"),
        _ => None,
    }
}

/// What a received turn does to its row: hides or shows it, or comes behind a larger one that the row has already.
fn turns(call: &Call, outcome: &Outcome) -> Option<&'static str> {
    let (Call::Receive(sheet, line) | Call::ReceiveAt(sheet, line, _)) = call else { return None };
    let sent = numbers(line, "E").pop().filter(|sent| sent.len() == 4)?;
    let (before, after) = (shown(sheet), shown(&outcome.first));
    match outcome.reply {
        Reply::Done { .. } if after < before => Some("hiding"),
        Reply::Done { .. } if after > before => Some("showing"),
        Reply::Known => {
            let behind = |row: &Vec<u64>| row[..2] == sent[1..3] && row[3] > sent[3];
            rows(sheet).iter().any(behind).then_some("behind")
        }
        _ => None,
    }
}

/// What becomes of a cursor: how far it goes by an edit that was carried out; that one beyond the rows did not matter,
/// or that it did where the edit would else have waited.
fn moves(call: &Call, outcome: &Outcome) -> Option<&'static str> {
    let Call::ReceiveAt(sheet, line, gap) = call else { return None };
    match (outcome.reply, outcome.shift) {
        (Reply::Done { .. }, -1) => Some("-1"),
        (Reply::Done { .. }, 0) => Some("+0"),
        (Reply::Done { .. }, 1) => Some("+1"),
        (Reply::Done { .. }, 513) => Some("+513"),
        (Reply::Done { .. }, _) => Some("+n"),
        (Reply::Known, _) => (*gap > shown(sheet) as u64).then_some("known-beyond"),
        (Reply::Refused(4), _) => {
            (reference::receive_call(sheet, line).reply == Reply::Waits).then_some("4-or-waits")
        }
        _ => None,
    }
}

/// What a block that was pasted left: a character that was hidden at once, so that the next went below the nearest
/// shown one above it or to the top; or the last not as far below the gap as there are characters, since others came in
/// above it.
fn leaves(gap: u64, outcome: &Outcome) -> Option<&'static str> {
    let (typed, rows) = (numbers(&outcome.line, "I"), rows(&outcome.first));
    if let Some(pair) = typed.windows(2).find(|pair| pair[1][3..5] != pair[0][..2]) {
        return Some(if pair[1][3..5] == [0, 0] { "hidden-at-top" } else { "hidden" });
    }
    let last = rows.iter().position(|row| row[..2] == typed[typed.len() - 1][..2])?;
    let through = rows[..=last].iter().filter(|row| row[3] % 2 == 0).count() as u64;
    (through != gap + typed.len() as u64).then_some("pushed")
}

/// What becomes of a block: what it left; that it is empty, where no character could be typed too; that it is refused
/// although its first character could be typed; that one ground is told where a later one holds too.
fn pastes(call: &Call, outcome: &Outcome) -> Option<&'static str> {
    let Call::Paste(sheet, gap, block) = call else { return None };
    let first = || reference::type_call(sheet, *gap, 97).reply;
    match outcome.reply {
        Reply::Done { carried: 0, .. } => match first() {
            Reply::Refused(5) => Some("empty-or-5"),
            Reply::Refused(9) => Some("empty-or-9"),
            Reply::Refused(11) => Some("empty-or-11"),
            _ => Some("empty"),
        },
        Reply::Done { .. } => leaves(*gap, outcome),
        Reply::Refused(5) if first() == Reply::Refused(9) => Some("5-or-9"),
        Reply::Refused(11) if first() == Reply::Refused(9) => Some("11-or-9"),
        Reply::Refused(5) if first() != Reply::Refused(5) => Some("5-later"),
        Reply::Refused(11) if first() != Reply::Refused(11) => Some("11-later"),
        Reply::Refused(9) if first() != Reply::Refused(9) => Some("9-later"),
        Reply::Refused(20) if reference::read_sheet(sheet) == Err(3) => Some("20-or-3"),
        Reply::Refused(1) if reference::read_block(block).is_none() => Some("1-or-20"),
        Reply::Refused(2) if reference::read_block(block).is_none() => Some("2-or-20"),
        _ => None,
    }
}

/// What becomes of a heap: what was left out of it, and why; what was in it that makes no difference, or only to the
/// clock; that one ground is told where a later one holds too.
fn builds(call: &Call, outcome: &Outcome) -> Vec<&'static str> {
    let Call::Build(number, bytes) = call else { return Vec::new() };
    let Some((heap, all_pass)) = reference::read_heap(bytes) else {
        return if bytes.contains(&b'\t') { vec!["1-or-more"] } else { vec![] };
    };
    let count = |letter| numbers(bytes, letter).len();
    let (full, both) = (count("I") > 1024 || count("E") + count("D") > 1024, reference::disagree(&heap));
    let met = match outcome.reply {
        Reply::Done { thrown, .. } => return built_of(*number, &heap, thrown, outcome),
        Reply::Refused(2) => [(!all_pass, "2-line"), (all_pass, "2-number"), (full, "2-or-17"), (both, "2-or-7")],
        Reply::Refused(17) => {
            let (mut inserts, mut turns) = (Vec::new(), Vec::new());
            for o in &heap {
                let seen = if matches!(o, Operation::Insert(_)) { &mut inserts } else { &mut turns };
                if !seen.contains(o) {
                    seen.push(*o);
                }
            }
            let few = inserts.len() <= 1024 && turns.len() <= 1024;
            let many = count("I") > 1024;
            [(many, "17-inserts"), (!many, "17-turns"), (both, "17-or-7"), (few, "17-repeats")]
        }
        Reply::Refused(7) => {
            let rows = reference::Sheet::build(1, &heap).0.rows;
            let left_out = |o: &Operation| match o {
                Operation::Insert(i) => !rows.iter().any(|r| r.insert.id == i.id),
                _ => true,
            };
            let rest: Vec<Operation> = heap.iter().filter(|o| !left_out(o)).copied().collect();
            [(!reference::disagree(&rest), "7-left-out"), (false, ""), (false, ""), (false, "")]
        }
        _ => return Vec::new(),
    };
    met.into_iter().filter(|(met, _)| *met).map(|(_, what)| what).collect()
}

/// The same of a heap that a sheet was built of.
fn built_of(number: u64, heap: &[Operation], left_out: usize, outcome: &Outcome) -> Vec<&'static str> {
    let (rows, site) = (rows(&outcome.first), clock(&outcome.first));
    let held = |id: reference::Id| {
        id.laptop == 0 || rows.iter().any(|r| (r[0], r[1]) == (id.laptop.into(), id.clock.into()))
    };
    let (mut crossing, mut needing, mut not_larger, mut repeats) = (false, false, false, false);
    for (k, o) in heap.iter().enumerate() {
        repeats |= heap[..k].contains(o);
        match o {
            Operation::Insert(i) if held(i.id) => {}
            Operation::Insert(i) if held(i.previous) && held(i.next) => crossing = true,
            Operation::Insert(_) => needing = true,
            Operation::Turn(t) if held(t.id) => {
                let larger = |p: &Operation| matches!(p, Operation::Turn(u) if u.id == t.id && u.turn > t.turn);
                not_larger |= heap.iter().any(larger);
            }
            Operation::Turn(_) => needing = true,
        }
    }
    let own = rows.iter().filter(|r| r[0] == number).map(|r| r[1]).max().unwrap_or(0);
    let what = [
        (heap.is_empty(), "nothing"),
        (left_out == 0, "all"),
        (crossing, "crossing"),
        (needing, "needing"),
        (not_larger, "not-larger"),
        (repeats, "repeats"),
        (site == Some(own) && own > 0, "own-clock"),
        (site > Some(own), "clock-left-out"),
        (rows.len() == 1024, "1024"),
        (left_out > 1024, "left-out-1025"),
    ];
    what.into_iter().filter(|(met, _)| *met).map(|(_, what)| what).collect()
}

/// What becomes of a sheet that is loaded: what it has that makes no difference, and why it cannot be made.
fn loads(call: &Call, outcome: &Outcome) -> Vec<&'static str> {
    let Call::Load(sheet) = call else { return Vec::new() };
    let Ok(read) = reference::read_sheet(sheet) else { return Vec::new() };
    let waiting = !read.waiting.is_empty();
    let what = match outcome.reply {
        Reply::Done { .. } => {
            let turned = read.rows.iter().any(|row| row.turn > 1);
            let same = outcome.first == *sheet;
            [(same, "same"), (waiting, "waiting"), (turned, "turned"), (read.rows.len() == 1024, "1024")]
        }
        Reply::Refused(16) => {
            let made = read.made_anew().len();
            let (all, most) = (made == read.rows.len(), read.rows.len() == 1024);
            [(all, "16-order"), (!all, "16-never-all"), (waiting, "16-waiting"), (most, "16-1024")]
        }
        _ => return Vec::new(),
    };
    what.into_iter().filter(|(met, _)| *met).map(|(_, what)| what).collect()
}

/// What is listed: hidden rows, and none that waits; several rows in one word, the first clock and the last of a word.
fn lists(call: &Call, outcome: &Outcome) -> Vec<&'static str> {
    let (Call::List(sheet), Reply::Done { .. }) = (call, outcome.reply) else { return Vec::new() };
    let (rows, words) = (rows(sheet), numbers(&outcome.first, "K"));
    let what = [
        (rows.is_empty(), "nothing"),
        (rows.iter().any(|row| row[3] % 2 == 1), "hidden"),
        (!numbers(sheet, "I").is_empty(), "waiting"),
        (words.len() < rows.len(), "several"),
        (words.len() > 16, "many"),
        (rows.iter().any(|row| row[1] % 64 == 0), "first-bit"),
        (rows.iter().any(|row| row[1] % 64 == 63), "last-bit"),
        (words.iter().any(|word| word[1] == 1023), "last-index"),
        (rows.len() == 1024, "1024"),
    ];
    what.into_iter().filter(|(met, _)| *met).map(|(_, what)| what).collect()
}

/// What becomes of a list: what is answered and in which sequence; what is listed and makes no difference; why it is
/// refused, and that one ground is told where a later one holds too.
fn answers(call: &Call, outcome: &Outcome) -> Vec<&'static str> {
    let Call::Answer(sheet, list) = call else { return Vec::new() };
    let what = match outcome.reply {
        Reply::Done { .. } => answered(sheet, list, &outcome.first),
        Reply::Refused(n) => refused_list(n, sheet, list),
        _ => Vec::new(),
    };
    what.into_iter().filter(|(met, _)| *met).map(|(_, what)| what).collect()
}

fn answered(sheet: &[u8], list: &[u8], answer: &[u8]) -> Vec<(bool, &'static str)> {
    let (rows, sent) = (rows(sheet), numbers(answer, "I"));
    let id = |ns: &[u64]| (ns[0], ns[1]);
    let listed = |row: &Vec<u64>| !sent.iter().any(|i| id(i) == id(row));
    let place = |of: (u64, u64)| sent.iter().position(|i| id(i) == of);
    let later = |k: usize, of: &[u64]| place(id(of)).is_some_and(|p| p > k);
    let head = |bytes, letter| numbers(bytes, letter).first().map(|head| head[0]);
    let total = numbers(list, "H").first().map_or(0, |head| head[1]) as usize;
    vec![
        (answer.is_empty(), "nothing"),
        (!sent.is_empty() && sent.len() == rows.len(), "everything"),
        (!sent.is_empty() && sent.len() < rows.len(), "some"),
        (sent.windows(2).any(|pair| id(&pair[0]) > id(&pair[1])), "not-rising"),
        ((0..sent.len()).any(|k| later(k, &sent[k][3..]) || later(k, &sent[k][5..])), "none-free"),
        (rows.iter().any(|row| row[3] > 0 && listed(row)), "turn-listed"),
        (rows.iter().any(|row| row[3] > 0 && row[3] % 2 == 0), "even-turn"),
        (rows.iter().any(|row| row[3] % 2 == 1 && !listed(row)), "hidden"),
        (!numbers(sheet, "I").is_empty(), "waiting"),
        (total + sent.len() > rows.len(), "not-held"),
        (head(list, "H") == head(sheet, "S2"), "own-number"),
        (total == 1024, "1024-listed"),
        (sent.len() == 1024, "1024"),
    ]
}

/// Of a list whose words are read as far as they can be: those above the largest number of 64 bits are not.
fn refused_list(refusal: u8, sheet: &[u8], list: &[u8]) -> Vec<(bool, &'static str)> {
    let (of_list, of_sheet) = (reference::read_list(list), reference::read_numbers(sheet, Form::Second));
    let (words, head) = (numbers(list, "K"), numbers(list, "H").pop().unwrap_or_default());
    match refusal {
        1 => vec![(of_list.is_ok() || of_list == Err(18), "1-sheet"), (of_sheet.is_ok(), "1-list")],
        2 => vec![
            (of_sheet == Err(2) && of_list == Err(18), "2-or-18"),
            (of_list == Err(2) && head[1] > 1024, "2-total"),
            (of_list == Err(2) && !(1..=16).contains(&head[0]), "2-laptop"),
            (of_list == Err(2) && words.iter().any(|word| word[1] > 1023), "2-index"),
            (of_list == Err(2) && words.iter().any(|word| word[2] == 0), "2-word"),
        ],
        18 => {
            let place = |word: &[u64]| (word[0], word[1]);
            let ones: u32 = words.iter().map(|word| word[2].count_ones()).sum();
            let (total, zero) = (u64::from(ones) == head[1], words.iter().any(|w| w[1] == 0 && w[2] % 2 == 1));
            let sequence = words.windows(2).any(|pair| place(&pair[0]) >= place(&pair[1]));
            let repeated = words.windows(2).any(|pair| pair[0] == pair[1]);
            let two_words = words.windows(2).any(|pair| place(&pair[0]) == place(&pair[1]) && pair[0] != pair[1]);
            vec![
                (!total && !zero && !sequence, "18-total"),
                (total && zero && !sequence, "18-zero"),
                (total && !zero && sequence, "18-sequence"),
                (total && !zero && repeated, "18-repeated"),
                (total && !zero && two_words, "18-two-words"),
                (ones > 1024 && head[1] == 1024, "18-overfull"),
                (words.len() > 1024, "18-1025-lines"),
                (of_sheet.is_ok_and(|s| !s.in_form()), "18-or-3"),
            ]
        }
        _ => Vec::new(),
    }
}

/// What becomes of rows that go from one sequence to another, by these numbers of theirs, in which turns stand here.
fn rearranges(rows: &[Vec<u64>], turn: usize, rising: bool, file: &[u8]) -> Vec<(bool, &'static str)> {
    vec![
        (rows.is_empty(), "nothing"),
        (rows.len() > 1 && rising, "rising"),
        (!rising, "moved"),
        (rows.iter().any(|row| row[turn] % 2 == 1), "hidden"),
        (waits(file), "waiting"),
        (rows.len() == 1024, "1024"),
    ]
}

/// What becomes of a sheet that is archived: what it has that makes no difference, and why it is refused.
fn archives(call: &Call, outcome: &Outcome) -> Vec<&'static str> {
    let Call::Archive(sheet) = call else { return Vec::new() };
    let rows = rows(sheet);
    let what = match outcome.reply {
        Reply::Done { .. } => rearranges(&rows, 3, rows.windows(2).all(|pair| pair[0][..2] < pair[1][..2]), sheet),
        Reply::Refused(1) => vec![(reference::read_archive(sheet).is_ok(), "1-archive")],
        Reply::Refused(3) => vec![
            (reference::read_sheet(sheet).is_ok(), "3-low"),
            (reference::read_sheet(sheet).is_err(), "3-form"),
            (rows.len() > 1024, "3-1025"),
        ],
        _ => Vec::new(),
    };
    what.into_iter().filter(|(met, _)| *met).map(|(_, what)| what).collect()
}

/// The same of an archive that is brought back, and that one ground is told where a later one holds too.
fn unarchives(call: &Call, outcome: &Outcome) -> Vec<&'static str> {
    let Call::Unarchive(archive) = call else { return Vec::new() };
    let placed = numbers(archive, "P");
    let what = match outcome.reply {
        Reply::Done { .. } => rearranges(&placed, 4, placed.windows(2).all(|pair| pair[0][0] < pair[1][0]), archive),
        Reply::Refused(1) => vec![
            (reference::read_unraised(archive, Form::Second).is_ok(), "1-sheet"),
            (!placed.is_empty() && !rows(archive).is_empty(), "1-both"),
        ],
        Reply::Refused(2) => vec![
            (placed.iter().any(|row| row[0] == 0), "2-place-0"),
            (placed.iter().any(|row| row[0] == 1025), "2-place-1025"),
            (placed.windows(2).any(|pair| pair[0][1..3] >= pair[1][1..3]), "2-or-19"),
        ],
        Reply::Refused(19) => misarranged(archive, &placed),
        Reply::Refused(3) => {
            let raised = reference::read_archive(archive).map(|sheet| reference::sheet_bytes(&sheet));
            let low = raised.is_ok_and(|sheet| reference::read_sheet(&sheet).is_ok());
            vec![(low, "3-low"), (!low, "3-form")]
        }
        _ => Vec::new(),
    };
    what.into_iter().filter(|(met, _)| *met).map(|(_, what)| what).collect()
}

fn misarranged(archive: &[u8], placed: &[Vec<u64>]) -> Vec<(bool, &'static str)> {
    let twice = (1..placed.len()).any(|k| placed[..k].iter().any(|row| row[0] == placed[k][0]));
    let beyond = placed.iter().any(|row| row[0] > placed.len() as u64);
    let falls = placed.windows(2).any(|pair| pair[0][1..3] > pair[1][1..3]);
    let repeated = placed.windows(2).any(|pair| pair[0][1..3] == pair[1][1..3]);
    let at_places = reference::read_placed(archive).map(|(sheet, mut rows)| {
        rows.sort_by_key(|(place, _)| *place);
        reference::Sheet { rows: rows.into_iter().map(|(_, row)| row).collect(), ..sheet }
    });
    vec![
        (beyond && !twice && !falls && !repeated, "19-beyond"),
        (twice && !beyond && !falls && !repeated, "19-twice"),
        (falls && !twice && !beyond && !repeated, "19-falls"),
        (repeated && !twice && !beyond && !falls, "19-repeated"),
        (placed.len() > 1024, "19-1025"),
        (at_places.is_ok_and(|sheet| !sheet.in_form()), "19-or-3"),
    ]
}

/// Whether the block is read as Rust's own library reads it.
fn block_is_sound(call: &Call) -> bool {
    let Call::Paste(_, _, block) = call else { return true };
    let theirs = std::str::from_utf8(block).ok().map(|text| text.chars().map(u32::from).collect());
    reference::read_block(block) == theirs
}

/// What the request says of every shift: its bounds, that it is 0 where nothing changed, and that with the gap it makes
/// a gap of the new sheet.
fn shift_is_sound(call: &Call, outcome: &Outcome) -> bool {
    let Call::ReceiveAt(_, _, gap) = call else { return outcome.shift == 0 };
    match outcome.reply {
        Reply::Done { .. } => {
            let new = i128::from(*gap) + i128::from(outcome.shift);
            (-1..=513).contains(&outcome.shift) && (0..=shown(&outcome.first) as i128).contains(&new)
        }
        _ => outcome.shift == 0,
    }
}

/// The parts of the number that a call returned.
fn told(call: &Call, n: u64) -> String {
    let names = match call {
        Call::Counts(_) => ["shown", "waiting", "characters", "room"],
        Call::ReceiveAt(..) => ["carried", "thrown", "written", "shift"],
        Call::Paste(..) => ["carried", "thrown", "written", "lines"],
        Call::Build(..) => ["carried", "left out", "written", "line"],
        _ => ["carried", "thrown", "written", "line"],
    };
    let last = if names[3] == "shift" { n as i64 >> 48 } else { (n >> 48) as i64 };
    let parts = [(n >> 8 & 4095) as i64, (n >> 20 & 4095) as i64, (n >> 32 & 65535) as i64, last];
    let word = ["done", "waits", "known", "refused"][(n & 3) as usize];
    let all: String = names.iter().zip(parts).map(|(name, part)| format!(", {name} {part}")).collect();
    format!("{word} {}{all}", n >> 2 & 63)
}

impl Tester {
    /// The length of an output for a result of this length: enough, more than enough (for the input too), or short.
    fn room(&mut self, result: usize, input: usize) -> usize {
        match self.random.below(40) {
            0 => 0,
            1 => self.random.below(result + 1),
            2..=4 => result.saturating_sub(1),
            5 => 51_212,
            6..=12 => result,
            13..=17 => result.max(input) + self.random.below(64),
            _ => result + self.random.below(64),
        }
    }

    fn note(&mut self, call: &Call, outcome: &Outcome) {
        if raises(call, outcome) {
            *self.met.entry((call.name(), "raising".into())).or_default() += 1;
        }
        let happenings = [turns(call, outcome), crosses(call, outcome), moves(call, outcome), pastes(call, outcome)];
        let others = [builds(call, outcome), loads(call, outcome), lists(call, outcome), answers(call, outcome)];
        let archives = [archives(call, outcome), unarchives(call, outcome)];
        for what in happenings.into_iter().flatten().chain(others.concat()).chain(archives.concat()) {
            *self.met.entry((call.name(), what.into())).or_default() += 1;
        }
        let word = match outcome.reply {
            Reply::Done { carried, thrown } => {
                if carried > outcome.line.iter().filter(|b| **b == b'\n').count().max(1) {
                    *self.met.entry((call.name(), "releasing".into())).or_default() += 1;
                }
                if thrown > 0 {
                    *self.met.entry((call.name(), "throwing".into())).or_default() += 1;
                }
                "done".into()
            }
            Reply::Waits => "waits".into(),
            Reply::Known => "known".into(),
            Reply::Refused(n) => format!("{n}"),
        };
        *self.met.entry((call.name(), word)).or_default() += 1;
    }

    fn call(&mut self, call: &Call) -> Written {
        let outcome = call.expected();
        let (sheet, line) = call.inputs();
        let room = self.room(outcome.first.len(), sheet.len());
        let line_room = self.room(outcome.line.len(), 37);
        let outcome = outcome.within(room, line_room);
        self.note(call, &outcome);

        let lent_sheet = Lent::holding(&mut self.random, sheet);
        let lent_line = Lent::holding(&mut self.random, line);
        let first = Lent::noise(&mut self.random, room);
        let second = Lent::noise(&mut self.random, line_room);
        let mut used = [lent_sheet.clone(), lent_line.clone(), first.clone(), second.clone()];
        let [s, l, f, o] = &mut used;
        let number = call.made(s, l, f, o);

        self.calls += 1;
        let wanted = [lent_sheet, lent_line, first.with(&outcome.first), second.with(&outcome.line)];
        let sound = shift_is_sound(call, &outcome) && block_is_sound(call);
        if number != outcome.number() || used != wanted || !sound {
            self.failed += 1;
            if self.failed <= 5 {
                self.explain(call, number, &outcome, &used, &wanted);
            }
        }
        if let Call::ReceiveAt(_, _, gap) = call {
            self.add(*gap, outcome.shift);
        }
        self.last = outcome.reply;
        match outcome.reply {
            Reply::Done { .. } | Reply::Waits => Some((outcome.first, outcome.line)),
            _ => None,
        }
    }

    fn explain(&self, call: &Call, number: u64, outcome: &Outcome, used: &[Lent; 4], wanted: &[Lent; 4]) {
        let (sheet, line) = call.inputs();
        println!("seed {}, call {}: {}", self.seed, self.calls, call.name());
        println!("  library   {}", told(call, number));
        println!("  reference {}", told(call, outcome.number()));
        for (name, (a, b)) in ["sheet", "line", "first output", "line output"].iter().zip(used.iter().zip(wanted)) {
            if let Some(k) = (0..a.0.len()).find(|k| a.0[*k] != b.0[*k]) {
                let (at, room) = (k as isize - GUARD as isize, a.0.len() - 2 * GUARD);
                println!("  {name} of length {room}: byte {at} is {} and not {}", a.0[k], b.0[k]);
            }
        }
        match call {
            Call::Empty(number) => println!("  number {number}"),
            Call::Type(_, gap, code) => println!("  gap {gap}, code point {code}"),
            Call::Erase(_, place) => println!("  place {place}"),
            Call::Restore(_, laptop, clock) => println!("  laptop {laptop}, clock {clock}"),
            Call::Paste(_, gap, block) => println!("  gap {gap}, block {block:02x?}"),
            Call::Build(number, _) => println!("  number {number}, and the heap"),
            Call::Receive(..) => println!("  line {:?}", String::from_utf8_lossy(line)),
            Call::ReceiveAt(_, _, gap) => println!("  line {:?}, gap {gap}", String::from_utf8_lossy(line)),
            Call::Answer(..) => println!("  list {:?}", String::from_utf8_lossy(line)),
            Call::Load(_) | Call::List(_) | Call::Text(_) | Call::Counts(_) => {}
            Call::Upgrade(_) | Call::Downgrade(_) | Call::Archive(_) | Call::Unarchive(_) => {}
        }
        let shortened: String = String::from_utf8_lossy(sheet).chars().take(2000).collect();
        println!("  sheet {shortened:?}");
    }

    /// The call that adds a shift to a gap.
    fn add(&mut self, gap: u64, shift: i32) {
        let (sum, wanted) = (unsafe { wimtaze_moved(gap, shift) }, reference::moved_call(gap, shift));
        let exact = gap.checked_add_signed(shift.into()) == Some(wanted);
        let what = if exact { "sum" } else if wanted == 0 { "below" } else { "above" };
        *self.met.entry(("moved", what.into())).or_default() += 1;
        self.calls += 1;
        if sum != wanted {
            self.failed += 1;
            if self.failed <= 5 {
                println!("seed {}, call {}: moved, gap {gap}, shift {shift}", self.seed, self.calls);
                println!("  library   {sum}\n  reference {wanted}");
            }
        }
    }

    // ---- calls with numbers by chance

    /// A gap of the sheet, or one that is just beyond its rows or far.
    fn gap(&mut self, sheet: &[u8]) -> u64 {
        let count = shown(sheet);
        let gap = self.random.below(count + 1) as u64;
        match self.random.below(30) {
            0 => count as u64 + 1,
            1 => self.random.next() >> self.random.below(64),
            2 => self.random.pick(&[u64::MAX, gap + (1 << 16), gap + (1 << 32), gap + (1 << 63)]),
            _ => gap,
        }
    }

    /// Receives the line, half the time with a cursor.
    fn receive(&mut self, sheet: &[u8], line: &[u8]) -> Written {
        if self.random.one_in(2) {
            return self.call(&Call::Receive(sheet, line));
        }
        let gap = self.gap(sheet);
        self.call(&Call::ReceiveAt(sheet, line, gap))
    }

    /// The lines of an edit that was made on the sheet come to the sheet as it was: that must leave the same sheet, and
    /// so a program learns how far the edit moves a cursor.
    fn made_here(&mut self, sheet: &[u8], written: Written) -> Written {
        let (new, lines) = written?;
        if self.random.one_in(8) {
            if let Some(again) = self.lines_received(sheet, &lines) {
                let what = if lines_of(&lines).count() > 1 { "own-block" } else { "own" };
                *self.met.entry(("receive_at", what.into())).or_default() += 1;
                if again != new {
                    self.failed += 1;
                    println!("seed {}: an edit made here and its lines leave different sheets", self.seed);
                }
            }
        }
        Some((new, lines))
    }

    /// The sheet after these lines were received in turn, with any cursor; none if one is turned away.
    fn lines_received(&mut self, sheet: &[u8], lines: &[u8]) -> Option<Vec<u8>> {
        let mut sheet = sheet.to_vec();
        for line in lines_of(lines) {
            let gap = self.gap(&sheet);
            let again = self.call(&Call::ReceiveAt(&sheet, line, gap));
            sheet = again.or_else(|| self.call(&Call::Receive(&sheet, line)))?.0;
        }
        Some(sheet)
    }

    fn type_somewhere(&mut self, sheet: &[u8]) -> Written {
        let gap = self.gap(sheet);
        let code = self.random.code_point();
        let written = self.call(&Call::Type(sheet, gap, code));
        self.made_here(sheet, written)
    }

    /// Pastes a block; where it is empty nothing is written, and the sheet stays.
    fn paste_block(&mut self, sheet: &[u8], block: &[u8]) -> Written {
        let gap = self.gap(sheet);
        let written = self.call(&Call::Paste(sheet, gap, block)).filter(|(new, _)| !new.is_empty());
        self.made_here(sheet, written)
    }

    fn paste_somewhere(&mut self, sheet: &[u8]) -> Written {
        let block = if self.random.one_in(5) { self.random.malformed_block() } else { self.random.block() };
        self.paste_block(sheet, &block)
    }

    fn erase_somewhere(&mut self, sheet: &[u8]) -> Written {
        let count = shown(sheet);
        let place = match self.random.below(20) {
            0 => 0,
            1 => self.random.next() >> self.random.below(64),
            _ => 1 + self.random.below(count + 1) as u64,
        };
        let written = self.call(&Call::Erase(sheet, place));
        self.made_here(sheet, written)
    }

    /// An identifier, mostly that of a hidden row, or else of any row, of a waiting insert or of nothing; or a mark or
    /// numbers of any size, those among them whose lowest bits are an identifier's.
    fn identifier(&mut self, sheet: &[u8]) -> (u64, u64) {
        let random = &mut self.random;
        let mut from = match random.below(10) {
            0 => numbers(sheet, "I"),
            _ => rows(sheet),
        };
        if random.below(10) < 7 {
            from.retain(|row| row.len() < 4 || row[3] % 2 == 1);
        }
        from.retain(|row| row.len() > 1);
        let (laptop, clock) = match from.len() {
            0 => (1 + random.below(17) as u64, 1 + random.below(4) as u64),
            n => {
                let row = &from[random.below(n)];
                (row[0], row[1])
            }
        };
        match random.below(40) {
            0 => (laptop.wrapping_add(256), clock),
            1 => (laptop, clock.wrapping_add(65_536)),
            2 => (laptop.wrapping_add(1 << 32), clock),
            3 => (laptop, clock.wrapping_add(1 << 32)),
            4 => (0, random.below(2) as u64),
            5 => (laptop, 0),
            6 => (random.next() >> random.below(64), random.next() >> random.below(64)),
            _ => (laptop, clock),
        }
    }

    fn restore_somewhere(&mut self, sheet: &[u8]) -> Written {
        let (laptop, clock) = self.identifier(sheet);
        let written = self.call(&Call::Restore(sheet, laptop, clock));
        self.made_here(sheet, written)
    }

    /// Lists the rows, or answers a list of some of them.
    fn list_or_answer(&mut self, sheet: &[u8]) -> Written {
        if self.random.one_in(4) {
            self.call(&Call::List(sheet));
        } else {
            let list = self.random.list(sheet, Universe { laptops: 16, clocks: 70 });
            self.call(&Call::Answer(sheet, &list));
        }
        None
    }

    /// Any call on the sheet.
    fn anything(&mut self, sheet: &[u8], line: &[u8]) -> Written {
        match self.random.below(23) {
            0..=4 => self.receive(sheet, line),
            5..=7 => self.type_somewhere(sheet),
            8 => self.erase_somewhere(sheet),
            9 | 10 => self.restore_somewhere(sheet),
            11 => self.change_form(sheet),
            12..=14 => self.paste_somewhere(sheet),
            15 => self.call(&Call::Load(sheet)),
            16..=18 => self.list_or_answer(sheet),
            19 | 20 => self.rearrange(sheet),
            _ => self.look(sheet),
        }
    }

    /// A sheet on its way to the other form, and back again from where it came to.
    fn change_form(&mut self, sheet: &[u8]) -> Written {
        let sheet = self.random.for_other_form(sheet);
        let forward = sheet.starts_with(b"S\t") != self.random.one_in(16);
        let there = |sheet| if forward { Call::Upgrade(sheet) } else { Call::Downgrade(sheet) };
        let back = |sheet| if forward { Call::Downgrade(sheet) } else { Call::Upgrade(sheet) };
        let (reached, _) = self.call(&there(&sheet))?;
        let (again, _) = self.call(&back(&reached))?;
        *self.met.entry((back(&reached).name(), "returning".into())).or_default() += 1;
        if again != with_raised_clock(&sheet) {
            self.failed += 1;
            println!("seed {}: a sheet came back from the other form as another one", self.seed);
        }
        None
    }

    /// A sheet on its way to its archive and back; or an archive, or what is nearly one, the other way round. Now and
    /// then each is handed to the call that takes the other.
    fn rearrange(&mut self, sheet: &[u8]) -> Written {
        let forth = self.random.one_in(2);
        let lower = self.random.below(clock(sheet).unwrap_or(0).min(65_535) as usize + 1) as u64;
        let given = match (forth != self.random.one_in(16), self.random.below(6)) {
            (false, _) => self.random.archive(sheet),
            (true, 0) => self.random.damaged(sheet),
            (true, 1) => with_clock(sheet, lower),
            (true, 2) => self.random.foreign(sheet),
            (true, _) => with_raised_clock(sheet),
        };
        let there = |file| if forth { Call::Archive(file) } else { Call::Unarchive(file) };
        let back = |file| if forth { Call::Unarchive(file) } else { Call::Archive(file) };
        let (reached, _) = self.call(&there(&given))?;
        let (again, _) = self.call(&back(&reached))?;
        self.meet(back(&reached).name(), "returning");
        self.expect(again == given, "a sheet or an archive came back as another one");
        None
    }

    /// A call that changes nothing.
    fn look(&mut self, sheet: &[u8]) -> Written {
        match self.random.below(5) {
            0 | 1 => drop(self.call(&Call::Text(sheet))),
            2 | 3 => drop(self.call(&Call::Counts(sheet))),
            _ => (0..8).for_each(|_| self.add_numbers()),
        }
        None
    }

    /// A gap and a shift of any size, near the ends of what each can be, or with a sum near its ends.
    fn add_numbers(&mut self) {
        let random = &mut self.random;
        let most = random.pick(&[2, 1024]);
        let near = random.below(most);
        let shift = match random.below(4) {
            0 => near as i32 - 1,
            1 => i32::MIN + near as i32,
            2 => i32::MAX - near as i32,
            _ => random.next() as i32 >> random.below(32),
        };
        let away = u64::from(shift.unsigned_abs());
        let near = random.below(most) as u64;
        let gap = match random.below(4) {
            0 => near,
            1 => u64::MAX - near,
            2 if shift < 0 => (away + near).saturating_sub(1),
            2 => (u64::MAX - away - near).saturating_add(1),
            _ => random.next() >> random.below(64),
        };
        self.add(gap, shift);
    }

    fn begin(&mut self, number: u64) -> Vec<u8> {
        loop {
            if let Some((sheet, _)) = self.call(&Call::Empty(number)) {
                return sheet;
            }
        }
    }
}

// ---- the runs

struct Laptop {
    sheet: Vec<u8>,
    /// What is on its way to it.
    inbox: Vec<Vec<u8>>,
}

impl Tester {
    /// Laptops that type, paste, erase and restore, with their lines lost, repeated, reordered and damaged on the way.
    fn history(&mut self) {
        let count = 1 + self.random.below(16);
        let first = self.random.below(16);
        let shared = self.random.one_in(12);
        let mut laptops: Vec<Laptop> = (0..count)
            .map(|k| if shared { k / 2 } else { k })
            .map(|k| Laptop { sheet: self.begin(((first + k) % 16 + 1) as u64), inbox: Vec::new() })
            .collect();
        let mut sent: Vec<Vec<u8>> = Vec::new();
        let typing = 15 + self.random.below(20);
        for _ in 0..50 + self.random.below(350) {
            let k = self.random.below(count);
            if self.random.one_in(120) {
                self.set_up_anew(&mut laptops[k], &sent);
            }
            let sheet = laptops[k].sheet.clone();
            let written = match self.random.below(100) {
                0..=3 => self.paste_somewhere(&sheet),
                n if n < typing => self.type_somewhere(&sheet),
                n if n < typing + 8 => self.erase_somewhere(&sheet),
                n if n < typing + 14 => self.restore_somewhere(&sheet),
                n if n < 85 => self.receive_next(&mut laptops[k]),
                85 if self.random.one_in(2) => self.change_form(&sheet),
                85 => self.rearrange(&sheet),
                n if n < 91 && !sent.is_empty() => {
                    let line = &sent[self.random.below(sent.len())];
                    self.receive(&sheet, line)
                }
                n => self.mishap(n, &sheet, &sent),
            };
            let Some((sheet, lines)) = written else { continue };
            laptops[k].sheet = sheet;
            for line in lines_of(&lines) {
                let own = self.random.one_in(10);
                for (j, laptop) in laptops.iter_mut().enumerate().filter(|(j, _)| own || *j != k) {
                    if !self.random.one_in(25) || j == k {
                        laptop.inbox.push(line.to_vec());
                    }
                }
                sent.push(line.to_vec());
            }
        }
        if self.random.one_in(2) {
            self.gather(&sent);
        } else {
            self.build(&sent);
        }
        let sheet = &laptops[self.random.below(count)].sheet;
        self.load(sheet);
        self.expect(self.last != Reply::Refused(16), "a sheet that calls made is not loaded");
        let foreign = self.random.foreign(sheet);
        self.load(&foreign);
        let other = &laptops[self.random.below(count)].sheet;
        self.exchange(sheet, other);
    }

    /// What a call writes that is refused only where its output is short.
    fn written(&mut self, call: &Call) -> Vec<u8> {
        loop {
            if let Some((written, _)) = self.call(call) {
                return written;
            }
        }
    }

    /// The lines that another laptop answers to the list of a sheet. The list is of its rows and of nothing else.
    fn answer_to(&mut self, asker: &[u8], other: &[u8]) -> Vec<u8> {
        let list = self.written(&Call::List(asker));
        let listed = reference::read_list(&list).unwrap_or_default();
        let held = rows(asker);
        let is_held = |id: &reference::Id| held.iter().any(|r| (r[0], r[1]) == (id.laptop.into(), id.clock.into()));
        self.expect(listed.len() == held.len() && listed.iter().all(is_held), "a list is not of the rows");
        self.written(&Call::Answer(other, &list))
    }

    /// The lines of an answer come in their sequence. Where the premises hold none waits and none is refused, and then
    /// every row of the other is there.
    fn caught_up(&mut self, asker: &[u8], other: &[u8], answer: &[u8]) -> Vec<u8> {
        let (mut sheet, hold) = (asker.to_vec(), can_catch_up(asker, other, answer));
        self.meet("answer", if hold { "caught-up" } else { "no-premise" });
        for line in lines_of(answer) {
            let mut written = self.receive(&sheet, line);
            while matches!(self.last, Reply::Refused(4 | 12)) {
                written = self.receive(&sheet, line);
            }
            let taken = matches!(self.last, Reply::Done { .. } | Reply::Known);
            self.expect(taken || !hold, "a line of an answer waits or is refused");
            if !taken {
                self.meet("answer", "not-taken");
            }
            sheet = written.map_or(sheet, |(new, _)| new);
        }
        self.expect(!hold || holds_all(&sheet, other), "a laptop that caught up lacks something");
        sheet
    }

    /// Two laptops answer each other; the second before it has taken in the first's answer, or afterwards. Where
    /// nothing waited their rows are equal then.
    fn exchange(&mut self, one: &[u8], two: &[u8]) {
        let to_one = self.answer_to(one, two);
        let hold = can_catch_up(one, two, &to_one) && !waits(one) && !waits(two);
        let after_one = self.caught_up(one, two, &to_one);
        let answering = if self.random.one_in(2) { one } else { &after_one };
        let to_two = self.answer_to(two, answering);
        let hold = hold && can_catch_up(two, answering, &to_two);
        let after_two = self.caught_up(two, answering, &to_two);
        if hold {
            self.meet("answer", if answering == one { "both-before" } else { "both-after" });
            self.expect(rows(&after_one) == rows(&after_two), "two laptops that answered each other hold other rows");
        }
    }

    /// A sheet is loaded for use. If it is taken, the lines of its rows, received one by one, make these rows, and what
    /// is done with it later never meets 9; if not, they make others.
    fn load(&mut self, sheet: &[u8]) {
        let (written, reply) = (self.call(&Call::Load(sheet)), self.last);
        if !matches!(reply, Reply::Done { .. } | Reply::Refused(16)) {
            return;
        }
        let lines = lines_of_rows(sheet);
        if lines.len() <= 100 {
            let made = self.received_ready(&lines.iter().map(Vec::as_slice).collect::<Vec<_>>());
            self.meet("load", "received");
            let same = made.is_some_and(|made| made == rows(sheet));
            self.expect(same == written.is_some(), "a sheet is loaded, or is not, against what receiving makes");
        }
        if let Some((loaded, _)) = written {
            self.expect(loaded == with_raised_clock(sheet), "a sheet was loaded as another one");
            self.use_loaded(loaded, &lines);
        }
        self.last = reply;
    }

    /// Any calls on a sheet that was loaded, each on the sheet as the call before left it: lines that it has, such as
    /// what waits there needs, and others.
    fn use_loaded(&mut self, mut sheet: Vec<u8>, lines: &[Vec<u8>]) {
        let of = Universe { laptops: 16, clocks: 4 };
        for _ in 0..self.random.below(12) {
            let waiting = numbers(&sheet, "I");
            let awaited = if waiting.is_empty() { None } else { Some(self.random.below(waiting.len())) };
            let line = match (self.random.below(3), awaited) {
                (0, Some(k)) => {
                    let neighbour = if waiting[k][3] == 0 { &waiting[k][5..] } else { &waiting[k][3..] };
                    format!("I\t{}\t{}\t98\t{}\n", neighbour[0], neighbour[1], ends(BEGIN, END)).into_bytes()
                }
                (1, _) if !lines.is_empty() => lines[self.random.below(lines.len())].clone(),
                _ => self.random.line(of),
            };
            let written = self.anything(&sheet, &line);
            self.meet("load", "used");
            self.expect(self.last != Reply::Refused(9), "9 was answered after a sheet was loaded");
            if let Some((new, _)) = written {
                self.expect(thrown_for_8(&sheet, &new), "something was thrown out of a loaded sheet, and not for 8");
                sheet = new;
            }
        }
    }

    /// A sheet is built of these lines as they come; what is then done with it; and it must be what the same heap gives
    /// in another order, and what receiving its lines one by one gives.
    fn build(&mut self, lines: &[Vec<u8>]) {
        let heap = self.random.heap(lines);
        let number = if self.random.one_in(30) { self.random.next() >> self.random.below(64) } else { self.number() };
        let Some((built, _)) = self.call(&Call::Build(number, &heap)) else { return };
        let reply = self.last;
        let mut moved: Vec<&[u8]> = lines_of(&heap).collect();
        self.random.shuffle(&mut moved);
        if let Some((again, _)) = self.call(&Call::Build(number, &moved.concat())) {
            self.meet("build", "permuted");
            self.expect((again, self.last) == (built.clone(), reply), "a heap in another order gives another sheet");
        }
        if moved.len() <= 200 {
            if let Some(received) = self.received_ready(&moved) {
                self.meet("build", "received");
                self.expect(received == rows(&built), "building gives other rows than receiving one by one");
            }
        }
        let mut sheet = built;
        for _ in 0..self.random.below(12) {
            let line = if moved.is_empty() { b"I\t1\t1\t97\t0\t0\t0\t1\n" } else { self.random.pick(&moved) };
            if let Some((new, _)) = self.anything(&sheet, line) {
                sheet = new;
            }
        }
    }

    /// The lines come to an empty sheet of any number one by one, each after all it needs, in any such sequence: the
    /// rows that this leaves.
    fn received_ready(&mut self, lines: &[&[u8]]) -> Option<Vec<Vec<u64>>> {
        let number = self.number();
        let (mut sheet, mut left) = (self.begin(number), lines.to_vec());
        loop {
            let ready: Vec<usize> = (0..left.len()).filter(|k| has_needs(&sheet, left[*k])).collect();
            if ready.is_empty() {
                break;
            }
            let line = left.swap_remove(self.random.pick(&ready));
            let written = self.receive(&sheet, line);
            match self.last {
                Reply::Refused(4 | 12) => left.push(line),
                Reply::Refused(8) | Reply::Known => {}
                Reply::Done { .. } => sheet = written.map_or(sheet, |(new, _)| new),
                _ => {
                    self.expect(false, "a line that had all it needs was turned away");
                    return None;
                }
            }
        }
        Some(rows(&sheet))
    }

    fn number(&mut self) -> u64 {
        1 + self.random.below(16) as u64
    }

    fn meet(&mut self, call: &'static str, what: &str) {
        *self.met.entry((call, what.into())).or_default() += 1;
    }

    fn expect(&mut self, holds: bool, otherwise: &str) {
        if !holds {
            self.failed += 1;
            println!("seed {}: {otherwise}", self.seed);
        }
    }

    /// A heap of made-up operations, or of a history with turns.
    fn made_up_heap(&mut self) {
        let random = &mut self.random;
        let lines = if random.one_in(2) {
            random.heap_lines()
        } else {
            let (count, laptops, turns) = (random.below(60), 1 + random.below(16), random.below(20));
            let inserts = random.history_lines(count, laptops);
            let turns = random.turn_lines(&inserts, turns);
            [inserts, turns].concat()
        };
        self.build(&lines);
    }

    /// A heap at or just above its limits, repeats counted: what it has too much of may be repeats, and some line of it
    /// may be out of range, or two inserts disagree. Those within the limits are few, since the reference takes long.
    fn large_heap(&mut self, within: bool) {
        let random = &mut self.random;
        let over = if within { (0, 0) } else { random.pick(&[(1, 0), (1, 0), (0, 1), (0, 1), (1, 1), (1000, 0)]) };
        let (inserts, turns) = (1024 + over.0, if over.1 == 0 { random.pick(&[0, 500, 1024]) } else { 1024 + over.1 });
        let distinct = if random.one_in(3) { random.pick(&[1, 600, 1000]) } else { inserts };
        let lines = random.history_lines(distinct.min(inserts), 16);
        let mut heap: Vec<Vec<u8>> = lines.iter().cycle().take(inserts).cloned().collect();
        if within && random.one_in(3) {
            heap.swap_remove(0);
            heap = heap.into_iter().filter(|line| *line != lines[0]).collect();
        }
        heap.extend(random.turn_lines(&lines, turns));
        if random.one_in(5) {
            heap[0] = b"I\t1\t1\t96\t0\t0\t0\t1\n".to_vec();
        }
        random.shuffle(&mut heap);
        let mut heap = heap.concat();
        if random.one_in(6) {
            heap = random.with_field_replaced(&heap);
        }
        let number = if random.one_in(20) { 17 } else { self.number() };
        if let Some((built, _)) = self.call(&Call::Build(number, &heap)) {
            self.call(&Call::Load(&built));
            self.expect(self.last != Reply::Refused(16), "a sheet that was built is not loaded");
        }
    }

    /// Two laptops get what was sent, each in an order of its own, and one of them of the turns of a character only the
    /// largest. Where all of it could be carried out their rows must be equal.
    fn gather(&mut self, sent: &[Vec<u8>]) {
        let largest = |line: &Vec<u8>| {
            let of = |line: &[u8]| numbers(line, "E").pop().map(|ns| (ns[1], ns[2], ns[3]));
            let Some((laptop, clock, turn)) = of(line) else { return true };
            !sent.iter().filter_map(|other| of(other)).any(|o| (o.0, o.1) == (laptop, clock) && o.2 > turn)
        };
        let fewer: Vec<Vec<u8>> = sent.iter().filter(|line| largest(line)).cloned().collect();
        let Some(all) = self.gathered(sent) else { return };
        let Some(few) = self.gathered(&fewer) else { return };
        *self.met.entry(("receive", "equal".into())).or_default() += 1;
        if rows(&all) != rows(&few) {
            self.failed += 1;
            println!("seed {}: two laptops that have the same edits hold different rows", self.seed);
        }
    }

    /// The sheet of a laptop that gets these lines, each again until it is taken in; none if one is turned away for
    /// good or waits in the end.
    fn gathered(&mut self, lines: &[Vec<u8>]) -> Option<Vec<u8>> {
        let number = 1 + self.random.below(16) as u64;
        let (mut sheet, mut left) = (self.begin(number), lines.to_vec());
        for _ in 0..20 * lines.len() {
            if left.is_empty() {
                break;
            }
            let line = left.swap_remove(self.random.below(left.len()));
            let written = self.receive(&sheet, &line);
            match self.last {
                Reply::Refused(4 | 10 | 12) => left.push(line),
                Reply::Refused(_) => return None,
                _ => sheet = written.map_or(sheet, |(new, _)| new),
            }
        }
        let waits = reference::read_sheet(&sheet).map_or(true, |read| !read.waiting.is_empty());
        (left.is_empty() && !waits).then_some(sheet)
    }

    /// A laptop that lost its sheet begins with an empty one of its number, and all that was sent comes to it again; or
    /// it builds its sheet of all that, or most of it, and then gets the lines of which some were left out.
    fn set_up_anew(&mut self, laptop: &mut Laptop, sent: &[Vec<u8>]) {
        let number = reference::read_sheet(&laptop.sheet).map_or(1, |sheet| sheet.laptop).into();
        if self.random.one_in(2) {
            let heap = self.random.heap(sent);
            if let Some((sheet, _)) = self.call(&Call::Build(number, &heap)) {
                laptop.sheet = sheet;
                laptop.inbox = lines_of(&heap).map(<[u8]>::to_vec).collect();
                return self.meet("build", "anew");
            }
        }
        laptop.sheet = self.begin(number);
        laptop.inbox = sent.to_vec();
        self.meet("receive", "anew");
    }

    /// Some line that is on its way, mostly an early one; it may come again, and comes again if it was turned away.
    fn receive_next(&mut self, laptop: &mut Laptop) -> Written {
        if laptop.inbox.is_empty() {
            return None;
        }
        let reach = if self.random.one_in(3) { laptop.inbox.len() } else { laptop.inbox.len().min(4) };
        let line = laptop.inbox.remove(self.random.below(reach));
        let written = self.receive(&laptop.sheet, &line);
        if written.is_none() && self.random.one_in(2) || self.random.one_in(12) {
            laptop.inbox.push(line);
        }
        written
    }

    /// A damaged or made-up line, a damaged or old sheet that nobody keeps, the text or the counts, or a new sheet.
    fn mishap(&mut self, n: usize, sheet: &[u8], sent: &[Vec<u8>]) -> Written {
        let of = Universe { laptops: 16, clocks: 4 };
        let line = if sent.is_empty() { self.random.line(of) } else { sent[self.random.below(sent.len())].clone() };
        match n {
            91..=93 => {
                let line = self.random.damaged(&line);
                self.receive(sheet, &line)
            }
            94 => {
                let line = self.random.line(of);
                self.receive(sheet, &line)
            }
            95..=97 => {
                let old = self.random.one_in(6);
                let mut sheet = if old { self.random.partly_in_first_form(sheet) } else { self.random.damaged(sheet) };
                if self.random.one_in(3) {
                    sheet = self.random.damaged(&sheet);
                }
                let line = if self.random.one_in(4) { self.random.damaged(&line) } else { line };
                self.anything(&sheet, &line);
                None
            }
            98 => {
                let number = if self.random.one_in(2) { self.random.below(20) as u64 } else { self.random.next() };
                self.call(&Call::Empty(number));
                None
            }
            _ => self.look(sheet),
        }
    }

    /// A made-up sheet, and made-up operations on few identifiers: they wait, collide, release and throw out.
    fn made_up(&mut self) {
        let of = Universe { laptops: 1 + self.random.below(6), clocks: 2 + self.random.below(8) };
        let (rows, waiting) = (self.random.below(14), self.random.below(20));
        let mut sheet = self.random.sheet(of, rows, waiting);
        if self.random.one_in(12) {
            sheet = self.random.shut();
        }
        for _ in 0..20 + self.random.below(30) {
            let line = self.random.line(of);
            if let Some((new, _)) = self.anything(&sheet, &line) {
                sheet = new;
            }
        }
        let (damaged, old) = (self.random.damaged(&sheet), self.random.partly_in_first_form(&sheet));
        let line = self.random.line(of);
        self.anything(&damaged, &line);
        self.anything(&old, &line);
        self.change_form(&sheet);
        for _ in 0..3 {
            self.list_or_answer(&sheet);
            self.rearrange(&sheet);
        }
        let foreign = if self.random.one_in(2) { self.random.foreign(&sheet) } else { sheet };
        let low = if self.random.one_in(3) { with_clock(&foreign, 0) } else { foreign };
        self.load(&low);
    }

    /// Operations that all wait, one way or another, for one insert; then it comes.
    fn awaited(&mut self) {
        match self.random.below(24) {
            0 | 1 => return self.awaited_by_all(),
            2..=7 => return self.awaited_block(),
            _ => {}
        }
        let of = Universe { laptops: 5, clocks: 4 };
        let count = 1 + self.random.below(10);
        let mut sheet = self.random.sheet(of, count, 0);
        let Ok(read) = reference::read_sheet(&sheet) else { return };
        let rows: Vec<Id> = read.rows.iter().map(|r| (r.insert.id.laptop.into(), r.insert.id.clock.into())).collect();
        let waiting = self.random.below(24);
        self.random.add_awaiting(&mut sheet, &rows, 1, waiting);
        for _ in 0..3 {
            let k = self.random.below(rows.len() + 1);
            let previous = if k == 0 { BEGIN } else { rows[k - 1] };
            let next = if k == rows.len() { END } else { rows[k] };
            let line = format!("I\t6\t1\t98\t{}\n", ends(previous, next)).into_bytes();
            if let Some((new, _)) = self.receive(&sheet, &line) {
                sheet = new;
            }
        }
    }

    /// Operations that wait for the characters of a block, or for each other; then it is pasted.
    fn awaited_block(&mut self) {
        let (rows, waiting) = (self.random.below(5), self.random.below(16));
        let mut sheet = with_site(&self.random.sheet(Universe { laptops: 5, clocks: 4 }, rows, 0), 6, 0);
        let Ok(read) = reference::read_sheet(&sheet) else { return };
        let rows: Vec<Id> = read.rows.iter().map(|r| (r.insert.id.laptop.into(), r.insert.id.clock.into())).collect();
        let last = 1 + self.random.below(6);
        self.random.add_awaiting(&mut sheet, &rows, last, waiting);
        for _ in 0..3 {
            if let Some((new, _)) = self.paste_somewhere(&sheet) {
                sheet = new;
            }
        }
    }

    /// The same with operations of all sixteen, up to 32 of each. Most are inserts that come in above the rows, or all.
    fn awaited_by_all(&mut self) {
        let rows = 1 + self.random.below(40);
        let mut sheet = self.random.sheet(Universe { laptops: 5, clocks: 12 }, rows, 0);
        let Ok(read) = reference::read_sheet(&sheet) else { return };
        let top = read.rows[0].insert.id;
        let (top, awaited) = ((top.laptop.into(), top.clock.into()), (6, 30_000));
        let (fewest, all_above) = self.random.pick(&[(0, false), (30, false), (32, false), (32, true)]);
        for sender in 1..=16 {
            for k in 0..fewest + self.random.below(33 - fewest) {
                let ends = match self.random.below(16) {
                    0 if !all_above => ends(awaited, END),
                    1 if !all_above => ends(top, awaited),
                    0..=8 => ends(awaited, top),
                    _ => ends(BEGIN, awaited),
                };
                let line = match self.random.below(40) {
                    0 if !all_above => format!("E\t{sender}\t6\t30000\t{}\n", 1 + k),
                    1 if !all_above && k > 0 => format!("E\t{sender}\t{sender}\t{}\t1\n", 39_999 + k),
                    _ => format!("I\t{sender}\t{}\t97\t{ends}\n", 40_000 + k),
                };
                sheet.extend(line.into_bytes());
            }
        }
        let line = format!("I\t6\t30000\t98\t{}\n", ends(BEGIN, top)).into_bytes();
        for _ in 0..2 {
            self.receive(&sheet, &line);
        }
    }

    /// One sender with nearly its share waiting.
    fn crowded(&mut self) {
        let of = Universe { laptops: 5, clocks: 4 };
        let (sender, rows, count) = (1 + self.random.below(5), self.random.below(5), 29 + self.random.below(5));
        let mut sheet = self.random.sheet(of, rows, 0);
        sheet.extend(self.random.crowd(sender, count).0);
        for k in 0..12 {
            let line = match self.random.below(5) {
                0 => format!("D\t{sender}\t15\t{}\n", 100 + k / 4).into_bytes(),
                4 => format!("E\t{sender}\t15\t{}\t{}\n", 100 + k / 4, self.random.turn()).into_bytes(),
                1 => format!("I\t{sender}\t{}\t97\t15\t99\t0\t1\n", 200 + k).into_bytes(),
                2 if k > 8 => format!("I\t{sender}\t60000\t97\t0\t0\t0\t1\n").into_bytes(),
                _ => self.random.line(of),
            };
            if let Some((new, _)) = self.receive(&sheet, &line) {
                sheet = new;
            }
        }
    }

    /// A sheet at or near its limit of 1,024 rows and waiting inserts, or between that and the small ones.
    fn large(&mut self, full: bool) {
        let of = Universe { laptops: 16, clocks: 70 };
        let (sender, count) = (1 + self.random.below(16), self.random.pick(&[0, 1, 12, 31, 32]));
        let (crowd, inserts) = self.random.crowd(sender, count);
        let free = self.random.pick(&[0, 0, 0, 1, 2, 20]);
        let beyond = usize::from(self.random.one_in(8));
        let rows = if full { 1024 + beyond - inserts - free } else { 100 + self.random.below(400) };
        let mut sheet = self.random.sheet(of, rows, 0);
        sheet.extend(crowd);
        if self.random.one_in(if full { 2 } else { 10 }) {
            self.paste_large(&sheet);
        }
        if self.random.one_in(2) {
            let within = self.random.one_in(8);
            self.large_heap(within);
        }
        for _ in 0..6 {
            let line = match self.random.below(5) {
                0 => format!("I\t{sender}\t60000\t97\t0\t0\t0\t1\n").into_bytes(),
                1 => format!("I\t{sender}\t50000\t97\t{sender}\t60001\t0\t1\n").into_bytes(),
                2 => format!("I\t{}\t50001\t97\t{sender}\t60001\t0\t1\n", sender % 16 + 1).into_bytes(),
                _ => self.random.line(of),
            };
            let sheet_or_not = if self.random.one_in(8) { self.random.damaged(&sheet) } else { sheet.clone() };
            if let Some((new, _)) = self.anything(&sheet_or_not, &line) {
                sheet = new;
            }
        }
        for _ in 0..3 {
            self.list_or_answer(&sheet);
            self.rearrange(&sheet);
        }
    }
}

impl Tester {
    /// As many characters as the sheet has room for, or one more; an insert may wait that the first of them throws out,
    /// so that one by one there would be room.
    fn paste_large(&mut self, sheet: &[u8]) {
        let mut sheet = with_site(sheet, 15, 40_000);
        if self.random.one_in(2) {
            self.random.add_waiting(&mut sheet, b"I\t16\t39000\t97\t15\t40001\t15\t40001\n".to_vec());
        }
        let Some(counts) = reference::counts_call(&sheet).counts else { return };
        let codes = CODE_POINTS.iter().cycle().take(counts.room + self.random.below(2));
        let block: String = codes.filter_map(|code| char::from_u32(*code)).collect();
        let gap = self.random.below(counts.shown + 1) as u64;
        self.call(&Call::Paste(&sheet, gap, block.as_bytes()));
    }
}

/// Every reply that each call can give, and waiting operations carried and thrown out.
const TO_MEET: [(&str, &str); 18] = [
    ("empty", "done 2 12"),
    ("receive", "done waits known releasing throwing raising anew hiding showing behind equal 1 2 3 7 8 9 10 11 12"),
    (
        "receive_at",
        "done waits known releasing throwing raising hiding showing behind own own-block -1 +0 +1 +n +513 \
         known-beyond 4-or-waits 1 2 3 4 7 8 9 10 11 12",
    ),
    ("moved", "sum below above"),
    ("type", "done releasing throwing 1 2 3 4 5 9 11 12"),
    ("erase", "done raising 1 2 3 4 12"),
    ("restore", "done raising 1 2 3 13 14 12"),
    (
        "paste",
        "done releasing throwing empty empty-or-5 empty-or-9 empty-or-11 hidden hidden-at-top pushed 1-or-20 2-or-20 \
         20-or-3 5-or-9 5-later 11-or-9 11-later 9-later 1 2 20 3 4 5 11 9 12",
    ),
    (
        "build",
        "done nothing all crossing needing not-larger repeats own-clock clock-left-out 1024 left-out-1025 anew \
         permuted received 1-or-more 2-line 2-number 2-or-17 2-or-7 17-inserts 17-turns 17-repeats 17-or-7 7-left-out \
         1 2 17 7 12",
    ),
    (
        "load",
        "done same raising waiting turned 1024 received used 16-order 16-never-all 16-waiting 16-1024 1 2 3 16 12",
    ),
    ("list", "done nothing hidden waiting several many first-bit last-bit last-index 1024 1 2 3 12"),
    (
        "answer",
        "done nothing everything some not-rising none-free turn-listed even-turn hidden waiting not-held own-number \
         1024-listed 1024 caught-up no-premise not-taken both-before both-after 1-sheet 1-list 2-or-18 2-total \
         2-laptop 2-index 2-word 18-total 18-zero 18-sequence 18-repeated 18-two-words 18-overfull 18-1025-lines \
         18-or-3 1 2 18 3 12",
    ),
    ("text", "done 1 2 3 12"),
    ("counts", "done 1 2 3"),
    ("upgrade", "done raising returning E shown twice 1 2 3 12"),
    ("downgrade", "done raising returning D waiting 1 2 3 15 12"),
    (
        "archive",
        "done nothing rising moved hidden waiting 1024 returning 1-archive 3-low 3-form 3-1025 1 2 3 12",
    ),
    (
        "unarchive",
        "done nothing rising moved hidden waiting 1024 returning 1-sheet 1-both 2-place-0 2-place-1025 2-or-19 \
         19-beyond 19-twice 19-falls 19-repeated 19-1025 19-or-3 3-low 3-form 1 2 19 3 12",
    ),
];

impl Tester {
    fn new() -> Tester {
        let (met, start, told) = (BTreeMap::new(), Instant::now(), Duration::ZERO);
        Tester { random: Random(0), seed: 0, calls: 0, failed: 0, last: Reply::Known, met, start, told }
    }

    /// Says now and then how far it is.
    fn tell(&mut self) {
        let elapsed = self.start.elapsed();
        if elapsed >= self.told + BETWEEN_LINES {
            self.told = elapsed;
            let (seconds, calls, failed, seed) = (elapsed.as_secs(), self.calls, self.failed, self.seed);
            println!("{seconds} s: {calls} calls, {failed} with a difference; at seed {seed}");
        }
    }

    /// What a seed stands for, a large sheet or one of the others.
    fn run(&mut self, seed: u64, large: bool) {
        self.seed = seed;
        self.random = Random(seed);
        match seed % 8 {
            k if large => self.large(k % 2 == 0),
            0 => self.crowded(),
            1 | 2 => self.history(),
            3 | 4 => self.made_up(),
            5 => (0..6).for_each(|_| self.made_up_heap()),
            _ => self.awaited(),
        }
    }

    /// Passed and failed: each call, and each reply that had to be met.
    fn fixed_seeds() -> (u64, u64) {
        let mut tester = Tester::new();
        for seed in 0.. {
            if seed >= LARGE_SHEETS && tester.calls >= SMALL_CALLS {
                break;
            }
            tester.run(seed, seed < LARGE_SHEETS);
            tester.tell();
        }
        let (mut passed, mut failed) = (tester.calls - tester.failed, tester.failed);
        for (call, replies) in TO_MEET {
            let mut line = format!("{call}:");
            for reply in replies.split(' ') {
                let count = tester.met.get(&(call, reply.to_string())).copied().unwrap_or(0);
                line += &format!(" {reply} ({count})");
                if count == 0 {
                    println!("{call} never answered {reply}");
                    failed += 1;
                } else {
                    passed += 1;
                }
            }
            println!("{line}");
        }
        (passed, failed)
    }

    /// Passed and failed calls, from a seed on until the time is over or a seed shows a difference. One seed in
    /// sixty-one is a large sheet, which takes as long as dozens of small ones.
    fn soak(time: Duration, first: u64) -> (u64, u64) {
        let mut tester = Tester::new();
        println!("from seed {first} for {} s", time.as_secs());
        for seed in first..=u64::MAX {
            tester.run(seed, seed % 61 == 0);
            tester.tell();
            if tester.failed > 0 {
                println!("a difference at seed {seed}: 'make soak SECONDS=0 SEED={seed}' finds it again");
            }
            if tester.failed > 0 || tester.start.elapsed() >= time {
                break;
            }
        }
        (tester.calls - tester.failed, tester.failed)
    }
}

fn main() {
    let given: Vec<Option<u64>> = std::env::args().skip(1).map(|word| word.parse().ok()).collect();
    let (passed, failed) = match given[..] {
        [] => Tester::fixed_seeds(),
        [Some(seconds), Some(seed)] => Tester::soak(Duration::from_secs(seconds), seed),
        _ => {
            eprintln!("usage: differential [SECONDS SEED], two whole numbers");
            std::process::exit(2);
        }
    };
    println!("{passed} passed, {failed} failed");
    std::process::exit(i32::from(failed > 0));
}
