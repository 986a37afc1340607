//! Times the C calls of the static library, saved sheets in and out, against the same calls of the plain Rust in
//! tests/native/reference.rs; and pasting against typing through the library, building against receiving, archiving
//! against showing and upgrading, and all of these, loading, listing and answering against the Rust with a table in
//! tabled.rs. Both sides leave the same bytes, which is checked on the way.

#[path = "../tests/native/library.rs"]
#[allow(dead_code)]
mod library;
#[path = "../tests/native/reference.rs"]
#[allow(dead_code)]
mod reference;
#[allow(dead_code)]
mod table;
#[allow(dead_code)]
mod tabled;

use library::{
    wimtaze_answer, wimtaze_archive, wimtaze_build, wimtaze_erase, wimtaze_list, wimtaze_load, wimtaze_paste,
    wimtaze_receive, wimtaze_text, wimtaze_type, wimtaze_unarchive, wimtaze_upgrade,
};
use reference::{
    erase_call, operation_line, placed_bytes, read_archive, read_heap, read_numbers, read_sheet, read_unraised,
    receive_call, saved_bytes, sheet_bytes, text_call, type_call, Form, Outcome, Reply,
};
use tabled::Tabled;

const COUNT: u64 = 1024;
const TEXTS: usize = 100;
const SHEET: usize = 51_212;
const LINES: usize = 37_888;
const LIST: usize = 31_754;
const ANSWER: usize = 56_320;
const ARCHIVE: usize = 56_332;

/// What the calls leave: the saved sheet, and the lines that were sent.
#[derive(Clone, PartialEq)]
struct Left {
    sheet: Vec<u8>,
    lines: Vec<Vec<u8>>,
}

fn empty(laptop: u8) -> Left {
    Left { sheet: format!("S2\t{laptop}\t0\n").into_bytes(), lines: Vec::new() }
}

impl Left {
    fn keep(&mut self, new: Outcome) {
        self.sheet = new.first;
        if !new.line.is_empty() {
            self.lines.push(new.line);
        }
    }

    fn keep_written(&mut self, returned: u64, sheet: &[u8], line: &[u8]) {
        assert_eq!(returned & 3, 0);
        self.sheet.clear();
        self.sheet.extend_from_slice(&sheet[..(returned >> 32 & 0xffff) as usize]);
        let sent = (returned >> 48) as usize;
        if sent > 0 {
            self.lines.push(line[..sent].to_vec());
        }
    }

    /// One number for all that was left.
    fn sum(&self) -> u64 {
        let all = self.sheet.iter().chain(self.lines.iter().flatten());
        all.fold(17, |sum: u64, &b| sum.wrapping_mul(31).wrapping_add(u64::from(b)))
    }
}

/// The gap of the k-th character: at the end, but every fourth in the middle.
fn gap(k: u64) -> u64 {
    if k % 4 == 3 {
        k / 2
    } else {
        k
    }
}

fn typed_plain() -> Left {
    let mut left = empty(1);
    for k in 0..COUNT {
        let new = type_call(&left.sheet, gap(k), 97 + (k % 26) as u32);
        left.keep(new);
    }
    left
}

fn typed(gap: fn(u64) -> u64) -> Left {
    let (mut left, mut sheet, mut line) = (empty(1), [0u8; SHEET], [0u8; 37]);
    for k in 0..COUNT {
        let (s, l, code) = (&left.sheet, &mut line, 97 + (k % 26) as u32);
        let r = unsafe {
            wimtaze_type(s.as_ptr(), s.len(), gap(k), code, sheet.as_mut_ptr(), SHEET, l.as_mut_ptr(), l.len())
        };
        left.keep_written(r, &sheet, &line);
    }
    left
}

/// What `typed` types, where each character is typed below the one before.
fn block() -> Vec<u8> {
    (0..COUNT).map(|k| 97 + (k % 26) as u8).collect()
}

/// The block, pasted so many times into an empty sheet.
fn pasted(times: usize) -> Left {
    let (text, mut sheet, mut lines) = (block(), [0u8; SHEET], [0u8; LINES]);
    let mut left = empty(1);
    for _ in 0..times {
        left = empty(1);
        let (s, f, l) = (&left.sheet, sheet.as_mut_ptr(), lines.as_mut_ptr());
        let r = unsafe { wimtaze_paste(s.as_ptr(), s.len(), 0, text.as_ptr(), text.len(), f, SHEET, l, LINES) };
        left.keep_written(r, &sheet, &lines);
    }
    left
}

fn pasted_tabled(times: usize) -> Left {
    let text = block();
    let mut left = empty(1);
    for _ in 0..times {
        left = empty(1);
        let mut sheet = Tabled::of(read_sheet(&left.sheet).unwrap());
        let (reply, sent) = sheet.paste(0, &text);
        assert_eq!(reply, Reply::Done { carried: text.len(), thrown: 0 });
        left.sheet = sheet_bytes(&sheet.sheet());
        left.lines.push(sent.iter().flat_map(operation_line).collect());
    }
    left
}

fn received_plain(lines: &[Vec<u8>]) -> Left {
    let mut left = empty(2);
    for line in lines {
        let new = receive_call(&left.sheet, line);
        left.keep(new);
    }
    left
}

fn received(lines: &[Vec<u8>]) -> Left {
    let (mut left, mut sheet) = (empty(2), [0u8; SHEET]);
    for l in lines {
        let s = &left.sheet;
        let r = unsafe { wimtaze_receive(s.as_ptr(), s.len(), l.as_ptr(), l.len(), sheet.as_mut_ptr(), SHEET) };
        left.keep_written(r, &sheet, &[]);
    }
    left
}

fn erased_plain(from: &Left) -> Left {
    let mut left = Left { sheet: from.sheet.clone(), lines: Vec::new() };
    for k in 0..COUNT {
        let new = erase_call(&left.sheet, (COUNT - k) / 2 + 1);
        left.keep(new);
    }
    left
}

fn erased(from: &Left) -> Left {
    let (mut sheet, mut line) = ([0u8; SHEET], [0u8; 37]);
    let mut left = Left { sheet: from.sheet.clone(), lines: Vec::new() };
    for k in 0..COUNT {
        let (s, l, place) = (&left.sheet, &mut line, (COUNT - k) / 2 + 1);
        let r = unsafe {
            wimtaze_erase(s.as_ptr(), s.len(), place, sheet.as_mut_ptr(), SHEET, l.as_mut_ptr(), l.len())
        };
        left.keep_written(r, &sheet, &line);
    }
    left
}

fn shown(from: &Left) -> u64 {
    let mut text = [0u8; 4096];
    let s = &from.sheet;
    let r = (0..TEXTS).map(|_| unsafe { wimtaze_text(s.as_ptr(), s.len(), text.as_mut_ptr(), text.len()) }).max();
    r.unwrap_or(0) >> 32 & 0xffff
}

fn shown_plain(from: &Left) -> u64 {
    (0..TEXTS).map(|_| text_call(&from.sheet).first.len() as u64).max().unwrap_or(0)
}

/// The sheet of laptop 2, built so many times of a heap.
fn built(heap: &[u8], times: usize) -> Left {
    let (mut left, mut sheet) = (empty(2), [0u8; SHEET]);
    for _ in 0..times {
        let r = unsafe { wimtaze_build(2, heap.as_ptr(), heap.len(), sheet.as_mut_ptr(), SHEET) };
        left.keep_written(r, &sheet, &[]);
    }
    left
}

fn built_tabled(heap: &[u8], times: usize) -> Left {
    let mut left = empty(2);
    for _ in 0..times {
        let (operations, all_pass) = read_heap(heap).unwrap();
        assert!(all_pass);
        let (sheet, _) = Tabled::build(2, &operations).unwrap_or_else(|n| panic!("refused with {n}"));
        left.sheet = sheet_bytes(&sheet.sheet());
    }
    left
}

/// The sheet, loaded for use so many times.
fn loaded(from: &[u8], times: usize) -> Left {
    let (mut left, mut sheet) = (empty(2), [0u8; SHEET]);
    for _ in 0..times {
        let r = unsafe { wimtaze_load(from.as_ptr(), from.len(), sheet.as_mut_ptr(), SHEET) };
        left.keep_written(r, &sheet, &[]);
    }
    left
}

fn loaded_tabled(from: &[u8], times: usize) -> Left {
    let mut left = empty(2);
    for _ in 0..times {
        let sheet = Tabled::of(read_numbers(from, Form::Second).unwrap());
        sheet.load().unwrap_or_else(|n| panic!("refused with {n}"));
        left.sheet = sheet_bytes(&sheet.sheet());
    }
    left
}

/// The list of a sheet, written so many times.
fn listed(from: &[u8], times: usize) -> Left {
    let (mut left, mut list) = (empty(2), [0u8; LIST]);
    for _ in 0..times {
        let r = unsafe { wimtaze_list(from.as_ptr(), from.len(), list.as_mut_ptr(), LIST) };
        left.keep_written(r, &list, &[]);
    }
    left
}

fn listed_tabled(from: &[u8], times: usize) -> Left {
    let mut left = empty(2);
    for _ in 0..times {
        let sheet = Tabled::of(read_numbers(from, Form::Second).unwrap());
        left.sheet = sheet.list().unwrap_or_else(|n| panic!("refused with {n}"));
    }
    left
}

/// What a sheet answers to a list, written so many times.
fn answered(from: &[u8], list: &[u8], times: usize) -> Left {
    let (mut left, mut answer) = (empty(2), [0u8; ANSWER]);
    for _ in 0..times {
        let (s, a) = (from.as_ptr(), answer.as_mut_ptr());
        let r = unsafe { wimtaze_answer(s, from.len(), list.as_ptr(), list.len(), a, ANSWER) };
        left.keep_written(r, &answer, &[]);
    }
    left
}

fn answered_tabled(from: &[u8], list: &[u8], times: usize) -> Left {
    let mut left = empty(2);
    for _ in 0..times {
        let sheet = Tabled::of(read_numbers(from, Form::Second).unwrap());
        left.sheet = sheet.answer(list).unwrap_or_else(|n| panic!("refused with {n}"));
    }
    left
}

/// The archive of a sheet, written so many times.
fn archived(from: &[u8], times: usize) -> Left {
    let (mut left, mut archive) = (empty(2), [0u8; ARCHIVE]);
    for _ in 0..times {
        let r = unsafe { wimtaze_archive(from.as_ptr(), from.len(), archive.as_mut_ptr(), ARCHIVE) };
        left.keep_written(r, &archive, &[]);
    }
    left
}

fn archived_tabled(from: &[u8], times: usize) -> Left {
    let mut left = empty(2);
    for _ in 0..times {
        let read = read_unraised(from, Form::Second).and_then(Tabled::formed);
        let sheet = read.unwrap_or_else(|n| panic!("refused with {n}"));
        let placed = sheet.by_author();
        left.sheet = placed_bytes(&sheet.sheet(), &placed);
    }
    left
}

/// The sheet of an archive, written so many times.
fn unarchived(from: &[u8], times: usize) -> Left {
    let (mut left, mut sheet) = (empty(2), [0u8; SHEET]);
    for _ in 0..times {
        let r = unsafe { wimtaze_unarchive(from.as_ptr(), from.len(), sheet.as_mut_ptr(), SHEET) };
        left.keep_written(r, &sheet, &[]);
    }
    left
}

fn unarchived_tabled(from: &[u8], times: usize) -> Left {
    let mut left = empty(2);
    for _ in 0..times {
        let read = read_archive(from).and_then(Tabled::formed);
        left.sheet = sheet_bytes(&read.unwrap_or_else(|n| panic!("refused with {n}")).sheet());
    }
    left
}

/// The text of a sheet and the way forward of the same in the first form, so many times each: what both calls read and
/// write, without the rearranging.
fn shown_and_upgraded(from: &[u8], old: &[u8], times: usize) -> u64 {
    let (mut text, mut sheet, mut last) = ([0u8; 4096], [0u8; SHEET], 0);
    for _ in 0..times {
        let shown = unsafe { wimtaze_text(from.as_ptr(), from.len(), text.as_mut_ptr(), text.len()) };
        let upgraded = unsafe { wimtaze_upgrade(old.as_ptr(), old.len(), sheet.as_mut_ptr(), SHEET) };
        last = (shown | upgraded) & 3;
    }
    last
}

/// The list that marks nothing, to which everything is answered.
const NOTHING: &[u8] = b"H\t2\t0\n";

type Row = ((u64, u64), (u64, u64), (u64, u64));

/// The sheet of laptop 2 with these rows.
fn sheet_of(rows: impl Iterator<Item = Row>) -> Vec<u8> {
    let numbers = |((l, c), (pl, pc), (nl, nc)): Row| format!("C\t{l}\t{c}\t97\t0\t{pl}\t{pc}\t{nl}\t{nc}\n");
    let rows: String = rows.map(numbers).collect();
    [b"S2\t2\t65535\n", rows.as_bytes()].concat()
}

/// All rows between the marks: any two are a pair to be compared.
fn between_the_marks(ids: &[(u64, u64)]) -> Vec<u8> {
    sheet_of(ids.iter().map(|id| (*id, (0, 0), (0, 1))))
}

/// The sheet that takes longest, of those that we found, with these identifiers from the lowest. Each row of the upper
/// half has as its next the one that is as far from the bottom, and that has as its previous the row below the first. So
/// the rows can be taken away from the middle only, one in each pass, and most pairs are to be compared as well.
fn crosswise(mut ids: Vec<(u64, u64)>) -> Vec<u8> {
    ids.sort();
    let (last, half) = (ids.len() - 1, ids.len() / 2);
    let row = |k: usize| match k {
        _ if k < half => (ids[k], (0, 0), ids[last - k]),
        _ if k == half => (ids[k], (0, 0), (0, 1)),
        _ => (ids[k], ids[last - k + 1], (0, 1)),
    };
    sheet_of((0..ids.len()).map(row))
}

/// Rows each of which needs the one above it and the one below, so that none is ever free until the one before is sent:
/// no history makes them.
fn going_round(ids: &[(u64, u64)]) -> Vec<u8> {
    let before = std::iter::once(&(0, 0)).chain(ids);
    let behind = ids[1..].iter().chain(std::iter::once(&(0, 1)));
    sheet_of(ids.iter().zip(before).zip(behind).map(|((id, previous), next)| (*id, *previous, *next)))
}

/// Identifiers from the highest to the lowest.
fn falling() -> Vec<(u64, u64)> {
    rising().into_iter().rev().collect()
}

/// The same in an order by chance.
fn by_chance() -> Vec<(u64, u64)> {
    shuffled(&rising())
}

/// Identifiers of which each is in a word of its own.
fn apart() -> Vec<(u64, u64)> {
    (0..COUNT).map(|k| (k / 64 + 1, k % 64 * 64 + 63)).collect()
}

/// 1,024 inserts of sixteen laptops in turn, each after the one before, and an `E` line for each.
fn joined_late() -> Vec<Vec<u8>> {
    let ids: Vec<_> = (0..COUNT).map(|k| (k % 16 + 1, k / 16 + 1)).collect();
    let line = |k: usize, (l, c): (u64, u64)| format!("E\t{}\t{l}\t{c}\t{}\n", k % 16 + 1, k % 4 + 1).into_bytes();
    let turns = ids.iter().enumerate().map(|(k, id)| line(k, *id));
    typed_as(&ids).into_iter().chain(turns).collect()
}

/// The same lines or identifiers in an order by chance, the same each time.
fn shuffled<T: Clone>(all: &[T]) -> Vec<T> {
    let (mut all, mut seed) = (all.to_vec(), 1u64);
    for k in (1..all.len()).rev() {
        seed = seed.wrapping_mul(6_364_136_223_846_793_005).wrapping_add(1_442_695_040_888_963_407);
        all.swap(k, (seed >> 33) as usize % (k + 1));
    }
    all
}

fn insert_line(id: (u64, u64), previous: (u64, u64), next: (u64, u64)) -> Vec<u8> {
    format!("I\t{}\t{}\t97\t{}\t{}\t{}\t{}\n", id.0, id.1, previous.0, previous.1, next.0, next.1).into_bytes()
}

/// 64 identifiers of each laptop, rising.
fn rising() -> Vec<(u64, u64)> {
    (0..COUNT).map(|k| (k / 64 + 1, k % 64 + 1)).collect()
}

/// A chain of 512, and then inserts between the marks, each of which passes all of it one by one.
fn behind_a_chain() -> Vec<u8> {
    let ids = rising();
    let others = ids[512..].iter().rev().map(|id| insert_line(*id, (0, 0), (0, 1)));
    typed_as(&ids[..512]).into_iter().chain(others).flatten().collect()
}

/// The heap that takes longest, of those that we found, with these identifiers. A chain stands above 32 rows, and each
/// of the others goes above one of these: it passes all of the chain one by one, and at each step those that are there
/// already are no candidates, which is seen only when both of their neighbours were looked up.
fn enemys_heap(mut ids: Vec<(u64, u64)>) -> Vec<u8> {
    let (chain, ends) = (341, 32);
    ids.sort();
    let (rows, others) = ids.split_at(chain + ends);
    let mut lines = typed_as(rows);
    for (group, end) in others.chunks(others.len().div_ceil(ends)).zip(&rows[chain..]) {
        lines.extend(group.iter().rev().map(|id| insert_line(*id, rows[20], *end)));
    }
    lines.concat()
}

/// Inserts of these identifiers, each after the one before.
fn typed_as(ids: &[(u64, u64)]) -> Vec<Vec<u8>> {
    let before = std::iter::once(&(0, 0)).chain(ids);
    ids.iter().zip(before).map(|((l, c), (pl, pc))| format!("I\t{l}\t{c}\t97\t{pl}\t{pc}\t0\t1\n").into_bytes()).collect()
}

/// Identifiers as an enemy of the library's table would choose them: all of one chain, which at most 1,027 share, and with
/// as many low bits alike as can be, so that its tree is deep. No choice of 512 makes the walks longer by a twentieth.
fn colliding(count: usize) -> Vec<(u64, u64)> {
    let key = |&(l, c): &(u64, u64)| l * 65_536 + c;
    let all = (1..=16).flat_map(|l| (1..=65_535).map(move |c| (l, c)));
    let mut chosen: Vec<_> = all.filter(|id| (key(id) * 2_654_435_769 >> 22) % 1024 == 789).collect();
    chosen.sort_by_key(|id| std::cmp::Reverse(key(id).reverse_bits()));
    chosen.truncate(count);
    chosen
}

fn main() {
    let full = typed_plain();
    table::row("wimtaze_type, 1,024 characters", &|| typed_plain().sum(), &|| typed(gap).sum());
    let lines = full.lines.clone();
    table::row("wimtaze_receive, their 1,024 lines", &|| received_plain(&lines).sum(), &|| received(&lines).sum());
    table::row("wimtaze_erase, all of them", &|| erased_plain(&full).sum(), &|| erased(&full).sum());
    table::row("wimtaze_text, 100 times 1,024 characters", &|| shown_plain(&full), &|| shown(&full));
    let usual = typed_as(&(0..512).map(|k| (k % 16 + 1, k / 16 + 1)).collect::<Vec<_>>());
    table::row("wimtaze_receive, 512 lines", &|| received_plain(&usual).sum(), &|| received(&usual).sum());
    let enemy = typed_as(&colliding(512));
    table::row("the same, their identifiers all of one chain", &|| received_plain(&enemy).sum(), &|| received(&enemy).sum());
    table::row("paste 1,024, against 1,024 of wimtaze_type", &|| typed(|k| k).sum(), &|| pasted(1).sum());
    table::row("10 times, against the Rust with a table", &|| pasted_tabled(10).sum(), &|| pasted(10).sum());
    let lines = joined_late();
    let heap = lines.concat();
    table::row("build of 2,048 lines, against receiving them", &|| received(&lines).sum(), &|| built(&heap, 1).sum());
    let heaps = [
        ("10 times, against the Rust with a table", heap, 10),
        ("the same in an order by chance", shuffled(&lines).concat(), 10),
        ("the same from the last line to the first", lines.iter().rev().flatten().copied().collect(), 10),
        ("build of a chain, and 512 between the marks", behind_a_chain(), 1),
        ("build of the slowest heap that we found", enemys_heap(rising()), 1),
    ];
    for (name, heap, times) in &heaps {
        table::row(name, &|| built_tabled(heap, *times).sum(), &|| built(heap, *times).sum());
    }
    let enemy = enemys_heap(colliding(COUNT as usize));
    table::alone("the same, its identifiers all of one chain", &|| built(&enemy, 1).sum());
    let of_heap = built(&lines.concat(), 1).sheet;
    let sheets = [
        ("10 times wimtaze_load, of 1,024 rows typed", &full.sheet),
        ("the same of those that were built", &of_heap),
        ("the same with all rows between the marks", &between_the_marks(&rising())),
        ("the same of the slowest sheet that we found", &crosswise(rising())),
        ("the same, its identifiers all of one chain", &crosswise(colliding(COUNT as usize))),
    ];
    for (name, sheet) in &sheets {
        table::row(name, &|| loaded_tabled(sheet, 10).sum(), &|| loaded(sheet, 10).sum());
    }
    lists(&full.sheet, &of_heap);
    archives(&of_heap);
}

/// Archiving and the way back, of rows that sixteen laptops typed in turn, each after the one before, and of such as
/// stand between the marks in an order by chance and from the highest to the lowest.
fn archives(in_turn: &[u8]) {
    let (chance, falling) = (between_the_marks(&by_chance()), between_the_marks(&falling()));
    let sheets = [("typed in turn", in_turn), ("by chance", &chance), ("falling", &falling)];
    for (name, sheet) in sheets {
        let archive = archived(sheet, 1).sheet;
        let old = saved_bytes(&without_turns(sheet), Form::First);
        table::row(&format!("10 times wimtaze_archive, {name}"), &|| archived_tabled(sheet, 10).sum(), &|| {
            archived(sheet, 10).sum()
        });
        table::row("the same, against text and upgrade", &|| shown_and_upgraded(sheet, &old, 10), &|| {
            u64::from(archived(sheet, 10).sheet != archive)
        });
        table::row(&format!("10 times wimtaze_unarchive, {name}"), &|| unarchived_tabled(&archive, 10).sum(), &|| {
            unarchived(&archive, 10).sum()
        });
        table::row("the same, against text and upgrade", &|| shown_and_upgraded(sheet, &old, 10), &|| {
            u64::from(unarchived(&archive, 10).sheet != sheet)
        });
    }
}

/// The sheet with no turn above 1, so that the first form can say it.
fn without_turns(sheet: &[u8]) -> reference::Sheet {
    let mut sheet = read_sheet(sheet).unwrap();
    sheet.rows.iter_mut().for_each(|row| row.turn %= 2);
    sheet
}

/// Listing, and answering everything, on a sheet that was typed, one that was built, and such as are chosen for it.
fn lists(typed: &[u8], built: &[u8]) {
    let sheets = [
        ("10 times wimtaze_list, of 1,024 rows typed", typed),
        ("the same of those that were built", built),
        ("the same with a word for each row", &between_the_marks(&apart())),
        ("the same, its identifiers all of one chain", &between_the_marks(&colliding(COUNT as usize))),
    ];
    for (name, sheet) in sheets {
        table::row(name, &|| listed_tabled(sheet, 10).sum(), &|| listed(sheet, 10).sum());
    }
    let sheets = [
        ("10 times wimtaze_answer, of 1,024 rows typed", typed),
        ("the same of those that were built, with turns", built),
        ("the same with all rows between the marks", &between_the_marks(&rising())),
        ("the same of rows that go round", &going_round(&rising())),
        ("the same, its identifiers all of one chain", &crosswise(colliding(COUNT as usize))),
    ];
    for (name, sheet) in sheets {
        table::row(name, &|| answered_tabled(sheet, NOTHING, 10).sum(), &|| answered(sheet, NOTHING, 10).sum());
    }
    let own = listed(typed, 1).sheet;
    table::row("the same to a list of all that is typed", &|| answered_tabled(typed, &own, 10).sum(), &|| {
        answered(typed, &own, 10).sum()
    });
}
