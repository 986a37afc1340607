//! The C calls with the table of tabled.rs, as a Rust programmer would write them for speed: a saved sheet is split
//! into lines and these into fields, the numbers are read into rows and a table, the form is checked, the edit carried
//! out, and all of the new sheet written. The outputs are vectors of the caller, which grow: so there is no refusal 12.

use crate::reference::{is_code_point, Id, Insert, Operation, Reply, Row, Sheet, Turn};
use crate::tabled::{insert_passes, is_character, passes, Tabled, ROWS};

/// A number above every range, which stands for all of more than eight digits.
const ABOVE: u32 = 100_000_000;

/// A field of digits, or refusal 1.
fn number(field: &[u8]) -> Result<u32, u8> {
    let mut n = 0u32;
    for b in field {
        if !b.is_ascii_digit() {
            return Err(1);
        }
        n = n.wrapping_mul(10).wrapping_add(u32::from(b - b'0'));
    }
    match field {
        [] | [b'0', _, ..] => Err(1),
        _ if field.len() > 8 => Ok(ABOVE),
        _ => Ok(n),
    }
}

/// The numbers of a line with this word.
fn numbers<const N: usize>(line: &[u8], word: &[u8]) -> Result<[u32; N], u8> {
    let mut fields = line.split(|b| *b == b'\t');
    if fields.next() != Some(word) {
        return Err(1);
    }
    let mut all = [0; N];
    for n in &mut all {
        *n = number(fields.next().ok_or(1)?)?;
    }
    if fields.next().is_some() { Err(1) } else { Ok(all) }
}

fn id(laptop: u32, clock: u32) -> Option<Id> {
    Some(Id { laptop: laptop.try_into().ok()?, clock: clock.try_into().ok()? })
}

/// The insert with these numbers, if they pass.
fn insert([l, c, code, pl, pc, nl, nc]: [u32; 7]) -> Option<Insert> {
    let insert = Insert { id: id(l, c)?, code, previous: id(pl, pc)?, next: id(nl, nc)? };
    Some(insert).filter(insert_passes)
}

fn row([l, c, code, turn, pl, pc, nl, nc]: [u32; 8]) -> Option<Row> {
    Some(Row { insert: insert([l, c, code, pl, pc, nl, nc])?, turn: turn.try_into().ok()? })
}

fn turn([sender, l, c, turn]: [u32; 4]) -> Option<Operation> {
    let turn = Turn { sender: sender.try_into().ok()?, id: id(l, c)?, turn: turn.try_into().ok()? };
    Some(Operation::Turn(turn)).filter(passes)
}

/// A line that waits: refusal 1, or none if a number is out of its range.
fn waiting(line: &[u8]) -> Result<Option<Operation>, u8> {
    match line.first() {
        Some(b'I') => Ok(insert(numbers(line, b"I")?).map(Operation::Insert)),
        _ => Ok(turn(numbers(line, b"E")?)),
    }
}

/// The operation of a line that was sent, with its line feed and nothing after it.
fn operation(line: &[u8]) -> Result<Operation, u8> {
    let Some((b'\n', line)) = line.split_last() else { return Err(1) };
    let read = match line.first() {
        Some(b'D') => numbers(line, b"D").map(|[sender, l, c]| turn([sender, l, c, 1]))?,
        _ => waiting(line)?,
    };
    read.ok_or(2)
}

/// The numbers of a saved sheet: refusals 1 and 2 over the whole of it, in this order.
fn numbers_of(bytes: &[u8]) -> Result<Sheet, u8> {
    let Some((b'\n', lines)) = bytes.split_last() else { return Err(1) };
    let mut lines = lines.split(|b| *b == b'\n');
    let head = numbers(lines.next().ok_or(1)?, b"S2").map(|[laptop, clock]| id(laptop, clock))?;
    let mut all_pass = matches!(head, Some(Id { laptop: 1..=16, .. }));
    let (mut rows, mut wait) = (Vec::with_capacity(ROWS), Vec::new());
    let mut rows_over = false;
    for line in lines {
        if line.first() == Some(&b'C') && !rows_over {
            match row(numbers(line, b"C")?) {
                Some(row) => rows.push(row),
                None => all_pass = false,
            }
            continue;
        }
        rows_over = true;
        match waiting(line)? {
            Some(o) => wait.push(o),
            None => all_pass = false,
        }
    }
    match head {
        Some(Id { laptop, clock }) if all_pass => Ok(Sheet { laptop, clock, rows, waiting: wait }),
        _ => Err(2),
    }
}

/// What a call was handed, the sheet among it, or the lowest ground of 1 and 2; and then 3 where the table has no room.
fn read<T>(sheet: &[u8], other: Result<T, u8>) -> Result<(Tabled, T), u8> {
    match (numbers_of(sheet), other) {
        (Ok(sheet), Ok(_)) if sheet.rows.len() > ROWS => Err(3),
        (Ok(sheet), Ok(other)) => Ok((Tabled::raised(sheet), other)),
        (Err(m), Err(n)) => Err(m.min(n)),
        (Err(n), _) | (_, Err(n)) => Err(n),
    }
}

/// A line that is being written, in an array of its own: no line is longer. The digits are put by hand, since `write!`
/// takes four times as long.
struct Line {
    bytes: [u8; 64],
    end: usize,
}

impl Line {
    fn of(word: &[u8]) -> Line {
        let mut line = Line { bytes: [0; 64], end: word.len() };
        line.bytes[..word.len()].copy_from_slice(word);
        line
    }

    fn put(&mut self, byte: u8) {
        self.bytes[self.end] = byte;
        self.end += 1;
    }

    /// A tab, and the digits of a number of at most seven.
    fn number(&mut self, n: impl Into<u32>) {
        let n = n.into();
        self.put(b'\t');
        for unit in [1_000_000, 100_000, 10_000, 1000, 100, 10] {
            if n >= unit {
                self.put(b'0' + (n / unit % 10) as u8);
            }
        }
        self.put(b'0' + (n % 10) as u8);
    }

    fn id(&mut self, id: Id) {
        self.number(id.laptop);
        self.number(id.clock);
    }

    fn finish(mut self, out: &mut Vec<u8>) {
        self.put(b'\n');
        out.extend_from_slice(&self.bytes[..self.end]);
    }
}

fn write_row(out: &mut Vec<u8>, row: &Row) {
    let Insert { id, code, previous, next } = row.insert;
    let mut line = Line::of(b"C");
    line.id(id);
    line.number(code);
    line.number(row.turn);
    line.id(previous);
    line.id(next);
    line.finish(out);
}

fn write_operation(out: &mut Vec<u8>, o: &Operation) {
    match o {
        Operation::Insert(i) => {
            let mut line = Line::of(b"I");
            line.id(i.id);
            line.number(i.code);
            line.id(i.previous);
            line.id(i.next);
            line.finish(out);
        }
        Operation::Turn(t) => {
            let mut line = Line::of(b"E");
            line.number(t.sender);
            line.id(t.id);
            line.number(t.turn);
            line.finish(out);
        }
    }
}

fn write_sheet(out: &mut Vec<u8>, sheet: &Sheet) {
    out.clear();
    let mut line = Line::of(b"S2");
    line.id(Id { laptop: sheet.laptop, clock: sheet.clock });
    line.finish(out);
    sheet.rows.iter().for_each(|row| write_row(out, row));
    sheet.waiting.iter().for_each(|o| write_operation(out, o));
}

/// The outputs of a call: the sheet, and the line of a call that sends one.
#[derive(Default)]
pub struct Outputs {
    pub sheet: Vec<u8>,
    pub line: Vec<u8>,
}

impl Outputs {
    /// Writes what the call leaves, unless it is refused or known, and packs the reply as the library does.
    fn answer(&mut self, reply: Reply, sheet: Tabled, sent: Option<Operation>) -> u64 {
        let word = match reply {
            Reply::Done { carried, thrown } => (carried as u64) << 8 | (thrown as u64) << 20,
            Reply::Waits => 1,
            Reply::Known => return 2,
            Reply::Refused(n) => return refused(n),
        };
        write_sheet(&mut self.sheet, &sheet.sheet());
        self.line.clear();
        sent.iter().for_each(|o| write_operation(&mut self.line, o));
        word | (self.sheet.len() as u64) << 32 | (self.line.len() as u64) << 48
    }
}

fn refused(n: u8) -> u64 {
    3 | u64::from(n) << 2
}

pub fn receive_call(sheet: &[u8], line: &[u8], out: &mut Outputs) -> u64 {
    match read(sheet, operation(line)) {
        Ok((mut sheet, operation)) => out.answer(sheet.receive(&operation), sheet, None),
        Err(n) => refused(n),
    }
}

pub fn type_call(sheet: &[u8], gap: u64, code: u32, out: &mut Outputs) -> u64 {
    match read(sheet, if is_code_point(code) { Ok(()) } else { Err(2) }) {
        Ok((mut sheet, ())) => {
            let (reply, sent) = sheet.type_at(gap, code);
            out.answer(reply, sheet, sent)
        }
        Err(n) => refused(n),
    }
}

pub fn erase_call(sheet: &[u8], place: u64, out: &mut Outputs) -> u64 {
    match read(sheet, Ok(())) {
        Ok((mut sheet, ())) => {
            let (reply, sent) = sheet.erase(place);
            out.answer(reply, sheet, sent)
        }
        Err(n) => refused(n),
    }
}

pub fn restore_call(sheet: &[u8], laptop: u64, clock: u64, out: &mut Outputs) -> u64 {
    let named = u8::try_from(laptop).ok().zip(u16::try_from(clock).ok());
    let named = named.map(|(laptop, clock)| Id { laptop, clock }).filter(|named| is_character(*named));
    match read(sheet, named.ok_or(2)) {
        Ok((mut sheet, named)) => {
            let (reply, sent) = sheet.restore(named);
            out.answer(reply, sheet, sent)
        }
        Err(n) => refused(n),
    }
}
