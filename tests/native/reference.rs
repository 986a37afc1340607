//! Document 01, read with the requests of 02 that have landed, written out plainly: sheets, placing, waiting, lines and
//! saved sheets, for comparison with the library. It follows the papers' sentences and words, with plain searches, and
//! shares nothing with the library.

use std::ops::RangeInclusive;

#[derive(Clone, Copy, PartialEq, Eq, PartialOrd, Ord, Debug)]
pub struct Id {
    pub laptop: u8,
    pub clock: u16,
}

pub const BEGIN: Id = Id { laptop: 0, clock: 0 };
pub const END: Id = Id { laptop: 0, clock: 1 };

#[derive(Clone, Copy, PartialEq, Eq, Debug)]
pub struct Insert {
    pub id: Id,
    pub code: u32,
    pub previous: Id,
    pub next: Id,
}

/// What erasing and restoring send (Req 05).
#[derive(Clone, Copy, PartialEq, Eq, Debug)]
pub struct Turn {
    pub sender: u8,
    pub id: Id,
    pub turn: u8,
}

#[derive(Clone, Copy, PartialEq, Eq, Debug)]
pub enum Operation {
    Insert(Insert),
    Turn(Turn),
}

#[derive(Clone, Copy, PartialEq, Eq, Debug)]
pub struct Row {
    pub insert: Insert,
    pub turn: u8,
}

impl Row {
    /// A row is shown when its turn is even.
    pub fn shown(&self) -> bool {
        self.turn % 2 == 0
    }
}

#[derive(Clone, PartialEq, Eq, Debug)]
pub struct Sheet {
    pub laptop: u8,
    pub clock: u16,
    pub rows: Vec<Row>,
    pub waiting: Vec<Operation>,
}

#[derive(Clone, Copy, PartialEq, Eq, Debug)]
pub enum Reply {
    Done { carried: usize, thrown: usize },
    Waits,
    Known,
    Refused(u8),
}

const MOST_ROWS: usize = 1024;
const MOST_WAITING: usize = 32;
/// Of a heap's inserts, and of its erase or restore lines.
const MOST_IN_HEAP: usize = 1024;
/// Of a laptop, each with 64 clocks (Req 09).
const WORDS: usize = 1024;

fn is_laptop(n: u8) -> bool {
    (1..=16).contains(&n)
}

fn is_character(id: Id) -> bool {
    is_laptop(id.laptop) && id.clock >= 1
}

pub fn is_code_point(n: u32) -> bool {
    n <= 1_114_111 && !(55_296..=57_343).contains(&n)
}

/// What goes out on the printed sheet: U+FFFD for every ASCII control character but tab and line feed.
fn printed(code: u32) -> char {
    let c = char::from_u32(code).unwrap();
    let stays = !c.is_ascii_control() || c == '\t' || c == '\n';
    if stays { c } else { '\u{FFFD}' }
}

impl Insert {
    fn passes(&self) -> bool {
        is_character(self.id)
            && is_code_point(self.code)
            && (self.previous == BEGIN || is_character(self.previous))
            && (self.next == END || is_character(self.next))
            && self.previous != self.id
            && self.next != self.id
    }
}

impl Operation {
    /// What refusal 2 lets pass.
    pub fn passes(&self) -> bool {
        match self {
            Operation::Insert(i) => i.passes(),
            Operation::Turn(t) => is_laptop(t.sender) && is_character(t.id) && t.turn >= 1,
        }
    }

    fn sender(&self) -> u8 {
        match self {
            Operation::Insert(i) => i.id.laptop,
            Operation::Turn(t) => t.sender,
        }
    }
}

/// Where placing stops, or that there are rows between and no candidate.
enum Place {
    After(usize),
    NoCandidate,
}

impl Sheet {
    pub fn empty(laptop: u8) -> Sheet {
        Sheet { laptop, clock: 0, rows: Vec::new(), waiting: Vec::new() }
    }

    /// The begin mark is at 0, row k (from 1) at k, the end mark one past the last row.
    fn place(&self, id: Id) -> Option<usize> {
        if id == BEGIN {
            return Some(0);
        }
        if id == END {
            return Some(self.rows.len() + 1);
        }
        self.rows.iter().position(|r| r.insert.id == id).map(|k| k + 1)
    }

    fn has_all(&self, o: &Operation) -> bool {
        match o {
            Operation::Insert(i) => self.place(i.previous).is_some() && self.place(i.next).is_some(),
            Operation::Turn(t) => self.place(t.id).is_some(),
        }
    }

    fn waiting_inserts(&self) -> impl Iterator<Item = &Insert> {
        self.waiting.iter().filter_map(|o| match o {
            Operation::Insert(i) => Some(i),
            Operation::Turn(_) => None,
        })
    }

    fn inserts(&self) -> usize {
        self.rows.len() + self.waiting_inserts().count()
    }

    /// The clock becomes the larger of itself and that of an insert with the laptop's own number (Req 04).
    fn hear(&mut self, i: &Insert) {
        if i.id.laptop == self.laptop && i.id.clock > self.clock {
            self.clock = i.id.clock;
        }
    }

    /// The same over the rows and the waiting inserts, as loading does.
    fn hear_all(&mut self) {
        let held: Vec<Insert> = self.rows.iter().map(|r| r.insert).collect();
        let waiting: Vec<Insert> = self.waiting_inserts().copied().collect();
        for i in held.iter().chain(&waiting) {
            self.hear(i);
        }
    }

    /// The clock is not below that of any row or waiting insert that has the laptop's own number.
    fn clock_kept(&self) -> bool {
        let mut all = self.rows.iter().map(|r| r.insert.id).chain(self.waiting_inserts().map(|i| i.id));
        !all.any(|id| id.laptop == self.laptop && id.clock > self.clock)
    }

    fn identifier_used(&self, id: Id) -> bool {
        self.rows.iter().any(|r| r.insert.id == id) || self.waiting_inserts().any(|i| i.id == id)
    }

    pub fn in_form(&self) -> bool {
        if !is_laptop(self.laptop) || !self.rows.iter().all(|r| r.insert.passes()) {
            return false;
        }
        if !self.waiting.iter().all(|o| o.passes()) || self.inserts() > MOST_ROWS {
            return false;
        }
        if !self.clock_kept() {
            return false;
        }
        for laptop in 1..=16 {
            if self.waiting.iter().filter(|o| o.sender() == laptop).count() > MOST_WAITING {
                return false;
            }
        }
        for (k, r) in self.rows.iter().enumerate() {
            if self.place(r.insert.id) != Some(k + 1) {
                return false;
            }
        }
        for (k, o) in self.waiting.iter().enumerate() {
            let before = &self.waiting[..k];
            let twice = match o {
                Operation::Insert(i) => {
                    self.place(i.id).is_some()
                        || before.iter().any(|p| matches!(p, Operation::Insert(j) if j.id == i.id))
                }
                Operation::Turn(_) => before.contains(o),
            };
            if twice || self.has_all(o) {
                return false;
            }
        }
        self.rows.iter().enumerate().all(|(k, r)| {
            matches!(self.place(r.insert.previous), Some(p) if p < k + 1)
                && matches!(self.place(r.insert.next), Some(n) if k + 1 < n)
        })
    }

    fn place_between(&self, c: Id, mut a: usize, mut b: usize) -> Place {
        while a + 1 < b {
            let mut candidates = Vec::new();
            for k in a + 1..b {
                let row = &self.rows[k - 1].insert;
                let above = matches!(self.place(row.previous), Some(p) if p <= a);
                if above && matches!(self.place(row.next), Some(n) if n >= b) {
                    candidates.push(k);
                }
            }
            if candidates.is_empty() {
                return Place::NoCandidate;
            }
            for k in candidates {
                if self.rows[k - 1].insert.id < c {
                    a = k;
                } else {
                    b = k;
                    break;
                }
            }
        }
        Place::After(a)
    }

    /// Condition 8 or 9, or the place above the new row. Both neighbours are held.
    fn find_place(&self, i: &Insert) -> Result<usize, u8> {
        let a = self.place(i.previous).unwrap();
        let b = self.place(i.next).unwrap();
        if a >= b {
            return Err(8);
        }
        match self.place_between(i.id, a, b) {
            Place::After(k) => Ok(k),
            Place::NoCandidate => Err(9),
        }
    }

    fn row(&self, id: Id) -> Option<&Row> {
        self.rows.iter().find(|r| r.insert.id == id)
    }

    /// The row takes the larger of its turn and the operation's.
    fn turn(&mut self, t: &Turn) {
        for r in self.rows.iter_mut().filter(|r| r.insert.id == t.id) {
            r.turn = r.turn.max(t.turn);
        }
    }

    /// Puts the row in, and carries out what that releases.
    fn carry_insert(&mut self, i: Insert, k: usize) -> Reply {
        self.rows.insert(k, Row { insert: i, turn: 0 });
        self.hear(&i);
        let (mut carried, mut thrown) = (1, 0);
        while let Some(j) = self.waiting.iter().position(|o| self.has_all(o)) {
            match self.waiting.remove(j) {
                Operation::Turn(t) => {
                    self.turn(&t);
                    carried += 1;
                }
                Operation::Insert(i) => match self.find_place(&i) {
                    Ok(k) => {
                        self.rows.insert(k, Row { insert: i, turn: 0 });
                        self.hear(&i);
                        carried += 1;
                    }
                    Err(_) => thrown += 1,
                },
            }
        }
        Reply::Done { carried, thrown }
    }

    fn known(&self, o: &Operation) -> bool {
        let held = match o {
            Operation::Insert(i) => self.rows.iter().any(|r| r.insert == *i),
            Operation::Turn(t) => self.row(t.id).is_some_and(|r| t.turn <= r.turn),
        };
        held || self.waiting.contains(o)
    }

    pub fn receive(&mut self, o: &Operation) -> Reply {
        if !o.passes() {
            return Reply::Refused(2);
        }
        if !self.in_form() {
            return Reply::Refused(3);
        }
        if self.known(o) {
            return Reply::Known;
        }
        if let Operation::Insert(i) = o {
            if self.identifier_used(i.id) {
                return Reply::Refused(7);
            }
        }
        let ready = self.has_all(o);
        let mut place = 0;
        if let (true, Operation::Insert(i)) = (ready, o) {
            match self.find_place(i) {
                Ok(k) => place = k,
                Err(n) => return Reply::Refused(n),
            }
        }
        if !ready && self.waiting.iter().filter(|w| w.sender() == o.sender()).count() >= MOST_WAITING {
            return Reply::Refused(10);
        }
        if matches!(o, Operation::Insert(_)) && self.inserts() >= MOST_ROWS {
            return Reply::Refused(11);
        }
        match (ready, o) {
            (true, Operation::Insert(i)) => self.carry_insert(*i, place),
            (true, Operation::Turn(t)) => {
                self.turn(t);
                Reply::Done { carried: 1, thrown: 0 }
            }
            (false, _) => {
                self.waiting.push(*o);
                if let Operation::Insert(i) = o {
                    self.hear(i);
                }
                Reply::Waits
            }
        }
    }

    fn shown(&self) -> Vec<Id> {
        self.rows.iter().filter(|r| r.shown()).map(|r| r.insert.id).collect()
    }

    /// The gap just below a row that the sheet holds; if the row is hidden, below the nearest shown row above it, or at
    /// the begin mark (Req 02).
    fn gap_below(&self, id: Id) -> usize {
        let place = self.rows.iter().position(|r| r.insert.id == id).unwrap();
        match self.rows[..=place].iter().rev().find(|r| r.shown()) {
            Some(nearest) => 1 + self.shown().iter().position(|s| *s == nearest.insert.id).unwrap(),
            None => 0,
        }
    }

    /// Receiving with a gap, the cursor: the reply, and how far the cursor moves to keep to the row on its left.
    pub fn receive_at(&mut self, o: &Operation, gap: u64) -> (Reply, i32) {
        let shown = self.shown();
        if gap > shown.len() as u64 {
            let answered_before = !o.passes() || !self.in_form() || self.known(o);
            let reply = if answered_before { self.receive(o) } else { Reply::Refused(4) };
            return (reply, 0);
        }
        let gap = gap as usize;
        let reply = self.receive(o);
        let new = if gap == 0 { 0 } else { self.gap_below(shown[gap - 1]) };
        (reply, new as i32 - gap as i32)
    }

    /// Typing at a gap: the reply, and the operation to be sent.
    pub fn type_at(&mut self, gap: u64, code: u32) -> (Reply, Option<Operation>) {
        let refused = |n| (Reply::Refused(n), None);
        if !is_code_point(code) {
            return refused(2);
        }
        if !self.in_form() {
            return refused(3);
        }
        let shown = self.shown();
        if gap > shown.len() as u64 {
            return refused(4);
        }
        if self.clock == 65_535 {
            return refused(5);
        }
        let gap = gap as usize;
        let id = Id { laptop: self.laptop, clock: self.clock + 1 };
        if self.identifier_used(id) {
            return refused(6);
        }
        let previous = if gap == 0 { BEGIN } else { shown[gap - 1] };
        let next = if gap == shown.len() { END } else { shown[gap] };
        let i = Insert { id, code, previous, next };
        let place = match self.find_place(&i) {
            Ok(k) => k,
            Err(n) => return refused(n),
        };
        if self.inserts() >= MOST_ROWS {
            return refused(11);
        }
        self.clock += 1;
        (self.carry_insert(i, place), Some(Operation::Insert(i)))
    }

    /// Pasting characters at a gap (Req 11): the reply, and the inserts to be sent. It equals typing them one after
    /// another, all or none, once the clock and the room are seen to be enough for all of them.
    pub fn paste_at(&mut self, gap: u64, codes: &[u32]) -> (Reply, Vec<Operation>) {
        let refused = |n| (Reply::Refused(n), Vec::new());
        if !self.in_form() {
            return refused(3);
        }
        if gap > self.shown().len() as u64 {
            return refused(4);
        }
        if usize::from(self.clock) + codes.len() > 65_535 {
            return refused(5);
        }
        if self.inserts() + codes.len() > MOST_ROWS {
            return refused(11);
        }
        let (mut typed, mut gap, mut sent) = (self.clone(), gap, Vec::new());
        let (mut all_carried, mut all_thrown) = (0, 0);
        for code in codes {
            match typed.type_at(gap, *code) {
                (Reply::Done { carried, thrown }, Some(operation)) => {
                    all_carried += carried;
                    all_thrown += thrown;
                    sent.push(operation);
                }
                (reply, _) => return (reply, Vec::new()),
            }
            gap = typed.gap_below(Id { laptop: typed.laptop, clock: typed.clock }) as u64;
        }
        *self = typed;
        (Reply::Done { carried: all_carried, thrown: all_thrown }, sent)
    }

    /// Building from a heap (Req 08): its operations are received one by one, each after all it needs, as often as
    /// some can be; the count is of those that never can, and of those that meet condition 8. The sequence is the
    /// heap's from its end.
    pub fn build(laptop: u8, heap: &[Operation]) -> (Sheet, usize) {
        let (mut sheet, mut left, mut left_out) = (Sheet::empty(laptop), Vec::new(), 0);
        for o in heap {
            if !left.contains(o) {
                left.push(*o);
            }
        }
        while left.iter().any(|o| sheet.has_all(o)) {
            for o in std::mem::take(&mut left).into_iter().rev() {
                if !sheet.has_all(&o) {
                    left.insert(0, o);
                } else if sheet.receive(&o) == Reply::Refused(8) {
                    left_out += 1;
                }
            }
        }
        let own = heap.iter().filter_map(|o| match o {
            Operation::Insert(i) if i.id.laptop == laptop => Some(i.id.clock),
            _ => None,
        });
        sheet.clock = own.max().unwrap_or(0);
        (sheet, left_out + left.len())
    }

    /// What receiving leaves of these rows, begun from an empty sheet: their inserts come one by one, each after both
    /// of its neighbours, as often as some can, and then their turns. Those that go round in a circle never come.
    pub fn made_anew(&self) -> Vec<Row> {
        let mut made = Sheet::empty(1);
        let mut left: Vec<Operation> = self.rows.iter().map(|r| Operation::Insert(r.insert)).collect();
        while let Some(k) = left.iter().position(|o| made.has_all(o)) {
            made.receive(&left.remove(k));
        }
        for r in self.rows.iter().filter(|r| r.turn > 0) {
            made.receive(&Operation::Turn(Turn { sender: 1, id: r.insert.id, turn: r.turn }));
        }
        made.rows
    }

    /// The words of the list of its rows (Req 09), waiting inserts left out: those that are not 0, by rising laptop and
    /// then rising index.
    fn words(&self) -> Vec<Word> {
        let mut table = vec![[0u64; WORDS]; 17];
        for Id { laptop, clock } in self.rows.iter().map(|r| r.insert.id) {
            table[usize::from(laptop)][usize::from(clock / 64)] |= 1 << (clock % 64);
        }
        let of = |(laptop, words): (usize, &[u64; WORDS])| -> Vec<Word> {
            let nonzero = words.iter().enumerate().filter(|(_, word)| **word > 0);
            nonzero.map(|(index, word)| Word { laptop: laptop as u8, index: index as u16, word: *word }).collect()
        };
        table.iter().enumerate().flat_map(of).collect()
    }

    /// The answer to a list of these identifiers: the inserts of the rows that are not listed, the next always the
    /// lowest whose needs are not still to be sent, or the lowest of all that are left; then the turns from the top.
    pub fn answer(&self, listed: &[Id]) -> Vec<Operation> {
        let unlisted = self.rows.iter().map(|r| r.insert).filter(|i| !listed.contains(&i.id));
        let (mut left, mut sent) = (unlisted.collect::<Vec<Insert>>(), Vec::new());
        left.sort_by_key(|i| i.id);
        while !left.is_empty() {
            let still = |id: Id| left.binary_search_by_key(&id, |i| i.id).is_ok();
            let next = left.iter().position(|i| !still(i.previous) && !still(i.next)).unwrap_or(0);
            sent.push(Operation::Insert(left.remove(next)));
        }
        for r in self.rows.iter().filter(|r| r.turn > 0) {
            sent.push(Operation::Turn(Turn { sender: self.laptop, id: r.insert.id, turn: r.turn }));
        }
        sent
    }

    /// Erasing at a place, counted from 1.
    pub fn erase_at(&mut self, place: u64) -> (Reply, Option<Operation>) {
        if !self.in_form() {
            return (Reply::Refused(3), None);
        }
        let shown = self.shown();
        if place == 0 || place > shown.len() as u64 {
            return (Reply::Refused(4), None);
        }
        self.raise(shown[place as usize - 1])
    }

    /// Restoring the row of an identifier: 13 and then 14 come where 4 would.
    pub fn restore(&mut self, id: Id) -> (Reply, Option<Operation>) {
        if !is_character(id) {
            return (Reply::Refused(2), None);
        }
        if !self.in_form() {
            return (Reply::Refused(3), None);
        }
        match self.row(id) {
            None => (Reply::Refused(13), None),
            Some(r) if r.shown() => (Reply::Refused(13), None),
            Some(r) if r.turn == 255 => (Reply::Refused(14), None),
            Some(_) => self.raise(id),
        }
    }

    /// Raises a row's turn by one, and sends it.
    fn raise(&mut self, id: Id) -> (Reply, Option<Operation>) {
        let turn = self.row(id).unwrap().turn + 1;
        let t = Turn { sender: self.laptop, id, turn };
        self.turn(&t);
        (Reply::Done { carried: 1, thrown: 0 }, Some(Operation::Turn(t)))
    }

    /// Whether a row or a waiting line has a turn above 1.
    fn turned_again(&self) -> bool {
        let waiting = |o: &Operation| matches!(o, Operation::Turn(t) if t.turn > 1);
        self.rows.iter().any(|r| r.turn > 1) || self.waiting.iter().any(waiting)
    }

    /// The visible text, if the sheet is in form.
    pub fn text(&self) -> Result<Vec<u8>, u8> {
        if !self.in_form() {
            return Err(3);
        }
        let text: String = self
            .rows
            .iter()
            .filter(|r| r.shown())
            .map(|r| printed(r.insert.code))
            .collect();
        Ok(text.into_bytes())
    }
}

// ---- UTF-8

/// The bytes 10xxxxxx.
const TAIL: RangeInclusive<u8> = 0x80..=0xbf;

/// RFC 3629's syntax of a character, section 4: how many bytes follow the first, and which of them may stand second.
fn followers(first: u8) -> Option<(usize, RangeInclusive<u8>)> {
    match first {
        0x00..=0x7f => Some((0, TAIL)),
        0xc2..=0xdf => Some((1, TAIL)),
        0xe0 => Some((2, 0xa0..=0xbf)),
        0xe1..=0xec => Some((2, TAIL)),
        0xed => Some((2, 0x80..=0x9f)),
        0xee..=0xef => Some((2, TAIL)),
        0xf0 => Some((3, 0x90..=0xbf)),
        0xf1..=0xf3 => Some((3, TAIL)),
        0xf4 => Some((3, 0x80..=0x8f)),
        _ => None,
    }
}

/// The code points of a block, if all of it is UTF-8.
pub fn read_block(block: &[u8]) -> Option<Vec<u32>> {
    let (mut codes, mut rest) = (Vec::new(), block);
    while let Some((first, behind)) = rest.split_first() {
        let (count, second) = followers(*first)?;
        let others = behind.get(..count)?;
        let allowed = |(k, b): (usize, &u8)| if k == 0 { second.contains(b) } else { TAIL.contains(b) };
        if !others.iter().enumerate().all(allowed) {
            return None;
        }
        let bits = u32::from(first & [0x7f, 0x1f, 0x0f, 0x07][count]);
        codes.push(others.iter().fold(bits, |code, b| code << 6 | u32::from(b & 0x3f)));
        rest = &behind[count..];
    }
    Some(codes)
}

// ---- lines

/// A field of digits; what is too large for the paper's numbers is told as one larger than all of them.
fn number(field: &[u8]) -> Option<u64> {
    if field.is_empty() || (field.len() > 1 && field[0] == b'0') {
        return None;
    }
    let mut n: u64 = 0;
    for b in field {
        if !b.is_ascii_digit() {
            return None;
        }
        n = (n * 10 + u64::from(b - b'0')).min(1 << 40);
    }
    Some(n)
}

fn numbers(line: &[u8], word: &str, count: usize) -> Option<Vec<u64>> {
    let mut fields = line.split(|b| *b == b'\t');
    if fields.next() != Some(word.as_bytes()) {
        return None;
    }
    let all: Option<Vec<u64>> = fields.map(number).collect();
    all.filter(|ns| ns.len() == count)
}

fn id(laptop: u64, clock: u64) -> Option<Id> {
    Some(Id { laptop: u8::try_from(laptop).ok()?, clock: u16::try_from(clock).ok()? })
}

fn insert_of(ns: &[u64]) -> Option<Insert> {
    let i = Insert {
        id: id(ns[0], ns[1])?,
        code: u32::try_from(ns[2]).ok()?,
        previous: id(ns[3], ns[4])?,
        next: id(ns[5], ns[6])?,
    };
    Some(i).filter(Insert::passes)
}

fn turn_of(ns: &[u64]) -> Option<Operation> {
    let t = Turn { sender: u8::try_from(ns[0]).ok()?, id: id(ns[1], ns[2])?, turn: u8::try_from(ns[3]).ok()? };
    Some(Operation::Turn(t)).filter(Operation::passes)
}

/// The saved forms. Every call reads and writes the second; the way forward alone reads the first, which is document
/// 01's, and the way back alone writes it (Req 06).
#[derive(Clone, Copy, PartialEq, Eq, Debug)]
pub enum Form {
    First,
    Second,
}

impl Form {
    /// What a saved sheet begins with.
    fn begins(self) -> &'static str {
        match self {
            Form::First => "S",
            Form::Second => "S2",
        }
    }

    /// The turn of a row, from the number after its code point: shown, 1 or 0, in the first form.
    fn turn(self, number: u64) -> Option<u8> {
        match (self, number) {
            (Form::First, 1) => Some(0),
            (Form::First, 0) => Some(1),
            (Form::First, _) => None,
            (Form::Second, turn) => u8::try_from(turn).ok(),
        }
    }

    /// The number after the code point of a row with this turn, which in the first form is 0 or 1.
    fn number(self, turn: u8) -> u8 {
        match self {
            Form::First => 1 - turn,
            Form::Second => turn,
        }
    }
}

/// A line, without its line feed, as it waits in a saved sheet: no layout, or the operation if its numbers pass. Where
/// the second form has an `E` line the first has a `D` line, which is turn 1.
fn waiting_of(line: &[u8], form: Form) -> Option<Option<Operation>> {
    if let Some(ns) = numbers(line, "I", 7) {
        return Some(insert_of(&ns).map(Operation::Insert));
    }
    match form {
        Form::First => numbers(line, "D", 3).map(|ns| turn_of(&[ns[0], ns[1], ns[2], 1])),
        Form::Second => numbers(line, "E", 4).map(|ns| turn_of(&ns)),
    }
}

/// The same of a line that was sent, which may be of either form.
fn operation_of(line: &[u8]) -> Option<Option<Operation>> {
    waiting_of(line, Form::Second).or_else(|| waiting_of(line, Form::First))
}

/// The operation of the first line, whatever follows it.
pub fn read_operation(bytes: &[u8]) -> Result<Operation, u8> {
    let end = bytes.iter().position(|b| *b == b'\n').ok_or(1)?;
    operation_of(&bytes[..end]).ok_or(1)?.ok_or(2)
}

pub fn operation_line(o: &Operation) -> Vec<u8> {
    let line = match o {
        Operation::Insert(i) => format!(
            "I\t{}\t{}\t{}\t{}\t{}\t{}\t{}\n",
            i.id.laptop, i.id.clock, i.code, i.previous.laptop, i.previous.clock, i.next.laptop, i.next.clock
        ),
        Operation::Turn(t) => format!("E\t{}\t{}\t{}\t{}\n", t.sender, t.id.laptop, t.id.clock, t.turn),
    };
    line.into_bytes()
}

/// The operations of a heap (Req 08), each with its line feed: none if it lacks the layout, and without those whose
/// numbers do not pass, and whether all do.
pub fn read_heap(bytes: &[u8]) -> Option<(Vec<Operation>, bool)> {
    let Some((end, lines)) = bytes.split_last() else { return Some((Vec::new(), true)) };
    if *end != b'\n' {
        return None;
    }
    let read: Option<Vec<Option<Operation>>> = lines.split(|b| *b == b'\n').map(operation_of).collect();
    let read = read?;
    Some((read.iter().flatten().copied().collect(), read.iter().all(Option::is_some)))
}

/// A `K` line (Req 09).
#[derive(Clone, Copy, PartialEq, Eq, Debug)]
pub struct Word {
    pub laptop: u8,
    pub index: u16,
    pub word: u64,
}

impl Word {
    /// The identifiers that it stands for: bit j is clock 64 times index plus j.
    fn identifiers(&self) -> impl Iterator<Item = Id> + '_ {
        let bits = (0..64).filter(|j| self.word >> j & 1 == 1);
        bits.map(|j| Id { laptop: self.laptop, clock: 64 * self.index + j })
    }
}

/// A `K` line without its line feed: no layout, or the word if its numbers pass. The last may have more digits than any
/// other number.
fn word_of(line: &[u8]) -> Option<Option<Word>> {
    let ns = numbers(line, "K", 3)?;
    let digits = String::from_utf8_lossy(line.rsplit(|b| *b == b'\t').next()?);
    let word = digits.parse().ok().filter(|word| *word >= 1);
    let passes = (1..=16).contains(&ns[0]) && ns[1] < WORDS as u64;
    let word = word.filter(|_| passes).map(|word| Word { laptop: ns[0] as u8, index: ns[1] as u16, word });
    Some(word)
}

/// The identifiers of a list: refusals 1, 2 and 18 over the whole of it, in this order. Its laptop is judged for its
/// range alone.
pub fn read_list(bytes: &[u8]) -> Result<Vec<Id>, u8> {
    let Some((b'\n', lines)) = bytes.split_last() else { return Err(1) };
    let mut lines = lines.split(|b| *b == b'\n');
    let head = numbers(lines.next().unwrap(), "H", 2).ok_or(1)?;
    let words: Vec<Option<Word>> = lines.map(word_of).collect::<Option<_>>().ok_or(1)?;
    if !(1..=16).contains(&head[0]) || head[1] > MOST_ROWS as u64 || words.contains(&None) {
        return Err(2);
    }
    let words: Vec<Word> = words.into_iter().flatten().collect();
    let ones: u64 = words.iter().map(|w| u64::from(w.word.count_ones())).sum();
    let out_of_sequence = |pair: &[Word]| (pair[0].laptop, pair[0].index) >= (pair[1].laptop, pair[1].index);
    if head[1] != ones || words.windows(2).any(out_of_sequence) {
        return Err(18);
    }
    let listed: Vec<Id> = words.iter().flat_map(Word::identifiers).collect();
    if listed.iter().any(|id| id.clock == 0) { Err(18) } else { Ok(listed) }
}

pub fn list_bytes(s: &Sheet) -> Vec<u8> {
    let words = s.words();
    let total: u32 = words.iter().map(|w| w.word.count_ones()).sum();
    let mut list = format!("H\t{}\t{total}\n", s.laptop);
    for w in words {
        list += &format!("K\t{}\t{}\t{}\n", w.laptop, w.index, w.word);
    }
    list.into_bytes()
}

/// A `C` line without its line feed: no layout, or the row if its numbers pass.
fn row_of(line: &[u8], form: Form) -> Option<Option<Row>> {
    numbers(line, "C", 8).map(|ns| row_from(&ns, form))
}

fn row_from(ns: &[u64], form: Form) -> Option<Row> {
    let insert = insert_of(&[ns[0], ns[1], ns[2], ns[4], ns[5], ns[6], ns[7]])?;
    Some(Row { insert, turn: form.turn(ns[3])? })
}

/// The same of a `P` line (Req 10): the row, and its place before it.
fn placed_of(line: &[u8]) -> Option<Option<(usize, Row)>> {
    let ns = numbers(line, "P", 9)?;
    let place = usize::try_from(ns[0]).ok().filter(|place| (1..=MOST_ROWS).contains(place));
    Some(place.zip(row_from(&ns[1..], Form::Second)))
}

/// A file that begins as a saved sheet, has rows that are read so, and then what waits: a sheet without rows, and the
/// rows. Refusals 1 and 2 are over the whole of it, in this order.
fn read_file<R>(bytes: &[u8], form: Form, row: impl Fn(&[u8]) -> Option<Option<R>>) -> Result<(Sheet, Vec<R>), u8> {
    if bytes.last() != Some(&b'\n') {
        return Err(1);
    }
    let mut lines = bytes[..bytes.len() - 1].split(|b| *b == b'\n');
    let head = numbers(lines.next().unwrap(), form.begins(), 2).ok_or(1)?;
    let mut passes = (1..=16).contains(&head[0]) && head[1] <= 65_535;
    let mut sheet = Sheet::empty(head[0].min(255) as u8);
    sheet.clock = head[1].min(65_535) as u16;
    let (mut rows, mut rows_over) = (Vec::new(), false);
    for line in lines {
        if let Some(read) = row(line) {
            if rows_over {
                return Err(1);
            }
            match read {
                Some(r) => rows.push(r),
                None => passes = false,
            }
        } else {
            rows_over = true;
            match waiting_of(line, form).ok_or(1)? {
                Some(o) => sheet.waiting.push(o),
                None => passes = false,
            }
        }
    }
    if passes { Ok((sheet, rows)) } else { Err(2) }
}

/// A saved sheet as it stands, its clock too; its form is not looked at.
pub fn read_unraised(bytes: &[u8], form: Form) -> Result<Sheet, u8> {
    let (sheet, rows) = read_file(bytes, form, |line| row_of(line, form))?;
    Ok(Sheet { rows, ..sheet })
}

/// The same with the clock that loading gives it, raised where it is too low.
pub fn read_numbers(bytes: &[u8], form: Form) -> Result<Sheet, u8> {
    let mut sheet = read_unraised(bytes, form)?;
    sheet.hear_all();
    Ok(sheet)
}

/// A saved sheet: refusal 3 after these.
pub fn read_saved(bytes: &[u8], form: Form) -> Result<Sheet, u8> {
    let sheet = read_numbers(bytes, form)?;
    if sheet.in_form() { Ok(sheet) } else { Err(3) }
}

pub fn read_sheet(bytes: &[u8]) -> Result<Sheet, u8> {
    read_saved(bytes, Form::Second)
}

/// The rows of an archive, each with its place, and the rest of its sheet, whose form is not looked at.
pub fn read_placed(bytes: &[u8]) -> Result<(Sheet, Vec<(usize, Row)>), u8> {
    read_file(bytes, Form::Second, placed_of)
}

/// The sheet of an archive, its form not looked at: refusal 19 after 1 and 2. Each row is put into the slot of its
/// place, of as many slots as there are rows, and must find it free.
pub fn read_archive(bytes: &[u8]) -> Result<Sheet, u8> {
    let (sheet, placed) = read_placed(bytes)?;
    let mut slots: Vec<Option<Row>> = vec![None; placed.len()];
    for (place, row) in &placed {
        match slots.get_mut(place - 1) {
            Some(slot @ None) => *slot = Some(*row),
            _ => return Err(19),
        }
    }
    if placed.windows(2).any(|pair| pair[0].1.insert.id >= pair[1].1.insert.id) {
        return Err(19);
    }
    Ok(Sheet { rows: slots.into_iter().flatten().collect(), ..sheet })
}

/// The line of a row, which begins so.
fn row_line(begins: impl std::fmt::Display, r: &Row, form: Form) -> String {
    let Insert { id, code, previous, next } = r.insert;
    format!(
        "{begins}\t{}\t{}\t{code}\t{}\t{}\t{}\t{}\t{}\n",
        id.laptop,
        id.clock,
        form.number(r.turn),
        previous.laptop,
        previous.clock,
        next.laptop,
        next.clock
    )
}

/// A file with these lines of rows.
fn file_bytes(s: &Sheet, form: Form, rows: impl Iterator<Item = String>) -> Vec<u8> {
    let mut out = format!("{}\t{}\t{}\n", form.begins(), s.laptop, s.clock).into_bytes();
    rows.for_each(|row| out.extend(row.into_bytes()));
    for o in &s.waiting {
        match (form, o) {
            (Form::First, Operation::Turn(t)) => {
                out.extend(format!("D\t{}\t{}\t{}\n", t.sender, t.id.laptop, t.id.clock).into_bytes());
            }
            _ => out.extend(operation_line(o)),
        }
    }
    out
}

/// A sheet as it is saved; in the first form, one without a turn above 1.
pub fn saved_bytes(s: &Sheet, form: Form) -> Vec<u8> {
    file_bytes(s, form, s.rows.iter().map(|r| row_line("C", r, form)))
}

pub fn sheet_bytes(s: &Sheet) -> Vec<u8> {
    saved_bytes(s, Form::Second)
}

/// An archive with these rows, each with its place, and the rest of this sheet.
pub fn placed_bytes(s: &Sheet, placed: &[(usize, Row)]) -> Vec<u8> {
    let line = |(place, r): &(usize, Row)| row_line(format_args!("P\t{place}"), r, Form::Second);
    file_bytes(s, Form::Second, placed.iter().map(line))
}

/// The archive of a sheet: its rows by rising identifier, each with its place, which counts from 1 at the top.
pub fn archive_bytes(s: &Sheet) -> Vec<u8> {
    let mut placed: Vec<(usize, Row)> = (1..).zip(s.rows.iter().copied()).collect();
    placed.sort_by_key(|(_, r)| r.insert.id);
    placed_bytes(s, &placed)
}

// ---- the C calls

/// How much is on a sheet: the rows that are shown, all that wait, all rows, and how many inserts it can still take.
#[derive(Clone, Copy, PartialEq, Eq, Debug)]
pub struct Counts {
    pub shown: usize,
    pub waiting: usize,
    pub rows: usize,
    pub room: usize,
}

/// What a C call comes to with outputs of any length: the reply, the bytes for its first output and for that of the
/// line or lines, the shift of the call that takes a cursor, and the counts of the call that counts.
#[derive(Clone, PartialEq, Eq, Debug)]
pub struct Outcome {
    pub reply: Reply,
    pub first: Vec<u8>,
    pub line: Vec<u8>,
    pub shift: i32,
    pub counts: Option<Counts>,
}

impl Outcome {
    fn silent(reply: Reply) -> Outcome {
        Outcome { reply, first: Vec::new(), line: Vec::new(), shift: 0, counts: None }
    }

    fn refused(n: u8) -> Outcome {
        Outcome::silent(Reply::Refused(n))
    }

    fn done(first: Vec<u8>) -> Outcome {
        Outcome { first, ..Outcome::silent(Reply::Done { carried: 0, thrown: 0 }) }
    }

    /// The reply to a call on a sheet, with the sheet and the lines to send unless nothing is written.
    fn of(reply: Reply, sheet: &Sheet, sent: impl IntoIterator<Item = Operation>) -> Outcome {
        match reply {
            Reply::Refused(_) | Reply::Known => Outcome::silent(reply),
            _ => {
                let line = sent.into_iter().flat_map(|o| operation_line(&o)).collect();
                Outcome { first: sheet_bytes(sheet), line, ..Outcome::silent(reply) }
            }
        }
    }

    /// Refusal 12, the last in checking order: an output that is shorter than the result.
    pub fn within(self, room: usize, line_room: usize) -> Outcome {
        if self.first.len() > room || self.line.len() > line_room {
            return Outcome::refused(12);
        }
        self
    }

    /// The number that the call returns: word, refusal, carried, thrown and the two lengths, from the lowest bits up,
    /// or the four counts in place of the last four. A shift is in the place of the line's length, in two's complement.
    pub fn number(&self) -> u64 {
        if let Some(c) = self.counts {
            return (c.shown as u64) << 8 | (c.waiting as u64) << 20 | (c.rows as u64) << 32 | (c.room as u64) << 48;
        }
        let (word, refusal, carried, thrown) = match self.reply {
            Reply::Done { carried, thrown } => (0, 0, carried as u64, thrown as u64),
            Reply::Waits => (1, 0, 0, 0),
            Reply::Known => (2, 0, 0, 0),
            Reply::Refused(n) => (3, u64::from(n), 0, 0),
        };
        let lengths = (self.first.len() as u64) << 32 | (self.line.len() as u64) << 48;
        let shift = (self.shift.rem_euclid(65_536) as u64) << 48;
        word | refusal << 2 | carried << 8 | thrown << 20 | lengths | shift
    }
}

/// Both of what the call was handed, or the lowest ground among them.
fn both<A, B>(a: Result<A, u8>, b: Result<B, u8>) -> Result<(A, B), u8> {
    match (a, b) {
        (Ok(a), Ok(b)) => Ok((a, b)),
        (Err(m), Err(n)) => Err(m.min(n)),
        (Err(n), Ok(_)) | (Ok(_), Err(n)) => Err(n),
    }
}

/// The operation of a line with nothing after its line feed.
fn read_line(bytes: &[u8]) -> Result<Operation, u8> {
    match bytes.iter().position(|b| *b == b'\n') {
        Some(end) if end + 1 == bytes.len() => read_operation(bytes),
        _ => Err(1),
    }
}

pub fn empty_call(number: u64) -> Outcome {
    match u8::try_from(number) {
        Ok(n) if is_laptop(n) => Outcome::done(sheet_bytes(&Sheet::empty(n))),
        _ => Outcome::refused(2),
    }
}

pub fn receive_call(sheet: &[u8], line: &[u8]) -> Outcome {
    match both(read_sheet(sheet), read_line(line)) {
        Ok((mut sheet, operation)) => {
            let reply = sheet.receive(&operation);
            Outcome::of(reply, &sheet, None)
        }
        Err(n) => Outcome::refused(n),
    }
}

pub fn receive_at_call(sheet: &[u8], line: &[u8], gap: u64) -> Outcome {
    match both(read_sheet(sheet), read_line(line)) {
        Ok((mut sheet, operation)) => {
            let (reply, shift) = sheet.receive_at(&operation, gap);
            Outcome { shift, ..Outcome::of(reply, &sheet, None) }
        }
        Err(n) => Outcome::refused(n),
    }
}

/// Gap plus shift, or the nearest number that there is.
pub fn moved_call(gap: u64, shift: i32) -> u64 {
    (i128::from(gap) + i128::from(shift)).clamp(0, i128::from(u64::MAX)) as u64
}

pub fn type_call(sheet: &[u8], gap: u64, code: u32) -> Outcome {
    let code = if is_code_point(code) { Ok(code) } else { Err(2) };
    match both(read_sheet(sheet), code) {
        Ok((mut sheet, code)) => {
            let (reply, sent) = sheet.type_at(gap, code);
            Outcome::of(reply, &sheet, sent)
        }
        Err(n) => Outcome::refused(n),
    }
}

pub fn erase_call(sheet: &[u8], place: u64) -> Outcome {
    match read_sheet(sheet) {
        Ok(mut sheet) => {
            let (reply, sent) = sheet.erase_at(place);
            Outcome::of(reply, &sheet, sent)
        }
        Err(n) => Outcome::refused(n),
    }
}

pub fn restore_call(sheet: &[u8], laptop: u64, clock: u64) -> Outcome {
    let named = id(laptop, clock).filter(|named| is_character(*named)).ok_or(2);
    match both(read_sheet(sheet), named) {
        Ok((mut sheet, named)) => {
            let (reply, sent) = sheet.restore(named);
            Outcome::of(reply, &sheet, sent)
        }
        Err(n) => Outcome::refused(n),
    }
}

/// Pasting bytes: 20 comes after 2 and before 3. An empty block is answered, and nothing is written.
pub fn paste_call(sheet: &[u8], gap: u64, block: &[u8]) -> Outcome {
    match (read_sheet(sheet), read_block(block)) {
        (Err(n @ (1 | 2)), _) => Outcome::refused(n),
        (_, None) => Outcome::refused(20),
        (Err(n), _) => Outcome::refused(n),
        (Ok(mut sheet), Some(codes)) => {
            let (reply, sent) = sheet.paste_at(gap, &codes);
            if codes.is_empty() {
                return Outcome::silent(reply);
            }
            Outcome::of(reply, &sheet, sent)
        }
    }
}

/// Whether two inserts have one identifier and other fields.
pub fn disagree(heap: &[Operation]) -> bool {
    let differ = |o: &Operation, p: &Operation| match (o, p) {
        (Operation::Insert(i), Operation::Insert(j)) => i.id == j.id && i != j,
        _ => false,
    };
    heap.iter().any(|o| heap.iter().any(|p| differ(o, p)))
}

/// Building from the bytes of a heap, for a laptop's number: 17 comes after 2, and 7 where it always does.
pub fn build_call(number: u64, heap: &[u8]) -> Outcome {
    let Some((heap, all_pass)) = read_heap(heap) else { return Outcome::refused(1) };
    let laptop = match u8::try_from(number) {
        Ok(n) if is_laptop(n) && all_pass => n,
        _ => return Outcome::refused(2),
    };
    let inserts = heap.iter().filter(|o| matches!(o, Operation::Insert(_))).count();
    if inserts > MOST_IN_HEAP || heap.len() - inserts > MOST_IN_HEAP {
        return Outcome::refused(17);
    }
    if disagree(&heap) {
        return Outcome::refused(7);
    }
    let (sheet, thrown) = Sheet::build(laptop, &heap);
    Outcome::of(Reply::Done { carried: 0, thrown }, &sheet, None)
}

/// Loading for use in the hall (Req 07): 16 comes after 3, where trying to make these rows comes to others. Only the
/// form of what waits is looked at.
pub fn load_call(sheet: &[u8]) -> Outcome {
    match read_sheet(sheet) {
        Ok(s) if s.made_anew() == s.rows => Outcome::done(sheet_bytes(&s)),
        Ok(_) => Outcome::refused(16),
        Err(n) => Outcome::refused(n),
    }
}

/// Listing the rows (Req 09).
pub fn list_call(sheet: &[u8]) -> Outcome {
    match read_sheet(sheet) {
        Ok(s) => Outcome::done(list_bytes(&s)),
        Err(n) => Outcome::refused(n),
    }
}

/// Answering a list: 18 comes after 2 and before 3.
pub fn answer_call(sheet: &[u8], list: &[u8]) -> Outcome {
    match (read_sheet(sheet), read_list(list)) {
        (Err(m @ (1 | 2)), Err(n)) => Outcome::refused(m.min(n)),
        (Err(n @ (1 | 2)), Ok(_)) | (_, Err(n)) | (Err(n), Ok(_)) => Outcome::refused(n),
        (Ok(s), Ok(listed)) => Outcome::done(s.answer(&listed).iter().flat_map(operation_line).collect()),
    }
}

pub fn text_call(sheet: &[u8]) -> Outcome {
    match read_sheet(sheet).and_then(|s| s.text()) {
        Ok(text) => Outcome::done(text),
        Err(n) => Outcome::refused(n),
    }
}

pub fn counts_call(sheet: &[u8]) -> Outcome {
    let counted = |s: Sheet| Counts {
        shown: s.shown().len(),
        waiting: s.waiting.len(),
        rows: s.rows.len(),
        room: MOST_ROWS - s.inserts(),
    };
    match read_sheet(sheet) {
        Ok(s) => Outcome { counts: Some(counted(s)), ..Outcome::done(Vec::new()) },
        Err(n) => Outcome::refused(n),
    }
}

/// The way forward, from the first form.
pub fn upgrade_call(old: &[u8]) -> Outcome {
    match read_saved(old, Form::First) {
        Ok(s) => Outcome::done(saved_bytes(&s, Form::Second)),
        Err(n) => Outcome::refused(n),
    }
}

/// The way back, to the first form: 15 comes after 3.
pub fn downgrade_call(sheet: &[u8]) -> Outcome {
    match read_saved(sheet, Form::Second) {
        Ok(s) if s.turned_again() => Outcome::refused(15),
        Ok(s) => Outcome::done(saved_bytes(&s, Form::First)),
        Err(n) => Outcome::refused(n),
    }
}

/// The archive of a saved sheet (Req 10). A clock that loading would raise is 3.
pub fn archive_call(sheet: &[u8]) -> Outcome {
    match read_unraised(sheet, Form::Second) {
        Ok(s) if s.in_form() => Outcome::done(archive_bytes(&s)),
        Ok(_) => Outcome::refused(3),
        Err(n) => Outcome::refused(n),
    }
}

/// The way back, to the saved sheet: 19 comes after 2 and before 3.
pub fn unarchive_call(archive: &[u8]) -> Outcome {
    match read_archive(archive) {
        Ok(s) if s.in_form() => Outcome::done(sheet_bytes(&s)),
        Ok(_) => Outcome::refused(3),
        Err(n) => Outcome::refused(n),
    }
}
