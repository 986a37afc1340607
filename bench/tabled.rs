//! Receiving, typing, erasing, restoring, pasting, building, loading, listing, answering and archiving with a table, as
//! a Rust programmer would write them for speed: the checks of documents 01 and 02 at each call, the form and the table
//! among them, rows found through the chains of a table that is kept beside them and made anew after an insert, the
//! sheet changed in place.

use crate::reference::{is_code_point, read_block, Id, Insert, Operation, Reply, Row, Sheet, Turn, BEGIN, END};
use std::io::Write;

pub const ROWS: usize = 1024;
const CHAINS: usize = 2048;
const SHARE: usize = 32;
/// Of a laptop in a list, each with 64 clocks.
const WORDS: usize = 1024;

pub struct Tabled {
    laptop: u8,
    clock: u16,
    rows: Vec<Row>,
    waiting: Vec<Operation>,
    heads: [u16; CHAINS],
    links: [u16; ROWS],
}

fn chain(id: Id) -> usize {
    let key = u64::from(id.laptop) << 16 | u64::from(id.clock);
    (key * 2_654_435_769 >> 21) as usize % CHAINS
}

fn is_laptop(n: u8) -> bool {
    (1..=16).contains(&n)
}

pub fn is_character(id: Id) -> bool {
    is_laptop(id.laptop) && id.clock >= 1
}

pub fn insert_passes(i: &Insert) -> bool {
    is_character(i.id)
        && is_code_point(i.code)
        && (i.previous == BEGIN || is_character(i.previous))
        && (i.next == END || is_character(i.next))
        && i.previous != i.id
        && i.next != i.id
}

pub fn passes(o: &Operation) -> bool {
    match o {
        Operation::Insert(i) => insert_passes(i),
        Operation::Turn(t) => is_laptop(t.sender) && is_character(t.id) && t.turn >= 1,
    }
}

fn sender(o: &Operation) -> u8 {
    match o {
        Operation::Insert(i) => i.id.laptop,
        Operation::Turn(t) => t.sender,
    }
}

fn insert_of(o: &Operation) -> Option<&Insert> {
    match o {
        Operation::Insert(i) => Some(i),
        Operation::Turn(_) => None,
    }
}

fn turn_of(o: &Operation) -> Option<&Turn> {
    match o {
        Operation::Turn(t) => Some(t),
        Operation::Insert(_) => None,
    }
}

/// A field of digits; none if it is above 64 bits.
fn number(field: &str) -> Result<Option<u64>, u8> {
    let digits = !field.is_empty() && field.bytes().all(|b| b.is_ascii_digit());
    if digits && (field == "0" || !field.starts_with('0')) { Ok(field.parse().ok()) } else { Err(1) }
}

/// The numbers of a line with this word; those above 64 bits are out of every range.
fn numbers<const N: usize>(line: &str, word: &str) -> Result<Option<[u64; N]>, u8> {
    let mut fields = line.split('\t');
    if fields.next() != Some(word) {
        return Err(1);
    }
    let (mut all, mut within) = ([0; N], true);
    for n in &mut all {
        match number(fields.next().ok_or(1)?)? {
            Some(value) => *n = value,
            None => within = false,
        }
    }
    if fields.next().is_some() { Err(1) } else { Ok(Some(all).filter(|_| within)) }
}

/// Where the word of a laptop with this index stands in the table.
fn at(laptop: usize, index: usize) -> usize {
    laptop * WORDS + index
}

/// The table of a list's words, 0 where it has none: refusals 1, 2 and 18.
fn words_of(list: &[u8]) -> Result<Vec<u64>, u8> {
    let mut lines = std::str::from_utf8(list).ok().and_then(|text| text.strip_suffix('\n')).ok_or(1)?.split('\n');
    let head = numbers::<2>(lines.next().ok_or(1)?, "H")?.filter(|[l, t]| (1..=16).contains(l) && *t <= ROWS as u64);
    let (mut table, mut ones, mut last) = (vec![0; 17 * WORDS], 0, None);
    let (mut passes, mut sound) = (head.is_some(), true);
    for line in lines {
        match numbers::<3>(line, "K")? {
            Some([l, i, word]) if (1..=16).contains(&l) && i < WORDS as u64 && word > 0 => {
                sound &= last < Some((l, i)) && (i > 0 || word % 2 == 0);
                last = Some((l, i));
                ones += u64::from(word.count_ones());
                table[at(l as usize, i as usize)] = word;
            }
            _ => passes = false,
        }
    }
    match head {
        Some([_, total]) if passes && sound && total == ones => Ok(table),
        Some(_) if passes => Err(18),
        _ => Err(2),
    }
}

fn write_insert(out: &mut Vec<u8>, i: &Insert) {
    let (p, n) = (i.previous, i.next);
    write!(out, "I\t{}\t{}\t{}", i.id.laptop, i.id.clock, i.code).unwrap();
    writeln!(out, "\t{}\t{}\t{}\t{}", p.laptop, p.clock, n.laptop, n.clock).unwrap();
}

/// Whether every row can be taken away, each after both of its neighbours, whose places these are: in passes down and
/// up, until one takes none.
fn acyclic(above: &[usize], below: &[usize]) -> bool {
    let n = above.len();
    let (mut taken, mut left) = (vec![false; n + 2], n);
    (taken[0], taken[n + 1]) = (true, true);
    while left > 0 {
        let before = left;
        (0..n).chain((0..n).rev()).for_each(|k| {
            if !taken[k + 1] && taken[above[k]] && taken[below[k]] {
                taken[k + 1] = true;
                left -= 1;
            }
        });
        if left == before {
            return false;
        }
    }
    true
}

impl Tabled {
    pub fn empty(laptop: u8) -> Tabled {
        let rows = Vec::with_capacity(ROWS);
        Tabled { laptop, clock: 0, rows, waiting: Vec::new(), heads: [0; CHAINS], links: [0; ROWS] }
    }

    /// A sheet that was read, with its table.
    pub fn of(sheet: Sheet) -> Tabled {
        let Sheet { laptop, clock, mut rows, waiting } = sheet;
        rows.reserve(ROWS.saturating_sub(rows.len()));
        let mut tabled = Tabled { laptop, clock, rows, waiting, heads: [0; CHAINS], links: [0; ROWS] };
        tabled.enter_rows();
        tabled
    }

    /// The same with its clock raised where it is too low.
    pub fn raised(sheet: Sheet) -> Tabled {
        let inserts = sheet.rows.iter().map(|r| &r.insert).chain(sheet.waiting.iter().filter_map(insert_of));
        let own = inserts.map(|i| i.id).filter(|id| id.laptop == sheet.laptop);
        let clock = own.map(|id| id.clock).fold(sheet.clock, u16::max);
        Tabled::of(Sheet { clock, ..sheet })
    }

    /// The same if it is in form.
    pub fn formed(sheet: Sheet) -> Result<Tabled, u8> {
        let tabled = Tabled::of(sheet);
        if tabled.in_form() { Ok(tabled) } else { Err(3) }
    }

    pub fn sheet(self) -> Sheet {
        Sheet { laptop: self.laptop, clock: self.clock, rows: self.rows, waiting: self.waiting }
    }

    fn row(&self, id: Id) -> Option<usize> {
        let mut at = self.heads[chain(id)] as usize;
        while at > 0 {
            if self.rows.get(at - 1)?.insert.id == id {
                return Some(at - 1);
            }
            let next = self.links[at - 1] as usize;
            if next >= at {
                return None;
            }
            at = next;
        }
        None
    }

    fn place(&self, id: Id) -> Option<usize> {
        match id {
            BEGIN => Some(0),
            END => Some(self.rows.len() + 1),
            _ => self.row(id).map(|k| k + 1),
        }
    }

    fn has_all(&self, o: &Operation) -> bool {
        match o {
            Operation::Insert(i) => self.place(i.previous).is_some() && self.place(i.next).is_some(),
            Operation::Turn(t) => self.row(t.id).is_some(),
        }
    }

    fn inserts(&self) -> usize {
        self.rows.len() + self.waiting.iter().filter_map(insert_of).count()
    }

    /// The clock is not below an identifier that has the laptop's own number.
    fn reaches(&self, id: Id) -> bool {
        id.laptop != self.laptop || id.clock <= self.clock
    }

    fn hear(&mut self, i: &Insert) {
        if !self.reaches(i.id) {
            self.clock = i.id.clock;
        }
    }

    fn row_in_form(&self, k: usize, i: &Insert) -> bool {
        insert_passes(i)
            && self.reaches(i.id)
            && self.row(i.id) == Some(k)
            && matches!(self.place(i.previous), Some(p) if p <= k)
            && matches!(self.place(i.next), Some(n) if k + 1 < n)
    }

    fn in_form(&self) -> bool {
        if !is_laptop(self.laptop) || self.inserts() > ROWS {
            return false;
        }
        if !self.rows.iter().enumerate().all(|(k, r)| self.row_in_form(k, &r.insert)) {
            return false;
        }
        let mut from = [0; 256];
        for (k, o) in self.waiting.iter().enumerate() {
            let before = &self.waiting[..k];
            let faulty = match o {
                Operation::Insert(i) => {
                    !self.reaches(i.id)
                        || self.row(i.id).is_some()
                        || before.iter().filter_map(insert_of).any(|j| j.id == i.id)
                }
                Operation::Turn(_) => before.contains(o),
            };
            if !passes(o) || faulty || self.has_all(o) {
                return false;
            }
            from[sender(o) as usize] += 1;
        }
        from.iter().all(|n| *n <= SHARE)
    }

    /// Condition 8 or 9, or the place above the new row. Both neighbours are held.
    fn find_place(&self, i: &Insert) -> Result<usize, u8> {
        let (mut a, mut b) = (self.place(i.previous).unwrap(), self.place(i.next).unwrap());
        if a >= b {
            return Err(8);
        }
        while a + 1 < b {
            let (above, below) = (a, b);
            let mut candidates = 0;
            for k in above + 1..below {
                let r = &self.rows[k - 1].insert;
                if self.place(r.previous).unwrap() > above || self.place(r.next).unwrap() < below {
                    continue;
                }
                candidates += 1;
                if r.id >= i.id {
                    b = k;
                    break;
                }
                a = k;
            }
            if candidates == 0 {
                return Err(9);
            }
        }
        Ok(a)
    }

    fn put(&mut self, insert: Insert, k: usize) {
        self.hear(&insert);
        self.rows.insert(k, Row { insert, turn: 0 });
        self.enter_rows();
    }

    /// Makes the table anew.
    fn enter_rows(&mut self) {
        self.heads = [0; CHAINS];
        for (k, r) in self.rows.iter().enumerate() {
            let c = chain(r.insert.id);
            self.links[k] = self.heads[c];
            self.heads[c] = k as u16 + 1;
        }
    }

    fn turn(&mut self, t: &Turn) {
        if let Some(k) = self.row(t.id) {
            self.rows[k].turn = self.rows[k].turn.max(t.turn);
        }
    }

    /// Known or refusal 7, by the row or the waiting operation that is there already.
    fn seen(&self, o: &Operation) -> Option<Reply> {
        match o {
            Operation::Insert(i) => {
                let held = self.row(i.id).map(|k| &self.rows[k].insert);
                let other = held.or_else(|| self.waiting.iter().filter_map(insert_of).find(|j| j.id == i.id))?;
                Some(if other == i { Reply::Known } else { Reply::Refused(7) })
            }
            Operation::Turn(t) => match self.row(t.id) {
                Some(k) => (t.turn <= self.rows[k].turn).then_some(Reply::Known),
                None => self.waiting.contains(o).then_some(Reply::Known),
            },
        }
    }

    fn carry_insert(&mut self, i: Insert, k: usize) -> Reply {
        self.put(i, k);
        let (mut carried, mut thrown) = (1, 0);
        while let Some(j) = self.waiting.iter().position(|o| self.has_all(o)) {
            match self.waiting.remove(j) {
                Operation::Turn(t) => self.turn(&t),
                Operation::Insert(i) => match self.find_place(&i) {
                    Ok(k) => self.put(i, k),
                    Err(_) => {
                        thrown += 1;
                        continue;
                    }
                },
            }
            carried += 1;
        }
        Reply::Done { carried, thrown }
    }

    /// The insert of a character typed at a gap, which the sheet has: previous and next are the shown rows beside it.
    fn typed_at(&self, gap: usize, code: u32) -> Insert {
        let mut shown = self.rows.iter().filter(|r| r.shown()).map(|r| r.insert.id).skip(gap.saturating_sub(1));
        let previous = if gap == 0 { BEGIN } else { shown.next().unwrap() };
        let id = Id { laptop: self.laptop, clock: self.clock + 1 };
        Insert { id, code, previous, next: shown.next().unwrap_or(END) }
    }

    fn shown_rows(&self) -> usize {
        self.rows.iter().filter(|r| r.shown()).count()
    }

    /// Typing at a gap a code point that is one: the reply, and the operation to be sent.
    pub fn type_at(&mut self, gap: u64, code: u32) -> (Reply, Option<Operation>) {
        let refused = |n| (Reply::Refused(n), None);
        if !self.in_form() {
            return refused(3);
        }
        if gap > self.shown_rows() as u64 {
            return refused(4);
        }
        if self.clock == 65_535 {
            return refused(5);
        }
        let insert = self.typed_at(gap as usize, code);
        let Ok(k) = self.find_place(&insert) else { return refused(9) };
        if self.inserts() >= ROWS {
            return refused(11);
        }
        (self.carry_insert(insert, k), Some(Operation::Insert(insert)))
    }

    /// Erasing the shown row at a place, counted from 1.
    pub fn erase(&mut self, place: u64) -> (Reply, Option<Operation>) {
        if !self.in_form() {
            return (Reply::Refused(3), None);
        }
        let mut shown = (0..self.rows.len()).filter(|k| self.rows[*k].shown());
        match usize::try_from(place).ok().and_then(|p| p.checked_sub(1)).and_then(|p| shown.nth(p)) {
            Some(k) => self.raise(k),
            None => (Reply::Refused(4), None),
        }
    }

    /// Restoring the hidden row of an identifier, which is a character's.
    pub fn restore(&mut self, id: Id) -> (Reply, Option<Operation>) {
        if !self.in_form() {
            return (Reply::Refused(3), None);
        }
        match self.row(id) {
            Some(k) if self.rows[k].turn == 255 => (Reply::Refused(14), None),
            Some(k) if !self.rows[k].shown() => self.raise(k),
            _ => (Reply::Refused(13), None),
        }
    }

    /// Raises a row's turn by one, and sends it.
    fn raise(&mut self, k: usize) -> (Reply, Option<Operation>) {
        let row = &mut self.rows[k];
        row.turn += 1;
        let sent = Turn { sender: self.laptop, id: row.insert.id, turn: row.turn };
        (Reply::Done { carried: 1, thrown: 0 }, Some(Operation::Turn(sent)))
    }

    /// Pasting, all or none; where it is refused the sheet is not to be kept.
    pub fn paste(&mut self, gap: u64, block: &[u8]) -> (Reply, Vec<Operation>) {
        let refused = |n| (Reply::Refused(n), Vec::new());
        let Some(codes) = read_block(block) else { return refused(20) };
        if !self.in_form() {
            return refused(3);
        }
        if gap > self.shown_rows() as u64 {
            return refused(4);
        }
        if usize::from(self.clock) + codes.len() > 65_535 {
            return refused(5);
        }
        if self.inserts() + codes.len() > ROWS {
            return refused(11);
        }
        let (mut gap, mut sent, mut counts) = (gap as usize, Vec::with_capacity(codes.len()), (0, 0));
        for code in codes {
            let insert = self.typed_at(gap, code);
            let Ok(k) = self.find_place(&insert) else { return refused(9) };
            if let Reply::Done { carried, thrown } = self.carry_insert(insert, k) {
                counts = (counts.0 + carried, counts.1 + thrown);
            }
            let place = self.row(insert.id).unwrap();
            gap = self.rows[..=place].iter().filter(|r| r.shown()).count();
            sent.push(Operation::Insert(insert));
        }
        (Reply::Done { carried: counts.0, thrown: counts.1 }, sent)
    }

    /// Takes the insert in behind the others, and into the table.
    fn push(&mut self, insert: Insert) {
        let (c, k) = (chain(insert.id), self.rows.len());
        self.rows.push(Row { insert, turn: 0 });
        self.links[k] = self.heads[c];
        self.heads[c] = k as u16 + 1;
    }

    /// The inserts of a heap, a repeated one once, or refusal 7: each is looked for among those before it.
    fn once(inserts: &[Insert]) -> Result<Vec<Insert>, u8> {
        let mut kept = Tabled::empty(1);
        for i in inserts {
            match kept.row(i.id) {
                None => kept.push(*i),
                Some(k) if kept.rows[k].insert == *i => {}
                Some(_) => return Err(7),
            }
        }
        Ok(kept.rows.iter().map(|r| r.insert).collect())
    }

    /// One pass over the inserts that are left: each that has its neighbours is placed, unless it meets condition 8.
    /// Those that lack one are left.
    fn pass(&mut self, left: Vec<Insert>) -> Vec<Insert> {
        let mut missing = Vec::with_capacity(left.len());
        for i in left {
            if !self.has_all(&Operation::Insert(i)) {
                missing.push(i);
            } else if let Ok(k) = self.find_place(&i) {
                self.put(i, k);
            }
        }
        missing
    }

    /// Building from a heap whose numbers pass, by passes over its inserts until one places none, and then its turns:
    /// the sheet, and how many operations were left out.
    pub fn build(laptop: u8, heap: &[Operation]) -> Result<(Tabled, usize), u8> {
        let inserts: Vec<Insert> = heap.iter().filter_map(insert_of).copied().collect();
        let turns: Vec<&Turn> = heap.iter().filter_map(turn_of).collect();
        if inserts.len() > ROWS || turns.len() > ROWS {
            return Err(17);
        }
        let (mut sheet, mut left) = (Tabled::empty(laptop), Tabled::once(&inserts)?);
        let mut left_out = left.len();
        loop {
            let before = sheet.rows.len();
            left = sheet.pass(left);
            if sheet.rows.len() == before {
                break;
            }
        }
        left_out -= sheet.rows.len();
        for (k, t) in turns.iter().enumerate() {
            match sheet.row(t.id) {
                Some(_) => sheet.turn(t),
                None => left_out += usize::from(!turns[k + 1..].contains(t)),
            }
        }
        for i in &inserts {
            sheet.hear(i);
        }
        Ok((sheet, left_out))
    }

    /// Whether any two rows that stand between each other's neighbours are in the order of identifiers.
    fn pairs_ordered(&self, above: &[usize], below: &[usize]) -> bool {
        let id = |k: usize| self.rows[k].insert.id;
        let ordered = |j: usize, k: usize| k + 1 >= below[j] || id(j) < id(k);
        above.iter().enumerate().all(|(k, from)| (*from..k).all(|j| ordered(j, k)))
    }

    /// The place of a neighbour of each row.
    fn places(&self, of: fn(&Insert) -> Id) -> Vec<usize> {
        self.rows.iter().map(|r| self.place(of(&r.insert)).unwrap()).collect()
    }

    /// Listing a sheet that was read: a table of all words, of which those that are not 0 are written.
    pub fn list(&self) -> Result<Vec<u8>, u8> {
        if !self.in_form() {
            return Err(3);
        }
        let mut table = vec![0u64; 17 * WORDS];
        for id in self.rows.iter().map(|r| r.insert.id) {
            table[at(id.laptop.into(), usize::from(id.clock / 64))] |= 1 << (id.clock % 64);
        }
        let (total, mut out) = (table.iter().map(|word| word.count_ones()).sum::<u32>(), Vec::new());
        writeln!(out, "H\t{}\t{total}", self.laptop).unwrap();
        for (k, word) in table.iter().enumerate().filter(|(_, word)| **word > 0) {
            writeln!(out, "K\t{}\t{}\t{word}", k / WORDS, k % WORDS).unwrap();
        }
        Ok(out)
    }

    /// Answering a list from a sheet that was read: a plain scan over what is left for the lowest that is free, each
    /// time, and over all of it where none is.
    pub fn answer(&self, list: &[u8]) -> Result<Vec<u8>, u8> {
        let table = words_of(list)?;
        if !self.in_form() {
            return Err(3);
        }
        let id = |k: usize| self.rows[k].insert.id;
        let listed = |id: Id| table[at(id.laptop.into(), usize::from(id.clock / 64))] >> (id.clock % 64) & 1 == 1;
        let (above, below) = (self.places(|i| i.previous), self.places(|i| i.next));
        let mut left: Vec<usize> = (0..self.rows.len()).filter(|k| !listed(id(*k))).collect();
        let (mut still, mut out) = (vec![false; self.rows.len() + 2], Vec::new());
        left.iter().for_each(|k| still[k + 1] = true);
        while !left.is_empty() {
            let all = left.iter().enumerate();
            let free = all.clone().filter(|(_, k)| !still[above[**k]] && !still[below[**k]]);
            let next = free.min_by_key(|(_, k)| id(**k)).or_else(|| all.min_by_key(|(_, k)| id(**k))).unwrap().0;
            let k = left.swap_remove(next);
            still[k + 1] = false;
            write_insert(&mut out, &self.rows[k].insert);
        }
        for r in self.rows.iter().filter(|r| r.turn > 0) {
            let id = r.insert.id;
            writeln!(out, "E\t{}\t{}\t{}\t{}", self.laptop, id.laptop, id.clock, r.turn).unwrap();
        }
        Ok(out)
    }

    /// The rows by rising identifier, each with its place.
    pub fn by_author(&self) -> Vec<(usize, Row)> {
        let mut placed: Vec<(usize, Row)> = (1..).zip(self.rows.iter().copied()).collect();
        placed.sort_unstable_by_key(|(_, r)| r.insert.id);
        placed
    }

    /// Loading for use, of a sheet that was read: refusal 3 or 16, or none.
    pub fn load(&self) -> Result<(), u8> {
        if !self.in_form() {
            return Err(3);
        }
        let (above, below) = (self.places(|i| i.previous), self.places(|i| i.next));
        if self.pairs_ordered(&above, &below) && acyclic(&above, &below) { Ok(()) } else { Err(16) }
    }

    pub fn receive(&mut self, o: &Operation) -> Reply {
        if !passes(o) {
            return Reply::Refused(2);
        }
        if !self.in_form() {
            return Reply::Refused(3);
        }
        if let Some(reply) = self.seen(o) {
            return reply;
        }
        let ready = self.has_all(o);
        let mut place = 0;
        if let (true, Operation::Insert(i)) = (ready, o) {
            match self.find_place(i) {
                Ok(k) => place = k,
                Err(n) => return Reply::Refused(n),
            }
        }
        if !ready && self.waiting.iter().filter(|w| sender(w) == sender(o)).count() >= SHARE {
            return Reply::Refused(10);
        }
        if insert_of(o).is_some() && self.inserts() >= ROWS {
            return Reply::Refused(11);
        }
        match (ready, o) {
            (true, Operation::Insert(i)) => self.carry_insert(*i, place),
            (true, Operation::Turn(t)) => {
                self.turn(t);
                Reply::Done { carried: 1, thrown: 0 }
            }
            (false, _) => {
                self.waiting.push(*o);
                if let Some(i) = insert_of(o) {
                    self.hear(i);
                }
                Reply::Waits
            }
        }
    }
}
