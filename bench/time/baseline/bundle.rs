//! A plain judge of bundles, a line at a time: the least fault of the first line that has one, by docs/FORMAT.md.
//! Entries without a fault take a short way (`plain_lines`), and each other line the long one (`judge`).
use crate::certificate::{COMMIT, Certificate, Fault, Kind, REFUSE, WITHDRAW};
use crate::input::{LIMIT, Lines, Name, Next, Text};
use std::io::Read;

/// Is told of lines that were found right. Places are those of items in their section, from 0 on.
pub trait Keep {
    fn item(&mut self, _site: u8, _place: usize, _name: Name) {}
    /// An operation of the commit of this rank plus 1.
    fn operation(&mut self, _rank: u32, _letter: u8, _place: usize, _value: u64) {}
    fn last_value(&mut self, _value: u64) {}
}

/// Keeps nothing.
impl Keep for () {}

struct Cell {
    name: Name,
    value: u64,
    /// the greatest rank plus 1 of those that read it, wrote it and added to it, or 0
    reader: u32,
    writer: u32,
    adder: u32,
}

#[derive(Clone, Copy, PartialEq)]
enum Phase {
    Between,
    Items,
    Entries,
    Finals,
}

const SLOTS: usize = 4096;
const SLOT_BITS: u32 = 12;
const FREE: u16 = u16::MAX;

/// The section that is open, or between two of them the next one.
struct Section<K> {
    phase: Phase,
    number: u8,
    cells: Vec<Cell>,
    /// places of items by their hashes
    slots: Box<[u16; SLOTS]>,
    /// for each decision two bits an item: whether it was read, and whether it was changed
    acts: Vec<u64>,
    stride: usize,
    finals: usize,
    /// how many have entries and no end
    live: u64,
    /// what `key` makes of the block that is open, or 0
    block: u64,
    last_end: usize,
    second: bool,
    keep: K,
}

/// The decision that an entry with this letter needs; 0 where any will do.
#[inline(always)]
const fn kind_of(letter: u8) -> Kind {
    match letter {
        b'w' | b'd' | b'c' => COMMIT,
        b'p' | b'q' | b'n' => REFUSE,
        b'a' => WITHDRAW,
        _ => 0,
    }
}

/// A transaction and a kind of entries, in one number that is never 0.
#[inline(always)]
fn key(tx: u32, letter: u8) -> u64 {
    (tx as u64) << 2 | kind_of(letter) as u64
}

impl Cell {
    /// Whether an operation of a commit of this rank plus 1 conflicts with none of greater rank.
    #[inline(always)]
    fn passes(&self, letter: u8, rank: u32) -> bool {
        match letter {
            b'r' => self.writer <= rank && self.adder <= rank,
            b'd' | b'q' => self.writer <= rank && self.reader <= rank,
            _ => self.writer <= rank && self.reader <= rank && self.adder <= rank,
        }
    }

    /// What an operation makes of the item, with its rank plus 1 or 0.
    #[inline(always)]
    fn take_in(&mut self, letter: u8, value: u64, rank: u32) {
        match letter {
            b'w' => self.value = value,
            b'd' => self.value = self.value.wrapping_add(value),
            _ => {}
        }
        match letter {
            b'r' => self.reader = self.reader.max(rank),
            b'd' | b'q' => self.adder = self.adder.max(rank),
            _ => self.writer = self.writer.max(rank),
        }
    }
}

/// A name, a number and the LF behind it.
#[inline(always)]
fn pair(text: Text<'_>, at: usize) -> Option<(Name, u64, usize)> {
    let (name, at) = text.name(at)?;
    let (value, at) = text.number(text.word(at, b"=")?)?;
    Some((name, value, text.word(at, b"\n")?))
}

impl<K: Keep> Section<K> {
    fn new(second: bool, keep: K) -> Section<K> {
        Section {
            phase: Phase::Between,
            number: 0,
            cells: Vec::new(),
            slots: Box::new([FREE; SLOTS]),
            acts: Vec::new(),
            stride: 0,
            finals: 0,
            live: 0,
            block: 0,
            last_end: 0,
            second,
            keep,
        }
    }

    /// The place of the item with this name.
    #[inline(always)]
    fn place(&self, name: Name) -> Option<usize> {
        let mut slot = name.hash(SLOT_BITS);
        loop {
            let place = self.slots[slot % SLOTS] as usize;
            if self.cells.get(place)?.name == name {
                return Some(place);
            }
            slot += 1;
        }
    }

    /// The lines from this place on that are plain and have no fault: the place behind them, and how many they are.
    /// The bytes up to `end` are whole lines.
    fn plain_lines(&mut self, c: &mut Certificate, text: Text<'_>, from: usize, end: usize) -> (usize, u64) {
        let (mut at, mut count) = (from, 0);
        while at < end {
            let next = match self.phase {
                Phase::Entries => self.plain_entry(c, text, at),
                Phase::Items => self.plain_item(text, at),
                Phase::Finals => self.plain_final(text, at),
                Phase::Between => None,
            };
            let Some(next) = next else { break };
            (at, count) = (next, count + 1);
        }
        (at, count)
    }

    #[inline(always)]
    fn plain_entry(&mut self, c: &mut Certificate, text: Text<'_>, at: usize) -> Option<usize> {
        match text.byte(at) {
            b'r' => self.plain_operation::<b'r'>(c, text, at),
            b'w' => self.plain_operation::<b'w'>(c, text, at),
            b'c' => self.plain_end::<b'c'>(c, text, at),
            b'p' => self.plain_operation::<b'p'>(c, text, at),
            b'n' => self.plain_end::<b'n'>(c, text, at),
            b'a' => self.plain_end::<b'a'>(c, text, at),
            b'd' if self.second => self.plain_operation::<b'd'>(c, text, at),
            b'q' if self.second => self.plain_operation::<b'q'>(c, text, at),
            _ => None,
        }
    }

    #[inline(always)]
    fn plain_operation<const LETTER: u8>(&mut self, c: &mut Certificate, text: Text<'_>, from: usize) -> Option<usize> {
        let (tx, at) = text.tx(from + 1)?;
        let (name, at) = text.name(text.word(at, b"[")?)?;
        let (value, at) = text.number(text.word(at, b"]=")?)?;
        let behind = text.word(at, b"\n")?;
        let n = *c.table.get(tx as usize)? as usize;
        let record = c.records.get_mut(n)?;
        let place = self.place(name)?;
        let cell = &mut self.cells[place];
        let is_fresh = record.section != self.number + 1;
        let act = n * self.stride + place / 32;
        let bit = 1 << (2 * place % 64 + usize::from(LETTER != b'r'));
        let is_done = self.acts.get(act)? & bit != 0;
        let rank = record.rank;
        let fine = (is_fresh || !is_done && !record.ended)
            && (LETTER != b'r' || cell.value == value)
            && cell.passes(LETTER, if rank == 0 { u32::MAX } else { rank })
            && (self.block == 0 || LETTER != b'r' && self.block == key(tx, LETTER))
            && (LETTER == b'r' || record.kind == kind_of(LETTER));
        if !fine {
            return None;
        }
        if is_fresh {
            (record.section, record.ended) = (self.number + 1, false);
            self.live += 1;
            self.acts[n * self.stride..(n + 1) * self.stride].iter_mut().for_each(|word| *word = 0);
        }
        self.acts[act] |= bit;
        cell.take_in(LETTER, value, rank);
        if LETTER != b'r' {
            self.block = key(tx, LETTER);
        }
        if rank > 0 {
            self.keep.operation(rank, LETTER, place, value);
        }
        c.notice(n, self.number, name, LETTER);
        Some(behind)
    }

    #[inline(always)]
    fn plain_end<const LETTER: u8>(&mut self, c: &mut Certificate, text: Text<'_>, from: usize) -> Option<usize> {
        let (tx, at) = text.tx(from + 1)?;
        let behind = text.word(at, b"\n")?;
        let n = *c.table.get(tx as usize)? as usize;
        let record = c.records.get_mut(n)?;
        // an end without an operation here is rare
        let fine = record.section == self.number + 1
            && !record.ended
            && (self.block == 0 || self.block == key(tx, LETTER))
            && record.kind == kind_of(LETTER)
            && n >= self.last_end;
        if !fine {
            return None;
        }
        record.ended = true;
        self.live -= 1;
        self.block = 0;
        self.last_end = n;
        Some(behind)
    }

    #[inline(always)]
    fn plain_item(&mut self, text: Text<'_>, at: usize) -> Option<usize> {
        let (name, value, behind) = pair(text, text.word(at, b"item ")?)?;
        if self.item(name, value).is_none() { Some(behind) } else { None }
    }

    #[inline(always)]
    fn plain_final(&mut self, text: Text<'_>, at: usize) -> Option<usize> {
        let (name, value, behind) = pair(text, text.word(at, b"final ")?)?;
        if self.last_value(name, value).is_none() { Some(behind) } else { None }
    }

    /// The least fault of the line from one place to its LF at another, or None and what the line does.
    fn judge(&mut self, c: &mut Certificate, text: Text<'_>, from: usize, to: usize) -> Option<Fault> {
        if let Some(at) = text.word(from, b"final ") {
            return pair(text, at).map_or(Some(2), |(name, value, _)| self.last_value(name, value));
        }
        if let Some(at) = text.word(from, b"item ") {
            return pair(text, at).map_or(Some(2), |(name, value, _)| self.item(name, value));
        }
        if let Some(at) = text.word(from, b"site ") {
            let Some((n, _)) = text.number(at).filter(|(n, at)| *at == to && *n < 64) else { return Some(2) };
            let fits = self.phase == Phase::Between && n == self.number as u64;
            if fits {
                self.phase = Phase::Items;
            }
            return if fits { None } else { Some(7) };
        }
        if text.word(from, b"end") == Some(to) {
            return self.end(c);
        }
        self.entry(c, text, from, to)
    }

    #[inline(always)]
    fn item(&mut self, name: Name, value: u64) -> Option<Fault> {
        let fits = self.phase == Phase::Items && self.cells.len() < 1024;
        if !fits || self.cells.last().is_some_and(|c| c.name.order() >= name.order()) {
            return Some(7);
        }
        let mut slot = name.hash(SLOT_BITS);
        while self.slots[slot % SLOTS] != FREE {
            slot += 1;
        }
        self.slots[slot % SLOTS] = self.cells.len() as u16;
        self.keep.item(self.number, self.cells.len(), name);
        self.cells.push(Cell { name, value, reader: 0, writer: 0, adder: 0 });
        None
    }

    fn first_behind_the_entries(&self) -> Option<Fault> {
        if self.block != 0 {
            return Some(12);
        }
        if self.live > 0 { Some(15) } else { None }
    }

    #[inline(always)]
    fn last_value(&mut self, name: Name, value: u64) -> Option<Fault> {
        let Some(cell) = self.cells.get(self.finals).filter(|c| self.phase != Phase::Between && c.name == name) else {
            return Some(7);
        };
        if self.finals == 0 && let Some(fault) = self.first_behind_the_entries() {
            return Some(fault);
        }
        if cell.value != value {
            return Some(16);
        }
        self.keep.last_value(value);
        self.phase = Phase::Finals;
        self.finals += 1;
        None
    }

    fn end(&mut self, c: &Certificate) -> Option<Fault> {
        if self.phase == Phase::Between || self.finals != self.cells.len() {
            return Some(7);
        }
        if self.cells.is_empty() && let Some(fault) = self.first_behind_the_entries() {
            return Some(fault);
        }
        if self.number as u64 + 1 == c.sites && !c.steps.iter().all(|s| s.met) {
            return Some(17);
        }
        self.number += 1;
        self.phase = Phase::Between;
        self.cells.clear();
        self.slots.fill(FREE);
        (self.finals, self.live, self.block, self.last_end, self.stride) = (0, 0, 0, 0, 0);
        None
    }

    /// What an entry's line says: its letter, its transaction, and of an operation the item and the number.
    fn read_entry(&self, text: Text<'_>, from: usize, to: usize) -> Option<(u8, u32, Option<(Name, u64)>)> {
        let letter = text.byte(from);
        let (tx, at) = text.tx(from + 1).filter(|_| from < to)?;
        match letter {
            b'd' | b'q' if !self.second => None,
            b'r' | b'w' | b'p' | b'd' | b'q' => {
                let (name, next) = text.name(text.word(at, b"[")?)?;
                let (value, next) = text.number(text.word(next, b"]=")?)?;
                if next == to { Some((letter, tx, Some((name, value)))) } else { None }
            }
            b'c' | b'n' | b'a' if at == to => Some((letter, tx, None)),
            _ => None,
        }
    }

    fn begin_entries(&mut self, decisions: usize) {
        self.phase = Phase::Entries;
        if self.stride == 0 {
            self.stride = (2 * self.cells.len()).div_ceil(64).max(1);
            if self.acts.len() < self.stride * decisions {
                self.acts.resize(self.stride * decisions, 0);
            }
        }
    }

    fn entry(&mut self, c: &mut Certificate, text: Text<'_>, from: usize, to: usize) -> Option<Fault> {
        let Some((letter, tx, what)) = self.read_entry(text, from, to) else { return Some(2) };
        if matches!(self.phase, Phase::Between | Phase::Finals) {
            return Some(7);
        }
        self.begin_entries(c.records.len());
        let found = c.find(tx);
        if let Some(n) = found && c.records[n].section != self.number + 1 {
            (c.records[n].section, c.records[n].ended) = (self.number + 1, false);
            self.live += 1;
            self.acts[n * self.stride..(n + 1) * self.stride].fill(0);
        }
        let mut place = 0;
        if let Some((name, value)) = what {
            match self.place(name) {
                Some(it) => place = it,
                None => return Some(8),
            }
            if let Some(fault) = self.operation_fault(c, found, place, letter, value) {
                return Some(fault);
            }
        }
        if self.block != 0 && (letter == b'r' || self.block != key(tx, letter)) {
            return Some(12);
        }
        let Some(n) = found else { return Some(13) };
        let record = &mut c.records[n];
        if record.ended || letter != b'r' && record.kind != kind_of(letter) {
            return Some(13);
        }
        let rank = record.rank;
        let Some((name, value)) = what else {
            if n < self.last_end {
                return Some(14);
            }
            record.ended = true;
            (self.last_end, self.block) = (n, 0);
            self.live -= 1;
            return None;
        };
        if letter != b'r' {
            self.block = key(tx, letter);
        }
        self.cells[place].take_in(letter, value, rank);
        if rank > 0 {
            self.keep.operation(rank, letter, place, value);
        }
        c.notice(n, self.number, name, letter);
        None
    }

    /// F9, F10 or F11 of an operation on the item at this place.
    fn operation_fault(&mut self, c: &Certificate, found: Option<usize>, place: usize, letter: u8, value: u64) -> Option<Fault> {
        if let Some(n) = found {
            let act = &mut self.acts[n * self.stride + place / 32];
            let bit = 1 << (2 * place % 64 + usize::from(letter != b'r'));
            if *act & bit != 0 {
                return Some(9);
            }
            *act |= bit;
        }
        let cell = &self.cells[place];
        if letter == b'r' && cell.value != value {
            return Some(10);
        }
        let rank = found.map_or(0, |n| c.records[n].rank);
        if rank > 0 && !cell.passes(letter, rank) { Some(11) } else { None }
    }
}

/// The certificate of a valid bundle and what was kept of it, or the first line with a fault and the least of its faults.
pub fn audit<R: Read, K: Keep>(lines: &mut Lines<R>, keep: K) -> Result<(Certificate, K), (u64, Fault)> {
    let second = match lines.next(LIMIT) {
        Next::Line(a, b) if lines.buffer[a..b] == *b"sgt 1" => false,
        Next::Line(a, b) if lines.buffer[a..b] == *b"sgt 2" => true,
        Next::Cut | Next::End => return Err((1, 18)),
        _ => return Err((1, 1)),
    };
    let Next::Line(a, b) = lines.next(usize::MAX) else { return Err((2, 18)) };
    let mut c = Certificate::read(Text(&lines.buffer), a, b).ok_or((2, 3))?;
    lines.tidy();
    if let Some(fault) = c.judge() {
        return Err((2, fault));
    }
    let mut section = Section::new(second, keep);
    let mut number = 3;
    while (section.number as u64) < c.sites || section.phase != Phase::Between {
        if lines.start >= lines.whole {
            lines.find_whole();
        }
        let (to, count) = section.plain_lines(&mut c, Text(&lines.buffer), lines.start, lines.whole);
        lines.start = to;
        number += count;
        match lines.next(LIMIT) {
            Next::Line(a, b) => {
                if let Some(fault) = section.judge(&mut c, Text(&lines.buffer), a, b) {
                    return Err((number, fault));
                }
            }
            Next::TooLong => return Err((number, 2)),
            Next::Cut | Next::End => return Err((number, 18)),
        }
        number += 1;
    }
    match lines.next(0) {
        Next::End => Ok((c, section.keep)),
        _ => Err((number, 19)),
    }
}
