//! Line 2 of a bundle: what was decided of each transaction.
use crate::input::{Name, Text};
use std::collections::HashMap;

/// The number of a fault, as in docs/FORMAT.md.
pub type Fault = u8;

/// A decision's kind is also the kind of entries that suit it (`kind_of` in bundle.rs).
pub type Kind = u8;
pub const COMMIT: Kind = 1;
pub const REFUSE: Kind = 2;
pub const WITHDRAW: Kind = 3;

#[derive(Clone, Copy, PartialEq)]
pub enum Conflict {
    Wr,
    Rw,
    Ww,
}

/// A step of a walk. Of its first operation it is kept whether it was seen, and whether it was an increment.
pub struct Step {
    pub conflict: Conflict,
    pub item: Name,
    pub site: u8,
    pub from: u32,
    pub to: u32,
    pub seen: bool,
    pub seen_add: bool,
    pub met: bool,
}

/// A decision, and how its transaction stands in the open section.
#[derive(Clone, Copy)]
pub struct Record {
    pub tx: u32,
    /// of a commit the rank plus 1, else 0
    pub rank: u32,
    /// where its steps stand among the watches, if it has any
    watches: u32,
    is_watched: bool,
    pub kind: Kind,
    /// the last section that it was seen in, from 1 on, and whether it has ended there
    pub section: u8,
    pub ended: bool,
}

#[derive(Default)]
pub struct Certificate {
    pub sites: u64,
    pub records: Vec<Record>,
    /// Decisions by their transactions: in a table, or where numbers are far apart in a map.
    pub table: Vec<u32>,
    sparse: HashMap<u32, u32>,
    pub steps: Vec<Step>,
    /// Of each transaction at which steps begin or end: how many there are, and which.
    watches: Vec<u32>,
    /// Where the walk of each refusal stands among the steps.
    walks: Vec<(usize, usize)>,
}

impl Certificate {
    /// The certificate that the line from one place to another spells.
    pub fn read(text: Text<'_>, from: usize, to: usize) -> Option<Certificate> {
        let mut c = Certificate::default();
        let mut at = text.word(from, b"{\"decisions\":[")?;
        while text.byte(at) != b']' {
            if !c.records.is_empty() {
                at = text.word(at, b",")?;
            }
            at = c.read_decision(text, at)?;
        }
        let (sites, at) = text.number(text.word(at, b"],\"sites\":")?)?;
        c.sites = sites;
        let fits = (1..=64).contains(&sites) && c.steps.iter().all(|s| (s.site as u64) < sites);
        if fits && text.word(at, b"}")? == to { Some(c) } else { None }
    }

    /// A decision from there on, and the place behind it.
    #[inline(always)]
    fn read_decision(&mut self, text: Text<'_>, at: usize) -> Option<usize> {
        let mut new = Record { tx: 0, rank: 0, watches: 0, is_watched: false, kind: WITHDRAW, section: 0, ended: false };
        let behind;
        if let Some(at) = text.word(at, b"{\"commit\":") {
            let (tx, at) = text.tx(at)?;
            let (rank, at) = text.number(text.word(at, b",\"rank\":")?)?;
            let rank = u32::try_from(rank).ok()?;
            // a rank above all others is none of 0 to n-1, and stays so
            (new.tx, new.kind, new.rank) = (tx, COMMIT, rank.saturating_add(1));
            behind = text.word(at, b"}")?;
        } else if let Some(at) = text.word(at, b"{\"refuse\":") {
            let (tx, at) = text.tx(at)?;
            (new.tx, new.kind) = (tx, REFUSE);
            behind = self.read_walk(text, text.word(at, b",\"walk\":[")?, tx)?;
        } else {
            let (tx, at) = text.tx(text.word(at, b"{\"withdraw\":")?)?;
            new.tx = tx;
            behind = text.word(at, b"}")?;
        }
        self.records.push(new);
        Some(behind)
    }

    /// The steps of a walk from this transaction on, and the place behind their `]}`.
    #[inline(never)]
    fn read_walk(&mut self, text: Text<'_>, mut at: usize, mut from: u32) -> Option<usize> {
        let begin = self.steps.len();
        while text.byte(at) != b']' {
            if self.steps.len() > begin {
                at = text.word(at, b",")?;
            }
            let (item, next) = text.name(text.word(at, b"{\"item\":\"")?)?;
            let next = text.word(next, b"\",\"kind\":\"")?;
            let conflict = match &text.bytes(next) {
                b"wr" => Conflict::Wr,
                b"rw" => Conflict::Rw,
                b"ww" => Conflict::Ww,
                _ => return None,
            };
            let (site, next) = text.number(text.word(next + 2, b"\",\"site\":")?)?;
            let (to, next) = text.tx(text.word(next, b",\"to\":")?)?;
            at = text.word(next, b"}")?;
            let site = u8::try_from(site).ok()?;
            self.steps.push(Step { conflict, item, site, from, to, seen: false, seen_add: false, met: false });
            from = to;
        }
        self.walks.push((begin, self.steps.len()));
        text.word(at, b"]}")
    }

    /// The decision number of a transaction.
    pub fn find(&self, tx: u32) -> Option<usize> {
        if self.table.is_empty() {
            return self.sparse.get(&tx).map(|n| *n as usize);
        }
        self.table.get(tx as usize).filter(|n| **n != u32::MAX).map(|n| *n as usize)
    }

    /// F4, F5 or F6 where there is one; and makes all ready for the sections.
    pub fn judge(&mut self) -> Option<Fault> {
        let mut taken = vec![false; self.count(COMMIT)];
        for record in self.records.iter().filter(|r| r.kind == COMMIT) {
            match taken.get_mut(record.rank as usize - 1) {
                Some(flag) if !*flag => *flag = true,
                _ => return Some(4),
            }
        }
        if !self.place_all() {
            return Some(5);
        }
        if !self.walks.is_empty() {
            if !self.walks_are_fine() {
                return Some(6);
            }
            self.place_watches();
        }
        None
    }

    pub fn count(&self, kind: Kind) -> usize {
        self.records.iter().filter(|r| r.kind == kind).count()
    }

    /// Notes each decision by its transaction. False where one has two.
    fn place_all(&mut self) -> bool {
        let most = self.records.iter().map(|r| r.tx as usize).max().unwrap_or(0);
        let is_dense = most < 4 * self.records.len() + 1024;
        if is_dense {
            self.table = vec![u32::MAX; most + 1];
        }
        for (n, record) in self.records.iter().enumerate() {
            let is_new = if is_dense {
                std::mem::replace(&mut self.table[record.tx as usize], n as u32) == u32::MAX
            } else {
                self.sparse.insert(record.tx, n as u32).is_none()
            };
            if !is_new {
                return false;
            }
        }
        true
    }

    fn walks_are_fine(&self) -> bool {
        let mut last_walk = vec![u32::MAX; self.records.len()];
        let refusals = (0..self.records.len()).filter(|n| self.records[*n].kind == REFUSE);
        for (w, (n, (begin, end))) in refusals.zip(&self.walks).enumerate() {
            let steps = &self.steps[*begin..*end];
            if steps.len() < 2 || steps[steps.len() - 1].to != self.records[n].tx {
                return false;
            }
            for step in &steps[..steps.len() - 1] {
                match self.find(step.to) {
                    Some(m) if m < n && self.records[m].kind == COMMIT && last_walk[m] != w as u32 => last_walk[m] = w as u32,
                    _ => return false,
                }
            }
        }
        true
    }

    /// For each transaction at which steps begin or end, those steps side by side.
    fn place_watches(&mut self) {
        let mut ends = Vec::with_capacity(2 * self.steps.len());
        for step in &self.steps {
            ends.extend([step.from, step.to].map(|tx| self.find(tx).unwrap() as u32));
        }
        for n in &ends {
            self.records[*n as usize].watches += 1;
        }
        let mut many = 0;
        for record in self.records.iter_mut().filter(|r| r.watches > 0) {
            let own = record.watches + 1;
            (record.watches, record.is_watched) = (many, true);
            many += own;
        }
        self.watches = vec![0; many as usize];
        for (at, n) in ends.iter().enumerate() {
            let own = &mut self.watches[self.records[*n as usize].watches as usize..];
            own[0] += 1;
            own[own[0] as usize] = at as u32 / 2;
        }
    }

    /// Notes an operation in the steps of walks that wait for it.
    #[inline(always)]
    pub fn notice(&mut self, n: usize, site: u8, item: Name, letter: u8) {
        if self.records[n].is_watched {
            self.notice_steps(n, site, item, letter);
        }
    }

    #[inline(never)]
    fn notice_steps(&mut self, n: usize, site: u8, item: Name, letter: u8) {
        let (reads, adds) = (letter == b'r', matches!(letter, b'd' | b'q'));
        let Record { tx, watches, .. } = self.records[n];
        let own = &self.watches[watches as usize..];
        for s in &own[1..=own[0] as usize] {
            let step = &mut self.steps[*s as usize];
            if step.site != site || step.item != item {
                continue;
            }
            if step.to == tx && step.seen && (step.conflict == Conflict::Wr) == reads && !(adds && step.seen_add) {
                step.met = true;
            }
            if step.from == tx && (step.conflict == Conflict::Rw) == reads {
                (step.seen, step.seen_add) = (true, adds);
            }
        }
    }
}
