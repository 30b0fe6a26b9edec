//! A plain scheduler of one thread: it keeps what transactions read and ask for, decides them by the graph of their window, and
//! writes the logs of the sites as it goes. Calls that aren't allowed are refused by the numbers of docs/FORMAT.md.
use crate::decisions::Decisions;
use crate::graph::{Edge, Graph};
use crate::input::Name;
use crate::items::Items;
use crate::output::Out;
use crate::versions::{Draft, Versions, Wish};

/// The number of a reason for which a call is refused.
pub type Refusal = u8;

const WINDOW: usize = 4096;

#[derive(Clone, Copy, PartialEq)]
enum State {
    Active,
    Decided,
    Ended,
}

#[derive(Clone, Copy)]
struct Node {
    draft: u32,
    state: State,
}

/// The step that is open: a decided transaction, and the sites where it isn't installed.
#[derive(Clone, Copy)]
struct Step {
    tx: u32,
    committed: bool,
    left: u64,
}

pub struct Scheduler {
    pub items: Items,
    pub versions: Versions,
    pub logs: Vec<Out>,
    pub decisions: Decisions,
    pub second: bool,
    nodes: Vec<Node>,
    drafts: Vec<Draft>,
    spare: Vec<u32>,
    graph: Graph,
    ins: Vec<Edge>,
    outs: Vec<Edge>,
    step: Option<Step>,
    /// committed transactions of closed windows, in their order
    past: Vec<u32>,
    before: u32,
    windows: u32,
}

impl Scheduler {
    pub fn new(items: Items) -> Scheduler {
        Scheduler {
            versions: Versions::new(0, items.cells.iter().map(|cell| cell.first)),
            logs: items.sites.iter().map(|_| Out::new(1024)).collect(),
            items,
            decisions: Decisions::default(),
            second: false,
            nodes: Vec::new(),
            drafts: Vec::new(),
            spare: Vec::new(),
            graph: Graph::default(),
            ins: Vec::new(),
            outs: Vec::new(),
            step: None,
            past: Vec::new(),
            before: 0,
            windows: 0,
        }
    }

    pub fn active(&self) -> usize {
        self.drafts.len() - self.spare.len()
    }

    /// Why a transaction isn't active: E1, E2 or E3.
    #[cold]
    #[inline(never)]
    fn refusal(&self, tx: u32) -> Refusal {
        match self.nodes.get(tx.wrapping_sub(self.before + 1) as usize) {
            Some(node) if node.state == State::Decided => 3,
            Some(_) => 2,
            None => if tx <= self.before { 2 } else { 1 },
        }
    }

    /// The draft of an active transaction that isn't decided.
    #[inline(always)]
    fn draft(&self, tx: u32) -> Result<usize, Refusal> {
        match self.nodes.get(tx.wrapping_sub(self.before + 1) as usize) {
            Some(node) if node.state == State::Active => Ok(node.draft as usize),
            _ => Err(self.refusal(tx)),
        }
    }

    /// The same where no step may be open.
    #[inline(always)]
    fn draft_between_steps(&self, tx: u32) -> Result<usize, Refusal> {
        let draft = self.draft(tx)?;
        if self.step.is_some() { Err(3) } else { Ok(draft) }
    }

    pub fn begin(&mut self) -> Result<u32, Refusal> {
        if self.step.is_some() {
            return Err(3);
        }
        if self.nodes.len() == WINDOW {
            return Err(7);
        }
        let begun = self.before + self.nodes.len() as u32;
        let tx = begun.checked_add(1).ok_or(11)?;
        let draft = self.spare.pop().unwrap_or_else(|| {
            self.drafts.push(Draft::default());
            self.drafts.len() as u32 - 1
        });
        self.nodes.push(Node { draft, state: State::Active });
        self.graph.add_node();
        Ok(tx)
    }

    /// The value that a transaction finds, and the site's log where the read is to be told there.
    #[inline(always)]
    pub fn read(&mut self, tx: u32, site: usize, name: Name) -> Result<(u64, Option<&mut Out>), Refusal> {
        let draft = self.draft(tx)?;
        let item = self.items.find(site, name).ok_or(4)?;
        let draft = &mut self.drafts[draft];
        let added = match draft.look(item) {
            Ok(value) => return Ok((value, None)),
            Err(added) => added,
        };
        let seen = self.versions.see(item);
        draft.reads.push(seen);
        draft.sites |= 1 << site;
        let log = &mut self.logs[site];
        if added == 0 {
            return Ok((seen.value, Some(log)));
        }
        // the log tells the value without the transaction's own increment
        put_operation(log, b'r', tx, name, seen.value);
        Ok((seen.value.wrapping_add(added), None))
    }

    #[inline(always)]
    pub fn change(&mut self, tx: u32, site: usize, name: Name, adds: bool, value: u64) -> Result<(), Refusal> {
        let draft = self.draft(tx)?;
        let item = self.items.find(site, name).ok_or(4)?;
        self.drafts[draft].change(Wish { value, item, adds }, site);
        Ok(())
    }

    /// Decides a transaction: whether it is committed, its draft, and the sites that it touches.
    #[inline(always)]
    fn decide(&mut self, tx: u32) -> Result<(bool, usize, u64), Refusal> {
        let draft = self.draft_between_steps(tx)?;
        let me = tx - self.before - 1;
        let Scheduler { versions, drafts, graph, ins, outs, decisions, .. } = self;
        let one = &mut drafts[draft];
        one.sort();
        ins.clear();
        outs.clear();
        versions.gather(me, one, ins, outs);
        let committed = match graph.decide(me, ins, outs) {
            Ok(()) => {
                decisions.commit(tx);
                true
            }
            Err(cycle) => {
                decisions.refuse(tx, &cycle, self.before + 1);
                false
            }
        };
        Ok((committed, draft, one.sites))
    }

    /// Decides a transaction and installs it everywhere; whether it is committed.
    pub fn commit(&mut self, tx: u32) -> Result<bool, Refusal> {
        let (committed, draft, mut left) = self.decide(tx)?;
        let mut wish = 0;
        while left != 0 {
            wish = self.install_wishes(tx, draft, wish, left.trailing_zeros() as usize, committed);
            left &= left - 1;
        }
        if committed {
            self.install_reads(tx - self.before - 1, draft, None);
        }
        self.end(tx, draft);
        Ok(committed)
    }

    pub fn vote(&mut self, tx: u32) -> Result<bool, Refusal> {
        let (committed, draft, left) = self.decide(tx)?;
        if left == 0 {
            self.end(tx, draft);
        } else {
            self.step = Some(Step { tx, committed, left });
            self.nodes[(tx - self.before - 1) as usize].state = State::Decided;
        }
        Ok(committed)
    }

    pub fn install(&mut self, tx: u32, site: usize) -> Result<(), Refusal> {
        let step = self.step.filter(|step| step.tx == tx);
        let draft = match (self.draft(tx), step) {
            (Ok(draft), _) => draft,
            (Err(_), Some(_)) => self.nodes[(tx - self.before - 1) as usize].draft as usize,
            (Err(why), None) => return Err(why),
        };
        if self.step.is_some() && step.is_none() {
            return Err(3);
        }
        if site >= self.items.sites.len() {
            return Err(4);
        }
        let mut step = step.ok_or(5)?;
        if step.left >> site & 1 == 0 {
            return Err(if self.drafts[draft].sites >> site & 1 == 1 { 6 } else { 12 });
        }
        let begin = self.items.sites[site].begin;
        let wish = self.drafts[draft].wishes.partition_point(|w| w.item < begin);
        self.install_wishes(tx, draft, wish, site, step.committed);
        if step.committed {
            self.install_reads(tx - self.before - 1, draft, Some(site));
        }
        step.left &= !(1 << site);
        self.step = Some(step);
        if step.left == 0 {
            self.step = None;
            self.end(tx, draft);
        }
        Ok(())
    }

    /// Writes the block of a site, from this wish on, and answers the first wish behind it.
    #[inline(always)]
    fn install_wishes(&mut self, tx: u32, draft: usize, mut wish: usize, site: usize, committed: bool) -> usize {
        let end = self.items.sites[site].end;
        let log = &mut self.logs[site];
        while let Some(one) = self.drafts[draft].wishes.get(wish).filter(|w| w.item < end) {
            let letter = match (committed, one.adds) {
                (true, false) => b'w',
                (true, true) => b'd',
                (false, false) => b'p',
                (false, true) => b'q',
            };
            put_operation(log, letter, tx, self.items.cells[one.item as usize].name, one.value);
            self.second |= one.adds;
            if committed {
                self.versions.install_wish(tx - self.before - 1, one);
            }
            wish += 1;
        }
        put_end(log, if committed { b'c' } else { b'n' }, tx);
        wish
    }

    /// Notes the reads of a site, or all.
    #[inline(always)]
    fn install_reads(&mut self, me: u32, draft: usize, site: Option<usize>) {
        let items = site.map_or(0..u32::MAX, |it| self.items.sites[it].begin..self.items.sites[it].end);
        for seen in self.drafts[draft].reads.iter().filter(|seen| items.contains(&seen.item)) {
            self.versions.install_read(me, seen);
        }
    }

    #[inline(always)]
    fn end(&mut self, tx: u32, draft: usize) {
        self.nodes[(tx - self.before - 1) as usize].state = State::Ended;
        self.drafts[draft].clear();
        self.spare.push(draft as u32);
    }

    pub fn withdraw(&mut self, tx: u32) -> Result<(), Refusal> {
        let draft = self.draft_between_steps(tx)?;
        let mut left = self.drafts[draft].sites;
        while left != 0 {
            put_end(&mut self.logs[left.trailing_zeros() as usize], b'a', tx);
            left &= left - 1;
        }
        self.end(tx, draft);
        self.decisions.withdraw(tx);
        Ok(())
    }

    /// Closes the window: how many are committed until now.
    pub fn close(&mut self) -> Result<usize, Refusal> {
        if self.step.is_some() {
            return Err(3);
        }
        if self.active() > 0 {
            return Err(8);
        }
        if self.windows + 1 == u32::MAX {
            return Err(10);
        }
        self.windows += 1;
        self.past.extend(self.graph.order.iter().map(|n| self.before + 1 + n));
        self.before += self.nodes.len() as u32;
        self.nodes.clear();
        self.graph.clear();
        self.versions.close();
        Ok(self.past.len())
    }

    /// The rank of each committed transaction, by its number.
    pub fn ranks(&self) -> Vec<u32> {
        let mut ranks = vec![0; self.before as usize + self.nodes.len() + 1];
        let open = self.graph.order.iter().map(|n| self.before + 1 + n);
        for (rank, tx) in self.past.iter().copied().chain(open).enumerate() {
            ranks[tx as usize] = rank as u32;
        }
        ranks
    }
}

#[inline(always)]
fn put_operation(log: &mut Out, letter: u8, tx: u32, name: Name, value: u64) {
    log.room();
    log.put(&[letter]);
    log.number(tx as u64);
    log.put(b"[");
    log.name(name);
    log.put(b"]=");
    log.number(value);
    log.put(b"\n");
}

#[inline(always)]
fn put_end(log: &mut Out, letter: u8, tx: u32) {
    log.room();
    log.put(&[letter]);
    log.number(tx as u64);
    log.put(b"\n");
}
