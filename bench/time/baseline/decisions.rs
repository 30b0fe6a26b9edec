//! The decisions of a run, and the certificate that they make.
#![allow(dead_code)]
use crate::graph::{Conflict, Edge};
use crate::items::Items;
use crate::output::Out;

enum Decision {
    Commit(u32),
    /// a transaction, and where its walk ends among the walks of all
    Refuse(u32, u32),
    Withdraw(u32),
}

/// A step of a walk.
struct Link {
    item: u32,
    conflict: Conflict,
    to: u32,
}

#[derive(Default)]
pub struct Decisions {
    list: Vec<Decision>,
    walks: Vec<Link>,
}

impl Decisions {
    pub fn commit(&mut self, tx: u32) {
        self.list.push(Decision::Commit(tx));
    }

    /// Refuses a transaction for a cycle of nodes, the first of which is this transaction.
    pub fn refuse(&mut self, tx: u32, cycle: &[Edge], first: u32) {
        self.walks.extend(cycle.iter().map(|e| Link { item: e.item, conflict: e.conflict, to: first + e.to }));
        self.list.push(Decision::Refuse(tx, self.walks.len() as u32));
    }

    pub fn withdraw(&mut self, tx: u32) {
        self.list.push(Decision::Withdraw(tx));
    }

    /// Puts the certificate's line; the ranks are by transactions.
    pub fn put(&self, items: &Items, ranks: &[u32], out: &mut Out) {
        out.room();
        out.put(b"{\"decisions\":[");
        let mut walk = 0;
        for decision in &self.list {
            walk = self.put_decision(items, decision, walk, ranks, out);
        }
        out.take_back(usize::from(!self.list.is_empty()));
        out.room();
        out.put(b"],\"sites\":");
        out.number(items.sites.len() as u64);
        out.put(b"}\n");
    }

    /// Puts a decision and a comma. Its walk, if it has one, begins there among all walks; answered is where it ends.
    fn put_decision(&self, items: &Items, decision: &Decision, begin: usize, ranks: &[u32], out: &mut Out) -> usize {
        out.room();
        match *decision {
            Decision::Commit(tx) => {
                out.put(b"{\"commit\":");
                out.number(tx as u64);
                out.put(b",\"rank\":");
                out.number(ranks[tx as usize] as u64);
                out.put(b"},");
                begin
            }
            Decision::Withdraw(tx) => {
                out.put(b"{\"withdraw\":");
                out.number(tx as u64);
                out.put(b"},");
                begin
            }
            Decision::Refuse(tx, end) => {
                out.put(b"{\"refuse\":");
                out.number(tx as u64);
                out.put(b",\"walk\":[");
                put_walk(items, &self.walks[begin..end as usize], out);
                out.put(b"]},");
                end as usize
            }
        }
    }
}

fn put_walk(items: &Items, walk: &[Link], out: &mut Out) {
    for link in walk {
        let cell = &items.cells[link.item as usize];
        out.room();
        out.put(b"{\"item\":\"");
        out.name(cell.name);
        out.put(b"\",\"kind\":\"");
        out.put(match link.conflict {
            Conflict::Wr => b"wr",
            Conflict::Rw => b"rw",
            Conflict::Ww => b"ww",
        });
        out.put(b"\",\"site\":");
        out.number(cell.site as u64);
        out.put(b",\"to\":");
        out.number(link.to as u64);
        out.put(b"},");
    }
    out.take_back(1);
    out.room();
}
