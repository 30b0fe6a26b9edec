//! The graph of a window: its committed transactions in an order that all edges follow.
#![allow(dead_code)]

const NONE: u32 = u32::MAX;

#[derive(Clone, Copy, PartialEq)]
pub enum Conflict {
    Wr,
    Rw,
    Ww,
}

#[derive(Clone, Copy)]
pub struct Edge {
    pub from: u32,
    pub to: u32,
    pub item: u32,
    pub conflict: Conflict,
    /// the next edge out of the same node
    next: u32,
}

impl Edge {
    pub fn new(from: u32, to: u32, item: u32, conflict: Conflict) -> Edge {
        Edge { from, to, item, conflict, next: NONE }
    }
}

#[derive(Clone, Copy)]
struct Node {
    /// its place in the order, once it is committed
    place: u32,
    /// its first and its last edge out
    first: u32,
    last: u32,
    /// the search that came here last, and by which edge
    mark: u32,
    by: u32,
}

#[derive(Default)]
pub struct Graph {
    nodes: Vec<Node>,
    edges: Vec<Edge>,
    pub order: Vec<u32>,
    mark: u32,
    moved: Vec<u32>,
}

impl Graph {
    pub fn add_node(&mut self) {
        self.nodes.push(Node { place: NONE, first: NONE, last: NONE, mark: 0, by: NONE });
    }

    pub fn clear(&mut self) {
        self.nodes.clear();
        self.edges.clear();
        self.order.clear();
        self.mark = 0;
    }

    fn link(&mut self, edge: Edge) {
        let new = self.edges.len() as u32;
        let node = &mut self.nodes[edge.from as usize];
        match std::mem::replace(&mut node.last, new) {
            NONE => node.first = new,
            last => self.edges[last as usize].next = new,
        }
        self.edges.push(edge);
    }

    /// Admits a node with its edges in and out, or answers a cycle of edges that it would close.
    pub fn decide(&mut self, me: u32, ins: &[Edge], outs: &[Edge]) -> Result<(), Vec<Edge>> {
        if outs.is_empty() {
            self.nodes[me as usize].place = self.order.len() as u32;
            self.order.push(me);
        } else {
            let kept = self.edges.len();
            for edge in outs {
                self.link(*edge);
            }
            let least = self.search(me);
            if let Some(back) = ins.iter().find(|e| self.nodes[e.from as usize].mark == self.mark) {
                let cycle = self.cycle(me, *back);
                self.edges.truncate(kept);
                (self.nodes[me as usize].first, self.nodes[me as usize].last) = (NONE, NONE);
                return Err(cycle);
            }
            self.make_room(me, least);
        }
        for edge in ins {
            self.link(*edge);
        }
        Ok(())
    }

    /// Marks what the node leads to, and answers the first place of those. Edges lead on in the order, so one pass is enough.
    fn search(&mut self, me: u32) -> usize {
        self.mark += 1;
        let least = self.spread(me);
        for place in least..self.order.len() {
            let node = self.order[place];
            if self.nodes[node as usize].mark == self.mark {
                self.spread(node);
            }
        }
        least
    }

    /// Marks the targets of the node's edges, and answers the first place of those.
    #[inline(always)]
    fn spread(&mut self, from: u32) -> usize {
        let mut least = NONE;
        let mut edge = self.nodes[from as usize].first;
        while edge != NONE {
            let Edge { to, next, .. } = self.edges[edge as usize];
            let node = &mut self.nodes[to as usize];
            if node.mark != self.mark {
                (node.mark, node.by) = (self.mark, edge);
                least = least.min(node.place);
            }
            edge = next;
        }
        least as usize
    }

    fn cycle(&self, me: u32, back: Edge) -> Vec<Edge> {
        let mut cycle = vec![back];
        let mut at = back.from;
        while at != me {
            let edge = self.edges[self.nodes[at as usize].by as usize];
            cycle.push(edge);
            at = edge.from;
        }
        cycle.reverse();
        cycle
    }

    /// Puts the node behind all that it doesn't lead to, and what it leads to behind it.
    fn make_room(&mut self, me: u32, least: usize) {
        self.moved.clear();
        self.moved.push(me);
        let mut end = least;
        for n in least..self.order.len() {
            let it = self.order[n];
            let node = &mut self.nodes[it as usize];
            if node.mark == self.mark {
                self.moved.push(it);
            } else {
                node.place = end as u32;
                self.order[end] = it;
                end += 1;
            }
        }
        self.order.truncate(end);
        for it in &self.moved {
            self.nodes[*it as usize].place = self.order.len() as u32;
            self.order.push(*it);
        }
    }
}
