// A plain service of the same locks written with std, without proofs and without a history of calls: what `sgt run` is measured
// against. It reads inputs in which no sum exceeds the greatest value (as time_run.py writes them), runs their scripts by threads,
// and prints what `sgt run` prints; the verdict it makes up from its own counts. With RUNS it runs them so often, each time on a new
// service, and prints the last. The nanoseconds of the threads and the tries go to standard error.
//
// rustc --edition 2024 -O -C target-cpu=x86-64-v2 bench/time/baseline/service.rs -o /tmp/service
// /tmp/service WORKERS TRIES [RUNS] < SCRIPTS
use std::collections::HashMap;
use std::fmt::Write as _;
use std::io::{Read, Write};
use std::sync::Mutex;
use std::sync::atomic::{AtomicUsize, Ordering};
use std::time::{Duration, Instant};

type Place = (usize, usize);

#[derive(Clone, Copy)]
enum Op {
    Read(Place),
    Put(Place, u64),
    Add(Place, u64),
    Sum(Place, Place, u64),
}

#[derive(Clone, Copy)]
struct Entry {
    letter: u8,
    tx: u32,
    item: usize,
    value: u64,
}

// an item: its value, who changed it (whether by an increment), who read it (and which version), all committed
#[derive(Clone, Default)]
struct Cell {
    value: u64,
    writers: Vec<(u32, bool)>,
    readers: Vec<(u32, usize)>,
}

struct Site {
    cells: Vec<Cell>,
    log: Vec<Entry>,
}

#[derive(Clone, Copy)]
struct Edge {
    from: u32,
    to: u32,
    label: (usize, usize, &'static str),
}

enum Decision {
    Commit(u32),
    Refuse(u32, Vec<Edge>),
}

#[derive(Default)]
struct Certifier {
    begun: u32,
    order: Vec<u32>,
    place: Vec<usize>, // by transaction; usize::MAX: not committed
    edges: Vec<Vec<Edge>>, // by the transaction that they lead from
    decisions: Vec<Decision>,
}

#[derive(Default)]
struct Draft {
    reads: Vec<(Place, u64, usize)>,
    changes: Vec<(Place, bool, u64)>, // whether by an increment
}

impl Draft {
    fn look(&self, place: Place) -> Option<u64> {
        let seen = self.reads.iter().find(|r| r.0 == place).map(|r| r.1);
        match self.changes.iter().find(|c| c.0 == place) {
            Some(c) if !c.1 => Some(c.2),
            Some(c) => seen.map(|v| v.wrapping_add(c.2)),
            None => seen,
        }
    }

    fn change(&mut self, place: Place, is_add: bool, value: u64) {
        match self.changes.iter_mut().find(|c| c.0 == place) {
            Some(c) if is_add => c.2 = c.2.wrapping_add(value),
            Some(c) => (c.1, c.2) = (false, value),
            None => self.changes.push((place, is_add, value)),
        }
    }

    fn sites(&self) -> Vec<usize> {
        let mut sites: Vec<usize> = self.reads.iter().map(|r| r.0.0).chain(self.changes.iter().map(|c| c.0.0)).collect();
        sites.sort_unstable();
        sites.dedup();
        sites
    }
}

struct Service {
    certifier: Mutex<Certifier>,
    sites: Vec<Mutex<Site>>,
}

impl Service {
    fn begin(&self) -> u32 {
        let mut certifier = self.certifier.lock().unwrap();
        certifier.begun += 1;
        certifier.place.push(usize::MAX);
        certifier.edges.push(Vec::new());
        certifier.begun
    }

    fn read(&self, tx: u32, draft: &mut Draft, place: Place) {
        if draft.look(place).is_none() {
            let mut site = self.sites[place.0].lock().unwrap();
            let cell = &site.cells[place.1];
            let (value, version) = (cell.value, cell.writers.len());
            site.log.push(Entry { letter: b'r', tx, item: place.1, value });
            draft.reads.push((place, value, version));
        }
    }

    fn commit(&self, tx: u32, draft: &Draft) -> bool {
        let sites = draft.sites();
        let mut certifier = self.certifier.lock().unwrap();
        let mut edges = Vec::new();
        for &at in &sites {
            gather(&self.sites[at].lock().unwrap(), at, tx, draft, &mut edges);
        }
        let is_committed = certifier.decide(tx, edges);
        for &at in &sites {
            install(&mut self.sites[at].lock().unwrap(), at, tx, draft, is_committed);
        }
        is_committed
    }
}

// the conflicts with neighbours, as edges
fn gather(site: &Site, at: usize, tx: u32, draft: &Draft, edges: &mut Vec<Edge>) {
    let mut push = |from: u32, to: u32, item: usize, kind: &'static str| {
        if from != to {
            edges.push(Edge { from, to, label: (at, item, kind) });
        }
    };
    for &(place, _, version) in draft.reads.iter().filter(|r| r.0.0 == at) {
        let writers = &site.cells[place.1].writers;
        for writer in writers[..version].iter().rev() {
            push(writer.0, tx, place.1, "wr");
            if !writer.1 {
                break;
            }
        }
        for writer in &writers[version..] {
            push(tx, writer.0, place.1, "rw");
            if !writer.1 {
                break;
            }
        }
    }
    for &(place, is_add, _) in draft.changes.iter().filter(|c| c.0.0 == at) {
        let cell = &site.cells[place.1];
        let mut since = cell.writers.len();
        if is_add {
            if let Some(writer) = cell.writers.iter().rev().find(|w| !w.1) {
                push(writer.0, tx, place.1, "ww");
            }
            while since > 0 && cell.writers[since - 1].1 {
                since -= 1;
            }
        } else {
            for writer in cell.writers.iter().rev() {
                push(writer.0, tx, place.1, "ww");
                if !writer.1 {
                    break;
                }
            }
        }
        for &(reader, version) in cell.readers.iter().rev() {
            if version < since {
                break;
            }
            push(reader, tx, place.1, "rw");
        }
    }
}

fn install(site: &mut Site, at: usize, tx: u32, draft: &Draft, is_committed: bool) {
    let mut changes: Vec<_> = draft.changes.iter().filter(|c| c.0.0 == at).copied().collect();
    changes.sort_unstable_by_key(|c| c.0);
    for (place, is_add, value) in changes {
        let letter = match (is_committed, is_add) {
            (true, false) => b'w',
            (true, true) => b'd',
            (false, false) => b'p',
            (false, true) => b'q',
        };
        site.log.push(Entry { letter, tx, item: place.1, value });
        if is_committed {
            let cell = &mut site.cells[place.1];
            cell.value = if is_add { cell.value.wrapping_add(value) } else { value };
            cell.writers.push((tx, is_add));
        }
    }
    if is_committed {
        for &(place, _, version) in draft.reads.iter().filter(|r| r.0.0 == at) {
            let readers = &mut site.cells[place.1].readers;
            let behind = readers.partition_point(|r| r.1 <= version);
            readers.insert(behind, (tx, version));
        }
    }
    site.log.push(Entry { letter: if is_committed { b'c' } else { b'n' }, tx, item: 0, value: 0 });
}

impl Certifier {
    fn decide(&mut self, tx: u32, edges: Vec<Edge>) -> bool {
        let mut came: HashMap<u32, Edge> = HashMap::new();
        let mut stack = Vec::new();
        for edge in edges.iter().filter(|e| e.from == tx) {
            if came.insert(edge.to, *edge).is_none() {
                stack.push(edge.to);
            }
        }
        while let Some(node) = stack.pop() {
            for edge in &self.edges[node as usize - 1] {
                if !came.contains_key(&edge.to) {
                    came.insert(edge.to, *edge);
                    stack.push(edge.to);
                }
            }
        }
        if let Some(back) = edges.iter().find(|e| e.to == tx && came.contains_key(&e.from)) {
            let mut walk = vec![*back];
            while walk[walk.len() - 1].from != tx {
                walk.push(came[&walk[walk.len() - 1].from]);
            }
            walk.reverse();
            self.decisions.push(Decision::Refuse(tx, walk));
            return false;
        }
        let least = came.keys().map(|node| self.place[*node as usize - 1]).min().unwrap_or(self.order.len());
        let tail = self.order.split_off(least);
        let (moved, stay): (Vec<u32>, Vec<u32>) = tail.into_iter().partition(|node| came.contains_key(node));
        self.order.extend(stay);
        self.order.push(tx);
        self.order.extend(moved);
        for n in least..self.order.len() {
            self.place[self.order[n] as usize - 1] = n;
        }
        for edge in edges {
            self.edges[edge.from as usize - 1].push(edge);
        }
        self.decisions.push(Decision::Commit(tx));
        true
    }
}

// runs a script once; the transaction, and whether it is committed
fn attempt(service: &Service, script: &[Op]) -> (u32, bool) {
    let tx = service.begin();
    let mut draft = Draft::default();
    for op in script {
        match *op {
            Op::Read(place) => service.read(tx, &mut draft, place),
            Op::Put(place, value) => draft.change(place, false, value),
            Op::Add(place, value) => draft.change(place, true, value),
            Op::Sum(place, source, value) => {
                let sum = draft.look(source).unwrap().checked_add(value).expect("no sum is too large");
                draft.change(place, false, sum);
            }
        }
    }
    (tx, service.commit(tx, &draft))
}

struct Named {
    names: Vec<String>,
    values: Vec<u64>,
}

fn place_of(named: &[Named], text: &str) -> Place {
    let (site, name) = text.split_once('.').unwrap();
    let site: usize = site.parse().unwrap();
    (site, named[site].names.iter().position(|n| n == name).unwrap())
}

fn op_of(named: &[Named], word: &str) -> Op {
    let (place, tail) = word[2..].split_once(']').unwrap();
    let place = place_of(named, place);
    let number = |text: &str| text.parse().unwrap();
    match (&word[..1], tail.strip_prefix('=').and_then(|t| t.split_once('+'))) {
        ("r", _) => Op::Read(place),
        ("w", Some((source, value))) => Op::Sum(place, place_of(named, source), number(value)),
        ("w", None) => Op::Put(place, number(&tail[1..])),
        _ => Op::Add(place, number(&tail[1..])),
    }
}

fn push_bundle(out: &mut String, named: &[Named], certifier: &Certifier, sites: &[Site]) {
    let second = sites.iter().any(|s| s.log.iter().any(|e| e.letter == b'd' || e.letter == b'q'));
    write!(out, "sgt {}\n{{\"decisions\":[", if second { 2 } else { 1 }).unwrap();
    for (n, decision) in certifier.decisions.iter().enumerate() {
        out.push_str(if n > 0 { "," } else { "" });
        match decision {
            Decision::Commit(tx) => write!(out, "{{\"commit\":{tx},\"rank\":{}}}", certifier.place[*tx as usize - 1]).unwrap(),
            Decision::Refuse(tx, walk) => {
                write!(out, "{{\"refuse\":{tx},\"walk\":[").unwrap();
                for (k, edge) in walk.iter().enumerate() {
                    let (site, item, kind) = edge.label;
                    let (comma, name) = (if k > 0 { "," } else { "" }, &named[site].names[item]);
                    write!(out, "{comma}{{\"item\":\"{name}\",\"kind\":\"{kind}\",\"site\":{site},\"to\":{}}}", edge.to).unwrap();
                }
                out.push_str("]}");
            }
        }
    }
    writeln!(out, "],\"sites\":{}}}", sites.len()).unwrap();
    for (k, site) in sites.iter().enumerate() {
        writeln!(out, "site {k}").unwrap();
        for (name, value) in named[k].names.iter().zip(&named[k].values) {
            writeln!(out, "item {name}={value}").unwrap();
        }
        for entry in &site.log {
            match entry.letter {
                b'c' | b'n' => writeln!(out, "{}{}", entry.letter as char, entry.tx).unwrap(),
                letter => writeln!(out, "{}{}[{}]={}", letter as char, entry.tx, named[k].names[entry.item], entry.value).unwrap(),
            }
        }
        for (name, cell) in named[k].names.iter().zip(&site.cells) {
            writeln!(out, "final {name}={}", cell.value).unwrap();
        }
        out.push_str("end\n");
    }
}

fn main() {
    let words: Vec<usize> = std::env::args().skip(1).map(|w| w.parse().unwrap()).collect();
    let (workers, tries, runs) = (words[0], words[1], words.get(2).map_or(1, |runs| *runs));
    let mut input = String::new();
    std::io::stdin().read_to_string(&mut input).unwrap();
    let mut named: Vec<Named> = Vec::new();
    let mut scripts: Vec<Vec<Op>> = Vec::new();
    for line in input.lines() {
        if line.starts_with("site ") {
            let pairs: Vec<_> = line.split(' ').skip(2).map(|w| w.split_once('=').unwrap()).collect();
            named.push(Named {
                names: pairs.iter().map(|p| p.0.to_string()).collect(),
                values: pairs.iter().map(|p| p.1.parse().unwrap()).collect(),
            });
        } else {
            scripts.push(line.split(' ').map(|word| op_of(&named, word)).collect());
        }
    }
    let site_of = |n: &Named| Site { cells: n.values.iter().map(|&value| Cell { value, ..Cell::default() }).collect(), log: Vec::new() };
    let (mut spent, mut attempts_of_all, mut last) = (Duration::ZERO, 0, None);
    for _ in 0..runs {
        let service = Service {
            certifier: Mutex::new(Certifier::default()),
            sites: named.iter().map(|n| Mutex::new(site_of(n))).collect(),
        };
        let next = AtomicUsize::new(0);
        let start = Instant::now();
        let ends: Vec<Mutex<(u32, bool, usize)>> = scripts.iter().map(|_| Mutex::new((0, false, 0))).collect();
        std::thread::scope(|scope| {
            for _ in 0..workers {
                scope.spawn(|| {
                    loop {
                        let job = next.fetch_add(1, Ordering::SeqCst);
                        let Some(script) = scripts.get(job) else { break };
                        for attempts in 1..=tries {
                            let (tx, is_committed) = attempt(&service, script);
                            *ends[job].lock().unwrap() = (tx, is_committed, attempts);
                            if is_committed {
                                break;
                            }
                        }
                    }
                });
            }
        });
        spent += start.elapsed();
        attempts_of_all += ends.iter().map(|end| end.lock().unwrap().2).sum::<usize>();
        last = Some((service, ends));
    }
    eprintln!("run {} tries {attempts_of_all}", spent.as_nanos());
    let (service, ends) = last.unwrap();
    let certifier = service.certifier.into_inner().unwrap();
    let sites: Vec<Site> = service.sites.into_iter().map(|s| s.into_inner().unwrap()).collect();
    let mut out = String::new();
    for (n, end) in ends.iter().enumerate() {
        let (tx, is_committed, attempts) = *end.lock().unwrap();
        writeln!(out, "s{} {} {tx} tries {attempts}", n + 1, if is_committed { "committed" } else { "refused" }).unwrap();
    }
    let refused = certifier.decisions.iter().filter(|d| matches!(d, Decision::Refuse(..))).count();
    writeln!(out, "yes {} committed {refused} refused 0 withdrawn\n---", certifier.order.len()).unwrap();
    push_bundle(&mut out, &named, &certifier, &sites);
    std::io::stdout().write_all(out.as_bytes()).unwrap();
}
