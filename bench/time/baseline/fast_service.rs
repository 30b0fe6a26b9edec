//! A plain service of the same locks written for speed with std, without proofs and without a history of calls: what `sgt run` can be
//! measured against. It reads inputs in which no sum exceeds the greatest value (as time_run.py writes them), runs their scripts by
//! threads, and prints what `sgt run` prints; the verdict it makes up from its own counts. Where RUNS is given it does that so often,
//! each time on a new service, and prints the last one. How long the threads took in all goes to standard error, in nanoseconds.
//!
//! rustc --edition 2024 -O -C target-cpu=x86-64-v2 bench/time/baseline/fast_service.rs -o plain_fast_service
//! plain_fast_service WORKERS TRIES [RUNS] < SCRIPTS
mod decisions;
mod graph;
mod input;
mod items;
mod output;
mod versions;

use decisions::Decisions;
use graph::{Edge, Graph};
use input::{Lines, Text};
use items::Items;
use output::Out;
use std::sync::Mutex;
use std::sync::atomic::{AtomicUsize, Ordering};
use std::time::{Duration, Instant};
use versions::{Draft, Versions, Wish};

/// An item and its site.
#[derive(Clone, Copy)]
struct Place {
    item: u32,
    site: usize,
}

#[derive(Clone, Copy)]
enum Operation {
    Read(Place),
    Put(Place, u64),
    Add(Place, u64),
    Sum(Place, Place, u64),
}

type Script = Vec<Operation>;

#[derive(Clone, Copy)]
struct Entry {
    value: u64,
    tx: u32,
    item: u32,
    letter: u8,
}

struct Site {
    versions: Versions,
    log: Vec<Entry>,
}

#[derive(Default)]
struct Certifier {
    begun: u32,
    graph: Graph,
    decisions: Decisions,
    ins: Vec<Edge>,
    outs: Vec<Edge>,
}

struct Service {
    certifier: Mutex<Certifier>,
    sites: Vec<Mutex<Site>>,
}

/// How a script has ended: the transaction of its last try, whether that is committed, and how many tries there were.
#[derive(Clone, Copy, Default)]
struct Ending {
    tx: u32,
    committed: bool,
    tries: usize,
}

impl Service {
    fn new(items: &Items) -> Service {
        let site = |it: &items::Site| {
            let values = items.cells[it.begin as usize..it.end as usize].iter().map(|cell| cell.first);
            Mutex::new(Site { versions: Versions::new(it.begin, values), log: Vec::new() })
        };
        Service { certifier: Mutex::default(), sites: items.sites.iter().map(site).collect() }
    }

    fn begin(&self) -> u32 {
        let mut certifier = self.certifier.lock().unwrap();
        certifier.graph.add_node();
        certifier.begun += 1;
        certifier.begun
    }

    fn read(&self, tx: u32, draft: &mut Draft, place: Place) {
        if draft.look(place.item).is_ok() {
            return;
        }
        let mut site = self.sites[place.site].lock().unwrap();
        let seen = site.versions.see(place.item);
        site.log.push(Entry { value: seen.value, tx, item: place.item, letter: b'r' });
        drop(site);
        draft.reads.push(seen);
        draft.sites |= 1 << place.site;
    }

    /// Decides a transaction and installs it; whether it is committed.
    fn commit(&self, tx: u32, draft: &mut Draft) -> bool {
        draft.sort();
        let mut certifier = self.certifier.lock().unwrap();
        let Certifier { graph, decisions, ins, outs, .. } = &mut *certifier;
        ins.clear();
        outs.clear();
        for site in sites_of(draft) {
            self.sites[site].lock().unwrap().versions.gather(tx - 1, draft, ins, outs);
        }
        let committed = match graph.decide(tx - 1, ins, outs) {
            Ok(()) => {
                decisions.commit(tx);
                true
            }
            Err(cycle) => {
                decisions.refuse(tx, &cycle, 1);
                false
            }
        };
        for site in sites_of(draft) {
            install(&mut self.sites[site].lock().unwrap(), tx, draft, committed);
        }
        committed
    }

    /// Tries a script until it is committed.
    fn run(&self, script: &Script, tries: usize, draft: &mut Draft) -> Ending {
        let mut ending = Ending::default();
        while !ending.committed && ending.tries < tries {
            draft.clear();
            let tx = self.begin();
            for operation in script {
                self.operate(tx, draft, *operation);
            }
            ending = Ending { tx, committed: self.commit(tx, draft), tries: ending.tries + 1 };
        }
        ending
    }

    fn operate(&self, tx: u32, draft: &mut Draft, operation: Operation) {
        let (place, value, adds) = match operation {
            Operation::Read(place) => return self.read(tx, draft, place),
            Operation::Put(place, value) => (place, value, false),
            Operation::Add(place, value) => (place, value, true),
            Operation::Sum(place, source, value) => {
                let found = draft.look(source.item).expect("a source was read or written");
                (place, found.checked_add(value).expect("no sum is too large"), false)
            }
        };
        draft.change(Wish { value, item: place.item, adds }, place.site);
    }
}

fn sites_of(draft: &Draft) -> impl Iterator<Item = usize> {
    let mut left = draft.sites;
    std::iter::from_fn(move || {
        let site = left.trailing_zeros() as usize;
        left &= left.wrapping_sub(1);
        if site < 64 { Some(site) } else { None }
    })
}

fn install(site: &mut Site, tx: u32, draft: &Draft, committed: bool) {
    let own = site.versions.numbers();
    for wish in draft.wishes.iter().filter(|wish| own.contains(&wish.item)) {
        let letter = match (committed, wish.adds) {
            (true, false) => b'w',
            (true, true) => b'd',
            (false, false) => b'p',
            (false, true) => b'q',
        };
        site.log.push(Entry { value: wish.value, tx, item: wish.item, letter });
        if committed {
            site.versions.install_wish(tx - 1, wish);
        }
    }
    if committed {
        for seen in draft.reads.iter().filter(|seen| own.contains(&seen.item)) {
            site.versions.install_read(tx - 1, seen);
        }
    }
    site.log.push(Entry { value: 0, tx, item: 0, letter: if committed { b'c' } else { b'n' } });
}

/// Runs all scripts by so many threads, and answers how they have ended and how long it took.
fn run(service: &Service, scripts: &[Script], workers: usize, tries: usize) -> (Vec<Ending>, Duration) {
    let start = Instant::now();
    let next = AtomicUsize::new(0);
    let worker = || {
        let (mut draft, mut endings) = (Draft::default(), Vec::new());
        loop {
            let job = next.fetch_add(1, Ordering::Relaxed);
            let Some(script) = scripts.get(job) else { return endings };
            endings.push((job, service.run(script, tries, &mut draft)));
        }
    };
    let mut endings = vec![Ending::default(); scripts.len()];
    std::thread::scope(|scope| {
        let threads: Vec<_> = (0..workers).map(|_| scope.spawn(worker)).collect();
        for (job, ending) in threads.into_iter().flat_map(|thread| thread.join().unwrap()) {
            endings[job] = ending;
        }
    });
    (endings, start.elapsed())
}

/// The sites and scripts of an input.
fn read(text: Text<'_>, whole: usize) -> Option<(Items, Vec<Script>)> {
    let (mut items, mut scripts, mut at) = (Items::default(), Vec::new(), 0);
    while at < whole && let Some(next) = items.read_site(text, at) {
        at = next;
    }
    while at < whole {
        let mut script = Script::new();
        loop {
            let (operation, next) = read_operation(&items, text, at)?;
            script.push(operation);
            at = next + 1;
            match text.byte(next) {
                b' ' => {}
                b'\n' => break,
                _ => return None,
            }
        }
        scripts.push(script);
    }
    Some((items, scripts))
}

fn read_place(items: &Items, text: Text<'_>, at: usize) -> Option<(Place, usize)> {
    let (site, at) = text.number(at)?;
    let (name, at) = text.name(text.word(at, b".")?)?;
    Some((Place { item: items.find(site as usize, name)?, site: site as usize }, at))
}

fn read_operation(items: &Items, text: Text<'_>, at: usize) -> Option<(Operation, usize)> {
    let (place, behind) = read_place(items, text, text.word(at + 1, b"[")?)?;
    let behind = text.word(behind, b"]")?;
    if text.byte(at) == b'r' {
        return Some((Operation::Read(place), behind));
    }
    let from = text.word(behind, b"=")?;
    if let Some((value, to)) = text.number(from).filter(|(_, to)| text.byte(*to) != b'.') {
        let is_put = text.byte(at) == b'w';
        return Some((if is_put { Operation::Put(place, value) } else { Operation::Add(place, value) }, to));
    }
    let (source, to) = read_place(items, text, from)?;
    let (value, to) = text.number(text.word(to, b"+")?)?;
    Some((Operation::Sum(place, source, value), to))
}

fn put_endings(endings: &[Ending], out: &mut Out) {
    for (n, ending) in endings.iter().enumerate() {
        out.room();
        out.put(b"s");
        out.number(n as u64 + 1);
        if ending.committed {
            out.put(b" committed ");
        } else {
            out.put(b" refused ");
        }
        out.number(ending.tx as u64);
        out.put(b" tries ");
        out.number(ending.tries as u64);
        out.put(b"\n");
    }
}

fn put_section(items: &Items, number: usize, site: &Site, out: &mut Out) {
    items.put_head(number, out);
    for entry in &site.log {
        out.room();
        out.put(&[entry.letter]);
        out.number(entry.tx as u64);
        if !matches!(entry.letter, b'c' | b'n') {
            out.put(b"[");
            out.name(items.cells[entry.item as usize].name);
            out.put(b"]=");
            out.number(entry.value);
        }
        out.put(b"\n");
    }
    items.put_tail(number, |item| site.versions.value(item), out);
}

fn write_all(items: &Items, service: Service, endings: &[Ending]) {
    let mut out = Out::new(1 << 16);
    put_endings(endings, &mut out);
    let certifier = service.certifier.into_inner().unwrap();
    let sites: Vec<Site> = service.sites.into_iter().map(|s| s.into_inner().unwrap()).collect();
    let mut ranks = vec![0; certifier.begun as usize + 1];
    for (rank, node) in certifier.graph.order.iter().enumerate() {
        ranks[*node as usize + 1] = rank as u32;
    }
    let committed = certifier.graph.order.len() as u64;
    out.room();
    out.put(b"yes ");
    out.number(committed);
    out.put(b" committed ");
    out.number(certifier.begun as u64 - committed);
    out.put(b" refused 0 withdrawn\n---\n");
    let adds = |site: &Site| site.log.iter().any(|e| matches!(e.letter, b'd' | b'q'));
    out.put(if sites.iter().any(adds) { b"sgt 2\n" } else { b"sgt 1\n" });
    certifier.decisions.put(items, &ranks, &mut out);
    for (number, site) in sites.iter().enumerate() {
        put_section(items, number, site, &mut out);
    }
    out.write();
}

fn main() {
    let words: Vec<usize> = std::env::args().skip(1).map(|w| w.parse().expect("words are numbers")).collect();
    let (workers, tries, runs) = (words[0], words[1], words.get(2).map_or(1, |n| *n));
    let mut lines = Lines::new(std::io::stdin().lock());
    while lines.fill() {}
    let (items, scripts) = read(Text(&lines.buffer), lines.end).expect("the input is sites and scripts");
    let (mut spent, mut attempts, mut last) = (Duration::ZERO, 0, None);
    for _ in 0..runs {
        let service = Service::new(&items);
        let (endings, time) = run(&service, &scripts, workers, tries);
        spent += time;
        attempts += endings.iter().map(|e| e.tries).sum::<usize>();
        last = Some((service, endings));
    }
    eprintln!("run {} tries {attempts}", spent.as_nanos());
    let (service, endings) = last.expect("there is a run");
    let is_all = endings.iter().all(|e| e.committed);
    write_all(&items, service, &endings);
    std::process::exit(if is_all { 0 } else { 1 });
}
