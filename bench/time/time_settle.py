#!/usr/bin/env python3
"""Times the check whether a run is settled, on scripts of four tries each.

usage: time_settle.py [--try] [--items N] [SCRIPTS ..]        (250 500 1000 2000 where nothing is said)

Four scripts at a time read an item and write to it; the first that is decided commits, the three others are refused and try
again, so nearly each script takes four tries. With --items N the scripts take turns at N items (1 where nothing is said).
It builds the program below in a scratch workspace, over copies of the crates with what their checks kept (with --try unproved,
by `rt try`), and runs it three times for each number, with the check and without it. It prints the best processor seconds of
either, the check's share, and the most memory of a run with it (below some 20 MB that of the starter).
"""
import os
import shutil
import subprocess
import sys
import tempfile

TOP = os.path.join(os.path.dirname(os.path.abspath(__file__)), "../..")
CRATES = [
    "sgt_names", "sgt_notation", "sgt_arena", "sgt_site", "sgt_edges", "sgt_order", "sgt_bundle", "sgt_certifier", "sgt_service_agreement",
    "sgt_workers", "sgt_service_settle",
]

PROGRAM = r"""//! Runs scripts that read an item and write to it, four at a time, and checks whether the run is settled.
#![tactic(auto)]

use anyhow::Error;
use sgt_service_agreement::EntryCounts;
use sgt_arena::Handle;
use sgt_certifier::{Certifier, Decided};
use sgt_edges::gather;
use sgt_names::{Draft, Entry, Holding, Item, SiteNo, Tx};
use sgt_service_settle::check_settled;
use sgt_site::Site;
use sgt_workers::{Done, Ending, Ticket};
use std::alloc::Global;
use std::env;
use std::ops::Range;

// A script that is running: its item, and the tickets of its tries.
#[derive(Drop)]
struct Script {
    job: u64,
    item: Item,
    tickets: Vec<Ticket>,
}

// A transaction that has read.
#[derive(Drop)]
struct Try {
    tx: Tx,
    handle: Handle,
    draft: Draft,
}

// Begins a transaction, which reads the item and is to write the next value.
fn begin(alloc: Global, certifier: &mut Certifier, site: &mut Site, item: Item) -> Result<Try, Error> {
    let (tx, handle) = certifier.begin()?;
    let seen = site.read(tx, item)?;
    let mut draft = Draft::new(alloc);
    draft.seen(site.number(), item, seen.value, seen.version)?;
    draft.put(site.number(), item, seen.value / 2 + 1)?;
    Ok(Try { tx, handle, draft })
}

// Decides a transaction, and answers its ticket.
fn decide(alloc: Global, certifier: &mut Certifier, site: &mut Site, one: &Try) -> Result<Ticket, Error> {
    site.pledge(one.tx, &one.draft)?;
    let edges = gather(alloc, site, &one.draft, one.handle)?;
    certifier.expect(one.handle, &one.draft)?;
    let decided = certifier.decide(one.handle, edges)?;
    let ticket = match decided {
        Decided::Committed { number } => {
            site.install(one.tx, one.handle, &one.draft)?;
            certifier.installed(one.tx, site.number(), &one.draft)?;
            Ticket { number: u64::from(number), tx: one.tx, verdict: Ending::Committed }
        }
        Decided::Refused { number, .. } => {
            site.refuse(one.tx, &one.draft)?;
            Ticket { number: u64::from(number), tx: one.tx, verdict: Ending::Refused }
        }
    };
    certifier.finish_step(one.tx)?;
    Ok(ticket)
}

// A try of each script that is running, the first one decided first. Answers those of whom more is to come.
fn round(
    alloc: Global,
    certifier: &mut Certifier,
    site: &mut Site,
    running: Vec<Script>,
    dones: &mut Vec<Done>,
) -> Result<Vec<Script>, Error> {
    let mut tries = Vec::new(alloc);
    for script in &running {
        tries.push(begin(alloc, certifier, site, script.item)?)?;
    }
    let mut left = Vec::new(alloc);
    let mut place: usize = 0;
    for mut script in running {
        let ticket = match tries.get(place) {
            Some(one) => decide(alloc, certifier, site, one)?,
            None => return Ok(left),
        };
        place = place.wrapping_add(1);
        script.tickets.push(ticket)?;
        if ticket.verdict == Ending::Committed || script.tickets.len() >= 4 {
            dones.push(Done { job: script.job, tickets: script.tickets, reads: Vec::new(alloc) })?;
        } else {
            left.push(script)?;
        }
    }
    Ok(left)
}

// Takes up scripts until four are running.
fn fill(alloc: Global, running: &mut Vec<Script>, jobs: &mut Range<u32>, items: &[Item]) -> Result<(), Error> {
    for _ in 0..4 {
        if running.len() >= 4 {
            return Ok(());
        }
        let Some(job) = jobs.next() else {
            return Ok(());
        };
        if let Some(item) = items.get((job / 4) as usize % items.len().max(1)) {
            running.push(Script { job: job as u64 + 1, item: *item, tickets: Vec::new(alloc) })?;
        }
    }
    Ok(())
}

// All scripts, four at a time.
fn run(
    alloc: Global,
    certifier: &mut Certifier,
    site: &mut Site,
    items: &[Item],
    scripts: u32,
    dones: &mut Vec<Done>,
) -> Result<(), Error> {
    let mut running: Vec<Script> = Vec::new(alloc);
    let mut jobs = 0..scripts;
    for turn in 0..scripts as u64 * 4 + 4 {
        fill(alloc, &mut running, &mut jobs, items)?;
        if running.is_empty() {
            return Ok(());
        }
        running = round(alloc, certifier, site, running, dones)?;
        if turn % 200 == 199 {
            certifier.close()?;
        }
    }
    Ok(())
}

fn counts_of(log: &[Entry]) -> EntryCounts {
    let reads = log.iter().filter(|entry| matches!(entry, Entry::Read { .. })).count() as u64;
    let others = log.iter().filter(|entry| !matches!(entry, Entry::Read { .. })).count() as u64;
    EntryCounts { reads, others }
}

fn main(rt: HostRuntime) -> Result<(), Error> {
    let alloc = rt.alloc();
    let words: Vec<String> = env::args(&rt)?.collect(alloc)?;
    let scripts = match words.get(1) {
        Some(word) => word.parse::<u32>().unwrap_or(0),
        None => 100,
    };
    let many = match words.get(2) {
        Some(word) => word.parse::<u32>().unwrap_or(1),
        None => 1,
    };
    let mut items: Vec<Item> = Vec::new(alloc);
    let mut holdings: Vec<Holding> = Vec::new(alloc);
    for k in 0..many {
        let name = format!(in alloc; "x{}", 10000 + k as u64)?;
        let item = Item::new(name.as_bytes())?;
        items.push(item)?;
        holdings.push(Holding { item, value: 0 })?;
    }
    let mut certifier = Certifier::new(alloc);
    let mut sites: Vec<Site> = Vec::new(alloc);
    let mut site = Site::new(alloc, SiteNo::new(0)?, holdings.as_slice())?;
    let mut dones: Vec<Done> = Vec::new(alloc);
    run(alloc, &mut certifier, &mut site, items.as_slice(), scripts, &mut dones)?;
    let counts = counts_of(site.log());
    let entries = site.log().len();
    sites.push(site)?;
    println!(rt; "{} calls, {} entries, {} jobs", certifier.history().len(), entries, dones.len())?;
    if words.len() > 3 {
        let settled = check_settled(alloc, &certifier, sites.as_slice(), &[counts], dones.as_slice());
        println!(rt; "settled: {}", settled.is_ok())?;
    }
    Ok(())
}
"""


def built(scratch, unproved):
    """Builds the program, and returns how it is run."""
    for crate in CRATES:
        shutil.copytree(f"{TOP}/crates/{crate}", f"{scratch}/crates/{crate}")
    home = f"{scratch}/crates/settle_load"
    os.makedirs(f"{home}/src")
    with open(f"{home}/src/main.rt", "w", encoding="utf-8") as file:
        file.write(PROGRAM)
    with open(f"{TOP}/crates.txt", encoding="utf-8") as file:
        lines = [it for it in file if it.split(":")[0].split(" ")[0] in CRATES]
    with open(f"{scratch}/crates.txt", "w", encoding="utf-8") as file:
        file.writelines(lines)
        file.write("settle_load: sgt_names sgt_arena sgt_site sgt_edges sgt_bundle sgt_certifier sgt_service_agreement sgt_workers sgt_service_settle anyhow\n")
    subprocess.run(["rt", "fmt"], cwd=home, check=True)
    if unproved:
        return ["rt", "try", "settle_load", "--seconds", "600", "--"], home
    ran = subprocess.run(["rt", "run", "settle_load"], cwd=home, stdout=subprocess.PIPE, stderr=subprocess.STDOUT, text=True)
    if ran.returncode:
        sys.exit(ran.stdout + "\nthe program is not proved, or it failed")
    return [f"{home}/out/settle_load"], home


def timed(words, home):
    """The processor seconds and the most memory of a run, in bytes, and what it printed."""
    running = subprocess.Popen(words, stdout=subprocess.PIPE, text=True, cwd=home)
    told = running.stdout.read()
    _, status, used = os.wait4(running.pid, 0)
    if status:
        sys.exit(f"{words} ended with {status}\n{told}")
    return used.ru_utime + used.ru_stime, used.ru_maxrss * 1024, told


def main():
    if "--help" in sys.argv:
        sys.exit(__doc__)
    words = sys.argv[1:]
    unproved = "--try" in words
    items = words[words.index("--items") + 1] if "--items" in words else "1"
    numbers = [it for k, it in enumerate(words) if it.isdigit() and (k == 0 or words[k - 1] != "--items")]
    with tempfile.TemporaryDirectory(prefix="time-settle-") as scratch:
        program, home = built(scratch, unproved)
        print("scripts  without  with   check  memory")
        for count in numbers or ["250", "500", "1000", "2000"]:
            without = min(timed([*program, count, items], home)[0] for _ in range(3))
            runs = [timed([*program, count, items, "check"], home) for _ in range(3)]
            if "settled: true" not in runs[0][2]:
                sys.exit(runs[0][2])
            seconds, most = min(it[0] for it in runs), max(it[1] for it in runs)
            print(f"{count:>7} {without:8.3f} {seconds:6.3f} {seconds - without:6.3f} {most // 1000000:4} MB  {runs[0][2].splitlines()[0]}")


if __name__ == "__main__":
    main()
