#!/usr/bin/env python3
"""Times the gathering of a draft's edges at an item with a long log.

usage: time_gather.py [REPOSITORY]

Writes a scratch workspace with the crates below `sgt_edges` and a thin program, proves, builds and runs it: 100,000 transactions
each read one item and then write it, and drafts that touch the item are gathered at the end. Prints for each draft its edges and
the time of one `gather`, and the most memory that the program took. REPOSITORY is this one, or another checkout to compare with.
"""
import os, shutil, subprocess, sys, tempfile

BELOW = ["sgt_names", "sgt_arena", "sgt_site", "sgt_edges"]

MAIN = """//! Gathers the edges of drafts on one item that many transactions have read and written.
#![tactic(auto)]

use anyhow::Result;
use sgt_arena::Handle;
use sgt_edges::gather;
use sgt_names::{Draft, Holding, Item, SiteNo, Tx};
use sgt_site::Site;
use std::alloc::Global;
use std::time::Instant;

const COUNT: u64 = 100_000;
const ROUNDS: u64 = 100;

// The transaction reads the item and writes it, and is committed.
fn commit(alloc: Global, site: &mut Site, item: Item, number: u64) -> Result<()> {
    let tx = Tx::new(number)?;
    let here = site.number();
    let mut draft = Draft::new(alloc);
    let seen = site.read(tx, item)?;
    draft.seen(here, item, seen.value, seen.version)?;
    draft.put(here, item, number)?;
    site.pledge(tx, &draft)?;
    let handle = Handle {
        index: 1,
        generation: 0,
    };
    site.install(tx, handle, &draft)?;
    Ok(())
}

fn measure(rt: &HostRuntime, site: &Site, draft: &Draft, what: &str) -> Result<()> {
    let me = Handle {
        index: 0,
        generation: 0,
    };
    let start = Instant::now(rt)?;
    let mut edges = 0;
    for _ in 0..ROUNDS {
        edges = gather(rt.alloc(), site, draft, me)?.as_slice().len();
    }
    let spent = start.elapsed(rt)?.as_nanos() / ROUNDS as u128;
    println!(rt; "{what}: {edges} edges, {spent} ns")?;
    Ok(())
}

fn fill(rt: &HostRuntime, site: &mut Site, item: Item) -> Result<()> {
    let start = Instant::now(rt)?;
    for number in 1..=COUNT {
        commit(rt.alloc(), site, item, number)?;
    }
    let spent = start.elapsed(rt)?.as_nanos() / COUNT as u128;
    println!(rt; "a commit: {spent} ns")?;
    Ok(())
}

fn of_write(rt: &HostRuntime, site: &Site, item: Item) -> Result<()> {
    let mut draft = Draft::new(rt.alloc());
    draft.put(site.number(), item, 7)?;
    measure(rt, site, &draft, "a write")
}

fn of_increment(rt: &HostRuntime, site: &Site, item: Item) -> Result<()> {
    let mut draft = Draft::new(rt.alloc());
    draft.add(site.number(), item, 7)?;
    measure(rt, site, &draft, "an increment")
}

fn of_read(rt: &HostRuntime, site: &Site, item: Item, version: u64, what: &str) -> Result<()> {
    let mut draft = Draft::new(rt.alloc());
    draft.seen(site.number(), item, version, version)?;
    measure(rt, site, &draft, what)
}

// The transaction read the first version, and is committed behind all others.
fn late(rt: &HostRuntime, site: &mut Site, item: Item, tx: Tx) -> Result<()> {
    let mut draft = Draft::new(rt.alloc());
    draft.seen(site.number(), item, 0, 0)?;
    site.pledge(tx, &draft)?;
    let handle = Handle {
        index: 2,
        generation: 0,
    };
    let start = Instant::now(rt)?;
    site.install(tx, handle, &draft)?;
    let spent = start.elapsed(rt)?.as_nanos();
    println!(rt; "the commit of a read of version 0, after all others: {spent} ns")?;
    Ok(())
}

fn run(rt: &HostRuntime, site: &mut Site, item: Item) -> Result<()> {
    let slow = Tx::new(COUNT + 1)?;
    site.read(slow, item)?;
    fill(rt, site, item)?;
    of_write(rt, site, item)?;
    of_increment(rt, site, item)?;
    of_read(rt, site, item, COUNT, "a read of the present version")?;
    of_read(rt, site, item, COUNT / 2, "a read of an old version")?;
    late(rt, site, item, slow)
}

fn main(rt: HostRuntime) -> Result<()> {
    let item = Item::new(b"x")?;
    let mut site = Site::new(rt.alloc(), SiteNo::new(0)?, &[Holding { item, value: 0 }])?;
    run(&rt, &mut site, item)
}
"""


def main():
    if "--help" in sys.argv:
        sys.exit(__doc__)
    here = os.path.abspath(sys.argv[1] if len(sys.argv) > 1 else os.path.join(os.path.dirname(__file__), "../.."))
    with tempfile.TemporaryDirectory(prefix="sgt-gather-") as scratch:
        subprocess.run(["git", "init", "-q", scratch], check=True)
        lines = [line for line in open(f"{here}/crates.txt") if line.split(":")[0].strip() in BELOW]
        lines.append("gather_bench: " + " ".join(BELOW) + " anyhow\n")
        for name in BELOW:
            shutil.copytree(f"{here}/crates/{name}", f"{scratch}/crates/{name}")
        folder = f"{scratch}/crates/gather_bench"
        os.makedirs(f"{folder}/src")
        with open(f"{scratch}/crates.txt", "w") as crates:
            crates.writelines(lines)
        with open(f"{folder}/src/main.rt", "w") as source:
            source.write(MAIN)
        built = subprocess.run(["rt", "run", "--jobs", "1"], cwd=folder, capture_output=True, text=True)
        if built.returncode != 0:
            sys.exit(built.stdout + built.stderr)
        program = f"{folder}/out/gather_bench"
        subprocess.run([program], check=True)
        print(f"at most {peak(program) // 1024} MiB")


# The most memory that the program takes, in KiB.
def peak(program):
    asked = subprocess.run([sys.executable, "-c", PEAK, program], check=True, capture_output=True, text=True)
    return int(asked.stdout)


PEAK = """
import resource, subprocess, sys
subprocess.run(sys.argv[1:], stdout=subprocess.DEVNULL, check=True)
print(resource.getrusage(resource.RUSAGE_CHILDREN).ru_maxrss)
"""

if __name__ == "__main__":
    main()
