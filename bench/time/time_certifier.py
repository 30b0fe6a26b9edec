#!/usr/bin/env python3
"""Times the certifier on ten thousand to a million transactions over windows of a thousand.

usage: time_certifier.py [TRANSACTIONS ..]        (10000 100000 1000000 where nothing is said)

It builds the program below in a scratch workspace, over copies of the crates with what their checks kept, and runs it three
times for each number. It prints the best processor seconds (user + system), without and with the certificate, and the most
memory of a run without it (below some 20 MB that of the starter).
"""
import os
import shutil
import subprocess
import sys
import tempfile

TOP = os.path.join(os.path.dirname(os.path.abspath(__file__)), "../..")
CRATES = ["sgt_names", "sgt_notation", "sgt_arena", "sgt_site", "sgt_edges", "sgt_order", "sgt_bundle", "sgt_certifier"]

PROGRAM = r"""//! Runs a certifier over windows of a thousand transactions, and says how many decisions it took.
//!
//! In each window a transaction reads what the last committed one wrote. One in ten reads also what that one overwrote: it is
//! on a cycle, and refused. One in seven reads that alone, and goes in front of it. One in twenty is withdrawn. Who is committed
//! installs its write.
#![tactic(auto)]

use anyhow::Error;
use sgt_arena::Handle;
use sgt_certifier::{Certifier, CertifierFault, Decided};
use sgt_edges::{Edge, EdgeList};
use sgt_names::{Draft, Item, Kind, Label, SiteNo, Tx};
use std::alloc::{AllocError, Global};
use std::env;

const WINDOW: u32 = 1000;

// The labels of a read behind a write, and of one in front of it.
#[derive(Clone, Copy)]
struct Labels {
    wr: Label,
    rw: Label,
}

// The edges of a transaction with the last committed one.
fn edges_of(
    alloc: Global,
    place: u32,
    handle: Handle,
    last: Handle,
    labels: &Labels,
) -> Result<EdgeList, AllocError> {
    let mut edges = EdgeList::new(alloc);
    if place % 7 != 0 {
        edges.push(Edge { from: last, to: handle, label: labels.wr })?;
    }
    if place % 7 == 0 || place % 10 == 0 {
        edges.push(Edge { from: handle, to: last, label: labels.rw })?;
    }
    Ok(edges)
}

fn is_committed(decided: &Decided) -> bool {
    match decided {
        Decided::Committed { .. } => true,
        Decided::Refused { .. } => false,
    }
}

// Decides a transaction, and ends its step. Answers whether it is committed.
fn serve(
    certifier: &mut Certifier,
    draft: &Draft,
    site: SiteNo,
    tx: Tx,
    handle: Handle,
    edges: EdgeList,
) -> Result<bool, CertifierFault> {
    certifier.expect(handle, draft)?;
    let decided = certifier.decide(handle, edges)?;
    let goes_in = is_committed(&decided);
    if goes_in {
        certifier.installed(tx, site, draft)?;
    }
    certifier.finish_step(tx)?;
    Ok(goes_in)
}

// A transaction, in its place of the window. Answers the last committed one.
fn transaction(
    alloc: Global,
    certifier: &mut Certifier,
    draft: &Draft,
    labels: &Labels,
    place: u32,
    last: Option<Handle>,
) -> Result<Option<Handle>, CertifierFault> {
    let (tx, handle) = certifier.begin()?;
    if place % 20 == 0 {
        certifier.withdraw(handle)?;
        return Ok(last);
    }
    let edges = match last {
        Some(last) => edges_of(alloc, place, handle, last, labels),
        None => Ok(EdgeList::new(alloc)),
    };
    if serve(certifier, draft, labels.wr.site, tx, handle, edges?)? {
        return Ok(Some(handle));
    }
    Ok(last)
}

// A window. It begins with an edge from the window before it, which is left out.
fn window(
    alloc: Global,
    certifier: &mut Certifier,
    draft: &Draft,
    labels: &Labels,
    first: Option<Handle>,
) -> Result<Option<Handle>, CertifierFault> {
    let mut last = first;
    for place in 1..WINDOW + 1 {
        last = transaction(alloc, certifier, draft, labels, place, last)?;
    }
    certifier.close()?;
    Ok(last)
}

// So many windows.
fn windows(alloc: Global, certifier: &mut Certifier, draft: &Draft, labels: &Labels, count: u32) -> Result<(), CertifierFault> {
    let mut last = None;
    for _ in 0..count {
        last = window(alloc, certifier, draft, labels, last)?;
    }
    Ok(())
}

fn main(rt: HostRuntime) -> Result<(), Error> {
    let alloc = rt.alloc();
    let words: Vec<String> = env::args(&rt)?.collect(alloc)?;
    let count = match words.get(1) {
        Some(word) => word.parse::<u32>().unwrap_or(0),
        None => 0,
    };
    let site = SiteNo::new(0)?;
    let item = Item::new(b"x")?;
    let labels = Labels { wr: Label { site, item, kind: Kind::Wr }, rw: Label { site, item, kind: Kind::Rw } };
    let mut draft = Draft::new(alloc);
    draft.put(site, item, 6)?;
    let mut certifier = Certifier::new(alloc);
    windows(alloc, &mut certifier, &draft, &labels, count / WINDOW)?;
    println!(rt; "{} calls", certifier.history().len())?;
    if words.len() > 2 {
        let certificate = certifier.certificate(alloc, 1)?;
        println!(rt; "{} decisions", certificate.decisions.as_slice().len())?;
    }
    Ok(())
}
"""


def built(scratch):
    """Builds the program, and returns its path."""
    for crate in CRATES:
        shutil.copytree(f"{TOP}/crates/{crate}", f"{scratch}/crates/{crate}")
    home = f"{scratch}/crates/certifier_load"
    os.makedirs(f"{home}/src")
    with open(f"{home}/src/main.rt", "w", encoding="utf-8") as file:
        file.write(PROGRAM)
    with open(f"{TOP}/crates.txt", encoding="utf-8") as file:
        lines = [it for it in file if it.split(":")[0] in CRATES]
    with open(f"{scratch}/crates.txt", "w", encoding="utf-8") as file:
        file.writelines(lines)
        file.write("certifier_load: sgt_names sgt_arena sgt_edges sgt_order sgt_bundle sgt_certifier anyhow\n")
    subprocess.run(["rt", "fmt"], cwd=home, check=True)
    ran = subprocess.run(["rt", "run", "certifier_load"], cwd=home, stdout=subprocess.PIPE, stderr=subprocess.STDOUT, text=True)
    if ran.returncode:
        sys.exit(ran.stdout + "\nthe program is not proved, or it failed")
    return f"{home}/out/certifier_load"


def timed(words):
    """The processor seconds and the most memory of a run, in bytes, and what it printed."""
    running = subprocess.Popen(words, stdout=subprocess.PIPE, text=True)
    told = running.stdout.read()
    _, status, used = os.wait4(running.pid, 0)
    if status:
        sys.exit(f"{words} ended with {status}")
    return used.ru_utime + used.ru_stime, used.ru_maxrss * 1024, told


def main():
    if "--help" in sys.argv:
        sys.exit(__doc__)
    counts = [int(word) for word in sys.argv[1:]] or [10000, 100000, 1000000]
    with tempfile.TemporaryDirectory(prefix="time-certifier-") as scratch:
        program = built(scratch)
        print("transactions    calls  seconds  with the certificate  memory")
        for count in counts:
            runs = [timed([program, str(count)]) for _ in range(3)]
            shown = min(timed([program, str(count), "certificate"])[0] for _ in range(3))
            most, calls = min(it[1] for it in runs), runs[0][2].split()[0]
            print(f"{count:12} {calls:>8} {min(it[0] for it in runs):8.3f} {shown:21.3f} {most // 1000000:4} MB")


if __name__ == "__main__":
    main()
