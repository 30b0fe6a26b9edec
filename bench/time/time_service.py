#!/usr/bin/env python3
"""Times the service alone: many runs of a thousand scripts by 1, 2 and 4 workers, beside the plain service.

usage: time_service.py SERVICE [RUNS [PROGRAM]]

SERVICE is a built bench/time/baseline/service.rs; RUNS is 100 where nothing is said, so that 100,000 scripts are run: an epoch, and so a
run of four tries each, has room for a thousand. The inputs are those of time_run.py. The program below is built in a scratch
workspace, over copies of the crates with what their checks kept; where PROGRAM is given that is run instead of it.

A process reads its input once and runs it RUNS times, each time on a new service. Counted is the time from the start of the threads
until they are joined, and by itself that of `settle`, which the plain service has none of. Printed are thousands of scripts a second,
without and with settling, and how many times the plain service's time that is; the processor microseconds of a whole process for each
script, with settling, which say what is work where the times also say what is waiting; and how many tries were refused. Each is the
least of five processes, by turns.
"""
import os
import re
import shutil
import subprocess
import sys
import tempfile

import time_run

TOP = os.path.join(os.path.dirname(os.path.abspath(__file__)), "../..")
OWN = "sgt_names sgt_notation sgt_workers sgt_service_locks sgt_service anyhow"
TURNS = 5

PROGRAM = r"""//! Runs the scripts of standard input on new services, and says how long that took and how long it took to settle them.
#![tactic(auto)]

ghost use Rattle.std.specs.Prelude.{◌≡◌, ◌≤◌};
ghost use Rattle.sgt_service_locks.specs.Ledgers.{AreOf};

use anyhow::Error;
use sgt_names::{FromRead, Holding, Listed};
use sgt_notation::Script;
use sgt_service::{Input, Reading, read_input, run, settle};
use sgt_service_locks::{Blanks, Ledgers, Service};
use sgt_workers::NoGate;
use std::alloc::{AllocError, Global};
use std::env;
use std::marker::Brand;
use std::rt::Clock;
use std::sync::Wait;
use std::thread::Threads;
use std::time::Instant;

// Nanoseconds of runs, of settling them, and how many tries there were.
#[derive(Clone, Copy)]
struct Times {
    run: u128,
    settle: u128,
    tries: usize,
}

// The scripts on a service of these sites, run by so many workers with four tries each, and settled.
fn timed<L: Ledgers + Send + Sync, R: Threads + Wait + Clock + Sync>(
    rt: &R,
    alloc: Global,
    blanks: Blanks,
    workers: u64,
    sites: &[Listed<Holding>],
    scripts: &[Script],
) -> Option<Times>
    requires { AreOf L.name L.begins L.parts blanks × (L.parts ≡ workers) × (1 ≤ workers) }
{
    if sites.len() > 64 {
        return None;
    }
    let (service, seats) = Service::<L, _>::new(alloc, blanks, sites, workers, NoGate).ok()?;
    let start = Instant::now(rt).ok()?;
    let (dones, seats) = run(rt, alloc, &service, seats, scripts, 4).ok()?;
    let run = start.elapsed(rt).ok()?.as_nanos();
    let mut tries = 0usize;
    for done in &dones {
        tries = tries.saturating_add(done.tickets.len());
    }
    let start = Instant::now(rt).ok()?;
    let settled = settle(alloc, service, dones, seats).ok()?;
    let settle = start.elapsed(rt).ok()?.as_nanos();
    let _ = settled;
    Some(Times { run, settle, tries })
}

fn items_of(
    alloc: Global,
    input: Input,
) -> Result<(Vec<Listed<Holding>>, Vec<Script>), AllocError> {
    let mut items = Vec::new(alloc);
    for site in input.sites.into_vec() {
        items.push(site.items)?;
    }
    Ok((items, input.scripts.into_vec()))
}

fn main(rt: HostRuntime) -> Result<(), Error> {
    let alloc = rt.alloc();
    let words: Vec<String> = env::args(&rt)?.collect(alloc)?;
    let mut workers = 1u64;
    if let Some(word) = words.get(1) {
        workers = word.parse::<u64>()?;
    }
    let mut runs = 1u32;
    if let Some(word) = words.get(2) {
        runs = word.parse::<u32>()?;
    }
    let Reading::Readable(input) = read_input(alloc, &mut FromRead::new(rt.stdin()))? else {
        println!(rt; "unreadable")?;
        return Ok(());
    };
    let (items, scripts) = items_of(alloc, input)?;
    let mut all = Times {
        run: 0,
        settle: 0,
        tries: 0,
    };
    for _ in 0..runs {
        let seats = workers.clamp(1, 16);
        let times = timed::<Brand, _>(
            &rt,
            alloc,
            Blanks::new(seats),
            seats,
            items.as_slice(),
            scripts.as_slice(),
        );
        let Some(t) = times else {
            println!(rt; "failed")?;
            return Ok(());
        };
        all.run = all.run.saturating_add(t.run);
        all.settle = all.settle.saturating_add(t.settle);
        all.tries = all.tries.saturating_add(t.tries);
    }
    println!(rt; "run {} settle {} tries {}", all.run, all.settle, all.tries)?;
    Ok(())
}
"""

GHOSTS = """use Rattle.run_load.proofs.main.Given as goal

abbrev pub ghosts-timed-L-Ledger : goal.ghosts-timed-L-Ledger
ghosts-timed-L-Ledger g a = record { name = a.blanks.decisions.name; parts = a.blanks.decisions.parts }

abbrev pub ghosts-timed-L-Ledgers : goal.ghosts-timed-L-Ledgers
ghosts-timed-L-Ledgers g a = record { begins = a.blanks.begins.name }
"""


def needed():
    """The lines of crates.txt for the crates that the program stands on."""
    with open(f"{TOP}/crates.txt", encoding="utf-8") as file:
        lines = {line.split(":")[0].split(" ")[0]: line for line in file if ":" in line and not line.startswith("#")}
    todo, found = OWN.split(), {}
    while todo:
        crate = todo.pop()
        if crate in lines and crate not in found:
            found[crate] = lines[crate]
            todo += lines[crate].split(":")[1].split()
    return [line for crate, line in lines.items() if crate in found], found


def written(scratch):
    """Writes the program's crate, beside copies of those that it stands on."""
    lines, crates = needed()
    for crate in crates:
        shutil.copytree(f"{TOP}/crates/{crate}", f"{scratch}/crates/{crate}")
    shutil.copy(f"{TOP}/HANDLES", scratch)
    home = f"{scratch}/crates/run_load"
    os.makedirs(f"{home}/src")
    os.makedirs(f"{home}/proofs/main")
    for name, text in (("src/main.rt", PROGRAM), ("proofs/main/Invariants.antt", GHOSTS), ("proofs/Lib.antt", "")):
        with open(f"{home}/{name}", "w", encoding="utf-8") as file:
            file.write(text)
    with open(f"{scratch}/crates.txt", "w", encoding="utf-8") as file:
        file.writelines(lines)
        file.write(f"run_load: {OWN}\n")
    return home


def built(scratch):
    """Builds the program, and returns its file."""
    home = written(scratch)
    ran = subprocess.run(["rt", "run", "run_load"], cwd=home, stdin=subprocess.DEVNULL, stdout=subprocess.PIPE,
                         stderr=subprocess.STDOUT, text=True)
    if ran.returncode:
        sys.exit(ran.stdout + "\nthe program is not proved, or it failed")
    return f"{home}/out/run_load"


def one(words, text):
    """A process: nanoseconds of its runs and of settling them (0 where it doesn't), its tries, and its processor microseconds."""
    with tempfile.TemporaryFile() as file:
        file.write(text)
        file.seek(0)
        running = subprocess.Popen(words, stdin=file, stdout=subprocess.PIPE, stderr=subprocess.PIPE)
        out, told = running.stdout.read(), running.stderr.read()
        _, _, used = os.wait4(running.pid, 0)
    said = re.search(rb"run (\d+)(?: settle (\d+))? tries (\d+)", out.split(b"\n")[0] + told)
    if not said:
        sys.exit(f"{words} failed: {out[:100]} {told[:100]}")
    run, settle, tries = [int(it or 0) for it in said.groups()]
    return run, run + settle, tries, (used.ru_utime + used.ru_stime) * 1_000_000


def main():
    if len(sys.argv) < 2 or "--help" in sys.argv:
        sys.exit(__doc__)
    service = sys.argv[1]
    runs = sys.argv[2] if len(sys.argv) > 2 else "100"
    scripts = int(runs) * time_run.SCRIPTS
    with tempfile.TemporaryDirectory(prefix="time-service-") as scratch:
        program = sys.argv[3] if len(sys.argv) > 3 else built(scratch)
        print("load", *os.getloadavg())
        print("                    thousand scripts a second       times the plain time   processor us a script   refused tries")
        print("items     workers   ours  settled   plain           ours  settled          ours    plain           ours   plain")
        for name, text in time_run.inputs().items():
            for workers in ("1", "2", "4"):
                turns = [(one([program, workers, runs], text), one([service, workers, "4", runs], text)) for _ in range(TURNS)]
                ours, plain = ([min(turn[k][n] for turn in turns) for n in range(4)] for k in (0, 1))
                run, settled, base = (scripts * 1_000_000 / it for it in (ours[0], ours[1], plain[0]))
                print(f"{name:9} {workers:>7} {run:6.0f} {settled:8.0f} {base:7.0f}         {base / run:6.1f} {base / settled:8.1f}"
                      f"        {ours[3] / scripts:6.1f} {plain[3] / scripts:8.2f}         {ours[2] - scripts:6} {plain[2] - scripts:7}",
                      flush=True)


if __name__ == "__main__":
    main()
