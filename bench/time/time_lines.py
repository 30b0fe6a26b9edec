#!/usr/bin/env python3
"""Times the reading of section lines.

usage: time_lines.py BUNDLE [RUNS]        (BUNDLE as make_bundle.py writes it; best of 9 runs where nothing is said)

It builds the program below in a scratch workspace, over copies of the crates with what their checks kept, and runs it on the
lines of the bundle from the third on: `lines` cuts them alone, `read` is `Lines::next` with `read_section`, `held` tries
`Lines::next_held` first, `front` goes through the held bytes with `front_line`. It prints the best processor seconds
(user + system), and checks that the last three read the same.
"""
import os
import shutil
import subprocess
import sys
import tempfile

TOP = os.path.join(os.path.dirname(os.path.abspath(__file__)), "../..")
CRATES = ["sgt_names", "sgt_notation"]
WAYS = ["lines", "read", "held", "front"]

PROGRAM = r"""//! Reads the lines of sections from standard input, and prints a sum over what they say.
#![tactic(auto)]

ghost use Rattle.std.specs.Prelude.{◌≤◌, length, IfSome};

use sgt_names::{Entry, FromRead, Source};
use sgt_notation::{Lines, Next, SectionLine, front_line, read_section};
use std::alloc::Global;
use std::{env, io};

fn weigh(line: &SectionLine) -> u64 {
    match line {
        SectionLine::Logged(entry) => match entry {
            Entry::Read { tx, value, .. } => tx.number() as u64 ^ *value,
            Entry::Write { tx, value, .. } => tx.number() as u64 ^ *value,
            Entry::Commit { tx } => tx.number() as u64,
            _ => 2,
        },
        SectionLine::Initial(holding) => holding.value,
        SectionLine::Final(holding) => holding.value,
        _ => 1,
    }
}

fn weigh_text(line: &[u8]) -> u64 {
    match read_section(line) {
        Ok(line) => weigh(&line),
        Err(_) => 77,
    }
}

fn read_next<S: Source>(lines: &mut Lines, source: &mut S, line: &mut Vec<u8>) -> Option<u64> {
    match lines.next(source, line, 1_048_576) {
        Ok(Next::Line) => Some(weigh_text(line.as_slice())),
        _ => None,
    }
}

// The bytes of the lines.
fn count_lines<S: Source>(lines: &mut Lines, source: &mut S, line: &mut Vec<u8>) -> u64 {
    let mut total = 0u64;
    for _ in 0..u64::MAX {
        match lines.next(source, line, usize::MAX) {
            Ok(Next::Line) => total = total.wrapping_add(line.len() as u64),
            _ => return total,
        }
    }
    total
}

fn read_lines<S: Source>(lines: &mut Lines, source: &mut S, line: &mut Vec<u8>) -> u64 {
    let mut total = 0u64;
    for _ in 0..u64::MAX {
        match read_next(lines, source, line) {
            Some(weight) => total = total.wrapping_add(weight),
            None => return total,
        }
    }
    total
}

fn read_held<S: Source>(lines: &mut Lines, source: &mut S, line: &mut Vec<u8>) -> u64 {
    let mut total = 0u64;
    for _ in 0..u64::MAX {
        match lines.next_held() {
            Some(line) => total = total.wrapping_add(weigh(&line)),
            None => match read_next(lines, source, line) {
                Some(weight) => total = total.wrapping_add(weight),
                None => return total,
            },
        }
    }
    total
}

fn weigh_front(bytes: &[u8]) -> Option<(u64, usize)>
    ensures { IfSome result (λ r. r.1 ≤ length bytes.now) }
{
    let found = front_line(bytes);
    match &found {
        Some((line, n)) => Some((weigh(line), *n)),
        None => None,
    }
}

// What the lines at the front say, and how many bytes they have.
fn weigh_fronts(held: &[u8]) -> (u64, usize)
    ensures { result.1 ≤ length held.now }
{
    let mut rest = held;
    let mut total = 0u64;
    for _ in 0..u64::MAX {
        let Some((weight, n)) = weigh_front(rest) else {
            break;
        };
        total = total.wrapping_add(weight);
        rest = &rest[n..];
    }
    (total, held.len().saturating_sub(rest.len()))
}

fn read_fronts<S: Source>(lines: &mut Lines, source: &mut S, line: &mut Vec<u8>) -> u64 {
    let mut total = 0u64;
    for _ in 0..u64::MAX {
        let (weight, used) = weigh_fronts(lines.held());
        lines.pass(used);
        total = total.wrapping_add(weight);
        match read_next(lines, source, line) {
            Some(weight) => total = total.wrapping_add(weight),
            None => return total,
        }
    }
    total
}

fn run<S: Source>(alloc: Global, source: &mut S, way: &str) -> u64 {
    let Ok(mut lines) = Lines::new(alloc) else {
        return 0;
    };
    let mut line = Vec::new(alloc);
    match way {
        "lines" => count_lines(&mut lines, source, &mut line),
        "read" => read_lines(&mut lines, source, &mut line),
        "held" => read_held(&mut lines, source, &mut line),
        _ => read_fronts(&mut lines, source, &mut line),
    }
}

fn main(rt: HostRuntime) -> io::Result<()> {
    let mut reader = FromRead::new(rt.stdin());
    let words: Vec<String> = match env::args(&rt) {
        Ok(words) => words.collect(rt.alloc())?,
        Err(_) => return Ok(()),
    };
    let total = match words.last() {
        Some(way) => run(rt.alloc(), &mut reader, way.as_str()),
        None => 0,
    };
    println!(rt; "{total}")?;
    Ok(())
}
"""


def built(scratch):
    """Builds the program, and returns its path."""
    for crate in CRATES:
        shutil.copytree(f"{TOP}/crates/{crate}", f"{scratch}/crates/{crate}")
    home = f"{scratch}/crates/lines_load"
    os.makedirs(f"{home}/src")
    with open(f"{home}/src/main.rt", "w", encoding="utf-8") as file:
        file.write(PROGRAM)
    with open(f"{TOP}/crates.txt", encoding="utf-8") as file:
        lines = [it for it in file if it.split(":")[0] in CRATES]
    with open(f"{scratch}/crates.txt", "w", encoding="utf-8") as file:
        file.writelines(lines)
        file.write("lines_load: sgt_names sgt_notation\n")
    subprocess.run(["rt", "fmt"], cwd=home, check=True)
    ran = subprocess.run(["rt", "run", "lines_load"], cwd=home, stdin=subprocess.DEVNULL, stdout=subprocess.PIPE, stderr=subprocess.STDOUT, text=True)
    if ran.returncode:
        sys.exit(ran.stdout + "\nthe program is not proved, or it failed")
    return f"{home}/out/lines_load"


def timed(program, way, path):
    """The processor seconds of a run, and what it printed."""
    with open(path, "rb") as lines:
        running = subprocess.Popen([program, way], stdin=lines, stdout=subprocess.PIPE, text=True)
    told = running.stdout.read().strip()
    _, status, used = os.wait4(running.pid, 0)
    if status:
        sys.exit(f"{way} ended with {status}")
    return used.ru_utime + used.ru_stime, told


def main():
    if len(sys.argv) < 2 or "--help" in sys.argv:
        sys.exit(__doc__)
    runs = int(sys.argv[2]) if len(sys.argv) > 2 else 9
    with tempfile.TemporaryDirectory(prefix="time-lines-") as scratch:
        program = built(scratch)
        path = f"{scratch}/lines"
        with open(sys.argv[1], "rb") as bundle, open(path, "wb") as lines:
            bundle.readline()
            bundle.readline()
            count = sum(lines.write(line) and 1 for line in bundle)
        best, told = {}, {}
        for _ in range(runs):
            for way in WAYS:
                seconds, told[way] = timed(program, way, path)
                best[way] = min(seconds, best.get(way, seconds))
        for way in WAYS:
            print(f"{way:6} {best[way]:7.3f} s  {count / best[way] / 1e6:5.1f} M lines/s")
        if len({told[way] for way in WAYS[1:]}) != 1:
            sys.exit(f"they read different lines: {told}")


if __name__ == "__main__":
    main()
