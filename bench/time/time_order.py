#!/usr/bin/env python3
"""Times of the serialization graph: windows of 4,096 nodes, each admitted with 0, 1 or 8 edges to or from the nodes before it, and a shape that costs much.

usage: time_order.py [REPOSITORY [WINDOWS]]        (this repository and 1000 windows where nothing is said)

`rt ci` refuses source files outside crates, so this writes a workspace of its own in a temporary folder: copies of the
repository's crates up to sgt_order, with the checks that they keep in out/, and a thin program over them. It builds the program
and runs it for each case, three times; a line says the least processor time of an admission, and the most memory that a run had.
Along: the edges lead from the 1 or 8 nodes before to the new one, which is placed last. Against: they lead from the new one to
those, so that it is placed before all that stand behind them. Added: nodes are added and none is admitted. Alone: a third of the
nodes are a chain, each of which leads to all of the second third and alone to its next one; the last third lead to the chain's first.
"""
import os
import shutil
import subprocess
import sys
import tempfile
import time

STANDS_ON = "sgt_names sgt_arena sgt_edges sgt_order"
CASES = [("added", 0), ("along", 0), ("along", 1), ("along", 8), ("against", 1), ("against", 8), ("alone", 1365)]
NODES = 4096
PROGRAM = """\
//! Admits windows of 4,096 nodes, each with edges to or from the last nodes before it.
#![tactic(auto)]

use sgt_arena::Handle;
use sgt_edges::{Edge, EdgeList};
use sgt_names::{Item, Kind, Label, SiteNo, Tx};
use sgt_order::Graph;
use std::alloc::{AllocError, Global};
use std::env;
use std::process::ExitCode;

// The edge between a node and an earlier one, from the node where it is to lead against the order.
fn edge(label: &Label, node: Handle, earlier: Handle, against: bool) -> Edge {
    if against {
        Edge { from: node, to: earlier, label: *label }
    } else {
        Edge { from: earlier, to: node, label: *label }
    }
}

// Edges between a node and the last few of these.
fn edges(alloc: Global, label: &Label, node: Handle, nodes: &[Handle], count: usize, against: bool) -> Result<EdgeList, AllocError> {
    let mut edges = EdgeList::new(alloc);
    for earlier in nodes.iter().rev().take(count) {
        edges.push(edge(label, node, *earlier, against))?;
    }
    Ok(edges)
}

// One window; whether each of its nodes was admitted, where they are to be.
fn window(alloc: Global, graph: &mut Graph, label: &Label, count: usize, way: &str) -> Option<bool> {
    let mut nodes = Vec::new(alloc);
    let mut all = true;
    for number in 1..=4096u64 {
        let node = graph.node(Tx::new(number).ok()?).ok()?;
        if way != "added" {
            let offered = edges(alloc, label, node, nodes.as_slice(), count, way == "against").ok()?;
            all = all && graph.may_admit(node, &offered) && graph.admit(node, &offered).is_ok();
            nodes.push(node).ok()?;
        }
    }
    graph.close().ok()?;
    Some(all)
}

// A node of a new transaction, with edges between it and the last few of these; whether it was admitted.
fn admitted(alloc: Global, graph: &mut Graph, label: &Label, nodes: &[Handle], count: usize, against: bool) -> Option<(Handle, bool)> {
    let node = graph.node(Tx::new(1).ok()?).ok()?;
    let offered = edges(alloc, label, node, nodes, count, against).ok()?;
    Some((node, graph.may_admit(node, &offered) && graph.admit(node, &offered).is_ok()))
}

// A window of a chain, of as many nodes that each of the chain leads to, and of as many that lead to the chain's first; whether
// each was admitted.
fn chained(alloc: Global, graph: &mut Graph, label: &Label, count: usize) -> Option<bool> {
    let mut chain = Vec::new(alloc);
    let mut first = Vec::new(alloc);
    let mut all = true;
    for _member in 0..count {
        let (node, done) = admitted(alloc, graph, label, chain.as_slice(), 1, false)?;
        if first.is_empty() {
            first.push(node).ok()?;
        }
        chain.push(node).ok()?;
        all = all && done;
    }
    for _sink in 0..count {
        let (_, done) = admitted(alloc, graph, label, chain.as_slice(), count, false)?;
        all = all && done;
    }
    for _late in 0..count {
        let (_, done) = admitted(alloc, graph, label, first.as_slice(), 1, true)?;
        all = all && done;
    }
    graph.close().ok()?;
    Some(all)
}

// So many windows; whether all went well.
fn windows(alloc: Global, words: &[String]) -> Option<bool> {
    let way = words.get(1)?.as_str();
    let count = words.get(2)?.as_str().parse::<usize>().ok()?;
    let times = words.get(3)?.as_str().parse::<usize>().ok()?;
    let label = Label { site: SiteNo::new(0).ok()?, item: Item::new(b"x").ok()?, kind: Kind::Ww };
    let mut graph = Graph::new(alloc);
    let mut all = true;
    for _time in 0..times {
        let done = if way == "alone" {
            chained(alloc, &mut graph, &label, count)?
        } else {
            window(alloc, &mut graph, &label, count, way)?
        };
        all = all && done;
    }
    Some(all)
}

fn main(rt: HostRuntime) -> ExitCode {
    let Ok(words) = env::args(&rt) else {
        return ExitCode::from(2);
    };
    let Ok(words) = words.collect::<Vec<String>>(rt.alloc()) else {
        return ExitCode::from(2);
    };
    match windows(rt.alloc(), words.as_slice()) {
        Some(true) => ExitCode::SUCCESS,
        _ => ExitCode::FAILURE,
    }
}
"""


def workspace(repository, folder):
    """A workspace with the program; the folder of the program's crate."""
    text = [line.split(":", 1) for line in open(os.path.join(repository, "crates.txt"), encoding="utf-8") if ":" in line]
    needs = {name.split()[0]: libraries.split() for name, libraries in text}
    todo, copied = STANDS_ON.split(), {}
    while todo:
        name = todo.pop()
        if name in needs and name not in copied:
            copied[name] = needs[name]
            todo += needs[name]
            shutil.copytree(os.path.join(repository, "crates", name), os.path.join(folder, "crates", name), symlinks=True)
    with open(os.path.join(folder, "crates.txt"), "w", encoding="utf-8") as out:
        for name, libraries in {**copied, "order_bench": STANDS_ON.split()}.items():
            out.write(f"{name}: {' '.join(libraries)}\n")
    crate = os.path.join(folder, "crates", "order_bench")
    os.makedirs(os.path.join(crate, "src"))
    with open(os.path.join(crate, "src", "main.rt"), "w", encoding="utf-8") as out:
        out.write(PROGRAM)
    subprocess.run(["git", "init", "-q", folder], check=True)
    return crate


def seconds(program, words):
    """The processor seconds of a run."""
    _, status, used = os.wait4(os.posix_spawn(program, [program, *words], os.environ), 0)
    if status != 0:
        sys.exit(f"order_bench {' '.join(words)} failed: {status}")
    return used.ru_utime + used.ru_stime


def kilobytes(program, words):
    """The most memory of a run, as far as looking at it every millisecond shows."""
    most, child = 0, subprocess.Popen([program, *words])
    while child.poll() is None:
        try:
            text = open(f"/proc/{child.pid}/status", encoding="ascii").read()
        except OSError:
            break
        if os.path.basename(program)[:15] == text.split()[1] and "VmHWM:" in text:
            most = max(most, int(text.split("VmHWM:")[1].split()[0]))
        time.sleep(0.001)
    child.wait()
    return most


def main():
    if "--help" in sys.argv:
        sys.exit(__doc__)
    repository = os.path.abspath(sys.argv[1] if len(sys.argv) > 1 else os.path.join(os.path.dirname(__file__), "../.."))
    windows = int(sys.argv[2]) if len(sys.argv) > 2 else 1000
    with tempfile.TemporaryDirectory(prefix="order-bench-") as folder:
        crate = workspace(repository, folder)
        subprocess.run(["rt", "run", "--jobs", "2", "--", "added", "0", "1"], cwd=crate, check=True, stdout=subprocess.DEVNULL)
        measure(os.path.join(crate, "out", "order_bench"), windows)


def measure(program, windows):
    """A line for each case."""
    for way, count in CASES:
        times = {"against": max(1, windows // 50), "alone": 1}.get(way, windows)
        words = [way, str(count), str(times)]
        each = min(seconds(program, words) for _ in range(3)) / (times * NODES)
        print(f"{way:8} {count} edges: {each * 1e6:8.3f} us a node, {kilobytes(program, words)} kB", flush=True)


if __name__ == "__main__":
    main()
