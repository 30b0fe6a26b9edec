#!/usr/bin/env python3
"""Whether each call of the clients ends when `sgt serve` is killed, or when somebody leaves a transaction open: in Python, C and Rust.

usage: clients.py PROGRAM            (from anywhere; what has no compiler is left out, and said so)

Each case is named with what is wrong, or with `as promised`, and may take ten seconds. Ends with status 1 where one isn't as promised.
"""
import os
import shutil
import signal
import subprocess
import sys
import tempfile
import threading
import time

HERE = os.path.dirname(os.path.abspath(__file__))
EXAMPLES = os.path.join(HERE, "../../../examples")
sys.path.insert(0, os.path.join(EXAMPLES, "python"))
sys.dont_write_bytecode = True
import certifier as client  # noqa: E402

WAIT = 10
SITES = [{"a": 10, "b": 0}, {"c": 3}]


def outcome(does):
    """What a call gives, or the name of what it raises."""
    try:
        return does()
    except Exception as why:
        return type(why).__name__


class Call:
    """A call in a thread of its own."""

    def __init__(self, does, name=None):
        self.found = "still waits"
        self.thread = threading.Thread(target=self.run, args=(does,), daemon=True, name=name)
        self.thread.start()

    def run(self, does):
        self.found = outcome(does)

    def end(self):
        self.thread.join(WAIT)
        return self.found


def wrong(found, wanted):
    return None if found == wanted else f"found {found!r}, wanted {wanted!r}"


def killed(it):
    it.process.send_signal(signal.SIGKILL)


def left_open(it, until=None):
    """A thread that begins, and sleeps or ends."""
    begun = threading.Event()

    def begins():
        tx = it.begin()
        tx.read("a")
        begun.set()
        if until:
            until.wait(WAIT)
            return outcome(lambda: tx.read("a"))
        return tx.number
    call = Call(begins, "leaver")
    begun.wait(WAIT)
    return call


# ---- Python: a program and an empty folder; pairs of what is found and wanted

def killed_before_a_call(program, folder):
    it, until = client.Certifier(SITES, folder, program), threading.Event()
    other = left_open(it, until)
    killed(it)
    it.process.wait()
    until.set()
    return [(other.end(), "Lost"), (Call(it.cut).end(), "Lost"), (Call(it.begin).end(), "Lost"),
            (Call(lambda: it.run(print)).end(), "Lost"), (Call(it.end).end(), -9)]


def killed_while_calls_wait(program, folder):
    """Nobody asks: those that wait see it by themselves."""
    it, until = client.Certifier(SITES, folder, program), threading.Event()
    other = left_open(it, until)
    waiting = [Call(it.cut)]
    time.sleep(0.3)
    waiting += [Call(it.begin), Call(it.cut), Call(lambda: it.run(print))]
    time.sleep(0.3)
    killed(it)
    found = [(call.end(), "Lost") for call in waiting]
    until.set()
    return found + [(other.end(), "Lost")]


def killed_within_a_with(program, folder):
    it = client.Certifier(SITES, folder, program)

    def works():
        for attempt in it.transaction():
            with attempt as tx:
                tx.read("a")
                killed(it)
                it.process.wait()
                tx.read("b")
    return [(Call(works).end(), "Lost"), (len(it.open), 0), (Call(it.cut).end(), "Lost")]


def thread_ends_without_an_end(program, folder):
    it = client.Certifier(SITES, folder, program, patience=1)
    number = left_open(it).end()
    names = []

    def cuts():
        try:
            it.cut()
        except client.Stuck as why:
            names.append(str(why))
            raise
    cut = Call(cuts)
    time.sleep(0.2)
    found = [(Call(lambda: it.run(lambda tx: tx.read("a"))).end(), 10), (cut.end(), "Stuck"),
             (f"open: {number} of the thread leaver, which has ended" in names[0], True)]
    said = "yes 1 committed 0 refused 1 withdrawn"
    return found + [(Call(it.end).end(), 0), (client.audit(folder, ["00000001.sgt"], program), [said])]


def started_too_soon(program, folder):
    """A program that dies, and one that starts at once: it goes on from the bundle that the old certifier writes as the last one."""
    code = ("import os, signal, sys\nimport certifier\nit = certifier.Certifier.resume(sys.argv[1], [{'a': 10, 'b': 0}], program=sys.argv[2])\n"
            "for _ in range(300): it.run(lambda tx: tx.add('a', 1))\nprint(flush=True)\nos.kill(os.getpid(), signal.SIGKILL)\n")
    path = os.path.join(EXAMPLES, "python")
    for _ in range(2):
        subprocess.run([sys.executable, "-c", code, folder, program], cwd=path, stdout=subprocess.DEVNULL)
    it = client.Certifier.resume(folder, [], audited=True, program=program)
    found = [(it.run(lambda tx: tx.read("a")), 610), (outcome(lambda: client.Certifier(SITES, folder, program)), "Busy"),
             (outcome(lambda: client.Certifier.resume(folder, [], program=program, patience=0.2)), "Busy"), (it.end(), 0)]
    return found + [(outcome(lambda: client.Certifier(SITES, folder, program)), "NotAChain"),
                    (client.audit(folder, client.bundles_in(folder), program), ["yes 601 committed 0 refused 0 withdrawn"])]


def refused_is_told(program, folder):
    """A refused transaction is tried again by `run`, stands in the bundle that it names, and isn't passed over where nobody tries again."""
    it, seen = client.Certifier(SITES, folder, program), []

    def skews(tx):
        seen.append((tx.bundle, tx.number))
        value = tx.read("a")
        if len(seen) == 1:
            other = it.begin()
            other.put("a", other.read("b") + 1)
            tx.put("b", 7)
            other.commit()
        else:
            tx.put("b", 7)
        return value
    it.cut()
    found = [(it.run(skews), 1), (seen[0][0], 2), (it.cut(), 2)]
    with open(os.path.join(folder, "00000002.sgt"), encoding="ascii") as file:
        found += [(f"n{seen[0][1]}\n" in file.read(), True)]

    def alone():
        with next(it.transaction()) as tx:
            tx.read("a")
            other = it.begin()
            other.put("a", other.read("b"))
            tx.put("b", 8)
            other.commit()
    return found + [(outcome(alone), "NotCommitted"), (it.end(), 0)]


def refusals_have_their_line(program, folder):
    it = client.Certifier(SITES, folder, program)
    said = []
    for does in [lambda tx: tx.put("a", -1), lambda tx: tx.read("zz"), lambda tx: tx.add("a", 1, site=5)]:
        try:
            it.run(does)
        except client.Refused as why:
            said.append(str(why))
    return [(said, ["L1, to 'w1[0.a]=-1'", "E4, to 'r2[0.zz]'", "E4, to 'd3[5.a]=1'"]), (it.end(), 0)]


def sites_that_are_none(program, folder):
    it = client.Certifier([{"A": 1}], folder, program)
    return [(outcome(it.begin), "Lost"), (it.end(), 2)]


PYTHON = [killed_before_a_call, killed_while_calls_wait, killed_within_a_with, thread_ends_without_an_end, started_too_soon,
          refused_is_told, refusals_have_their_line, sites_that_are_none]


# ---- C and Rust: a program each, whose `sgt serve` is killed once it has said `open`

C = r"""
#include "certifier.h"
#include <pthread.h>
#include <stdio.h>
#include <unistd.h>
static certifier *it;
static pthread_barrier_t opened, over;
static void *leave_open(void *unused) {
    uint32_t tx; uint64_t value;
    certifier_begin(it, &tx);
    pthread_barrier_wait(&opened);
    pthread_barrier_wait(&over);
    printf("read %d\n", certifier_read(it, tx, 0, "a", &value));
    return unused;
}
int main(int argc, char **argv) {
    const char *sites[] = {"a=10 b=0"};
    uint64_t number; uint32_t tx, other; pthread_t thread;
    it = certifier_open(argv[argc - 2], sites, 1, argv[argc - 1]);
    printf("two %d\n", certifier_open(argv[argc - 2], sites, 1, argv[argc - 1]) != NULL);
    certifier_wait_at_most(it, 1);
    certifier_begin(it, &tx);
    int cut = certifier_cut(it, &number);
    printf("cut %d %u\n", cut, certifier_oldest(it));
    printf("begin %d\n", certifier_begin(it, &other));
    certifier_commit(it, tx);
    certifier_commit(it, other);
    certifier_wait_at_most(it, 60);
    pthread_barrier_init(&opened, NULL, 2);
    pthread_barrier_init(&over, NULL, 2);
    pthread_create(&thread, NULL, leave_open, NULL);
    pthread_barrier_wait(&opened);
    puts("open");
    fflush(stdout);
    printf("cut %d\n", certifier_cut(it, &number));
    printf("begin %d\n", certifier_begin(it, &tx));
    pthread_barrier_wait(&over);
    pthread_join(thread, NULL);
    printf("close %d\n", certifier_close(it));
}
"""

RUST = r"""
use sgt::certifier::{Certifier, Error};
use std::{env, sync::Barrier, thread, time::Duration};
fn name<T>(answer: Result<T, Error>) -> String {
    match answer {
        Ok(_) => "0".into(),
        Err(Error::Lost(_)) => "4".into(),
        Err(Error::Stuck(open)) => format!("5 {}", open.join(" ")),
        Err(why) => why.to_string(),
    }
}
fn main() {
    let words: Vec<_> = env::args().collect();
    let start = || Certifier::new(&words[1], &["a=10 b=0"], Some(words[2].as_ref()));
    let mut it = start().unwrap();
    println!("two {}", u8::from(start().is_ok()));
    it.patience = Duration::from_secs(1);
    let tx = it.begin().unwrap();
    println!("cut {}", name(it.cut()));
    println!("begin {}", name(it.begin()));
    drop(tx);
    it.patience = Duration::from_secs(60);
    let (opened, over) = (Barrier::new(2), Barrier::new(2));
    thread::scope(|scope| {
        scope.spawn(|| {
            let tx = it.begin().unwrap();
            opened.wait();
            over.wait();
            println!("read {}", name(tx.read(0, "a")));
        });
        opened.wait();
        println!("open");
        println!("cut {}", name(it.cut()));
        println!("begin {}", name(it.begin()));
        over.wait();
    });
    println!("close {}", if it.end().unwrap() { 0 } else { -1 });
}
"""

WANTED = ["two 0", "cut 5 1", "begin 0", "open", "cut 4", "begin 4", "read 4", "close -1"]


def child_of(pid):
    """The process that this one started."""
    for name in filter(str.isdigit, os.listdir("/proc")):
        try:
            with open(f"/proc/{name}/stat") as file:
                if int(file.read().rsplit(")", 1)[1].split()[1]) == pid:
                    return int(name)
        except OSError:
            pass
    return None


def of_another(built, program, folder):
    """What a client says whose `sgt serve` is killed while one of its calls waits."""
    it = subprocess.Popen([built, program, folder], stdout=subprocess.PIPE, text=True)
    timer, said = threading.Timer(WAIT, it.kill), []
    timer.start()
    for line in it.stdout:
        said.append(line.rstrip("\n"))
        if said[-1] == "open":
            time.sleep(0.5)
            os.kill(child_of(it.pid), signal.SIGKILL)
    it.wait()
    timer.cancel()
    return [(said, WANTED)]


def built_in_c(above):
    source, built = os.path.join(above, "clients.c"), os.path.join(above, "in_c")
    with open(source, "w") as file:
        file.write(C)
    subprocess.run(["gcc", "-std=gnu11", "-g", "-fsanitize=address,undefined", f"-I{EXAMPLES}/c", source, f"{EXAMPLES}/c/certifier.c",
                    "-pthread", "-o", built], check=True)
    return built


def built_in_rust(above):
    for name, text in [("lib.rs", f'#[path = "{EXAMPLES}/rust/src/certifier.rs"]\npub mod certifier;\n'), ("clients.rs", RUST)]:
        with open(os.path.join(above, name), "w") as file:
            file.write(text)
    words = ["rustc", "--edition", "2021"]
    subprocess.run([*words, "--crate-name", "sgt", "--crate-type", "rlib", "lib.rs"], cwd=above, check=True)
    subprocess.run([*words, "clients.rs", "--extern", "sgt=libsgt.rlib", "-o", "in_rust"], cwd=above, check=True)
    return os.path.join(above, "in_rust")


def told(name, case):
    """Prints how a case went: whether it is as promised."""
    try:
        faults = [fault for fault in (wrong(*pair) for pair in case()) if fault]
    except Exception as why:            # a case that can't be run to its end isn't as promised
        faults = [f"{type(why).__name__}: {why}"]
    print(f"{name.replace('_', ' ')}: {'; '.join(faults) or 'as promised'}", flush=True)
    return not faults


def main():
    if len(sys.argv) < 2 or "--help" in sys.argv:
        sys.exit(__doc__)
    program, holds = os.path.abspath(sys.argv[1]), True
    with tempfile.TemporaryDirectory() as above:
        for number, case in enumerate(PYTHON):
            holds &= told(f"Python: {case.__name__}", lambda: case(program, os.path.join(above, str(number))))
        for name, compiler, build in [("C", "gcc", built_in_c), ("Rust", "rustc", built_in_rust)]:
            if shutil.which(compiler):
                holds &= told(name, lambda: of_another(build(above), program, os.path.join(above, name)))
            else:
                print(f"{name}: left out, for there is no {compiler}")
    sys.stdout.flush()
    os._exit(0 if holds else 1)         # (a call that still waits would hold the end up)


if __name__ == "__main__":
    main()
