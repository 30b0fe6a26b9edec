#!/usr/bin/env python3
"""Runs each command of a built program once for each call that it makes of the system, with that one failing.

usage: fail_calls.py PROGRAM [--growths] [CASE ..]

PROGRAM is the program itself, not a script that starts it, and built without AddressSanitizer. A run holds where its status is 4, standard
error says a word that isn't about memory, and what was written is a front of the answer; or where nothing but that call differs, of those
that FORGIVEN names with the reason. That holds too where the system has no memory for the call. In no run is a file changed that is read,
or half a bundle left under a bundle's name. Then each read and each write is interrupted by a signal, and is done for one byte alone: the
answer has to be the undisturbed one. Where the reader of standard output went away the status is 4, and nothing is said of it. With
--growths each growth of memory is refused too: the undisturbed answer, or status 3 with a word on memory alone (of `serve`
refuse_serve.py looks closer). Of `serve --bundles` the order of calls is looked at: a bundle is written, synced and linked, and the folder
synced, before its number is told.

Prints what doesn't hold, and a line for each case; ends with status 1 where something doesn't hold. Needs gcc; half a minute, with --growths
five.
"""
import argparse
import errno
import fnmatch
import os
import re
import shutil
import subprocess
import sys
import tempfile
from collections import namedtuple

import refuse_growths

HERE = os.path.dirname(os.path.abspath(__file__))
TOP = os.path.join(HERE, "../..")
ROWS = os.path.join(TOP, "crates/sgt_rows/data/rows")
WAIT = 60

# What a failing call may leave as it would be: the call, what it is of, and why nothing is told.
FORGIVEN = [
    ("open", "/dev/null", "what starts a program looks whether its three streams are open, before it does anything"),
    ("statx", "/dev/fd/0", "input of which nothing can be told is read as a stream: the answer is the same"),
    ("statx", "", "so is an open file"),
    ("isatty", "*", "a stream of which nothing can be told is taken for no terminal"),
    ("close", "*", "it is let go in any case, and what has to last was synced before"),
    ("unlink", "*.part", "what is left beside a bundle's name is none"),
    ("write", "2", "there is nobody to tell"),
    ("pthread_create", "*", "the threads that started do its work, or the one that there is"),
]

# What the program takes from the C library, and is no call of the system that can fail here, or that refuse_growths.py refuses.
OTHERS = """_exit abort free malloc realloc getenv environ __errno_location __xpg_strerror_r __sysv_signal sched_yield syscall
pthread_attr_destroy pthread_attr_init pthread_attr_setguardsize pthread_attr_setstacksize pthread_detach pthread_join pthread_self
memcpy memmove memset memcmp bcmp strlen __libc_start_main __cxa_finalize __gmon_start__ __stack_chk_fail _ITM_deregisterTMCloneTable
_ITM_registerTMCloneTable""".split()

Case = namedtuple("Case", "name words reads writes is_free", defaults=((), False))
Run = namedtuple("Run", "status output errors files calls")


def text_of(path):
    with open(path, "rb") as file:
        return file.read()


def of_row(row, name="stdin"):
    return text_of(os.path.join(ROWS, row, name))


def made(script, *words):
    return subprocess.run([sys.executable, os.path.join(TOP, "bench/time", script), *words], check=True, capture_output=True).stdout


def texts():
    """What the cases read, by name."""
    bundle = made("make_bundle.py", "9000", "3", "20")
    first, _, rest = bundle.split(b"\n", 2)
    return {
        "big": bundle, "logs": first + b"\n" + rest, "events": made("make_events.py", "6000", "3", "20"),
        "cycle": of_row("only_cycle_bundle"), "broken": of_row("explain_f10"), "scripts": of_row("two_sites_run"),
        "history": of_row("history_write_skew"), "long": made("make_history.py", "even", "3000"),
        "given": of_row("history_against_an_order"), "order": of_row("history_against_an_order", "order"),
        "a.sgt": of_row("chain_of_two", "a.sgt"), "b.sgt": of_row("chain_of_two", "b.sgt"), "talk": TALK, "same": b"",
    }


# What the system says where it has no memory for a call, which is no growth of the program's.
NO_MEMORY = os.strerror(errno.ENOMEM)

# A talk in which a cut that failed is asked for again.
TALK = b"site 0 x=5 y=2\nb\nr1[0.x]\nw1[0.y]=7\nc1\nx\nx\nb\nr1[0.y]\nc1\n"

# A case: its words, what it reads, what it writes; whether threads make its answer free. `<` before a name: standard input; `>`: standard
# output, and nothing may be written there.
CASES = [
    Case("audit", "audit big", "big"),
    Case("audit_standard_input", "audit", "<big"),
    Case("audit_no", "audit --why broken", "broken"),
    Case("audit_by_name", "big", "big"),
    Case("audit_workers", "audit --workers 2 big", "big"),
    Case("audit_workers_of_input", "audit --workers 2", "<big"),
    Case("audit_chain", "audit --chain a.sgt b.sgt", "a.sgt b.sgt"),
    Case("audit_chain_quiet", "audit --chain -q a.sgt b.sgt", "a.sgt b.sgt"),
    Case("audit_files", "audit a.sgt cycle broken", "a.sgt cycle broken"),
    Case("audit_files_json", "audit --json a.sgt broken cycle", "a.sgt broken cycle"),
    Case("audit_quiet", "audit -q cycle", "cycle"),
    Case("audit_json", "audit --json cycle", "cycle"),
    Case("audit_expected", "audit --expect-committed 1 a.sgt", "a.sgt"),
    Case("audit_to_file", "audit -o out cycle", "cycle", "out"),
    Case("audit_progress", "audit --progress cycle", "cycle"),
    Case("audit_over_itself", "audit -o ./cycle cycle", "cycle"),
    Case("audit_over_its_input", "audit -o cycle", "<cycle"),
    Case("explain", "explain broken", "broken"),
    Case("explain_json", "explain --json broken", "broken"),
    Case("explain_html", "explain --html broken", "broken"),
    Case("explain_html_to_file", "explain --html -o page cycle", "cycle", "page"),
    Case("explain_tx", "explain --tx 1 cycle", "cycle"),
    Case("explain_rule", "explain F10", ""),
    Case("draw", "draw cycle", "cycle"),
    Case("draw_dot_to_file", "draw --dot -o out cycle", "cycle", "out"),
    Case("certify", "certify logs", "logs"),
    Case("certify_to_file", "certify --json -o out logs", "logs", "out"),
    Case("certify_quiet", "certify -q", "<logs"),
    Case("check", "check long", "long"),
    Case("check_no", "check --why history", "history"),
    Case("check_order", "check --order --real-time --sessions long", "long"),
    Case("check_svg", "check --svg out.svg history", "history", "out.svg"),
    Case("check_svg_quiet", "check -q --svg out.svg history", "history", "out.svg"),
    Case("check_html", "check --html history", "history"),
    Case("check_html_to_file", "check --html -o page history", "history", "page"),
    Case("check_against", "check --against order given", "order given"),
    Case("check_against_input", "check --against - given", "<order given"),
    Case("check_over_its_order", "check --against order -o ./order given", "order given"),
    Case("serial", "serial big", "big"),
    Case("serial_to_file", "serial -o out cycle", "cycle", "out"),
    Case("replay", "replay", "<events"),
    Case("replay_bundle", "replay --bundle out events", "events", "out"),
    Case("replay_strict", "replay --strict --bundle out -o replies events", "events", "out replies"),
    Case("replay_over_its_output", "replay --bundle same events", "events >same"),
    Case("audit_over_its_output", "audit -o ./same cycle", "cycle >same"),
    Case("run", "run --workers 1", "<scripts"),
    Case("run_workers", "run --workers 2 scripts", "scripts", "", True),
    Case("run_bundle", "run --workers 1 --bundle out scripts", "scripts", "out"),
    Case("serve", "serve talk", "talk"),
    Case("serve_bundles", "serve --bundles kept", "<talk", "kept/00000001.sgt kept/00000002.sgt kept/00000003.sgt"),
    Case("help", "help audit", ""),
    Case("version", "--version", ""),
]


class Trial:
    """A program under the libraries that make its calls fail."""

    def __init__(self, program, folder):
        self.program, self.folder, self.texts = program, folder, texts()
        self.failing = os.path.join(folder, "fail_calls.so")
        subprocess.run(["gcc", "-O1", "-shared", "-fPIC", "-o", self.failing, os.path.join(HERE, "fail_calls.c"), "-ldl"], check=True)
        self.refusing = refuse_growths.built_shim(folder)

    def run(self, case, **environment):
        """The case in a folder of its own."""
        told, here = os.path.join(self.folder, "told"), os.path.join(self.folder, "here")
        if os.path.exists(told):
            os.unlink(told)
        shutil.rmtree(here, ignore_errors=True)
        os.mkdir(here)
        source, target = "/dev/null", os.path.join(self.folder, "output")
        for name in case.reads.split():
            path = os.path.join(here, name.lstrip("<>"))
            source = path if name.startswith("<") else source
            target = path if name.startswith(">") else target
            with open(path, "wb") as file:
                file.write(self.texts[name.lstrip("<>")])
        with open(source, "rb") as standard, open(target, "wb") as output:
            done = subprocess.run([self.program, *case.words.split()], stdin=standard, stdout=output, stderr=subprocess.PIPE, timeout=WAIT,
                                  cwd=here, env=dict(os.environ, CALLS_TO=told, GROWTHS_TO=told, **environment))
        files = {os.path.relpath(os.path.join(at, name), here): text_of(os.path.join(at, name))
                 for at, _, names in os.walk(here) for name in names}
        calls = text_of(told).decode().split("\n")[:-1] if os.path.exists(told) else None
        return Run(done.returncode, text_of(target), done.stderr.decode(errors="replace"), files, calls)

    def failed_at(self, case, how, number):
        return self.run(case, LD_PRELOAD=self.failing, FAIL_HOW=how, FAIL_AT=str(number))

    def refused_at(self, case, number):
        return self.run(case, LD_PRELOAD=self.refusing, REFUSE_GROWTH=str(number))

    def are_bundles(self, files):
        """Whether the program's own auditor says yes to these bundles as a chain."""
        chain = os.path.join(self.folder, "chain")
        shutil.rmtree(chain, ignore_errors=True)
        os.mkdir(chain)
        for place, text in enumerate(files):
            with open(os.path.join(chain, f"{place}.sgt"), "wb") as file:
                file.write(text)
        names = [f"{place}.sgt" for place in range(len(files))]
        done = subprocess.run([self.program, "audit", "--chain", *names], cwd=chain, capture_output=True, timeout=WAIT)
        return done.returncode == 0 and done.stdout.decode().split("\n")[-2]


def harmed(trial, case, plain, found):
    """A file that isn't as it was or should be, in words, or None."""
    for name in case.reads.split():
        name = name.lstrip("<>")
        if found.files.get(name) != trial.texts[name]:
            return f"{name}, which is read, is changed"
    for name, text in found.files.items():
        if name in trial.texts or name.endswith(".part"):
            continue
        if name.endswith(".sgt"):
            if text not in plain.files.values() and not trial.are_bundles([text]):
                return f"{name} is no whole bundle"
        elif name not in case.writes.split():
            return f"{name} is there"
        elif not case.is_free and not plain.files[name].startswith(text):
            return f"{name} has something else"
    return None


def is_as_plain(case, plain, found):
    """Whether nothing but a failing call's leavings differs."""
    whole = {name: text for name, text in found.files.items() if not name.endswith(".part")}
    if case.is_free:
        return found.status == plain.status and len(found.output) == len(plain.output)
    return (found.status, found.output, whole) == (plain.status, plain.output, plain.files)


def is_front(case, plain, found):
    """Whether what was written is a front of the answer; of several files' answers the line of the one that failed is left out."""
    if case.is_free or plain.output.startswith(found.output):
        return True
    lines = iter(plain.output.split(b"\n"))
    return case.name.startswith("audit_files") and all(line in lines for line in found.output.split(b"\n"))


def serves_on(trial, plain, found):
    """Whether a bundle that failed was told, and what it would have had is in a later one."""
    if found.status != plain.status or b"! B\n" not in found.output or "a bundle can't be written" not in found.errors:
        return False
    kept = [text for name, text in sorted(found.files.items()) if name.endswith(".sgt")]
    plainly = [text for name, text in sorted(plain.files.items()) if name.endswith(".sgt")]
    return trial.are_bundles(kept) == trial.are_bundles(plainly)


def fault_of(trial, case, plain, found, call):
    """What is wrong with a run in which this call failed, or None."""
    harm = harmed(trial, case, plain, found)
    if harm:
        return harm
    name, _, what = call[1:].partition(" ")
    if is_as_plain(case, plain, found):
        is_forgiven = any(name == other and fnmatch.fnmatch(what, form) for other, form, _ in FORGIVEN)
        return None if is_forgiven or found.errors != plain.errors else "nothing is told"
    if case.name == "serve_bundles" and serves_on(trial, plain, found):
        return None
    if found.status != 4:
        return f"status {found.status}"
    if not re.search("^sgt: ", found.errors, re.M):
        return "no word"
    if "memory" in found.errors.replace(NO_MEMORY, ""):
        return f"told as memory: {found.errors!r}"
    if not is_front(case, plain, found):
        return f"another answer: {found.output[:80]!r}"
    return None


def fault_of_growth(trial, case, plain, found):
    """What is wrong with a run in which a growth was refused, or None."""
    harm = harmed(trial, case, plain, found)
    if harm or is_as_plain(case, plain, found):
        return harm
    if case.words.startswith("serve") and b"! E9\n" in found.output:
        return None
    if found.status != 3:
        return f"status {found.status}, {found.errors!r}, {found.output[:80]!r}"
    if "memory" not in found.errors or "fault" in found.errors:
        return f"told as {found.errors!r}"
    if not is_front(case, plain, found):
        return f"another answer: {found.output[:80]!r}"
    return None


def each_failing(trial, case, plain, how):
    """How many calls there were, and what is wrong where one fails."""
    number, wrong = 0, []
    while True:
        number += 1
        found = trial.failed_at(case, how, number)
        call = next((line for line in found.calls or [] if line.startswith("!")), None)
        if call is None:
            return number - 1, wrong
        fault = fault_of(trial, case, plain, found, call)
        if fault:
            wrong.append(f"{how} {number}, {call[1:].replace(trial.folder, '')}: {fault} {last_word(found)}")


def each_disturbed(trial, case, plain, how):
    """What is wrong where a read or a write is interrupted or short."""
    number, wrong = 0, []
    while True:
        number += 1
        found = trial.failed_at(case, how, number)
        call = next((line for line in found.calls or [] if line.startswith("!")), None)
        if call is None:
            return number - 1, wrong
        if not is_as_plain(case, plain, found):
            wrong.append(f"{how} {number}, {call[1:].replace(trial.folder, '')}: status {found.status} {last_word(found)}")


def each_gone(trial, case, plain):
    """What is wrong where the reader of what is written went away."""
    number, wrong = 0, []
    while True:
        number += 1
        found = trial.failed_at(case, "gone", number)
        if not any(line.startswith("!") for line in found.calls or []):
            return wrong
        harm = harmed(trial, case, plain, found)
        if harm or found.status != 4 or "fault" in found.errors or "pipe" in found.errors.lower():
            wrong.append(f"gone {number}: {harm or 'not quietly'} {last_word(found)}")


def each_growth(trial, case, plain):
    number, wrong = 0, []
    while True:
        number += 1
        found = trial.refused_at(case, number)
        if found.calls is None:
            return number - 1, wrong
        fault = fault_of_growth(trial, case, plain, found)
        if fault:
            wrong.append(f"growth {number}: {fault}")


def last_word(found):
    return f"[{found.status}, {found.errors.strip()[-120:]!r}]"


def stands_in_order(wanted, calls):
    rest = iter(calls)
    return all(call in rest for call in wanted)


def order_of(plain):
    """What is wrong with the order in which a server's bundles are stored and told, or None. The last one is told to nobody."""
    calls = [re.sub(r"/\S*/here/", "", line) for line in plain.calls]
    names = [f"kept/{number:08}" for number in (1, 2, 3)]
    begins = [len(calls) - calls[::-1].index(f"open {name}.0.part") for name in names]
    for name, begin, end in zip(names, begins, begins[1:] + [len(calls)]):
        done = [f"write {name}.0.part", f"fsync {name}.0.part", f"link {name}.sgt", "fsync kept"]
        if not stands_in_order(done, calls[begin:end]) or f"unlink {name}.0.part" not in calls[begin:end]:
            return f"{name}.sgt: {calls[begin:end]} in place of {done}"
        if "write 1" in calls[begin:begin + calls[begin:end].index("fsync kept")]:
            return f"{name}.sgt is told before it is stored"
    return None


def unknown_calls(program, shim):
    """What the program takes from the C library that is in neither list."""
    taken = subprocess.run(["nm", "-D", "--undefined-only", program], check=True, capture_output=True).stdout.decode()
    given = subprocess.run(["nm", "-D", "--defined-only", shim], check=True, capture_output=True).stdout.decode()
    names = {line.split()[-1].split("@")[0] for line in taken.strip().split("\n")}
    return sorted(names - {line.split()[-1] for line in given.strip().split("\n")} - set(OTHERS))


def tried(trial, case, with_growths):
    """What is wrong with a case; prints a line for it."""
    plain = trial.failed_at(case, "error", 0)
    if plain.status not in (0, 1, 2) or plain.calls is None:
        return [f"status {plain.status} undisturbed {last_word(plain)}"]
    calls, wrong = each_failing(trial, case, plain, "error")
    wrong += each_failing(trial, case, plain, "memory")[1]
    moves, interrupted = each_disturbed(trial, case, plain, "signal")
    _, short = each_disturbed(trial, case, plain, "short")
    wrong += interrupted + short + each_gone(trial, case, plain)
    grown = ""
    if with_growths:
        growths, refused = each_growth(trial, case, plain)
        wrong, grown = wrong + refused, f", {growths} growths refused"
    if case.name == "serve_bundles" and order_of(plain):
        wrong.append(order_of(plain))
    print(f"{case.name}: {calls} calls, {moves} reads and writes{grown}, {len(wrong)} don't hold", flush=True)
    return wrong


def main():
    parser = argparse.ArgumentParser(description=__doc__, formatter_class=argparse.RawDescriptionHelpFormatter)
    parser.add_argument("--growths", action="store_true")
    parser.add_argument("program")
    parser.add_argument("cases", nargs="*")
    words = parser.parse_args()
    failures = 0
    with tempfile.TemporaryDirectory() as folder:
        trial = Trial(os.path.abspath(words.program), folder)
        unknown = unknown_calls(trial.program, trial.failing)
        if unknown:
            print(f"calls of the C library that nothing here makes fail: {' '.join(unknown)}")
        for case in CASES:
            if words.cases and case.name not in words.cases:
                continue
            wrong = tried(trial, case, words.growths)
            for what in wrong:
                print(f"  {case.name}: {what}", flush=True)
            failures += len(wrong)
    print(f"{failures} don't hold")
    sys.exit(1 if failures or unknown else 0)


if __name__ == "__main__":
    main()
