#!/usr/bin/env python3
"""Devices that fail under a built program's `serve`, clients that go, and kills while it cuts.

usage: break_serve.py PROGRAM [KILLS [SEED]]

Each case is named with what is wrong, or with `as promised`. As root some cases run as nobody (65534), who must be able to run the
program. Ends with status 1 where one isn't as promised.
"""
import os
import random
import resource
import select
import shutil
import signal
import subprocess
import sys
import tempfile
import threading
import time

import plain_serve

NOBODY = 65534
WAIT = 60
SITES = b"site 0 x=1 y=2\nsite 1 z=3\n"
MOVE = b"b\nr1[0.x]\nw1[0.y]=7\nc1\n"
REPLIES = b"b1\nr1[0.x]=1\nw1[0.y]=7\nc1 yes\n"


class Serve:
    """The program with its pipes."""

    def __init__(self, program, folder, **more):
        words = [program, "serve"] + (["--bundles", folder] if folder else [])
        self.process = subprocess.Popen(words, stdin=subprocess.PIPE, stdout=more.pop("stdout", subprocess.PIPE),
                                        stderr=subprocess.PIPE, bufsize=0, **more)
        self.held = b""

    def send(self, data):
        self.process.stdin.write(data)

    def reply(self):
        """The next line of replies, or nothing at the end."""
        while b"\n" not in self.held:
            if not select.select([self.process.stdout], [], [], WAIT)[0]:
                raise TimeoutError("no reply")
            more = os.read(self.process.stdout.fileno(), 65536)
            if not more:
                return ""
            self.held += more
        line, _, self.held = self.held.partition(b"\n")
        return line.decode()

    def ask(self, line):
        self.send(line + b"\n")
        return self.reply()

    def end(self):
        """The status, once the input has ended."""
        self.process.stdin.close()
        return self.process.wait(WAIT)


def texts_in(folder):
    names = sorted(name for name in os.listdir(folder) if name.endswith(".sgt"))
    return [(name, open(os.path.join(folder, name), "rb").read()) for name in names]


def chain_of(folder):
    """The plain auditor's line on the bundles."""
    texts = texts_in(folder)
    return plain_serve.audit_chain(texts)[0] if texts else "no bundle"


def wrong(found, wanted):
    return None if found == wanted else f"found {found!r}, wanted {wanted!r}"


def first_of(*faults):
    return next((fault for fault in faults if fault), None)


def as_nobody():
    if os.getuid() == 0:
        os.setgid(NOBODY)
        os.setuid(NOBODY)


def moved(it):
    """Sites and a first transaction, whose replies came."""
    it.send(SITES + MOVE)
    found = "".join(it.reply() + "\n" for _ in range(4)).encode()
    return wrong(found, REPLIES)


# ---- the cases: a program and an empty folder; what is wrong, or None

def answers_at_once(program, above):
    """Nobody waits for a further line."""
    it = Serve(program, None)
    it.send(SITES)
    faults = [wrong(it.ask(b"b"), "b1"), wrong(it.ask(b"r1[0.x]"), "r1[0.x]=1"), wrong(it.ask(b"x"), "! E8"), wrong(it.ask(b"q"), "! L1")]
    return first_of(*faults, wrong(it.end(), 0))


def folder_is_a_file(program, above):
    path = os.path.join(above, "file")
    open(path, "w").close()
    it = Serve(program, path)
    return first_of(wrong(it.process.wait(WAIT), 4), wrong(it.reply(), ""))


def folder_cannot_be_made(program, above):
    os.chmod(above, 0o555)
    it = Serve(program, os.path.join(above, "new"), preexec_fn=as_nobody)
    return first_of(wrong(it.process.wait(WAIT), 4), wrong(it.reply(), ""))


def folder_is_read_only(program, above):
    os.chmod(above, 0o555)
    it = Serve(program, above, preexec_fn=as_nobody)
    return first_of(wrong(it.process.wait(WAIT), 4), wrong(it.reply(), ""), wrong(os.listdir(above), []))


def folder_becomes_read_only(program, above):
    os.chmod(above, 0o777)
    it = Serve(program, above, preexec_fn=as_nobody)
    fault = moved(it)
    os.chmod(above, 0o555)
    return first_of(fault, wrong(it.ask(b"x"), "! B"), wrong(it.ask(b"b"), "b2"), wrong(it.ask(b"a2"), "a2"),
                    wrong(it.end(), 4), wrong(os.listdir(above), []))


def folder_vanishes(program, above):
    folder = os.path.join(above, "bundles")
    it = Serve(program, folder)
    fault = moved(it)
    shutil.rmtree(folder)
    fault = first_of(fault, wrong(it.ask(b"x"), "! B"), wrong(it.ask(b"x"), "! B"))
    os.mkdir(folder)
    return first_of(fault, wrong(it.ask(b"x"), "x 1"), wrong(it.end(), 0), wrong(chain_of(folder), "yes 1 committed 0 refused 0 withdrawn"))


def folder_vanishes_for_good(program, above):
    folder = os.path.join(above, "bundles")
    it = Serve(program, folder)
    fault = moved(it)
    shutil.rmtree(folder)
    return first_of(fault, wrong(it.end(), 4))


def disk_is_full(program, above):
    """Files of a few bytes alone may be written, and then greater ones again."""
    def limits():
        signal.signal(signal.SIGXFSZ, signal.SIG_IGN)
        resource.setrlimit(resource.RLIMIT_FSIZE, (40, resource.RLIM_INFINITY))
    it = Serve(program, above, preexec_fn=limits)
    fault = first_of(moved(it), wrong(it.ask(b"x"), "! B"), wrong(os.listdir(above), []), wrong(it.ask(b"b"), "b2"), wrong(it.ask(b"a2"), "a2"))
    resource.prlimit(it.process.pid, resource.RLIMIT_FSIZE, (resource.RLIM_INFINITY, resource.RLIM_INFINITY))
    return first_of(fault, wrong(it.ask(b"x"), "x 1"), wrong(it.end(), 0), wrong(chain_of(above), "yes 1 committed 0 refused 1 withdrawn"))


def file_system_is_full(program, above):
    """A file system of two pages, with another file in it that goes."""
    if subprocess.run(["mount", "-t", "tmpfs", "-o", "size=8k", "tmpfs", above], capture_output=True).returncode:
        return "not tried: no file system can be mounted here"
    try:
        other = os.path.join(above, "other")
        with open(other, "wb", buffering=0) as file:
            try:
                while file.write(b"x" * 4096):
                    pass
            except OSError:
                pass
        it = Serve(program, above)
        fault = first_of(moved(it), wrong(it.ask(b"x"), "! B"), wrong(os.listdir(above), ["other"]))
        os.unlink(other)
        return first_of(fault, wrong(it.ask(b"x"), "x 1"), wrong(it.end(), 0), wrong(chain_of(above), "yes 1 committed 0 refused 0 withdrawn"))
    finally:
        subprocess.run(["umount", "-l", above])


def replies_go_to_a_full_device(program, above):
    with open("/dev/full", "wb") as full:
        it = Serve(program, above, stdout=full)
        it.send(SITES + MOVE)
        status = it.process.wait(WAIT)
    return first_of(wrong(status, 4), wrong(len(texts_in(above)), 1), wrong(chain_of(above)[:4], "yes "))


def client_reads_no_more(program, above):
    """Who reads the replies goes: what was done is a bundle."""
    it = Serve(program, above)
    fault = moved(it)
    it.process.stdout.close()
    try:
        for _ in range(100):
            it.send(b"b\n")
            time.sleep(0.01)
    except BrokenPipeError:
        pass
    return first_of(fault, wrong(it.process.wait(WAIT), 4), wrong(len(texts_in(above)), 1), wrong(chain_of(above)[:17], "yes 1 committed 0"))


def client_dies(program, above):
    """A client that is killed while a transaction is open."""
    code = ("import subprocess, sys, time\n"
            "it = subprocess.Popen(sys.argv[1:], stdin=subprocess.PIPE, stdout=subprocess.PIPE)\n"
            f"it.stdin.write({SITES + MOVE + b'b' + bytes([10])!r})\nit.stdin.flush()\n"
            "for _ in range(5): it.stdout.readline()\n"
            "print(it.pid, flush=True)\ntime.sleep(600)\n")
    client = subprocess.Popen([sys.executable, "-c", code, program, "serve", "--bundles", above], stdout=subprocess.PIPE)
    pid = int(client.stdout.readline())
    client.kill()
    client.wait()
    until = time.monotonic() + WAIT
    while os.path.exists(f"/proc/{pid}") and open(f"/proc/{pid}/stat").read().rsplit(")", 1)[1].split()[0] != "Z" and time.monotonic() < until:
        time.sleep(0.01)
    return wrong(chain_of(above), "yes 1 committed 0 refused 1 withdrawn")


def name_is_taken(program, above):
    """No file is written over."""
    it = Serve(program, above)
    fault = moved(it)
    path = os.path.join(above, "00000001.sgt")
    with open(path, "w") as file:
        file.write("mine")
    fault = first_of(fault, wrong(it.ask(b"x"), "! B"), wrong(open(path).read(), "mine"), wrong(os.listdir(above), ["00000001.sgt"]))
    os.unlink(path)
    return first_of(fault, wrong(it.ask(b"x"), "x 1"), wrong(it.end(), 0), wrong(chain_of(above), "yes 1 committed 0 refused 0 withdrawn"))


def numbers_go_on(program, above):
    """Behind the greatest name of eight digits, whatever else is there."""
    for name in ["00000007.sgt", "00000003.sgt", "00000009.txt", "9.sgt", "000000010.sgt", "0000001x.sgt", "00000011.sgt.part"]:
        open(os.path.join(above, name), "w").close()
    it = Serve(program, above)
    it.send(SITES)
    return first_of(wrong(it.ask(b"x"), "x 8"), wrong(it.ask(b"x"), "x 9"), wrong(it.end(), 0))


def numbers_are_used_up(program, above):
    """It doesn't start."""
    open(os.path.join(above, "99999999.sgt"), "w").close()
    it = Serve(program, above)
    return first_of(wrong(it.end(), 4), wrong(os.listdir(above), ["99999999.sgt"]))


def beside_is_linked(program, above):
    """A kill between the two names of a bundle leaves both; the bundle is moved away, and isn't written over."""
    kept, beside = os.path.join(above, "kept"), [f"00000001.{at}part" for at in ("", "0.", "1.", "2.")]
    it = Serve(program, above)
    fault = first_of(moved(it), wrong(it.ask(b"x"), "x 1"), wrong(it.end(), 0))
    os.rename(os.path.join(above, "00000001.sgt"), kept)
    with open(kept, "rb") as file:
        text = file.read()
    for name in beside:
        os.link(kept, os.path.join(above, name))
    it = Serve(program, above)
    fault = first_of(fault, moved(it), wrong(it.ask(b"x"), "x 1"), wrong(it.end(), 0))
    return first_of(fault, wrong(open(kept, "rb").read(), text), wrong(texts_in(above)[0][1], text), wrong(sorted(os.listdir(above)), sorted(["00000001.sgt", "kept", *beside])))


def beside_is_a_link(program, above):
    """What a link leads to isn't written over."""
    kept = os.path.join(os.path.dirname(above), "mine")
    with open(kept, "w") as file:
        file.write("mine")
    for at in ("", "0.", "1."):
        os.symlink(kept, os.path.join(above, f"00000001.{at}part"))
    it = Serve(program, above)
    return first_of(moved(it), wrong(it.ask(b"x"), "x 1"), wrong(it.end(), 0), wrong(open(kept).read(), "mine"))


def two_at_once(program, above, rounds=100):
    """Two servers over one folder: each has the bundle that it was told of, or is told that it has none."""
    for n in range(rounds):
        folder = os.path.join(above, str(n))
        them = [Serve(program, folder) for _ in range(2)]
        for k, it in enumerate(them):
            it.send(b"site 0 x=0\nb\nw1[0.x]=%d\nc1\n" % k)
            for _ in range(3):
                it.reply()
        for it in them:
            it.send(b"x\n")
        said = [it.reply() for it in them]
        for k, it in enumerate(them):
            it.process.kill()
            it.process.wait()
            if said[k] == "! B":
                continue
            path = os.path.join(folder, f"{int(said[k][2:]):08}.sgt")
            if not os.path.exists(path) or b"\nfinal x=%d\n" % k not in open(path, "rb").read():
                return f"round {n}: {said} were answered, and the bundle of the server {k + 1} isn't there"
    return None


def file_is_read(program, above):
    """A talk may come from a file; one that isn't there is told."""
    path = os.path.join(above, "talk")
    with open(path, "wb") as file:
        file.write(SITES + MOVE)
    done = subprocess.run([program, "serve", path], stdin=subprocess.DEVNULL, capture_output=True)
    gone = subprocess.run([program, "serve", path + "s"], stdin=subprocess.DEVNULL, capture_output=True)
    other = subprocess.run([program, "serve", above], stdin=subprocess.DEVNULL, capture_output=True)
    return first_of(wrong((done.stdout, done.returncode), (REPLIES, 0)), wrong(gone.returncode, 4), wrong(b"No such file" in gone.stderr, True),
                    wrong(other.returncode, 4), wrong(b"Is a directory" in other.stderr, True))


CASES = [answers_at_once, file_is_read, folder_is_a_file, folder_cannot_be_made, folder_is_read_only, folder_becomes_read_only, folder_vanishes, folder_vanishes_for_good,
         disk_is_full, file_system_is_full, replies_go_to_a_full_device, client_reads_no_more, client_dies, name_is_taken, numbers_go_on,
         numbers_are_used_up, beside_is_linked, beside_is_a_link, two_at_once]


# ---- kills

def work(it):
    """Transactions and cuts without an end."""
    number = 0
    try:
        while True:
            number += 1
            it.send(b"b\nr1[0.x]\nw1[0.y]=%d\nd1[1.z]=1\nc1\nx\n" % number)
    except (BrokenPipeError, OSError):
        pass


def killed_once(program, folder, rng, last):
    """The greatest number that was answered up to a kill at some moment."""
    it = Serve(program, folder)
    it.send(SITES if last == 0 else sites_behind(folder))
    sender = threading.Thread(target=work, args=(it,))
    killer = threading.Timer(rng.random() * 0.2, it.process.kill)
    sender.start()
    killer.start()
    while said := it.reply():
        if said.startswith("x "):
            last = int(said[2:])
    sender.join()
    it.process.wait()
    return last


def sites_behind(folder):
    """The lines of the sites that go on behind the bundles."""
    name, data = texts_in(folder)[-1]
    sites = plain_serve.section_values(data)
    return "".join(" ".join([f"site {at}", *site["finals"]]) + "\n" for at, site in enumerate(sites)).encode()


def kills(program, above, count, rng):
    """Each bundle is whole, all that were answered are there, and all together are a chain."""
    last = 0
    for n in range(count):
        last = killed_once(program, above, rng, last)
        names = [name for name, _ in texts_in(above)]
        if names != [f"{number:08}.sgt" for number in range(1, len(names) + 1)] or len(names) < last:
            return f"after {n + 1} kills: {len(names)} bundles, and {last} answered"
        last = len(names)
    line = chain_of(above)
    done = subprocess.run([program, "audit", "--chain", *[name for name, _ in texts_in(above)]], cwd=above, capture_output=True, text=True)
    print(f"  {count} kills, {len(texts_in(above))} bundles, {line}")
    return first_of(wrong(line[:4], "yes "), wrong(done.stdout, line + "\n"))


def main():
    if len(sys.argv) < 2 or "--help" in sys.argv:
        sys.exit(__doc__)
    program = os.path.abspath(sys.argv[1])
    count = int(sys.argv[2]) if len(sys.argv) > 2 else 50
    rng = random.Random(int(sys.argv[3]) if len(sys.argv) > 3 else 1)
    cases = [(case.__name__, case) for case in CASES]
    cases.append(("kills", lambda program, above: kills(program, above, count, rng)))
    bad = 0
    for name, case in cases:
        with tempfile.TemporaryDirectory() as above:
            os.chmod(above, 0o777)
            folder = os.path.join(above, "f")
            os.mkdir(folder)
            os.chmod(folder, 0o777)
            try:
                fault = case(program, folder)
            except Exception as why:            # a case that can't be run to its end isn't as promised
                fault = f"{type(why).__name__}: {why}"
            os.chmod(folder, 0o777)
        bad += bool(fault) and not str(fault).startswith("not tried")
        print(f"{name.replace('_', ' ')}: {fault or 'as promised'}", flush=True)
    sys.exit(1 if bad else 0)


if __name__ == "__main__":
    main()
