#!/usr/bin/env python3
"""A plain `sgt serve`, written from docs/FORMAT.md alone over the plain scheduler, and a plain `sgt audit --chain`.

usage: plain_serve.py serve [--bundles DIR]     (as `sgt serve`)
       plain_serve.py audit --chain FILE ..     (as `sgt audit --chain`)

It is slow and shares nothing with the program, with which fuzz_serve.py compares it.
"""
import os
import re
import sys

sys.path.insert(0, os.path.join(os.path.dirname(os.path.abspath(__file__)), ".."))
import plain_audit  # noqa: E402
import plain_core  # noqa: E402

LIMIT = 1_048_576
NUM = r"(0|[1-9][0-9]*)"
NAME = r"([a-z][a-z0-9_]{0,15})"
SITE = re.compile(rf"site {NUM}((?: [a-z][a-z0-9_]{{0,15}}=(?:0|[1-9][0-9]*))*)\Z")
EVENTS = [re.compile(pattern) for pattern in (
    r"[bz]\Z", rf"r{NUM}\[{NUM}\.{NAME}\]\Z", rf"[wd]{NUM}\[{NUM}\.{NAME}\]={NUM}\Z", rf"[cva]{NUM}\Z", rf"i{NUM}@{NUM}\Z")]


def is_event(text):
    """Whether the text spells an event."""
    for number, pattern in enumerate(EVENTS):
        if hit := pattern.match(text):
            if number == 0:
                return True
            tx_fits = 1 <= int(hit[1]) < 2**32
            site_fits = number == 3 or int(hit[2]) < 64
            return tx_fits and site_fits and (number != 2 or int(hit[4]) < 2**64)
    return False


def read_site(text, number):
    """The items of the site of this number, or None."""
    hit = SITE.match(text)
    if hit is None or int(hit[1]) != number or number > 63:
        return None
    items = [(name, int(value)) for name, value in (pair.split("=") for pair in hit[2].split())]
    rises = all(first[0] < second[0] for first, second in zip(items, items[1:]))
    return items if rises and len(items) <= 1024 and all(value < 2**64 for _, value in items) else None


class Talk:
    """A talk: each line of bytes is given without its LF, and `take(bundle)` answers the number of a bundle, or None."""

    def __init__(self, take):
        self.take, self.sites, self.lines = take, [], 0
        self.core, self.status = None, None

    def line(self, line):
        """The reply to a line, or None; once `status` is set, no line is read any more."""
        self.lines += 1
        text = line.decode("latin-1")
        too_long = len(line) > LIMIT
        is_known = not too_long and (text == "x" or is_event(text))
        if self.core is None and not (self.sites and is_known):
            items = None if too_long else read_site(text, len(self.sites))
            if items is None:
                self.status = 2
                return f"! {'L2' if too_long else 'L1'} line {self.lines}"
            self.sites.append(items)
            return None
        self.core = self.core or plain_core.Core(self.sites)
        if too_long:
            self.finish(2)
            return "! L2"
        if not is_known:
            return "! L1"
        return self.cut() if text == "x" else plain_core.reply(self.core, text)

    def cut(self):
        if self.core.active:
            return "! E8"
        number = self.take(self.core.bundle())
        if number is None:
            return "! B"
        sites = [[(item, self.core.value(site, item)) for item, _ in items] for site, items in enumerate(self.core.sites)]
        self.core = plain_core.Core(sites)
        return f"x {number}"

    def end(self, rest):
        """The reply at the end of the input, with these bytes behind the last LF, or None."""
        said = None
        if rest or self.core is None and not self.sites:
            said = self.line(rest if len(rest) > LIMIT else b"!")
        if self.status is None:
            self.finish(0)
        return said

    def finish(self, status):
        """What is open is installed, what is active is withdrawn, and what was begun is cut."""
        core, self.status = self.core, status
        if core is None:
            return
        while core.step:
            core.install(core.step[0], core.step[2][0])
        for tx in sorted(core.active):
            core.withdraw(tx)
        if core.begun and self.take(core.bundle()) is None:
            self.status = 4


def talk(data):
    """What a talk of these bytes writes, its bundles and its status."""
    bundles = []

    def take(bundle):
        bundles.append(bundle)
        return len(bundles)

    it, said = Talk(take), []
    *lines, rest = data.split(b"\n")
    for line in lines:
        if it.status is None:
            said.append(it.line(line))
    if it.status is None:
        said.append(it.end(rest))
    return "".join(line + "\n" for line in said if line is not None), bundles, it.status


class Folder:
    """The folder of bundles: each is written beside its name, synced, and linked under it."""

    def __init__(self, path):
        self.path = path
        os.makedirs(path, exist_ok=True)
        numbers = [int(name[:8]) for name in os.listdir(path) if re.fullmatch(r"[0-9]{8}\.sgt", name)]
        self.next = max(numbers, default=0) + 1

    def take(self, bundle):
        name = os.path.join(self.path, f"{self.next:08}.sgt")
        beside = name[:-4] + ".part"
        try:
            if self.next > 99_999_999:
                return None
            try:
                with open(beside, "w") as file:
                    file.write(bundle)
                    file.flush()
                    os.fsync(file.fileno())
                os.link(beside, name)
            finally:
                if os.path.exists(beside):
                    os.unlink(beside)
            folder = os.open(self.path, os.O_RDONLY)
            os.fsync(folder)
            os.close(folder)
        except OSError:
            return None
        self.next += 1
        return self.next - 1


class Nowhere:
    """No folder: bundles are counted alone."""

    def __init__(self):
        self.count = 0

    def take(self, _bundle):
        self.count += 1
        return self.count


def serve(words):
    try:
        take = (Folder(words[1]) if words else Nowhere()).take
    except OSError as why:
        print(f"sgt: {words[1]}: {why}", file=sys.stderr)
        return 4
    it, held = Talk(take), b""
    try:
        while it.status is None:
            more = os.read(0, 65536)
            held += more
            *lines, held = held.split(b"\n")
            said = []
            for line in lines:
                if it.status is None:
                    said.append(it.line(line))
            if len(held) > LIMIT and it.status is None:
                said.append(it.line(held))
            if not more and it.status is None:
                said.append(it.end(held))
            os.write(1, "".join(line + "\n" for line in said if line is not None).encode())
    except OSError:
        it.finish(4)
    return it.status


def section_values(data):
    """Of each site of a valid bundle: its items and finals, each with its line."""
    sites = []
    for number, line in enumerate(data.decode().split("\n")[:-1], 1):
        if line.startswith("site "):
            sites.append({"line": number, "items": [], "finals": [], "behind": None})
        elif line.startswith("item "):
            sites[-1]["items"].append((line[5:], number))
        elif number > 2 and sites[-1]["behind"] is None:
            sites[-1]["behind"] = number
        if line.startswith("final "):
            sites[-1]["finals"].append(line[6:])
    return sites


def first_break(left, sites, lines):
    """The first line that doesn't go on from what was left, or None."""
    for at, site in enumerate(sites):
        if at == len(left):
            return site["line"]
        for place, (item, line) in enumerate(site["items"]):
            if place == len(left[at]) or left[at][place] != item:
                return line
        if len(site["items"]) < len(left[at]):
            return site["behind"]
    return lines + 1 if len(sites) < len(left) else None


def audit_chain(texts):
    """What is said of named texts in a row, and the status."""
    left, counts = None, [0, 0, 0]
    for name, data in texts:
        verdict = plain_audit.verdict(data)
        if verdict.startswith("no "):
            return f"no {name}{verdict[2:]}", 1
        sites = section_values(data)
        line = None if left is None else first_break(left, sites, data.count(b"\n"))
        if line is not None:
            return f"no {name} line {line} C1", 1
        left = [site["finals"] for site in sites]
        counts = [count + int(word) for count, word in zip(counts, verdict.split(" ")[1::2])]
    return "yes {} committed {} refused {} withdrawn".format(*counts), 0


def main():
    words = sys.argv[1:]
    if words[:2] == ["audit", "--chain"] and len(words) > 2:
        texts = [(name, open(name, "rb").read()) for name in words[2:]]
        line, status = audit_chain(texts)
        print(line)
        return status
    if words[:1] == ["serve"] and len(words) in (1, 3) and (len(words) == 1 or words[1] == "--bundles"):
        return serve(words[1:][:0] if len(words) == 1 else ["--bundles", words[2]])
    print(__doc__, file=sys.stderr)
    return 2


if __name__ == "__main__":
    sys.exit(main())
