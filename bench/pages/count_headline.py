#!/usr/bin/env python3
"""Counts the lines of definitions that a reader of a contract's word has to read, without comments and imports.

usage: count_headline.py [CRATE FILE WORD]        (sgt_audit Verdict SaysHeadline where nothing is said)

It follows each word of the repository's specs from definition to definition, and into the kit's crates, which it counts apart; the words
of `std` (lists, numbers, their decimals) aren't counted. Nor are types that are declared in code (an entry, a decision, ..).
"""
import os
import re
import sys

TOP = os.path.join(os.path.dirname(os.path.abspath(__file__)), "../../crates")
KIT = os.path.join(os.environ.get("RT_KIT", "/opt/rattle"), "rattle")
MARKS = r"(?:(?:unfoldable|abbrev|record|data|pub|def) +)*"
IMPORT = re.compile(r"(?:pub )?use (?:Rattle\.(\w+)\.specs|lib)\.([\w.]+)(?:\.\{(.*)\}| as (\w+))$")
USED = re.compile(r"(?:\b([A-Za-z_]\w*)\.)?([A-Za-z_][\w'-]*)")


class File:
    """The definitions of a file with their lines, the words that it imports, and the files that it names.

    Of a `mutual` block each definition has all lines, and so has each constructor those of its type."""

    def __init__(self, path):
        self.blocks, self.imports, self.files = {}, {}, {}
        self.name, self.group = None, None
        with open(path, encoding="utf-8") as file:
            for line in file.read().split("\n"):
                if line.strip() and not line.lstrip().startswith("--") and not self.took_import(line):
                    self.take(line)

    def took_import(self, line):
        """Whether the line is no part of a definition."""
        if hit := IMPORT.match(line):
            for word in (hit[3] or "").split(","):
                name, _, shown = word.strip().partition(" as ")
                self.imports[(shown or name).strip()] = (hit[1], hit[2], name)
            if hit[4]:
                self.files[hit[4]] = (hit[1], hit[2])
        return re.match(r"(?:pub )?(use|mod|open|syntax|infix)\b", line) is not None

    def take(self, line):
        indent = len(line) - len(line.lstrip())
        if indent == 0:
            self.begin(line)
        elif self.group is not None:
            self.group.append(line)
            hit = re.match(rf"  (?=pub|data|abbrev|record){MARKS}([^\s:]+)", line) or re.match(r"    ([^\s:]+) :", line)
            if hit:
                self.blocks.setdefault(hit[1], self.group)
        elif self.name:
            lines = self.blocks[self.name]
            lines.append(line)
            hit = re.match(r"  ([^\s:]+) :", line)
            if hit and re.match(r"(pub )?data", lines[0]):
                self.blocks.setdefault(hit[1], lines)

    def begin(self, line):
        self.group = [] if re.match(r"((abbrev|unfoldable) )*mutual", line) else None
        if self.group is not None:
            self.name = None
            return
        name = re.match(rf"{MARKS}([^\s:]+)", line)[1]
        if re.match(r"(unfoldable|abbrev|record|data|pub) ", line):
            self.name = name
            self.blocks[name] = []
        elif name in self.blocks:
            self.name = name
        if self.name:
            self.blocks[self.name].append(line)

    def used_in(self, lines):
        """The words of these lines that are defined somewhere, each with the crate (None: this one) and the file."""
        for owner, word in USED.findall("\n".join(lines)):
            if owner in self.files:
                yield (*self.files[owner], word)
                continue
            for name in (owner, word):
                if name in self.blocks:
                    yield None, None, name
                elif name in self.imports:
                    yield self.imports[name]


def path_of(crate, file):
    paths = [os.path.join(top, crate, "specs", *file.split(".")) + ".antt" for top in (TOP, KIT)]
    return next((path for path in paths if crate != "std" and os.path.exists(path)), None)


def counted(start):
    """The lines of each definition that this one rests on."""
    todo, seen, files, found = [start], set(), {}, {}
    while todo:
        crate, name, word = at = todo.pop()
        path = path_of(crate, name)
        if at in seen or path is None:
            continue
        seen.add(at)
        if path not in files:
            files[path] = File(path)
        lines = files[path].blocks.get(word)
        if lines is None:
            continue
        found.setdefault(id(lines), (at, len(lines)))
        todo += [(used[0] or crate, used[1] or name, used[2]) for used in files[path].used_in(lines)]
    return sorted(found.values())


def main():
    if "--help" in sys.argv:
        sys.exit(__doc__)
    found = counted(tuple(sys.argv[1:4]) if len(sys.argv) > 3 else ("sgt_audit", "Verdict", "SaysHeadline"))
    own = [(at, count) for at, count in found if os.path.isdir(os.path.join(TOP, at[0]))]
    for at, count in own:
        print(f"{count:4} {'.'.join(at)}")
    for crate in sorted({at[0] for at, _ in found} - {at[0] for at, _ in own}):
        counts = [count for at, count in found if at[0] == crate]
        print(f"of the kit's {crate}: {sum(counts)} lines in {len(counts)} definitions")
    print(f"{sum(count for _, count in own)} lines in {len(own)} definitions")


if __name__ == "__main__":
    main()
