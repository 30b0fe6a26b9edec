#!/usr/bin/env python3
"""Counts the functions outside the crates of tests, and those among them that ask something of their caller (`requires`).

usage: count_requires.py

A function is public where another crate can call it: the name of it, or of the type whose method it is, stands in a
`pub use` of its crate's lib.rt; of types, methods that are `pub` and those of traits count.
"""
import glob
import os
import re
import sys

TOP = os.path.join(os.path.dirname(os.path.abspath(__file__)), "../../crates")
ITEM = re.compile(r"^impl\b|^(?:pub )?trait (\w+)|^([ \t]*)((?:pub(?:\([^)]*\))? )?(?:unsafe )?(?:const )?(?:extern \"C\" )?)fn (\w+)", re.M)


def closing(text, start, opened, closed):
    """The place of the bracket that closes the first one from `start` on."""
    depth = 0
    for place in range(start, len(text)):
        depth += (text[place] == opened) - (text[place] == closed)
        if depth == 0 and text[place] == closed:
            return place
    return len(text)


def type_of(text, start):
    """The type that an `impl` is of, and whether it is of a trait."""
    head = text[start + 4:text.index("{", start)].strip()
    if head.startswith("<"):
        depth = 0
        for place, letter in enumerate(head):
            depth += (letter == "<") - (letter == ">" and head[place - 1] != "-")
            if depth == 0:
                head = head[place + 1:].strip()
                break
    parts = head.split(" for ")
    return re.match(r"&?(?:'\w+ )?(?:mut )?(\w*)", parts[-1].strip())[1], len(parts) > 1


def asks(text, start):
    """Whether the function whose parameters begin at `start` has a `requires`."""
    text = text[closing(text, text.index("(", start), "(", ")") + 1:]
    while hit := re.search(r"[{;]", text):
        head = text[:hit.start()]
        if hit[0] == ";" or not re.search(r"\b(?:requires|ensures|decreases)\b", head):
            return False
        if re.search(r"\brequires\b", head):
            return True
        text = text[closing(text, hit.start(), "{", "}") + 1:]
    return False


def exported(crate):
    """The names that the crate hands out."""
    path = f"{TOP}/{crate}/src/lib.rt"
    text = open(path, encoding="utf-8").read() if os.path.exists(path) else ""
    return set(re.findall(r"\w+", " ".join(re.findall(r"pub use ([^;]+);", text))))


def main():
    if "--help" in sys.argv:
        sys.exit(__doc__)
    count = {(public, asking): 0 for public in (0, 1) for asking in (0, 1)}
    for crate in sorted(os.listdir(TOP)):
        if crate.endswith("_tests"):
            continue
        names = exported(crate)
        for path in glob.glob(f"{TOP}/{crate}/src/**/*.rt", recursive=True):
            if os.path.basename(path) == "tests.rt":
                continue
            text, owner = re.sub(r"//[^\n]*", "", open(path, encoding="utf-8").read()), ("", False)
            for hit in ITEM.finditer(text):
                if hit[0] == "impl":
                    owner = type_of(text, hit.start())
                elif hit[1]:
                    owner = (hit[1], True)
                else:
                    is_pub = hit[3].startswith("pub") and not hit[3].startswith("pub(")
                    public = is_pub and (hit[4] in names or "extern" in hit[3]) if not hit[2] else owner[0] in names and (is_pub or owner[1])
                    count[int(public), int(asks(text, hit.end()))] += 1
    print(f"{count[0, 1] + count[1, 1]} of {sum(count.values())} functions have a `requires`,"
          f" {count[1, 1]} of {count[1, 0] + count[1, 1]} public ones")


if __name__ == "__main__":
    main()
