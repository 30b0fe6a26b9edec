#!/usr/bin/env python3
"""Holds `sgt.h` against the Rattle source of the library: what one says and the other doesn't ends with status 1.

usage: check_header.py [COMPILER]

It reads the numbers, the fields of the struct and the exports from crates/sgt_c/src, which Rattle compiles, and writes of them
static assertions and declarations that the C compiler reads behind the header: each number, the size of the struct and the place
and type of each field, and the type of each call. What the header has beyond them is told too. The numbers of the Rust and the
Python binding are compared as well, and the fields of their structs.
"""
import os
import re
import subprocess
import sys

TOP = os.path.dirname(os.path.dirname(os.path.abspath(__file__)))
CRATE = f"{TOP}/crates/sgt_c"
SIZES = {"u8": 1, "u32": 4, "u64": 8, "usize": 8}
NAMES = {"u8": "uint8_t", "u32": "uint32_t", "u64": "uint64_t", "usize": "size_t", "SgtVerdict": "sgt_verdict"}


def source():
    """All of the library's source but its tests."""
    names = sorted(it for it in os.listdir(f"{CRATE}/src") if it.endswith(".rt") and it != "tests.rt")
    return "\n".join(open(f"{CRATE}/src/{it}").read() for it in names)


def parameters(text):
    """The C parameters of an export's parameters: an allocator takes none, a slice a pointer and a length."""
    for parameter in filter(None, (it.strip() for it in text.split(","))):
        kind = parameter.split(":", 1)[1].strip()
        held = re.fullmatch(r"&(mut )?(\[)?(\w+)\]?", kind)
        if kind == "Global":
            continue
        if held is None:
            yield NAMES[kind]
            continue
        yield f"{'' if held[1] else 'const '}{NAMES[held[3]]} *"
        if held[2]:
            yield "size_t"


def assertions(rattle):
    """What the source says, as lines of C; and the names that it says it of."""
    numbers = dict(re.findall(r"^pub const (SGT_\w+): u32 = (\d+);", rattle, re.M))
    body = re.search(r"#\[repr\(C\)\]\n(?:#\[.*\n)*pub struct SgtVerdict \{(.*?)\n\}", rattle, re.S)[1]
    fields = re.findall(r"^    pub (\w+): (\w+),", body, re.M)
    exports = re.findall(r'#\[unsafe\(no_mangle\)\]\npub extern "C" fn (\w+)\((.*?)\) -> (\w+)', rattle, re.S)
    size = re.search(r"size_of::<SgtVerdict>\(\) == (\d+)", rattle)[1]
    if not (numbers and fields and exports):
        sys.exit("the source has no numbers, fields or exports")
    lines = [f'_Static_assert({name} == {number}, "{name}");' for name, number in numbers.items()]
    place = 0
    for name, kind in fields:
        place += -place % SIZES[kind]
        lines.append(f'_Static_assert(offsetof(sgt_verdict, {name}) == {place}, "place of {name}");')
        lines.append(f'_Static_assert(_Generic(((sgt_verdict *)0)->{name}, {NAMES[kind]}: 1, default: 0), "type of {name}");')
        place += SIZES[kind]
    lines.append(f'_Static_assert(sizeof(sgt_verdict) == {size} && {size} == {place + -place % 8}, "size");')
    for name, takes, gives in exports:
        declared = f"{NAMES[gives]} (*)({', '.join(parameters(takes)) or 'void'})"
        lines.append(f'_Static_assert(_Generic(&{name}, {declared}: 1, default: 0), "type of {name}");')
    return lines, {*numbers, *(name for name, _ in fields), *(name for name, _, _ in exports)}


def declared(header):
    """The numbers, fields and calls of the header."""
    code = re.sub(r"/\*.*?\*/", "", header, flags=re.S)
    struct = re.search(r"typedef struct sgt_verdict \{(.*?)\}", code, re.S)[1]
    return {*re.findall(r"#define (SGT_\w+) \d", code), *re.findall(r"\w+ (\w+);", struct), *re.findall(r"\b(sgt_\w+)\(", code)}


def of_rust(text):
    """The numbers and the fields, with their types, of the Rust binding."""
    fields = re.search(r"pub struct Verdict \{(.*?)\}", text, re.S)[1]
    return dict(re.findall(r"pub const (\w+): u32 = (\d+);", text)), re.findall(r"pub (\w+): (\w+),", fields)


def of_python(text):
    """The same of the Python binding."""
    names, numbers = re.search(r"^([A-Z]+(?:, [A-Z]+)+) = ([\d, ]+)$", text, re.M).groups()
    numbers = dict(zip(names.split(", "), numbers.split(", ")))
    numbers["VERSION"] = re.search(r"^VERSION = (\d+)$", text, re.M)[1]
    return numbers, re.findall(r'\("(\w+)", ctypes\.c_uint(\d+)\)', text)


def bindings_differ(rattle):
    """What a binding says otherwise than the source."""
    numbers = dict(re.findall(r"^pub const SGT_(\w+): u32 = (\d+);", rattle, re.M))
    body = re.search(r"pub struct SgtVerdict \{(.*?)\n\}", rattle, re.S)[1]
    fields = [(name, kind.lstrip("u")) for name, kind in re.findall(r"^    pub (\w+): (\w+),", body, re.M)]
    for path, read in [("examples/rust/src/lib.rs", of_rust), ("examples/python/sgt.py", of_python)]:
        found, has = read(open(f"{TOP}/{path}").read())
        wrong = [name for name, number in found.items() if numbers.get(name) != number]
        if wrong or [(name, kind.lstrip("u")) for name, kind in has] != fields:
            yield f"{path}: {' '.join(wrong) or 'the fields'}"


def main():
    compiler = sys.argv[1] if len(sys.argv) > 1 else "gcc"
    rattle = source()
    lines, names = assertions(rattle)
    differ = list(bindings_differ(rattle))
    if differ:
        print("other than in the source:", *differ)
        sys.exit(1)
    more = names ^ declared(open(f"{CRATE}/sgt.h").read())
    if more:
        print("in one of sgt.h and the source alone:", *sorted(more))
        sys.exit(1)
    words = [compiler, "-std=c11", "-Wall", "-Wextra", "-Werror", "-fsyntax-only", f"-I{CRATE}", "-xc", "-"]
    text = "\n".join(['#include "sgt.h"', *lines, ""])
    if subprocess.run(words, input=text.encode()).returncode:
        sys.exit(1)
    print(f"sgt.h and the source agree: {len(lines)} assertions")


if __name__ == "__main__":
    main()
