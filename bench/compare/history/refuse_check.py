#!/usr/bin/env python3
"""Runs a built program's `check` on stored histories once for each growth that it makes, with that one refused.

usage: refuse_check.py PROGRAM [ROW ..]

PROGRAM is the program itself, not a script that starts it, and built without AddressSanitizer. ROW is a folder with args, stdin, stdout and
status; without one, each row `history_*` of the repository. A run holds where it answers as an undisturbed one, or ends with status 3,
`sgt: memory` last on standard error, no word of a device, and a front of that answer. Ends with status 1 where one doesn't. Needs gcc; a minute for each twenty rows.
"""
import os
import shutil
import subprocess
import sys
import tempfile

HERE = os.path.dirname(os.path.abspath(__file__))
sys.path.insert(0, os.path.join(HERE, ".."))
import refuse_growths  # noqa: E402

ROWS = os.path.join(HERE, "../../../crates/sgt_rows/data/rows")


def text_of(row, name, otherwise):
    path = os.path.join(row, name)
    if not os.path.exists(path):
        return otherwise
    with open(path, "rb") as file:
        return file.read()


def refuse_each(program, row, shim, told):
    """How many growths were refused, and what was wrong then."""
    words = text_of(row, "args", b"").decode().split()
    text, wanted, status = text_of(row, "stdin", b""), text_of(row, "stdout", b""), int(text_of(row, "status", b"0"))
    here = os.path.join(os.path.dirname(told), "here")
    wrong, n = [], 0
    while n == 0 or os.path.exists(told):
        n += 1
        if os.path.exists(told):
            os.unlink(told)
        shutil.rmtree(here, ignore_errors=True)
        shutil.copytree(row, here)
        env = dict(os.environ, LD_PRELOAD=shim, REFUSE_GROWTH=str(n), GROWTHS_TO=told)
        done = subprocess.run([program, *words], input=text, capture_output=True, env=env, timeout=60, cwd=here)
        is_whole = (done.stdout, done.returncode) == (wanted, status)
        is_told = done.stderr.endswith(b"sgt: memory\n") and b"fault" not in done.stderr
        has_given_up = done.returncode == 3 and is_told and wanted.startswith(done.stdout)
        if not is_whole and not has_given_up:
            wrong.append(f"growth {n}: status {done.returncode}, {done.stdout[:100]!r}, {done.stderr[:100]!r}")
    return n - 1, wrong


def main():
    if len(sys.argv) < 2 or "--help" in sys.argv:
        sys.exit(__doc__)
    program = os.path.abspath(sys.argv[1])
    rows = sys.argv[2:] or [os.path.join(ROWS, name) for name in sorted(os.listdir(ROWS)) if name.startswith("history_")]
    growths = failed = 0
    with tempfile.TemporaryDirectory() as folder:
        shim, told = refuse_growths.built_shim(folder), os.path.join(folder, "told")
        for row in rows:
            count, wrong = refuse_each(program, row, shim, told)
            if count == 0:
                wrong.append("no growth was seen: a program with AddressSanitizer, or a script?")
            for what in wrong:
                print(f"{os.path.basename(row)}: {what}", flush=True)
            growths, failed = growths + count, failed + len(wrong)
    print(f"{len(rows)} rows, {growths} growths refused, {failed} don't hold")
    sys.exit(1 if failed else 0)


if __name__ == "__main__":
    main()
