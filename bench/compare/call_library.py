#!/usr/bin/env python3
"""Calls the library again and again, by one thread and by four, and says what memory the process has.

usage: call_library.py [COUNT [SEED]]

Two hundred bundles of fuzz_audit.py are audited and run by turns, COUNT calls by one thread and then COUNT by four threads at once
(the binding lets go of Python's lock in a call). Ends with status 1 where an answer isn't the first one given of that bundle, or
where the process grew by more than a megabyte behind the first tenth of the calls. `examples/run.sh` builds the library.
"""
import os
import random
import sys
import threading
import time

if "--help" in sys.argv:
    sys.exit(__doc__)

sys.path.insert(0, os.path.join(os.path.dirname(os.path.abspath(__file__)), "../../examples/python"))

import fuzz_audit
import sgt


def resident():
    """The memory of the process that is in use, in KiB."""
    with open("/proc/self/statm") as file:
        return int(file.read().split()[1]) * os.sysconf("SC_PAGE_SIZE") // 1024


def call(bundles, wanted, first, count, failed):
    """Calls of each bundle by turns, from this one on: nine audits and a serial run."""
    for at in range(first, first + count):
        data, (verdict, run) = bundles[at % len(bundles)], wanted[at % len(bundles)]
        if (sgt.serial(data) != run) if at % 10 == 9 else (sgt.audit(data) != verdict):
            failed.append(data)


def main():
    count = int(sys.argv[1]) if len(sys.argv) > 1 else 100000
    rng = random.Random(int(sys.argv[2]) if len(sys.argv) > 2 else 1)
    bundles = [fuzz_audit.damaged(rng, fuzz_audit.random_run(rng)) for _ in range(201)]
    wanted = [(sgt.audit(data), sgt.serial(data)) for data in bundles]
    failed, sizes = [], []
    for threads in [1, 4]:
        begun, share = time.monotonic(), count // threads // 10
        for tenth in range(10):
            workers = [
                threading.Thread(target=call, args=(bundles, wanted, 50 * at + tenth * share, share, failed))
                for at in range(threads)
            ]
            for worker in workers:
                worker.start()
            for worker in workers:
                worker.join()
            sizes.append(resident())
        seconds = time.monotonic() - begun
        grown = sizes[-1] - sizes[-10]
        print(f"{threads} threads: {count} calls in {seconds:.1f} s, {sizes[-10]} KiB behind a tenth and {sizes[-1]} behind all")
        if grown > 1024:
            failed.append(b"memory")
    print(f"{len(failed)} answers differ or grew")
    sys.exit(1 if failed else 0)


if __name__ == "__main__":
    main()
