#!/usr/bin/env python3
"""Looks for inputs whose cost grows faster than they do.

usage: hostile.py PROGRAM [KIND ..]        (without a KIND all of them; `hostile.py --help` lists them)

Each kind of input is made at sizes that double, until a run takes three seconds or the input has 16 MB. The last two sizes are
run by turns, three times, and the least time of each counts; a kind that is found is run five and eight times more, since other
work on the machine makes single runs longer. A kind is named where the time of the last doubling (of a run of 0.2 s at
least) grew by more than 2.3, or where the last run took over 1 s a MB. The status is the number of kinds that were found.

A window of w transactions may have w²/4 edges of one item, where increments stand on one side and reads on the other. So the
kinds of BOUNDED are held against the windows that they fill, and not against their size: such a kind is named where the last
doubling grew by more than 2.3, or where a window took over 1.5 s. So is `long_walks`, whose answer has a walk of a thousand steps
for each of a thousand refusals.
"""
import resource
import subprocess
import sys
import tempfile

import hostile_inputs as inputs

MOST_TIME, MOST_SIZE, LEAST_TIME, MOST_OF_MEGABYTE, MOST_OF_WINDOW = 3.0, 16_000_000, 0.2, 1.0, 1.5

BOUNDED = ("sums_and_reads", "reads_and_sums", "against", "alone", "long_walks")

KINDS = {
    "add_and_read": (["replay"], inputs.add_and_read),
    "adds": (["replay"], inputs.adds),
    "read_and_write": (["replay"], inputs.read_and_write),
    "old_reads": (["replay"], inputs.old_reads),
    "pending_falling": (["replay"], inputs.pending),
    "pending_rising": (["replay"], lambda n: inputs.pending(n, False)),
    "draft": (["replay"], inputs.draft),
    "wide": (["replay"], inputs.wide),
    "falling_ends": (["replay"], inputs.falling_ends),
    "sums_and_reads": (["replay"], inputs.sums_and_reads),
    "reads_and_sums": (["replay"], inputs.reads_and_sums),
    "every_version": (["replay"], inputs.every_version),
    "against": (["replay"], inputs.against),
    "alone": (["replay"], inputs.alone),
    "long_walks": (["replay"], inputs.long_walks),
    "full_window": (["replay"], inputs.full_window),
    "unknown_items": (["replay"], inputs.unknown_items),
    "refused_events": (["replay"], inputs.refused_events),
    "shared_hints": (["replay"], inputs.shared_hints),
    "blind_writes": (["run"], inputs.blind_writes),
    "adders": (["run"], inputs.adders),
    "same_item": (["run"], inputs.same_item),
    "wide_scripts": (["run"], inputs.wide_scripts),
    "late_sources": (["run"], inputs.late_sources),
    "same_reads": (["run"], inputs.same_reads),
    "same_writes": (["run"], inputs.same_writes),
    "reads_and_writes": (["run"], inputs.reads_and_writes),
    "withdrawn": (["run"], inputs.withdrawn_scripts),
    "audit_rising": (["audit"], inputs.bundle),
    "audit_falling": (["audit"], lambda n: inputs.bundle(n, order=lambda i, n: n + 1 - i)),
    "audit_space": (["audit"], lambda n: inputs.bundle(n, line2='{"decisions": [%s],"sites":1}')),
    "other_order": (["audit"], inputs.other_order),
    "out_of_range": (["audit"], inputs.out_of_range),
    "missing_member": (["audit"], inputs.missing_member),
    "unknown_members": (["audit"], inputs.unknown_members),
    "deep": (["audit"], inputs.deep),
    "serial_falling": (["serial"], lambda n: inputs.bundle(n, rank=lambda i, n: n - i)),
    "explain_falling": (["explain"], lambda n: inputs.bundle(n, order=lambda i, n: n + 1 - i)),
    "explain_order": (["explain"], inputs.other_order),
    "explain_members": (["explain"], inputs.unknown_members),
    "certify_rising": (["certify"], lambda n: inputs.uncertified(inputs.bundle(n))),
    "certify_falling": (["certify"], lambda n: inputs.uncertified(inputs.bundle(n, order=lambda i, n: n + 1 - i))),
    "certify_hub": (["certify"], lambda n: inputs.hub(n, True)),
    "certify_stuck": (["certify"], lambda n: inputs.hub(n, False)),
    "opposite_ends": (["certify"], inputs.opposite_ends),
    "no_cycles": (["certify"], inputs.no_cycles),
    "logged_sums": (["certify"], inputs.logged_sums),
    "time_late_read": (["check", "--real-time"], inputs.late_read),
    "time_stale_read": (["check", "--real-time"], inputs.stale_read),
    "time_pairs": (["check", "--real-time"], inputs.broken_pairs),
    "time_long_way": (["check", "--real-time"], inputs.long_way),
    "session_late_read": (["check", "--sessions"], lambda n: inputs.late_read(n, 1)),
    "session_pairs": (["check", "--sessions"], lambda n: inputs.broken_pairs(n, True)),
    "both_late_read": (["check", "--sessions", "--real-time"], inputs.late_read),
    "both_last_pair": (["check", "--sessions", "--real-time"], inputs.last_pair),
    "both_pairs": (["check", "--sessions", "--real-time"], inputs.broken_pairs),
    "both_backward": (["check", "--order", "--sessions", "--real-time"], inputs.backward),
}
for shape in ("hub_walks", "sparse", "many_sites", "many_items", "alternating", "blind"):
    for word in ("audit", "serial", "explain", "draw"):
        KINDS["%s_%s" % (word, shape)] = ([word], getattr(inputs, shape))
for shape in ("sparse", "many_sites", "many_items", "alternating", "blind"):
    KINDS["certify_" + shape] = (["certify"], lambda n, shape=shape: inputs.uncertified(getattr(inputs, shape)(n)))


def time_of(program, words, text):
    with tempfile.TemporaryFile() as given, open("/dev/null", "wb") as out:
        given.write(text.encode())
        given.seek(0)
        before = resource.getrusage(resource.RUSAGE_CHILDREN)
        subprocess.run([program, *words], stdin=given, stdout=out, stderr=out, check=False)
        after = resource.getrusage(resource.RUSAGE_CHILDREN)
    return after.ru_utime + after.ru_stime - before.ru_utime - before.ru_stime


def last_two(program, words, make):
    """The inputs of the last two sizes."""
    n, texts, last = 1000, [], 0.0
    while not texts or (last < MOST_TIME and len(texts[-1]) < MOST_SIZE):
        text = make(n)
        if texts and len(text) <= len(texts[-1]):
            break
        texts, last = [*texts[-1:], text], time_of(program, words, text)
        n *= 2
    return texts


def judged(name, texts, times):
    """By how much the time of the last doubling grew, how many windows the input fills, and whether the kind is found."""
    size, last, grew = len(texts[-1]), times[-1], 0.0
    if len(texts) > 1 and last >= LEAST_TIME:
        grew = last / max(times[0], 0.001) * 2 * len(texts[0]) / size
    windows = texts[-1].count("z\n") if name in BOUNDED else 0
    dear = last > windows * MOST_OF_WINDOW if windows else last / size * 1e6 > MOST_OF_MEGABYTE
    return grew, windows, grew > 2.3 or (last >= LEAST_TIME and dear)


def search(program, name):
    words, make = KINDS[name]
    texts = last_two(program, words, make)
    times, found = [float("inf")] * len(texts), True
    for rounds in (3, 5, 8):
        for _ in range(rounds * found):
            times = [min(time, time_of(program, words, text)) for time, text in zip(times, texts)]
        grew, windows, found = judged(name, texts, times)
    said = "  FOUND" if found else ""
    told = ", %.2f s a window" % (times[-1] / windows) if windows else ""
    size = len(texts[-1]) / 1e6
    print("%-20s %-8s %8.2f MB %7.2f s, grew by %.1f%s%s" % (name, words[0], size, times[-1], grew, told, said), flush=True)
    return found


def main():
    if len(sys.argv) < 2 or "--help" in sys.argv or any(name not in KINDS for name in sys.argv[2:]):
        sys.exit(f"{__doc__}\nKINDs: {' '.join(KINDS)}")
    sys.exit(sum(search(sys.argv[1], name) for name in sys.argv[2:] or KINDS))


if __name__ == "__main__":
    main()
