#!/usr/bin/env python3
"""Writes a history, to time `sgt check`.

usage: make_history.py KIND N > HISTORY

  even      N transactions of five operations over 100,000 items, which ran one after another; of each 16 lines the order is mixed
  timed     the same, with begin, done and session
  readers   one writes an item, N read it
  long      one transaction of N operations
  ring      N transactions on one cycle of wr
  twos      N cycles of two
"""
import random
import sys


def line(name, operations, more=""):
    sys.stdout.write('{"tx":"t%d","end":"commit","ops":[%s]%s}\n' % (name, ",".join(operations), more))


def times(name):
    return ',"begin":%d,"done":%d,"session":%d' % (10 * name, 10 * name + 15, name % 16)


def even(count, timed=False):
    draw = random.Random(1)
    version = [0] * 100_000
    block = []
    for name in range(count):
        mine, operations = {}, []
        while len(operations) < 5:
            item = draw.randrange(100_000)
            now = mine.get(item) or version[item]
            operations.append('["r","k%d",%d]' % (item, now))
            if len(operations) < 5 and draw.random() < 0.67:
                mine[item] = now + 1
                operations.append('["w","k%d",%d]' % (item, now + 1))
        for item, written in mine.items():
            version[item] = written
        block.append((name, operations, times(name) if timed else ""))
        if len(block) == 16 or name == count - 1:
            draw.shuffle(block)
            for one in block:
                line(*one)
            block.clear()


def timed(count):
    even(count, True)


def readers(count):
    line(0, ['["w","x",1]'])
    for name in range(1, count + 1):
        line(name, ['["r","x",1]'])


def long(count):
    line(0, ['["%s","k%d",1]' % ("r" if place % 2 else "w", place // 2) for place in range(count)])


def ring(count):
    for name in range(count):
        line(name, ['["w","k%d",1]' % name, '["r","k%d",1]' % ((name - 1) % count)])


def twos(count):
    for pair in range(count):
        line(2 * pair, ['["r","k%d",0]' % pair, '["w","k%d",1]' % pair])
        line(2 * pair + 1, ['["r","k%d",0]' % pair, '["w","k%d",2]' % pair])


KINDS = {"even": even, "timed": timed, "readers": readers, "long": long, "ring": ring, "twos": twos}

if __name__ == "__main__":
    if len(sys.argv) != 3 or sys.argv[1] not in KINDS:
        sys.exit(__doc__)
    KINDS[sys.argv[1]](int(sys.argv[2]))
