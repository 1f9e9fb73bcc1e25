#!/usr/bin/env python3
"""Times edits among the children of one wide parent, where there are few and where there are many.

    bench/siblings.py PROGRAM

PROGRAM is the proved program (crates/axcore/out/axcore after ./axcore --prove). Below one parent with 1,000 and with 60,000 children it
times inserting before the first of them, and moving one before another, each drawn at random. Each story is refused at its end, so
that nothing but acceptance is timed, and the time of the same story without these edits is taken off. It prints the processor time of
one edit at both sizes, and their ratio: near 1 is flat, near 60 is linear in the number of siblings.
"""
import os
import random
import sys

from timing import run, story

REFUSED = 2
RUNS = 7
EDITS = 4000
PARENT, FIRST = 2, 3


def children(count):
    """One parent, with so many children."""
    yield '{"insert":%d,"into":1,"tag":"main"}' % PARENT
    for id in range(FIRST, FIRST + count):
        yield '{"insert":%d,"into":%d,"tag":"p"}' % (id, PARENT)


def inserts_before_the_first(count):
    first = FIRST
    for id in range(100000, 100000 + EDITS):
        yield '{"insert":%d,"into":%d,"before":%d,"tag":"p"}' % (id, PARENT, first)
        first = id


def moves(count):
    draw = random.Random(1)
    for _ in range(EDITS):
        id, before = draw.sample(range(FIRST, FIRST + count), 2)
        yield '{"move":%d,"into":%d,"before":%d}' % (id, PARENT, before)


def seconds(program, lines):
    with story([*lines, "{}"]) as file:
        return run([program, "replay"], file.name, RUNS, REFUSED).processor


def per_edit(program, count, edits):
    base = list(children(count))
    return (seconds(program, base + list(edits(count))) - seconds(program, base)) / EDITS


def main():
    if len(sys.argv) != 2:
        sys.exit(__doc__)
    program = os.path.abspath(sys.argv[1])
    for title, edits in [("an insert before the first", inserts_before_the_first), ("a move among siblings", moves)]:
        small, large = per_edit(program, 1000, edits), per_edit(program, 60000, edits)
        print("%s: %.2f us among 1,000, %.2f us among 60,000: ratio %.1f" % (title, small * 1e6, large * 1e6, large / small))


if __name__ == "__main__":
    main()
