#!/usr/bin/env python3
"""Times edits of a few nodes in documents of two sizes: their time should not grow with the rest of the document.

    bench/edits.py PROGRAM

PROGRAM is the proved program (crates/axcore/out/axcore after ./axcore --prove). In documents of 1,000 and of 50,000 nodes it times
moving a node with ten others below it to and fro between two small parents, and inserting and removing such a node. Each story is
refused at its end, so that nothing but acceptance is timed, and the time of the same story without these edits is taken off. It
prints the time of one edit at both sizes, and their ratio; near 1 is flat.
"""
import os
import sys

from timing import run, story

REFUSED = 2
RUNS = 7
EDITS = 4000
REGION = '{"insert":%d,"into":%d,"tag":"main"}'


def document(nodes):
    """Two parents, a region with ten elements below it in the first, and regions of ten elements beside them up to so many nodes."""
    yield REGION % (2, 1)
    yield REGION % (3, 1)
    yield REGION % (4, 2)
    for id in range(5, 15):
        yield REGION % (id, 4)
    for id in range(15, nodes):
        yield REGION % (id, 1 if id % 10 == 5 else id - (id - 5) % 10)


def moves():
    for k in range(EDITS):
        yield '{"move":4,"into":%d}' % (3 - k % 2)


def inserts_and_removals():
    for k in range(EDITS // 2):
        yield REGION % (100000 + k, 3)
        yield '{"remove":%d}' % (100000 + k)


def seconds(program, lines):
    with story(list(lines) + ["{}"]) as file:
        return run([program, "replay"], file.name, RUNS, REFUSED).seconds


def per_edit(program, nodes, edits):
    base = list(document(nodes))
    return (seconds(program, base + list(edits)) - seconds(program, base)) / EDITS


def main():
    if len(sys.argv) != 2:
        sys.exit(__doc__)
    program = os.path.abspath(sys.argv[1])
    for title, edits in [("a move of eleven nodes", moves), ("an insert or a removal", inserts_and_removals)]:
        small, large = per_edit(program, 1000, edits()), per_edit(program, 50000, edits())
        print("%s: %.2f us among 1,000 nodes, %.2f us among 50,000: ratio %.2f" % (title, small * 1e6, large * 1e6, large / small))


if __name__ == "__main__":
    main()
