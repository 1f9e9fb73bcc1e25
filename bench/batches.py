#!/usr/bin/env python3
"""Times flushes by how much differs, and patches by how large the tree is, through `axcore replay`.

    bench/batches.py PROGRAM

PROGRAM is the proved program (crates/axcore/out/axcore after ./axcore --prove). No command makes a batch or takes one over by
itself, so each is seen through what is done beside it.

A flush builds the tree, makes the batch to it and the notices. It is timed where the two trees are equal, where one name
differs, and where they have no object in common but the root and what holds them, at two sizes: the time of one flush for each
object, and the ratio of the sizes. The time of a story with one flush is taken off. What a batch adds is the difference to the
flush of equal trees, in which nothing is sent.

A patch is timed as a client that takes all moments at its end, over one that takes none, of the same page, whose flushes change
ten names each: the time of one of these patches at both sizes, and the ratio. All times are the processor's.
"""
import os
import sys

from timing import run, story

RUNS = 3
SIZES = ((1000, 400), (60000, 20))
APART = ((1000, 200), (30000, 12))


def labelled(count):
    """A page of labelled items."""
    yield '{"insert":2,"into":1,"tag":"main"}'
    for id in range(3, count + 1):
        yield '{"insert":%d,"into":2,"tag":"article","attrs":{"aria-label":"Item %d"}}' % (id, id)
    yield '{"start":1}'


def equal(count, flushes):
    yield from labelled(count)
    for k in range(flushes):
        yield '{"flush":true}'


def one_name(count, flushes):
    yield from labelled(count)
    for k in range(flushes):
        yield '{"set":%d,"name":"aria-label","value":"Item %d again"}' % (3 + k * 7919 % (count - 2), k)
        yield '{"flush":true}'


def ten_names(count, flushes):
    yield from labelled(count)
    for k in range(flushes):
        for j in range(10):
            yield '{"set":%d,"name":"aria-label","value":"Item %d %d"}' % (3 + (10 * k + j) * 7919 % (count - 2), k, j)
        yield '{"flush":true}'


def disjoint(count, flushes):
    """Two lists of so many items, of which one is hidden in turn."""
    half = count - 1
    for side, first in ((2, 4), (3, 4 + half)):
        yield '{"insert":%d,"into":1,"tag":"ul"%s}' % (side, ',"attrs":{"hidden":""}' if side == 3 else "")
        for id in range(first, first + half):
            yield '{"insert":%d,"into":%d,"tag":"li"}' % (id, side)
    yield '{"start":1}'
    for k in range(flushes):
        yield '{"set":%d,"name":"hidden","value":""}' % (2 + k % 2)
        yield '{"unset":%d,"name":"hidden"}' % (3 - k % 2)
        yield '{"flush":true}'


def processor(program, lines):
    with story(list(lines)) as file:
        return run([program, "replay"], file.name, RUNS).processor


def flush_time(program, make, count, flushes):
    """The time of one flush: what more flushes cost, for each of them."""
    return (processor(program, make(count, flushes)) - processor(program, make(count, 1))) / (flushes - 1)


def patch_time(program, count, flushes):
    """What it costs more that the client takes all moments, for each of them."""
    page = list(ten_names(count, flushes))
    return (processor(program, page + ['{"await":%d}' % flushes]) - processor(program, page)) / flushes


def main():
    if len(sys.argv) != 2:
        sys.exit(__doc__)
    program = os.path.abspath(sys.argv[1])
    for title, make, sizes in (("equal trees", equal, SIZES), ("one name", one_name, SIZES), ("disjoint trees", disjoint, APART)):
        each = [flush_time(program, make, count, flushes) / count for count, flushes in sizes]
        print("a flush of %s takes %.3f us for each object of %d, %.3f us of %d: ratio %.2f"
              % (title, each[0] * 1e6, sizes[0][0], each[1] * 1e6, sizes[1][0], each[1] / each[0]))
    times = [patch_time(program, count, flushes) for count, flushes in SIZES]
    print("a patch of a batch of ten takes %.1f us in a tree of %d, %.1f us of %d: ratio %.2f"
          % (times[0] * 1e6, SIZES[0][0], times[1] * 1e6, SIZES[1][0], times[1] / times[0]))


if __name__ == "__main__":
    main()
