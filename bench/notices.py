#!/usr/bin/env python3
"""Times the notices of `axcore replay`: on pages of two sizes, and in live regions that are nested.

    bench/notices.py PROGRAM

PROGRAM is the proved program (crates/axcore/out/axcore after ./axcore --prove). First a page of 1,000 and of 60,000 objects, in
which each flush changes one name: the time of one flush and its notices at both sizes, for each object of the page, and the
ratio. A core that looks at each object of both trees once has a ratio near 1 there; the more a flush leaves out, the smaller
it is, down to a sixtieth. Then 60 elements in one another, the innermost with 1,000 texts, of which each flush changes one:
the time of a flush where all 60 are live regions, over where the outermost alone is one, and over where half of them are.
Each region is told, so these are no ratios near 1; where nothing is quadratic, the first is about twice the second. The time
of the same story without its flushes is taken off; all times are the processor's.
"""
import os
import sys

from timing import run, story

RUNS = 3
DEEP, TEXTS = 60, 1000
WAYS = ("polite", "assertive")


def labelled(count, flushes):
    """A page of labelled items in one region, of which each edit changes one name."""
    yield '{"insert":2,"into":1,"tag":"main"}'
    for id in range(3, count + 1):
        yield '{"insert":%d,"into":2,"tag":"article","attrs":{"aria-label":"Item %d"}}' % (id, id)
    yield '{"start":1}'
    for k in range(flushes):
        yield '{"set":%d,"name":"aria-label","value":"Item %d again"}' % (3 + k * 7919 % (count - 2), k)


def nested(regions, flushes):
    """Elements in one another, the outermost ones live regions, with texts in the innermost."""
    for k in range(DEEP):
        live = WAYS[min(k, regions - 1) % 2]
        yield '{"insert":%d,"into":%d,"tag":"div","attrs":{"aria-live":"%s"}}' % (k + 2, k + 1, live)
    for id in range(DEEP + 2, DEEP + TEXTS + 2):
        yield '{"insert":%d,"into":%d,"text":"Line %d"}' % (id, DEEP + 1, id)
    yield '{"start":1}'
    for k in range(flushes):
        yield '{"text":%d,"to":"Line %d again"}' % (DEEP + 2 + k * 389 % TEXTS, k)


def flushed(lines):
    """The same lines, and a flush after each that follows the start."""
    started = False
    for line in lines:
        yield line
        if started:
            yield '{"flush":true}'
        started = started or "start" in line


def seconds(program, lines, moments):
    """The processor time of a story, whose notices are listed at its end."""
    with story(list(lines) + ['{"await":%d}' % moments, '{"notices":true}']) as file:
        return run([program, "replay"], file.name, RUNS).processor


def flush_time(program, make, size, flushes):
    """The time of one flush and its notices. Without flushes a story has one of its own, at its end."""
    lines = list(make(size, flushes))
    return (seconds(program, flushed(lines), flushes) - seconds(program, lines, 1)) / (flushes - 1)


def main():
    if len(sys.argv) != 2:
        sys.exit(__doc__)
    program = os.path.abspath(sys.argv[1])
    small, large = flush_time(program, labelled, 1000, 1000), flush_time(program, labelled, 60000, 40)
    print("a flush that changes one name of 1,000 objects takes %.0f us, of 60,000 %.0f us: ratio for each object %.2f"
          % (small * 1e6, large * 1e6, large / small / 60))
    one, half, all = [flush_time(program, nested, regions, 200) for regions in (1, DEEP // 2, DEEP)]
    print("a flush that changes one text of %d in %d nested live regions takes %.0f us, in %d %.0f us, in 1 %.0f us: ratios %.2f and %.2f"
          % (TEXTS, DEEP, all * 1e6, DEEP // 2, half * 1e6, one * 1e6, all / one, all / half))


if __name__ == "__main__":
    main()
