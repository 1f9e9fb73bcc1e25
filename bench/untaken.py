#!/usr/bin/env python3
"""Times flushes that nobody takes, through `axcore replay`: what an append costs as the log of them grows, and how much it holds.

    bench/untaken.py PROGRAM

PROGRAM is the proved program (crates/axcore/out/axcore after ./axcore --prove). The page has 100 labelled items and makes 2,500,
5,000 and 10,000 flushes; the client takes none, or all at its end. No command makes a log by itself, so it is seen beside what
else a flush does: the trees have a fixed size, so what grows with the number of flushes is the log alone.

Three ways: each flush changes the name of one of the items in turn, so that after a hundred flushes the log has an entry for each
object and meets one at each append; each flush adds an item and removes the one before, so that its entries go away again; and
each flush gives the same item another long name, so that the log has one entry. For each, the time of one flush at the three
numbers, and the ratio of the last to the first: near 1 where an append costs what is appended, near 4 where it costs what was
appended before. Then the peak memory at 10,000 flushes over that at 2,500: notices are kept one by one, and so is the story
itself, so it is no ratio of 1 either. Last, what the one take of all and its patch add. All times are the processor's.
"""
import os
import sys

from timing import run, story

RUNS = 3
ITEMS = 100
FLUSHES = (2500, 5000, 10000)


def page():
    yield '{"insert":2,"into":1,"tag":"main"}'
    for id in range(3, ITEMS + 3):
        yield '{"insert":%d,"into":2,"tag":"article","attrs":{"aria-label":"Item %d"}}' % (id, id)
    yield '{"start":1}'


def one_name(flushes):
    """One name in turn."""
    yield from page()
    for k in range(flushes):
        yield '{"set":%d,"name":"aria-label","value":"Item %d again"}' % (3 + k % ITEMS, k)
        yield '{"flush":true}'


def come_and_gone(flushes):
    """An item comes, and the one that came before goes."""
    yield from page()
    for k in range(flushes):
        yield '{"insert":%d,"into":2,"tag":"p"}' % (ITEMS + 3 + k)
        if k:
            yield '{"remove":%d}' % (ITEMS + 2 + k)
        yield '{"flush":true}'


def renamed(flushes):
    """The same name again and again, under a label of 512 characters."""
    yield from page()
    for k in range(flushes):
        yield '{"set":3,"name":"aria-label","value":"%s"}' % (("%d " % k) * 100)[:512]
        yield '{"flush":true}'


def measured(program, lines):
    with story(list(lines)) as file:
        return run([program, "replay"], file.name, RUNS)


def main():
    if len(sys.argv) != 2:
        sys.exit(__doc__)
    program = os.path.abspath(sys.argv[1])
    for title, make in (("one name in turn", one_name), ("an item that comes and goes", come_and_gone), ("one long name", renamed)):
        idle = measured(program, make(1)).processor
        seen = [measured(program, make(count)) for count in FLUSHES]
        each = [(one.processor - idle) / count for one, count in zip(seen, FLUSHES)]
        print("%s: a flush takes %s us of %s flushes that nobody takes: ratio %.2f"
              % (title, ", ".join("%.1f" % (time * 1e6) for time in each), ", ".join(map(str, FLUSHES)), each[-1] / each[0]))
        print("%s: the peak memory of %d flushes over that of %d: ratio %.2f"
              % (title, FLUSHES[-1], FLUSHES[0], seen[-1].memory / seen[0].memory))
        taken = measured(program, list(make(FLUSHES[-1])) + ['{"await":%d}' % FLUSHES[-1]])
        print("%s: all %d taken at once take %.1f ms more" % (title, FLUSHES[-1], (taken.processor - seen[-1].processor) * 1e3))


if __name__ == "__main__":
    main()
