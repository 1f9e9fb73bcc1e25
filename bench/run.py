#!/usr/bin/env python3
"""Times `axcore run`, on two threads, over `axcore replay`, on one, of the same story.

    bench/run.py PROGRAM

PROGRAM is the proved program (crates/axcore/out/axcore after ./axcore --prove). In a document of 100 items there are 10,000
edits, each followed by a flush and an ask. In the first story no side waits for the other. In the second each side waits at
each moment: the client awaits it before it asks, and the page goes on once the client has taken it. Each story is run some
times by both commands in turn. It prints the ratio of the elapsed times and that of the processor times: the median of the
rounds, with the least and the greatest. In the first story a ratio of the elapsed times near 1 or below says that the lock
and the second thread cost no more than they gain; it wants a machine with two processors free. A ratio of the processor
times much above 1 says that a side that waits keeps a processor busy.
"""
import os
import statistics
import sys

from timing import run, story

ITEMS, EDITS, ROUNDS = 100, 10000, 5


def items():
    """Labelled items in one region."""
    yield '{"insert":2,"into":1,"tag":"main"}'
    for id in range(3, ITEMS + 3):
        yield '{"insert":%d,"into":2,"tag":"article","attrs":{"aria-label":"Item %d"}}' % (id, id)
    yield '{"start":1}'


def edited(waiting):
    """The items, and edits that are each flushed and asked for, where each side waits for the other if that is asked for."""
    yield from items()
    for k in range(1, EDITS + 1):
        id = 3 + k * 7919 % ITEMS
        yield '{"set":%d,"name":"aria-label","value":"Item %d of %d"}' % (id, k, EDITS)
        yield '{"flush":true}'
        if waiting:
            yield '{"await":%d}' % k
            yield '{"until":%d}' % k
            # A client has at most 16,384 lines.
            if k % 2:
                continue
        yield '{"ask":{"q":"name","id":%d}}' % id


def ratios(program, path):
    """The ratios of the elapsed times and of the processor times, one of each round, and the time of a run."""
    elapsed, processor, seconds = [], [], []
    for _ in range(ROUNDS):
        two, one = run([program, "run"], path, 1), run([program, "replay"], path, 1)
        elapsed.append(two.seconds / one.seconds)
        processor.append(two.processor / one.processor)
        seconds.append(two.seconds)
    return elapsed, processor, min(seconds)


def shown(numbers):
    return "%.2f (%.2f to %.2f)" % (statistics.median(numbers), min(numbers), max(numbers))


def main():
    if len(sys.argv) != 2:
        sys.exit(__doc__)
    program = os.path.abspath(sys.argv[1])
    for title, waiting in [("no side waits", False), ("each side waits at each moment", True)]:
        with story(list(edited(waiting))) as file:
            elapsed, processor, seconds = ratios(program, file.name)
        print("run over replay, %d edits, %s: elapsed %s, processor %s, %.0f us a moment by run"
              % (EDITS, title, shown(elapsed), shown(processor), seconds / EDITS * 1e6))


if __name__ == "__main__":
    main()
