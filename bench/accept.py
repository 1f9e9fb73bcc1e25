#!/usr/bin/env python3
"""Times the acceptance of stories: its time per line should not grow with the number of lines or of waits.

    bench/accept.py PROGRAM

PROGRAM is the proved program (crates/axcore/out/axcore after ./axcore --prove). Each story is refused at its end, so that
nothing but acceptance is timed. It prints the time per line at three sizes, and the ratio of the last to the first; near 1
is flat.
"""
import os
import sys

from timing import run, story

REFUSED = 2
RUNS = 9


def edits(count):
    """Edits, and a last line that is no line form."""
    yield '{"start":1}'
    for k in range(count):
        yield '{"focus":%d}' % (k % 2)
    yield "{}"


def waits(count):
    """Waits of both sides, the page's met one after another by the client's, and one wait that nothing meets."""
    yield '{"start":1}'
    for k in range(1, count + 1):
        yield '{"flush":true}'
        yield '{"until":%d}' % k
        yield '{"await":%d}' % k
    yield '{"until":%d}' % (count + 1)


def per_line(program, lines, command="replay"):
    lines = list(lines)
    with story(lines) as file, story(["{}"]) as nothing:
        took = run([program, command], file.name, RUNS, REFUSED).seconds
        start = run([program, command], nothing.name, RUNS, REFUSED).seconds
        return (took - start) / len(lines)


def main():
    if len(sys.argv) != 2:
        sys.exit(__doc__)
    program = os.path.abspath(sys.argv[1])
    for title, make, counts in [("edits", edits, (1000, 20000, 500000)), ("waits", waits, (1000, 4000, 16000))]:
        times = [per_line(program, make(count)) for count in counts]
        told = ", ".join("%.3f us at %d" % (took * 1e6, count) for took, count in zip(times, counts))
        print("%s: a line takes %s: ratio %.2f" % (title, told, times[-1] / times[0]))


if __name__ == "__main__":
    main()
