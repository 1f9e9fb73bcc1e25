#!/usr/bin/env python3
"""Times `axcore dump` on large stories, as ratios to python3 reading the same lines by json.loads.

    bench/dump.py PROGRAM

PROGRAM is the proved program (crates/axcore/out/axcore after ./axcore --prove). For each story it prints the wall time
of axcore over that of python3 (the least of five runs each), the peak memory of axcore over the story's size, and both times.
"""
import json
import os
import sys

from timing import python_reading, run, story


def insert(id, into, tag, label):
    return json.dumps({"insert": id, "into": into, "tag": tag, "attrs": {"aria-label": label}}, separators=(",", ":"))


def wide(count):
    """Elements side by side in the root."""
    return [insert(k, 1, "article", "Item %d" % k) for k in range(2, count + 2)]


def deep(count):
    """Chains of elements, each from the root to the depth limit of 64."""
    return [insert(k, 1 if (k - 2) % 64 == 0 else k - 1, "article", "Item %d" % k) for k in range(2, count + 2)]


def long_labels(size):
    """Buttons with labels of 4,000 bytes, up to a story of that many bytes."""
    lines, total, k = [], len('{"start":1}\n'), 2
    while True:
        line = insert(k, 1, "button", ("word %d " % k * 600)[:4000])
        if total + len(line) + 1 > size:
            return lines
        lines.append(line)
        total += len(line) + 1
        k += 1


def main():
    if len(sys.argv) != 2:
        sys.exit(__doc__)
    program = os.path.abspath(sys.argv[1])
    stories = [
        ("60,000 labelled elements, wide", wide(60000)),
        ("60,000 labelled elements, 64 deep", deep(60000)),
        ("16 MiB of long labels", long_labels(1 << 24)),
    ]
    for title, lines in stories:
        with story(lines + ['{"start":1}']) as file:
            size = os.path.getsize(file.name)
            mine, python = run([program, "dump"], file.name), python_reading(file.name)
            print("%-36s time %.2f of python3's (%.0f ms, %.0f ms), memory %.1f times the story (%.1f MB)"
                  % (title, mine.seconds / python.seconds, mine.seconds * 1000, python.seconds * 1000,
                     mine.memory / size, size / 1e6))


if __name__ == "__main__":
    main()
