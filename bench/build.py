#!/usr/bin/env python3
"""Times how `axcore dump` builds trees: its time per node should not grow with the number of nodes.

    bench/build.py PROGRAM

PROGRAM is the proved program (crates/axcore/out/axcore after ./axcore --prove). It prints the time per node at two sizes, the
least of some runs without the time of an empty story, and their ratio: near 1 is flat. The last line has the cost of 16
attributes on each element over the cost of the bare elements and over python3 reading the same lines by json.loads.
"""
import json
import os
import sys

from timing import python_reading, run, story

START = '{"start":1}'
TAGS = ("article", "p", "li", "section", "ul", "nav")
STATES = ("atomic", "busy", "disabled", "expanded", "hidden", "invalid", "level", "live", "pressed", "readonly", "relevant",
          "required", "roledescription", "selected", "valuenow", "valuetext")


def insert(id, into, attrs):
    line = {"insert": id, "into": into, "tag": TAGS[id % len(TAGS)], **({"attrs": attrs} if attrs else {})}
    return json.dumps(line, separators=(",", ":"))


def wide(count):
    """Elements side by side in the root."""
    return [insert(k, 1, {}) for k in range(2, count + 2)]


def deep(count):
    """Chains of elements, each from the root to the depth limit of 64."""
    return [insert(k, 1 if (k - 2) % 64 == 0 else k - 1, {}) for k in range(2, count + 2)]


def dressed(count):
    """Elements side by side with 16 attributes each."""
    attrs = {"aria-" + state: "false" for state in STATES}
    return [insert(k, 1, attrs) for k in range(2, count + 2)]


def seconds(program, lines):
    """The least time of a dump without that of an empty story; the fewer lines the more runs."""
    runs = 5 if len(lines) > 10000 else 25
    with story(lines + [START]) as file, story([START]) as nothing:
        return run([program, "dump"], file.name, runs).seconds - run([program, "dump"], nothing.name, runs).seconds


def main():
    if len(sys.argv) != 2:
        sys.exit(__doc__)
    program = os.path.abspath(sys.argv[1])
    kinds = [("wide", wide, 1000, 60000), ("64 deep", deep, 1000, 60000), ("16 attributes each", dressed, 1000, 4000)]
    for title, make, few, many in kinds:
        least, most = seconds(program, make(few)) / few, seconds(program, make(many)) / many
        print("%-18s a node among %d takes %.2f us, among %d %.2f us: ratio %.2f"
              % (title, few, least * 1e6, many, most * 1e6, most / least))
    with story(dressed(4000) + [START]) as file:
        mine, python = run([program, "dump"], file.name).seconds, python_reading(file.name).seconds
    bare = seconds(program, wide(4000))
    print("4,000 elements with 16 attributes each: %.1f times as long as bare ones, and %.2f of python3's time (%.0f ms)"
          % (seconds(program, dressed(4000)) / bare, mine / python, mine * 1000))


if __name__ == "__main__":
    main()
