#!/usr/bin/env python3
"""Times the names of `axcore dump`: neither long texts behind references nor nested contents may be said over and over.

    bench/names.py PROGRAM

PROGRAM is the proved program (crates/axcore/out/axcore after ./axcore --prove). First 30,000 elements that each name the same
megabyte of text by eight references, over the same story with another attribute of that length: the ratio of the times (the
least of three runs each), and the peak memory over the story's size. Then the same for a megabyte of white space, of which the
first 512 characters never tell that it is blank: a core that keeps what each target says has a small ratio, one that says it
for each reference reads 240 GB. Then the time per node of elements that have their names from their contents, at two sizes,
without the time of an empty story, and their ratio: near 1 is flat.
"""
import json
import os
import sys

from timing import run, story

START = '{"start":1}'
LONGEST_TEXT = 65536
REFERENCES = " ".join("t%d" % k for k in range(8))


def line(**keys):
    return json.dumps(keys, separators=(",", ":"))


def referring(count, text, attribute):
    """A megabyte of text below eight nested targets, and elements that refer to all eight of them."""
    for k in range(8):
        yield line(insert=k + 2, into=max(k + 1, 1), tag="div", attrs={"id": "t%d" % k})
    for k in range(16):
        yield line(insert=k + 10, into=9, text=(text * LONGEST_TEXT)[:LONGEST_TEXT])
    for k in range(26, count + 26):
        yield line(insert=k, into=1, tag="input", attrs={attribute: REFERENCES})
    yield START


def wide(count):
    """Links side by side, each with a text."""
    for k in range(2, count + 2, 2):
        yield line(insert=k, into=1, tag="a", attrs={"href": "/"})
        yield line(insert=k + 1, into=k, text="Item %d" % k)
    yield START


def nested(count):
    """Chains of 63 links, each with a text and the next link."""
    for k in range(2, count + 2, 2):
        yield line(insert=k, into=1 if (k - 2) % 126 == 0 else k - 2, tag="a", attrs={"href": "/"})
        yield line(insert=k + 1, into=k, text="Item %d" % k)
    yield START


def measure(program, lines, runs):
    with story(list(lines)) as file:
        return run([program, "dump"], file.name, runs), os.path.getsize(file.name)


def print_references(program, title, text, count):
    with_references, size = measure(program, referring(count, text, "aria-labelledby"), 3)
    without, _ = measure(program, referring(count, text, "data-labelledby"), 3)
    print("%d elements, each with 8 references to 1 MB of %s: %.2f times as long as without (%.0f ms, %.0f ms), "
          "memory %.1f times the story (%.1f MB)"
          % (count, title, with_references.seconds / without.seconds, with_references.seconds * 1000,
             without.seconds * 1000, with_references.memory / size, size / 1e6))


def node_time(program, make, count):
    runs = 5 if count > 10000 else 25
    return (measure(program, make(count), runs)[0].seconds - measure(program, [START], runs)[0].seconds) / count


def main():
    if len(sys.argv) != 2:
        sys.exit(__doc__)
    program = os.path.abspath(sys.argv[1])
    print_references(program, "words", "word ", 30000)
    print_references(program, "white space", " ", 30000)
    for title, make in [("wide", wide), ("64 deep", nested)]:
        few, many = node_time(program, make, 1000), node_time(program, make, 60000)
        print("names from contents, %s: a node among 1,000 takes %.2f us, among 60,000 %.2f us: ratio %.2f"
              % (title, few * 1e6, many * 1e6, many / few))


if __name__ == "__main__":
    main()
