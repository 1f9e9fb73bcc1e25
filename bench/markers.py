#!/usr/bin/env python3
"""Times text markers: in one text of 65,536 characters, and among few and many short texts.

    bench/markers.py PROGRAM

PROGRAM is the proved program (crates/axcore/out/axcore after ./axcore --prove). First 2,000 requests of each kind in one text of
65,536 characters, whose words have five letters: what one takes. Then 2,000 requests of each kind in a document of 1,000 and of
20,000 texts of 20 characters, each in a paragraph, with one run and a line of its own: what one takes at both sizes, and the ratio.
Near 1 is what a request may take that reads its own text and its neighbours; near 20 says that it goes over all texts. The time of the
same story without its requests is taken off. All times are the processor's, the least of some runs.
"""
import os
import sys

from timing import run, story

REQUESTS, RUNS, LONGEST = 2000, 5, 65536
SIZES = (1000, 20000)
LENGTH = 20
START = '{"start":1}'


def one_text():
    return ['{"insert":2,"into":1,"text":"%s"}' % ("abcde " * LONGEST)[:LONGEST], START]


def short_texts(count):
    """Paragraphs from the id 3 on, each with a text of the id before it."""
    lines = []
    for id in range(3, 3 + 2 * count, 2):
        lines += ['{"insert":%d,"into":1,"tag":"p"}' % id, '{"insert":%d,"into":%d,"text":"twenty chars of text"}' % (id - 1, id),
                  '{"runs":%d,"list":[[0,%d,%d,0,%d,100,10]]}' % (id - 1, LENGTH, id, 10 * id)]
    return lines + [START]


def asks(request, spots):
    """Requests of one kind at these spots, the second marker of which is the spot after."""
    for place, spot in enumerate(spots):
        if request in ("compare", "text", "bounds"):
            yield '{"ask":{"q":"%s","a":[%d,%d],"b":[%d,%d]}}' % (request, *spot, *spots[(place + 1) % len(spots)])
        else:
            yield '{"ask":{"q":"%s","at":[%d,%d]}}' % (request, *spot)


def spots_in_one_text():
    return [(2, k * 7919 % LONGEST) for k in range(REQUESTS)]


def spots_among(count, offset):
    return [(2 + 2 * (k * 7919 % count), offset) for k in range(REQUESTS)]


def spots_beside(count):
    """Spots of which each is in the text after that of the one before."""
    return [(2 + 2 * ((count // 3 + k) % count), 5) for k in range(min(REQUESTS, count - count // 3))]


def processor(program, lines):
    with story(lines) as file:
        return run([program, "replay"], file.name, RUNS).processor


def per_request(program, base, asked):
    asked = list(asked)
    return (processor(program, base + asked) - processor(program, base)) / len(asked)


def main():
    if len(sys.argv) != 2:
        sys.exit(__doc__)
    program = os.path.abspath(sys.argv[1])
    for request in ("next_char", "prev_char", "next_word", "compare"):
        took = per_request(program, one_text(), asks(request, spots_in_one_text()))
        print("%-10s in one text of 65,536 characters takes %.1f us" % (request, took * 1e6))
    kinds = [("next_char", "within a text", lambda count: spots_among(count, 5)), ("next_char", "to the next text", lambda count: spots_among(count, LENGTH)),
             ("prev_char", "within a text", lambda count: spots_among(count, 5)), ("prev_char", "to the text before", lambda count: spots_among(count, 0)),
             ("next_word", "to the next text", lambda count: spots_among(count, 17)), ("line", "of one text", lambda count: spots_among(count, 5)),
             ("compare", "of any two texts", lambda count: spots_among(count, 5)), ("text", "of two neighbours", spots_beside),
             ("bounds", "of two neighbours", spots_beside)]
    for request, title, spots in kinds:
        small, large = [per_request(program, short_texts(count), asks(request, spots(count))) for count in SIZES]
        print("%-10s %-18s takes %.2f us among %d, %.2f us among %d: ratio %.2f"
              % (request, title, small * 1e6, SIZES[0], large * 1e6, SIZES[1], large / small))


if __name__ == "__main__":
    main()
