#!/usr/bin/env python3
"""Times searches and hit tests over a tree of 20,000 objects, as ratios to python3 doing the same on the parsed dump.

    bench/finds.py PROGRAM

PROGRAM is the proved program (crates/axcore/out/axcore after ./axcore --prove). 2,000 requests of each kind: searches by a role that
one object of a hundred has; searches with a text that one of them has; searches with a text that none has, which look at all; and hit
tests. python3 has the lines of `dump` as lists, and the frames; a search goes over them from its origin on and stops at its limit. It
prints the time of a request over that of python3, which must find the same, without the time of the story without its requests and
without that of parsing. All times are the processor's, the least of some runs.
"""
import itertools
import os
import random
import re
import subprocess
import sys
import time

from timing import run, story

OBJECTS, REQUESTS, RUNS = 20000, 2000, 3
LINE = re.compile(r'([0-9]+) [0-9]+ ([a-z]+) "(.*)"')
SEARCH = '{"ask":{"q":"search","from":%d,"dir":"%s","keys":["%s"]%s,"limit":10}}'
LABEL = '{"insert":%d,"into":%d,"tag":"%s","attrs":{"aria-label":"%s"}}'


def base():
    """Sections of a hundred articles and one heading each, every object with a label and a frame."""
    lines, section = [], 1
    for id in range(2, OBJECTS + 1):
        if id % 100 == 2:
            section = id
        tag = "section" if id == section else "h2" if id % 100 == 50 else "article"
        into = 1 if id == section else section
        lines += [LABEL % (id, into, tag, "Stra\\u00dfe No %d" % id), '{"frame":%d,"rect":[%d,%d,10,10]}' % (id, id % 200 * 10, id // 200 * 10)]
    return lines + ['{"start":1}']


def searches(draw, key, texts):
    """Searches from anywhere to both sides: what is asked, and the same for python3."""
    for _ in range(REQUESTS):
        origin, back = draw.randrange(2, OBJECTS), draw.random() < 0.5
        text = texts(draw) if texts else None
        yield (SEARCH % (origin, "prev" if back else "next", key, ',"text":"%s"' % text if text else ""), (origin, back, key, text))


def hits(draw):
    for _ in range(REQUESTS):
        x, y = draw.randrange(2000), draw.randrange(1000)
        yield '{"ask":{"q":"hit","x":%d,"y":%d}}' % (x, y), (x, y)


class Parsed:
    """The lines of a dump as python3 has them."""

    def __init__(self, text):
        found = [LINE.fullmatch(line) for line in text.split("\n")]
        self.objects = [(int(match.group(1)), match.group(2), match.group(3)) for match in found if match]
        self.places = {id: place for place, (id, _, _) in enumerate(self.objects)}
        self.frames = [(id, id % 200 * 10, id // 200 * 10) if id > 1 else (1, 0, -20) for id, _, _ in self.objects]

    def search(self, origin, back, key, text):
        place = self.places[origin]
        objects = reversed(self.objects[:place]) if back else itertools.islice(self.objects, place + 1, None)
        words = None if text is None else text.casefold()
        found = (id for id, role, name in objects if (key == "any" or role == key) and (words is None or words in name.casefold()))
        found = list(itertools.islice(found, 10))
        return " ".join(map(str, ["found", *found])) if found else "none"

    def hit(self, x, y):
        return next(("hit %d" % id for id, left, top in reversed(self.frames) if left <= x < left + 10 and top <= y < top + 10), "none")


def written(program, lines, command):
    with story(lines) as file, open(file.name, "rb") as source:
        return subprocess.run([program, command], stdin=source, stdout=subprocess.PIPE, check=True).stdout.decode()


def main():
    if len(sys.argv) != 2:
        sys.exit(__doc__)
    program, draw, parsed = os.path.abspath(sys.argv[1]), random.Random(1), None
    with story(base()) as file:
        start = run([program, "replay"], file.name, RUNS).processor
    parsed = Parsed(written(program, base(), "dump"))
    kinds = [("search by a role", list(searches(draw, "heading", None)), parsed.search),
             ("search with a text", list(searches(draw, "any", lambda draw: "STRASSE NO %d" % draw.randrange(2, OBJECTS))), parsed.search),
             ("search for a text of a role", list(searches(draw, "heading", lambda draw: "no %d50" % draw.randrange(200))), parsed.search),
             ("search for no object's text", list(searches(draw, "any", lambda draw: "nobody")), parsed.search),
             ("hit test", list(hits(draw)), parsed.hit)]
    for title, requests, answer in kinds:
        lines = base() + [line for line, _ in requests]
        before = time.process_time()
        replies = [answer(*words) for _, words in requests]
        python = (time.process_time() - before) / REQUESTS
        due = "".join("#%d @0 %s\n" % entry for entry in enumerate(replies, 1)) + "end 0\n"
        if written(program, lines, "replay") != due:
            sys.exit("%s: python3 finds something else" % title)
        with story(lines) as file:
            took = (run([program, "replay"], file.name, RUNS).processor - start) / REQUESTS
        print("%-28s takes %.1f us, python3 %.1f us: ratio %.3f" % (title, took * 1e6, python * 1e6, took / python))


if __name__ == "__main__":
    main()
