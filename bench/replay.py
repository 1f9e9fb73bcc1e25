#!/usr/bin/env python3
"""Times `axcore replay`: edits of one item each, each followed by a flush and a request, in lists of two sizes.

    bench/replay.py PROGRAM [EDITS]

PROGRAM is the proved program (crates/axcore/out/axcore after ./axcore --prove). A list of 1,000 and of 20,000 items, each an `li`
with a `button` with a text, gets so many edits, 10,000 if none are given: an attribute is set, a text changes, an item hides or
shows, comes, goes or is moved. For both sizes it prints the time of the whole replay over that of python3 reading the same lines by
json.loads. Then it prints what one edit costs with its flush and request, without the time of the same story with one edit, at both
sizes, for all kinds mixed and for each alone, and the ratio of the two: a core that looks only at what an edit can reach has a ratio
near 1, one that builds the tree afresh at each flush one near 20. At last, what one more request costs among 1,000 and among 16,000
requests: a ratio near 1 says that no request copies what was answered before, or a tree. All times are the processor's, the least of
some runs.
"""
import os
import sys

from timing import python_reading, run, story

EDITS, SIZES = 10000, (1000, 20000)
LIST, FIRST, NEW = 2, 3, 1000000
KINDS = ("attribute", "text", "hide and show", "insert", "remove", "move")
FLUSH = '{"flush":true}'


def items(count):
    """A list of items; an item has three ids, the first of which divides by three."""
    yield '{"insert":%d,"into":1,"tag":"ul"}' % LIST
    for id in range(FIRST, FIRST + 3 * count, 3):
        yield '{"insert":%d,"into":%d,"tag":"li"}' % (id, LIST)
        yield '{"insert":%d,"into":%d,"tag":"button"}' % (id + 1, id)
        yield '{"insert":%d,"into":%d,"text":"Item %d"}' % (id + 2, id + 1, id // 3)


def edit(kind, number, item, other):
    """An edit of one item, and what is asked after it."""
    button = '{"ask":{"q":"name","id":%d}}' % (item + 1)
    if kind == "attribute":
        return '{"set":%d,"name":"aria-label","value":"Item %d again"}' % (item + 1, number), button
    if kind == "text":
        return '{"text":%d,"to":"Item %d again"}' % (item + 2, number), button
    if kind == "move":
        return '{"move":%d,"into":%d,"before":%d}' % (item, LIST, other), button
    if kind == "insert":
        return '{"insert":%d,"into":%d,"before":%d,"tag":"li"}' % (NEW + number, LIST, item), '{"ask":{"q":"parent","id":%d}}' % (NEW + number)
    return None, button


def hiding(item, hidden):
    if item in hidden:
        hidden.remove(item)
        return '{"unset":%d,"name":"hidden"}' % item
    hidden.add(item)
    return '{"set":%d,"name":"hidden","value":""}' % item


def edited(count, kinds, edits):
    """A list, and edits of these kinds by turns, each with a flush and a request. What an insert brought is what is removed."""
    base, lines, hidden, brought = list(items(count)), [], set(), []
    if kinds == ("remove",):
        brought = [NEW + number for number in range(edits)]
        base += ['{"insert":%d,"into":%d,"tag":"li"}' % (id, LIST) for id in brought]
    for number in range(edits):
        kind = kinds[number % len(kinds)]
        item, other = [FIRST + 3 * (number * step % count) for step in (7919, 7907)]
        change, ask = edit(kind, number, item, FIRST if other == item else other)
        if kind == "insert":
            brought.append(NEW + number)
        if kind == "move" and item == FIRST:
            change = '{"move":%d,"into":%d}' % (item, LIST)
        if kind == "hide and show":
            # Each item that hides shows again with the next edit of this kind.
            change = hiding(hidden and next(iter(hidden)) or item, hidden)
        if kind == "remove":
            change = '{"remove":%d}' % brought.pop()
        lines += [change, FLUSH, ask]
    return base + ['{"start":1}'] + lines


def asked(requests):
    """A thousand items, and requests."""
    return [*items(1000), '{"start":1}', *('{"ask":{"q":"name","id":%d}}' % (FIRST + 1 + 3 * (k % 1000)) for k in range(requests))]


def processor(program, lines, runs):
    with story(lines) as file:
        return run([program, "replay"], file.name, runs).processor


def per_edit(program, count, kinds, edits, runs):
    """What an edit costs, and the whole time."""
    whole = processor(program, edited(count, kinds, edits), runs)
    return (whole - processor(program, edited(count, kinds, 1), runs)) / (edits - 1), whole


def request_time(program, requests):
    return (processor(program, asked(requests), 5) - processor(program, asked(0), 5)) / requests


def main():
    if len(sys.argv) < 2:
        sys.exit(__doc__)
    program, edits = os.path.abspath(sys.argv[1]), int(sys.argv[2]) if len(sys.argv) > 2 else EDITS
    costs = []
    for count in SIZES:
        cost, whole = per_edit(program, count, KINDS, edits, 3)
        with story(edited(count, KINDS, edits)) as file:
            python = python_reading(file.name).processor
        print("%d items, %d edits: replay %.0f ms, json.loads %.0f ms: ratio %.2f" % (count, edits, whole * 1e3, python * 1e3, whole / python))
        costs.append(cost)
    print("an edit takes %.1f us among %d, %.1f us among %d: ratio %.2f" % (costs[0] * 1e6, SIZES[0], costs[1] * 1e6, SIZES[1], costs[1] / costs[0]))
    for kind in KINDS:
        small, large = [per_edit(program, count, (kind,), max(edits // 5, 2), 3)[0] for count in SIZES]
        print("  %-14s %.1f us, %.1f us: ratio %.2f" % (kind, small * 1e6, large * 1e6, large / small))
    few, many = request_time(program, 1000), request_time(program, 16000)
    print("a request among 1,000 %.2f us, among 16,000 %.2f us: ratio %.2f" % (few * 1e6, many * 1e6, many / few))


if __name__ == "__main__":
    main()
