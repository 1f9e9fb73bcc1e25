#!/usr/bin/env python3
"""Runs random stories on two threads whose waits are drawn from seeds, and judges what is written (legal.py).

    model/waits.py PROGRAM [SEED [STORIES [SEEDS]]]

PROGRAM is an axcore program. By the library of faults.py each of its threads now and then lets others go first, goes round for a
while, sleeps, or holds until the other thread has gone on; where, and for how long, is drawn from a seed, some dozens of times in a
run. The stories are random and accepted, of 10 to 400 lines, and every eighth has some hundred moments: 20 of them, if no number
is given, each by 2 seeds. With each seed a story is run on all processors and on one alone. Each transcript must be one that the
story allows, and each run must end in five minutes. Before that the story is run where no second thread can be had, which must give
alternate turns, the page first and without the turn list. At the first run that ends otherwise the story and the transcript are
printed, and it ends with status 1. Without a C compiler nothing is tried, as it says.
"""
import os
import sys
import time

from faults import Faults, Hung
from legal import Judge, Wrong
from makers import ThreadedMaker
from plays import Story
from schedules import LENGTHS, fail

COUNTED, LONGEST_RUN, WAITS = 300, 300, 40


class Runs:
    """The runs of a program, all of which must be as they may."""

    def __init__(self, program, faults):
        self.words, self.faults = [program, "run"], faults
        self.count = self.waits = self.calls = 0
        self.slowest = 0.0

    def text(self, lines, **given):
        """What a run writes; it must be done."""
        began = time.monotonic()
        try:
            ended = self.faults.run(self.words, "".join(line + "\n" for line in lines).encode(), **given)
        except Hung as hung:
            fail(lines, "", "%r: %s" % (given, hung))
        if ended.status or ended.errors:
            fail(lines, ended.text.decode(errors="replace"), "%r: %s" % (given, ended.told()))
        self.slowest = max(self.slowest, time.monotonic() - began)
        self.count, self.waits, self.calls = self.count + 1, self.waits + ended.counted["waits"], ended.counted["allocations"]
        return ended.text.decode()

    def legal(self, lines, judge, seed):
        """The transcript of a run with the waits of that seed, which must be legal. They are spread over as many calls as the last run had."""
        text = self.text(lines, seed=seed, every=1 + self.calls // WAITS)
        try:
            judge.judge(text)
        except Wrong as wrong:
            fail(lines, text, "with waits of the seed %d not legal: %s" % (seed, wrong))
        return text

    def alone(self, lines, story):
        """The story where no second thread can be had."""
        text = self.text(lines, no_thread=1)
        if text != story.played("") + "end %d\n" % story.flushes:
            fail(lines, text, "without a second thread it is not the play by alternate turns")


def next_story(maker, number):
    """The lines of a story, and the story."""
    if number % 8:
        return maker.accepted_story(LENGTHS[number % len(LENGTHS)])
    lines = maker.counting_story(COUNTED)
    return lines, Story(lines)


def main():
    if len(sys.argv) < 2:
        sys.exit(__doc__)
    seed, stories, seeds = [int(word) for word in sys.argv[2:5] + ["1", "20", "2"][len(sys.argv[2:5]):]]
    program, maker, everywhere = os.path.abspath(sys.argv[1]), ThreadedMaker(seed), os.sched_getaffinity(0)
    faults = Faults.of(program, LONGEST_RUN)
    if faults is None:
        print("waits: left out, for want of a C compiler")
        return
    runs, different, several = Runs(program, faults), 0, 0
    for number in range(stories):
        lines, story = next_story(maker, number)
        judge, texts = Judge(story), set()
        runs.alone(lines, story)
        for processors in everywhere, {min(everywhere)}:
            os.sched_setaffinity(0, processors)
            texts |= {runs.legal(lines, judge, seed * 1000003 + number * seeds + each) for each in range(1, seeds + 1)}
        os.sched_setaffinity(0, everywhere)
        different, several = different + len(texts), several + (len(texts) > 1)
    print("waits: %d runs of %d stories by %d seeds, on %d processors, on one, and without a second thread, with %d waits drawn, as they must be;"
          " %d different transcripts, several of %d stories; the slowest run took %.1f s" % (
              runs.count, stories, seeds, len(everywhere), runs.waits, different, several, runs.slowest))


if __name__ == "__main__":
    main()
