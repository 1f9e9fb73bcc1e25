#!/usr/bin/env python3
"""Runs to which the system refuses memory: each allocation in turn.

    model/memory.py PROGRAM [SEED [COUNT]]

PROGRAM is an axcore program. Of each run the allocations are counted first. Then it is run again and again, and another one of
them is refused each time, once with all after it and once alone: the first ones and the last one, and COUNT others drawn from
SEED, 6 if none are given; with `all` each one. The runs are the hand-over at the lock, ranges of texts, a search page in use, the
generated stories of 1 and 20, a refused story, and ten random stories that have each kind of request, by each command that fits.

Where memory is refused, a run ends with status 5 and writes nothing, or ends as it does with ample memory: with the same text, and
by `run` with one that is legal. While the words of the command line are read it ends with status 1 and writes nothing. How many
allocations the words take is counted with words of the same lengths that are no command. No run may end by a signal, write to
standard error, or have no end. It ends with status 1 if a run ends otherwise. Without a C compiler nothing is tried, as it says.
"""
import os
import random
import sys

from faults import Faults, Hung
from forms import REQUESTS
from legal import Judge, Wrong
from makers import Maker
from plays import Refused, Story, answered_of

DONE, NO_WORDS, REFUSED, NO_MEMORY = 0, 1, 2, 5
TOP = os.path.dirname(os.path.dirname(os.path.abspath(__file__)))
PLAYED = ("dump", "replay", "run")
HANDOVER = """\
{"insert":2,"into":1,"tag":"button"}
{"insert":3,"into":2,"text":"Save"}
{"start":1}
{"text":3,"to":"B"}
{"flush":true}
{"until":1}
{"text":3,"to":"C"}
{"flush":true}
{"await":1}
{"again":{"q":"name","id":2}}
{"await":2}
{"again":{"q":"name","id":2}}
"""
RANGES = """\
{"insert":2,"into":1,"tag":"p"}
{"insert":3,"into":2,"text":"ab"}
{"insert":4,"into":1,"tag":"p"}
{"insert":5,"into":4,"text":"cd"}
{"runs":3,"list":[[0,2,1,0,0,20,10]]}
{"runs":5,"list":[[0,2,2,0,10,20,10]]}
{"start":1}
{"ask":{"q":"text","a":[5,2],"b":[3,0]}}
{"ask":{"q":"bounds","a":[3,0],"b":[5,2]}}
{"ask":{"q":"line","at":[3,1]}}
{"ask":{"q":"compare","a":[3,1],"b":[5,0]}}
"""
BROKEN = HANDOVER + '{"focus":9}\n'
RANDOM_STORIES, FIRST = 10, 8


def source_of(name):
    with open(os.path.join(TOP, "examples", name), "rb") as file:
        return file.read()


def has_all(story):
    """Whether a story asks each kind of request, lists notices, and publishes what it edits."""
    asked = {request["q"] for line in story.client for request in [line.get("ask") or line.get("again")] if request}
    return asked == set(REQUESTS) and story.flushes > 1 and any("notices" in line for line in story.client)


def random_stories(seed):
    maker = Maker(seed)
    while True:
        lines = maker.story()
        try:
            if has_all(Story(lines)):
                yield "".join(line + "\n" for line in lines).encode()
        except Refused:
            continue


def tried(seed):
    """Each run that is tried: its title, its words and its input."""
    named = [("the hand-over", HANDOVER.encode(), PLAYED), ("ranges", RANGES.encode(), PLAYED), ("a search page", source_of("results.story"), PLAYED),
             ("a refused story", BROKEN.encode(), PLAYED)]
    made = random_stories(seed)
    named += [("random story %d" % number, next(made), PLAYED) for number in range(1, RANDOM_STORIES + 1)]
    for title, source, commands in named:
        for command in commands:
            yield "%s of %s" % (command, title), [command], source
    for number in ("1", "20"):
        yield "gen " + number, ["gen", number], b""


class Answers:
    """What a run may write with ample memory, and with which status."""

    def __init__(self, faults, words, program, source):
        self.status, self.text, self.judge = DONE, None, None
        if words[0] == "gen":
            self.text = faults.run([program, *words]).text
            return
        text, self.status = answered_of(source, "replay" if words == ["run"] else words[0])
        if words == ["run"] and not self.status:
            self.judge = Judge(Story(source.decode().split("\n")))
        else:
            self.text = text.encode()

    def has(self, ended):
        if ended.status != self.status or self.judge is None:
            return (ended.status, ended.text) == (self.status, self.text)
        try:
            self.judge.judge(ended.text.decode())
        except (Wrong, UnicodeDecodeError):
            return False
        return True


class Trial:
    """The runs that were tried, and how they ended."""

    def __init__(self, program, faults, seed, count):
        self.program, self.faults, self.random, self.count = program, faults, random.Random(seed), count
        self.allocations = self.failed = 0
        self.met = {"no memory": 0, "as with ample memory": 0, "no words": 0}

    def fail(self, title, why):
        self.failed += 1
        print("%s: %s" % (title, why))

    def counted(self, words, source=b""):
        ended = self.faults.run([self.program, *words], source)
        return ended, ended.counted["allocations"]

    def numbers(self, total):
        """The numbers of the allocations that are refused in turn."""
        if self.count is None or total <= FIRST + 1 + self.count:
            return range(1, total + 1)
        return sorted({*range(1, FIRST + 1), total, *self.random.sample(range(1, total + 1), self.count)})

    def ending(self, ended, answers, number, of_words):
        """How a run ended; None where it may not."""
        if ended.errors:
            return None
        if answers.has(ended):
            return "as with ample memory"
        if not ended.counted["refused"] or ended.text:
            return None
        if number <= of_words:
            return "no words" if ended.status == NO_WORDS else None
        return "no memory" if ended.status == NO_MEMORY else None

    def refuse(self, title, words, source):
        answers = Answers(self.faults, words, self.program, source)
        ended, total = self.counted(words, source)
        if ended.errors or not answers.has(ended):
            return self.fail(title, "with ample memory: " + ended.told())
        _, of_words = self.counted(["x" * len(word) for word in words])
        self.allocations += total
        for number in self.numbers(total):
            for for_good in (0, 1):
                what = "%s, allocation %d of %d refused%s" % (title, number, total, " and all after it" if for_good else "")
                try:
                    ended = self.faults.run([self.program, *words], source, refuse=number, for_good=for_good)
                except Hung as hung:
                    self.fail(what, hung)
                    continue
                ending = self.ending(ended, answers, number, of_words)
                if ending is None:
                    self.fail(what, ended.told())
                else:
                    self.met[ending] += 1


def main():
    if len(sys.argv) < 2:
        sys.exit(__doc__)
    seed, count = int(sys.argv[2]) if len(sys.argv) > 2 else 1, sys.argv[3] if len(sys.argv) > 3 else "6"
    program = os.path.abspath(sys.argv[1])
    faults = Faults.of(program)
    if faults is None:
        print("memory: left out, for want of a C compiler")
        return
    trial = Trial(program, faults, seed, None if count == "all" else int(count))
    stories = 0
    for title, words, source in tried(seed):
        trial.refuse(title, words, source)
        stories += 1
    print("memory: %d runs, of %d commands with %d allocations, as they must be, %d otherwise (%s)" % (
        sum(trial.met.values()), stories, trial.allocations, trial.failed, ", ".join("%s %d" % item for item in trial.met.items())))
    sys.exit(1 if trial.failed or not trial.met["no memory"] else 0)


if __name__ == "__main__":
    main()
