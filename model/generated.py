#!/usr/bin/env python3
"""Compares `gen N` with the second model of stories, and tries words that are no such command.

    model/generated.py PROGRAM

PROGRAM is an axcore program. For some N the three lines must be those of the story that docs/STORY_FORMAT.md, section 12,
gives for N, as the second model plays it, and the program must write that play of it by `replay`. For a great N, whose trees
are too many for the model, the names and notices are said here. `gen` must not read its input. It ends with status 1 if
anything differs.
"""
import subprocess
import sys

from plays import Story

NUMBERS = (1, 2, 3, 4, 5, 8, 20, 99, 100)
GREAT_NUMBERS = (333, 1000)
NO_WORDS = ([], ["0"], ["01"], ["1001"], ["x"], ["1", "1"], ["+1"], ["-1"], [""], [" 1"], ["1 "], ["1.0"], ["1e0"], ["0x1"],
            ["00"], ["1_0"], ["10000"], ["4294967297"], ["18446744073709551617"], ["\u0663"], ["\uff11"])
BAD_WORDS = 6


def story(count):
    """The lines of the story that is generated for that number."""
    lines = ['{"insert":2,"into":1,"tag":"ul"}']
    for i in range(1, count + 1):
        lines += ['{"insert":%d,"into":2,"tag":"li"}' % (3 * i),
                  '{"insert":%d,"into":%d,"tag":"button"}' % (3 * i + 1, 3 * i),
                  '{"insert":%d,"into":%d,"text":"Item %d"}' % (3 * i + 2, 3 * i + 1, i)]
    lines += ['{"start":1}']
    for i in range(1, count + 1):
        lines += ['{"set":%d,"name":"aria-label","value":"Item %d of %d"}' % (3 * i + 1, i, count)]
        lines += ['{"flush":true}'] if i % 4 == 0 else []
        lines += ['{"ask":{"q":"name","id":%d}}' % (3 * i + 1)]
    return lines + ['{"await":%d}' % ((count + 3) // 4), '{"notices":true}']


def told_at_length(count):
    """The play of the story of that number: an item has its new name from the flush on that follows it."""
    text = ""
    for number, (line, moment, _) in enumerate(Story(story(count)).entries(), 1):
        name = "Item %d of %d" % (number, count) if number <= 4 * moment else "Item %d" % number
        text += "#%d @%d " % (number, moment)
        text += 'name "%s"\n' % name if "ask" in line else "await\n" if "await" in line else "notices %d\n" % count
    text += "".join("! %d name %d\n" % ((i + 3) // 4, 3 * i + 1) for i in range(1, count + 1))
    return text + "end %d\n" % ((count + 3) // 4)


def summary(count, transcript):
    moments = (count + 3) // 4
    return b"replies %d\nmoments %d\nbytes %d\n" % (count + 2, moments, len(transcript))


def told(program, words, source=None):
    """What the program writes, and its status; without a source, its input is closed."""
    given = {"stdin": subprocess.DEVNULL} if source is None else {"input": source}
    done = subprocess.run([program, *words], stdout=subprocess.PIPE, stderr=subprocess.DEVNULL, **given)
    return done.stdout, done.returncode


def expect(title, found, due):
    if found != due:
        sys.exit("%s: %r, and must be %r" % (title, found, due))


def main():
    if len(sys.argv) != 2:
        sys.exit(__doc__)
    program = sys.argv[1]
    for count in NUMBERS + GREAT_NUMBERS:
        played = Story(story(count))
        text = told_at_length(count)
        if count in NUMBERS:
            expect("the model of %d" % count, played.played() + "end %d\n" % played.flushes, text)
        source = "".join(line + "\n" for line in story(count)).encode()
        expect("replay of the generated story of %d" % count, told(program, ["replay"], source), (text.encode(), 0))
        for given in (None, b"\xff"):
            expect("gen %d" % count, told(program, ["gen", str(count)], given), (summary(count, text.encode()), 0))
    for words in NO_WORDS:
        expect("gen %s" % " ".join(words), told(program, ["gen", *words], b""), (b"", BAD_WORDS))
    print("generated stories: %d numbers and %d bad words as they must be" % (len(NUMBERS) + len(GREAT_NUMBERS), len(NO_WORDS)))


if __name__ == "__main__":
    main()
