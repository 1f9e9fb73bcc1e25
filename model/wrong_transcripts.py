#!/usr/bin/env python3
"""Tries the judge of transcripts (legal.py) on transcripts that are legal, and on such as are not.

    model/wrong_transcripts.py [SEED [COUNT]]

It needs no program. First a story by hand, with each kind of wrong transcript. Then random small stories, of which every play
is tried, in every order of the two sides: what a play writes must be legal, and, with one line changed, lost, doubled or put
elsewhere, no longer, but where another play writes just that. Then plays of long stories. It ends with status 1 where the
judge is wrong.
"""
import random
import sys

from legal import Judge, Wrong
from makers import ThreadedMaker
from plays import Story

# One button, whose name is A, B, C and D at the moments 0 to 3; the page waits for moment 1 before the moments 2 and 3. At
# moment 3 there is a second button, and the focus is on it.
STORY = """
{"insert":2,"into":1,"tag":"button"}
{"insert":3,"into":2,"text":"A"}
{"start":1}
{"text":3,"to":"B"}
{"flush":true}
{"until":1}
{"text":3,"to":"C"}
{"flush":true}
{"text":3,"to":"D"}
{"insert":4,"into":1,"tag":"button"}
{"focus":4}
{"ask":{"q":"name","id":2}}
{"hear":true}
{"await":1}
{"again":{"q":"name","id":2}}
{"notices":true}
{"hear":true}
{"ask":{"q":"role","id":4}}
{"again":{"q":"name","id":2}}
{"await":3}
{"notices":true}
"""
# Moment 1 is heard at the first bell, and moment 2 at the second.
GOOD = """
#1 @0 name "A"
#2 @1 hear
#3 @1 await
#4 @1 name "B"
#5 @1 notices 1
! 1 name 2
#6 @2 hear
#7 @2 stale
#8 @2 name "C"
#9 @3 await
#10 @3 notices 4
! 2 name 2
! 3 focus 4
! 3 children 1
! 3 name 2
end 3
"""
# Each with what of the good one stands there otherwise.
LEGAL = [
    ("the first ask takes moment 1", '#1 @0 name "A"', '#1 @1 name "B"'),
    ("the second bell is not above the first", "#6 @2", "#6 @1"),
    ("an ask takes more than the bell told", '#7 @2 stale\n#8 @2 name "C"', '#7 @3 role button\n#8 @3 name "D"'),
]
WRONG = [
    ("a moment falls", '#7 @2 stale\n#8 @2 name "C"', '#7 @0 stale\n#8 @0 name "A"'),
    ("an ask below a bell", '#7 @2 stale\n#8 @2 name "C"', '#7 @1 stale\n#8 @1 name "B"'),
    ("an await below its moment", "#9 @3 await", "#9 @2 await"),
    ("a bell below a bell", "#6 @2 hear", "#6 @0 hear"),
    ("a first moment above what the page may publish", '#1 @0 name "A"', '#1 @2 name "C"'),
    ("a bell above what the page may publish", "#2 @1 hear", "#2 @2 hear"),
    ("a moment above the last", "#9 @3 await", "#9 @4 await"),
    ("an await above what the page may publish", "#3 @1 await", "#3 @2 await"),
    ("a reply of the moment after", '#4 @1 name "B"', '#4 @1 name "C"'),
    ("a reply of the moment before", '#8 @2 name "C"', '#8 @2 name "B"'),
    ("a stale object of the moment after", "#7 @2 stale", "#7 @2 role button"),
    ("an again that takes", '#8 @2 name "C"', '#8 @3 name "D"'),
    ("an again below the moment taken", '#4 @1 name "B"', '#4 @0 name "A"'),
    ("notices of another moment", "#5 @1 notices 1", "#5 @2 notices 1"),
    ("a notice that is missing", "#10 @3 notices 4\n! 2 name 2", "#10 @3 notices 3"),
    ("a notice that is missing and counted", "! 2 name 2\n", ""),
    ("a notice twice", "#5 @1 notices 1\n! 1 name 2", "#5 @1 notices 2\n! 1 name 2\n! 1 name 2"),
    ("a notice that was told before", "#10 @3 notices 4", "#10 @3 notices 5\n! 1 name 2"),
    ("a notice of another moment", "! 2 name 2", "! 3 name 2"),
    ("a notice of another kind", "! 3 children 1", "! 3 value 1"),
    ("a notice of another object", "! 3 focus 4", "! 3 focus 2"),
    ("notices in another order", "! 3 focus 4\n! 3 children 1", "! 3 children 1\n! 3 focus 4"),
    ("a wrong count of notices", "#10 @3 notices 4", "#10 @3 notices 3"),
    ("a wrong number", "#4 @1", "#5 @1"),
    ("an entry too few", "#6 @2 hear\n", ""),
    ("an entry too many", "end 3", "#11 @3 hear\nend 3"),
    ("an entry twice", "#6 @2 hear", "#6 @2 hear\n#6 @2 hear"),
    ("entries in another order", '#3 @1 await\n#4 @1 name "B"', '#4 @1 name "B"\n#3 @1 await'),
    ("another kind of entry", "#6 @2 hear", "#6 @2 await"),
    ("too small an end", "end 3", "end 2"),
    ("too great an end", "end 3", "end 4"),
    ("no end", "end 3\n", ""),
    ("a line after the end", "end 3\n", "end 3\nend 3\n"),
    ("an empty line after the end", "end 3\n", "end 3\n\n"),
    ("no last line feed", "end 3\n", "end 3"),
    ("a carriage return", "#6 @2 hear", "#6 @2 hear\r"),
    ("two spaces", "#6 @2 hear", "#6  @2 hear"),
    ("a zero in front", "#6 @2 hear", "#6 @02 hear"),
    ("a sign", "#6 @2 hear", "#6 @+2 hear"),
    ("nothing", None, None),
]


def wrong(judge, text):
    """What is not legal of the text, or None."""
    try:
        judge.judge(text)
    except Wrong as found:
        return str(found)
    return None


def expect(title, judge, text, legal):
    found = wrong(judge, text)
    if (found is None) != legal:
        sys.exit("%s: %s\n%s" % (title, found or "taken as legal", text))


def try_by_hand():
    judge, good = Judge(Story(STORY.split("\n"))), GOOD.lstrip("\n")
    expect("the good one", judge, good, True)
    for cases, legal in ((LEGAL, True), (WRONG, False)):
        for title, old, new in cases:
            assert old is None or good.count(old) == 1, title
            expect(title, judge, "" if old is None else good.replace(old, new), legal)


def changed(chance, lines):
    """The lines with one lost, doubled, put elsewhere, or with another number in it."""
    lines, place = list(lines), chance.randrange(len(lines))
    line = lines.pop(place)
    kind = chance.randrange(4)
    if kind == 1:
        lines[place:place] = [line, line]
    elif kind == 2:
        lines.insert(chance.randrange(len(lines) + 1), line)
    elif kind == 3:
        digits = [at for at, char in enumerate(line) if char.isdigit()]
        at = chance.choice(digits or [0])
        lines.insert(place, line[:at] + chance.choice("0123456789") + line[at + 1:])
    return lines


def every_play(story):
    """What is written of every play: by each order in which the two sides can do their lines."""
    texts, met, left = set(), set(), [(0, 0, "")]
    while left:
        page, client, turns = left.pop()
        entries = story.entries(turns)[:client]
        state = (page, client, tuple(moment for _, moment, _ in entries), entries[-1][2] if entries else 0)
        if state in met:
            continue
        met.add(state)
        published, taken = sum("flush" in line for line in story.page[:page]), state[3]
        if page < len(story.page) and story.page[page].get("until", 0) <= taken:
            left.append((page + 1, client, turns + "P"))
        if client < len(story.client) and story.client[client].get("await", 0) <= published:
            left.append((page, client + 1, turns + "C"))
        if page == len(story.page) and client == len(story.client):
            texts.add(story.played(turns) + "end %d\n" % story.flushes)
    return texts


def try_every_play(maker, chance, count):
    """Small stories, of which all that a play can write is known: each such text is legal, and no other one."""
    legal, refused = 0, 0
    for _ in range(count):
        story = maker.accepted_story(10)[1]
        judge, texts = Judge(story), every_play(story)
        for text in sorted(texts)[:20]:
            expect("a play", judge, text, True)
            legal += 1
            for _ in range(20):
                other = "".join(line + "\n" for line in changed(chance, text.split("\n")[:-1]))
                expect("a change of a play", judge, other, other in texts)
                refused += other not in texts
    return legal, refused


def try_long_plays(maker, count):
    for _ in range(count):
        story = maker.accepted_story(60)[1]
        judge = Judge(story)
        for _ in range(5):
            turns = maker.turns(story)
            expect("the play by %s" % turns, judge, story.played(turns) + "end %d\n" % story.flushes, True)
    return 5 * count


def main():
    seed, count = int(sys.argv[1]) if len(sys.argv) > 1 else 1, int(sys.argv[2]) if len(sys.argv) > 2 else 40
    try_by_hand()
    maker = ThreadedMaker(seed)
    legal, refused = try_every_play(maker, random.Random(seed), count)
    long = try_long_plays(maker, count // 4)
    print("transcripts: %d wrong ones by hand refused, %d plays legal, %d changed plays refused" % (len(WRONG), legal + long, refused))


if __name__ == "__main__":
    main()
