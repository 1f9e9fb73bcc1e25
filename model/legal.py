#!/usr/bin/env python3
"""Judges a transcript of `run`: whether it is one that the story allows.

    model/legal.py STORY TRANSCRIPT

Both are files. It ends with status 1 and names the first line that is not legal. Written from docs/STORY_FORMAT.md alone,
section 11, over the second model of stories beside this file.
"""
import re
import sys

from plays import Refused, Story, entry

HEAD = re.compile("#([1-9][0-9]*) @(0|[1-9][0-9]*) ")


class Wrong(Exception):
    """A line of a transcript that is not legal, counted from 1, and why."""

    def __init__(self, line, why):
        super().__init__("line %d: %s" % (line, why))


class Judge:
    """What is legal for one accepted story."""

    def __init__(self, story):
        self.story, self.trees, self.told = story, story.trees(range(story.flushes + 1)), {}

    def judge(self, text):
        """Nothing where the text is a legal transcript, and else Wrong."""
        lines, line = text.split("\n"), 1
        taken, bell, listed = 0, 0, 0
        for number, asked in enumerate(self.story.client, 1):
            moment = self.moment(lines, line, number)
            self.judge_moment(line, asked, moment, taken, bell)
            due = self.entry(number, moment, asked, listed + 1)
            for place, each in enumerate(due, line):
                self.judge_text(lines, place, each)
            line += len(due)
            taken = moment if "ask" in asked or "await" in asked else taken
            bell = moment if "hear" in asked else bell
            listed = moment if "notices" in asked else listed
        self.judge_text(lines, line, "end %d" % self.story.flushes)
        if lines[line:] != [""]:
            raise Wrong(line + 1, "the transcript goes on, or its last line has no line feed")

    def moment(self, lines, line, number):
        """The moment that the line has, which must be the head of the entry of that number."""
        head = HEAD.match(lines[line - 1]) if line <= len(lines) else None
        if head is None or int(head.group(1)) != number:
            raise Wrong(line, "it is not entry %d" % number)
        return int(head.group(2))

    def judge_moment(self, line, asked, moment, taken, bell):
        least = most = taken
        if "again" not in asked and "notices" not in asked:
            least = max(taken, bell, asked.get("await", 0))
            most = self.story.published_at_most(taken)
        if not least <= moment <= most:
            raise Wrong(line, "the moment is %d, and must be from %d to %d" % (moment, least, most))

    def entry(self, number, moment, asked, first):
        """The lines of an entry at that moment, with the notices from the moment `first` on."""
        key = (number, moment, first if "notices" in asked else 0)
        if key not in self.told:
            self.told[key] = entry(number, moment, asked, self.trees, first).split("\n")[:-1]
        return self.told[key]

    def judge_text(self, lines, line, due):
        found = lines[line - 1] if line <= len(lines) else None
        if found != due:
            raise Wrong(line, "%s, and must be %r" % ("it is missing" if found is None else "it is %r" % found, due))


def main():
    if len(sys.argv) != 3:
        sys.exit(__doc__)
    with open(sys.argv[1], newline="\n") as story, open(sys.argv[2], newline="\n") as transcript:
        lines, text = story.read().split("\n"), transcript.read()
    try:
        Judge(Story(lines)).judge(text)
    except Refused as refusal:
        sys.exit(None if text == str(refusal) else "not legal: the story is %s" % str(refusal).strip())
    except Wrong as wrong:
        sys.exit("not legal: %s" % wrong)
    print("legal")


if __name__ == "__main__":
    main()
