"""Stories of the second model: which are refused, and what a command writes of the others.

Written from docs/STORY_FORMAT.md alone, sections 4 to 6.
"""
import os

from documents import Document
from forms import NoForm, NoJson, read_line
from notices import notices
from trees import Tree

LONGEST_STORY, MOST_FLUSHES, MOST_ASKS, MOST_TURNS = 1 << 24, 65536, 16384, 1 << 20
ABOUT_AN_OBJECT = ("role", "name", "description", "value", "states", "level", "live", "frame", "parent", "children")


class Refused(Exception):
    def __init__(self, line, cause):
        super().__init__("refused %d %s\n" % (line, cause))


class Story:
    """The lines of a story, or Refused."""

    def __init__(self, lines):
        self.base, self.page, self.client, self.turns, self.started, self.flushes = [], [], [], None, False, 0
        document, awaits = Document(), []
        for number, line in enumerate(lines, 1):
            said = self.read(number, line)
            if said is not None:
                self.take(number, said, document, awaits)
        if not self.started:
            raise Refused(0, "NoStart")
        changed = [line for line in self.page if "until" not in line]
        if changed and "flush" not in changed[-1]:
            self.page.append({"flush": True})
        self.flushes, self.waits = sum("flush" in line for line in self.page), self.bounds()
        for number, moment in awaits:
            if moment > self.flushes:
                raise Refused(number, "AwaitTooFar")
        if self.is_stuck([moment for _, moment in awaits]):
            raise Refused(0, "Stuck")

    @staticmethod
    def read(number, line):
        """What a line says; None of a blank one."""
        try:
            return read_line(line)
        except NoJson:
            raise Refused(number, "BadJson") from None
        except NoForm:
            raise Refused(number, "BadLine") from None

    def take(self, number, line, document, awaits):
        is_edit = not {"start", "flush", "until", "turns", "ask", "again", "hear", "await", "notices"} & set(line)
        if is_edit:
            cause = document.cause(line)
            if cause:
                raise Refused(number, cause)
            document.apply(line)
            (self.page if self.started else self.base).append(line)
        elif "start" in line:
            if self.started:
                raise Refused(number, "SecondStart")
            self.started = True
        elif not self.started:
            raise Refused(number, "NoStart")
        elif "turns" in line:
            if self.turns is not None or set(line["turns"]) - {"P", "C"} or len(line["turns"]) > MOST_TURNS:
                raise Refused(number, "BadTurns")
            self.turns = line["turns"]
        elif "flush" in line or "until" in line:
            self.flushes += "flush" in line
            if self.flushes > MOST_FLUSHES:
                raise Refused(number, "TooManyFlushes")
            self.page.append(line)
        else:
            if len(self.client) == MOST_ASKS:
                raise Refused(number, "TooManyAsks")
            self.client.append(line)
            if "await" in line:
                awaits.append((number, line["await"]))

    def bounds(self):
        """The waits of the page, but those that an earlier one makes needless: each with how many flushes stand before it."""
        published, greatest, bounds = 0, 0, []
        for line in self.page:
            published += "flush" in line
            if line.get("until", 0) > greatest:
                greatest = line["until"]
                bounds.append((greatest, published))
        return bounds

    def published_at_most(self, taken):
        """How many moments may be published while the client has taken that one."""
        return next((published for moment, published in self.waits if moment > taken), self.flushes)

    def is_stuck(self, awaits):
        taken = 0
        for moment in awaits:
            if moment > self.published_at_most(taken):
                return True
            taken = max(taken, moment)
        return any(line.get("until", 0) > taken for line in self.page)

    def trees(self, moments):
        """The trees of these moments, by their numbers."""
        document, published, trees = Document(), 0, {}
        for edit in self.base:
            document.apply(edit)
        for line in [{"flush": True}] + self.page:
            if "flush" in line:
                trees.update({published: Tree(document)} if published in moments else {})
                published += 1
            elif "until" not in line:
                document.apply(line)
        return trees

    def entries(self, turns=None):
        """The client's lines in their order, each with its moment and the moment taken by then.

        The turns that are played first are those given, or else the story's.
        """
        page, client, published, taken, entries = 0, 0, 0, 0, []
        turns = (self.turns or "") if turns is None else turns
        for side in turns + "PC" * (len(self.page) + len(self.client)):
            if side == "P" and page < len(self.page) and self.page[page].get("until", 0) <= taken:
                published += "flush" in self.page[page]
                page += 1
            elif side == "C" and client < len(self.client) and self.client[client].get("await", 0) <= published:
                line = self.client[client]
                taken = published if "ask" in line or "await" in line else taken
                entries.append((line, published if "hear" in line else taken, taken))
                client += 1
        return entries

    def dumped(self):
        return self.trees([self.flushes])[self.flushes].dumped()

    def played(self, turns=None):
        """What is written of the play by these turns, or else by the story's."""
        entries, told, listed = self.entries(turns), "", 0
        trees = self.trees(self.needed(entries))
        for number, (line, moment, taken) in enumerate(entries, 1):
            first, listed = listed + 1, taken if "notices" in line else listed
            told += entry(number, moment, line, trees, first)
        return told

    def needed(self, entries):
        """The moments whose trees tell the entries."""
        if any("notices" in line for line, _, _ in entries):
            return range(self.flushes + 1)
        return {taken for line, _, taken in entries if "ask" in line or "again" in line}


def entry(number, moment, line, trees, first):
    """What is written for a line of the client, whose notices would be those from the moment `first` on."""
    told = "#%d @%d " % (number, moment)
    request = line.get("ask") or line.get("again")
    if request:
        return told + trees[moment].answer(request) + "\n"
    if "notices" not in line:
        return told + ("hear\n" if "hear" in line else "await\n")
    listed = [(each,) + notice for each in range(first, moment + 1) for notice in notices(trees[each - 1], trees[each])]
    return told + "notices %d\n" % len(listed) + "".join("! %d %s %d\n" % notice for notice in listed)


def told(story, command):
    """What the command writes of an accepted story."""
    return (story.dumped() if command == "dump" else story.played()) + "end %d\n" % story.flushes


def answered(lines, command):
    """What the command writes of these lines, and its status."""
    try:
        story = Story(lines)
    except Refused as refusal:
        return str(refusal), 2
    return told(story, command), 0


def lines_of(source):
    """The lines of an input, or Refused."""
    if len(source) > LONGEST_STORY:
        raise Refused(0, "StoryTooLong")
    try:
        return source.decode().split("\n")
    except UnicodeDecodeError:
        raise Refused(0, "NotUtf8") from None


def answered_of(source, command):
    """What the command writes of these bytes, and its status."""
    try:
        return answered(lines_of(source), command)
    except Refused as refusal:
        return str(refusal), 2
