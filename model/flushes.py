#!/usr/bin/env python3
"""Compares what `replay` keeps from flush to flush with the second model, which builds each tree afresh.

    model/flushes.py PROGRAM [SEED [FLUSHES]]

PROGRAM is an axcore program. Each story is a page of lists with 200 to 1,000 items in sections, and some hundred flushes:
ids and `for` values wander between elements, references and labels change their targets, sections hide and show, begin and
end to be ignored or to prune, texts turn blank, subtrees are moved, also out and back within one flush. Flushes have no edit,
a few or many. At most moments the client asks about what differs from the moment that it had before, about what is gone, and
about some other objects; in every third story it takes one moment in forty, so that some forty batches are merged before one is
patched in, and what is asked compares that with trees built afresh at each flush. Each flush's notices are listed. It ends with status 1 at the first story that is answered
otherwise, names the first line that differs, and leaves the story in a file.
"""
import json
import subprocess
import sys
import tempfile

from documents import Document
from makers import Words
from notices import notices
from plays import ABOUT_AN_OBJECT
from trees import Tree, quoted

WORDS = [letter + digit for letter in "abcdefghij" for digit in "1234"]
SAID = ("Save", "Load", "two words", " x", "Item", "", " ", "\n", "ab", "a longer text of some words")
SECTION_TAGS = ("div", "div", "section", "main", "ul", "span")
TURNS_OF_A_SECTION = {
    "hidden": ("",), "aria-hidden": ("true", "false"), "display": ("none", "block", "inline"), "tabindex": ("0", "x"),
    "role": ("none", "presentation", "generic", "button", "img", "tab", "list", "group", "heading", "strong", "status", "log"),
    "title": ("Title", " "), "aria-label": ("Label", ""), "aria-live": ("polite", "off", "assertive"),
}
TURNS_OF_AN_ITEM = {
    **TURNS_OF_A_SECTION, "href": ("/",), "value": ("v", "", "w"), "alt": ("alt", ""),
    "type": ("checkbox", "submit", "hidden", "range", "text"),
    "aria-checked": ("true", "mixed", "false"), "aria-expanded": ("true", "false"), "aria-selected": ("true", "false"),
    "aria-pressed": ("true", "mixed"), "aria-level": ("2", "3"), "checked": ("",), "disabled": ("",), "required": ("",),
    "aria-busy": ("true",), "aria-valuetext": ("half", ""), "aria-valuenow": ("5",),
}
ITEMS = ("li", "li", "a", "button", "input", "label", "img", "p", "h2", "span", "div", "tr", "td")
PROPERTIES = [word for word in ABOUT_AN_OBJECT if word != "children"]
MOST_CLIENT_LINES = 15000
FLUSHES_OF_A_STORY = 250
SHARE_OF_A_CLIENT, SHARE_OF_A_SLOW_CLIENT = 0.75, 0.025


class Page(Words):
    """A page of lists, and random edits of it, all of which are accepted."""

    def __init__(self, seed):
        super().__init__(seed)
        self.document, self.lines, self.next_id, self.sections = Document(), [], 2, []
        for _ in range(self.random.randrange(3, 9)):
            self.sections.append(self.insert(self.one_of(1, 1, 1, *self.sections), tag=self.one_of(*SECTION_TAGS)))
        self.wanted = int(200 * 5 ** self.random.random())
        while self.items() < self.wanted:
            self.new_item()

    def items(self):
        return sum(len(self.document.nodes[id].children) for id in self.there(self.sections))

    def there(self, ids):
        return [id for id in ids if id in self.document.nodes]

    def do(self, **edit):
        """Does an edit, where nothing refuses it."""
        if self.document.cause(edit) is None:
            self.document.apply(edit)
            self.lines.append(json.dumps(edit))

    def insert(self, into, **node):
        id, self.next_id = self.next_id, self.next_id + 1
        children = self.document.nodes[into].children
        before = {"before": self.one_of(*children)} if children and self.chance(0.3) else {}
        self.do(insert=id, into=into, **before, **node)
        return id

    # Picks.

    def node(self, is_it):
        """A node that is it, or the root where there is none."""
        ids = list(self.document.nodes)
        for _ in range(30):
            id = self.random.choice(ids)
            if is_it(self.document.nodes[id]):
                return id
        fit = [id for id in ids if is_it(self.document.nodes[id])]
        return self.random.choice(fit) if fit else 1

    def element(self):
        return self.node(lambda node: not node.is_text())

    def section(self):
        return self.one_of(*self.there(self.sections), 1)

    def bearer(self, name):
        """An element that has the attribute."""
        return self.node(lambda node: name in node.attrs)

    def near(self):
        """A node at or below an element that has an id, is a label or refers to others."""
        id = self.bearer(self.one_of("id", "id", "for", "aria-labelledby"))
        return self.one_of(*self.document.subtree(id)) if id != 1 else self.element()

    def element_near(self):
        id = self.near()
        return self.document.nodes[id].parent if self.document.nodes[id].is_text() else id

    def references(self):
        return " ".join(self.one_of(*WORDS) for _ in self.some(1, 1, 1, 2, 3, 9))

    # Edits.

    def new_item(self):
        """An item, mostly with a text in it, and at times with more."""
        tag = self.one_of(*ITEMS)
        attrs = {name: self.one_of(*TURNS_OF_AN_ITEM[name]) for name in self.random.sample(sorted(TURNS_OF_AN_ITEM), self.one_of(0, 0, 1, 2))}
        attrs.pop("hidden", None)
        for name, share in (("id", 0.15), ("for", 0.7 if tag == "label" else 0.02), ("aria-labelledby", 0.1), ("aria-describedby", 0.05)):
            if self.chance(share):
                attrs[name] = self.references() if "-" in name else self.one_of(*WORDS)
        item = self.insert(self.section(), tag=tag, **({"attrs": attrs} if attrs else {}))
        if self.chance(0.7):
            self.insert(item, text=self.one_of(*SAID))
        if self.chance(0.3):
            inner = self.one_of({}, {}, {"hidden": ""}, {"aria-labelledby": self.references()}, {"id": self.one_of(*WORDS)})
            self.insert(self.insert(item, tag=self.one_of("i", "p", "a", "label"), attrs=inner), text=self.one_of(*SAID))

    def word_wanders(self):
        """An id or a `for` that one element loses and another has."""
        name, old = self.one_of("id", "id", "for"), None
        if self.chance(0.7):
            old = self.bearer(name)
            word = self.document.nodes[old].attrs.get(name, self.one_of(*WORDS))
            self.do(unset=old, name=name)
        else:
            word = self.one_of(*WORDS)
        self.do(set=self.one_of(self.element(), self.bearer(name)), name=name, value=word)

    def reference_changes(self):
        name = self.one_of("aria-labelledby", "aria-labelledby", "aria-describedby")
        id = self.bearer(name) if self.chance(0.6) else self.element()
        if self.chance(0.25):
            self.do(unset=id, name=name)
        else:
            self.do(set=id, name=name, value=self.references())

    def turn(self, id, turns):
        """An attribute comes, goes or changes."""
        name = self.one_of(*turns)
        held = self.document.nodes[id].attrs if id in self.document.nodes else {}
        if name in held and self.chance(0.6):
            self.do(unset=id, name=name)
        else:
            self.do(set=id, name=name, value=self.one_of(*turns[name]))

    def section_turns(self):
        self.turn(self.section(), TURNS_OF_A_SECTION)

    def item_turns(self):
        self.turn(self.one_of(self.element(), self.element_near()), TURNS_OF_AN_ITEM)

    def section_shows_again(self):
        """What hides, prunes or ignores a section goes away, so that not all is hidden in the end."""
        for name in ("hidden", "aria-hidden", "display", "role"):
            self.do(unset=self.one_of(self.section(), self.section(), self.bearer(name)), name=name)

    def text_changes(self):
        near = self.near()
        id = near if self.document.nodes[near].is_text() else self.node(lambda node: node.is_text())
        self.do(text=id, to=self.one_of(*SAID, "%d" % self.random.randrange(1000)))

    def move(self):
        id, into = self.one_of(self.element(), self.element_near(), self.section()), self.one_of(self.section(), self.section(), self.element(), self.element_near())
        children = self.document.nodes[into].children
        self.do(move=id, into=into, **({"before": self.one_of(*children)} if children and self.chance(0.7) else {}))

    def out_and_back(self):
        """A subtree that goes elsewhere, and, mostly after another edit, comes back to its place."""
        id = self.element()
        if id == 1:
            return
        home = self.document.nodes[id].parent
        children = self.document.nodes[home].children
        behind = children[children.index(id) + 1:][:1]
        self.do(move=id, into=self.section())
        if self.chance(0.7):
            self.edit()
        if id in self.document.nodes and home in self.document.nodes:
            back = {"before": behind[0]} if behind and behind[0] in self.document.nodes[home].children else {}
            self.do(move=id, into=home, **back)

    def comes_or_goes(self):
        """An item more or less, so that there are about as many as at first."""
        if self.chance(0.3):
            self.insert(self.element_near(), text=self.one_of(*SAID))
        elif self.items() < self.wanted or self.chance(0.2):
            self.new_item()
        else:
            id = self.element()
            if id not in self.sections:
                self.do(remove=id)

    def focus(self):
        self.do(focus=self.one_of(0, self.element(), self.element(), self.node(lambda node: node.is_text())))

    def rects(self):
        if self.chance(0.5):
            self.do(frame=self.element(), rect=[self.random.randrange(50) for _ in range(4)])
            return
        id = self.node(lambda node: node.is_text())
        length = len(self.document.nodes[id].text or "")
        self.do(runs=id, list=[[0, length, 1] + [self.random.randrange(50) for _ in range(4)]] if length else [])

    def edit(self):
        kinds = [(self.word_wanders, 16), (self.reference_changes, 12), (self.section_turns, 8), (self.section_shows_again, 14),
                 (self.item_turns, 14), (self.text_changes, 12), (self.move, 8), (self.out_and_back, 6), (self.comes_or_goes, 14),
                 (self.focus, 3), (self.rects, 3)]
        self.random.choices([kind for kind, _ in kinds], [weight for _, weight in kinds])[0]()


class Told:
    """The story of a page and what must be written of it, made side by side."""

    def __init__(self, seed):
        self.page = Page(seed)
        self.begin()

    def begin(self):
        """Before the first edit."""
        self.base, self.page.lines = self.page.lines + ['{"start":1}'], []
        self.turns, self.lines, self.written, self.asked, self.looked = [], [], [], 0, 0
        self.tree = self.seen = Tree(self.page.document)
        self.moment, self.due = 0, []

    def flush(self):
        """Some edits and a flush."""
        for _ in self.page.some(0, 1, 1, 1, 1, 2, 2, 3, 5, 20, 60):
            self.page.edit()
        lines, self.page.lines = self.page.lines + ['{"flush":true}'], []
        self.lines += lines
        self.turns.append("P" * len(lines))
        before, self.tree, self.moment = self.tree, Tree(self.page.document), self.moment + 1
        self.due += ["! %d %s %d\n" % (self.moment, kind, id) for kind, id in notices(before, self.tree)]

    def client(self, line, told):
        self.asked += 1
        self.turns.append("C")
        self.lines.append(json.dumps(line))
        self.written.append("#%d @%d %s\n" % (self.asked, self.moment, told))

    def look(self):
        """The client takes the moment, and asks about what differs and about some more."""
        before, records, page = self.seen.records, self.tree.records, self.page
        differing = [id for id in records if before.get(id) != records[id]]
        gone = [id for id in before if id not in records]
        wanted = [{"q": word, "id": id} for id in page.random.sample(differing, min(len(differing), 12))
                  for word in differing_words(before.get(id), records[id])]
        wanted = page.random.sample(wanted, min(len(wanted), 30)) + [{"q": "focus"}]
        wanted += [{"q": "role", "id": id} for id in gone[:3]]
        wanted += [{"q": word, "id": page.one_of(*records)} for word in ABOUT_AN_OBJECT]
        for place, request in enumerate(wanted):
            self.client({"again" if place else "ask": request}, self.tree.answer(request))
        self.client({"notices": True}, "notices %d\n%s" % (len(self.due), "".join(self.due).rstrip("\n")) if self.due else "notices 0")
        self.seen, self.due, self.looked = self.tree, [], self.looked + 1

    def all_objects(self):
        """At the end of a story, all that can still be asked about all objects."""
        requests = [{"q": word, "id": id} for id in self.tree.records for word in PROPERTIES]
        for request in self.page.random.sample(requests, max(0, min(len(requests), MOST_CLIENT_LINES - self.asked))):
            self.client({"again": request}, self.tree.answer(request))

    def story(self):
        return self.base + [json.dumps({"turns": "".join(self.turns)})] + self.lines

    def transcript(self):
        return "".join(self.written) + "end %d\n" % self.moment


def differing_words(old, new):
    """The words of the requests whose replies differ between two records of an object."""
    if old is None:
        return ABOUT_AN_OBJECT
    names = {"kids": "children"}
    words = [names.get(field, field) for field in new._fields if getattr(old, field) != getattr(new, field)]
    return [word for word in words if word in ABOUT_AN_OBJECT]


def made(seed, flushes, share):
    """A story of so many flushes, of which the client takes this share."""
    told = Told(seed)
    while told.moment < flushes and told.asked < MOST_CLIENT_LINES - 100:
        told.flush()
        if told.page.chance(share):
            told.look()
    told.look()
    told.all_objects()
    return told


def compare(program, seed, told):
    """Runs the program on a story; at a difference it ends with status 1."""
    source = "".join(line + "\n" for line in told.story()).encode()
    done = subprocess.run([program, "replay"], input=source, stdout=subprocess.PIPE, stderr=subprocess.DEVNULL)
    due, found = told.transcript().split("\n"), done.stdout.decode().split("\n")
    if (found, done.returncode) == (due, 0):
        return
    with tempfile.NamedTemporaryFile("wb", suffix=".story", delete=False) as file:
        file.write(source)
    place = next((place for place, (a, b) in enumerate(zip(found, due)) if a != b), min(len(found), len(due)))
    sys.exit("story of seed %s, in %s: status %d; line %d is %s for %s" % (
        seed, file.name, done.returncode, place + 1, quoted("".join(found[place:place + 1])), quoted("".join(due[place:place + 1]))))


def main():
    if len(sys.argv) < 2:
        sys.exit(__doc__)
    seed, wanted = int(sys.argv[2]) if len(sys.argv) > 2 else 1, int(sys.argv[3]) if len(sys.argv) > 3 else 500
    stories = flushes = looked = asked = 0
    while flushes < wanted:
        share = SHARE_OF_A_SLOW_CLIENT if stories % 3 == 1 else SHARE_OF_A_CLIENT
        told = made("%d-%d" % (seed, stories), min(FLUSHES_OF_A_STORY, wanted - flushes), share)
        compare(sys.argv[1], "%d-%d" % (seed, stories), told)
        stories, flushes, looked, asked = stories + 1, flushes + told.moment, looked + told.looked, asked + told.asked
    print("flushes: %d of %d stories as the model has them; the client asked at %d moments, in %d lines" % (flushes, stories, looked, asked))


if __name__ == "__main__":
    main()
