"""Random stories, most of whose edits are accepted, and most of whose requests have something to tell."""
import json
import random

from documents import Document
from forms import REQUESTS
from nodes import BLOCKS, CHECKED, COUNTED, LIVE_ROLES, NAMED_FROM_CONTENT, NAMELESS, RANGES, ROLES, SELECTED
from plays import ABOUT_AN_OBJECT, Refused, Story
from searches import KEYS
from trees import Tree

TEXTS = ("Save", "Hi", "one two", " lead", "trail ", "a  b\t", "\u00e9\u4e2d", '"q\\', "x\u0001\u000by", "\u00a0", "", " ", " \n\f\r")
# Pieces of texts with boundaries of their own. Their properties are the same in Unicode 15.0 and 18.0.
PIECES = ("e\u0301", "a\u0308\u0323", "\u0301", "\U0001f469\u200d\U0001f467", "\U0001f469\u200d", "\u200d", "\U0001f44d\U0001f3fd", "\u2764\ufe0f",
          "\U0001f1e9\U0001f1ea", "\U0001f1eb", "\u1112\u1161\u11ab", "\ud55c", "\uac00\u11a8", "\r\n", "\r", "\n", "\t", "\u00ad", "\u200b", "\u2028",
          "can't", "3.14", "1,000", "a.b", "foo_bar", "x", "7", " ", "  ", ".", "'", '"', "-", "\u05d0\"\u05d1", "\u05d0'", "\u30ab\u30ca", "\u3042", "\u4e2d",
          "\u0e01\u0e33", "stra\u00dfe", "\u0130", "i\u0307", "\u03c3\u03c2", "\ufb01n", "\u017f", "\u00c9", "\u1e9e", "\u0149", "Ab", "STRASSE")
LONG_TEXTS = ("w" * 511 + " x", "w" * 512, "w" * 513, "ab  " * 200, " " * 40 + "long " * 60, "\u00e9" * 300)
YES_AND_NO = ("true", "true", "false", " TRUE\n", "False", "", "yes", "tru e")
THREE = YES_AND_NO + ("mixed", "mixed", "Mixed ")
THERE = ("", "", "false", "x")
VALUES = {
    "id": ("a", "b", "c") * 8 + ("A", "", "a ", "a b"),
    "aria-hidden": YES_AND_NO, "hidden": THERE, "disabled": THERE, "required": THERE, "readonly": THERE, "checked": THERE,
    "display": ("none", "block", "block", "inline", "inline", " NONE", "Block\t", "inline-block", "", "none block"),
    "type": ("checkbox", "radio", "range", "button", "submit", "reset", "hidden", "text", "", " CheckBox\t", "Range", "search",
             "SUBMIT", "radio x"),
    "tabindex": ("0", "-1", " 1\n", "123456789", "1234567890", "--1", "-", "", "+1", "1 2", "\u0663", "0x1"),
    "href": ("", "/"),
    "aria-disabled": YES_AND_NO, "aria-required": YES_AND_NO, "aria-readonly": YES_AND_NO, "aria-busy": YES_AND_NO,
    "aria-checked": THREE, "aria-pressed": THREE, "aria-expanded": THREE, "aria-selected": THREE,
    "aria-invalid": ("true", "false", " FALSE", "grammar", "", " "),
    "aria-level": ("1", "2", "007", " 12 ", "999", "1000", "0", "000", "-1", "", "1.0", "+2", "\u0663"),
    "aria-live": ("off", "polite", "assertive", " Polite", "OFF", "loud", "", " "),
    "class": ("x",),
}
VALUES["for"] = VALUES["id"]
REFERENCES = ("aria-labelledby", "aria-describedby")
PLAIN = ("title", "alt", "value", "aria-label", "aria-valuetext", "aria-valuenow", "placeholder")
NAMES = ["id", "role"] * 20 + list(REFERENCES) * 12 + ["for"] * 7 + list(PLAIN) * 3 + ["title", "value", "alt"] * 3 \
    + [name for name in VALUES if name not in ("id", "for")] * 2 + ["aria-hidden", "hidden", "display", "tabindex", "type"] * 2 + COUNTED
TAGS = """button button input input input input textarea img img a a label p h1 h2 h3 h4 h5 h6 li ul ol table tr td th nav main
    article section br em h7 option""".split() + ["div", "span"] * 5
USUAL = {"input": ("type", "type", "value", "id", "checked"), "img": ("alt", "role"), "label": ("for",), "a": ("href",),
         "textarea": ("value", "id"), "div": ("role", "id"), "span": ("role", "id")}
OWN = [(CHECKED, ["aria-checked"]), (SELECTED, ["aria-selected"]), (("button",), ["aria-pressed"]), (NAMELESS, ["aria-label"]),
       (("heading", "row", "treeitem"), ["aria-level"]), (("textbox", "searchbox", "combobox"), ["value"]),
       (RANGES, ["value", "aria-valuenow", "aria-valuetext"]), (LIVE_ROLES, ["aria-live"])]
TURNED = OWN + [(("button", "a", "option", "tab", "row", "treeitem", "combobox"), ["aria-expanded"]), (("checkbox", "radio"), ["checked"])]
TOLD_APART = [role for roles, _ in OWN for role in roles] + ["generic", "none"]


def own_names(table, tag, attrs):
    """The attributes that the role or the tag has an eye on, as far as the table goes."""
    words = attrs.get("role", "").lower().split() + [tag, attrs.get("type", "")]
    return [name for roles, names in table for name in names if set(words) & set(roles)]


class Words:
    """Random values."""

    def __init__(self, seed):
        self.random = random.Random(seed)

    def chance(self, share):
        return self.random.random() < share

    def one_of(self, *values):
        return self.random.choice(values)

    def some(self, *counts):
        return range(self.one_of(*counts))

    def text(self):
        if self.chance(0.04):
            return self.one_of(*LONG_TEXTS)
        if self.chance(0.25):
            return self.pieces()
        return self.one_of(*TEXTS[:4]) if self.chance(0.4) else self.one_of(*TEXTS)

    def pieces(self):
        return "".join(self.one_of(*PIECES) for _ in self.some(1, 2, 3, 5, 8))

    def spaced(self, words):
        if self.chance(0.7):
            return " ".join(words)
        return "".join(self.one_of("", "", "", " ", "\n") + word + self.one_of(" ", " ", "\t", "\f ") for word in words)

    def role(self):
        words = [self.one_of("none", "presentation", "foo", "Text") for _ in self.some(0, 0, 0, 0, 1, 2)]
        words += [self.one_of(*(TOLD_APART if self.chance(0.5) else sorted(ROLES))) for _ in self.some(0, 1, 1, 1, 1, 2)]
        return self.spaced([word.upper() if self.chance(0.1) else word for word in words])

    def references(self):
        return self.spaced([self.one_of("a", "a", "b", "b", "c", "A", "x") for _ in self.some(0, 1, 1, 1, 1, 1, 2, 2, 2, 3, 8, 9, 12)])

    def value(self, name):
        if name in REFERENCES:
            return self.references()
        if name == "role":
            return self.role()
        return self.one_of(*VALUES[name]) if name in VALUES else self.text()

    def attrs(self, tag, **given):
        """Attributes, mostly some of those that the tag or the role has an eye on."""
        names = [name for name in USUAL.get(tag, ()) if self.chance(0.5)]
        names += [self.one_of(*NAMES) for _ in self.some(0, 0, 0, 1, 1, 2, 2, 3, 5)]
        attrs = {**{name: self.value(name) for name in names}, **given}
        attrs.update({name: self.value(name) for name in own_names(OWN, tag, attrs) if self.chance(0.7)})
        return attrs

    def rect(self):
        x, y, w, h = [self.random.randrange(-30, 30) for _ in range(4)]
        return [-1048576, 1048576, 1048576, 1048576] if self.chance(0.05) else [x, y, abs(w), abs(h)]


class Editor(Words):
    """Random edits of a document, which it does as far as they are accepted."""

    def __init__(self, seed):
        super().__init__(seed)
        self.document = Document()

    def any_id(self):
        return self.random.randrange(1, 41)

    def fresh(self):
        """Mostly an id that was not used."""
        free = [id for id in range(2, 60) if id not in self.document.used]
        return self.one_of(*free) if free and self.chance(0.995) else self.any_id()

    def id(self, is_it=lambda node: True):
        """Mostly a node that is there and of that kind, and seldom any."""
        fit = [id for id, node in self.document.nodes.items() if is_it(node)]
        return self.one_of(*fit) if fit and self.chance(0.98) else self.any_id()

    def element(self):
        return self.id(lambda node: not node.is_text())

    def text_node(self):
        return self.id(lambda node: node.is_text())

    def insert(self):
        place = {"into": self.element(), **({"before": self.id()} if self.chance(0.1) else {})}
        if self.chance(0.4):
            return {"insert": self.fresh(), **place, "text": self.text()}
        tag = self.one_of(*TAGS)
        attrs = self.attrs(tag)
        return {"insert": self.fresh(), **place, "tag": tag, **({"attrs": attrs} if attrs or self.chance(0.1) else {})}

    def move(self):
        children = self.document.nodes[1].children
        before = {"before": self.id()} if self.chance(0.3) else {}
        return {"move": self.one_of(*children) if children and self.chance(0.3) else self.id(), "into": self.element(), **before}

    def set(self):
        name = self.one_of(*NAMES)
        return {"set": self.element(), "name": name, "value": self.value(name)}

    def unset(self):
        id = self.id(lambda node: node.attrs)
        held = sorted(self.document.nodes[id].attrs) if id in self.document.nodes else []
        return {"unset": id, "name": self.one_of(*held) if held and self.chance(0.9) else self.one_of(*NAMES)}

    def runs(self):
        """Mostly runs that fit their text."""
        id = self.text_node()
        length = len(self.document.nodes[id].text or "") if id in self.document.nodes else 2
        ends = sorted({self.random.randrange(length + 1) for _ in self.some(0, 1, 2)} | {length} - {0})
        line, runs = 0, []
        for first, past in zip([0] + ends, ends):
            line += self.random.randrange(2)
            runs.append([first, past, line] + self.rect())
        return {"runs": id, "list": [] if self.chance(0.1) else runs}

    def edit(self):
        kinds = (self.insert, self.move, self.set, self.unset, self.runs, lambda: {"remove": self.id()},
                 lambda: {"text": self.text_node(), "to": self.text()}, lambda: {"frame": self.element(), "rect": self.rect()},
                 lambda: {"focus": self.one_of(0, self.id(), self.id(), self.id())})
        return self.random.choices(kinds, (50, 10, 24, 8, 5, 3, 8, 4, 6))[0]()

    # Requests.

    def marker(self):
        """Mostly a place in a text, and seldom none."""
        id = self.text_node() if self.chance(0.9) else self.id()
        node = self.document.nodes.get(id)
        length = len(node.text) if node and node.is_text() else 1
        return [id, self.one_of(length, length + 1, 4294967295) if self.chance(0.1) else self.random.randrange(length + 1)]

    def search(self):
        """Mostly for what is there: some words of a name, in another case."""
        names = [node.text or node.attrs.get("aria-label", "") for node in self.document.nodes.values()]
        words = self.one_of(*names, "", "a", "ss", "\u03c3", "fi", "i\u0307", "no such name")[:self.one_of(1, 2, 5, 4096)]
        text = {"text": self.one_of(words, words.upper(), words.lower(), words.swapcase())} if self.chance(0.6) else {}
        text = text if len(text.get("text", "").encode()) <= 4096 else {}
        keys = [self.one_of(*KEYS, "any", "any", "any", "text", "focusable") for _ in self.some(1, 1, 1, 2, 3, 8)]
        return {"from": self.one_of(0, self.id(), self.id()), "dir": self.one_of("next", "prev"), "keys": keys, **text,
                "limit": self.one_of(1, 2, 3, 100, 100)}

    def point(self):
        """Mostly a corner of a frame, or one beside it."""
        frames = [node.frame for node in self.document.nodes.values() if any(node.frame)]
        frames += [run[3:] for node in self.document.nodes.values() for run in node.runs] + [[0, 0, 5, 5]]
        x, y, width, height = self.one_of(*frames)
        if self.chance(0.02):
            return {"x": self.one_of(-(1 << 31), (1 << 31) - 1, x), "y": self.one_of(-(1 << 31), (1 << 31) - 1, y)}
        return {"x": x + self.one_of(0, width, width, width // 2) - self.one_of(0, 1), "y": y + self.one_of(0, height, height // 2) - self.one_of(0, 1)}

    def request(self, word):
        """A request with this word."""
        if word in ("root", "focus"):
            return {"q": word}
        if word == "children":
            return {"q": word, "id": self.id(), **({"from": self.random.randrange(3)} if self.chance(0.3) else {})}
        if word in ABOUT_AN_OBJECT:
            return {"q": word, "id": self.id()}
        if word in ("compare", "text", "bounds"):
            return {"q": word, "a": self.marker(), "b": self.marker()}
        return {"q": word, **({"search": self.search, "hit": self.point}.get(word) or (lambda: {"at": self.marker()}))()}

    def accepted_edit(self):
        """Mostly an edit that the document takes, and does it then."""
        for _ in range(12):
            edit = self.edit()
            if self.document.cause(edit) is None or self.chance(0.004):
                return self.done(edit)
        return {"focus": 0}

    def done(self, edit):
        if self.document.cause(edit) is None:
            self.document.apply(edit)
        return edit

    # Some edits that belong together.

    def child(self, into, tag, attrs):
        return self.done({"insert": self.fresh(), "into": into, "tag": tag, "attrs": attrs})

    def new(self, tag, attrs):
        """A new element anywhere."""
        return self.child(self.one_of(*[id for id, node in self.document.nodes.items() if not node.is_text()]), tag, attrs)

    def words(self, into):
        return self.done({"insert": self.fresh(), "into": into, "text": self.text()})

    def named_from_content(self):
        """An element of which the content may be the name, with one more among its texts."""
        role, tag = self.one_of(*NAMED_FROM_CONTENT, *NAMED_FROM_CONTENT, *NAMELESS, *sorted(ROLES)), self.one_of(*BLOCKS, *TAGS)
        owner = self.new("span", {"role": role})
        before = self.words(owner["insert"])
        given = self.one_of({}, {}, {"display": self.one_of(*VALUES["display"])}, {"role": self.one_of(*TOLD_APART)}, {"role": "slider"})
        inner = self.child(owner["insert"], tag, self.attrs(tag, **given))
        return [owner, before, inner] + [self.words(edit["insert"]) for edit in (owner, inner) if self.chance(0.8)]

    def referred(self):
        """An element that refers to another, which may be hidden."""
        hidden = self.one_of({}, {}, {"hidden": ""}, {"display": "none"}, {"aria-hidden": "true"})
        word, name = self.one_of("a", "b", "c"), self.one_of("aria-labelledby", *REFERENCES)
        outer, hidden = self.new("div", hidden), self.one_of({}, {}, hidden)
        target = self.child(outer["insert"], self.one_of("span", "p", "td"), {"id": word, **hidden})
        inner = self.child(target["insert"], self.one_of("i", "p", "input", "label"), self.one_of({}, {"hidden": ""}, {"title": "inner"}))
        referring = self.new(self.one_of("input", "a", "section", "button", "p"), {name: word, "title": "title"})
        return [outer, target, inner, referring, self.words(target["insert"]), self.words(inner["insert"])]

    def labelled(self):
        """An input and a label for it, in any order."""
        word, hidden = self.one_of(*VALUES["id"]), self.one_of({}, {}, {"hidden": ""}, {"aria-labelledby": "a"})
        kind = self.one_of({}, {"type": "checkbox"}, {"type": "submit", "value": "v"}, {"title": "title"}, {"aria-label": "label"})
        label = self.new(self.one_of("label", "label", "label", "span"), {"for": word, **hidden})
        field = self.new(self.one_of("input", "input", "textarea", "button"), {"id": word, **kind})
        return [label, field, self.words(label["insert"])]

    def live(self):
        """What may be live in what may be live."""
        outer = self.new("div", {"role": self.one_of(*LIVE_ROLES)})
        inner = self.child(outer["insert"], "div", self.attrs("div", role=self.one_of(*LIVE_ROLES)))
        return [outer, inner, self.words(inner["insert"])]

    def turned(self):
        """A state or a value that an element may lose, get or change; where none has one, there is a new one."""
        own = [(id, name) for id, node in self.document.nodes.items() if not node.is_text()
               for name in own_names(TURNED, node.tag, node.attrs)]
        if len(own) < 3:
            return [self.new(self.one_of("input", "div"), {"role": self.one_of(*CHECKED, *SELECTED, *RANGES, "textbox", "button")})]
        id, name = self.one_of(*own)
        if self.chance(0.3) and name in self.document.nodes[id].attrs:
            return [self.done({"unset": id, "name": name})]
        return [self.done({"set": id, "name": name, "value": self.one_of("true", "false", "mixed", "", self.value(name))})]

    def nudged(self):
        """A text with other white space, or the last child of a node before the first."""
        texts = [(id, node.text) for id, node in self.document.nodes.items() if node.is_text()]
        parents = [(id, node.children) for id, node in self.document.nodes.items() if len(node.children) > 1]
        if parents and self.chance(0.5):
            into, children = self.one_of(*parents)
            return [self.done({"move": children[-1], "into": into, "before": children[0]})]
        if not texts:
            return [self.accepted_edit()]
        id, text = self.one_of(*texts)
        return [self.done({"text": id, "to": self.one_of(" ", "\n") + text})]

    def edits(self):
        """One edit, or some that belong together."""
        if self.chance(0.2):
            return self.turned()
        if self.chance(0.06):
            return self.nudged()
        if self.chance(0.88):
            return [self.accepted_edit()]
        return self.one_of(*[self.named_from_content] * 4, *[self.referred] * 3, *[self.labelled] * 2, *[self.live] * 2)()


class Maker:
    """Random stories."""

    def __init__(self, seed):
        self.random = random.Random(seed)

    def request(self, editor):
        word = editor.one_of(*REQUESTS)
        if editor.chance(0.002):
            word = "hit"
        return editor.request(word)

    def line(self, editor, flushes):
        kind = editor.random.choices(("flush", "until", "ask", "await", "hear", "blank", "notices", "start"),
                                     (110, 25, 150, 50, 20, 20, 30, 1))[0]
        return {
            "flush": lambda: {"flush": True},
            "until": lambda: {"until": editor.one_of(0, 0, max(flushes - 1, 0), flushes)},
            "ask": lambda: {editor.one_of("ask", "ask", "again"): self.request(editor)},
            "await": lambda: {"await": editor.one_of(0, flushes, flushes, flushes + editor.chance(0.2))},
            "hear": lambda: {"hear": True},
            "blank": lambda: None,
            "notices": lambda: {"notices": True},
            "start": lambda: {"start": 1},
        }[kind]()

    def last_look(self, editor, flushes):
        """The last moment, and requests about its objects, most of which have something to tell."""
        tree, empty = Tree(editor.document), ("none", 'description ""', "frame 0 0 0 0", "live off", "states", "children 0")
        asked = [{"q": word, "id": id} for id in tree.records for word in ABOUT_AN_OBJECT]
        telling = [request for request in asked if request["q"] not in ("role", "name", "parent") and tree.answer(request) not in empty]
        asked = editor.random.sample(telling, min(len(telling), 60)) + editor.random.sample(asked, min(len(asked), 20))
        asked += [editor.request(word) for word in REQUESTS if word not in ABOUT_AN_OBJECT for _ in range(3)]
        return [{"flush": True}, {"await": flushes + 1}] + [{"again": request} for request in asked] + [{"notices": True}]

    def story(self):
        editor, flushes, lines = Editor(self.random.random()), 0, []
        for _ in editor.some(0, 4, 8, 12, 16):
            lines += editor.edits()
        lines += [{"start": 1}] if editor.chance(0.98) else []
        if editor.chance(0.5):
            turns = "".join(editor.one_of("P", "P", "P", "C") for _ in editor.some(0, 10, 20, 40))
            lines.append({"turns": turns + ("x" if editor.chance(0.02) else "")})
        for _ in editor.some(0, 5, 10, 20, 30):
            lines += editor.edits() if editor.chance(0.5) else [self.line(editor, flushes)]
            flushes += lines[-1] is not None and "flush" in lines[-1]
        lines += self.last_look(editor, flushes) if editor.chance(0.8) else []
        return [editor.one_of("", " \t\r") if line is None else json.dumps(line) for line in lines]


class ThreadedMaker(Maker):
    """Random stories for two threads: accepted ones, of which no side waits for ever, and whose moments differ."""

    WEIGHTS = dict(edit=50, flush=40, ask=30, again=15, hear=12, **{"await": 8}, until=8, notices=8)
    def request(self, editor):
        """Mostly one of which the reply was another one flush before."""
        return editor.one_of(*self.recent) if self.recent and editor.chance(0.7) else super().request(editor)

    def look(self, editor):
        """Looks which replies the next flush changes."""
        before, self.tree = self.tree, Tree(editor.document)
        ids = sorted(set(before.records) | set(self.tree.records))
        asked = [{"q": "focus"}] + [{"q": word, "id": id} for id in ids for word in ABOUT_AN_OBJECT]
        changed = [request for request in asked if before.answer(request) != self.tree.answer(request)]
        self.recent = (editor.random.sample(changed, min(len(changed), 6)) + self.recent)[:8]

    def threaded_line(self, editor, flushes, awaited):
        """Lines in an order in which they can be done, so that no side waits for ever."""
        kind = editor.random.choices(list(self.WEIGHTS), self.WEIGHTS.values())[0]
        if kind == "edit":
            return editor.edits()
        if kind == "flush":
            self.look(editor)
        if kind in ("ask", "again"):
            return [{kind: self.request(editor)}]
        if kind in ("flush", "hear", "notices"):
            return [{kind: True}]
        most = flushes if kind == "await" else awaited
        return [{kind: editor.one_of(most, most, editor.random.randrange(most + 1))}]

    def threaded_story(self, length):
        editor, flushes, awaited = Editor(self.random.random()), 0, 0
        lines = [edit for _ in editor.some(4, 8, 12) for edit in editor.edits()] + [{"start": 1}]
        self.tree, self.recent = Tree(editor.document), []
        for _ in range(length):
            lines += self.threaded_line(editor, flushes, awaited)
            flushes += "flush" in lines[-1]
            awaited = max(awaited, lines[-1].get("await", 0))
        lines += [{"await": flushes}, {"notices": True}] if editor.chance(0.5) else []
        return [json.dumps(line) for line in lines]

    def counting_story(self, length):
        """A long story of one button, whose name is the next moment's number, so that both threads are at work for long."""
        lines, flushes, awaited = [{"insert": 2, "into": 1, "tag": "button", "attrs": {"aria-label": "0"}}, {"start": 1}], 0, 0
        name, said = {"q": "name", "id": 2}, [{"ask": {"q": "name", "id": 2}}, {"hear": True}, {"notices": True}]
        for _ in range(length):
            flushes += 1
            lines += [{"set": 2, "name": "aria-label", "value": str(flushes)}, {"flush": True}]
            lines.append(self.random.choice(said + said[:1] * 3 + [{"again": name}]))
            if self.random.random() < 0.02:
                awaited = max(awaited, flushes - self.random.choice((0, 0, 1, 5, 20, 100)))
                lines += [{"await": awaited}] + [{"until": awaited}] * self.random.randrange(2)
        return [json.dumps(line) for line in lines]

    def accepted_story(self, length):
        """The lines of a story of about that length, and the story."""
        while True:
            lines = self.threaded_story(length)
            try:
                return lines, Story(lines)
            except Refused:
                continue

    def turns(self, story):
        """Turns for about all lines of a story, mostly some of one side after another."""
        left, turns = len(story.page) + len(story.client), ""
        while len(turns) < left:
            turns += self.random.choice("PC") * self.random.choice((1, 1, 2, 3, 5, 10, left))
        return turns
