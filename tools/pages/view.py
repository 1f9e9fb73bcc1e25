"""One page that shows a story: the tree of each moment, its frames, what changed, and the notices."""
import html
import json
import os
import re

from model import Document, Story, Tree, dumped_objects, notices

HERE = os.path.dirname(os.path.abspath(__file__))
ASKED = ("description", "value", "states", "level", "live", "frame")
SMALLEST_WIDTH, SMALLEST_HEIGHT, TALLEST = 320, 200, 20000


class Moments:
    """What the page shows of each moment; an object that is the same at several moments is kept once."""

    def __init__(self):
        self.objects, self.places, self.moments, self.before = [], {}, [], None

    def add(self, document):
        tree = Tree(document)
        told = notices(self.before, tree) if self.before else []
        depths, indices = {0: -1}, []
        for id, parent, role, name in dumped_objects(tree.dumped().split("\n")[:-1]):
            depths[id] = depths[parent] + 1
            about = {"id": id, "parent": parent, "depth": depths[id], "role": role, "name": name}
            indices.append(self.place(about | {word: asked(tree, word, id) for word in ASKED}))
        self.moments.append({"objects": indices, "focus": tree.focus or 0, "notices": told})
        self.before = tree

    def place(self, told):
        key = json.dumps(told)
        if key not in self.places:
            self.places[key] = len(self.objects)
            self.objects.append(told)
        return self.places[key]

    def size(self):
        """The width and the height of what is drawn."""
        frames = [each["frame"] for each in self.objects]
        width = max([x + w for x, _, w, _ in frames] + [SMALLEST_WIDTH])
        return [width, min(max([y + h for _, y, _, h in frames] + [SMALLEST_HEIGHT]), TALLEST)]


def asked(tree, word, id):
    """What a tree answers about an object: a text, a number, the numbers of a frame, or None."""
    told = tree.answer({"q": word, "id": id})
    if told == "none":
        return None
    text = told[len(word) + 1:]
    if word in ("description", "value"):
        return json.loads(text)
    if word == "frame":
        return [int(each) for each in text.split(" ")]
    return int(text) if word == "level" else text


def page_of(lines, title):
    """The page for the lines of a story, which may be Refused."""
    story, document, moments = Story(lines), Document(), Moments()
    for edit in story.base:
        document.apply(edit)
    moments.add(document)
    for line in story.page:
        if "flush" in line:
            moments.add(document)
        elif "until" not in line:
            document.apply(line)
    data = {"size": moments.size(), "objects": moments.objects, "moments": moments.moments}
    with open(os.path.join(HERE, "view.html"), encoding="utf-8") as file:
        page = file.read()
    told = json.dumps(data, ensure_ascii=False, separators=(",", ":")).replace("<", "\\u003c")
    return re.sub(r"\{\{(title|data)\}\}", lambda found: {"title": html.escape(title), "data": told}[found[1]], page)
