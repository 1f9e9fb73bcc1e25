"""Documents of the second model: nodes, edits, and what refuses an edit.

Written from docs/STORY_FORMAT.md alone, section 3.
"""

NODE_KEYS = ("remove", "set", "unset", "runs", "frame", "move")
DEEPEST, MOST_NODES, LONGEST_VALUE, LONGEST_TEXT = 64, 65536, 4096, 65536


class Node:
    """A text where `text` is given, and else an element. `facts` is what nodes.py says of it, until it is edited."""

    def __init__(self, parent, tag=None, attrs=None, text=None):
        self.parent, self.tag, self.attrs, self.text, self.children = parent, tag, dict(attrs or {}), text, []
        self.frame, self.runs, self.facts = [0, 0, 0, 0], [], None

    def is_text(self):
        return self.text is not None


def is_too_long(edit):
    """Whether an attribute value has too many bytes, or a text too many characters."""
    values = [edit["value"]] if "value" in edit else list(edit.get("attrs", {}).values())
    text = edit["to"] if "to" in edit else edit["text"] if "text" in edit else ""
    return len(text) > LONGEST_TEXT or any(len(value.encode()) > LONGEST_VALUE for value in values)


class Document:
    def __init__(self):
        self.nodes, self.focus, self.used = {1: Node(None, "html")}, None, {1}

    def above(self, id):
        """The node and its ancestors, from the node up."""
        while id is not None:
            yield id
            id = self.nodes[id].parent

    def subtree(self, id):
        """The node and all below it, in tree order."""
        yield id
        for child in self.nodes[id].children:
            yield from self.subtree(child)

    def depth(self, id):
        return len(list(self.above(id))) - 1

    def cause(self, edit):
        """The first cause that refuses an edit, or None."""
        named = [edit[key] for key in NODE_KEYS if key in edit]
        named += [edit["text"]] if "to" in edit else []
        named += [edit["into"]] if "into" in edit else []
        named += [edit["focus"]] if edit.get("focus") else []
        if any(id not in self.nodes for id in named):
            return "NoNode"
        if "insert" in edit and edit["insert"] in self.used:
            return "UsedId"
        if "before" in edit and (edit["before"] not in self.nodes[edit["into"]].children or edit["before"] == edit.get("move")):
            return "BadPlace"
        if any(self.nodes[edit[key]].is_text() for key in ("into", "set", "unset", "frame") if key in edit):
            return "NotElement"
        text = edit["text"] if "to" in edit else edit.get("runs")
        if text is not None and not self.nodes[text].is_text():
            return "NotText"
        if "move" in edit and edit["into"] in self.subtree(edit["move"]):
            return "IntoItself"
        if edit.get("remove") == 1:
            return "RootFixed"
        if self.deepest_after(edit) > DEEPEST:
            return "TooDeep"
        if "insert" in edit and len(self.used) > MOST_NODES:
            return "TooMany"
        if "runs" in edit and not self.may_have(edit["runs"], edit["list"]):
            return "BadRuns"
        return "TooLong" if is_too_long(edit) else None

    def deepest_after(self, edit):
        if "into" not in edit:
            return 0
        place = self.depth(edit["into"]) + 1
        if "insert" in edit:
            return place
        return place + max(self.depth(id) for id in self.subtree(edit["move"])) - self.depth(edit["move"])

    def may_have(self, id, runs):
        ends = [0] + [run[1] for run in runs]
        lines = [run[2] for run in runs]
        fits = all(run[0] == end and run[0] < run[1] for run, end in zip(runs, ends))
        return not runs or fits and ends[-1] == len(self.nodes[id].text) and lines == sorted(lines)

    def apply(self, edit):
        """Does an edit that nothing refuses."""
        if "insert" in edit:
            self.used.add(edit["insert"])
            self.nodes[edit["insert"]] = Node(edit["into"], edit.get("tag"), edit.get("attrs"), edit.get("text"))
            self.place(edit["insert"], edit)
        elif "move" in edit:
            self.unhang(edit["move"])
            self.nodes[edit["move"]].parent = edit["into"]
            self.place(edit["move"], edit)
        elif "remove" in edit:
            self.remove(edit["remove"])
        elif "focus" in edit:
            self.focus = edit["focus"] or None
        else:
            self.change(edit)

    def change(self, edit):
        """Does an edit that changes one node."""
        if "frame" not in edit and "runs" not in edit:
            self.nodes[next(edit[key] for key in ("set", "unset", "text") if key in edit)].facts = None
        if "set" in edit:
            self.nodes[edit["set"]].attrs[edit["name"]] = edit["value"]
        elif "unset" in edit:
            self.nodes[edit["unset"]].attrs.pop(edit["name"], None)
        elif "to" in edit:
            self.nodes[edit["text"]].text, self.nodes[edit["text"]].runs = edit["to"], []
        elif "runs" in edit:
            self.nodes[edit["runs"]].runs = edit["list"]
        elif "frame" in edit:
            self.nodes[edit["frame"]].frame = edit["rect"]

    def remove(self, id):
        gone = list(self.subtree(id))
        self.unhang(id)
        for each in gone:
            del self.nodes[each]
        self.focus = None if self.focus in gone else self.focus

    def unhang(self, id):
        self.nodes[self.nodes[id].parent].children.remove(id)

    def place(self, id, edit):
        children = self.nodes[edit["into"]].children
        children.insert(children.index(edit["before"]) if "before" in edit else len(children), id)
