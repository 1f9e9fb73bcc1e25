"""The edits that lead exactly from one recorded document to the next.

Documents are told as snapshots (recorder.js). They are compared whole, so nothing depends on the order in which the page's
changes were made. A node that comes back after a frame without it is a new one: numbers are never used twice.
"""
import bisect

ROOT, MOST_NODES, MOST_LEVELS = 1, 65536, 64
NOWHERE = [0, 0, 0, 0]


class Full(Exception):
    """The page had more nodes than a story can have."""


class TooDeep(Exception):
    """A node cannot be moved yet, since what is still below it would be too deep."""

    def __init__(self, key):
        super().__init__(key)
        self.key = key


class Node:
    """A node of a snapshot: a text where `text` is given, and else an element."""

    def __init__(self, told):
        self.key, self.parent, content, more, *frame = told
        self.tag, self.attrs, self.frame = (content, more, frame[0]) if frame else (None, None, None)
        self.text, self.runs = (None, None) if frame else (content, more)
        self.children = []


def nodes_of(snapshot):
    """The nodes of a snapshot by their keys, in tree order."""
    nodes = {}
    for told in snapshot["nodes"]:
        node = nodes[told[0]] = Node(told)
        if node.parent:
            nodes[node.parent].children.append(node.key)
    return nodes


def longest_rising(places):
    """The indices of a longest strictly rising part of a list."""
    ends, last, before = [], [], [None] * len(places)
    for index, place in enumerate(places):
        at = bisect.bisect_left(ends, place)
        ends[at:at + 1] = [place]
        last[at:at + 1] = [index]
        before[index] = last[at - 1] if at else None
    found, index = set(), last[-1] if last else None
    while index is not None:
        found.add(index)
        index = before[index]
    return found


class Places:
    """The tree of a story by numbers, while it is led to the tree of a snapshot: which node is where, and no more."""

    def __init__(self, children, last_number):
        self.children = {number: list(below) for number, below in children.items()}
        self.parents = {child: number for number, below in children.items() for child in below}
        self.last_number, self.edits = last_number, []

    def height(self, number):
        return 1 + max((self.height(child) for child in self.children[number]), default=-1)

    def put(self, number, into, before):
        below = self.children[into]
        below.insert(below.index(before) if before else len(below), number)
        self.parents[number] = into

    def take(self, number):
        self.children[self.parents.pop(number)].remove(number)

    def place(self, what, number, into, before):
        """An insert or a move: its keys, and the change of the tree."""
        self.put(number, into, before)
        edit = {what: number, "into": into}
        if before:
            edit["before"] = before
        self.edits.append(edit)
        return edit

    def insert(self, node, into, before):
        if self.last_number > MOST_NODES:
            raise Full
        self.last_number += 1
        self.children[self.last_number] = []
        edit = self.place("insert", self.last_number, into, before)
        if node.tag is None:
            edit["text"] = node.text
        else:
            edit["tag"] = node.tag
            edit.update({"attrs": node.attrs} if node.attrs else {})
        return self.last_number

    def move(self, key, number, into, before, level):
        if level + self.height(number) > MOST_LEVELS:
            raise TooDeep(key)
        self.take(number)
        self.place("move", number, into, before)

    def remove_others(self, number, stay, keep_above):
        """Removes what is below a node and does not stay; with `keep_above` not yet where something that stays is below."""
        for child in list(self.children[number]):
            if child in stay or keep_above and self.has_below(child, stay):
                self.remove_others(child, stay, keep_above)
            else:
                self.take(child)
                self.edits.append({"remove": child})

    def has_below(self, number, stay):
        return any(child in stay or self.has_below(child, stay) for child in self.children[number])


def lead(nodes, numbers, places):
    """Leads the tree to that of the nodes: gives the number of each key. `numbers` are those of the nodes that stay."""
    found, levels, following = dict(numbers), {ROOT: 0}, {}
    places.remove_others(ROOT, set(numbers.values()), keep_above=True)
    for key, node in nodes.items():
        # All above the node is in its place.
        if key != ROOT:
            levels[key] = levels[node.parent] + 1
        if key in following:
            into, before = found[node.parent], following[key]
            if key in numbers:
                places.move(key, numbers[key], into, before, levels[key])
            else:
                found[key] = places.insert(node, into, before)
        following.update(to_place(node, numbers, places.children[found[key]]))
    places.remove_others(ROOT, set(found.values()), keep_above=False)
    return found


def to_place(node, numbers, below):
    """The children that a node does not have yet, or has in another order: each with the number that it goes before, or None."""
    order = {number: index for index, number in enumerate(below)}
    here = [key for key in node.children if numbers.get(key) in order]
    still = longest_rising([order[numbers[key]] for key in here])
    fixed = {key for index, key in enumerate(here) if index in still}
    before, following = None, {}
    for key in reversed(node.children):
        if key in fixed:
            before = numbers[key]
        else:
            following[key] = before
    return following


class Story:
    """The document of a story at its last line, and the edits to the next one."""

    def __init__(self):
        self.nodes, self.numbers, self.focus, self.last_number = {ROOT: Node([ROOT, 0, "html", {}, NOWHERE])}, {ROOT: ROOT}, 0, ROOT

    def edits_to(self, snapshot):
        """The edits that lead to a snapshot; the document is that one from then on."""
        nodes, cut = nodes_of(snapshot), set()
        while True:
            numbers = {key: number for key, number in self.numbers.items() if key in nodes and key not in cut}
            below = {self.numbers[key]: [self.numbers[child] for child in node.children] for key, node in self.nodes.items()}
            places = Places(below, self.last_number)
            try:
                found = lead(nodes, numbers, places)
                break
            except TooDeep as deep:
                cut.add(deep.key)
        edits = places.edits
        for key, node in nodes.items():
            edits += changes(found[key], self.nodes[key] if key in numbers else None, node)
        focus = found.get(snapshot["focus"], 0)
        if focus != (self.focus if self.focus in numbers.values() else 0):
            edits.append({"focus": focus})
        self.nodes, self.numbers, self.focus, self.last_number = nodes, found, focus, places.last_number
        return edits


def changes(number, old, new):
    """The edits that change one node, once it is in its place. An inserted one has its attributes or characters by then."""
    if new.tag is None:
        is_same_text = old is None or old.text == new.text
        runs = old.runs if old is not None and is_same_text else []
        edits = [] if is_same_text else [{"text": number, "to": new.text}]
        return edits + ([] if runs == new.runs else [{"runs": number, "list": new.runs}])
    edits = [] if old is None else attribute_changes(number, old.attrs, new.attrs)
    frame = NOWHERE if old is None else old.frame
    return edits + ([] if frame == new.frame else [{"frame": number, "rect": new.frame}])


def attribute_changes(number, old, new):
    gone = [{"unset": number, "name": name} for name in old if name not in new]
    return gone + [{"set": number, "name": name, "value": value} for name, value in new.items() if old.get(name) != value]
