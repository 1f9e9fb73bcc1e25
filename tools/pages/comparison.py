"""Compares the tree of a recorded page with Chromium's own."""
import collections
import json
import subprocess

from browser import Trouble
from model import Document, dumped_objects, flat, is_edit
from reasons import reason

# Chromium's words for roles that ARIA calls otherwise.
ROLES = {"RootWebArea": "document", "StaticText": "text", "image": "img"}
# What Chromium shows of a text by line, which no tree of roles and names has.
PARTS_OF_TEXTS = ("InlineTextBox",)


class Seen:
    """What a tree shows of a node."""

    is_ignored, why_ignored = False, ()

    def __init__(self, role, name):
        self.role, self.name = role, name

    def told(self):
        return "%s %s" % (self.role, json.dumps(self.name, ensure_ascii=False))

    def is_shown(self):
        """Whether it counts as an object: a generic one without a name is as if it were not there."""
        return not self.is_ignored and not (self.role in ("generic", "none") and not self.name)


class Theirs(Seen):
    """What Chromium shows of a node."""

    def __init__(self, told):
        role = told["role"]["value"]
        super().__init__(ROLES.get(role, role), flat(told.get("name", {}).get("value", "")))
        self.is_ignored = told["ignored"]
        self.why_ignored = {each["name"] for each in told.get("ignoredReasons", [])}
        sources = told.get("name", {}).get("sources", [])
        self.names_from = {each["type"] for each in sources if "value" in each and not each.get("superseded")}


class Page:
    """What the reasons for differences are looked up in: our tree, which of its objects have kids, the story's last document, and
    the nodes that `visibility` hides."""

    def __init__(self, recording, program):
        self.ours, self.parents = our_tree(recording.text(), program)
        self.document = Document()
        for line in map(json.loads, recording.lines):
            if is_edit(line):
                self.document.apply(line)
        self.unseen = {recording.story.numbers.get(key) for key in recording.evaluate("recorder.unseen()")}


class Difference:
    """A node that the two trees show otherwise; `ours` or `theirs` is None where the tree lacks it, and `number` where the story
    lacks it."""

    def __init__(self, page, number, theirs):
        self.page, self.number, self.theirs = page, number, theirs
        self.ours, self.node = page.ours.get(number), page.document.nodes.get(number)
        self.reason = reason(self)

    def told(self):
        here, there = ("nothing" if it is None else it.told() for it in (self.ours, self.theirs))
        unknown = " ".join(["no reason is known"] + list(self.theirs.why_ignored if self.theirs else ()))
        return "%s: %s; Chromium: %s: %s" % (self.number or "-", here, there, self.reason or unknown)


def their_tree(recording):
    """Chromium's objects by the story's numbers, and those of no node of the story."""
    browser = recording.browser
    browser.call("DOM.getDocument", depth=0)
    browser.call("Accessibility.enable")
    told = [each for each in browser.call("Accessibility.getFullAXTree")["nodes"] if each["role"]["value"] not in PARTS_OF_TEXTS]
    ids = {}
    for each in told:
        if "backendDOMNodeId" in each:
            ids[browser.send("DOM.resolveNode", backendNodeId=each["backendDOMNodeId"], executionContextId=recording.context)] = each
    answers = browser.answers(ids)
    keys = keys_of(recording, [answer["object"]["objectId"] for answer in answers.values()])
    numbers = {id(ids[sent]): recording.story.numbers.get(key) for sent, key in zip(answers, keys)}
    found, others = {}, []
    for each in told:
        number = numbers.get(id(each))
        if number is None:
            others.append(Theirs(each))
        else:
            found[number] = Theirs(each)
    return found, others


def keys_of(recording, objects):
    """The recorder's keys of nodes that Chromium names as objects."""
    if not objects:
        return []
    words = {"functionDeclaration": "(...nodes) => recorder.keys_of(...nodes)", "arguments": [{"objectId": each} for each in objects]}
    answer = recording.browser.call("Runtime.callFunctionOn", executionContextId=recording.context, returnByValue=True, **words)
    return answer["result"]["value"]


def our_tree(story, program):
    """The objects that the program's dump shows, by their numbers, and the numbers of those with kids."""
    done = subprocess.run([program, "dump"], input=story.encode(), stdout=subprocess.PIPE, stderr=subprocess.DEVNULL)
    lines = done.stdout.decode().split("\n")[:-1]
    if done.returncode or not lines or not lines[-1].startswith("end "):
        raise Trouble("%s dump fails with status %d: %s" % (program, done.returncode, lines[0] if lines else ""))
    objects = list(dumped_objects(lines[:-1]))
    return {number: Seen(role, flat(name)) for number, _, role, name in objects}, {parent for _, parent, _, _ in objects}


def is_alike(here, there):
    return here is not None and there is not None and not there.is_ignored and (here.role, here.name) == (there.role, there.name)


def compare(recording, program):
    """The number of objects that are alike, and the differences in tree order, those of no node of the story last."""
    page, (theirs, others) = Page(recording, program), their_tree(recording)
    alike, differences = 0, []
    for number in recording.story.numbers.values():
        here, there = page.ours.get(number), theirs.get(number)
        if not any(each is not None and each.is_shown() for each in (here, there)):
            continue
        if is_alike(here, there):
            alike += 1
        else:
            differences.append(Difference(page, number, there))
    return alike, differences + [Difference(page, None, there) for there in others if there.is_shown()]


def totals(alike, differences):
    """One line that counts what was compared."""
    words = collections.Counter(each.reason for each in differences if each.reason)
    explained = sum(words.values())
    both = [each for each in differences if each.ours and each.theirs and each.theirs.is_shown()]
    roles = alike + sum(1 for each in both if each.ours.role == each.theirs.role)
    names = alike + sum(1 for each in both if each.ours.name == each.theirs.name)
    shared = "in both trees %d: %d with the same role, %d with the same name" % (alike + len(both), roles, names)
    listed = " (%s)" % ", ".join("%s %d" % each for each in words.most_common()) if words else ""
    counted = (alike, len(differences), explained, listed, len(differences) - explained)
    return shared + "; alike %d, different %d: %d by the profile%s, %d for no known reason" % counted
