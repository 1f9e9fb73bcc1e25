#!/usr/bin/env python3
"""Tries the stories of flushes.py: whether they notice a page that forgets to renew something.

    model/forgotten.py [SEED [FLUSHES]]

It needs no program. In its place stands a page that keeps the record of each object from flush to flush, and renews those that its
marks reach: what an edit touched, what is below what was moved or hides or prunes otherwise, the elements that carry or name an `id`
that wandered, the labels of fields, and all that is above one of them. With all of that it must say what the model says. Then each
part is forgotten, one after the other, and the stories must notice it within so many flushes, 2,000 if none are given. It ends with
status 1 where one is not noticed, or where the whole page is wrong.
"""
import sys

import flushes
from nodes import Facts
from trees import Shown, Tree

PARTS = ("the edited node", "the old parent", "what is below a moved or inserted node", "what is below a node that hides or shows",
         "what is below a node that prunes or not", "what is below a node that sets live", "ids", "the `for` of labels",
         "words of the old document", "words of the new document", "words below", "words above", "carriers of an id",
         "namers by aria-labelledby", "namers by aria-describedby", "what is above a marked node", "what is above a namer")


class Noticed(Exception):
    """The stories noticed that something is not renewed."""


class ForgetfulPage(flushes.Page):
    """A page that notes marks with each edit, but for the parts that it forgets."""

    def __init__(self, seed, forgotten):
        self.forgotten, self.marked, self.roots, self.words = forgotten, set(), set(), set()
        super().__init__(seed)

    def knows(self, part):
        return part not in self.forgotten

    def do(self, **edit):
        if self.document.cause(edit) is not None:
            return
        id, nodes = next(iter(edit.values())), self.document.nodes
        marked, roots, before = set(), set(), self.own(id)
        if self.knows("the edited node") and id:
            marked.add(id)
        if "into" in edit:
            marked.add(edit["into"])
        if self.knows("the old parent") and ("move" in edit or "remove" in edit):
            marked.add(nodes[id].parent)
        if ("move" in edit or "insert" in edit) and self.knows("what is below a moved or inserted node"):
            roots.add(id)
        gone = {id} if "remove" in edit else set()
        if self.knows("words of the old document"):
            self.words |= self.carried(marked, roots | gone)
        super().do(**edit)
        for place, part in enumerate(("hides or shows", "prunes or not", "sets live")):
            title = "what is below a node that " + part
            if before and self.own(id) and before[place] != self.own(id)[place] and self.knows(title):
                roots.add(id)
        if self.knows("words of the new document"):
            self.words |= self.carried(marked, roots)
        self.marked |= marked
        self.roots |= roots

    def own(self, id):
        """What a node says to all below it."""
        if id not in self.document.nodes:
            return None
        facts = Facts(id, self.document.nodes[id])
        return facts.hides, facts.prunes, facts.own_live

    def carried(self, marked, roots):
        """The words that these nodes, what is below these roots and what is above them carry."""
        nodes, found = self.document.nodes, set()
        below = {each for root in roots if root in nodes for each in self.document.subtree(root)} if self.knows("words below") else roots
        near = (below | marked) & set(nodes)
        above = {each for id in near for each in self.document.above(id)} if self.knows("words above") else near
        for id in near | above:
            if "id" in nodes[id].attrs and self.knows("ids"):
                found.add(nodes[id].attrs["id"])
            if nodes[id].tag == "label" and "for" in nodes[id].attrs and self.knows("the `for` of labels"):
                found.add(nodes[id].attrs["for"])
        return found

    def with_above(self, ids, part):
        """These nodes and all above them."""
        return {each for id in ids for each in self.document.above(id)} if self.knows(part) else set(ids)

    def is_touched(self, facts):
        """Whether an element carries or names a word that wandered."""
        return (self.knows("carriers of an id") and "id" in facts.attrs and facts.own_id in self.words
                or self.knows("namers by aria-labelledby") and bool(self.words & set(facts.labelled_by))
                or self.knows("namers by aria-describedby") and bool(self.words & set(facts.described_by))
                or facts.label_for in self.words)

    def reach(self, shown):
        """What is to be renewed. The marks are empty then."""
        nodes = self.document.nodes
        below = {each for root in self.roots & set(nodes) for each in self.document.subtree(root)}
        reach = self.with_above((self.marked & set(nodes)) | below, "what is above a marked node")
        elements = [shown.facts(id) for id, node in nodes.items() if not node.is_text()]
        reach |= self.with_above([facts.id for facts in elements if self.is_touched(facts)], "what is above a namer")
        fields = {nodes[id].attrs["id"] for id in reach if "id" in nodes[id].attrs}
        for facts in elements:
            if facts.label_for in fields:
                reach |= set(self.document.above(facts.id))
        self.marked, self.roots, self.words = set(), set(), set()
        return reach


class ForgetfulTold(flushes.Told):
    """A story whose replies are held against those of a forgetful page."""

    def __init__(self, seed, forgotten):
        self.page = ForgetfulPage(seed, forgotten)
        self.kept = None
        self.begin()

    def flush(self):
        if self.kept is None:
            self.kept = Tree(self.page.document)
            self.page.reach(Shown(self.page.document))
        super().flush()
        reach, kept = self.page.reach(Shown(self.page.document)), self.kept.records
        self.kept = Tree(self.page.document)
        records = self.kept.records
        # What is not renewed stays as it is: an object with its old record, a node that was no object none.
        for id in records.keys() - reach:
            if id in kept:
                records[id] = kept[id]._replace(parent=records[id].parent)
            else:
                del records[id]
        for id in kept.keys() & self.page.document.nodes.keys() - records.keys() - reach:
            records[id] = kept[id]

    def client(self, line, told):
        super().client(line, told)
        request = line.get("ask") or line.get("again")
        if request and self.kept.answer(request) != told:
            raise Noticed


def noticed(seed, count, forgotten):
    """After how many flushes the stories notice what is forgotten; None if they do not."""
    flushed = story = 0
    while flushed < count:
        told = ForgetfulTold("%s-%d" % (seed, story), forgotten)
        try:
            while told.moment < flushes.FLUSHES_OF_A_STORY and flushed + told.moment < count:
                told.flush()
                told.look()
        except Noticed:
            return flushed + told.moment
        flushed, story = flushed + told.moment, story + 1
    return None


def main():
    if len(sys.argv) > 3:
        sys.exit(__doc__)
    seed, count = sys.argv[1] if len(sys.argv) > 1 else "1", int(sys.argv[2]) if len(sys.argv) > 2 else 2000
    if noticed(seed, min(count, 300), ()) is not None:
        sys.exit("a page that forgets nothing is not as the model")
    missed = 0
    for part in PARTS:
        after = noticed(seed, count, (part,))
        missed += after is None
        print("%s: %s" % (part, "not noticed in %d flushes" % count if after is None else "noticed after %d flushes" % after), flush=True)
    print("forgotten: %d parts noticed, %d not" % (len(PARTS) - missed, missed))
    sys.exit(1 if missed else 0)


if __name__ == "__main__":
    main()
