"""Notices of the second model: what a client is told of the step from one tree to the next.

Written from docs/STORY_FORMAT.md alone, section 10.
"""
STATES = ("checked", "expanded", "selected")


def state(record, word):
    """A state with its value, or None where the object does not have it."""
    return next((each for each in record.states if each.startswith(word + "=")), None)


def is_live_region(tree, record):
    """Whether an object is live otherwise than the object that it hangs on."""
    above = tree.records[record.parent].live if record.parent else "off"
    return record.live not in ("off", above)


def leaf_texts(tree, id):
    """What the objects without kids below an object say, in tree order; nothing where the tree lacks the object."""
    texts = []
    for kid in tree.records[id].kids if id in tree.records else ():
        record = tree.records[kid]
        texts += leaf_texts(tree, kid) if record.kids else [record.name if record.text is None else record.text]
    return texts


def notices(before, after):
    """The kinds and ids that are told of a step, in their order."""
    both = [(id, before.records[id], record) for id, record in sorted(after.records.items()) if id in before.records]
    changed = [(id, old, new) for id, old, new in both if old != new]
    told = [("focus", after.focus or 0)] if before.focus != after.focus else []
    told += [("children", id) for id, old, new in changed if old.kids != new.kids]
    told += [("name", id) for id, old, new in changed if old.name != new.name]
    told += [("value", id) for id, old, new in changed if old.value != new.value]
    for word in STATES:
        told += [(word, id) for id, old, new in changed if state(old, word) != state(new, word)]
    regions = [id for id, record in sorted(after.records.items()) if is_live_region(after, record)]
    return told + [("live", id) for id in regions if leaf_texts(before, id) != leaf_texts(after, id)]
