"""The profile's own departures from Chromium's tree: which of them tells why a node is shown otherwise.

docs/BROWSERS.md has the table, by the same words. A test takes a difference; `ours` or `theirs` is None where the tree lacks
the node. The first one that holds is the reason.
"""
from model import flat

# The tags that have a role of their own, the roles below which nothing is an object, and those that cannot be named.
TAGS = "main article button nav p h1 h2 h3 h4 h5 h6 a img ul ol li table tr td th textarea input".split()
PRUNING = "button checkbox img option progressbar radio slider switch tab".split()
NAMELESS = "caption code emphasis generic none paragraph strong".split()
# Chromium's own words for why it shows no object.
INERT = {"activeModalDialog", "inertElement", "inertSubtree"}


def is_only_theirs(it):
    return it.ours is None and it.theirs.is_shown()


def is_only_ours(it):
    return it.ours is not None and (it.theirs is None or not it.theirs.is_shown())


def is_role(it):
    return it.ours is not None and not is_only_ours(it) and it.ours.role != it.theirs.role


def is_name(it):
    return it.ours is not None and not is_only_ours(it) and it.ours.role == it.theirs.role


def is_text(it):
    return it.number is not None and it.node.is_text()


def is_element(it, *tags):
    """Whether it is an element, with one of these tags if some are given."""
    return it.number is not None and not is_text(it) and (not tags or it.node.tag in tags)


def asks_for_no_role(it):
    return flat(it.node.attrs.get("role", "")) == ""


def no_node(it):
    return it.number is None


def title(it):
    return it.number == 1 and is_name(it)


def pruned(it):
    above = (it.page.ours.get(each) for each in it.page.document.above(it.number))
    return is_only_theirs(it) and any(each is not None and each.role in PRUNING for each in above)


def blank(it):
    return is_only_theirs(it) and is_text(it) and not flat(it.node.text)


def visibility(it):
    """Of a node that is not visible, or of a name with such a text in it."""
    if is_only_ours(it):
        return it.number in it.page.unseen
    return is_name(it) and any(each in it.page.unseen for each in it.page.document.subtree(it.number))


def tag(it):
    """Of an element whose tag gives no role, and that asks for none."""
    return is_element(it) and (is_only_theirs(it) or is_role(it)) and it.node.tag not in TAGS and asks_for_no_role(it)


def anchor(it):
    return is_element(it, "a") and "href" not in it.node.attrs and (is_only_theirs(it) or is_role(it))


def row(it):
    return is_name(it) and it.ours.role == "row"


def menu_choice(it):
    return is_name(it) and it.ours.role in ("menuitemcheckbox", "menuitemradio")


def list_item(it):
    return is_only_ours(it) and is_element(it, "li") and asks_for_no_role(it)


def input_type(it):
    return is_role(it) and is_element(it, "input") and asks_for_no_role(it)


def layout_table(it):
    return it.theirs is not None and it.theirs.role.startswith("LayoutTable")


def inert(it):
    return is_only_ours(it) and it.theirs is not None and bool(INERT & set(it.theirs.why_ignored))


def is_text_below(it, tag):
    """Whether it is a text that only our tree shows, below such an element."""
    above = (it.page.document.nodes[each] for each in it.page.document.above(it.number))
    return is_only_ours(it) and is_text(it) and any(each.tag == tag for each in above)


def label_text(it):
    """Of a label's text, which Chromium leaves to the box that it labels."""
    return is_text_below(it, "label")


def option_text(it):
    """Of an option's text in a closed list."""
    return is_text_below(it, "select")


def empty(it):
    """Of an element without kids or a name."""
    return is_only_ours(it) and is_element(it) and not it.ours.name and it.number not in it.page.parents


def inline(it):
    """Of a block that is laid out in a line."""
    return is_only_ours(it) and is_element(it) and it.node.attrs.get("display") == "inline" and not it.ours.name


def name_not_taken(it):
    return is_name(it) and it.ours.role in NAMELESS and not it.ours.name


def host_label(it):
    """Of a field that Chromium names by a placeholder, or by a label that is around it or not the first one."""
    return is_name(it) and is_element(it, "input", "textarea") and bool({"placeholder", "relatedElement"} & set(it.theirs.names_from))


def cut(it):
    return is_name(it) and len(it.ours.name) >= 511 and it.theirs.name.startswith(flat(it.ours.name))


def references(it):
    return is_name(it) and is_element(it) and len(it.node.attrs.get("aria-labelledby", "").split()) > 8


DEPARTURES = [
    ("no node", no_node), ("title", title), ("pruned", pruned), ("blank", blank), ("visibility", visibility), ("inert", inert),
    ("table", layout_table), ("anchor", anchor), ("tag", tag), ("input", input_type), ("listitem", list_item),
    ("label text", label_text), ("option text", option_text), ("empty", empty), ("inline", inline), ("row", row), ("menuitem", menu_choice),
    ("nameless", name_not_taken), ("label", host_label), ("cut", cut), ("references", references),
]


def reason(difference):
    """The word of the first departure that holds, or None."""
    return next((word for word, holds in DEPARTURES if holds(difference)), None)
