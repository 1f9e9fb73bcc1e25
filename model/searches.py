"""Searches of the second model.

Texts are compared after default case folding: Python's `casefold`, by the data of the interpreter (unicodedata.unidata_version).
How a character is folded never changes once it is assigned.
"""
FIELDS = ("textbox", "searchbox", "combobox", "spinbutton", "slider")
LANDMARKS = ("banner", "complementary", "contentinfo", "form", "main", "navigation", "region", "search")
ROLES_OF_KEYS = {
    "text": ("text",), "heading": ("heading",), "link": ("link",), "button": ("button",), "checkbox": ("checkbox",), "radio": ("radio",),
    "list": ("list",), "field": FIELDS, "control": FIELDS + ("button", "checkbox", "radio", "switch"), "landmark": LANDMARKS,
    "table": ("table", "grid", "treegrid"), "image": ("img",),
}
KEYS = ("any", "live", "focusable", *ROLES_OF_KEYS)


def matches(record, key):
    if key in ROLES_OF_KEYS:
        return record.role in ROLES_OF_KEYS[key]
    return key == "any" or key == "live" and record.live != "off" or key == "focusable" and "focusable" in record.states


def answer(records, request):
    """What is found behind `from` in preorder, or before it in reverse."""
    ids, origin, text = list(records), request["from"], request.get("text")
    if origin and origin not in records:
        return "stale"
    if request["dir"] == "next":
        ids = ids[ids.index(origin) + 1:] if origin else ids
    else:
        ids = (ids[:ids.index(origin)] if origin else ids)[::-1]
    found = [id for id in ids if any(matches(records[id], key) for key in request["keys"])]
    if text is not None:
        found = [id for id in found if text.casefold() in records[id].name.casefold()]
    return " ".join(map(str, ["found", *found[:request["limit"]]])) if found else "none"
