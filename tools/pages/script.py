"""Scripts: what is done to a page, as a JSON list of steps.

    {"click": SELECTOR}     the mouse, at the middle of the first element that the CSS selector finds
    {"hover": SELECTOR}     the mouse goes there
    {"type": TEXT}          key by key
    {"key": KEY}            one key: a character, Tab, Enter, Escape, ArrowDown .., also with Shift+, Control+, Alt+ in front
    {"wait": MILLISECONDS}  0 to 60000
"""
import json

from browser import Trouble

KINDS = {"click": str, "hover": str, "type": str, "key": str, "wait": int}
LONGEST_WAIT = 60000
MODIFIERS = {"Alt": 1, "Control": 2, "Meta": 4, "Shift": 8}
KEY_CODES = {"Backspace": 8, "Tab": 9, "Enter": 13, "Escape": 27, " ": 32, "Space": 32, "PageUp": 33, "PageDown": 34, "End": 35, "Home": 36,
             "ArrowLeft": 37, "ArrowUp": 38, "ArrowRight": 39, "ArrowDown": 40, "Delete": 46}
MIDDLE = """(selector => {
    const element = document.querySelector(selector);
    if (!element) return null;
    element.scrollIntoView({block: "nearest", inline: "nearest"});
    const box = element.getBoundingClientRect();
    return [box.left + box.width / 2, box.top + box.height / 2];
})(%s)"""


def read_script(path):
    """The steps of a file, each as its kind and what stands there, or Trouble."""
    try:
        with open(path, encoding="utf-8") as file:
            steps = json.load(file)
    except (OSError, ValueError) as error:
        raise Trouble("the script %s cannot be read: %s" % (path, error))
    if not isinstance(steps, list):
        raise Trouble("the script %s is no JSON list" % path)
    return [step_of(index, step) for index, step in enumerate(steps, 1)]


def step_of(index, step):
    kind, what = next(iter(step.items())) if isinstance(step, dict) and len(step) == 1 else (None, None)
    if kind not in KINDS or type(what) is not KINDS[kind] or kind == "wait" and not 0 <= what <= LONGEST_WAIT:
        raise Trouble("step %d of the script is none: %s" % (index, json.dumps(step)))
    if kind == "key":
        keys_of(index, what)
    return kind, what


def keys_of(index, name):
    """The modifiers and the key of a name as Shift+Tab."""
    *held, key = name.split("+") if len(name) > 1 else [name]
    if any(each not in MODIFIERS for each in held) or len(key) != 1 and key not in KEY_CODES:
        raise Trouble("step %d of the script names no key: %s" % (index, name))
    return sum(MODIFIERS[each] for each in held), " " if key == "Space" else key


class Hands:
    """Does the steps of a script in a page."""

    def __init__(self, browser, context):
        self.browser, self.context = browser, context

    def do(self, index, kind, what):
        """Does one step; a wait is the caller's."""
        if kind in ("click", "hover"):
            self.point(index, what, kind == "click")
        elif kind == "key":
            self.press(*keys_of(index, what))
        elif kind == "type":
            for character in what:
                self.press(0, character)

    def point(self, index, selector, is_click):
        found = self.browser.call("Runtime.evaluate", expression=MIDDLE % json.dumps(selector), contextId=self.context, returnByValue=True)
        place = found["result"].get("value")
        if not place:
            raise Trouble("step %d of the script finds no element: %s" % (index, selector))
        at = {"x": place[0], "y": place[1]}
        self.browser.call("Input.dispatchMouseEvent", type="mouseMoved", **at)
        if is_click:
            self.browser.call("Input.dispatchMouseEvent", type="mousePressed", button="left", buttons=1, clickCount=1, **at)
            self.browser.call("Input.dispatchMouseEvent", type="mouseReleased", button="left", clickCount=1, **at)

    def press(self, modifiers, key):
        if len(key) == 1 and key.upper() not in KEY_CODES and not (key.isascii() and key.isalnum()):
            self.browser.call("Input.insertText", text=key)
            return
        code = KEY_CODES.get(key) or ord(key.upper())
        about = {"key": key, "windowsVirtualKeyCode": code, "modifiers": modifiers, "code": code_name(key)}
        text = {"Enter": "\r"}.get(key, key if len(key) == 1 else "")
        says = {"text": text} if text and not modifiers & ~MODIFIERS["Shift"] else {}
        self.browser.call("Input.dispatchKeyEvent", type="keyDown" if says else "rawKeyDown", **about, **says)
        self.browser.call("Input.dispatchKeyEvent", type="keyUp", **about)


def code_name(key):
    """The name of the place of a key on a keyboard."""
    if key == " ":
        return "Space"
    return ("Digit" if key.isdigit() else "Key") + key.upper() if len(key) == 1 else key
