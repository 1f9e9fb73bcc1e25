"""Records a page as a story: its document, and what changes by animation frame."""
import collections
import json
import os
import time
import urllib.parse

from browser import Trouble
from difference import Full, Story
from model import Document, Tree, is_edit
from script import Hands

WORLD = "axcore"
REST, GOING, LONGEST_STEP, LOADING = 0.4, 0.5, 10, 60
MOST_FLUSHES, MOST_BYTES = 65535, 16777216
HERE = os.path.dirname(os.path.abspath(__file__))
HOSTS = ("localhost", "127.0.0.1", "::1")
LEFT = {
    "attribute name": "attributes whose names have other characters",
    "attribute value": "attributes whose values are over 4,096 bytes",
    "attribute display": "attributes `display` of the page where the computed word is another",
    "text": "texts over 65,536 characters",
    "half character": "texts or values with half a character, written as U+FFFD",
    "coordinate": "nodes with a coordinate beyond 1,048,576, which is cut",
    "level": "nodes over 64 levels, with what is below them",
    "tag": "elements whose tags have other characters; what is below them is kept",
    "head": "heads, with what is below them",
    "script": "scripts, styles, templates and noscripts, with what is below them",
    "comment": "comments and other nodes",
    "shadow tree": "shadow trees",
    "framed page": "pages in frames",
}


def address(page):
    """The address of a page that is given as a file or an address, or Trouble where that is not of this machine."""
    parts = urllib.parse.urlsplit(page)
    if parts.scheme in ("http", "https"):
        if parts.hostname in HOSTS:
            return page
        raise Trouble("%s is no address of this machine: localhost, 127.0.0.1 and ::1 are" % page)
    if parts.scheme == "file":
        return page
    if not os.path.isfile(page):
        raise Trouble("there is no file %s" % page)
    return "file://" + urllib.parse.quote(os.path.abspath(page))


class Recording:
    """A story that is being recorded in a browser. `lines` has it; `left` counts what was left out, by kind."""

    def __init__(self, browser, flushes, is_heard):
        self.browser, self.story, self.lines, self.bytes = browser, Story(), [], 0
        self.most, self.is_heard, self.flushes, self.heard_at = min(flushes, MOST_FLUSHES), is_heard, 0, None
        self.left, self.is_over, self.is_gone, self.context = collections.defaultdict(set), None, False, None
        self.is_loaded, self.is_at_rest, self.loader, self.idle = False, False, None, set()
        self.document, self.modelled = Document(), 0

    def open(self, page):
        """Opens a page, and writes its document before the start."""
        browser = self.browser
        browser.heard = self.hear
        browser.call("Page.enable")
        browser.call("Page.setLifecycleEventsEnabled", enabled=True)
        browser.call("Runtime.enable")
        browser.call("Emulation.setFocusEmulationEnabled", enabled=True)
        answer = browser.call("Page.navigate", url=address(page))
        self.loader = answer.get("loaderId")
        if "errorText" in answer:
            raise Trouble("Chromium cannot open %s: %s" % (page, answer["errorText"]))
        end = time.monotonic() + LOADING
        while not self.is_loaded and time.monotonic() < end:
            browser.receive(end - time.monotonic())
        self.enter()
        told = self.evaluate("recorder.begin()")
        if not told:
            raise Trouble("the page gave way to another before it could be recorded")
        self.write_base(json.loads(told))

    def write_base(self, snapshot):
        """Writes the document of moment 0, and the start."""
        try:
            edits = self.story.edits_to(snapshot)
        except Full:
            raise Trouble("the page has more than 65,536 nodes, which is more than a story can have")
        self.count_left_out(snapshot)
        if not self.write(edits + [{"start": 1}]):
            raise Trouble("the page makes a story of more than 16,777,216 bytes")
        self.talk()

    def enter(self):
        """Puts the recorder into a world of its own in the page."""
        frame = self.browser.call("Page.getFrameTree")["frameTree"]["frame"]["id"]
        self.context = self.browser.call("Page.createIsolatedWorld", frameId=frame, worldName=WORLD)["executionContextId"]
        self.browser.call("Runtime.addBinding", name="tell_frame", executionContextName=WORLD)
        with open(os.path.join(HERE, "recorder.js"), encoding="utf-8") as file:
            self.evaluate(file.read())

    def evaluate(self, expression):
        """What an expression gives in the recorder's world; None where the page gave way to another."""
        sent = self.browser.send("Runtime.evaluate", expression=expression, contextId=self.context, returnByValue=True)
        answer = self.browser.answers([sent]).get(sent)
        if answer is None:
            self.browser.listen(GOING)
            if self.is_gone:
                return None
            raise Trouble("Chromium refuses to evaluate in the page")
        if "exceptionDetails" in answer:
            raise Trouble("the recorder fails in this page: %s" % answer["exceptionDetails"].get("exception", {}).get("description"))
        return answer["result"].get("value")

    def hear(self, method, params):
        """Takes an event."""
        if method == "Page.loadEventFired":
            self.is_loaded = True
        elif method == "Page.lifecycleEvent" and params["name"] == "networkIdle":
            self.idle.add(params["loaderId"])
        elif method == "Page.javascriptDialogOpening":
            self.browser.send("Page.handleJavaScriptDialog", accept=True)
        elif method == "Runtime.bindingCalled" and params["name"] == "tell_frame":
            self.is_at_rest = not params["payload"]
            if params["payload"]:
                self.take(json.loads(params["payload"]))
        elif method == "Runtime.executionContextDestroyed" and params["executionContextId"] == self.context:
            self.leave()
        elif method == "Runtime.executionContextsCleared" and self.context is not None:
            self.leave()

    def leave(self):
        self.is_gone = True
        self.end("the page gave way to another")

    def count_left_out(self, snapshot):
        for kind, key, name in snapshot["left"]:
            self.left[kind].add((key, name))

    def write(self, lines):
        """Adds lines; answers whether there was room for them."""
        told = [json.dumps(line, ensure_ascii=False, separators=(",", ":")) for line in lines]
        size = sum(len(line.encode()) + 1 for line in told)
        if self.bytes + size > MOST_BYTES:
            self.end("the story would have more than 16,777,216 bytes")
            return False
        self.lines += told
        self.bytes += size
        return True

    def end(self, reason):
        self.is_over = self.is_over or reason

    def take(self, snapshot):
        """Writes a frame, with one flush, as far as the story takes more."""
        if self.is_over:
            return
        if self.flushes >= self.most:
            self.end("%d flushes are written, and the page changes again" % self.most)
            return
        try:
            edits = self.story.edits_to(snapshot)
        except Full:
            self.end("more than 65,536 nodes were shown")
            return
        self.count_left_out(snapshot)
        if edits and self.write(edits + [{"flush": True}]):
            self.flushes += 1

    def settle(self, least, longest=LONGEST_STEP):
        """Hears the page for so many seconds, and then until it has loaded what it asks for and rests, or for as long as that.

        It rests where nothing changed in a number of frames, and for a while."""
        if self.is_over:
            return
        begin, self.is_at_rest = time.monotonic(), False
        self.evaluate("recorder.watch()")
        while not self.is_over:
            waited = time.monotonic() - begin
            is_done = self.is_at_rest and self.loader in self.idle and waited >= REST
            if waited >= least and (is_done or waited >= least + longest):
                break
            self.browser.receive(0.05)

    def play(self, steps):
        """Lets the page run and does the steps, until the page rests or the recording is over."""
        hands = Hands(self.browser, self.context)
        self.settle(0, LOADING)
        self.talk()
        for index, (kind, what) in enumerate(steps, 1):
            if self.is_over:
                break
            hands.do(index, kind, what)
            self.settle(what / 1000 if kind == "wait" else 0)
            self.talk()

    def close(self):
        """Ends the recording with the document as it is now, where that differs from the last frame."""
        if not self.is_gone:
            told = self.evaluate("recorder.end()")
            if told:
                self.take(json.loads(told))
        self.talk()

    def talk(self):
        """Writes what a client does at this moment: it asks about the focus, and for what happened. The page waits for it."""
        if not self.is_heard or self.heard_at == self.flushes:
            return
        self.heard_at, focus = self.flushes, self.focused_object()
        asked = [{"q": "focus"}] + [{"q": word, "id": focus} for word in ("role", "name", "description", "states", "value") if focus]
        waits = [{"until": self.flushes}, {"await": self.flushes}] if self.flushes else []
        self.write(waits + [{"again": request} for request in asked] + ([{"notices": True}] if self.flushes else []))

    def focused_object(self):
        """The object with the focus, by the second model; None without one."""
        for line in map(json.loads, self.lines[self.modelled:]):
            if is_edit(line):
                self.document.apply(line)
        self.modelled = len(self.lines)
        return Tree(self.document).focus

    def text(self):
        return "".join(line + "\n" for line in self.lines)

    def report(self):
        """What was left out, and what ended the recording, line by line."""
        lines = ["left out: %d %s" % (len(found), LEFT[kind]) for kind, found in sorted(self.left.items())]
        lines += ["ended: " + self.is_over] if self.is_over else []
        return lines + ["recorded: %d nodes, %d flushes, %d bytes" % (len(self.story.nodes), self.flushes, self.bytes)]


def record(browser, page, steps, flushes, is_heard):
    """Records a page to its end."""
    recording = Recording(browser, flushes, is_heard)
    recording.open(page)
    recording.play(steps)
    recording.close()
    return recording
