#!/usr/bin/env python3
"""Tests of the tools for pages.

    tools/pages/tests.py [--recorded] PROGRAM

PROGRAM is an axcore program. Random documents are led from one to the next, and the recorded stories of examples/pages are
compared with the second model and shown. Where Chromium is there, pages are recorded as well: three plain ones, which are also
compared, and some that are meant to do harm. Where it isn't, or with --recorded, a line says that they were left out. It ends with
status 1 if a test fails.
"""
import glob
import json
import os
import random
import re
import subprocess
import sys
import tempfile

HERE = os.path.dirname(os.path.abspath(__file__))
TOP = os.path.dirname(os.path.dirname(HERE))
sys.path.insert(0, HERE)

import difference  # noqa: E402
import model  # noqa: E402
import view  # noqa: E402

FAILURES = []


def expect(what, is_so, told=""):
    if not is_so:
        FAILURES.append(what)
        print("failed: %s %s" % (what, told))


def lines_of(story):
    return story.split("\n")[:-1]


# Differences of random documents.

class Pages:
    """Makes random snapshots, each after the one before, of a document whose nodes come, go, wander and change."""

    def __init__(self, seed):
        self.random, self.last, self.nodes, self.focus = random.Random(seed), 1, {1: self.node(None)}, 0
        self.away = []

    def node(self, parent, text=None):
        return {"parent": parent, "below": [], "text": text, "attrs": {}, "frame": [0, 0, 0, 0], "runs": []}

    def inside(self, key):
        return [key] + [each for child in self.nodes[key]["below"] for each in self.inside(child)]

    def shown(self):
        return self.inside(1)

    def depth(self, key):
        return 0 if key == 1 else 1 + self.depth(self.nodes[key]["parent"])

    def height(self, key):
        return max((1 + self.height(child) for child in self.nodes[key]["below"]), default=0)

    def hang(self, key, parent):
        below = self.nodes[parent]["below"]
        below.insert(self.random.randint(0, len(below)), key)
        self.nodes[key]["parent"] = parent

    def unhang(self, key):
        self.nodes[self.nodes[key]["parent"]]["below"].remove(key)

    def step(self):
        """One change."""
        shown, choice = self.shown(), self.random.random()
        key = self.random.choice(shown)
        places = [each for each in shown if self.nodes[each]["text"] is None]
        if choice < 0.4:
            self.last += 1
            self.nodes[self.last] = self.node(None, self.random.choice([None, None, "a", "b c"]))
            self.hang(self.last, self.random.choice(places[-5:]))
        elif choice < 0.6 and key != 1:
            self.unhang(key)
            rest = [each for each in self.shown() if self.nodes[each]["text"] is None]
            self.hang(key, self.random.choice(rest[-5:] if self.random.random() < 0.5 else rest))
        elif choice < 0.75 and key != 1:
            self.unhang(key)
            self.away.append(key)
        elif choice < 0.85 and self.away:
            self.hang(self.away.pop(self.random.randrange(len(self.away))), self.random.choice(places))
        elif self.nodes[key]["text"] is None:
            self.nodes[key]["attrs"][self.random.choice("abc")] = self.random.choice("123")
            self.nodes[key]["frame"] = [self.random.randint(0, 3), 0, 1, 1]
            self.nodes[key]["attrs"].pop(self.random.choice("abc"), None)
        else:
            self.nodes[key]["text"] = self.random.choice(["a", "b c", ""])
        self.focus = self.random.choice([0, self.focus, self.random.choice(self.shown())])

    def cut(self):
        """Takes what is too deep away."""
        for key in self.shown():
            if key in self.shown() and self.depth(key) > difference.MOST_LEVELS:
                self.unhang(key)
                self.away.append(key)

    def told(self, key):
        node = self.nodes[key]
        if node["text"] is None:
            return [key, node["parent"] or 0, "html" if key == 1 else "div", dict(node["attrs"]), list(node["frame"])]
        runs = [[0, len(node["text"]), 0, key, 0, 1, 1]] if node["text"] else []
        return [key, node["parent"], node["text"], runs]

    def snapshot(self):
        self.cut()
        shown = self.shown()
        return {"nodes": [self.told(key) for key in shown], "focus": self.focus if self.focus in shown else 0, "left": []}


def is_led(document, story, snapshot):
    """Whether the model's document is that of a snapshot."""
    numbers, children = story.numbers, {told[0]: [] for told in snapshot["nodes"]}
    for key, parent, *_ in snapshot["nodes"]:
        children.get(parent, []).append(numbers[key])
    for key, parent, *content in snapshot["nodes"]:
        node = document.nodes[numbers[key]]
        found = [node.text, node.runs] if node.is_text() else [node.tag, node.attrs, node.frame]
        if (found, node.children, node.parent) != (content, children[key], numbers.get(parent)):
            return False
    return len(document.nodes) == len(snapshot["nodes"]) and (document.focus or 0) == numbers.get(snapshot["focus"], 0)


def test_differences():
    """From each random document to the next: every edit is taken, and they lead exactly there."""
    edits_done = moves = 0
    for seed in range(30):
        pages, story, document = Pages(seed), difference.Story(), model.Document()
        for _ in range(25):
            for _ in range(pages.random.choice([1, 5, 40])):
                pages.step()
            snapshot = pages.snapshot()
            for edit in story.edits_to(snapshot):
                cause = document.cause(edit)
                expect("random documents, seed %d" % seed, cause is None, "%s: %s" % (cause, edit))
                if cause:
                    return
                document.apply(edit)
                edits_done, moves = edits_done + 1, moves + ("move" in edit)
            expect("random documents, seed %d" % seed, is_led(document, story, snapshot))
            if FAILURES:
                return
    print("differences: %d edits, %d of them moves, lead from each random document to the next" % (edits_done, moves))


def test_deep_move():
    """A node that goes to the deepest place while what is below it leaves: it can't be moved first, and comes anew."""
    chain = [[key, key - 1, "div", {}, [0, 0, 0, 0]] for key in range(2, 65)]
    root = [1, 0, "html", {}, [0, 0, 0, 0]]
    before = {"nodes": [root] + chain + [[100, 1, "p", {}, [0, 0, 0, 0]], [101, 100, "b", {}, [0, 0, 0, 0]]], "focus": 0, "left": []}
    after = {"nodes": [root] + chain + [[100, 64, "p", {}, [0, 0, 0, 0]], [101, 1, "b", {}, [0, 0, 0, 0]]], "focus": 0, "left": []}
    story, document = difference.Story(), model.Document()
    for snapshot in before, after:
        for edit in story.edits_to(snapshot):
            expect("a deep move", document.cause(edit) is None, edit)
            document.apply(edit)
        expect("a deep move", is_led(document, story, snapshot))


# Stories.

def written(program, command, story):
    done = subprocess.run([program, command], input=story.encode(), stdout=subprocess.PIPE, stderr=subprocess.DEVNULL)
    return done.stdout.decode(), done.returncode


def expect_accepted(what, program, story):
    """That the program takes a story, and writes of it what the model does."""
    for command in "dump", "replay":
        told, status = written(program, command, story)
        expect("%s: %s is taken" % (what, command), status == 0, told[:100])
        expect("%s: %s is the model's" % (what, command), (told, status) == model.answered(lines_of(story), command))


def test_recorded_stories():
    """What is kept of each recorded story is what the model writes, and it can be shown."""
    names = sorted(glob.glob(os.path.join(TOP, "examples", "pages", "*.story")))
    for path in names:
        with open(path, encoding="utf-8") as file:
            story = file.read()
        for command in "dump", "replay":
            with open(path[:-len("story")] + command, encoding="utf-8") as file:
                expect("%s of %s" % (command, path), (file.read(), 0) == model.answered(lines_of(story), command))
        page = view.page_of(lines_of(story), "a <title>")
        data = json.loads(re.search('<script id="data"[^>]*>(.*?)</script>', page, re.S)[1])
        expect("view of %s" % path, len(data["moments"]) == model.Story(lines_of(story)).flushes + 1 and "a &lt;title&gt;" in page)
    print("recorded stories: %d as the model has them" % len(names))


# Pages in Chromium.

def run_tool(tool, *words):
    done = subprocess.run([os.path.join(TOP, "tools", tool), *words], stdout=subprocess.PIPE, stderr=subprocess.PIPE, timeout=600)
    return done.stdout.decode(), done.stderr.decode(), done.returncode


class Folder:
    """A folder for pages that are made."""

    def __init__(self, folder):
        self.folder = folder

    def file(self, name, text):
        path = os.path.join(self.folder, name)
        with open(path, "w", encoding="utf-8") as file:
            file.write(text)
        return path


STEPS = {
    "form": [{"click": "#mail"}, {"type": "mia@tea.example"}, {"key": "Tab"}, {"key": "Space"}, {"click": "#send"}],
    "list": [{"click": "#turn"}],
    "table": [{"key": "Tab"}],
}
# What each plain page's last tree has.
SHOWN = {
    "form": ['document "Order"', 'textbox "Your mail"', 'checkbox "As a gift"', 'text "Sent to mia@tea.example"'],
    "list": ['navigation "Pages"', 'listitem ""', 'text "Plum"', 'text "of the page."'],
    "table": ['row "Green 3"', 'tab "Bag"', 'progressbar "Brewing"', 'menuitemcheckbox ""'],
}


def test_plain_pages(program, folder):
    for name, steps in STEPS.items():
        page, script = os.path.join(HERE, "tried", name + ".html"), folder.file(name + ".do", json.dumps(steps))
        story, _, status = run_tool("record", "--client", "--do", script, page)
        expect("%s is recorded" % name, status == 0)
        expect_accepted(name, program, story)
        dumped = written(program, "dump", story)[0]
        expect("the tree of %s" % name, all(each in dumped for each in SHOWN[name]), dumped)
        told, trouble, status = run_tool("compare", "--program", program, "--do", script, page)
        expect("%s is compared" % name, status == 0 and told.endswith(", 0 for no known reason\n"), told + trouble)
        print("%s: %s" % (name, told.splitlines()[-1] if told else trouble))


DEEP = "<!doctype html><body>" + "<div>" * 70 + "Deep" + "</div>" * 70
LONG = '<!doctype html><body><p title="%s" lang="en">A</p>' % ("x" * 10000)
CUSTOM = "<!doctype html><body><tea-pot role=button>Pour</tea-pot><tea_pot><b>Kept</b></tea_pot><p @click=x>B</p>"
DOUBLE = '<!doctype html><body><p id=a>First</p><p id=a>Second</p><div role=group aria-labelledby=a>C</div>'
ENDLESS = "<!doctype html><body><p>0</p><script>let n = 0; setInterval(() => document.querySelector('p').textContent = ++n, 5)</script>"
BIDI = """<!doctype html><meta charset="utf-8"><body style="width:200px"><p dir=rtl>שלום עולם, זה טקסט ארוך למדי abc 123</p>
<p>e\u0301 a\u0308 \U0001F44D\U0001F3FD z</p>"""
SHADOW = """<!doctype html><body><div id=a>Light</div>
<script>document.getElementById("a").attachShadow({mode: "open"}).innerHTML = "<p>Dark</p>"</script>"""
BACK = """<!doctype html><body><button id=b>Turn</button><p id=a>A</p><script>
const a = document.getElementById("a");
document.getElementById("b").addEventListener("click", () => { if (a.isConnected) a.remove(); else document.body.append(a); });
</script>"""

# Pages that are meant to do harm: the page, words, what the report says, and what the tree has.
HOSTILE = {
    "deep": (DEEP, [], "left out: 1 nodes over 64 levels", ["document"]),
    "long value": (LONG, [], "left out: 1 attributes whose values are over 4,096 bytes", ['text "A"']),
    "custom": (CUSTOM, [], "left out: 1 elements whose tags have other characters", ['button "Pour"', 'text "Kept"', 'text "B"']),
    "double": (DOUBLE, [], "recorded:", ['group "First"']),
    "endless": (ENDLESS, ["--flushes", "7"], "7 flushes", ["end 7"]),
    "bidi": (BIDI, [], "recorded:", ["שלום", "e\u0301 a\u0308 \U0001F44D\U0001F3FD z"]),
    "shadow": (SHADOW, [], "left out: 1 shadow trees", ['text "Light"']),
    "empty": ("", [], "recorded: 2 nodes, 0 flushes", ['1 0 document ""']),
}


def test_hostile_pages(program, folder):
    for name, (page, words, reported, shown) in HOSTILE.items():
        story, report, status = run_tool("record", "--client", *words, folder.file("page.html", page))
        expect("%s is recorded" % name, status == 0 and reported in report, report)
        expect_accepted(name, program, story)
        dumped = written(program, "dump", story)[0]
        expect("the tree of %s" % name, all(each in dumped for each in shown), dumped)
        inserted = re.findall('^{"insert":([0-9]+),', story, re.M)
        expect("the numbers of %s" % name, len(inserted) == len(set(inserted)))
    print("hostile pages: %d recorded" % len(HOSTILE))


def test_back(program, folder):
    """A node that goes and comes back is a new one."""
    script = folder.file("back.do", '[{"click":"#b"},{"click":"#b"}]')
    story, report, status = run_tool("record", "--do", script, folder.file("page.html", BACK))
    numbers = re.findall('^{"insert":([0-9]+),.*"text":"A"', story, re.M)
    expect("back is recorded", status == 0 and len(set(numbers)) == 2, report)
    expect_accepted("back", program, story)
    expect("the tree of back", re.search('^%s [0-9]+ text "A"$' % (numbers or [0])[-1], written(program, "dump", story)[0], re.M))


def test_leaving(program, folder):
    """A page that gives way to another ends the recording, with what was recorded by then."""
    folder.file("other.html", "<!doctype html><body><p>Other</p>")
    script = folder.file("leave.do", '[{"click":"a"},{"click":"a"}]')
    story, report, status = run_tool("record", "--do", script, folder.file("page.html", '<!doctype html><body><a href="other.html">Go</a>'))
    expect("leaving is recorded", status == 0 and "ended: the page gave way to another" in report, report)
    expect_accepted("leaving", program, story)
    expect("the tree of leaving", 'link "Go"' in written(program, "dump", story)[0])


def test_refusals(folder):
    """Each is one sentence with status 1."""
    page = folder.file("page.html", "<!doctype html><body><p>A</p>")
    scripts = ["/no/such/script", folder.file("a", '[{"jump":1}]'), folder.file("b", '[{"click":"#none"}]')]
    for words in [["/no/such/page"], ["http://example.org/"]] + [["--do", script, page] for script in scripts]:
        story, trouble, status = run_tool("record", *words)
        expect("a refusal: %s" % words, (story, status, trouble.count("\n")) == ("", 1, 1), trouble)


def main():
    words = [word for word in sys.argv[1:] if word != "--recorded"]
    if len(words) != 1:
        sys.exit(__doc__)
    program = os.path.abspath(words[0])
    test_differences()
    test_deep_move()
    test_recorded_stories()
    if "--recorded" in sys.argv:
        print("pages in Chromium: left out, as asked")
    else:
        test_in_browser(program)
    print("tools for pages: %s" % ("%d failed" % len(FAILURES) if FAILURES else "everything passed"))
    sys.exit(1 if FAILURES else 0)


def test_in_browser(program):
    """The tests that need Chromium; a line says so where it isn't there."""
    with tempfile.TemporaryDirectory() as name:
        folder = Folder(name)
        _, trouble, status = run_tool("record", folder.file("page.html", ""))
        if status and "Debian packages" in trouble:
            print("pages in Chromium: left out. " + trouble.strip())
        else:
            test_plain_pages(program, folder)
            test_hostile_pages(program, folder)
            test_back(program, folder)
            test_leaving(program, folder)
            test_refusals(folder)


if __name__ == "__main__":
    main()
