"""A table of cases: a story, a command, and what must be written."""
import subprocess
import sys

CASES = []


def case(title, command, story, text):
    """A story as lines or bytes; what must be written: a refusal's line and cause, or a text."""
    if not isinstance(story, bytes):
        story = ("\n".join(story) + "\n").encode()
    if isinstance(text, tuple):
        text, status = "refused %d %s\n" % text, 2
    else:
        status = 0
    CASES.append((title, command, story, text.encode(), status))


def refused(title, story, line, cause):
    """A refused story, by both commands."""
    case(title, "dump", story, (line, cause))
    case(title, "replay", story, (line, cause))


def compare(what, words, usage):
    """Runs the program of the command line on each case, and ends with status 1 if one is answered otherwise."""
    if len(words) < 2:
        sys.exit(usage)
    failed = 0
    for title, command, story, text, status in CASES:
        done = subprocess.run([*words[1:], command], input=story, stdout=subprocess.PIPE, stderr=subprocess.DEVNULL)
        if (done.stdout, done.returncode) != (text, status):
            failed += 1
            print("%s: %s: status %d, %r for %d, %r" % (command, title, done.returncode, done.stdout[:200], status, text[:200]))
    print("%s: %d as they must be, %d otherwise" % (what, len(CASES) - failed, failed))
    sys.exit(1 if failed else 0)
