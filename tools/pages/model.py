"""The second model of stories: the one place from which the tools for pages import it."""
import json
import os
import re
import sys

TOP = os.path.dirname(os.path.dirname(os.path.dirname(os.path.abspath(__file__))))
FOLDERS = [os.path.join(TOP, each) for each in ("model", "cases")]
sys.path.insert(0, next(folder for folder in FOLDERS if os.path.isfile(os.path.join(folder, "plays.py"))))
sys.setrecursionlimit(10000)

from documents import Document  # noqa: E402,F401
from notices import notices  # noqa: E402,F401
from plays import Refused, Story, answered  # noqa: E402,F401
from trees import Tree, flat  # noqa: E402,F401

OBJECT = re.compile(r'(\d+) (\d+) (\S+) (".*")')
NO_EDITS = {"start", "flush", "until", "turns", "await", "ask", "again", "hear", "notices"}


def is_edit(line):
    return not NO_EDITS & set(line)


def dumped_objects(lines):
    """The objects of the lines of a dump but its last, as number, parent, role and name."""
    for line in lines:
        number, parent, role, name = OBJECT.fullmatch(line).groups()
        yield int(number), int(parent), role, json.loads(name)
