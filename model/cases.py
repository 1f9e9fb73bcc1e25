#!/usr/bin/env python3
"""Compares the second model with the stories of cases/stories and of examples/, whose texts were worked out by hand.

    model/cases.py

It needs no program. What `run` may write is left to legal.py, and `gen` to generated.py. It ends with status 1 if one text is
another.
"""
import os
import sys

from plays import Refused, Story, lines_of, told

TOP = os.path.join(os.path.dirname(os.path.abspath(__file__)), "..")


def content(path):
    with open(path, "rb") as file:
        return file.read()


def cases():
    """The path of each story, its command, and what must be written."""
    stories, examples = os.path.join(TOP, "cases", "stories"), os.path.join(TOP, "examples")
    for name in sorted(os.listdir(stories)):
        if name.endswith(".stdout"):
            path = os.path.join(stories, name[:-len(".stdout")])
            yield path, content(path + ".args").decode().strip(), content(path + ".stdout").decode()
    for name in sorted(os.listdir(examples)):
        story, _, command = os.path.join(examples, name).rpartition(".")
        if command in ("dump", "replay"):
            yield story + ".story", command, content(os.path.join(examples, name)).decode()


def main():
    held = failed = 0
    for path, command, due in cases():
        if command not in ("dump", "replay"):
            continue
        try:
            text = told(Story(lines_of(content(path))), command)
        except Refused as refusal:
            text = str(refusal)
        held += text == due
        if text != due:
            failed += 1
            print("%s: the model has\n%sfor\n%s" % (os.path.relpath(path, TOP), text, due))
    print("cases of the model: %d as they must be, %d otherwise" % (held, failed))
    sys.exit(1 if failed else 0)


if __name__ == "__main__":
    main()
