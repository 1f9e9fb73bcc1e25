#!/usr/bin/env python3
"""Compares a program with a second, plain model of stories on random small ones.

    model/random_stories.py PROGRAM [SEED [COUNT]]

PROGRAM is an axcore program. The model (docs/MODEL.md) is written from docs/STORY_FORMAT.md alone, and shares nothing with the
proved sources; so a definition there that says something else than the format shows here. It ends with status 1 at the first
story that the two answer otherwise, and prints it. Limits that take long stories are left to limits.py.
"""
import subprocess
import sys

from makers import Maker
from plays import answered


def main():
    if len(sys.argv) < 2:
        sys.exit(__doc__)
    seed, count = int(sys.argv[2]) if len(sys.argv) > 2 else 1, int(sys.argv[3]) if len(sys.argv) > 3 else 1000
    maker, met = Maker(seed), {}
    for _ in range(count):
        lines = maker.story()
        for command in ("dump", "replay"):
            text, status = answered(lines, command)
            done = subprocess.run([sys.argv[1], command], input="".join(line + "\n" for line in lines).encode(),
                                  stdout=subprocess.PIPE, stderr=subprocess.DEVNULL)
            if (done.stdout.decode(), done.returncode) != (text, status):
                print("\n".join(lines))
                sys.exit("%s: status %d and\n%sfor %d and\n%s" % (command, done.returncode, done.stdout.decode(), status, text))
            word = text.split()[2] if status else "done"
            met[word] = met.get(word, 0) + 1
    print("random stories: %d as the model has them (%s)" % (count, ", ".join("%s %d" % item for item in sorted(met.items()))))


if __name__ == "__main__":
    main()
