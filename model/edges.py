#!/usr/bin/env python3
"""What a program does at its edges: words that are no command, input that cannot be read or ends early, output that has no room.

    model/edges.py PROGRAM

PROGRAM is an axcore program. Each front of a story is an input, and output has room for each number of bytes up to the whole text.
Each run has a status to end with and a text that must be out by then. Where the words are no
command, nothing may be read either. Nothing is ever written to standard error. It ends with status 1 if a run ends otherwise.
"""
import os
import resource
import subprocess
import sys
import tempfile

DONE, REFUSED, READ_FAULT, WRITE_FAULT, WORDS = 0, 2, 3, 4, 6
STORY = b'{"insert":2,"into":1,"tag":"button","attrs":{"aria-label":"Save"}}\n{"start":1}\n{"ask":{"q":"name","id":2}}\n'
TEXTS = {"dump": b'1 0 document ""\n2 1 button "Save"\nend 0\n', "replay": b'#1 @0 name "Save"\nend 0\n', "run": b'#1 @0 name "Save"\nend 0\n'}
BROKEN, REFUSAL = STORY + b'{"focus":9}\n', b"refused 4 NoNode\n"
NO_COMMANDS = [[], [""], ["Dump"], ["dump "], ["--help"], ["dump", "x"], ["replay", "replay"]]
START, HOOKS = b'{"start":1}', b"[" * 200
FOLDER, FULL, UNREAD = "a folder", "a full device", "a pipe that nobody reads"


def source_of(what):
    """A descriptor to read: of a folder, or of a file of these bytes."""
    if what == FOLDER:
        return os.open(os.path.dirname(os.path.abspath(__file__)), os.O_RDONLY)
    with tempfile.TemporaryFile() as file:
        file.write(what)
        file.seek(0)
        return os.dup(file.fileno())


def sink_of(what):
    """A descriptor to write to: of a full device, of a pipe without a reader, or of an empty file."""
    if what == FULL:
        return os.open("/dev/full", os.O_WRONLY)
    if what == UNREAD:
        reader, writer = os.pipe()
        os.close(reader)
        return writer
    with tempfile.TemporaryFile() as file:
        return os.dup(file.fileno())


def text_in(sink):
    """What a file holds; nothing of what is no file."""
    size = os.fstat(sink).st_size
    return os.pread(sink, size, 0) if size else b""


def ended(program, words, source, sink):
    """The status of a run, the text that is out, what came to standard error, and how much was read.

    A number as the sink is a file that takes so many bytes. A signal must not end the program where it can write no more.
    """
    room = (lambda: resource.setrlimit(resource.RLIMIT_FSIZE, (sink, sink))) if isinstance(sink, int) else None
    reads, writes = source_of(source), sink_of(sink)
    done = subprocess.run([program, *words], stdin=reads, stdout=writes, stderr=subprocess.PIPE, preexec_fn=room, restore_signals=False)
    found = done.returncode, text_in(writes), done.stderr, 0 if source == FOLDER else os.lseek(reads, 0, os.SEEK_CUR)
    os.close(reads)
    os.close(writes)
    return found


def fronts(command):
    """Each proper front of a story, without its client's line, and what it must be answered with.

    The line in which it ends is no JSON where it isn't whole. Where it is whole but for its line feed, the story is as with it.
    """
    story = STORY[:STORY.index(START) + len(START)] + b"\n"
    for length in range(len(story)):
        front = story[:length]
        line, rest = front.count(b"\n") + 1, front.split(b"\n")[-1]
        if rest and rest not in story.split(b"\n"):
            yield front, REFUSED, b"refused %d BadJson\n" % line
        elif rest == START:
            yield front, DONE, TEXTS["dump"] if command == "dump" else b"end 0\n"
        else:
            yield front, REFUSED, b"refused 0 NoStart\n"


def runs():
    """Each run: its title, words, source and sink, its status and text, and how much is read, where that is told."""
    for words in NO_COMMANDS:
        for source, sink in (STORY, None), (FOLDER, FULL):
            yield "words that are no command", words, source, sink, WORDS, b"", 0
    for command, text in TEXTS.items():
        words = [command]
        yield "a story", words, STORY, None, DONE, text, len(STORY)
        yield "a refused story", words, BROKEN, None, REFUSED, REFUSAL, len(BROKEN)
        for front, status, due in fronts(command):
            yield "the first %d bytes of a story" % len(front), words, front, None, status, due, len(front)
        yield "a line of hooks", words, HOOKS, None, REFUSED, b"refused 1 BadJson\n", len(HOOKS)
        yield "a story that is too long", words, b" " * 16777300, None, REFUSED, b"refused 0 StoryTooLong\n", None
        for sink in (None, FULL):
            yield "a folder as input", words, FOLDER, sink, READ_FAULT, b"", None
        for story in (STORY, BROKEN):
            yield "a full device as output", words, story, FULL, WRITE_FAULT, b"", len(story)
            yield "output that nobody reads", words, story, UNREAD, WRITE_FAULT, b"", len(story)
        for story, whole, status in (STORY, text, DONE), (BROKEN, REFUSAL, REFUSED):
            for room in range(len(whole)):
                yield "output with room for %d bytes" % room, words, story, room, WRITE_FAULT, whole[:room], len(story)
            yield "output with room for all", words, story, len(whole), status, whole, len(story)


def main():
    if len(sys.argv) != 2:
        sys.exit(__doc__)
    held = failed = 0
    for title, words, source, sink, status, text, read in runs():
        found = ended(os.path.abspath(sys.argv[1]), words, source, sink)
        if found == (status, text, b"", found[3] if read is None else read):
            held += 1
        else:
            failed += 1
            print("%s, %s: status %d, text %r, errors %r, %d bytes read, for status %d, text %r, %s read" % (
                words, title, found[0], found[1][:200], found[2][:200], found[3], status, text, read))
    print("edges: %d as they must be, %d otherwise" % (held, failed))
    sys.exit(1 if failed else 0)


if __name__ == "__main__":
    main()
