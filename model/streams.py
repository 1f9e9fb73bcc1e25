#!/usr/bin/env python3
"""Streams that give and take a few bytes at a time, and that fail on the way, as far as they can be made outside the program.

    model/streams.py PROGRAM

PROGRAM is an axcore program. It reads from pipes that give 1 to 9 bytes at a time, from pipes that have no more to give before
their end, and from sockets that are reset; it writes to pipes that are read 1 to 9 bytes at a time, and to pipes that take a
part of the text and then no more. By the library of faults.py each call of the system reads or writes 1 to 9 bytes at most, and
each call in turn fails. Each run has a status to end with and a text that must be out by then. It ends with status 1 if a run
ends otherwise. Without a C compiler the last part is left out, as it says.
"""
import fcntl
import itertools
import os
import socket
import struct
import subprocess
import sys
import termios
import threading

from faults import Faults, Hung

DONE, REFUSED, READ_FAULT, WRITE_FAULT = 0, 2, 3, 4
STORY = b'{"insert":2,"into":1,"tag":"button","attrs":{"aria-label":"S\xc3\xa4ve"}}\n{"start":1}\n{"ask":{"q":"name","id":2}}\n'
TEXTS = {"dump": '1 0 document ""\n2 1 button "S\u00e4ve"\nend 0\n'.encode(), "replay": '#1 @0 name "S\u00e4ve"\nend 0\n'.encode(),
         "run": '#1 @0 name "S\u00e4ve"\nend 0\n'.encode()}
BROKEN, REFUSAL = STORY + b'{"focus":9}', b"refused 4 NoNode\n"
GENERATED = b"replies 3\nmoments 1\nbytes 65\n"
COUNT, SMALLEST_PIPE = 400, 4096
WIDE = b"".join(b'{"insert":%d,"into":1,"tag":"main"}\n' % id for id in range(2, COUNT)) + b'{"start":1}\n'
WIDE_TEXT = b'1 0 document ""\n' + b"".join(b'%d 1 main ""\n' % id for id in range(2, COUNT)) + b"end 0\n"


def waiting(descriptor):
    """How many bytes of a pipe are not read yet."""
    return struct.unpack("i", fcntl.ioctl(descriptor, termios.FIONREAD, b"\0" * 4))[0]


def fed(program, command, story, size):
    """A run whose input comes in pieces of that size, each after the one before was read."""
    reader, writer = os.pipe()
    child = subprocess.Popen([program, command], stdin=reader, stdout=subprocess.PIPE)
    for place in range(0, len(story), size):
        os.write(writer, story[place:place + size])
        while waiting(reader) and child.poll() is None:
            os.sched_yield()
    os.close(writer)
    text = child.stdout.read()
    os.close(reader)
    child.stdout.close()
    return child.wait(), text


def ended(program, command, source):
    done = subprocess.run([program, command], stdin=source, stdout=subprocess.PIPE)
    return done.returncode, done.stdout


def starved(program, command, story):
    """A run whose input gives these bytes and then neither more nor an end, and is not waited for."""
    reader, writer = os.pipe()
    os.set_blocking(reader, False)
    os.write(writer, story)
    found = ended(program, command, reader)
    os.close(writer)
    os.close(reader)
    return found


def reset(program, command, story):
    """A run whose input gives these bytes, and then that its other side went away with bytes unread."""
    near, far = socket.socketpair()
    with near, far:
        near.send(b"never read")
        far.sendall(story)
        far.close()
        return ended(program, command, near.fileno())


def drained(program, command, story, size):
    """A run whose output goes to the smallest pipe, and is read in pieces of that size."""
    reader, writer = os.pipe()
    fcntl.fcntl(writer, fcntl.F_SETPIPE_SZ, SMALLEST_PIPE)
    child = subprocess.Popen([program, command], stdin=subprocess.PIPE, stdout=writer)
    os.close(writer)
    feeder = threading.Thread(target=lambda: (child.stdin.write(story), child.stdin.close()))
    feeder.start()
    text = b"".join(iter(lambda: os.read(reader, size), b""))
    feeder.join()
    os.close(reader)
    return child.wait(), text


def stopped(program, command, story):
    """A run whose output takes as much as the smallest pipe holds and then no more: its status and what is out."""
    reader, writer = os.pipe()
    room = fcntl.fcntl(writer, fcntl.F_SETPIPE_SZ, SMALLEST_PIPE)
    os.set_blocking(writer, False)
    done = subprocess.run([program, command], input=story, stdout=writer)
    os.close(writer)
    text = b"".join(iter(lambda: os.read(reader, room), b""))
    os.close(reader)
    return done.returncode, text


def runs(program):
    """Each run: its title, how it ended, and how it must."""
    for command, text in TEXTS.items():
        for size in range(1, 10):
            yield "%s of input by %d bytes" % (command, size), fed(program, command, STORY, size), (DONE, text)
            yield "%s of a refused story by %d bytes" % (command, size), fed(program, command, BROKEN, size), (REFUSED, REFUSAL)
        for length in (0, 1, len(STORY) // 2, len(STORY) - 1, len(STORY)):
            yield "%s of input that stops after %d bytes" % (command, length), starved(program, command, STORY[:length]), (READ_FAULT, b"")
            yield "%s of input that is reset after %d bytes" % (command, length), reset(program, command, STORY[:length]), (READ_FAULT, b"")
    for size in (1, 2, 3, 5, 7, 9, SMALLEST_PIPE):
        yield "dump to a reader of %d bytes" % size, drained(program, "dump", WIDE, size), (DONE, WIDE_TEXT)
    yield "dump to a pipe that takes a part", stopped(program, "dump", WIDE), (WRITE_FAULT, WIDE_TEXT[:SMALLEST_PIPE])
    yield "dump to a pipe that takes all", stopped(program, "dump", STORY), (DONE, TEXTS["dump"])


class Calls:
    """Runs whose calls of read and write move few bytes, or fail."""

    def __init__(self, program, faults):
        self.program, self.faults = program, faults

    def ended(self, words, story, **given):
        """The status of a run and what is out, and its errors if there are some."""
        try:
            ended = self.faults.run([self.program, *words], story, **given)
        except Hung as hung:
            return None, str(hung).encode()
        return (ended.status, ended.text, ended.errors) if ended.errors else (ended.status, ended.text)

    def reads(self, words, story, end):
        """Short reads, and a fault at each call of read, the one that would find the end among them."""
        for size in range(1, 10):
            yield "%s by reads of %d bytes" % (words, size), self.ended(words, story, read_most=size), end
        calls = len(story) + 1 if words[0] != "gen" else 0
        for call in range(1, calls + 1):
            yield "%s, whose read %d fails" % (words, call), self.ended(words, story, read_most=1, read_fault=call), (READ_FAULT, b"")
        yield "%s without a read %d" % (words, calls + 1), self.ended(words, story, read_most=1, read_fault=calls + 1), end

    def writes(self, words, story, end):
        """Short writes, and a fault at each call of write."""
        for size in range(1, 10):
            yield "%s by writes of %d bytes" % (words, size), self.ended(words, story, write_most=size), end
            most = {"write_most": size, "write_fault": 2}
            yield "%s, whose second write of %d bytes fails" % (words, size), self.ended(words, story, **most), (WRITE_FAULT, end[1][:size])
        for call in range(1, len(end[1]) + 1):
            found = self.ended(words, story, write_most=1, write_fault=call)
            yield "%s, whose write %d fails" % (words, call), found, (WRITE_FAULT, end[1][:call - 1])
        call = len(end[1]) + 1
        yield "%s without a write %d" % (words, call), self.ended(words, story, write_most=1, write_fault=call), end

    def both(self, words, story, end):
        """Reads and writes that are short at once."""
        for size in range(1, 10):
            yield "%s by %d and %d bytes" % (words, size, 10 - size), self.ended(words, story, read_most=size, write_most=10 - size), end

    def runs(self):
        for command, text in TEXTS.items():
            for story, end in (STORY, (DONE, text)), (BROKEN, (REFUSED, REFUSAL)):
                for kind in self.reads, self.writes, self.both:
                    yield from kind([command], story, end)
        for kind in self.reads, self.writes:
            yield from kind(["gen", "1"], b"", (DONE, GENERATED))


def main():
    if len(sys.argv) != 2:
        sys.exit(__doc__)
    held = failed = 0
    program = os.path.abspath(sys.argv[1])
    faults = Faults.of(program)
    if faults is None:
        print("streams: short and failing calls are left out, for want of a C compiler")
    for title, found, due in itertools.chain(runs(program), Calls(program, faults).runs() if faults else ()):
        held += found == due
        if found != due:
            failed += 1
            print("%s: status %s and %r, for %d and %r" % (title, found[0], found[1:], due[0], due[1][:200]))
    print("streams: %d as they must be, %d otherwise" % (held, failed))
    sys.exit(1 if failed else 0)


if __name__ == "__main__":
    main()
