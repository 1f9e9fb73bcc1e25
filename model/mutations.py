#!/usr/bin/env python3
"""Compares a program with the second model on inputs that are nearly stories.

    model/mutations.py PROGRAM [SEED [COUNT]]

PROGRAM is an axcore program. Random stories are changed in one to three places: bytes are flipped, put in and taken out, lines are
cut, doubled, swapped, joined and split, numbers get huge or get another form, values are nested deep, strings get half pairs of
surrogates and NULs, keys are written twice, stretches of bytes are cut, doubled and moved over the ends of lines, lines of another
story are put between, and now and then a line gets up to 16 MB, or a value of up to 500,000 bytes of small ones. What `dump` and `replay`
write, and their status, must be the model's. Of each run the memory is counted that it holds at once (faults.py): it must be at most
256 KiB, 200 bytes for each byte of the input and of the text, and 128 bytes times the greatest number below 131,072 in the input,
as nodes with such an id stand in tables that long. It ends with status 1 at the first input that is answered otherwise or takes
more, and leaves it in a file. Without a C compiler memory is not counted, as it says.
"""
import os
import re
import subprocess
import sys
import tempfile

from faults import Faults
from makers import Maker, Words
from plays import LONGEST_STORY, answered_of

NUMBER = re.compile(rb"-?[0-9]+")
STRING = re.compile(rb'"(?:[^"\\]|\\.)*"')
MEMBER = re.compile(rb'"[a-z_]+":(?:-?[0-9]+|true|"[^"\\]*")')
WORD = re.compile(rb"true|false|null")
NUMBERS = (b"0", b"-1", b"-0", b"1.0", b"1e0", b"1E+2", b"1e400", b"-1e400", b"1e-400", b"0e400", b"00", b"01", b"+1", b".5", b"1.", b"0x10",
           b"2147483647", b"2147483648", b"4294967295", b"4294967296", b"1073741823", b"1073741824", b"65536", b"65537", b"1048576", b"1048577",
           b"-1048576", b"-1048577", b"9223372036854775807", b"9223372036854775808", b"18446744073709551615", b"18446744073709551616",
           b"-9223372036854775808", b"-9223372036854775809", b"9" * 400, b"1" + b"0" * 300, b"8" * 50000, b"NaN", b"Infinity", b"-Infinity", b"\xd9\xa3")
ESCAPES = (b"\\ud800", b"\\udc00", b"\\ud83d\\ude00", b"\\ud800\\ud800", b"\\udc00\\ud800", b"\\ud800x", b"\\ud800\\n", b"\\uD83D\\uDE00", b"\\u0000",
           b"\\u00e9", b"\\u0", b"\\u+123", b"\\x41", b"\\'", b"\\/", b"\\", b"\x00", b"\x1f", b"\t", b"\x7f", b"\xc2\x85", b"\xe2\x80\xa8",
           b"\xf0\x9f\x91\x8d", b"e\xcc\x81")
BYTES = (b"\x00", b"\xff", b"\xc0\x80", b"\xed\xa0\x80", b"\xf4\x90\x80\x80", b"\xef\xbb\xbf", b"\xe2\x82", b"\r", b"\n", b"\x0b", b"\x0c", b"\xc2\xa0", b" ", b"\t",
         b"{", b"}", b"[", b"]", b",", b":", b'"', b"\\", b"/", b"//", b"#")
LINES = (b"", b" ", b"\r", b"\t \r", b"\x0b", b"\x00", b"{}", b"[]", b"null", b"1", b'"start"', b'{"start":1}', b'{"flush":true}', b'{"turns":""}',
         b'{"until":1}', b'{"await":1}', b'{"hear":true}', b'{"notices":true}')
DEPTHS = (1, 126, 127, 128, 129, 1000, 100000)
SMALL_VALUES = (b'1,', b'[],', b'{},', b'[1],', b'"",', b'{"":1},', b'{"":' * 100 + b'1' + b'}' * 100 + b',')
ID = re.compile(rb"(?<![0-9])[0-9]{1,6}(?![0-9])")
MOST_HELD, FOR_A_BYTE, FOR_AN_ID, NEAR, LARGE = 1 << 18, 200, 128, 131072, 1 << 16


def most_held(source, text):
    """How many bytes a run with this input and this text may hold at once."""
    ids = [number for number in map(int, set(ID.findall(source))) if number < NEAR]
    return MOST_HELD + FOR_A_BYTE * (len(source) + len(text)) + FOR_AN_ID * max(ids, default=0)


class Mutator(Words):
    """Changes of an input in one place."""

    other = b""

    def place(self, source):
        return self.random.randrange(len(source) + 1)

    def replaced(self, source, form, others):
        """One piece of that form replaced."""
        found = list(form.finditer(source))
        if not found:
            return source
        piece = self.random.choice(found)
        return source[:piece.start()] + others(piece.group()) + source[piece.end():]

    def byte(self, source):
        place = self.place(source)
        flipped = bytes([source[place] ^ 1 << self.random.randrange(8)]) if place < len(source) else b"\x01"
        put = self.one_of(flipped, flipped, b"", self.one_of(*BYTES))
        return source[:place] + put + source[place + self.one_of(0, 1, 1):]

    def number(self, source):
        return self.replaced(source, NUMBER, lambda _: self.one_of(*NUMBERS))

    def string(self, source):
        """A string with another character in it."""
        def other(piece):
            place = self.random.randrange(1, len(piece))
            return piece[:place] + self.one_of(*ESCAPES) + piece[place:]
        return self.replaced(source, STRING, other)

    def value(self, source):
        """A value of another kind, or the same nested deeper."""
        def other(piece):
            depth = self.one_of(*DEPTHS)
            nested = self.one_of(b"[" * depth + piece + b"]" * depth, b'{"a":' * depth + piece + b"}" * depth, b"[" * depth,
                                 b'[{"a":' * depth + piece + b"}]" * depth, b'{"a":' * depth)
            return self.one_of(nested, b"null", b"true", b"false", b"{}", b"[]", b'"1"', b"1", b'""', piece + b" " + piece)
        return self.replaced(source, self.one_of(NUMBER, STRING, WORD), other)

    def member(self, source):
        """A key twice, a key more or less, or a key of another name."""
        def other(piece):
            key, _, value = piece.partition(b":")
            again = key + b":" + self.one_of(value, *NUMBERS[:2], b'"x"', b'"\\ud800"', b"true")
            return self.one_of(piece + b"," + again, again + b"," + piece, b"", piece + b",", key.upper() + b":" + value, b'"id":' + value,
                               b'"\\u0069' + key[2:] + b":" + value)
        return self.replaced(source, MEMBER, other)

    def line(self, source):
        lines = source.split(b"\n")
        one, two = self.random.randrange(len(lines)), self.random.randrange(len(lines))
        kind = self.random.randrange(7)
        if kind == 0:
            del lines[one]
        elif kind == 1:
            lines.insert(two, lines[one])
        elif kind == 2:
            lines[one], lines[two] = lines[two], lines[one]
        elif kind == 3:
            lines[one:one + 2] = [b"".join(lines[one:one + 2])]
        elif kind == 4:
            place = self.place(lines[one])
            lines[one:one + 1] = [lines[one][:place], lines[one][place:]]
        elif kind == 5:
            lines[one] = lines[one][:self.place(lines[one])]
        else:
            lines.insert(one, self.one_of(*LINES))
        return b"\n".join(lines)

    def stretch(self, source):
        """A stretch of bytes cut, doubled, or put elsewhere."""
        begin = self.place(source)
        end = min(len(source), begin + self.one_of(1, 2, 8, 40, 200))
        kept = self.one_of(source, source[:begin] + source[end:])
        place = self.place(kept)
        return self.one_of(source[:begin] + source[end:], kept[:place] + source[begin:end] + kept[place:])

    def mixed(self, source):
        """Some lines of the story before this one."""
        lines, others = source.split(b"\n"), self.other.split(b"\n")
        for _ in self.some(1, 1, 2, 5):
            lines.insert(self.random.randrange(len(lines) + 1), self.one_of(*others))
        return b"\n".join(lines)

    def end(self, source):
        """The input cut anywhere."""
        return source[:self.place(source)]

    def long(self, source):
        """A line of up to 16 MB."""
        length = self.one_of(5000, 70000, 1 << 20, LONGEST_STORY - len(source), LONGEST_STORY - len(source) + 1, LONGEST_STORY)
        place, filling = self.place(source), self.one_of(b" ", b"x", b"[", b"1", b"\\u0000", b'"",', b"\xc3\xa9", b"\r", b"\t", b"\n")
        return source[:place] + (filling * (length // len(filling) + 1))[:length] + source[place:]

    def heavy(self, source):
        """A value of many small ones, which take the most memory for their length."""
        length, piece = self.one_of(5000, 70000, 500000), self.one_of(*SMALL_VALUES)
        return self.replaced(source, self.one_of(NUMBER, STRING, WORD), lambda each: b"[" + piece * (length // len(piece)) + each + b"]")

    def mutated(self, source):
        if self.chance(0.004):
            return self.one_of(self.long, self.heavy)(source)
        kinds = (self.byte, self.number, self.string, self.value, self.member, self.line, self.line, self.end, self.stretch, self.mixed)
        for _ in self.some(1, 1, 1, 2, 3):
            source = self.one_of(*kinds)(source)
        return source


class Comparison:
    """The runs of a program beside the model, with the memory that they held."""

    def __init__(self, program, faults):
        self.program, self.faults = program, faults
        self.most = self.most_for_a_byte = 0.0

    def run(self, command, source):
        """The status and the text of a run, and how many bytes it held at once."""
        if self.faults is None:
            done = subprocess.run([self.program, command], input=source, stdout=subprocess.PIPE, stderr=subprocess.DEVNULL)
            return done.returncode, done.stdout, 0
        ended = self.faults.run([self.program, command], source)
        return ended.status, ended.text, ended.counted["most_held"]

    def compare(self, command, source):
        """Both answers, which must be the same; the cause of a refusal."""
        text, status = answered_of(source, command)
        found, written, held = self.run(command, source)
        if (written, found) != (text.encode(), status):
            self.fail(command, source, "status %d and %r for %d and %r" % (found, written[:300], status, text[:300]))
        size = len(source) + len(written)
        if held > most_held(source, written):
            self.fail(command, source, "%d bytes held for %d of input and text" % (held, size))
        self.most = max(self.most, held)
        if size >= LARGE:
            self.most_for_a_byte = max(self.most_for_a_byte, held / size)
        return text.split()[2] if status else "done"

    def fail(self, command, source, why):
        with tempfile.NamedTemporaryFile("wb", suffix=".story", delete=False) as file:
            file.write(source)
        sys.exit("%s of %s: %s" % (command, file.name, why))

    def told(self):
        if self.faults is None:
            return "memory not counted, for want of a C compiler"
        return "at most %d bytes held, and %.1f for each byte of those of %d and more" % (self.most, self.most_for_a_byte, LARGE)


def main():
    if len(sys.argv) < 2:
        sys.exit(__doc__)
    seed, count = int(sys.argv[2]) if len(sys.argv) > 2 else 1, int(sys.argv[3]) if len(sys.argv) > 3 else 1000
    program = os.path.abspath(sys.argv[1])
    maker, mutator, met, source = Maker(seed), Mutator(seed), {}, b""
    comparison = Comparison(program, Faults.of(program))
    for number in range(count):
        if number % 10 == 0:
            mutator.other, source = source, "".join(line + "\n" for line in maker.story()).encode()
        cause = comparison.compare(mutator.one_of("dump", "replay"), mutator.mutated(source))
        met[cause] = met.get(cause, 0) + 1
    print("mutations: %d as the model has them (%s); %s" % (
        count, ", ".join("%s %d" % item for item in sorted(met.items())), comparison.told()))


if __name__ == "__main__":
    main()
