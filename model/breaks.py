#!/usr/bin/env python3
"""Boundaries of graphemes and of words: extended grapheme clusters and words of UAX #29.

    model/breaks.py GRAPHEME_BREAK_TEST WORD_BREAK_TEST

tries them on the standard's own test files (Debian has them in /usr/share/unicode/auxiliary). Written from the rules of UAX #29,
over unicode_data.py. Rule GB9c, on conjuncts of Indic scripts, is newer than that data and is left out.
"""
import bisect
import functools
import sys

from unicode_data import GRAPHEMES, OTHERS, WORDS

SYLLABLES, TRAILING = range(0xAC00, 0xD7A4), 28
NEWLINES = ("CR", "LF", "Newline")
ATTACHED = ("Extend", "Format", "ZWJ")
LETTERS = ("ALetter", "Hebrew_Letter")
MIDDLES = ("MidNumLet", "Single_Quote")
HANGUL_PAIRS = {("L", "L"), ("L", "V"), ("L", "LV"), ("L", "LVT"), ("LV", "V"), ("LV", "T"), ("V", "V"), ("V", "T"), ("LVT", "T"), ("T", "T")}


class Property:
    """The value that each character has in a table."""

    def __init__(self, values):
        rows = sorted((*self.ends(word), value) for value, text in values.items() for word in text.split())
        self.firsts, self.rows = [row[0] for row in rows], rows

    @staticmethod
    def ends(word):
        first, _, last = word.partition("-")
        return int(first, 16), int(last or first, 16)

    @functools.lru_cache(maxsize=None)
    def of(self, char):
        place = bisect.bisect(self.firsts, ord(char)) - 1
        return self.rows[place][2] if place >= 0 and ord(char) <= self.rows[place][1] else None


GRAPHEME, WORD = Property(GRAPHEMES), Property(WORDS)
PICTOGRAPH = Property({"yes": OTHERS["Extended_Pictographic"]})
ALPHANUMERIC = Property({"yes": OTHERS["Alphanumeric"]})


def grapheme_value(char):
    if ord(char) in SYLLABLES:
        return "LVT" if (ord(char) - SYLLABLES.start) % TRAILING else "LV"
    return GRAPHEME.of(char)


def pair_breaks(before, after):
    """GB3 to GB9b: whether a pair of neighbours breaks, or None where none of them tells."""
    if before == "CR" and after == "LF":
        return False
    if before in ("CR", "LF", "Control") or after in ("CR", "LF", "Control"):
        return True
    if (before, after) in HANGUL_PAIRS or after in ("Extend", "ZWJ", "SpacingMark") or before == "Prepend":
        return False
    return None


@functools.lru_cache(maxsize=4096)
def grapheme_stops(text):
    """The offsets of the boundaries of graphemes, both ends included."""
    stops, before, flags, pictograph, joined = [0], None, 0, False, False
    for offset, char in enumerate(text):
        value, is_pictograph = grapheme_value(char), PICTOGRAPH.of(char) is not None
        breaks = pair_breaks(before, value)
        # GB11, GB12 and GB13.
        if breaks is None:
            breaks = not (joined and is_pictograph or flags % 2 and value == "Regional_Indicator")
        if offset and breaks:
            stops.append(offset)
        joined = pictograph and value == "ZWJ"
        pictograph = is_pictograph or pictograph and value == "Extend"
        flags = flags + 1 if value == "Regional_Indicator" else 0
        before = value
    return stops + [len(text)] if text else stops


def groups(text):
    """WB4: where each character begins that the rules behind it read, with its value."""
    found, before = [], None
    for offset, char in enumerate(text):
        value = WORD.of(char)
        if value not in ATTACHED or offset == 0 or before in NEWLINES:
            found.append((offset, value))
        before = value
    return found


def early_rule(text, offset):
    """WB3 to WB3d, on the two characters at an offset: whether they break, or None where none of them tells."""
    before, after = WORD.of(text[offset - 1]), WORD.of(text[offset])
    if before == "CR" and after == "LF":
        return False
    if before in NEWLINES or after in NEWLINES:
        return True
    if before == "ZWJ" and PICTOGRAPH.of(text[offset]) or before == after == "WSegSpace":
        return False
    return None


def joins(far_before, before, after, far_after):
    """WB5 to WB13b: whether one of them keeps two characters together."""
    letters, number = before in LETTERS and after in LETTERS, "Numeric"
    return (letters
            or before in LETTERS and after in MIDDLES + ("MidLetter",) and far_after in LETTERS
            or far_before in LETTERS and before in MIDDLES + ("MidLetter",) and after in LETTERS
            or before == "Hebrew_Letter" and after == "Single_Quote"
            or before == "Hebrew_Letter" and after == "Double_Quote" and far_after == "Hebrew_Letter"
            or far_before == "Hebrew_Letter" and before == "Double_Quote" and after == "Hebrew_Letter"
            or before in LETTERS + (number,) and after == number or before == number and after in LETTERS
            or far_before == number and before in MIDDLES + ("MidNum",) and after == number
            or before == number and after in MIDDLES + ("MidNum",) and far_after == number
            or before == after == "Katakana"
            or before in LETTERS + (number, "Katakana", "ExtendNumLet") and after == "ExtendNumLet"
            or before == "ExtendNumLet" and after in LETTERS + (number, "Katakana"))


def word_bounds(text):
    """The offsets of the boundaries of words, both ends included."""
    found, bounds, flags = groups(text), [0], 0
    values = [value for _, value in found] + [None]
    for place, (offset, value) in enumerate(found):
        if place:
            breaks = early_rule(text, offset)
            far_before = values[place - 2] if place > 1 else None
            if breaks is None:
                flag = value == "Regional_Indicator" and flags % 2
                breaks = not (flag or joins(far_before, values[place - 1], value, values[place + 1]))
            bounds += [offset] if breaks else []
        flags = flags + 1 if value == "Regional_Indicator" else 0
    return bounds + [len(text)] if text else bounds


@functools.lru_cache(maxsize=4096)
def word_starts(text):
    """The offsets at which a word begins: a piece between boundaries that has a letter or a number."""
    bounds = word_bounds(text)
    return [first for first, past in zip(bounds, bounds[1:]) if any(map(ALPHANUMERIC.of, text[first:past]))]


def tried(path, bounds):
    """How many tests of a file there are; it ends with status 1 at the first that is answered otherwise."""
    count = 0
    with open(path, encoding="utf-8") as file:
        for line in file:
            marks = line.split("#")[0].split()
            if not marks:
                continue
            text = "".join(chr(int(mark, 16)) for mark in marks[1::2])
            due = [place for place, mark in enumerate(marks[::2]) if mark == "\u00f7"]
            if bounds(text) != due:
                sys.exit("%s: %s has %s" % (path, line.split("#")[0], bounds(text)))
            count += 1
    return count


def main():
    if len(sys.argv) != 3:
        sys.exit(__doc__)
    print("breaks: %d tests of graphemes and %d of words as they must be" % (tried(sys.argv[1], grapheme_stops), tried(sys.argv[2], word_bounds)))


if __name__ == "__main__":
    main()
