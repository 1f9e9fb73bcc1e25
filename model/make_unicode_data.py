#!/usr/bin/env python3
"""Writes unicode_data.py from the files of the Unicode Character Database.

    model/make_unicode_data.py [FOLDER] >model/unicode_data.py

FOLDER is where the files are; the Debian package unicode-data has them in /usr/share/unicode.
"""
import re
import sys
import textwrap

HANGUL = range(0xAC00, 0xD7A4)


def read(path):
    """The text of a file, and each of its rows as first and last code point and the fields behind them."""
    with open(path, encoding="utf-8") as file:
        text = file.read()
    rows = []
    for line in text.split("\n"):
        fields = [field.strip() for field in line.split("#")[0].split(";")]
        if len(fields) > 1:
            first, _, last = fields[0].partition("..")
            rows.append((int(first, 16), int(last or first, 16), fields[1:]))
    return text, rows


def joined(ranges):
    """Ranges in order, with neighbours made one."""
    result = []
    for first, last in sorted(ranges):
        if result and result[-1][1] + 1 >= first:
            result[-1][1] = max(last, result[-1][1])
        else:
            result.append([first, last])
    return result


def by_value(rows):
    """The ranges of each value. The syllables of Hangul are left out: a rule has them."""
    values = {}
    for first, last, fields in rows:
        if first not in HANGUL or fields[0] not in ("LV", "LVT"):
            values.setdefault(fields[0], []).append((first, last))
    return {value: joined(ranges) for value, ranges in sorted(values.items())}


def numbers(folder):
    """The characters whose general category is a kind of number."""
    _, rows = read(folder + "/extracted/DerivedGeneralCategory.txt")
    return [(first, last) for first, last, fields in rows if fields[0] in ("Nd", "Nl", "No")]


def with_property(rows, name):
    return [(first, last) for first, last, fields in rows if fields[0] == name]


def written(ranges):
    """Ranges as words, in lines."""
    words = " ".join("%X" % first if first == last else "%X-%X" % (first, last) for first, last in ranges)
    return "\n".join('        "%s "' % line for line in textwrap.wrap(words, 108))


def print_table(name, comment, values):
    print("# %s\n%s = {" % (comment, name))
    for value, ranges in values.items():
        print('    "%s":\n%s,' % (value, written(ranges)))
    print("}")


def main():
    folder = sys.argv[1] if len(sys.argv) > 1 else "/usr/share/unicode"
    text, graphemes = read(folder + "/auxiliary/GraphemeBreakProperty.txt")
    version = re.search(r"-([0-9]+\.[0-9]+\.[0-9]+)\.txt", text).group(1)
    _, words = read(folder + "/auxiliary/WordBreakProperty.txt")
    _, emoji = read(folder + "/emoji/emoji-data.txt")
    _, derived = read(folder + "/DerivedCoreProperties.txt")
    print('"""Properties of characters, from the Unicode Character Database %s. Written by make_unicode_data.py; do not edit.\n' % version)
    print("Copyright Unicode, Inc.; under the Unicode License, https://www.unicode.org/license.txt. Each value has its ranges of code")
    print('points, in hexadecimal digits.\n"""')
    print('VERSION = "%s"' % version)
    print_table("GRAPHEMES", "Grapheme_Cluster_Break, without LV and LVT, which are the syllables of Hangul.", by_value(graphemes))
    print_table("WORDS", "Word_Break.", by_value(words))
    print_table("OTHERS", "What the rules name besides.", {
        "Extended_Pictographic": joined(with_property(emoji, "Extended_Pictographic")),
        "Alphanumeric": joined(with_property(derived, "Alphabetic") + numbers(folder)),
    })


if __name__ == "__main__":
    main()
