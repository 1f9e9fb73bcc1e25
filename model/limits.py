#!/usr/bin/env python3
"""Each refusal at its limit and one past it, and each number at both ends of its range, run against a program.

    model/limits.py PROGRAM [WORD ..]

PROGRAM and the words before the command run axcore. The stories are too long to be kept as files, so they are made here. It
ends with status 1 if one is answered otherwise.
"""
import sys

from compared import case, compare, refused

START = '{"start":1}'
GREATEST = 2147483647
MOMENT = 1073741823


def element(id, into=1, tag="main", attrs=""):
    return '{"insert":%d,"into":%d,"tag":"%s"%s}' % (id, into, tag, attrs)


def text(id, into, chars):
    return '{"insert":%d,"into":%d,"text":"%s"}' % (id, into, chars)


def labelled(id, value):
    return element(id, 1, "main", ',"attrs":{"aria-label":"%s"}' % value)


def chain(count):
    """Elements 2 to count + 1, each in the one before it."""
    return [element(k, k - 1) for k in range(2, count + 2)]


ROOT = '1 0 document ""\n'
ALONE = ROOT + "end 0\n"

# The whole input.
case("16,777,216 bytes", "dump", (START + "\n").encode() + b" " * (16777216 - len(START) - 1), ALONE)
refused("16,777,217 bytes", (START + "\n").encode() + b" " * (16777217 - len(START) - 1), 0, "StoryTooLong")
refused("16,777,217 bytes that are no UTF-8", b"\xff" * 16777217, 0, "StoryTooLong")
refused("no UTF-8", (START + "\n").encode() + b"\xff", 0, "NotUtf8")
refused("no UTF-8 behind a line that is no JSON", b"{\n\xff", 0, "NotUtf8")
refused("an empty input", b"", 0, "NoStart")
refused("blank lines alone", b" \n\t\r\n", 0, "NoStart")
refused("edits without a start", [element(2)], 0, "NoStart")
case("a last line without its line feed", "dump", START.encode(), ALONE)

# One line.
refused("no JSON", ["{"], 1, "BadJson")
refused("no JSON before the start", ["x", START], 1, "BadJson")
refused("blank lines are counted", [" ", "", "\t\r", "x"], 4, "BadJson")
refused("a vertical tab is not blank", b"\x0b\n" + START.encode(), 1, "BadJson")
refused("nested 127 deep", ["[" * 127 + "]" * 127, START], 1, "BadLine")
refused("nested 128 deep", ["[" * 128 + "]" * 128, START], 1, "BadJson")
refused("no object", ["1"], 1, "BadLine")
refused("an empty object", ["{}"], 1, "BadLine")
refused("a key too many", ['{"start":1,"x":1}'], 1, "BadLine")
refused("a key too few", ['{"set":1,"name":"aria-label"}'], 1, "BadLine")
refused("start 3", ['{"start":3}'], 1, "BadLine")
refused("start 1.0", ['{"start":1.0}'], 1, "BadLine")
refused("start 1e0", ['{"start":1e0}'], 1, "BadLine")
refused("a flush that is false", [START, '{"flush":false}'], 2, "BadLine")
case("a key twice counts as the last", "dump", ['{"start":2,"start":1}'], ALONE)
refused("a key twice, the last is wrong", ['{"start":1,"start":2}'], 1, "BadLine")
case("white space inside a line", "dump", ['\t{ "start" : 1 } \r'], ALONE)

# Numbers, at both ends.
refused("insert 0", [element(0)], 1, "BadLine")
refused("insert -0", ['{"insert":-0,"into":1,"tag":"main"}'], 1, "BadLine")
refused("insert 1", [element(1)], 1, "UsedId")
case("insert the greatest id", "dump", [element(GREATEST), START], ROOT + '%d 1 main ""\nend 0\n' % GREATEST)
refused("insert past the greatest id", [element(GREATEST + 1)], 1, "BadLine")
refused("insert 18446744073709551616", [element(1 << 64)], 1, "BadLine")
refused("into 0", [element(2, 0)], 1, "BadLine")
refused("before 0", ['{"insert":2,"into":1,"before":0,"tag":"main"}'], 1, "BadLine")
case("focus 0", "dump", ['{"focus":0}', START], ALONE)
case("focus 1", "dump", ['{"focus":1}', START], ALONE)
refused("focus -1", ['{"focus":-1}'], 1, "BadLine")
refused("focus past the greatest id", ['{"focus":%d}' % (GREATEST + 1)], 1, "BadLine")
case("until 0", "replay", [START, '{"until":0}'], "end 0\n")
refused("until the greatest moment", [START, '{"until":%d}' % MOMENT], 0, "Stuck")
refused("until past the greatest moment", [START, '{"until":%d}' % (MOMENT + 1)], 2, "BadLine")
refused("until -1", [START, '{"until":-1}'], 2, "BadLine")
case("await 0", "replay", [START, '{"await":0}'], "#1 @0 await\nend 0\n")
refused("await the greatest moment", [START, '{"await":%d}' % MOMENT], 2, "AwaitTooFar")
refused("await past the greatest moment", [START, '{"await":%d}' % (MOMENT + 1)], 2, "BadLine")
case("children from 65,536", "replay", [START, '{"ask":{"q":"children","id":1,"from":65536}}'], "#1 @0 children 0\nend 0\n")
refused("children from 65,537", [START, '{"ask":{"q":"children","id":1,"from":65537}}'], 2, "BadLine")
refused("children from -1", [START, '{"ask":{"q":"children","id":1,"from":-1}}'], 2, "BadLine")
case("an object that never was", "replay", [START, '{"ask":{"q":"role","id":%d}}' % GREATEST], "#1 @0 stale\nend 0\n")
refused("an object past the greatest id", [START, '{"ask":{"q":"role","id":%d}}' % (GREATEST + 1)], 2, "BadLine")
refused("an object 0", [START, '{"ask":{"q":"role","id":0}}'], 2, "BadLine")


def alone(title, story):
    """A story without requests, whose tree is the root alone."""
    case(title, "dump", story, ALONE)
    case(title, "replay", story, "end 0\n")


def asked(title, request, reply):
    """A request that is read, with its reply, or is no line."""
    lines = [START, '{"again":%s}' % request]
    case(title, "replay", lines, "#1 @0 %s\nend 0\n" % reply) if reply else refused(title, lines, 2, "BadLine")


asked("a marker at 0", '{"q":"next_char","at":[1,0]}', "out")
asked("a marker at the greatest offset", '{"q":"next_char","at":[1,4294967295]}', "out")
asked("a marker past the greatest offset", '{"q":"next_char","at":[1,4294967296]}', None)
asked("a marker before 0", '{"q":"prev_char","at":[1,-1]}', None)
asked("a marker without its offset", '{"q":"next_word","at":[1]}', None)
asked("a marker of three", '{"q":"line","at":[1,0,0]}', None)
asked("two markers", '{"q":"compare","a":[1,0],"b":[1,0]}', "out")
asked("one marker of two", '{"q":"text","a":[1,0]}', None)
asked("bounds", '{"q":"bounds","a":[1,0],"b":[1,0]}', "out")
asked("a point at the greatest", '{"q":"hit","x":2147483647,"y":-2147483648}', "none")
asked("a point past the greatest", '{"q":"hit","x":2147483648,"y":0}', None)
asked("a point below the least", '{"q":"hit","x":0,"y":-2147483649}', None)
SEARCH = '{"q":"search","from":%s,"dir":"%s","keys":[%s],"limit":%s%s}'
asked("a search", SEARCH % (0, "next", '"any"', 1, ""), "found 1")
asked("a search back", SEARCH % (GREATEST, "prev", ",".join(['"live"'] * 8), 100, ""), "stale")
asked("a search of nine keys", SEARCH % (0, "next", ",".join(['"live"'] * 9), 100, ""), None)
asked("a search of no key", SEARCH % (0, "next", "", 100, ""), None)
asked("a search of an unknown key", SEARCH % (0, "next", '"lists"', 100, ""), None)
asked("a search to nowhere", SEARCH % (0, "back", '"any"', 100, ""), None)
asked("a search for none", SEARCH % (0, "next", '"any"', 0, ""), None)
asked("a search for 101", SEARCH % (0, "next", '"any"', 101, ""), None)
asked("a search for 4,096 bytes", SEARCH % (0, "next", '"any"', 1, ',"text":"%s"' % ("a" * 4096)), "none")
asked("a search for 4,097 bytes", SEARCH % (0, "next", '"any"', 1, ',"text":"%s"' % ("a" * 4097)), None)
asked("an unknown request", '{"q":"roles","id":1}', None)
asked("a request with a key too many", '{"q":"root","id":1}', None)
asked("a request with a key too few", '{"q":"name"}', None)


def framed(title, rect, read):
    case(title, "dump", ['{"frame":1,"rect":[%s]}' % rect, START], ALONE if read else (1, "BadLine"))


framed("a frame at the least edges", "-1048576,-1048576,0,0", True)
framed("a frame at the greatest edges", "1048576,1048576,1048576,1048576", True)
framed("a frame left of the least edge", "-1048577,0,0,0", False)
framed("a frame below the greatest edge", "0,1048577,0,0", False)
framed("a frame of width -1", "0,0,-1,0", False)
framed("a frame past the greatest height", "0,0,0,1048577", False)
framed("a frame of three numbers", "0,0,0", False)


def runs(title, chars, list, answer):
    base = [element(2), text(3, 2, chars), '{"runs":3,"list":[%s]}' % list, START]
    case(title, "dump", base, answer)


SAID = ROOT + '2 1 main ""\n3 2 text "%s"\nend 0\n'
runs("runs that reach the end", "abc", "[0,1,0,0,0,0,0],[1,3,1048576,0,0,0,0]", SAID % "abc")
runs("no runs", "abc", "", SAID % "abc")
runs("runs with a gap", "abc", "[0,1,0,0,0,0,0],[2,3,0,0,0,0,0]", (3, "BadRuns"))
runs("runs that overlap", "abc", "[0,2,0,0,0,0,0],[1,3,0,0,0,0,0]", (3, "BadRuns"))
runs("runs that begin late", "abc", "[1,3,0,0,0,0,0]", (3, "BadRuns"))
runs("runs that end early", "abc", "[0,2,0,0,0,0,0]", (3, "BadRuns"))
runs("runs past the end", "abc", "[0,4,0,0,0,0,0]", (3, "BadRuns"))
runs("an empty run", "abc", "[0,0,0,0,0,0,0],[0,3,0,0,0,0,0]", (3, "BadRuns"))
runs("lines that fall", "abc", "[0,1,1,0,0,0,0],[1,3,0,0,0,0,0]", (3, "BadRuns"))
runs("an end past 65,536", "abc", "[0,65537,0,0,0,0,0]", (3, "BadLine"))
runs("a line past 1,048,576", "abc", "[0,3,1048577,0,0,0,0]", (3, "BadLine"))
runs("a run of six numbers", "abc", "[0,3,0,0,0,0]", (3, "BadLine"))
runs("runs count characters", "\u00e9\U0001f600", "[0,2,0,0,0,0,0]", SAID % "\u00e9\U0001f600")
refused("runs of an element", ['{"runs":1,"list":[[1,0,0,0,0,0,0]]}'], 1, "NotText")

# Tags and names.
alone("a tag of 32 bytes", [element(2, 1, "a" * 32), START])
refused("a tag of 33 bytes", [element(2, 1, "a" * 33)], 1, "BadLine")
refused("an empty tag", [element(2, 1, "")], 1, "BadLine")
refused("a tag that begins with a digit", [element(2, 1, "1a")], 1, "BadLine")
refused("a tag in upper case", [element(2, 1, "Main")], 1, "BadLine")
refused("a tag with a colon", [element(2, 1, "a:b")], 1, "BadLine")
alone("a name of 64 bytes", ['{"set":1,"name":"%s","value":""}' % ("a" * 64), START])
refused("a name of 65 bytes", ['{"set":1,"name":"%s","value":""}' % ("a" * 65)], 1, "BadLine")
alone("a name with all its kinds of bytes", ['{"set":1,"name":"a-_:.9","value":""}', START])
refused("a name with a space", ['{"set":1,"name":"a b","value":""}'], 1, "BadLine")
case("taking away what is not there", "dump", ['{"unset":1,"name":"%s"}' % ("a" * 64), START], ALONE)

# Edits.
LONG = "v" * 4096
case("a value of 4,096 bytes", "dump", [labelled(2, LONG), START], ROOT + '2 1 main "%s"\nend 0\n' % LONG[:512])
refused("a value of 4,097 bytes", [labelled(2, LONG + "v")], 1, "TooLong")
refused("a value of 4,097 bytes in 2,049 characters", [labelled(2, "\u00e9" * 2048 + "e")], 1, "TooLong")
refused("a value of 4,097 bytes that is set", ['{"set":1,"name":"aria-label","value":"%sv"}' % LONG], 1, "TooLong")
case("65,536 characters", "dump", [element(2), text(3, 2, "\u00e9" * 65536), START], SAID % ("\u00e9" * 512))
refused("65,537 characters", [element(2), text(3, 2, "c" * 65537)], 2, "TooLong")
refused("65,537 new characters", [element(2), text(3, 2, ""), '{"text":3,"to":"%s"}' % ("c" * 65537)], 3, "TooLong")
case("64 levels", "dump", chain(64) + [START],
     ROOT + "".join('%d %d main ""\n' % (k, k - 1) for k in range(2, 66)) + "end 0\n")
refused("65 levels", chain(65), 65, "TooDeep")
case("a move to 64 levels", "dump", chain(63) + [element(100), element(101, 100), '{"move":101,"into":64}', START],
     ROOT + "".join('%d %d main ""\n' % (k, k - 1) for k in range(2, 65)) + '101 64 main ""\n100 1 main ""\nend 0\n')
refused("a move to 65 levels", chain(63) + [element(100), element(101, 100), '{"move":100,"into":64}'], 66, "TooDeep")
NODES = [text(k, 1, "") for k in range(2, 65538)]
case("65,536 nodes", "dump", NODES + [START], ALONE)
refused("65,537 nodes", NODES + [text(65538, 1, "")], 65537, "TooMany")
refused("65,537 nodes after a removal", NODES + ['{"remove":2}', text(65538, 1, "")], 65538, "TooMany")
TREE = [element(2), element(3, 2), text(4, 2, "t"), text(5, 1, "u")]
for title, edit, cause in [
    ("insert into an unknown node", element(1, 9), "NoNode"),
    ("insert an id that is there", element(2, 5), "UsedId"),
    ("insert before a grandchild", '{"insert":9,"into":1,"before":3,"tag":"main"}', "BadPlace"),
    ("insert before an unknown node", '{"insert":9,"into":1,"before":99,"tag":"main"}', "BadPlace"),
    ("insert an id that is there before an unknown node", '{"insert":2,"into":1,"before":99,"tag":"main"}', "UsedId"),
    ("insert into a text before an unknown node", '{"insert":9,"into":4,"before":99,"tag":"main"}', "BadPlace"),
    ("insert into a text", element(9, 4), "NotElement"),
    ("insert too long a text into a text", text(9, 4, "c" * 65537), "NotElement"),
    ("remove the root", '{"remove":1}', "RootFixed"),
    ("remove an unknown node", '{"remove":9}', "NoNode"),
    ("move an unknown node", '{"move":9,"into":1}', "NoNode"),
    ("move into an unknown node", '{"move":2,"into":9,"before":99}', "NoNode"),
    ("move before itself", '{"move":2,"into":1,"before":2}', "BadPlace"),
    ("move into a text", '{"move":2,"into":4}', "NotElement"),
    ("move into itself", '{"move":2,"into":2}', "IntoItself"),
    ("move below itself", '{"move":2,"into":3}', "IntoItself"),
    ("move the root", '{"move":1,"into":2}', "IntoItself"),
    ("move the root into itself", '{"move":1,"into":1}', "IntoItself"),
    ("move the root into a text", '{"move":1,"into":4}', "NotElement"),
    ("set on a text", '{"set":4,"name":"aria-label","value":"%sv"}' % LONG, "NotElement"),
    ("unset on a text", '{"unset":4,"name":"aria-label"}', "NotElement"),
    ("a frame for a text", '{"frame":4,"rect":[0,0,0,0]}', "NotElement"),
    ("new characters for an element", '{"text":2,"to":"%s"}' % ("c" * 65537), "NotText"),
    ("new characters for an unknown node", '{"text":9,"to":""}', "NoNode"),
    ("the focus on an unknown node", '{"focus":9}', "NoNode"),
]:
    refused(title, TREE + [edit, START], 5, cause)
    refused(title + ", after the start", TREE + [START, edit], 6, cause)
refused("an id again after its removal", TREE + ['{"remove":2}', element(3)], 6, "UsedId")
refused("a node below a removed one", TREE + ['{"remove":2}', '{"focus":3}'], 6, "NoNode")

# Names.
LINK = element(2, 1, "a", ',"attrs":{"href":"/"}')
SPACE = " " * 65536
case("a name behind 65,536 characters of white space", "dump",
     [element(2, 1, "button"), text(3, 2, SPACE), text(4, 2, "x"), text(5, 2, SPACE), START],
     ROOT + '2 1 button "x"\nend 0\n')
case("a name from the 64th level", "dump",
     [LINK] + [element(k, k - 1, "span") for k in range(3, 65)] + [text(65, 64, "deep"), START],
     ROOT + '2 1 link "deep"\n65 2 text "deep"\nend 0\n')
for title, first, second, name in [
    ("a space that stands last stays in a name", "x" * 511 + " ", "yz", "x" * 511 + " "),
    ("a space before nothing is not in a name", "x" * 511, " \\t", "x" * 511),
    ("nothing comes behind 512 characters", "x" * 512 + " ", " y", "x" * 512),
    ("a name of 513 characters is cut", "x" * 513, "y", "x" * 512),
    ("a space and a character fit into a name", "x" * 510, " \u00e9z", "x" * 510 + " \u00e9"),
]:
    case(title, "dump", [element(2, 1, "button"), text(3, 2, first), text(4, 2, second), START], ROOT + '2 1 button "%s"\nend 0\n' % name)
TARGET = [element(2, 1, "span", ',"attrs":{"id":"t","hidden":""}'), text(3, 2, "\u00e9" * 65536)]
for count in (1, 8):
    case("references to 65,536 characters: %d" % count, "dump",
         TARGET + [element(4, 1, "input", ',"attrs":{"aria-labelledby":"%s"}' % " ".join(["t"] * count)), START],
         ROOT + '4 1 textbox "%s"\nend 0\n' % ("\u00e9" * 512))
case("a reference whose value has 4,096 bytes", "dump",
     [element(2, 1, "span", ',"attrs":{"id":"%s","hidden":""}' % ("i" * 4096)), text(3, 2, "far"),
      element(4, 1, "input", ',"attrs":{"aria-labelledby":"%s"}' % ("i" * 4096)), START],
     ROOT + '4 1 textbox "far"\nend 0\n')

# Long texts.
def marked(title, chars, **replies):
    """Requests about a text of 65,536 characters, and a text behind it."""
    for request, reply in replies.items():
        word, offset = request.rsplit("_", 1)
        case("%s: %s at %s" % (title, word, offset), "replay", [text(2, 1, chars), text(3, 1, "z"), START, '{"ask":{"q":"%s","at":[2,%s]}}' % (word, offset)],
             "#1 @0 %s\nend 0\n" % reply)


marked("words of 65,536 characters", "ab " * 21845 + "e", next_char_0="marker 2 1", next_char_65535="marker 2 65536",
       next_char_65536="marker 3 0", next_char_65537="out", prev_char_65536="marker 2 65535", next_word_65533="marker 2 65535",
       next_word_65535="marker 3 0", next_word_30000="marker 2 30003", next_word_0="marker 2 3", line_65536="none")
marked("a grapheme of 65,536 characters", "e" + "\u0301" * 65535, next_char_0="marker 2 65536", next_char_65535="marker 2 65536",
       prev_char_65536="marker 2 0", prev_char_1="marker 2 0", next_word_0="marker 3 0", next_char_65536="marker 3 0")
marked("65,536 flags, the last one half", "x" + "\U0001f1e9" * 65535, next_char_1="marker 2 3", next_char_65534="marker 2 65535",
       next_char_65535="marker 2 65536", prev_char_65536="marker 2 65535", prev_char_65535="marker 2 65533")
marked("65,536 characters that no rule parts", "\u1100" * 65536, next_char_0="marker 2 65536", prev_char_65535="marker 2 0", next_word_5="marker 3 0")
marked("a blank text of 65,536 characters", "\\r\\n" * 32768, next_char_0="stale")

# Both sides.
refused("a flush before the start", ['{"flush":true}', START], 1, "NoStart")
refused("an ask before the start", ['{"ask":{"q":"root"}}', START], 1, "NoStart")
refused("a bad turn list before the start", ['{"turns":"X"}', START], 1, "NoStart")
refused("a second start", [START, START], 2, "SecondStart")
FLUSH = ['{"flush":true}']
case("65,536 flush lines", "dump", [START] + FLUSH * 65536, ROOT + "end 65536\n")
case("65,536 flush lines and an edit", "dump", [START] + FLUSH * 65536 + [element(2)], ROOT + '2 1 main ""\nend 65537\n')
refused("65,537 flush lines", [START] + FLUSH * 65537, 65538, "TooManyFlushes")
HEAR = ['{"hear":true}']
case("16,384 client lines", "replay", [START] + HEAR * 16384,
     "".join("#%d @0 hear\n" % k for k in range(1, 16385)) + "end 0\n")
refused("16,385 client lines", [START] + HEAR * 16384 + ['{"await":9}'], 16386, "TooManyAsks")
case("1,048,576 turns", "replay", [START, '{"turns":"%s"}' % ("PC" * 524288)], "end 0\n")
refused("1,048,577 turns", [START, '{"turns":"%sP"}' % ("PC" * 524288)], 2, "BadTurns")
refused("a turn of nobody", [START, '{"turns":"PCp"}'], 2, "BadTurns")
refused("a second turn list", [START, '{"turns":""}', '{"turns":""}'], 3, "BadTurns")
case("an empty turn list", "replay", [START, '{"turns":""}'] + HEAR, "#1 @0 hear\nend 0\n")
case("turns of a side that is done", "replay", [START, '{"turns":"PPPCCCC"}'] + FLUSH + HEAR, "#1 @1 hear\nend 1\n")
case("await all flushes", "replay", [START, '{"flush":true}', '{"await":1}'], "#1 @1 await\nend 1\n")
case("await the closing flush", "replay", [START, element(2), '{"await":1}'], "#1 @1 await\nend 1\n")
refused("await one more", [START, '{"flush":true}', '{"await":2}'], 3, "AwaitTooFar")
refused("the first await too far", [START, '{"await":1}', '{"await":2}'], 2, "AwaitTooFar")
refused("await too far, and stuck", [START, '{"until":1}', '{"await":1}'], 3, "AwaitTooFar")
refused("both sides wait for each other", [START, '{"until":1}', '{"flush":true}', '{"await":1}'], 0, "Stuck")
case("each side waits for the other in turn", "replay",
     [START, '{"flush":true}', '{"until":1}', '{"flush":true}', '{"await":1}', '{"await":2}'],
     "#1 @1 await\n#2 @2 await\nend 2\n")
refused("a wait that no await meets", [START, '{"flush":true}', '{"until":1}', '{"ask":{"q":"root"}}'], 0, "Stuck")
refused("a refused line after a wait", [START, '{"until":1}', "x"], 3, "BadJson")


if __name__ == "__main__":
    compare("limits", sys.argv, __doc__)
