#!/usr/bin/env python3
"""Single lines, run against a program: those that have no JSON reading, those that are no line of a story, and those that are one.

    model/lines.py PROGRAM [WORD ..]

PROGRAM and the words before the command run axcore. A line that is read shows what it says by what is written of a story that has
it. Limits of numbers and lengths are in limits.py. It ends with status 1 if one is answered otherwise.
"""
import sys

from compared import case, compare, refused

START = '{"start":1}'
ROOT = '1 0 document ""\n'
P = '{"insert":2,"into":1,"tag":"p"%s}'
PARAGRAPH, SAID = P % "", '{"insert":3,"into":2,"text":"a"}'

NO_JSON = [
    '{"start":1', '{"start":1} 1', '{"start":1e400}', '{"text":"\\ud800"}', "{'start':1}", '{"start":01}', '{"start":1,}', "\u000b",
    "\ufeff" + START, "nul", '{"start":+1}', '"\t"',
]

NO_LINES = [
    "null", "[]", "{}", "1", '"start"', '{"Start":1}', '{"start":true}', '{"start":"1"}', '{"start":null}', '{"start":1,"flush":true}',
    # Inserts.
    '{"insert":-2,"into":1,"tag":"p"}', '{"insert":2.0,"into":1,"tag":"p"}', '{"insert":2e0,"into":1,"tag":"p"}',
    '{"insert":"2","into":1,"tag":"p"}', '{"insert":2,"into":1,"before":null,"tag":"p"}', '{"insert":2,"into":1}',
    '{"insert":2,"tag":"p"}', '{"into":1,"tag":"p"}', P % ',"id":1', P % ',"text":""', P % ',"attrs":null', P % ',"attrs":[]',
    '{"insert":2,"into":1,"text":"","attrs":{}}', '{"insert":2,"into":1,"text":1}',
    '{"insert":2,"into":1,"tag":"-a"}', '{"insert":2,"into":1,"tag":"a_b"}', '{"insert":2,"into":1,"tag":"maiN"}',
    '{"insert":2,"into":1,"tag":"\\u00e9"}', '{"insert":2,"into":1,"tag":null}',
    P % ',"attrs":{"a":"1","a":2}', P % ',"attrs":{"a":null}', P % ',"attrs":{"":"1"}', P % ',"attrs":{"_a":"1"}',
    P % ',"attrs":{"aB":"1"}', P % ',"attrs":{"a b":"1"}', P % ',"attrs":{"1a":"1"}',
    # Other edits.
    '{"remove":0}', '{"remove":2,"into":1}', '{"remove":[2]}', '{"move":2}', '{"move":2,"before":1}', '{"move":2,"into":0}',
    '{"set":2,"name":"Id","value":""}', '{"set":2,"name":"id","value":null}', '{"set":2,"name":"id"}', '{"set":2,"value":""}',
    '{"unset":2,"name":"id","value":""}', '{"unset":2}', '{"text":2,"to":3}', '{"text":"a","to":"a"}', '{"text":2}',
    '{"runs":2,"list":{}}', '{"runs":2}', '{"runs":2,"list":[[0,1,-1,0,0,0,0]]}', '{"runs":2,"list":[[0,1,0,0,0,0,0,0]]}',
    '{"runs":2,"list":[[0,1,0,0,0,0,0],0]}', '{"runs":2,"list":[[65537,0,0,0,0,0,0]]}', '{"runs":2,"list":[[0,1,0,0,0,-1,0]]}',
    '{"frame":2,"rect":[0,0,0,0,0]}', '{"frame":2,"rect":[0,0,0,0.5]}', '{"frame":2,"rect":{}}', '{"frame":2}',
    '{"focus":null}', '{"focus":"2"}',
    # Waits and turns.
    '{"flush":1}', '{"flush":true,"hear":true}', '{"until":"0"}', '{"until":true}', '{"hear":null}', '{"hear":false}', '{"await":-1}',
    '{"await":0.0}', '{"notices":"true"}', '{"notices":false}', '{"turns":[]}', '{"turns":null}',
    # Requests.
    '{"ask":{"q":"root"},"again":{"q":"root"}}', '{"ask":"root"}', '{"ask":{}}', '{"ask":{"q":"Root"}}', '{"ask":{"q":"tree"}}',
    '{"ask":{"q":null}}', '{"ask":{"ask":"root"}}', '{"q":"root"}', '{"ask":{"q":"focus","id":1}}', '{"ask":{"q":"name","id":"1"}}',
    '{"ask":{"q":"name","id":1,"from":0}}', '{"ask":{"q":"children","id":1,"from":null}}', '{"ask":{"q":"children","from":0}}',
    '{"ask":{"q":"compare","a":[1,0]}}', '{"ask":{"q":"compare","b":[1,0]}}', '{"ask":{"q":"bounds","a":[2,3],"b":[4,5],"at":[2,3]}}',
    '{"ask":{"q":"prev_word","at":[2,3]}}', '{"ask":{"q":"line","at":[0,3]}}', '{"ask":{"q":"line","at":2}}', '{"ask":{"q":"hit","x":0}}',
    '{"ask":{"q":"hit","x":0,"y":0,"id":1}}',
]

SEARCHES = [
    '"from":0,"dir":"next","keys":"any","limit":1', '"from":-1,"dir":"next","keys":["any"],"limit":1',
    '"from":2147483648,"dir":"next","keys":["any"],"limit":1', '"from":0,"dir":"next","keys":["any"],"text":null,"limit":1',
    '"dir":"next","keys":["any"],"limit":1', '"from":0,"keys":["any"],"limit":1', '"from":0,"dir":"next","limit":1',
    '"from":0,"dir":"next","keys":["any"]', '"from":0,"dir":"next","keys":["any"],"limit":1,"id":1',
    '"from":0,"dir":"next","keys":["any",1],"limit":1', '"from":0,"dir":true,"keys":["any"],"limit":1',
]

# Requests that are read, with their word and their reply in a document that has the root alone.
REQUESTS = [
    ('{"q":"compare","b":[2147483647,4294967295],"a":[1,0]}', "stale"), ('{"q":"text","a":[2,3],"b":[4,5]}', "stale"),
    ('{"at":[2,3],"q":"prev_char"}', "stale"), ('{"q":"next_word","at":[1,3]}', "out"),
    ('{"q":"line","at":[2,3]}', "stale"), ('{"q":"hit","x":-1,"y":1}', "none"),
    ('{"q":"search","q":"hit","x":0,"y":0}', "none"),
    ('{"q":"search","from":1,"dir":"prev","keys":["text","heading","link","button","checkbox","radio","list","field"],"text":"","limit":2}',
     "none"),
    ('{"q":"search","limit":1,"keys":["control","landmark","table","image","live","focusable","any"],"dir":"next","from":0}', "found 1"),
]


def read(line, *before, dump):
    """A line that is read: the tree that is dumped of a story that has it before the start, behind other lines."""
    case(line, "dump", [*before, line, START], dump)


for line in NO_JSON:
    refused(line, [line, START], 1, "BadJson")
for line in NO_LINES + ['{"ask":{"q":"search",%s}}' % it for it in SEARCHES]:
    refused(line, [line, START], 1, "BadLine")
    refused(line, [START, line], 2, "BadLine")
for request, reply in REQUESTS:
    for word in "ask", "again":
        case(request, "replay", [START, '{"%s":%s}' % (word, request)], "#1 @0 %s\nend 0\n" % reply)

SHOWN = ROOT + '2 1 paragraph ""\n%send 0\n'
case("white space in a line", "dump", [PARAGRAPH, ' {"start" : 1}\r'], SHOWN % "")
for line in [PARAGRAPH, '{"tag":"\\u0070","into":1,"insert":2}', '{"insert":9,"insert":2,"into":1,"tag":"p"}', P % ',"attrs":{}']:
    read(line, dump=SHOWN % "")
read('{"tag":"p","before":2,"into":1,"insert":4}', PARAGRAPH, dump=ROOT + '4 1 paragraph ""\n2 1 paragraph ""\nend 0\n')
read('{"insert":3,"into":2,"text":"Hi \\u00e9"}', PARAGRAPH, dump=SHOWN % '3 2 text "Hi \u00e9"\n')
read('{"insert":4,"into":2,"before":3,"text":"b"}', PARAGRAPH, SAID, dump=SHOWN % '4 2 text "b"\n3 2 text "a"\n')
for attrs, label in [('"title":"1","aria-label":"2"', "2"), ('"aria-label":"1","aria-label":"3"', "3"), ('"aria-label":2,"aria-label":"1"', "1")]:
    read('{"insert":2,"into":1,"tag":"main","attrs":{%s}}' % attrs, dump=ROOT + '2 1 main "%s"\nend 0\n' % label)
read('{"remove":3}', PARAGRAPH, SAID, dump=SHOWN % "")
read('{"move":3,"into":1}', PARAGRAPH, SAID, dump=SHOWN % '3 1 text "a"\n')
read('{"before":2,"move":3,"into":1}', PARAGRAPH, SAID, dump=ROOT + '3 1 text "a"\n2 1 paragraph ""\nend 0\n')
read('{"text":3,"to":"b\\n"}', PARAGRAPH, SAID, dump=SHOWN % '3 2 text "b"\n')
read('{"set":1,"value":"x","name":"aria-label"}', dump='1 0 document "x"\nend 0\n')
read('{"unset":1,"name":"aria-label"}', '{"set":1,"name":"aria-label","value":"x"}', dump=ROOT + "end 0\n")
for line, request, reply in [
    ('{"focus":2}', '{"q":"focus"}', "focus 2"), ('{"focus":0}', '{"q":"focus"}', "none"),
    ('{"frame":2,"rect":[-1,2,3,4]}', '{"q":"frame","id":2}', "frame -1 2 3 4"),
    ('{"list":[[0,1,7,-1,-2,3,4]],"runs":3}', '{"q":"frame","id":3}', "frame -1 -2 3 4"),
]:
    case(line, "replay", [PARAGRAPH, SAID, line, START, '{"ask":%s}' % request], "#1 @0 %s\nend 0\n" % reply)
for line, entries in [
    ('{"ask":{"q":"focus","q":"root"}}', "#1 @1 root 1\n"), ('{"again":{"q":"root"}}', "#1 @0 root 1\n"), ('{"hear":true}', "#1 @1 hear\n"),
    ('{"await":0}', "#1 @1 await\n"), ('{"await":1}', "#1 @1 await\n"), ('{"turns":"PC"}', ""), ('{"turns":""}', ""), ('{"until":0}', ""),
    ('{"ask":{"id":2147483647,"q":"name"}}', "#1 @1 stale\n"), ('{"ask":{"q":"children","id":1}}', "#1 @1 children 0\n"),
]:
    case(line, "replay", [START, '{"flush":true}', line], entries + "end 1\n")

if __name__ == "__main__":
    compare("lines", sys.argv, __doc__)
