#!/usr/bin/env python3
"""Traces, schedules and plans, each with all that the program prints for it: verdicts, turns, and the traces of runs.

    trace_rows.py PROGRAM

A text that is no trace of a run is given to `trace` and to `trace --turns`, which print the same for it; each trace that a run is expected to have is judged
too. Each trace is judged once more as files, with the history of one node in each. The status and what stands on standard error are compared as well. What is expected was written by hand, from the pages under docs/. The last
line counts the checks."""
import json, os, re, select, subprocess, sys, tempfile, time
from typing import NamedTuple

sys.path.append(os.path.join(os.path.dirname(os.path.abspath(__file__)), ".."))
from common.program import named, run
from common.tally import Tally


class Row(NamedTuple):
    """What is printed is one of these texts; where it can't be foreseen which one, there are more."""

    name: str
    command: str
    fed: bytes
    status: int
    printed: tuple
    said: bytes = b""
    files: tuple = ()


ASKED = r'{"nodes":2,"histories":[[{"do":"check","sent":["010100010000"]},{"do":"deliver","msg":"01020100000101","sent":[]}],[{"do":"deliver","msg":"010100010000","sent":["01020100000101"]}]]}'
NOBODY_ASKED = r'{"nodes":2,"histories":[[],[{"do":"deliver","msg":"010100010000","sent":["01020100000101"]}]]}'
# A run of two nodes as it comes: who is asked says so first.
ANSWERS = r'{"nodes":2,"histories":[[],[{"do":"deliver","msg":"010100010000","sent":["01020100000101"]}]]}'
ASKS = r'{"nodes":2,"histories":[[{"do":"check","sent":["010100010000"]}],[]]}'
HEARS = r'{"nodes":2,"histories":[[{"do":"deliver","msg":"01020100000101","sent":[]}],[]]}'
SAYS_NOTHING = r'{"nodes":2,"histories":[[],[{"do":"deliver","msg":"010100010000","sent":[]}]]}'

# Lines of `judge`, what it prints of them, and its status.
AS_IT_COMES = [
    ("each prefix has its own verdict", ["", ANSWERS, "", ASKS, "", "", HEARS, "", ""], "Run\nOngoing\nRun 0 1\nRun 0 1\nRun 0 1 0\n", 0),
    ("nobody asks", [ANSWERS, ASKS, ""], "", 0),
    ("a line that isn't whole asks nothing", [ASKS, "", ANSWERS], "Run 0\n", 0),
    ("what can't be never can", [SAYS_NOTHING, "", ASKS, "", HEARS, "", ""], "NotARun 1 0\nNotARun 1 0\nNotARun 1 0\n", 1),
    ("entries of one node in one line and in two", [ASKED, "", ASKS, "", ""], "Run 0 1 0\nRun 0 1 0 0\n", 0),
    ("no trace", [ASKS, "", "{}", "", ""], "Run 0\nbad trace\n", 1),
    ("a bad entry, by its place in the line", [ASKS, "", r'{"nodes":2,"histories":[[],[{"do":"none","sent":[]},{"do":"check"}]]}', "", ""], "Run 0\nbad trace 1 1\n", 1),
    ("more nodes", [ASKS, r'{"nodes":3,"histories":[[],[],[]]}', "", ""], "bad trace\n", 1),
    ("fewer nodes", [ASKS, "", r'{"nodes":1,"histories":[[]]}', "", ""], "Run 0\nbad trace\n", 1),
]

# Whole traces.
WHOLE = [
    ("a question and its answer", ASKED, "Run 0 1 0\n"),
    ("an answer, and nobody asked", NOBODY_ASKED, "NotARun 1 0\n"),
    # each history by itself is lawful
    (
        "a circle",
        r'{"nodes":2,"histories":[[{"do":"deliver","msg":"010101000000","sent":["01020001000101"]}],[{"do":"deliver","msg":"01020001000101","sent":[]},{"do":"check","sent":["010101000000"]}]]}',
        "NotARun 0 0\n",
    ),
    (
        "half of the circle",
        r'{"nodes":2,"histories":[[{"do":"deliver","msg":"010101000000","sent":["01020001000101"]}],[{"do":"check","sent":["010101000000"]}]]}',
        "Run 1 0\n",
    ),
    (
        "a message that isn't for its node",
        r'{"nodes":2,"histories":[[{"do":"check","sent":["010100010000"]},{"do":"deliver","msg":"010100010000","sent":[]}],[]]}',
        "NotARun 0 1\n",
    ),
    # both fall with a raise in doubt, recover with it or without, fall and recover; the second finds its raise once more
    (
        "a doubt is settled once",
        r'{"nodes":2,"histories":[[{"do":"recover","kept":false,"fault":"raise","sent":[]},{"do":"recover","kept":false,"sent":[]},{"do":"crash","sent":[]},{"do":"recover","kept":false,"sent":[]}],'
        r'[{"do":"recover","kept":false,"fault":"raise","sent":[]},{"do":"recover","kept":true,"sent":[]},{"do":"crash","sent":[]},{"do":"recover","kept":false,"sent":[]},{"do":"recover","kept":true,"sent":[]}]]}',
        "NotARun 1 4\n",
    ),
    ("no entries", r'{"nodes":1,"histories":[[]]}', "Run\n"),
    ("space, and a key that isn't named", r' { "x" : [ 1.5 ] , "histories" : [ [ ] , [ ] ] , "nodes" : 2 } ', "Run\n"),
    ("equal keys", r'{"nodes":3,"nodes":1,"histories":7,"histories":[[]]}', "Run\n"),
    ("the most nodes", '{"nodes":128,"histories":[' + ",".join(["[]"] * 128) + "]}", "Run\n"),
    # another shape, which is judged before any entry
    ("no text", r"", "bad trace\n"),
    ("a list", r"[]", "bad trace\n"),
    ("no nodes", r'{"nodes":0,"histories":[]}', "bad trace\n"),
    ("a node too many", '{"nodes":129,"histories":[' + ",".join(["[]"] * 129) + "]}", "bad trace\n"),
    ("a history too few", r'{"nodes":2,"histories":[[]]}', "bad trace\n"),
    ("nodes with a point", r'{"nodes":1.0,"histories":[[]]}', "bad trace\n"),
    ("nodes as a string", r'{"nodes":"1","histories":[[]]}', "bad trace\n"),
    ("nodes missing", r'{"histories":[[]]}', "bad trace\n"),
    ("histories missing", r'{"nodes":1}', "bad trace\n"),
    ("histories as an object", r'{"nodes":1,"histories":{}}', "bad trace\n"),
    ("a history that is none, behind a bad entry", r'{"nodes":2,"histories":[[{"do":1}],3]}', "bad trace\n"),
    ("more behind the whole", r'{"nodes":1,"histories":[[]]} 1', "bad trace\n"),
    ("the end missing", r'{"nodes":1,"histories":[[]]', "bad trace\n"),
    ("not UTF-8", b'{"nodes":1,"histories":[[]],"x":"\xff"}', "bad trace\n"),
    # the outermost object is the first level
    ("127 levels", '{"nodes":1,"histories":[[]],"x":' + "[" * 126 + "]" * 126 + "}", "Run\n"),
    ("128 levels", '{"nodes":1,"histories":[[]],"x":' + "[" * 127 + "]" * 127 + "}", "bad trace\n"),
    # of several bad entries the one of the least node, and there of the least index
    ("bad entries of two nodes", r'{"nodes":3,"histories":[[],[{"do":"none","sent":[]},1,{}],[{}]]}', "bad trace 1 1\n"),
    ("a bad entry", r'{"nodes":2,"histories":[[],[{"do":"none","sent":[]},{"do":"crash"}]]}', "bad trace 1 1\n"),
]

# Entries of the one node of a cluster.
ENTRIES = [
    (r'{"do":"none","sent":[]}', "Run 0\n"),
    (r'{"do":"none","sent":["010100010000"]}', "NotARun 0 0\n"),
    (r'{"do":"none","sent":[],"kept":7,"fault":null,"msg":{"a":[1.5]}}', "Run 0\n"),
    (r'{"do":"what","do":"none","sent":[]}', "Run 0\n"),
    (r'{"do":"check","sent":[]}', "Run 0\n"),
    (r'{"do":"merge","sent":[]}', "Run 0\n"),
    (r'{"do":"accept","sent":[]}', "Run 0\n"),
    (r'{"do":"ready","sent":[]}', "Run 0\n"),
    (r'{"do":"coord","sent":[]}', "Run 0\n"),
    (r'{"do":"dispatch","sent":[]}', "Run 0\n"),
    (r'{"do":"check","fault":"device","sent":[]}', "NotARun 0 0\n"),
    (r'{"do":"deliver","msg":"010101000000","sent":["01020001000101"]}', "NotARun 0 0\n"),
    (r'{"do":"submit","queue":0,"payload":"","sent":[]}', "Run 0\n"),
    (r'{"do":"submit","queue":15,"payload":"fF","fault":"device","sent":[]}', "Run 0\n"),
    (r'{"do":"submit","queue":0,"priority":1,"payload":"","sent":[]},{"do":"submit","queue":0,"priority":255,"payload":"","sent":[]}', "Run 0 0\n"),
    (r'{"do":"crash","sent":[]},{"do":"submit","queue":0,"payload":"","sent":[]}', "NotARun 0 1\n"),
    (r'{"do":"submit","queue":0,"payload":"","sent":[]},{"do":"finish","origin":0,"id":0,"sent":[]}', "Run 0 0\n"),
    (r'{"do":"submit","queue":0,"payload":"","sent":[]},{"do":"finish","origin":0,"id":0,"fault":"device","sent":[]},{"do":"recover","kept":true,"sent":[]}', "Run 0 0 0\n"),
    (r'{"do":"finish","origin":0,"id":0,"sent":[]}', "NotARun 0 0\n"),
    (r'{"do":"finish","origin":63,"id":18446744073709551615,"sent":[]}', "NotARun 0 0\n"),
    (r'{"do":"finish","origin":127,"id":0,"sent":[]}', "NotARun 0 0\n"),
    (r'{"do":"crash","sent":[]}', "Run 0\n"),
    (r'{"do":"crash","sent":["010100010000"]}', "NotARun 0 0\n"),
    (r'{"do":"crash","sent":[]},{"do":"recover","kept":false,"sent":[]}', "Run 0 0\n"),
    (r'{"do":"crash","sent":[]},{"do":"recover","kept":true,"sent":[]}', "NotARun 0 1\n"),
    (r'{"do":"recover","kept":false,"sent":[]}', "Run 0\n"),
    (r'{"do":"recover","kept":true,"sent":[]}', "NotARun 0 0\n"),
    (r'{"do":"recover","kept":false,"fault":"mount","sent":[]}', "NotARun 0 0\n"),
    (r'{"do":"crash","sent":[]},{"do":"recover","kept":false,"fault":"mount","sent":[]}', "Run 0 0\n"),
    (r'{"do":"crash","sent":[]},{"do":"recover","kept":true,"fault":"mount","sent":[]}', "NotARun 0 1\n"),
    (r'{"do":"recover","kept":false,"fault":"raise","sent":[]}', "Run 0\n"),
    (r'{"do":"recover","kept":true,"fault":"raise","sent":[]}', "NotARun 0 0\n"),
    (r'{"do":"recover","kept":false,"fault":"raise","sent":["010100010000"]}', "NotARun 0 0\n"),
    # a command in doubt is settled once, and stays in doubt where the disk isn't mounted or the node crashes again
    (r'{"do":"recover","kept":false,"fault":"raise","sent":[]},{"do":"recover","kept":true,"sent":[]}', "Run 0 0\n"),
    (
        r'{"do":"recover","kept":false,"fault":"raise","sent":[]},{"do":"recover","kept":false,"fault":"mount","sent":[]},{"do":"crash","sent":[]},{"do":"recover","kept":true,"sent":[]}',
        "Run 0 0 0 0\n",
    ),
    (
        r'{"do":"recover","kept":false,"fault":"raise","sent":[]},{"do":"recover","kept":false,"sent":[]},{"do":"crash","sent":[]},{"do":"recover","kept":true,"sent":[]}',
        "NotARun 0 3\n",
    ),
    (r'{"do":"crash","sent":[]},{"do":"recover","kept":false,"fault":"raise","sent":[]},{"do":"recover","kept":true,"sent":[]}', "Run 0 0 0\n"),
    (r'{"do":"recover","kept":false,"fault":"raise","sent":[]},{"do":"recover","kept":true,"fault":"raise","sent":[]},{"do":"recover","kept":true,"sent":[]}', "Run 0 0 0\n"),
    ('{"do":"submit","queue":0,"payload":"' + "61" * 400 + '","sent":[]}', "Run 0\n"),
    # more than the most turns of a node in threads
    (",".join([r'{"do":"none","sent":[]}'] * 65_537), "Run" + " 0" * 65_537 + "\n"),
]

# Entries of which each is a bad one: a field is missing, of another type, or out of its range.
BAD = [
    r"1",
    r"null",
    r"[]",
    r"{}",
    r'{"sent":[]}',
    r'{"do":1,"sent":[]}',
    r'{"do":"Crash","sent":[]}',
    r'{"do":"none"}',
    r'{"do":"none","sent":""}',
    r'{"do":"none","sent":[1]}',
    r'{"do":"none","sent":["-"]}',
    r'{"do":"none","sent":["0"]}',
    r'{"do":"none","sent":["0x"]}',
    r'{"do":"none","sent":["010100000000"]}',
    r'{"do":"none","sent":["01010001000000"]}',
    r'{"do":"deliver","sent":[]}',
    r'{"do":"deliver","msg":1,"sent":[]}',
    r'{"do":"deliver","msg":"","sent":[]}',
    r'{"do":"deliver","msg":"0102000200010","sent":[]}',
    r'{"do":"deliver","msg":"01020002000102","sent":[]}',
    r'{"do":"submit","payload":"","sent":[]}',
    r'{"do":"submit","queue":"0","payload":"","sent":[]}',
    r'{"do":"submit","queue":16,"payload":"","sent":[]}',
    r'{"do":"submit","queue":-1,"payload":"","sent":[]}',
    r'{"do":"submit","queue":-0,"payload":"","sent":[]}',
    r'{"do":"submit","queue":1.0,"payload":"","sent":[]}',
    r'{"do":"submit","queue":1e0,"payload":"","sent":[]}',
    r'{"do":"submit","queue":0,"sent":[]}',
    r'{"do":"submit","queue":0,"priority":0,"payload":"","sent":[]}',
    r'{"do":"submit","queue":0,"priority":256,"payload":"","sent":[]}',
    r'{"do":"submit","queue":0,"priority":-1,"payload":"","sent":[]}',
    r'{"do":"submit","queue":0,"priority":"1","payload":"","sent":[]}',
    r'{"do":"submit","queue":0,"priority":null,"payload":"","sent":[]}',
    r'{"do":"submit","queue":0,"payload":"-","sent":[]}',
    r'{"do":"submit","queue":0,"payload":[],"sent":[]}',
    '{"do":"submit","queue":0,"payload":"' + "61" * 401 + '","sent":[]}',
    r'{"do":"finish","id":0,"sent":[]}',
    r'{"do":"finish","origin":"0","id":0,"sent":[]}',
    r'{"do":"finish","origin":128,"id":0,"sent":[]}',
    r'{"do":"finish","origin":256,"id":0,"sent":[]}',
    r'{"do":"finish","origin":0,"sent":[]}',
    r'{"do":"finish","origin":0,"id":"0","sent":[]}',
    r'{"do":"finish","origin":0,"id":18446744073709551616,"sent":[]}',
    r'{"do":"recover","sent":[]}',
    r'{"do":"recover","kept":0,"sent":[]}',
    r'{"do":"recover","kept":null,"sent":[]}',
    r'{"do":"recover","kept":false,"fault":"device","sent":[]}',
    r'{"do":"recover","kept":false,"fault":null,"sent":[]}',
    r'{"do":"check","fault":"raise","sent":[]}',
    r'{"do":"check","fault":true,"sent":[]}',
    r'{"do":"finish","origin":0,"id":0,"fault":"mount","sent":[]}',
]

WAITS = b"invite: no order takes all entries: each that is left waits for a message that none sent\nnode 1: entry 0 waits for 010100010000\n"

# Traces, and what is printed of their turns: in which order they are, each turn and how its node stands then, and what is left.
TURNS = [
    ("a question and its answer", ASKED, 0, "possible\nturn 0 0 Normal 0:1 0 0 0\nturn 1 0 Normal 1:1 1 1 0\nturn 0 1 Normal 0:1 0 0 0\n", b""),
    # a node crashes, and comes back in its second group; it recovers while it is up, in its third; then it is refused something
    (
        "a crash and recoveries",
        r'{"nodes":1,"histories":[[{"do":"crash","sent":[]},{"do":"recover","kept":false,"sent":[]},{"do":"recover","kept":false,"sent":[]},{"do":"none","sent":[]}]],"order":"0 - 0 - 0 - 0 -"}',
        0,
        "recorded\nturn 0 0 Down\nturn 0 1 Normal 0:2 0 0 0\nturn 0 2 Normal 0:3 0 0 0\nturn 0 3 Normal 0:3 0 0 0\n",
        b"",
    ),
    # node 1 finds node 0, and makes a group with it: its members are told with the task
    (
        "two become one",
        r'{"nodes":2,"order":"1 - 0 0 1 1 1 - 0 2 1 3 1 - 0 4 1 5","histories":[[{"do":"deliver","msg":"010101000000","sent":["01020001000101"]},{"do":"deliver","msg":"010501000009010000000000000002","sent":["010600010009010000000000000002"]},{"do":"deliver","msg":"01070100000c010000000000000002020001","sent":["010800010009010000000000000002"]}],'
        r'[{"do":"check","sent":["010101000000"]},{"do":"deliver","msg":"01020001000101","sent":[]},{"do":"merge","sent":["010501000009010000000000000002"]},{"do":"deliver","msg":"010600010009010000000000000002","sent":[]},{"do":"accept","sent":["01070100000c010000000000000002020001"]},{"do":"deliver","msg":"010800010009010000000000000002","sent":[]}]]}',
        0,
        "recorded\nturn 1 0 Normal 1:1 1 1 0\nturn 0 0 Normal 0:1 0 0 0\nturn 1 1 Normal 1:1 1 1 0\nturn 1 2 Election 1:2 1 - 0\nturn 0 1 Reorganization 1:2 1 - 0\n"
        "turn 1 3 Election 1:2 1 - 0\nturn 1 4 Reorganization 1:2 1 0,1 0\nturn 0 2 Normal 1:2 1 0,1 0\nturn 1 5 Normal 1:2 1 0,1 0\n",
        b"",
    ),
    # a raise that is found counts
    (
        "a node that comes back late",
        r'{"nodes":1,"histories":[[{"do":"submit","queue":0,"payload":"","fault":"device","sent":[]},{"do":"recover","kept":false,"fault":"mount","sent":[]},'
        r'{"do":"recover","kept":false,"fault":"raise","sent":[]},{"do":"crash","sent":[]},{"do":"recover","kept":true,"sent":[]}]]}',
        0,
        "possible\nturn 0 0 Down\nturn 0 1 Down\nturn 0 2 Down\nturn 0 3 Down\nturn 0 4 Normal 0:3 0 0 0\n",
        b"",
    ),
    # one turn of each node is left, behind one that is taken
    (
        "two that wait",
        r'{"nodes":2,"histories":[[{"do":"deliver","msg":"010501000009010000000000000002","sent":["010600010009010000000000000002"]}],'
        r'[{"do":"check","sent":["010101000000"]},{"do":"deliver","msg":"01020001000101","sent":[]}]]}',
        1,
        "possible\nturn 1 0 Normal 1:1 1 1 0\nnode 0: entry 0 waits for 010501000009010000000000000002\nnode 1: entry 1 waits for 01020001000101\n",
        b"invite: no order takes all entries: each that is left waits for a message that none sent\nnode 0: entry 0 waits for 010501000009010000000000000002\nnode 1: entry 1 waits for 01020001000101\n",
    ),
    # a job is in hand from its submission at who works on its queue until it is finished
    (
        "a job in hand",
        r'{"nodes":1,"histories":[[{"do":"submit","queue":3,"payload":"6869","sent":[]},{"do":"finish","origin":0,"id":0,"sent":[]}]]}',
        0,
        "possible\nturn 0 0 Normal 0:1 0 0 1\nturn 0 1 Normal 0:1 0 0 0\n",
        b"",
    ),
    # of an order in which an entry can't be taken, has one too many or one too few, another one is told
    ("an order that can't be", ASKED[:-1] + ',"order":"1 0 0 - 0 1"}', 0, "possible\nturn 0 0 Normal 0:1 0 0 0\nturn 1 0 Normal 1:1 1 1 0\nturn 0 1 Normal 0:1 0 0 0\n", b""),
    ("an order of too few", ASKED[:-1] + ',"order":"0 - 1 0"}', 0, "possible\nturn 0 0 Normal 0:1 0 0 0\nturn 1 0 Normal 1:1 1 1 0\nturn 0 1 Normal 0:1 0 0 0\n", b""),
    ("the order", ASKED[:-1] + ',"order":"0 - 1 0 0 1"}', 0, "recorded\nturn 0 0 Normal 0:1 0 0 0\nturn 1 0 Normal 1:1 1 1 0\nturn 0 1 Normal 0:1 0 0 0\n", b""),
    ("nobody asked", NOBODY_ASKED, 1, "possible\nnode 1: entry 0 waits for 010100010000\n", WAITS),
    ("no entries", r'{"nodes":1,"histories":[[]],"order":""}', 0, "recorded\n", b""),
]

# Schedules, the trace that `record` writes of each (with no spaces, and the keys of each object in order) with the order of its turns, and the verdict on it.
RECORDED = [
    (
        "a question and its answer",
        "cluster 2 8\ncheck 0\ndeliver 0\ndeliver 1\n",
        r'{"histories":[[{"do":"check","sent":["010100010000"]},{"do":"deliver","msg":"01020100000101","sent":[]}],[{"do":"deliver","msg":"010100010000","sent":["01020100000101"]}]],"nodes":2,"order":"0 - 1 0 0 1"}',
        "Run 0 1 0\n",
    ),
    (
        "priorities",
        "cluster 1 4\nsubmit 0 0 - 1\nsubmit 0 3 00 255\n",
        r'{"histories":[[{"do":"submit","payload":"","priority":1,"queue":0,"sent":[]},{"do":"submit","payload":"00","priority":255,"queue":3,"sent":[]}]],"nodes":1,"order":"0 - 0 -"}',
        "Run 0 0\n",
    ),
    # the last of the four calls of an append fails, and then a mounting at its first call; one of a journal with one record makes eleven calls and finds the
    # job; then the raise fails, which leaves nothing once the node has crashed; at last the end of the job is found, whose last call failed
    (
        "each fault of a disk",
        "cluster 1 4\nfinish 0 3 18446744073709551615\narm 0 3\nsubmit 0 15 6869\nrecover 0\narm 0 11\nrecover 0\ncrash 0\nrecover 0\ndispatch 0\narm 0 3\nfinish 0 0 0\narm 0 1000\nrecover 0\n",
        r'{"histories":[[{"do":"none","sent":[]},{"do":"none","sent":[]},{"do":"submit","fault":"device","payload":"6869","queue":15,"sent":[]},{"do":"recover","fault":"mount","kept":false,"sent":[]},'
        r'{"do":"none","sent":[]},{"do":"recover","fault":"raise","kept":true,"sent":[]},{"do":"crash","sent":[]},{"do":"recover","kept":false,"sent":[]},{"do":"dispatch","sent":[]},'
        r'{"do":"none","sent":[]},{"do":"finish","fault":"device","id":0,"origin":0,"sent":[]},{"do":"none","sent":[]},{"do":"recover","kept":true,"sent":[]}]],"nodes":1,"order":"0 -' + " 0 -" * 12 + '"}',
        "Run" + " 0" * 13 + "\n",
    ),
]

CRASHED = r'{"do":"crash","sent":["010100010000"]}'
ASKED_ALONE = r'{"do":"check","sent":["010100010000"]},{"do":"deliver","msg":"01020100000101","sent":[]}'

# Traces of runs that may go on: what is printed, the status, and what is said of the entries that are left.
ONGOING = [
    ("all entries can be taken", ASKED, "Run 0 1 0\n", 0, ""),
    ("nothing yet", r'{"nodes":2,"histories":[[],[]]}', "Run\n", 0, ""),
    # the record of the node that answered, or of the one that asked, comes later
    (
        "an answer that none sent yet",
        r'{"nodes":2,"histories":[[' + ASKED_ALONE + "],[]]}",
        "Ongoing 0\n",
        0,
        "each that is left waits for a message that none sent\nnode 0: entry 1 waits for 01020100000101",
    ),
    (
        "a question that none sent yet",
        NOBODY_ASKED,
        "Ongoing\n",
        0,
        "each that is left waits for a message that none sent\nnode 1: entry 0 waits for 010100010000",
    ),
    # whatever others send, a crash sends nothing; a node that merely waits isn't named
    (
        "a crash that sent something",
        r'{"nodes":2,"histories":[[' + CRASHED + "],[]]}",
        "NotARun 0 0\n",
        1,
        "look first at node 0, entry 0\nnode 0: entry 0 (crash) can't be: it would send nothing",
    ),
    (
        "one waits, and one can't be",
        r'{"nodes":2,"histories":[[' + ASKED_ALONE + "],[" + CRASHED + "]]}",
        "NotARun 1 0\n",
        1,
        "look first at node 1, entry 0\nnode 0: entry 1 waits for 01020100000101\nnode 1: entry 0 (crash) can't be: it would send nothing",
    ),
    ("no trace", r'{"nodes":1,"histories":[[{"do":"none","sent":[]},{"do":"none"}]]}', "bad trace 0 1\n", 1, ""),
]

# The entries of "two become one", and of each the group that its node tells behind it: phase, coordinator, number and members, as the rows of its turns have them.
JOINED = json.loads(next(trace for name, trace, *_ in TURNS if name == "two become one"))["histories"]
JOINED_GROUPS = [
    ["Normal 0 0:1 0", "Reorganization 1 1:2 -", "Normal 1 1:2 0,1"],
    ["Normal 1 1:1 1", "Normal 1 1:1 1", "Election 1 1:2 -", "Election 1 1:2 -", "Reorganization 1 1:2 0,1", "Normal 1 1:2 0,1"],
]
JOINED_RUN = "Run 1 0 1 1 0 1 1 0 1\n"

# The same cluster, which works on a job of node 1, and what is told of these entries.
WORKED = [
    JOINED[0] + [
        {"do": "deliver", "msg": "01090100001601000000000000000200000000000000000000026869", "sent": []},
        {"do": "finish", "origin": 1, "id": 0, "sent": ["010a000100080000000000000000"]},
    ],
    JOINED[1] + [
        {"do": "submit", "queue": 0, "payload": "6869", "sent": ["01090100001601000000000000000200000000000000000000026869"]},
        {"do": "deliver", "msg": "010a000100080000000000000000", "sent": []},
    ],
]
WORKED_ANSWERS = {
    (0, 3): {"took": "1 0 0 6869;", "dropped": "", "gone": "", "id": "", "kept": "1 0 0", "group": "Normal 1 1:2 0,1"},
    (0, 4): {"took": "", "dropped": "", "gone": "", "id": "", "kept": "1 0 0"},
    (1, 6): {"took": "", "dropped": "", "gone": "", "id": "0", "kept": "2 1 1"},
    (1, 7): {"took": "", "dropped": "", "gone": "0;", "id": "", "kept": "2 1 0"},
}
WORKED_RUN = "Run 1 0 1 1 0 1 1 0 1 1 0 0 1\n"

# What a node tells that is alone, and is given a job, and what it doesn't: the entries, their answers, and others.
ALONE = [
    (
        [{"do": "submit", "queue": 3, "payload": "6869", "sent": []}, {"do": "finish", "origin": 0, "id": 0, "sent": []}],
        [
            {"took": "0 0 3 6869;", "dropped": "", "gone": "", "id": "0", "kept": "1 1 1"},
            {"took": "", "dropped": "", "gone": "0;", "id": "", "kept": "1 1 0"},
        ],
    ),
    # a recovery drops the work, and a dispatch takes it up again
    (
        [{"do": "submit", "queue": 0, "payload": "", "priority": 7, "sent": []}, {"do": "recover", "kept": False, "sent": []}, {"do": "dispatch", "sent": []}, {"do": "crash", "sent": []}],
        [
            {"took": "0 0 0 - 7;", "dropped": "", "id": "0"},
            {"took": "", "dropped": "0 0;", "gone": "", "id": "", "kept": "2 1 1", "group": "Normal 0 0:2 0"},
            {"took": "0 0 0 - 7;", "dropped": "", "gone": ""},
            {"took": "", "dropped": "0 0;", "gone": "", "group": "Down"},
        ],
    ),
]
OTHER_ANSWERS = ["0 0 3 6868;", "0 1 3 6869;", "1 0 3 6869;", "0 0 2 6869;", "0 0 3 6869", "0 0;", "0 0;0 1;", "0;", "1;", "0", "1", "", "-", "1 1 1", "2 1 1", "1 0 1", "1 1 2", "Down"]

# What a node tells that is alone, as text of JSON: the entries, and what is printed.
TOLD = [
    (r'{"do":"none","sent":[],"told":{"group":"Normal 0 0:1 0"}}', "Run 0\n"),
    (r'{"do":"none","sent":[],"told":{"group":"Normal 0 0:2 0"}}', "NotARun 0 0\n"),
    (r'{"do":"none","sent":[]},{"do":"crash","sent":[],"told":{"group":"Down"}}', "Run 0 0\n"),
    (r'{"do":"none","sent":[]},{"do":"crash","sent":[],"told":{"group":"Normal 0 0:1 0"}}', "NotARun 0 1\n"),
    (r'{"do":"none","sent":[],"told":{"group":"Down"}},{"do":"crash","sent":[]}', "NotARun 0 0\n"),
    (r'{"do":"crash","sent":[]},{"do":"recover","kept":false,"sent":[],"told":{"group":"Normal 0 0:2 0"}}', "Run 0 0\n"),
    (r'{"do":"crash","sent":[]},{"do":"recover","kept":false,"sent":[],"told":{"group":"Normal 0 0:1 0"}}', "NotARun 0 1\n"),
    # what isn't said isn't asked, and of equal keys the last counts
    (r'{"do":"none","sent":[],"told":{}}', "Run 0\n"),
    (r'{"do":"none","sent":[],"told":{"x":[1.5]}}', "Run 0\n"),
    (r'{"do":"none","sent":[],"told":{"group":"Down"},"told":{"group":"Down","group":"Normal 0 0:1 0"}}', "Run 0\n"),
    (r'{"told":{"group":"Normal 0 0:1 0"},"do":"none","sent":[],"told":{"group":"Down"}}', "NotARun 0 0\n"),
    # a field of another type is no answer
    (r'{"do":"none","sent":[],"told":7}', "NotARun 0 0\n"),
    (r'{"do":"none","sent":[],"told":null}', "NotARun 0 0\n"),
    (r'{"do":"none","sent":[],"told":["group"]}', "NotARun 0 0\n"),
    (r'{"do":"none","sent":[],"told":"Normal 0 0:1 0"}', "NotARun 0 0\n"),
    (r'{"do":"none","sent":[],"told":{"group":null}}', "NotARun 0 0\n"),
    (r'{"do":"none","sent":[],"told":{"group":["Normal 0 0:1 0"]}}', "NotARun 0 0\n"),
    (r'{"do":"none","sent":[],"told":{"group":"Normal 0 0:1 0 "}}', "NotARun 0 0\n"),
    (r'{"do":"none","sent":[],"told":{"group":""}}', "NotARun 0 0\n"),
    # a text is what its escapes mean, and what stands deeper, or in another object, isn't told of this entry
    (r'{"do":"none","sent":[],"told":{"group":"\u004eormal 0 0:1 0"}}', "Run 0\n"),
    (r'{"do":"none","sent":[],"told":{"group":"\u0044own"}}', "NotARun 0 0\n"),
    (r'{"do":"none","sent":[],"told":{"x":{"group":"Down"}}}', "Run 0\n"),
    (r'{"do":"none","sent":[],"x":{"told":{"group":"Down"}}}', "Run 0\n"),
    (r'{"do":"none","sent":[],"x":["told",{"told":{"group":"Down"}}],"told":{"kept":"1 0 0"}}', "Run 0\n"),
    (r'{"do":"none","sent":[]},{"do":"none","sent":[],"told":{"kept":"1 0 1"}},{"do":"none","sent":[]}', "NotARun 0 1\n"),
    # the first of two is named; one that can't come is named as ever, unless something else was told before
    (r'{"do":"none","sent":[],"told":{"group":"Down"}},{"do":"none","sent":[],"told":{"group":"Down"}}', "NotARun 0 0\n"),
    (r'{"do":"none","sent":[],"told":{"group":"Normal 0 0:1 0"}},{"do":"none","sent":["010100010000"],"told":{"group":"Down"}}', "NotARun 0 1\n"),
    (r'{"do":"none","sent":[],"told":{"group":"Down"}},{"do":"none","sent":["010100010000"]}', "NotARun 0 0\n"),
    (r'{"do":"none","sent":[],"told":{"group":"Down"}},{"do":"none"}', "bad trace 0 1\n"),
]

# Plans, each trace that a run of them in threads can have, and the verdict on it.
PLANS = [
    ("no turns", "cluster 1 4\nlinks 1\n", [(r'{"histories":[[]],"nodes":1}', "Run\n")]),
    (
        "empty lines, and no line feed at the end",
        "\ncluster 1 4\n\n\nlinks 65536\n\n0 clock merge",
        [(r'{"histories":[[{"do":"merge","sent":[]}]],"nodes":1}', "Run 0\n")],
    ),
    # one worker's turns stand in the order of their lines
    (
        "the operator alone",
        "cluster 1 4\nlinks 1\n0 operator submit 3 6869 7\n0 operator arm 0\n0 operator submit 0 -\n0 operator crash\n0 operator recover\n0 operator finish 0 0\n0 operator finish 63 18446744073709551615\n0 operator crash a5\n",
        [
            (
                r'{"histories":[[{"do":"submit","payload":"6869","priority":7,"queue":3,"sent":[]},{"do":"none","sent":[]},{"do":"submit","fault":"device","payload":"","queue":0,"sent":[]},{"do":"crash","sent":[]},{"do":"recover","kept":false,"sent":[]},{"do":"none","sent":[]},{"do":"none","sent":[]},{"do":"crash","sent":[]}]],"nodes":1}',
                "Run 0 0 0 0 0 0 0 0\n",
            )
        ],
    ),
    (
        "the clock alone",
        "cluster 1 4\nlinks 1\n0 clock check\n0 clock accept\n0 clock ready\n0 clock coord\n0 clock dispatch\n",
        [
            (
                r'{"histories":[[{"do":"check","sent":[]},{"do":"accept","sent":[]},{"do":"ready","sent":[]},{"do":"coord","sent":[]},{"do":"dispatch","sent":[]}]],"nodes":1}',
                "Run 0 0 0 0 0\n",
            )
        ],
    ),
    # nine slots have room for seven pending jobs
    (
        "a full journal",
        "cluster 1 9\nlinks 7\n" + "0 operator submit 0 -\n" * 8,
        [('{"histories":[[' + r'{"do":"submit","payload":"","queue":0,"sent":[]},' * 7 + r'{"do":"none","sent":[]}]],"nodes":1}', "Run 0 0 0 0 0 0 0 0\n")],
    ),
    # the second message is lost, and stands in its entry
    (
        "a full link",
        "cluster 2 4\nlinks 1\n0 clock check\n0 clock check\n",
        [(r'{"histories":[[{"do":"check","sent":["010100010000"]},{"do":"check","sent":["010100010000"]}],[]],"nodes":2}', "Run 0 0\n")],
    ),
    (
        "the most turns of a node",
        "cluster 1 4\nlinks 1\n" + "0 clock check\n" * 65_536,
        [(r'{"histories":[[' + ",".join([r'{"do":"check","sent":[]}'] * 65_536) + r']],"nodes":1}', "Run" + " 0" * 65_536 + "\n")],
    ),
    # the operator's turn comes before, between or behind those of the clock
    (
        "three workers of two nodes",
        "cluster 3 9\nlinks 7\n2 clock ready\n0 intake 2\n2 operator recover\n2 clock merge\n",
        [
            (r'{"histories":[[{"do":"none","sent":[]}],[],[' + turns + r']],"nodes":3}', "Run 0 2 2 2\n")
            for turns in (
                r'{"do":"recover","kept":false,"sent":[]},{"do":"ready","sent":[]},{"do":"merge","sent":[]}',
                r'{"do":"ready","sent":[]},{"do":"recover","kept":false,"sent":[]},{"do":"merge","sent":[]}',
                r'{"do":"ready","sent":[]},{"do":"merge","sent":[]},{"do":"recover","kept":false,"sent":[]}',
            )
        ],
    ),
    # node 1 looks before it is asked or answers, node 0 looks before it asks, before it is answered, or is brought the answer
    (
        "a question",
        "cluster 2 8\nlinks 8\n0 clock check\n1 intake 0\n0 intake 1\n",
        [
            (r'{"histories":[[' + first + "],[" + second + r']],"nodes":2}', verdict)
            for first, second, verdict in (
                (r'{"do":"none","sent":[]},{"do":"check","sent":["010100010000"]}', r'{"do":"none","sent":[]}', "Run 0 0 1\n"),
                (r'{"do":"none","sent":[]},{"do":"check","sent":["010100010000"]}', r'{"do":"deliver","msg":"010100010000","sent":["01020100000101"]}', "Run 0 0 1\n"),
                (r'{"do":"check","sent":["010100010000"]},{"do":"none","sent":[]}', r'{"do":"none","sent":[]}', "Run 0 0 1\n"),
                (r'{"do":"check","sent":["010100010000"]},{"do":"none","sent":[]}', r'{"do":"deliver","msg":"010100010000","sent":["01020100000101"]}', "Run 0 0 1\n"),
                (r'{"do":"check","sent":["010100010000"]},{"do":"deliver","msg":"01020100000101","sent":[]}', r'{"do":"deliver","msg":"010100010000","sent":["01020100000101"]}', "Run 0 1 0\n"),
            )
        ],
    ),
]

# Plans of nodes that have more turns than a history has room for, and which node and worker are named: each worker that is named here has by itself
# a turn too many, so that it is refused whatever comes first.
MANY = 65_537
UNFINISHED = [
    ("a turn too many", "cluster 1 4\nlinks 1\n" + "0 clock check\n" * MANY, "unfinished 0 clock"),
    # of two nodes the first, and of its workers the clock before the operator
    ("two nodes", "cluster 2 4\nlinks 1\n" + "1 intake 0\n0 operator finish 0 0\n0 clock ready\n" * MANY, "unfinished 0 clock"),
    # the first node isn't refused, and of the second one's workers the intake counts
    ("three workers", "cluster 2 4\nlinks 1\n0 clock ready\n" + "1 operator finish 0 0\n1 clock ready\n1 intake 0\n" * MANY, "unfinished 1 intake"),
]

INTAKE = "not of the form N intake J, where J is another node"

# Inputs that are no plans, the line that can't be read, and what is wrong with it; command_lines.sh has more.
NO_PLANS = [
    ("cluster 1 4", 2, "there is no line links CAPACITY"),
    ("cluster 1 4\n\n", 3, "there is no line links CAPACITY"),
    ("links 1\n", 1, "not of the form cluster NODES SLOTS"),
    ("cluster 0 4\nlinks 1\n", 1, "not of the form cluster NODES SLOTS"),
    ("cluster 129 4\nlinks 1\n", 1, "not of the form cluster NODES SLOTS"),
    ("cluster 1 3\nlinks 1\n", 1, "not of the form cluster NODES SLOTS"),
    ("cluster 1 4097\nlinks 1\n", 1, "not of the form cluster NODES SLOTS"),
    ("cluster 1 4 1\nlinks 1\n", 1, "not of the form cluster NODES SLOTS"),
    ("\ncluster 1 4\n\n0 clock check\n", 4, "not of the form links CAPACITY"),
    ("cluster 1 4\nlinks 65537\n", 2, "not of the form links CAPACITY"),
    ("cluster 1 4\nlinks\n", 2, "not of the form links CAPACITY"),
    ("cluster 1 4\nlinks 1 1\n", 2, "not of the form links CAPACITY"),
    ("cluster 1 4\nlinks 1\ncluster 1 4\n", 3, "no such node: cluster"),
    ("cluster 1 4\nlinks 1\n1 clock check\n", 3, "no such node: 1"),
    ("cluster 1 4\nlinks 1\n0 clock recover\n", 3, "no such timer: recover"),
    ("cluster 1 4\nlinks 1\n0 clock check 0\n", 3, "not of the form N clock TIMER"),
    ("cluster 1 4\nlinks 1\n0 clock check \n", 3, "not of the form N clock TIMER"),
    ("cluster 2 4\nlinks 1\n0 intake 2\n", 3, INTAKE),
    ("cluster 2 4\nlinks 1\n0 intake 1 1\n", 3, INTAKE),
    ("cluster 1 4\nlinks 1\n0 operator submit 0 - 0\n", 3, "not of the form N operator submit QUEUE HEX [P]"),
    ("cluster 1 4\nlinks 1\n0 operator finish 128 0\n", 3, "not of the form N operator finish ORIGIN ID"),
    ("cluster 2 8\nlinks 8\n1 operator crash\n1 operator crash 0\n", 4, "not of the form N operator crash [HEX]"),
    # of several the first
    ("cluster 2 8\nlinks 8\n\n0 clock check\n0 intake 0\n1 intake 7\n", 5, INTAKE),
    ("cluster 1 4\nlinks 1\n0 clock check\n\nx\ny\n", 5, "no such node: x"),
]


def orders_of(histories):
    """The orders in which the turns of these histories can have been taken, as `threads --order` writes them; a message comes as soon as it was sent."""
    lone = [node for node, history in enumerate(histories) if history]
    if len(lone) < 2:
        return [" ".join([f"{node} -" for node in lone for _ in histories[node]])]
    return [" ".join(words) for words in walks(histories, [0] * len(histories), [])]


def walks(histories, taken, sent):
    """The words of the turns that are left, once so many of each node were taken and these messages were sent."""
    if taken == [len(history) for history in histories]:
        yield []
    for node, history in enumerate(histories):
        if taken[node] == len(history):
            continue
        entry, number = history[taken[node]], "-"
        if "msg" in entry:
            if entry["msg"] not in sent:
                continue
            number = sent.index(entry["msg"])
        then = taken[:node] + [taken[node] + 1] + taken[node + 1:]
        for words in walks(histories, then, sent + entry["sent"]):
            yield [f"{node} {number}", *words]


def with_orders(trace):
    """The texts that a run in threads of this trace can print."""
    for order in orders_of(json.loads(trace)["histories"]):
        yield f'{trace[:-1]},"order":"{order}"}}\n'.encode()


def judged(name, trace, verdict):
    """The verdict on a trace; `trace --turns` prints what is no trace, too."""
    fed = trace if isinstance(trace, bytes) else trace.encode()
    status = 0 if verdict.startswith("Run") else 1
    commands = ["trace", "trace --turns"] if verdict.startswith("bad") else ["trace"]
    return [Row(name, command, fed, status, (verdict.encode(),)) for command in commands]


def with_told(histories, answers):
    """A trace of these histories, in which these are the groups that were told."""
    told = [[{**entry, "told": {"group": group}} for entry, group in zip(*pair)] for pair in zip(histories, answers)]
    return json.dumps({"nodes": len(histories), "histories": told})


def with_answers(histories, answers):
    """A trace of these histories, in which this was told of some entries."""
    told = [[{**entry, "told": answers[node, index]} if (node, index) in answers else entry for index, entry in enumerate(history)] for node, history in enumerate(histories)]
    return json.dumps({"nodes": len(histories), "histories": told})


def altered_rows(histories, answers):
    """Each answer by each other one."""
    for (node, index), answer in answers.items():
        for key, text in answer.items():
            for other in OTHER_ANSWERS:
                if other != text:
                    altered = {**answers, (node, index): {**answer, key: other}}
                    yield told_row(f"{key} {other!r} in place of {text!r}", "trace", with_answers(histories, altered), f"NotARun {node} {index}\n", (node, index))


def told_elsewise(group):
    """A group as it is told, with another phase, coordinator, number, list of members; each by itself."""
    phase, coordinator, number, members = group.split(" ")
    creator, count = number.split(":")
    yield " ".join(["Election" if phase == "Normal" else "Normal", coordinator, number, members])
    yield " ".join([phase, str(1 - int(coordinator)), number, members])
    yield " ".join([phase, coordinator, f"{1 - int(creator)}:{count}", members])
    yield " ".join([phase, coordinator, f"{creator}:{int(count) + 1}", members])
    yield " ".join([phase, coordinator, number, "0" if members != "0" else "0,1"])


def told_rows():
    """Traces in which it stands what their nodes told."""
    for entries, verdict in TOLD:
        trace = of_one_node(entries)
        place = tuple(int(word) for word in verdict.split()[1:]) if verdict.startswith("NotARun") else ()
        if verdict.startswith("NotARun 0 1") and "010100010000" in entries:
            yield Row(entries, "trace", trace.encode(), 1, (verdict.encode(),))
        else:
            yield told_row(entries, "trace", trace, verdict, place)
    yield told_row("all that was told", "trace", with_told(JOINED, JOINED_GROUPS), JOINED_RUN, ())
    for node, groups in enumerate(JOINED_GROUPS):
        for index, group in enumerate(groups):
            for other in told_elsewise(group):
                answers = [list(told) for told in JOINED_GROUPS]
                answers[node][index] = other
                name = f"node {node}, entry {index} told {other}"
                yield told_row(name, "trace", with_told(JOINED, answers), f"NotARun {node} {index}\n", (node, index))
    yield told_row("all that was told of a job", "trace", with_answers(WORKED, WORKED_ANSWERS), WORKED_RUN, ())
    yield from altered_rows(WORKED, WORKED_ANSWERS)
    for entries, told in ALONE:
        answers = {(0, index): answer for index, answer in enumerate(told)}
        yield told_row("a job of one node", "trace", with_answers([entries], answers), "Run" + " 0" * len(entries) + "\n", ())
        yield from altered_rows([entries], answers)
    # of a run that may go on, what was told of the entries that can be taken
    front = [JOINED[0][:2], JOINED[1][:3]]
    yield told_row("a front of a run", "trace --ongoing", with_told(front, JOINED_GROUPS), "Run 1 0 1 1 0\n", ())
    yield told_row("a front that lacks a record", "trace --ongoing", with_told([[], JOINED[1]], JOINED_GROUPS), "Ongoing 1\n", ())
    altered = [JOINED_GROUPS[0], ["Normal 1 1:1 0"] + JOINED_GROUPS[1][1:]]
    yield told_row("a front told otherwise", "trace --ongoing", with_told([[], JOINED[1]], altered), "NotARun 1 0\n", (1, 0))


def told_row(name, command, trace, printed, place):
    """What is printed of a trace, and the place of an entry of which something else was told."""
    status = 0 if printed.startswith(("Run", "Ongoing")) or not place and printed.startswith(("recorded", "possible")) else 1
    said = b"invite: no order takes all entries as they were told: look first at node %d, entry %d\n" % place if place else b""
    if printed.startswith("Ongoing"):
        said = b"invite: no order takes all entries: each that is left waits for a message that none sent\nnode 1: entry 1 waits for 01020001000101\n"
    return Row(name, command, trace.encode(), status, (printed.encode(),), said)


def as_it_comes(row):
    """The trace of a row of what was told, given to `judge` entry by entry, those of the last node first."""
    if row.command == "trace --ongoing" or b"as they were told" in row.said or row.printed[0].startswith(b"Run"):
        histories = json.loads(row.fed)["histories"]
        pieces = [[[entry] if node == own else [] for node in range(len(histories))] for own, history in reversed(list(enumerate(histories))) for entry in history]
        text = "".join(json.dumps({"nodes": len(histories), "histories": piece}) + "\n" for piece in pieces)
        yield Row(f"{row.name}, entry by entry", "judge", text.encode() + b"\n", row.status, row.printed)


def told_turns():
    """Turns of which something is told: they are printed all the same, and of what is told otherwise it is said where to look."""
    name, trace, _, printed, _ = next(row for row in TURNS if row[0] == "two become one")
    for order in ({"order": json.loads(trace)["order"]}, {}):
        text = printed if order else printed.replace("recorded", "possible")
        for node, groups in enumerate(JOINED_GROUPS):
            for index, group in enumerate(groups):
                for other in [group, *told_elsewise(group)]:
                    answers = [list(told) for told in JOINED_GROUPS]
                    answers[node][index] = other
                    fed = json.dumps({**json.loads(with_told(JOINED, answers)), **order})
                    yield told_row(f"{name}, told {other}", "trace --turns", fed, text, (node, index) if other != group else ())


def of_one_node(entries):
    return '{"nodes":1,"histories":[[' + entries + "]]}"


def all_rows():
    for name, trace, verdict in WHOLE:
        yield from judged(name, trace, verdict)
    for entries, verdict in ENTRIES:
        yield from judged(entries[:200], of_one_node(entries), verdict)
    for entry in BAD:
        yield from judged(entry[:200], of_one_node(entry), "bad trace 0 0\n")
    for name, trace, status, printed, said in TURNS:
        yield Row(name, "trace --turns", trace.encode(), status, (printed.encode(),), said)
    for name, schedule, trace, verdict in RECORDED:
        yield Row(name, "record", schedule.encode(), 0, (f"{trace}\n".encode(),))
        yield from judged(name, trace, verdict)
    for name, trace, printed, status, said in ONGOING:
        reason = f"invite: no order takes all entries: {said}\n".encode() if said else b""
        yield Row(name, "trace --ongoing", trace.encode(), status, (printed.encode(),), reason)
        yield Row(name, "judge", f"{trace}\n\n".encode(), status, (printed.encode(),))
    for row in told_rows():
        yield row
        yield from as_it_comes(row)
    yield from told_turns()
    for name, lines, printed, status in AS_IT_COMES:
        yield Row(name, "judge", "\n".join(lines).encode(), status, (printed.encode(),))
    for name, plans, traces in PLANS:
        yield Row(name, "threads", plans.encode(), 0, tuple(f"{trace}\n".encode() for trace, _ in traces))
        yield Row(name, "threads --order", plans.encode(), 0, tuple(text for trace, _ in traces for text in with_orders(trace)))
        for trace, verdict in traces:
            yield from judged(name, trace, verdict)
    for name, plans, text in UNFINISHED:
        yield Row(name, "threads", plans.encode(), 1, (f"{text}\n".encode(),))
    for plans, number, flaw in NO_PLANS:
        yield Row(repr(plans), "threads", plans.encode(), 1, (f"bad line {number}\n".encode(),), f"invite: line {number}: {flaw}\n".encode())


# What stands on standard error where no order takes all entries: where to look, and a line for each node with entries left.
REASONS = re.compile(
    rb"invite: no order takes all entries: (look first at node \d+, entry \d+|each that is left waits for a message that none sent)\n"
    rb"(node \d+: entry \d+ (waits for ([0-9a-f]{2})+|\([a-z]+\) can't be: [ -~]+)\n)+"
)


def texts_of(row):
    """The texts of one node each that make the trace of a row; the trace itself, where it has one node or isn't any."""
    if row.printed == (b"bad trace\n",):
        return [row.fed]
    histories = json.loads(row.fed)["histories"]
    if len(histories) == 1:
        return [row.fed]
    return [json.dumps({"nodes": 1, "histories": [history]}).encode() for history in histories]


def in_files(row, room):
    """A row of `trace`, with its trace in files."""
    paths = []
    for node, text in enumerate(texts_of(row)):
        paths.append(os.path.join(room, f"node{node}.json"))
        with open(paths[-1], "wb") as file:
            file.write(text)
    said = row.said
    if row.printed == (b"bad trace\n",):
        said = f"invite: {paths[0]}: this is no trace\n".encode()
    elif row.printed[0].startswith(b"bad trace"):
        node, entry = map(int, row.printed[0].split()[2:])
        said = f"invite: {paths[node]}: history 0: entry {entry} can't be read\n".encode()
    return row._replace(fed=b"", said=said, files=tuple(paths))


def problem_of(program, row):
    """What is wrong with what the program makes of a row; an empty text if nothing is."""
    try:
        ended = run(program, [*row.command.split(), *row.files], row.fed)
    except subprocess.TimeoutExpired:
        return "no end within a minute"
    if ended.returncode != row.status:
        return f"status {ended.returncode} in place of {row.status}, it prints {ended.stdout[:300]!r}"
    if ended.stdout not in row.printed:
        return f"it prints {ended.stdout[:300]!r} in place of {' or '.join(repr(text[:300]) for text in row.printed)}"
    said = ended.stderr
    if row.command == "trace" and not row.said and ended.stdout.startswith(b"NotARun "):
        node, entry = ended.stdout.split()[1:]
        if not REASONS.fullmatch(said) or b"\nnode %s: entry %s " % (node, entry) not in said:
            return f"it says {said[:300]!r}, which is no reason for {ended.stdout!r}"
    elif said != row.said:
        return f"it says {said[:300]!r} in place of {row.said!r}"
    return ""


def at_once(program):
    """What is wrong with when `judge` answers: each verdict has to come before anything behind its line is written."""
    with subprocess.Popen([program, "judge"], stdin=subprocess.PIPE, stdout=subprocess.PIPE) as judge:
        for line, verdict in ((ANSWERS, b"Ongoing\n"), (ASKS, b"Run 0 1\n"), (HEARS, b"Run 0 1 0\n")):
            text = f"{line}\n\n".encode()
            # in two writes, so that a line comes in two pieces
            for part in (text[:40], text[40:]):
                judge.stdin.write(part)
                judge.stdin.flush()
                time.sleep(0.01)
            if not select.select([judge.stdout], [], [], 60)[0]:
                judge.kill()
                return f"no verdict on {line}"
            said = judge.stdout.readline()
            if said != verdict:
                judge.kill()
                return f"it prints {said!r} in place of {verdict!r}"
        judge.stdin.close()
        return "" if judge.wait(60) == 0 else f"status {judge.returncode} in place of 0"


def main():
    program, tally = named(), Tally()
    with tempfile.TemporaryDirectory() as room:
        for given in all_rows():
            rows = [given, in_files(given, room)] if given.command in ("trace", "trace --ongoing") else [given]
            for row in rows:
                tally.mark(problem_of(program, row), f"{row.command}, {row.name}{', in files' if row.files else ''}")
    tally.mark(at_once(program), "judge, line by line")
    return tally.close()


if __name__ == "__main__":
    sys.exit(main())
