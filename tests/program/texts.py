#!/usr/bin/env python3
"""Whole inputs of `answer`, `show`, `sim`, `record` and `store`, and what the program prints of each: rows of messages, words, lines and schedules.

    texts.py PROGRAM

Of each row the whole text on standard output and the status are compared, and what stands on standard error: a reason where the row has one, else
nothing. Then streams that fail half way. The last line counts the checks."""
import os, pty, re, resource, signal, subprocess, sys, tempfile, tty

sys.path.append(os.path.join(os.path.dirname(os.path.abspath(__file__)), ".."))
from common import program
from common.tally import Tally

ANSWERS = [
    ("0 3", "010102000000", "01020002000101\n", 0),
    ("0 3", "010102000000\n", "01020002000101\n", 0),
    ("0 3", "010102000001", "", 0),
    ("0 3", "01010200000100", "malformed\n", 1),
    ("0 3", "010102000000\n01010200000100\n010103000000", "01020002000101\nmalformed\n", 1),
    # an invitation into the node's own group, and into another one
    ("0 3", "010501000009000000000000000002", "", 0),
    ("0 3", "010501000009010000000000000002", "010600010009010000000000000002\n", 0),
    ("0 3", "0105010000090100000000000000AB", "0106000100090100000000000000ab\n", 0),
    # the second version of the wire
    ("64 128", "020102400000", "02024002000101\n", 0),
    ("0 128", "020102000000", "malformed\n", 1),
    ("0 128", "020180000000", "malformed\n", 1),
    ("0 3", "020140000000", "refused Stranger\n", 1),
    # what a stranger sends, or is named in
    ("0 3", "010102000000\n010103000000\n010102000000", "01020002000101\nrefused Stranger\n", 1),
    ("0 3", "010102010000", "refused Stranger\n", 1),
    ("0 3", "010105000000", "refused Stranger\n", 1),
    ("0 3", "010501000009030000000000000002\n01010200000100", "refused Stranger\n", 1),
    ("0 3", "01070100000d01000000000000000203000103", "refused Stranger\n", 1),
    # lines that can't be read
    ("0 3", "\n\n010102000000\n\n0x\nzz", "bad line 5\n", 1),
    ("0 3", "01010200000", "bad line 1\n", 1),
    ("0 3", "010102000000\r\n", "bad line 1\n", 1),
    ("0 3", "010102000000 \n", "bad line 1\n", 1),
    ("0 3", "--", "bad line 1\n", 1),
    ("0 3", " ", "bad line 1\n", 1),
    ("0 3", "010103000000\n\n\u00e9", "bad line 3\n", 1),
    ("0 3", "01010200000100\n0", "bad line 2\n", 1),
    ("0 3", b"0101\n\xff\n", "bad line 2\n", 1),
    # lines are pieces of a stream
    ("0 3", "", "", 0),
    ("0 3", "\n", "", 0),
    ("0 3", "-", "", 0),
    ("0 3", "0101\n\n0200\n-\n0000", "01020002000101\n", 0),
    ("0 3", "010102000000010101000000\n", "01020002000101\n01020001000101\n", 0),
]

SHOWN = [
    ("010102000000", "2>0 AreYouCoordinator\n", 0),
    ("01020002000101", "0>2 Coordinator yes\n", 0),
    ("01020002000100", "0>2 Coordinator no\n", 0),
    ("010302000009000000000000000002", "2>0 AreYouThere 0:2\n", 0),
    ("01040002000a00000000000000000200", "0>2 Here 0:2 no\n", 0),
    ("010500010009000000000000000002", "0>1 Invitation 0:2\n", 0),
    ("010601000009000000000000000002", "1>0 Accept 0:2\n", 0),
    ("01070001000c000000000000000002020001", "0>1 Ready 0:2 members 0,1\n", 0),
    ("010801000009000000000000000002", "1>0 ReadyAck 0:2\n", 0),
    ("01090001001600000000000000000200000000000000000100026869", "0>1 Work 0:2 0 1 6869\n", 0),
    ("0109000100140000000000000000020000000000000000010000", "0>1 Work 0:2 0 1 -\n", 0),
    ("010a010000080000000000000000", "1>0 Done 0\n", 0),
    ("01070001000c000000000000000002020100", "malformed\n", 1),
    ("", "", 0),
    ("00", "rest 1\n", 0),
    ("0101\n02", "rest 3\n", 0),
    ("010102000000\n0101", "2>0 AreYouCoordinator\nrest 2\n", 0),
    ("010102000000\n01020002000102\n0101", "2>0 AreYouCoordinator\nmalformed\n", 1),
    ("010102000000\n\n010102000", "bad line 3\n", 1),
]

# What standard error says of what is printed.
MALFORMED = "a message can't be read"
STRANGER = "a message is for another node, or names one outside of the cluster"
NO_HEX = "line {}: neither pairs of hex digits nor a dash"

# Schedules that can't be read: the line, and what standard error says of it.
BAD_SCHEDULES = [
    ("", 1, "there is no line cluster NODES SLOTS"),
    ("\n", 2, "there is no line cluster NODES SLOTS"),
    ("\n\n\n", 4, "there is no line cluster NODES SLOTS"),
    ("check 0\ncluster 3 8\n", 1, "an act in front of the line cluster NODES SLOTS, or behind 65536 acts"),
    ("\n check 0\ncluster 3 8", 2, None),
    ("cluster 3 8\n\ncluster 3 8\n", 3, "not of the form cluster NODES SLOTS, or not the first line"),
    ("cluster 3 8\r\n", 1, "not of the form cluster NODES SLOTS, or not the first line"),
    ("cluster 3 8\ncheck 128\n", 2, "not of the form check N"),
    ("cluster 3 8\ncheck 0\ndeliver 00", 3, "not of the form deliver K"),
    ("cluster 3 8\nsubmit 0 16 -\n", 2, "not of the form submit N QUEUE HEX [P]"),
    ("cluster 3 8\n\nchek 0\n", 3, "no such act: chek"),
    ("cluster 3 8\ncheck 1\n\n\u00e9\ncheck 128\n", 4, None),
    ("cluster 3 8\ncheck 1\ncheck 1\n\n\ncheck 128", 6, None),
    ("cluster 0 8\ncheck 128", 1, None),
] + [
    (line, 1, None)
    for line in ["cluster 0 8", "cluster 129 8", "cluster 3 3", "cluster 3 4097", "cluster 3", "cluster 3 8 1", "cluster 03 8", "Cluster 3 8"]
] + [
    ("cluster 3 8\n" + line, 2, None)
    for line in """check 128;check 256;check 00;check x;deliver 18446744073709551616;lose -1;cut 128 1;cut 1 128;mend 128 1;mend 1 128
submit 128 1 -;submit 1 16 -;submit 1 272 -;submit 1 1 0;submit 1 1 0x;submit 1 1 ;submit 1 1 61 256;submit 1 1 61 01;submit 1 1 61 +1;submit 1 1 61 -
submit 1 1 61 ;finish 128 1 1;finish 1 128 1;finish 1 1 01;arm 128 1;arm 1 -;crash 128;crash 1 --;crash 128 a5;recover 128;check;check 1 1;check  1
check 1 ; check 1;Check 1;checks 1;deliver 1 1;cut 1;mend 1 2 3;submit 1 1;submit 1 1 - 0;submit 1 1 - 1 1;finish 1 1 1 1 1;finish 1 1;finish 1 1 1 1
arm 1;arm 1 1 1;crash 1 a5 a5;recover;recover 1 1;stop 1; ;check 1\r;\r""".replace("\n", ";").split(";")
]

# How many acts these lines are, behind `cluster 3 8`.
COUNTED = [("", 0), ("\n", 0), ("check 1", 1), ("check 1\n", 1), ("\n\ncheck 1\n\n\n", 1)]

NUMBERS = ["0", "7", "10", "4096", "18446744073709551615"]
NO_NUMBERS = "18446744073709551616;18446744073709551620;100000000000000000000;;00;01;+1;-;-1;1a;1.0; 1;1 ;/;:".split(";")
BYTES = [("-", ""), ("a5", "a5"), ("A5", "a5"), ("6869", "6869"), ("00fF", "00ff")]
NO_BYTES = ";--;-0;0x;a;a5a;g0; a5".split(";")

ALONE = "node 0 Normal coord 0 group 0:{0} up - members 0 count {0} pending {1} hand -\n"
TWO = "node 0 Normal coord 0 group 0:1 up - members 0 count 1 pending - hand -\nnode 1 Normal coord 1 group 1:1 up - members 1 count 1 pending - hand -\n"
ASKED = "cluster 2 4\ncheck 1\ndeliver 0\nlose 9\n"

# Schedules, with the options of `sim`, and what is printed.
SIMULATED = [
    # acts for a node outside the cluster, and for a message that isn't there
    ("", "cluster 1 4\ncheck 1\ncut 0 1\nmend 63 0\ncrash 2\nrecover 1\narm 1 0\nfinish 0 63 18446744073709551615\ndeliver 18446744073709551615\nlose 0\ncut 0 0\nmend 0 0",
     "0 refused Stranger\n1 refused Stranger\n2 refused Stranger\n3 refused Stranger\n4 refused Stranger\n5 refused Stranger\n6 refused UnknownJob\n7 refused NoSuch\n"
     "8 refused NoSuch\n9 ok\n10 ok\n" + ALONE.format(1, "-")),
    # one run, printed in three ways
    ("", ASKED, "0 ok 0:010101000000\n1 ok 1:01020001000101\n2 refused NoSuch\n" + TWO),
    ("--names", ASKED, "0 ok\n    0: 1>0 AreYouCoordinator\n1 ok\n    1: 0>1 Coordinator yes\n2 refused NoSuch\n" + TWO),
    ("--nodes", ASKED, TWO + "0 ok 0:010101000000\n" + TWO + "1 ok 1:01020001000101\n" + TWO + "2 refused NoSuch\n" + TWO),
]

# An act in a cluster of three, the node that it comes to, and its entry in the trace of the run.
ENTRIES = [
    ("check 0", 0, '{"do":"check","sent":["010100010000","010100020000"]}'),
    ("merge 1", 1, '{"do":"merge","sent":[]}'),
    ("accept 2", 2, '{"do":"accept","sent":[]}'),
    ("ready 0", 0, '{"do":"ready","sent":[]}'),
    ("coord 1", 1, '{"do":"coord","sent":[]}'),
    ("dispatch 2", 2, '{"do":"dispatch","sent":[]}'),
    ("submit 1 15 6869", 1, '{"do":"submit","payload":"6869","queue":15,"sent":[]}'),
    ("submit 1 0 -", 1, '{"do":"submit","payload":"","queue":0,"sent":[]}'),
    ("submit 1 15 6869 1", 1, '{"do":"submit","payload":"6869","priority":1,"queue":15,"sent":[]}'),
    ("submit 1 0 - 255", 1, '{"do":"submit","payload":"","priority":255,"queue":0,"sent":[]}'),
    ("finish 1 2 3", 1, '{"do":"none","sent":[]}'),
    ("arm 2 9", 2, '{"do":"none","sent":[]}'),
    ("crash 2", 2, '{"do":"crash","sent":[]}'),
    ("crash 2 -", 2, '{"do":"crash","sent":[]}'),
    ("crash 2 6a4B", 2, '{"do":"crash","sent":[]}'),
    ("recover 2", 2, '{"do":"recover","kept":false,"sent":[]}'),
    ("compact 1", 1, '{"do":"none","sent":[]}'),
]

# Schedules, and the traces of their runs, with the order of their turns: each has its node, and the number of the message that it was brought.
RECORDED = [
    ("cluster 1 4\n", '{"histories":[[]],"nodes":1,"order":""}'),
    # a question and its answer; what the network does is no entry
    ("cluster 2 8\ncheck 1\nlose 7\ncut 0 1\ndeliver 0\nmend 0 1\ndeliver 0\ndeliver 1\ncheck 2\n",
     '{"histories":[[{"do":"deliver","msg":"010101000000","sent":["01020001000101"]}],[{"do":"check","sent":["010101000000"]},'
     '{"do":"deliver","msg":"01020001000101","sent":[]}]],"nodes":2,"order":"1 - 0 0 1 1"}'),
    # a disk that fails in a submit and in a mounting; what is refused, an arming and a compaction are nothing
    ("cluster 1 4\ndispatch 0\nsubmit 0 3 6869 7\nmerge 0\ncompact 0\narm 0 0\nsubmit 0 0 -\ncheck 0\nrecover 0\ncrash 0\nrecover 0\nrecover 0\nfinish 0 0 0\n",
     '{"histories":[[{"do":"dispatch","sent":[]},{"do":"submit","payload":"6869","priority":7,"queue":3,"sent":[]},{"do":"merge","sent":[]},{"do":"none","sent":[]},'
     '{"do":"none","sent":[]},{"do":"submit","fault":"device","payload":"","queue":0,"sent":[]},{"do":"check","sent":[]},'
     '{"do":"recover","fault":"mount","kept":false,"sent":[]},{"do":"crash","sent":[]},{"do":"recover","kept":false,"sent":[]},'
     '{"do":"recover","kept":false,"sent":[]},{"do":"none","sent":[]}]],"nodes":1,"order":"' + " ".join(["0 -"] * 12) + '"}'),
    # a raise whose gate is torn by the crash, and reads as sealed
    ("cluster 3 8\ncheck 0\ndeliver 0\ndeliver 1\ndeliver 2\ndeliver 3\narm 0 5\nmerge 0\ncrash 0 a5\nrecover 0\n",
     '{"histories":[[{"do":"check","sent":["010100010000","010100020000"]},{"do":"deliver","msg":"01020100000101","sent":[]},'
     '{"do":"deliver","msg":"01020200000101","sent":[]},{"do":"none","sent":[]},{"do":"merge","fault":"device","sent":[]},{"do":"crash","sent":[]},'
     '{"do":"recover","kept":true,"sent":[]}],[{"do":"deliver","msg":"010100010000","sent":["01020100000101"]}],'
     '[{"do":"deliver","msg":"010100020000","sent":["01020200000101"]}]],"nodes":3,"order":"0 - 1 0 2 1 0 2 0 3 0 - 0 - 0 - 0 -"}'),
]

# What standard error says where there is no file.
NO_FILE = "NotFound: there is no such file or folder: No such file or directory (os error 2)"

# Sessions over one file that isn't there at first, one after another, what each prints, and what is said of it.
SESSIONS = [
    [("raise\nformat 4\nmount\nraise\nput 1 6869\nmount\nlist\ndone 0\ndone 0\nlist\n",
      "refused Broken\nok\nok\nok 1\nok 0\nok\ncount 1 next 1\njob 0 1 6869\nok\nrefused NoSuchJob\ncount 1 next 1\n", ""),
     ("mount\n\nraise\nput 15 -\nput 1 62 7\nlist", "ok\nok 2\nok 1\nok 2\ncount 2 next 3\njob 1 15 -\njob 2 1 62 7\n", "")],
    [("format 4\nmount\nput 0 61\nput 0 62\nput 0 63\ndone 0\nput 0 64\ndone 1\nlist\ncompact\nlist\nmount\nlist\n",
      "ok\nok\nok 0\nok 1\nrefused Full\nok\nok 2\nok\ncount 0 next 3\njob 2 0 64\nok\ncount 0 next 3\njob 2 0 64\nok\ncount 0 next 3\njob 2 0 64\n", "")],
    # nothing is mounted, for there is no file, or none any more
    [("put 0 61\ndone 0\ncompact\nlist\nmount\nraise\nformat 4\nlist\nmount\nformat 5\nraise\n",
      "refused Broken\nrefused Broken\nrefused Broken\nrefused Broken\nrefused Device\nrefused Broken\nok\nrefused Broken\nok\nok\nrefused Broken\n",
      f"line 5: {NO_FILE}")],
    # each line for which there is no file has its reason
    [("\nmount\nlist\n\nmount\nformat 5\nmount", "refused Device\nrefused Broken\nrefused Device\nok\nok\n", f"line 2: {NO_FILE}\ninvite: line 5: {NO_FILE}")],
]

# What isn't to be mounted: the bytes of a file of 23 or 24 sectors, or what is written where into a store of four slots; and a session over it.
DAMAGED = [
    (23, [], "mount\n", "refused TooSmall\n"),
    (24, [], "mount\n", "refused NotFormatted\n"),
    # the first slot of the journal is sealed over a sector that is no record
    (None, [(8 * 512, b"\x09"), (9 * 512, b"\xa5")], "mount\nlist\n", "refused Damaged 8\nrefused Broken\n"),
    # slot B of the counter is sealed over the greatest number
    (None, [(2 * 512, b"\xff" * 8), (3 * 512, b"\xa5")], "mount\nraise\nlist\n", "ok\nrefused Exhausted\ncount 18446744073709551615 next 0\n"),
]

BAD_REQUESTS = [
    ("mount\nmout\n", 2, "no such request: mout"),
    ("\nput 16 61", 2, "not of the form put QUEUE HEX [P]"),
    ("format 3", 1, "not of the form format SLOTS"),
    ("raise 1", 1, "not of the form raise"),
    (" list", 1, "no such request: "),
    ("mount\r\n", 1, "no such request: mount\\x0d"),
] + [
    (f"format 4\n\n{line}\nput 16 61\n", 3, None)
    for line in """format;format 3;format 4097;format 04;format 4 4;mount 1;mount ; mount;raise 1;put;put 1;put 16 61;put 1 6;put 1 ;put 1 61 0;put 1 61 256
put 1 61 01;put 1 61 -;put 1 61 ;put 1 61 1 1;done;done -1;done 18446744073709551616;done 0 0;compact 1;list 0;List;check 0;-""".replace("\n", ";").split(";")
]


class Rows(Tally):
    def __init__(self, invite):
        super().__init__()
        self.program = invite

    def run(self, words, fed):
        return program.run(self.program, words, fed if isinstance(fed, bytes) else fed.encode())

    def expect(self, words, fed, text, status, reason=""):
        """The text, the status, and the reason on standard error; None is any reason, of one line."""
        found = self.run(words, fed)
        said = found.stderr.decode("utf-8", "replace")
        wrong = []
        if found.stdout != text.encode():
            wrong.append(f"it prints {found.stdout!r:.300} in place of {text!r:.300}")
        if found.returncode != status:
            wrong.append(f"status {found.returncode} in place of {status}")
        if not re.fullmatch(r"invite: [^\n]+\n", said) if reason is None else said != (f"invite: {reason}\n" if reason else ""):
            wrong.append(f"it says {said!r:.200} in place of {reason!r}")
        self.mark("; ".join(wrong), (words, fed))


def reason_of(text):
    """Why an input of messages ended as this text says."""
    last = text.splitlines()[-1:]
    if last[:1] == ["malformed"]:
        return MALFORMED
    if last[:1] == ["refused Stranger"]:
        return STRANGER
    bad = re.fullmatch("bad line ([0-9]+)", last[0]) if last else None
    return NO_HEX.format(bad[1]) if bad else ""


def opening(nodes):
    return "".join(f"node {n} Normal coord {n} group {n}:1 up - members {n} count 1 pending - hand -\n" for n in range(nodes))


def histories(nodes, node, entry):
    """The trace of a run of one turn, in which its node was brought no message, with its order."""
    return '{"histories":[' + ",".join(f"[{entry}]" if n == node else "[]" for n in range(nodes)) + f'],"nodes":{nodes},"order":"{node} -"}}\n'


def try_messages(rows):
    for words, fed, text, status in ANSWERS:
        rows.expect(["answer", *words.split()], fed, text, status, reason_of(text))
    for fed, text, status in SHOWN:
        rows.expect(["show"], fed, text, status, reason_of(text))


def try_words(rows):
    """Numbers in an act that names a message, and bytes in one that submits a job."""
    for word in NUMBERS:
        rows.expect(["sim"], f"cluster 1 4\nlose {word}", f"0 refused NoSuch\n{opening(1)}", 0)
    for word in NO_NUMBERS:
        rows.expect(["sim"], f"cluster 1 4\nlose {word}", "bad line 2\n", 1, "line 2: not of the form lose K")
    for word, payload in BYTES:
        entry = f'{{"do":"submit","payload":"{payload}","queue":0,"sent":[]}}'
        rows.expect(["record"], f"cluster 1 4\nsubmit 0 0 {word}", histories(1, 0, entry), 0)
    for word in NO_BYTES:
        rows.expect(["record"], f"cluster 1 4\nsubmit 0 0 {word}", "bad line 2\n", 1, "line 2: not of the form submit N QUEUE HEX [P]")


def try_schedules(rows):
    for schedule, line, reason in BAD_SCHEDULES:
        rows.expect(["sim"], schedule, f"bad line {line}\n", 1, reason and f"line {line}: {reason}")
    for words, schedule, text in SIMULATED:
        rows.expect(["sim", *words.split()], schedule, text, 0)
    rows.expect(["sim"], "cluster 1 4", opening(1), 0)
    rows.expect(["sim"], "\n\ncluster 3 8\n", opening(3), 0)
    rows.expect(["sim"], "cluster 128 4096\n", opening(128), 0)
    for acts, count in COUNTED:
        rows.expect(["sim"], "cluster 3 8\n" + acts, "0 ok 0:010101000000 1:010101020000\n" * count + opening(3), 0)
    rows.expect(["sim"], "cluster 1 8\nsubmit 0 0 " + "a5" * 400, "0 ok id 0\n" + opening(1).replace("pending - hand -", "pending 0 hand 0:0"), 0)
    rows.expect(["sim"], "cluster 1 8\nsubmit 0 0 " + "a5" * 401, "bad line 2\n", 1, "line 2: not of the form submit N QUEUE HEX [P]")


def try_many_acts(rows):
    """A schedule has 65,536 acts at most."""
    most = "cluster 3 8\n" + "lose 0\n" * 65536
    rows.expect(["sim"], most, "".join(f"{at} refused NoSuch\n" for at in range(65536)) + opening(3), 0)
    reason = "an act in front of the line cluster NODES SLOTS, or behind 65536 acts"
    rows.expect(["sim"], most + "\nlose 0\n", "bad line 65539\n", 1, f"line 65539: {reason}")
    rows.expect(["sim"], most + "lose 0\n", "bad line 65538\n", 1, f"line 65538: {reason}")


def try_cut_compactions(rows):
    """A full journal, of which the last act compacts, and is cut off: 8 calls to unseal, 6 to fill, 6 to seal, 4 to raise the area cell and 4 for the
    job that is done. Only a gate of that last record that is torn shut keeps it."""
    for calls in range(29):
        for fill in ("", " a5"):
            schedule = f"cluster 1 4\nsubmit 0 0 61\nsubmit 0 0 62\nsubmit 0 0 63\nfinish 0 0 0\nsubmit 0 0 64\narm 0 {calls}\nfinish 0 0 1\ncrash 0{fill}\nrecover 0\n"
            act = "ok" if calls == 28 else "fault Device"
            pending = "2" if calls == 28 or (fill and calls >= 26) else "1,2"
            rows.expect(["sim"], schedule, f"0 ok id 0\n1 ok id 1\n2 refused Full\n3 ok\n4 ok id 2\n5 ok\n6 {act}\n7 ok\n8 ok\n" + ALONE.format(2, pending), 0)


def try_greatest_group(rows):
    """All 128 nodes join one group: each of the six rounds brings a message to or from each of the 127 others. The task of all takes 138 bytes."""
    acts = ["check 0"] + [f"deliver {k}" for k in range(254)] + ["merge 0"] + [f"deliver {k}" for k in range(254, 508)] + ["accept 0"]
    acts += [f"deliver {k}" for k in range(508, 762)]
    found = rows.run(["sim"], "cluster 128 4\n" + "\n".join(acts))
    lines = found.stdout.decode().splitlines()
    sent = dict(word.split(":") for line in lines if line[0] != "n" for word in line.split()[2:])
    task = "0207{}008a0000000000000000028000010203"
    wrong = [f"message {k} is {sent.get(str(k))}" for k in range(508, 635) if not sent.get(str(k), "").startswith(task.format(f"00{k - 507:02x}"))
             or len(sent[str(k)]) != 2 * 144]
    wrong += [f"{len(sent)} messages"] if len(sent) != 762 else []
    all_of_them = ",".join(str(node) for node in range(128))
    up = ",".join(str(node) for node in range(1, 128))
    nodes = [f"node {n} Normal coord 0 group 0:2 up {'-' if n else up} members {all_of_them} count {1 if n else 2} pending - hand -" for n in range(128)]
    rows.mark("; ".join(wrong)[:300] or ("" if lines[-128:] == nodes else "the nodes are not one group"), "a group of 128")


def try_records(rows):
    for act, node, entry in ENTRIES:
        rows.expect(["record"], f"cluster 3 8\n{act}\n", histories(3, node, entry), 0)
    for schedule, trace in RECORDED:
        rows.expect(["record"], schedule, trace + "\n", 0)
        judged = rows.run(["trace"], trace)
        rows.mark("" if judged.returncode == 0 and judged.stdout.startswith(b"Run") else f"it is judged {judged.stdout!r}", trace)
    rows.expect(["record"], "cluster 1 4\nchek 0\n", "bad line 2\n", 1, "line 2: no such act: chek")


def try_stores(rows, folder):
    for at, sessions in enumerate(SESSIONS):
        path = os.path.join(folder, f"session-{at}")
        for fed, text, said in sessions:
            rows.expect(["store", path], fed, text, 0, said)
    rows.mark("" if os.path.getsize(path) == 28 * 512 else "its file has another length", "format 5")

    path = os.path.join(folder, "damaged")
    for sectors, writes, fed, text in DAMAGED:
        if sectors is None:
            rows.expect(["store", path], "format 4\n", "ok\n", 0)
        with open(path, "r+b" if sectors is None else "wb") as file:
            file.truncate(512 * (24 if sectors is None else sectors))
            for place, written in writes:
                file.seek(place)
                file.write(written)
        rows.expect(["store", path], fed, text, 0)

    # A line that can't be read is named, and then nothing is done.
    path = os.path.join(folder, "none")
    for fed, line, reason in BAD_REQUESTS:
        rows.expect(["store", path], fed, f"bad line {line}\n", 1, reason and f"line {line}: {reason}")
    rows.expect(["store", path], "", "", 0)
    rows.mark("it made a file" if os.path.exists(path) else "", "lines that can't be read")


def try_slow_input(rows):
    """An input that comes in pieces of five bytes."""
    with subprocess.Popen([rows.program, "answer", "0", "3"], stdin=subprocess.PIPE, stdout=subprocess.PIPE, bufsize=0) as child:
        fed = b"010102000000\n\n010101000000"
        for at in range(0, len(fed), 5):
            child.stdin.write(fed[at:at + 5])
        child.stdin.close()
        text = child.stdout.read()
    rows.mark("" if (child.returncode, text) == (0, b"01020002000101\n01020001000101\n") else f"it prints {text!r}, status {child.returncode}", "pieces")


def try_failing_input(rows, words, fed):
    """A terminal whose other side goes away once its bytes were read: then a read fails, nothing is printed, and the reason is said."""
    one, other = pty.openpty()
    tty.setraw(other)
    os.write(other, fed)
    os.close(other)
    found = subprocess.run([rows.program, *words], stdin=one, capture_output=True, timeout=600)
    os.close(one)
    is_right = found.returncode == 1 and found.stdout == b"" and re.fullmatch(rb"invite: can't read: Input/output error.*\n", found.stderr)
    rows.mark("" if is_right else f"status {found.returncode}, {found.stdout!r}, {found.stderr!r}", (words, "a read that fails"))


def try_failing_output(rows, folder):
    """A file that may have eight bytes: they are written, and the next write fails."""
    def limit():
        resource.setrlimit(resource.RLIMIT_FSIZE, (8, 8))
        signal.signal(signal.SIGXFSZ, signal.SIG_IGN)
    path = os.path.join(folder, "short")
    with open(path, "wb") as output:
        found = subprocess.run([rows.program, "show"], input=b"010102000000", stdout=output, stderr=subprocess.PIPE, preexec_fn=limit, timeout=600)
    with open(path, "rb") as output:
        text = output.read()
    is_right = found.returncode == 1 and text == b"2>0 AreY" and re.fullmatch(rb"invite: can't write: File too large.*\n", found.stderr)
    rows.mark("" if is_right else f"status {found.returncode}, {text!r}, {found.stderr!r}", "a write that fails")


def main():
    rows = Rows(program.named())
    try_messages(rows)
    try_words(rows)
    try_schedules(rows)
    try_many_acts(rows)
    try_cut_compactions(rows)
    try_greatest_group(rows)
    try_records(rows)
    try_slow_input(rows)
    try_failing_input(rows, ["answer", "0", "3"], b"010102000000\n")
    try_failing_input(rows, ["show"], b"010102000000\n")
    with tempfile.TemporaryDirectory() as folder:
        try_stores(rows, folder)
        try_failing_output(rows, folder)
    return rows.close()


sys.exit(main())
