#!/usr/bin/env python3
"""Sessions of `node`: what it answers wherever its input is cut, when its timers fire, and what comes of a file whose calls fail.

    node_rows.py PROGRAM

The input comes through a pipe whose reads give one written piece each, and the program's own clock stands, so that what it does takes it no time; in the last rows it
goes, and a sync takes long. What is expected was worked out from docs/FORMATS.md and TIMERS.md. The
last line counts the checks."""
import errno, os, re, subprocess, sys, tempfile

sys.path.append(os.path.join(os.path.dirname(os.path.abspath(__file__)), ".."))
from common import program
from common.tally import Tally

UP = "group Normal 0 0:1 0\nkeeps 1 0 0\nok 1\n"

# Lines to node 0 of three over an empty store of four slots, and what they are answered.
ROWS = [
    # a recovery, the state, and a check
    ("recover\nstate\ncheck\n",
     UP + "state Normal coord 0 group 0:1 members 0 found - unready - checking no probing no count 1 pending 0 hand 0\nok 2\nsend 1 010100010000\nsend 2 010100020000\nok 3\n"),
    # a job comes, is in hand, and is done; a second one is there after a compaction
    ("recover\nsubmit 3 6869 7\njobs\nfinish 0 0\nsubmit 0 -\ncompact\njobs\n",
     UP + "take 0 0 3 6869 7\nok 2 id 0\npending 0 3 6869 7\nhand 0 0 3 6869 7\nok 3\ngone 0\nok 4\ntake 0 1 0 -\nok 5 id 1\nok 6\npending 1 0 -\nhand 0 1 0 -\nok 7\n"),
    # a question, one for another node, and the loss of nodes that aren't in the group
    ("recover\ndeliver 010101000000\ndeliver 010101020000\nlost 0\nlost 1\n", UP + "send 1 01020001000101\nok 2\nrefused 3 Stranger\nok 4\nok 5\n"),
    # the first tick sets the timers, a check is due after 100 ms and at most 60 more, and its questions are sent again at the second round trip, and two later
    ("tick 0\nrecover\ntick 2000\ntick 2620\ntick 2620\ntick 2640\ntick 2660\ntick 2680\ntick 2700\n",
     "ok 1\ngroup Normal 0 0:1 0\nkeeps 1 0 0\nok 2\nnext ?\nok 3\nfired check\nsend 1 010100010000\nsend 2 010100020000\n"
     "next 2640\nok 4\nnext 2640\nok 5\nnext 2660\nok 6\nsend 1 010100010000\nsend 2 010100020000\nnext 2680\nok 7\n"
     "next 2700\nok 8\nsend 1 010100010000\nsend 2 010100020000\nnext 2720\nok 9\n"),
    # lines that can't be read, empty ones, and a last one that isn't whole
    ("x\n\n\nrecover \ndeliver 00\ntick x\nlost 128\nsubmit 16 -\nstate\r\nrecover", "bad 1\nbad 2\nbad 3\nbad 4\nbad 5\nbad 6\nbad 7\n"),
    # refusals
    ("submit 0 -\ncheck\nrecover\nfinish 0 7\n", "refused 1 Down\nok 2\ngroup Normal 0 0:1 0\nkeeps 1 0 0\nok 3\nrefused 4 UnknownJob\n"),
]

# A timer: the node and how many there are, the lines before it, the word of its event, and at which times it is fired and at which not. Each time is
# that of one tick, or of one after a line; by BY it is fired once, and by NONE never, where a tick comes each round trip until then. A round trip is 20 ms.
BY, NONE = "by", "none"
INVITING = "recover;check;deliver 01020100000101;merge"
LEADING = INVITING + ";deliver 010601000009000000000000000002;accept"
IN_STEP = LEADING + ";deliver 010801000009000000000000000002"
JOINING = "recover;deliver 010500010009000000000000000002"
HERE_YES, LOOKS = "deliver 01040001000a00000000000000000201", "deliver 010100010000"
JOINED = JOINING + ";deliver 01070001000c000000000000000002020001"
ACCEPTS, LOOKS_2, YES_2, NO_1 = "deliver 010601000009000000000000000002", "deliver 010102000000", "deliver 01020200000101", "deliver 01020100000100"
# as a member of the group 0:2 asks its coordinator
ASKS_1 = "deliver 010301000009000000000000000002"
TIMERS = [
    (0, 3, "state", "dispatch", [(0, False), (1000, False), (2**64 - 1, False)]),
    # 5 round trips in a new group, and up to 3 more; it fires once. Then 37, and up to 4 more
    (0, 1, "recover", "check", [(100, False), (100, False), (199, False), (260, True), (260, False), (600, False), (999, False), (1080, True)]),
    # at once behind the check of another coordinator, in a group that is settled; what it finds is merged with two round trips later, or once all answered, whoever is greater
    (0, 3, "recover", "check", [(0, False), (160, BY), (260, NONE), (LOOKS_2, None), (261, True), (LOOKS_2, None), (262, False)]),
    (0, 3, "recover", "check", [(0, False), (LOOKS_2, None), (99, False), (160, BY)]),
    (0, 3, "recover", "merge", [(0, False), (260, BY), (LOOKS_2, None), (261, False), (YES_2, None), (262, False), (300, False), (301, True)]),
    (0, 3, "recover", "merge", [(0, False), (260, BY), (LOOKS_2, None), (261, False), (YES_2, None), (NO_1, None), (262, True)]),
    # 3, and up to 2 more, and 10 for each step by which the greatest coordinator found is above the node
    (0, 3, "recover;check", "merge", [(0, False), (59, False), (100, BY), (100, False)]),
    # a round trip is as long as was measured: of 20 ms two answers that came at once leave 17, and then 14
    (0, 3, "recover;check", "merge", [(0, False), (NO_1, None), ("deliver 01020200000100", None), (1, True), ("check", None), (2, False), (43, False), (72, BY)]),
    # at once where all have answered, and none of them leads
    (0, 3, "recover;check", "merge", [(0, False), ("deliver 01020100000100", None), (1, False), ("deliver 01020200000100", None), (2, True), (2, False)]),
    (0, 3, "recover;check", "merge", [(0, False), ("deliver 01020100000101", None), ("deliver 01020200000100", None), (1, False), (259, False), (300, BY)]),
    (0, 1, "recover", "merge", [(0, False), (99, False), (160, True)]),
    (0, 2, "recover;check;deliver 01020100000101", "merge", [(5, False), (264, False), (305, BY)]),
    (2, 6, "recover;check;deliver 01020002000101;deliver 01020502000101", "merge", [(0, False), (659, False), (700, BY)]),
    (5, 6, "recover;check;deliver 01020005000101;deliver 01020205000101", "merge", [(0, False), (59, False), (100, BY)]),
    # 5, or one more once all have accepted
    (0, 2, INVITING, "accept", [(7, False), (106, False), (107, True), (107, False)]),
    (0, 2, INVITING, "accept", [(7, False), (ACCEPTS, None), (8, False), (20, False), (27, False), (28, True), (28, False)]),
    (0, 2, INVITING, "accept", [(7, False), (100, False), (ACCEPTS, None), (101, False), (106, False), (107, True)]),
    # 10
    (0, 2, LEADING, "ready", [(7, False), (206, False), (207, True), (207, False)]),
    # 20 for the task, and then 250 ms for the coordinator's answer
    (1, 2, JOINING, "coord", [(7, False), (406, False), (407, True), (407, False), (656, False), (657, True), (657, False)]),
    # 20 in a new group, and up to 10 more; and then 250 ms, or three times as long as the slowest answer took, of which less counts with each answer
    (1, 2, JOINED, "coord", [(7, False), (406, False), (607, BY)]),
    (1, 2, JOINED, "coord", [(7, False), (LOOKS, None), (8, True), (257, False), (258, True), (258, False)]),
    (1, 2, JOINED, "coord", [(7, False), (LOOKS, None), (8, True), (208, False), (HERE_YES, None), (209, False), (LOOKS, None), (210, True), (809, False), (810, True)]),
    (1, 2, JOINED, "coord", [(7, False), (LOOKS, None), (8, True), (208, False), (HERE_YES, None), (209, False), (LOOKS, None), (210, True), (211, False), (HERE_YES, None), (212, False),
                             (LOOKS, None), (213, True), (806, False), (807, True)]),
    # so it does where it was held up itself, for 1 s at most
    (1, 2, JOINED, "coord", [(7, False), (5000, True), (7999, False), (8000, True)]),
    # what is asked behind a loss isn't measured, and an answer to it is none to what was asked before
    (1, 2, JOINED, "coord", [(7, False), (LOOKS, None), (8, True), (HERE_YES, None), (9, False), (300, False), ("lost 0", None), (HERE_YES, None), (301, False), (LOOKS, None), (302, True), (551, False), (552, True)]),
    # at once behind a check of the coordinator, and then 20 behind the answer, and up to 3 more; another node's check changes nothing
    (1, 2, JOINED, "coord", [(7, False), ("deliver 010100010000", None), (8, True), (8, False), ("deliver 01040001000a00000000000000000201", None), (9, False), (408, False), (469, True)]),
    (1, 3, JOINED, "coord", [(7, False), ("deliver 010102010000", None), (406, False), (607, True)]),
    # a greater node that looks for others is to merge first: a merge waits twice as long, once; a lesser one changes nothing
    (0, 2, "recover;check;deliver 01020100000101", "merge", [(0, False), (250, False), ("deliver 010101000000", None), (251, False), (519, False), (600, BY)]),
    (0, 2, "recover;check;deliver 01020100000101", "merge", [(0, False), (200, False), ("deliver 010101000000", None), (201, False), ("deliver 010101000000", None), (519, False), (600, BY)]),
    (1, 6, "recover;check;deliver 01020501000101", "merge", [(0, False), (859, False), ("deliver 010100010000", None), (900, BY)]),
    # at once in a group that is new, then once the oldest job was the same for 5 and a millisecond for each job, and after a quarter more each time, up to 300;
    # never where there is no job
    (0, 1, "recover", "dispatch", [(0, False), (1000, False), (10_000, False), ("submit 0 -", None), (10_001, False), (10_101, False), (10_102, True)]),
    (0, 1, "recover;submit 0 -", "dispatch", [(0, True), (100, False), (101, True), (226, False), (227, True), (383, False), (384, True), ("submit 0 -", None), (385, False),
                                              (579, False), (580, True), ("finish 0 0", None), (600, False), (700, False), (701, True), ("recover", None), (702, True)]),
    (0, 1, "recover;submit 0 -", "dispatch", [(0, True), (100_000, True), (200_000, True), (300_000, True), (400_000, True), (500_000, True), (600_000, True), (700_000, True),
                                              (800_000, True), (900_000, True), (1_000_000, True), (1_100_000, True), (1_200_000, True), (1_300_000, True), (1_400_000, True),
                                              (1_500_000, True), (1_600_000, True), (1_700_000, True), (1_800_000, True), (1_900_000, True), (2_000_000, True),
                                              (2_005_999, False), (2_006_000, True), (2_011_999, False), (2_012_000, True)]),
    # each check is counted, and a member that was silent in three of them is given up at the end of the third; an answer that comes late lengthens the waits for others by at most 1 s
    (0, 2, IN_STEP, "check", [(0, False), (160, BY), (880, NONE), (1080, BY), (1680, NONE)]),
    (0, 2, IN_STEP, "recover", [(0, False), (1740, NONE), (2100, BY), (2100, False)]),
    (0, 2, IN_STEP, "recover", [(0, False), (1600, NONE), (NO_1, None), (ASKS_1, None), (4600, NONE), (6000, BY)]),
    # whoever says that it doesn't coordinate may be in any group: that ends no silence
    (0, 2, IN_STEP, "recover", [(0, False), (1600, NONE), (NO_1, None), (1740, NONE), (3100, BY)]),
    # a jump of an hour, and of 2^63 ms: what waits is due once
    (0, 1, "recover", "check", [(0, False), (3_600_000, True), (3_600_000, False), (3_600_399, False), (3_600_739, False), (3_600_820, True)]),
    (0, 1, "recover", "check", [(0, False), (2**63, True), (2**63, False), (2**63 + 399, False), (2**63 + 739, False), (2**63 + 820, True)]),
    (0, 2, INVITING, "accept", [(7, False), (2**63, False), (2**63 + 19, False), (2**63 + 20, True), (2**63 + 20, False)]),
    # a process that looks more than two round trips late was itself stopped: it gives others one more, once
    (0, 2, LEADING, "ready", [(7, False), (247, True), (247, False)]),
    (0, 2, LEADING, "ready", [(7, False), (248, False), (267, False), (268, True), (268, False)]),
    (0, 2, LEADING, "ready", [(7, False), (1000, False), (9000, True)]),
    (1, 2, JOINED, "coord", [(7, False), (5000, True), (9000, False), (9019, False), (9020, True)]),
    # what came meanwhile is read, and ends the silence
    (0, 2, IN_STEP, "recover", [(0, False), (1680, NONE), (2200, False), (9000, False), (9019, False), (9020, True)]),
    (0, 2, IN_STEP, "recover", [(0, False), (1680, NONE), (2200, False), (9000, False), (ASKS_1, None), (9001, False), (9021, False), (9900, False)]),
    (0, 2, IN_STEP, "recover", [(0, False), (1680, NONE), (2200, False), (9000, False), (NO_1, None), (9001, True)]),
    # the clock falls back by an hour, by some milliseconds, and to 0: waits go on from there
    (0, 2, INVITING, "accept", [(4_000_000, False), (4_000_060, False), (400_000, False), (400_039, False), (400_040, True), (400_040, False)]),
    (0, 2, INVITING, "accept", [(1000, False), (1050, False), (1049, False), (1098, False), (1099, True)]),
    (0, 2, INVITING, "accept", [(2**64 - 1, False), (0, False), (99, False), (100, True), (100, False)]),
    # the clock's end
    (0, 1, "recover", "check", [(2**64 - 1, False), (2**64 - 1, False)]),
    (0, 2, "recover;check;deliver 01020100000101", "merge", [(2**64 - 1, False), (2**64 - 1, False)]),
]

# The same where a round trip is said to be so many milliseconds: all waits are so many of them.
OF_A_ROUND_TRIP = [
    ("5", 0, 1, "recover", "check", [(0, False), (24, False), (40, True), (40, False)]),
    ("5", 0, 2, INVITING, "accept", [(7, False), (31, False), (32, True)]),
    ("1", 1, 2, JOINING, "coord", [(7, False), (26, False), (27, True), (276, False), (277, True)]),
    ("60", 1, 2, JOINING, "coord", [(7, False), (1206, False), (1207, True), (1506, False), (1507, True)]),
    # in a settled group they are so many of 25 ms at most
    ("100", 1, 2, JOINED, "coord", [(7, False), (LOOKS, None), (8, True), (HERE_YES, None), (9, False), (508, False), (584, True)]),
    ("100", 0, 1, "recover", "check", [(0, False), (499, False), (800, True), (1724, False), (1825, True)]),
    ("60000", 0, 2, INVITING, "accept", [(0, False), (299_999, False), (300_000, True)]),
    ("40", 0, 1, "recover;submit 0 -", "dispatch", [(0, True), (201, False), (202, True)]),
]

# A session whose calls on the file fail one after another, what it answers then, and how many calls do so. In front of them stand those that open the
# file. A mounting of a store with a Base alone makes ten calls; a raise makes six, nine where the slot is sealed, and so does a job six: a look at the length for
# each write, and a sync. A compaction makes two for each gate and for a Base and its gate, one sync, and a raise.
FAILING = "recover\n\nsubmit 0 -\nrecover\n"
TAKEN = "take 0 0 0 -\nok 2 id 0\n"
FAILED = [
    ("fault 1 Device\n", 23),
    ("group Normal 0 0:1 0\ngroup Down\nfault 1 Device\n", 20),
    (UP + "group Down\nfault 2 Device\n", 6),
    (UP + TAKEN + "group Down\ndrop 0 0\nfault 3 Device\n", 10),
]
UNFAILED = UP + TAKEN + "group Normal 0 0:2 0\ndrop 0 0\nkeeps 2 1 1\nok 3\n"


class Tried(Tally):
    def __init__(self, invite, folder):
        super().__init__()
        self.program, self.folder = invite, folder
        self.path, self.made = os.path.join(folder, "node"), {}
        self.still, self.slow = program.library("still_clock", folder), program.library("slow_sync", folder)

    def same(self, found, wanted, name):
        """In a text that is wanted, `next ?` stands for any time: it hangs on the jitter."""
        if isinstance(wanted, tuple) and isinstance(wanted[0], str) and "next ?" in wanted[0]:
            found = (re.sub("^next .*$", "next ?", found[0], flags=re.MULTILINE), *found[1:])
            wanted = (re.sub("^next .*$", "next ?", wanted[0], flags=re.MULTILINE), *wanted[1:])
        return super().same(found, wanted, name)

    def fresh(self, own=0, nodes=3):
        """A file as `format` makes it."""
        if (own, nodes) not in self.made:
            made = os.path.join(self.folder, f"{own}-{nodes}")
            program.made(self.program, made, 4, own, nodes)
            with open(made, "rb") as file:
                self.made[own, nodes] = file.read()
        with open(self.path, "wb") as file:
            file.write(self.made[own, nodes])

    def serve(self, pieces, own=0, nodes=3, words=(), **more):
        """What a node answers to these pieces, each the whole of what one read gives, and its status."""
        reading, writing = os.pipe2(os.O_DIRECT)
        environment = {**os.environ, "LD_PRELOAD": self.still, **more}
        with open(os.path.join(self.folder, "out"), "w+b") as out:
            child = subprocess.Popen([self.program, "node", self.path, str(own), str(nodes), *words], stdin=reading, stdout=out, stderr=subprocess.DEVNULL, env=environment)
            os.close(reading)
            try:
                for piece in pieces:
                    os.write(writing, piece)
            except BrokenPipeError:
                pass
            os.close(writing)
            status = child.wait(timeout=600)
            out.seek(0)
            return out.read().decode(), status


def try_cuts(tried):
    """Each input in one piece, byte by byte, and cut in two at each place."""
    for lines, answers in ROWS:
        fed = lines.encode()
        whole = [[fed], [fed[at:at + 1] for at in range(len(fed))]]
        for pieces in whole + [[fed[:cut], fed[cut:]] for cut in range(1, len(fed))]:
            tried.fresh()
            tried.same(tried.serve(pieces), (answers, 0), pieces)


def unit_of(words):
    return int(words[0]) if words else 20


def fired(answer):
    return re.findall("^fired (.*)$", answer, re.MULTILINE)


def try_timers(tried):
    for *words, own, nodes, before, event, times in TIMERS + OF_A_ROUND_TRIP:
        before = before.split(";")
        lines, wanted, told = list(before), [], 0
        for time, due in times:
            many = range(told + unit_of(words), time, unit_of(words)) if due in (BY, NONE) else ()
            lines += [f"tick {each}" for each in (*many, time)] if due is not None else [time]
            wanted.append((time, due, len(many) + 1))
            told = time if due is not None else told
        tried.fresh(own, nodes)
        text, status = tried.serve(["".join(line + "\n" for line in lines).encode()], own, nodes, words)
        answers = re.split(r"^ok .*\n", text, flags=re.MULTILINE)
        tried.mark("" if status == 0 and len(answers) == len(lines) + 1 and answers[-1] == "" else f"status {status}, it answers {text!r}", lines)
        at = len(before)
        for time, due, many in wanted:
            found, at = [event in fired(answer) for answer in answers[at:at + many]], at + many
            if due is not None:
                tried.mark("" if sum(found) == (due in (True, BY)) else f"{event} by {time}: {found}", lines)


def try_round_trips(tried):
    """What is no round trip."""
    for word in ("0", "60001", "65536", "x", "-1", "20.0", ""):
        tried.fresh()
        done = program.run(tried.program, ["node", tried.path, "0", "3", word])
        tried.mark("" if done.returncode == 2 and done.stdout.startswith("error: ") else f"status {done.returncode}, {done.stdout!r}", ("a round trip of", word))


def try_jitter(tried):
    """When nodes look for others first, and when they then merge: each within its bounds, and no two nodes at the same times."""
    seen = {}
    for own in range(4):
        tried.fresh(own, 4)
        text, _ = tried.serve([b"recover\n"] + ["".join(f"tick {time}\n" for time in range(at, at + 50)).encode() for at in range(0, 900, 50)], own, 4)
        answers = re.split(r"^ok .*\n", text, flags=re.MULTILINE)[1:]
        at = [next((time for time, answer in enumerate(answers) if event in fired(answer)), -1) for event in ("check", "merge")]
        tried.mark("" if 100 <= at[0] <= 160 and 60 <= at[1] - at[0] <= 100 else f"it checks and merges at {at}", ("jitter of node", own))
        seen[tuple(at)] = own
    tried.mark("" if len(seen) == 4 else f"the times are {seen}", "jitter of four nodes")


def try_next(tried):
    """Before the time that a tick tells as the next, nothing is fired and nothing sent again; at it something comes about, or what is sent again is looked
    through. A node that is Down tells none."""
    for own, nodes, before in ((0, 1, "recover"), (0, 1, "recover;submit 0 -"), (0, 3, "recover"), (0, 3, "recover;check"), (0, 2, INVITING), (0, 2, LEADING), (0, 2, IN_STEP), (1, 2, JOINING), (1, 2, JOINED), (0, 3, "state")):
        lines, told = before.split(";") + ["tick 5"], 0
        while len(lines) < 40:
            tried.fresh(own, nodes)
            text, _ = tried.serve(["".join(line + "\n" for line in lines).encode()], own, nodes)
            answers = re.split(r"^ok .*\n", text, flags=re.MULTILINE)[:-1]
            found = re.findall(r"^next (\d+)$", answers[-1], re.MULTILINE)
            tried.mark("" if len(found) == (before != "state") else f"it answers {text!r}", lines)
            if told:
                tried.mark("" if re.fullmatch(rf"next {told}\n", answers[-2]) else f"one before {told} there is {answers[-2]!r}", lines)
            if not found:
                break
            last, told = int(lines[-1].split()[1]), int(found[0])
            tried.mark("" if last < told or last == 5 else f"behind {last} the next is {told}", lines)
            lines += [f"tick {max(told - 1, last)}", f"tick {told}"]


def try_falling_back(tried):
    """Questions are sent again where the clock falls back, too: at once, and four round trips later."""
    tried.fresh()
    times = [4_000_000, 4_000_020, 4_000_040, 400_000, 400_020, 400_040]
    text, _ = tried.serve([("recover\ntick 3999980\ncheck\n" + "".join(f"tick {time}\n" for time in times)).encode()])
    answers = re.split(r"^ok .*\n", text, flags=re.MULTILINE)[3:-1]
    tried.same([answer.count("send 1 010100010000") for answer in answers], [0, 1, 0, 1, 0, 0], "questions of a clock that falls back")


def try_backoff(tried):
    """The questions of a check to 39 others: at which times each is sent again, 16 at most at one time. A greater coordinator was found, and so the check lasts."""
    tried.fresh(0, 40)
    times = [5000 + 20 * step for step in range(1, 60)]
    text, _ = tried.serve([b"recover\ntick 4980\ncheck\n", "deliver 01022700000101\n".encode()] + [f"tick {time}\n".encode() for time in times], 0, 40)
    answers = re.split(r"^ok .*\n", text, flags=re.MULTILINE)[4:-1]
    # of each node that is asked: how many times pass it by, and for how many it rests behind the next at which it is asked
    queue, wanted = [(node, 1, 2) for node in range(1, 39)], []
    for _ in times:
        due = [each for each in queue if each[1] == 0]
        asked, waits = due[:16], due[16:] + [each for each in queue if each[1] > 0]
        wanted.append([node for node, _, _ in asked])
        queue = [(node, max(left - 1, 0), rest) for node, left, rest in waits] + [(node, rest - 1, min(2 * rest, 8)) for node, left, rest in asked]
    found = [[int(node) for node in re.findall("^send ([0-9]+) 0101", answer, re.MULTILINE)] for answer in answers]
    tried.same(found, wanted, "the questions of a check, sent again")
    tried.mark("" if max(map(len, found)) == 16 else f"{max(map(len, found))} at once", "at most 16 questions at once")


def try_greatest(tried):
    """No count is left: the node stays Down, and its file as it was."""
    tried.fresh()
    with open(tried.path, "r+b") as file:
        file.seek(2 * 512)
        file.write(b"\xff" * 8)
        file.seek(3 * 512)
        file.write(b"\xa5")
    with open(tried.path, "rb") as file:
        before = file.read()
    tried.same(tried.serve([b"recover\nstate\nrecover\n"]), ("refused 1 Exhausted\nstate Down\nok 2\nrefused 3 Exhausted\n", 0), "the greatest count")
    with open(tried.path, "rb") as file:
        tried.same(file.read(), before, "the file of the greatest count")


def try_no_room(tried):
    """A call of a submission for which there is no room: the node ends as one that may be started again."""
    library, noted, said = program.library("faults", tried.folder), os.path.join(tried.folder, "noted"), FAILED[2][0]
    for error in (errno.ENOSPC, errno.EDQUOT):
        found = []
        for at in range(1, 100):
            env = {"LD_PRELOAD": library, "FAULT_FILE": tried.path, "FAULT_AT": str(at), "FAULT": str(error), "FAULT_COUNT": noted}
            tried.fresh()
            text, status = tried.serve([FAILING.encode()], **env)
            found += [status] if text == said else []
            if text == UNFAILED:
                break
        tried.same(found, [8] * FAILED[2][1], ("no room", errno.errorcode[error]))


def try_failing(tried):
    """Each call on the file fails in turn. Then the process ends; another one finds what was answered, and of the last line all or nothing."""
    library, noted = program.library("faults", tried.folder), os.path.join(tried.folder, "noted")
    fed, at, came = FAILING.encode(), 0, []
    while not came or came[-1] != (UNFAILED, 0):
        at += 1
        env = {"LD_PRELOAD": library, "FAULT_FILE": tried.path, "FAULT_AT": str(at), "FAULT": str(errno.EIO), "FAULT_COUNT": noted}
        tried.fresh()
        cut = at % (len(fed) - 1) + 1
        came.append(tried.serve([fed[:cut], fed[cut:]], **env))
        found, status = tried.serve([b"recover\n"])
        counts, jobs = {"": ((1,), (0,)), **dict(zip((text for text, _ in FAILED), (((1, 2), (0,)), ((2,), (0,)), ((2,), (0, 1)), ((2, 3), (1,)))))}.get(came[-1][0], ((3,), (1,)))
        allowed = [f"group Normal 0 0:{count} 0\nkeeps {count} {job} {job}\nok 1\n" for count in counts for job in jobs]
        tried.mark("" if status == 0 and found in allowed else f"then there is {found!r}", ("call that fails", at))
        if at > 100:
            break
    opening = came.count(("", 3))
    wanted = [("", 3)] * opening + [(text, 3) for text, calls in FAILED for _ in range(calls)] + [(UNFAILED, 0)]
    tried.mark("" if opening > 0 else "no call opens the file", "the calls that open the file")
    tried.same(len(came), len(wanted), "the number of calls")
    for at, (found, want) in enumerate(zip(came, wanted)):
        tried.same(found, want, ("call that fails", at + 1))


def try_own_syncs(tried):
    """Each sync takes 50 ms, and a raise 150. What is sent in one is waited for from then on, though all ticks come at once; and a question to a coordinator,
    which may be in a raise, 3 s, since this node was held up itself, and at least 150 ms more."""
    tried.fresh(0, 2)
    lines = INVITING.split(";") + [f"tick {time}" for time in (7, 107, 256, 2000, 2020)]
    text, _ = tried.serve(["".join(line + "\n" for line in lines).encode()], 0, 2, LD_PRELOAD=tried.slow, SYNC_MS="50")
    answers = re.split(r"^ok .*\n", text, flags=re.MULTILINE)[len(lines) - 5:-1]
    tried.same(["accept" in fired(answer) for answer in answers], [False, False, False, False, True], "an invitation behind two raises")
    tried.fresh(1, 2)
    lines = JOINED.split(";") + [f"tick {time}" for time in (0, 10_000, 13_149, 30_000, 30_020)]
    text, _ = tried.serve(["".join(line + "\n" for line in lines).encode()], 1, 2, LD_PRELOAD=tried.slow, SYNC_MS="50")
    answers = re.split(r"^ok .*\n", text, flags=re.MULTILINE)[len(lines) - 5:-1]
    tried.same(["coord" in fired(answer) for answer in answers], [False, True, False, False, True], "an answer of a node that may be in a raise")


def try_disks_in_memory(tried):
    """No call of a disk in memory fails that wasn't asked to."""
    for slots in (4, 8, 4096):
        schedule = f"cluster 1 {slots}\nsubmit 0 0 61\ncompact 0\nrecover 0\nfinish 0 0 0\ncompact 0\ncrash 0\nrecover 0\n"
        found = program.run(tried.program, ["sim"], schedule)
        answers = ["ok id 0", "ok", "ok", "refused UnknownJob", "ok", "ok", "ok"]
        text = "".join(f"{at} {answer}\n" for at, answer in enumerate(answers)) + "node 0 Normal coord 0 group 0:3 up - members 0 count 3 pending 0 hand -\n"
        tried.same((found.stdout, found.returncode), (text, 0), schedule)


def main():
    invite = program.named()
    program.compiler("no session was tried")
    with tempfile.TemporaryDirectory() as folder:
        tried = Tried(invite, folder)
        try_cuts(tried)
        try_timers(tried)
        try_round_trips(tried)
        try_jitter(tried)
        try_next(tried)
        try_falling_back(tried)
        try_backoff(tried)
        try_greatest(tried)
        try_disks_in_memory(tried)
        try_failing(tried)
        try_no_room(tried)
        try_own_syncs(tried)
    return tried.close()


if __name__ == "__main__":
    sys.exit(main())
