#!/usr/bin/env python3
"""What `trace --core` prints of spoiled runs of schedules, against a model of a node.

    trace_cores.py PROGRAM [--seed N] [--each N]

Of each schedule's trace some entries are spoiled, one at a time, and of a long run with crashes and of one without. Where an entry can't be, the core has to be
the entries of that node alone up to that one, 32 at most, from the index that it says; the model of a node in tests/hostile, brought through the entries before
them, has to stand as the core says, alone in its group and never so again where there are fewer than 32; and begun as the core says it takes each of its entries
but the last, whatever others sent. Of some entries something is told that no node tells: then the core is of the entries up to the first of these, which its node
takes, too. Where each entry that is left waits, that has to be said in one line. The status and standard error are those of `trace`. The last line counts the
checks, and the one before says how many entries the cores have."""
import argparse, json, os, random, re, sys

TOP = os.path.join(os.path.dirname(os.path.abspath(__file__)), "../..")
sys.path += [os.path.join(TOP, "tests"), os.path.join(TOP, "tests/hostile")]
import traces
from common import program, schedules as stored
from common.tally import Tally
from node_model import DOWN, Node, Search

MOST = 32
FIELDS = ("group", "took", "dropped", "gone", "id", "kept")
ALL_WAIT = b"each entry that is left waits for a message that none sent\n"


class Everything:
    """The messages that were sent, where any may have been."""

    def __contains__(self, message):
        return True

    def __ior__(self, messages):
        return self


class Checks(Tally):
    def __init__(self, invite):
        super().__init__()
        self.program, self.lengths, self.waiting, self.told = invite, [], 0, 0

    def printed(self, words, text):
        """The status, what is printed, and what is said."""
        done = program.run(self.program, words, text)
        return done.returncode, done.stdout, done.stderr


def listed(ids):
    return ",".join(map(str, sorted(ids))) or "-"


def word(job):
    queue, payload, priority = job
    return f"{queue} {payload.hex() or '-'}" + (f" {priority}" if priority else "")


def stands(node):
    """The lines that say how a node of the model stands: of one that is down nothing is left but what its disk keeps, and what is in doubt there."""
    down = node.phase == DOWN
    coordinator, group = (node.own, (node.own, 1)) if down else (node.coordinator, node.group)
    up, members, found, unready, hand = (set(), [], set(), set(), {}) if down else (node.up, node.members, node.found, node.unready, node.hand)
    asking = [False, False] if down else [node.checking, node.probing]
    number = f"{group[0]}:{group[1]}"
    line = f"{node.phase} coord {coordinator} group {number} up {listed(up)} task {number if members else '-'} members {listed(members)} found {listed(found)} unready {listed(unready)}"
    checking, probing = ["yes" if one else "no" for one in asking]
    lines = [f"{line} checking {checking} probing {probing} count {node.count} next {node.next}"]
    lines += [f"pending {identity} {word(job)}" for identity, job in sorted(node.pending.items())]
    lines += [f"hand {origin} {identity} {word(job)}" for (origin, identity), job in hand.items()]
    if down and node.doubt:
        name, *rest = node.doubt
        lines.append(f"doubt {name}" + (f" {word(rest)}" if name == "put" else f" {rest[0]}" if rest else ""))
    return lines


def begun(own, nodes, lines):
    """A node of the model that stands as these lines say."""
    ids = lambda text: [] if text == "-" else [int(one) for one in text.split(",")]
    job = lambda queue, digits, priority="0": (int(queue), b"" if digits == "-" else bytes.fromhex(digits), int(priority))
    node, words = Node(own, nodes), lines[0].split(" ")
    said = dict(zip(words[1::2], words[2::2]))
    node.phase, node.coordinator, node.group = words[0], int(said["coord"]), tuple(map(int, said["group"].split(":")))
    node.up, node.members, node.found, node.unready = set(ids(said["up"])), ids(said["members"]), set(ids(said["found"])), set(ids(said["unready"]))
    node.checking, node.probing, node.count, node.next = said["checking"] == "yes", said["probing"] == "yes", int(said["count"]), int(said["next"])
    for name, *rest in (line.split(" ") for line in lines[1:]):
        if name == "pending":
            node.pending[int(rest[0])] = job(*rest[1:])
        elif name == "hand":
            node.hand[int(rest[0]), int(rest[1])] = job(*rest[2:])
        else:
            node.doubt = ("raise",) if rest[0] == "raise" else ("put", *job(*rest[1:])) if rest[0] == "put" else ("done", int(rest[1]))
    return node


def is_opened(node):
    """Whether it is alone in the group of its count, without a job in hand and without a doubt."""
    opened = Node(node.own, node.nodes)
    opened.count, opened.group, opened.next, opened.pending = node.count, (node.own, node.count), node.next, node.pending
    return not node.doubt and stands(node) == stands(opened)


def brought(node, nodes, entries):
    """Brings a node of the model through entries, whatever others sent: how many it takes, and how it stands before each and behind the last."""
    search = Search(nodes, [])
    search.sent, search.nodes[node.own] = Everything(), node
    stood = [(stands(node), is_opened(node))]
    for place, entry in enumerate(entries):
        if not search.takes(node.own, entry):
            return place, stood
        stood.append((stands(node), is_opened(node)))
    return len(entries), stood


def judge(checks, name, text):
    """Checks what is printed of this trace."""
    status, verdict, said = checks.printed(["trace"], text)
    core_status, core, core_said = checks.printed(["trace", "--core"], text)
    checks.check((core_status, core_said) == (status, said), f"{name}: ends as trace does", core_status, core_said)
    look = re.match(rb"invite: no order takes all entries( as they were told)?: look first at node (\d+), entry (\d+)\n?", said)
    if not look:
        checks.waiting += status == 1
        checks.check(core == (ALL_WAIT if verdict.startswith(b"NotARun") else verdict), f"{name}: a run, or all wait", core)
        return
    is_told, own, index = bool(look[1]), int(look[2]), int(look[3])
    nodes, histories = traces.read(text)
    *lines, text = core.decode().splitlines() or [""]
    begin = re.fullmatch(r"node (\d+) entry (\d+) (.*)", lines[0] if lines else "")
    try:
        many, cores = traces.read(text.encode())
    except traces.Bad as why:
        many = None
    if not begin or many is None:
        checks.check(False, f"{name}: a core", core[:300])
        return
    node, first, lines = int(begin[1]), int(begin[2]), [begin[3], *lines[1:]]
    part = [histories[own][first:index + 1] if one == own else [] for one in range(nodes)]
    checks.check((many, node) == (nodes, own) and cores == part and index - first < MOST, f"{name}: of that node up to that entry", core[:300])
    taken, stood = brought(Node(own, nodes), nodes, histories[own][:index])
    checks.check(taken == index and stood[first][0] == lines, f"{name}: it stood so", stood[first][0], lines)
    later = [place for place, (_, opened) in enumerate(stood) if place > first and opened]
    checks.check(not later and (index + 1 - first == MOST or stood[first][1]), f"{name}: and opened there, or before the last {MOST}", later)
    taken, _ = brought(begun(own, nodes, lines), nodes, part[own])
    checks.check(taken == index - first + is_told, f"{name}: the last can't be, or isn't told so", taken, index - first)
    checks.lengths.append(index + 1 - first)
    checks.told += is_told


def spoiled(random, entry):
    """The entry, spoiled in one way."""
    ways = [lambda e: e["sent"].append(e["sent"][0] if e["sent"] else "010100010000"), lambda e: e.update(do="crash"), lambda e: e.update(do="recover", kept=True)]
    if entry["sent"]:
        ways += [lambda e: e["sent"].clear(), lambda e: e["sent"].pop(), lambda e: e["sent"].reverse()]
    if "msg" in entry:
        ways.append(lambda e: e.update(msg=e["msg"][:6] + "7f" + e["msg"][8:]))
    random.choice(ways)(entry)


def long_run(lives):
    """A schedule in which nodes come together, work, crash and recover, so many times."""
    acts = ["cluster 3 4096"]
    for life in range(lives):
        acts += ["check 0", "check 1", f"submit {life % 3} {life % 16} {life % 256:02x}", "dispatch 0", "merge 0"]
        acts += [f"deliver {one}" for one in range(life * 5, life * 5 + 9)]
        acts += [f"crash {life % 3}", f"recover {life % 3}"]
    return "".join(act + "\n" for act in acts).encode()


def quiet_run(jobs):
    """One in which two nodes come together and then work on so many jobs."""
    acts = ["cluster 2 4096", "check 1", "deliver 0", "deliver 1", "merge 1", "deliver 2", "deliver 3", "accept 1", "deliver 4", "deliver 5"]
    for job in range(jobs):
        acts += [f"submit 1 {job % 16} 61 {1 + job % 255}", f"finish {job % 2} 1 {job}" if job % 2 else "check 0"]
        acts += [f"deliver {one}" for one in range(6 + job, 7 + job)]
    return "".join(act + "\n" for act in acts).encode()


def main():
    arguments = argparse.ArgumentParser()
    arguments.add_argument("program")
    arguments.add_argument("--seed", type=int, default=7)
    arguments.add_argument("--each", type=int, default=4)
    given = arguments.parse_args()
    checks, chance = Checks(program.named(given.program)), random.Random(given.seed)
    schedules = [(os.path.basename(path), stored.acts(path).encode(), given.each) for path in stored.all_of("schedules")]
    for name, schedule, many in [*schedules, ("a long run", long_run(60), 10 * given.each), ("a quiet run", quiet_run(400), 10 * given.each)]:
        status, text, _ = checks.printed(["record"], schedule)
        if status:
            continue
        if name.startswith("a ") or name == schedules[0][0]:
            judge(checks, name, text)
        whole = json.loads(text)
        places = [(node, index) for node, history in enumerate(whole["histories"]) for index in range(len(history))]
        for node, index in chance.sample(places, min(many, len(places))):
            trace = json.loads(text)
            spoiled(chance, trace["histories"][node][index])
            judge(checks, f"{name}, node {node}, entry {index}", json.dumps(trace).encode())
            trace = json.loads(text)
            for other, place in [(node, index), chance.choice(places)]:
                trace["histories"][other][place]["told"] = {chance.choice(FIELDS): "x"}
            judge(checks, f"{name}, node {node}, entry {index}, told otherwise", json.dumps(trace).encode())
    checks.check(checks.lengths and checks.waiting and checks.told, "cores of each kind")
    print(f"{len(checks.lengths)} cores, of {sum(checks.lengths)} entries, the longest of {max(checks.lengths, default=0)}")
    return checks.close()


if __name__ == "__main__":
    sys.exit(main())
