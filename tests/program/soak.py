#!/usr/bin/env python3
"""soak.py PROGRAM ACTS SEED: random schedules through `sim`, so many acts in all, in pieces of 4,096.

Elections are driven by hand, with deliveries that are late, repeated, shuffled and lost, cuts, crashes with bytes left over, jobs and
compactions; in half of the pieces disks also fail at any call. A model of the nodes in Python says which messages there are to be delivered; where no
disk fails each act's line has to be the model's. Of all that is printed, by the layout of messages and nothing else, it checks
  - that the Invitations of one group number that its creator sends are all of one act, and that a creator's counts rise;
  - that all Readys of one group name the same members, and come from its creator;
  - that halfway and at the end any two nodes that reorganize or work in one group have one coordinator, those that work the same
    members, and that no node's count is below one that it had, or that it gave.
The last line is 'N passed, M failed', one for each piece. A piece that failed is left in a file that is named.
"""
import os, random, re, sys

sys.dont_write_bytecode = True
HERE = os.path.dirname(os.path.abspath(__file__))
sys.path += [os.path.join(HERE, ".."), os.path.join(HERE, "../hostile")]
from common import program
from common.tally import Tally
from node_model import Cluster

ACTS = 4096
SENT = re.compile(rb" (\d+):0[12]")
WORD = re.compile(rb"(?m)^(\d+) |:0[12](05|07)(..)..[0-9a-f]{4}(..)([0-9a-f]{16})([0-9a-f]*)")
NODE = re.compile(rb"(?m)^node (\d+) (\w+) coord (\d+) group (\d+:\d+) up \S+ members (\S+) count (\d+) ")


class Violation(Exception):
    pass


def timers(chance, nodes):
    return f"{chance.choice(('check', 'merge', 'accept', 'ready', 'coord', 'dispatch'))} {chance.randrange(nodes)}"


def trouble(chance, nodes, arms):
    """One act that isn't a timer's or a message's."""
    node, other, kind = chance.randrange(nodes), chance.randrange(nodes), chance.random()
    if kind < 0.25:
        return f"submit {node} {chance.randrange(16)} {chance.choice(('-', '6869', 'ff' * 400))}"
    if kind < 0.40:
        return f"finish {node} {other} {chance.randrange(6)}"
    if kind < 0.50 and arms:
        return f"arm {node} {chance.randrange(12)}"
    if kind < 0.62:
        return f"crash {node}" + chance.choice(("", " -", " " + chance.randbytes(chance.choice((1, 512, 1024))).hex()))
    if kind < 0.82:
        return f"recover {node}"
    if kind < 0.86:
        return f"compact {node}"
    if kind < 0.91:
        return f"cut {node} {other}"
    return f"mend {node} {other}"


class Piece:
    """The acts of one schedule, as they are written, and the model that says how many messages there are."""

    def __init__(self, chance):
        self.chance = chance
        nodes, slots = chance.choice((1, 2, 3, 3, 3, 4, 5, 5, 7, 8, 16, 64)), chance.choice((4, 5, 8, 64))
        self.nodes, self.model = nodes, Cluster(nodes, slots)
        self.lines, self.foreseen = [f"cluster {nodes} {slots}"], []
        self.arms = chance.random() < 0.5
        self.troubled = chance.choice((0.0, 0.01, 0.05, 0.2))
        self.loss = chance.choice((0.0, 0.02, 0.2))
        self.recovering = chance.choice((0.1, 0.5, 0.9))
        self.slack = chance.choice((0, 2, 10))

    def plain(self, line):
        """Adds an act: the numbers of the messages that the model sends."""
        first = len(self.model.sent)
        self.lines.append(line)
        if not line.startswith("arm"):
            self.foreseen.append(self.model.act(line))
        return range(first, len(self.model.sent))

    def act(self, line):
        sent = self.plain(line)
        if self.chance.random() < self.troubled:
            self.plain(trouble(self.chance, self.nodes, self.arms))
        return sent

    def deliver(self, numbers):
        """These messages come, in some order, some twice, some lost, with some from before: the numbers of what they bring about."""
        numbers, brought = list(numbers), []
        numbers += [max(0, len(self.model.sent) - 1 - self.chance.randrange(60)) for _ in range(self.slack)]
        if self.chance.random() < 0.3:
            self.chance.shuffle(numbers)
        for number in numbers:
            kind = self.chance.random()
            if kind < self.loss:
                self.act(f"lose {number}")
                continue
            for _ in range(2 if kind > 0.98 else 1):
                brought += self.act(f"deliver {number}")
        return brought

    def election(self):
        """A node gathers those that hear it."""
        leader = self.chance.randrange(self.nodes)
        for node in range(self.nodes):
            if self.chance.random() < self.recovering:
                self.act(f"recover {node}")
        for word in ("check", "merge", "accept"):
            self.deliver(self.deliver(self.act(f"{word} {leader}")))

    def fill(self):
        while len(self.lines) <= ACTS:
            self.election()
            for _ in range(self.chance.choice((0, 0, 2, 8))):
                self.deliver(self.deliver(self.act(timers(self.chance, self.nodes))))
        del self.lines[ACTS + 1:]
        return self

    def text(self, acts):
        return ("\n".join(self.lines[:acts + 1]) + "\n").encode()


def messages_keep(printed):
    """How many groups were offered; a Violation where a number was given twice, fell, or has two tasks."""
    act, offered, last, tasks = -1, {}, {}, {}
    for index, kind, sender, creator, count, rest in WORD.findall(printed):
        if index:
            act = int(index)
            continue
        group = creator + count
        if kind == b"05" and sender == creator:
            if offered.setdefault(group, act) != act:
                raise Violation(f"group {group} offered by acts {offered[group]} and {act}")
            if last.get(creator, b"") > count:
                raise Violation(f"count of {creator} fell to {count} in act {act}")
            last[creator] = count
        if kind == b"07":
            if sender != creator:
                raise Violation(f"Ready of {group} from {sender}")
            if tasks.setdefault(group, rest) != rest:
                raise Violation(f"two tasks of {group}")
    return len(offered)


def tables_keep(printed, counts):
    coordinators, tasks, rows = {}, {}, NODE.findall(printed)
    for node, phase, coordinator, group, members, count in rows:
        if phase in (b"Reorganization", b"Normal") and coordinators.setdefault(group, coordinator) != coordinator:
            raise Violation(f"two coordinators of {group}")
        if phase == b"Normal" and tasks.setdefault(group, members) != members:
            raise Violation(f"two tasks of {group}")
        if counts.get(node, 0) > int(count):
            raise Violation(f"the count of {node} fell")
        counts[node] = int(count)
        creator, number = group.split(b":")
        if creator == node and int(number) > int(count):
            raise Violation(f"{node} has {group} and its count is {count}")
    return len(rows)


def judged(invite, piece):
    """A piece, its first half and all of it: how many messages, groups and rows of nodes."""
    counts, rows = {}, 0
    for acts in (ACTS // 2, ACTS):
        done = program.run(invite, ["sim"], piece.text(acts))
        if done.returncode:
            raise Violation(f"status {done.returncode}: {done.stderr[:200]}")
        groups = messages_keep(done.stdout)
        rows += tables_keep(done.stdout, counts)
    if not piece.arms:
        printed = done.stdout.decode().splitlines(True)
        for at in range(ACTS):
            if printed[at] != piece.foreseen[at]:
                raise Violation(f"act {at} is {printed[at]!r}, and not {piece.foreseen[at]!r}")
    numbers = SENT.findall(done.stdout)
    return int(numbers[-1]) + 1 if numbers else 0, groups, rows


def main():
    invite, tally, wanted, seed = program.named(), Tally(), int(sys.argv[2]), int(sys.argv[3])
    acts = sent = groups = rows = number = compared = 0
    while acts < wanted:
        piece = Piece(random.Random(f"{seed} {number}")).fill()
        compared, problem = compared + (not piece.arms), ""
        try:
            more = judged(invite, piece)
            sent, groups, rows = sent + more[0], groups + more[1], rows + more[2]
        except Violation as why:
            name = f"/tmp/soak-{seed}-{number}.txt"
            with open(name, "wb") as it:
                it.write(piece.text(ACTS))
            problem = f"{why}: {name}"
        tally.mark(problem, f"piece {number} of seed {seed}")
        acts, number = acts + ACTS, number + 1
    print(f"pieces {number}, of which {compared} compared act by act; acts {acts}, messages {sent}, groups offered {groups}, rows of nodes {rows}")
    return tally.close()


if __name__ == "__main__":
    sys.exit(main())
