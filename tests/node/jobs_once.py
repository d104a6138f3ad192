#!/usr/bin/env python3
"""How often each job is worked on: three nodes in one group, with no fault but messages that are lost.

    jobs_once.py PROGRAM [JOBS [LOSS SEED]]

Each node is a process; this script carries their messages at once, loses LOSS of 100, ticks where a node says that something is due, submits the jobs at the
coordinator, at most WINDOW of them on their way, and finishes what a node takes at once. It counts the executions (lines `take`) and the messages (lines
`send`) of each job, and how long a job waits from its submission until it is gone. With JOBS left out it runs 2,000 jobs without loss and with 5 of 100, and
checks both; the last line counts the checks. A run ends where the group changes, as it does on a machine that is too busy for its nodes. It says nothing then,
nor where it cost more than it may: another one is made, in which the nodes' clock goes slower by a factor of SLOWER, and so all their waits."""
import os, random, selectors, subprocess, sys, tempfile, time

sys.path.append(os.path.join(os.path.dirname(os.path.abspath(__file__)), ".."))
from common import program
from common.tally import Tally

NODES, ROUND_TRIP, WINDOW, SLOWER = 3, 0.020, 8, (1, 2, 4, 8)


class Bed:
    def __init__(self, invite, folder, loss, seed, slower):
        self.slower = slower
        self.chance, self.loss, self.look = random.Random(seed), loss, selectors.DefaultSelector()
        self.nodes, self.unread, self.groups, self.due = [], [b""] * NODES, [None] * NODES, [0.0] * NODES
        self.taken = self.sent = self.groups_seen = 0
        self.submitted, self.waits, self.asked = {}, [], []
        for own in range(NODES):
            program.made(invite, f"{folder}/{own}", 1024, own, NODES)
            self.nodes.append(subprocess.Popen([invite, "node", f"{folder}/{own}", str(own), str(NODES)], stdin=subprocess.PIPE, stdout=subprocess.PIPE, bufsize=0))
            self.look.register(self.nodes[own].stdout, selectors.EVENT_READ, own)
        self.tell([b"recover\n" for _ in range(NODES)])

    def now(self):
        """Seconds of the nodes' clock."""
        return time.monotonic() / self.slower

    def tell(self, texts):
        """A text to each node, and behind it the time."""
        for own, text in enumerate(texts):
            if text:
                self.nodes[own].stdin.write(text + b"tick %d\n" % (self.now() * 1000))

    def step(self):
        """What the nodes say is heard, and what comes of it fed."""
        texts = [b""] * NODES
        now = self.now()
        for key, _ in self.look.select(self.slower * max(0.0, min(min(self.due) - now, 0.1))):
            own = key.data
            *lines, self.unread[own] = (self.unread[own] + os.read(key.fileobj.fileno(), 65536)).split(b"\n")
            for words in (line.split() for line in lines):
                self.heard(own, words, texts)
        now = self.now()
        for own in range(NODES):
            if self.due[own] <= now and not texts[own]:
                self.due[own] = now + 1
                self.nodes[own].stdin.write(b"tick %d\n" % (now * 1000))
        self.tell(texts)

    def heard(self, own, words, texts):
        if words[0] == b"send":
            self.sent += 1
            if self.chance.random() * 100 >= self.loss:
                texts[int(words[1])] += b"deliver " + words[2] + b"\n"
        elif words[0] == b"take":
            self.taken += 1
            texts[own] += b"finish " + words[1] + b" " + words[2] + b"\n"
        elif words[0] == b"gone":
            job = int(words[1])
            if job in self.submitted:
                self.waits.append(self.now() - self.submitted.pop(job))
        elif words[0] == b"next":
            self.due[own] = int(words[1]) / 1000
        elif words[0] == b"group":
            self.groups[own], self.groups_seen = words[1:], self.groups_seen + 1
        elif words[0] == b"ok" and len(words) == 4:
            self.submitted[int(words[3])] = self.asked.pop(0)

    def leader(self):
        """The coordinator, where all nodes are one group."""
        first = self.groups[0]
        one = first and first[0] == b"Normal" and first[3] == b"0,1,2" and all(group == first for group in self.groups)
        return int(first[1]) if one else None

    def work(self, jobs):
        """Works the jobs; what a job cost."""
        until = self.now() + 300
        while self.leader() is None and self.now() < until:
            self.step()
        leader, begun, fed = self.leader(), self.now(), 0
        self.taken = self.sent = self.groups_seen = 0
        until = begun + 60 + jobs / 50
        while len(self.waits) < jobs and self.groups_seen == 0 and self.now() < until:
            text = b""
            while fed < jobs and fed - len(self.waits) < WINDOW:
                text += b"submit %d %08x\n" % (fed % 16, fed)
                self.asked.append(self.now())
                fed += 1
            self.tell([text if own == leader else b"" for own in range(NODES)])
            self.step()
        for node in self.nodes:
            node.kill()
            node.wait()
        return dict(jobs=len(self.waits), seconds=self.slower * (self.now() - begun), executions=self.taken / jobs, messages=self.sent / jobs,
                    longest=max(self.waits, default=0) / ROUND_TRIP, groups=self.groups_seen)


def worked(invite, jobs, loss, seed, slower=1):
    # the nodes' files are in memory, where that can be: how long a sync takes is another matter
    with tempfile.TemporaryDirectory(dir=program.MEMORY) as folder:
        seen = Bed(invite, folder, loss, seed, slower).work(jobs)
    print(f"{seen['jobs']} of {jobs} jobs, {loss} of 100 messages lost: {seen['executions']:.4f} executions and {seen['messages']:.2f} messages a job, "
          f"the longest wait {seen['longest']:.1f} round trips, {seen['seconds']:.1f} s, {seen['groups']} changes of groups")
    return seen


def in_one_group(invite, jobs, loss, checks):
    """What the first run cost of which all checks hold, or the last run."""
    for seed, slower in enumerate(SLOWER, 1):
        seen = worked(invite, jobs, loss, seed, slower)
        if all(checks(seen)):
            break
        if slower != SLOWER[-1]:
            print(f"played again: {loss} of 100 messages lost")
    return seen


def main():
    invite, tally = program.named(), Tally()
    jobs = int(sys.argv[2]) if sys.argv[2:] else 2000
    if sys.argv[3:]:
        worked(invite, jobs, float(sys.argv[3]), int(sys.argv[4]))
        return 0
    of_sure = lambda seen: [seen["groups"] == 0, seen["jobs"] == jobs, seen["executions"] <= 1.01, seen["messages"] <= 2.5]
    sure = in_one_group(invite, jobs, 0, of_sure)
    of_lossy = lambda seen: [seen["groups"] == 0, seen["jobs"] == jobs, seen["executions"] <= 1.1, seen["longest"] <= sure["longest"] + 40]
    for loss, seen, checks in ((0, sure, of_sure), (5, in_one_group(invite, jobs, 5, of_lossy), of_lossy)):
        for at, holds in enumerate(checks(seen)):
            tally.check(holds, f"{loss} of 100 messages lost, check {at}: {seen}")
    return tally.close()


if __name__ == "__main__":
    sys.exit(main())
