#!/usr/bin/env python3
"""Clusters of 64 and 128 processes `invite node` on one machine, at the default round trip: how soon they are one group, and by how many messages. The same beside
eight processes that are busy all the time.

    many_nodes.py PROGRAM [NODES [STARTS [LOOPS]]]

Each node is a process over a file in memory, where that can be. This script carries their messages, each in 0.2 to 0.5 round trips, and tells a node the time behind
what it is brought and where it asked to be told. They come up within 10 round trips. Once they are one group they rest for three seconds; then the coordinator dies,
and comes up again once the others are one group. All processes share the processors of one machine, which is busy with them. The last line counts the checks."""
import heapq, os, random, selectors, shutil, subprocess, sys, tempfile, time

sys.path.append(os.path.join(os.path.dirname(os.path.abspath(__file__)), ".."))
from common import program
from common.tally import Tally

ROUND_TRIP, REST = 0.020, 3.0
# A step takes so many seconds at most. Until they are one group a node sends so many messages for each node: a question and an answer in each of two checks are four,
# and twice as many are allowed. Beside busy processes answers come late, and are asked for again, as often as one waits.
LONGEST, MOST_SENT = 60.0, 8
# How soon so many nodes are one group, in seconds.
SOON = {64: 5.0, 128: 10.0}


class Node:
    def __init__(self, cluster, own):
        self.cluster, self.own, self.path = cluster, own, os.path.join(cluster.folder, str(own))
        self.process, self.sent = None, 0
        program.made(cluster.program, self.path, 16, own, cluster.nodes)

    def start(self):
        words = [self.cluster.program, "node", self.path, str(self.own), str(self.cluster.nodes)]
        self.process = subprocess.Popen(words, stdin=subprocess.PIPE, stdout=subprocess.PIPE, bufsize=0)
        os.set_blocking(self.process.stdin.fileno(), False)
        self.group, self.due, self.brought, self.unwritten, self.unread = None, None, [], b"", b""
        self.cluster.look.register(self.process.stdout, selectors.EVENT_READ, self)

    def kill(self):
        self.cluster.look.unregister(self.process.stdout)
        self.process.kill()
        self.process.communicate()
        self.process, self.group, self.due, self.brought = None, None, None, []

    def write(self):
        """Hands over what it is brought, and the time behind it, as far as the pipe takes it."""
        if self.brought:
            self.unwritten += b"".join(self.brought) + b"tick %d\n" % (time.monotonic() * 1000)
            self.brought, self.due = [], None
        try:
            self.unwritten = self.unwritten[self.process.stdin.write(self.unwritten) or 0:]
        except BlockingIOError:
            pass

    def read(self):
        *lines, self.unread = (self.unread + os.read(self.process.stdout.fileno(), 1 << 18)).split(b"\n")
        for line in lines:
            words = line.split()
            if words[0] == b"send":
                self.sent += 1
                self.cluster.carry(int(words[1]), b"deliver %s\n" % words[2])
            elif words[0] == b"group":
                self.group = words[1:]
                self.cluster.changed = True
            elif words[0] == b"next":
                self.due = int(words[1]) / 1000
                heapq.heappush(self.cluster.dues, (self.due, self.own))


class Cluster:
    def __init__(self, invite, folder, nodes, seed):
        self.program, self.folder, self.nodes, self.random = invite, folder, nodes, random.Random(seed)
        self.look, self.dues, self.carried, self.changed, self.waiting = selectors.DefaultSelector(), [], [], False, set()
        os.mkdir(folder)
        self.node = [Node(self, own) for own in range(nodes)]

    def carry(self, own, line):
        heapq.heappush(self.carried, (time.monotonic() + self.random.uniform(0.2, 0.5) * ROUND_TRIP, own, line))

    def bring(self, own, line):
        node = self.node[own]
        if node.process is not None:
            node.brought.append(line)
            self.waiting.add(own)

    def start(self, owns, within):
        """Starts these processes; then they come up within so many seconds."""
        for own in owns:
            self.node[own].start()
        for own in owns:
            heapq.heappush(self.carried, (time.monotonic() + self.random.uniform(0, within), own, b"recover\n"))

    def run(self, seconds, done=lambda: False):
        """Goes on for so long, or until it is done: then it answers the time that went by."""
        begun = time.monotonic()
        while time.monotonic() < begun + seconds:
            now = time.monotonic()
            while self.carried and self.carried[0][0] <= now:
                self.bring(*heapq.heappop(self.carried)[1:])
            while self.dues and self.dues[0][0] <= now:
                due, own = heapq.heappop(self.dues)
                if self.node[own].due == due:
                    self.bring(own, b"")
            for own in list(self.waiting):
                node = self.node[own]
                if node.process is not None:
                    node.write()
                if node.process is None or not node.unwritten:
                    self.waiting.discard(own)
            next_at = min([now + 0.05] + [first[0] for first in self.dues[:1] + self.carried[:1]])
            for key, _ in self.look.select(0.001 if self.waiting else max(0.0, next_at - now)):
                key.data.read()
            if self.changed:
                self.changed = False
                if done():
                    return time.monotonic() - begun
        return None

    def is_one(self, members):
        first = self.node[members[0]].group
        return first is not None and first[0] == b"Normal" and first[3] == ",".join(map(str, members)).encode() and all(self.node[own].group == first for own in members)

    def sent(self):
        return [node.sent for node in self.node]

    def end(self):
        for node in self.node:
            if node.process is not None:
                node.kill()
        self.look.close()
        shutil.rmtree(self.folder)


def try_one(invite, folder, nodes, seed):
    """One cluster: its times, and the messages until one group, of one node on average and at most, and those at rest."""
    cluster = Cluster(invite, folder, nodes, seed)
    everyone, row = list(range(nodes)), {}
    try:
        cluster.start(everyone, 10 * ROUND_TRIP)
        row["one group"] = cluster.run(LONGEST, lambda: cluster.is_one(everyone))
        row["sent"], row["most"] = sum(cluster.sent()) / nodes, max(cluster.sent())
        if row["one group"] is None:
            return row
        cluster.run(REST)
        row["at rest"] = (sum(cluster.sent()) / nodes - row["sent"]) / REST
        if not cluster.is_one(everyone):
            cluster.run(LONGEST, lambda: cluster.is_one(everyone))
        dead = int(cluster.node[0].group[1])
        cluster.node[dead].kill()
        row["replaced"] = cluster.run(LONGEST, lambda: cluster.is_one([own for own in everyone if own != dead]))
        cluster.start([dead], 0)
        row["back"] = cluster.run(LONGEST, lambda: cluster.is_one(everyone))
    finally:
        cluster.end()
    return row


def try_all(tally, invite, folder, nodes, starts, loops):
    """Whether these starts were as they should be, and how they were."""
    busy = [subprocess.Popen([sys.executable, "-c", "while True: pass"]) for _ in range(loops)]
    try:
        for seed in range(starts):
            row = try_one(invite, os.path.join(folder, f"{nodes}-{seed}"), nodes, seed)
            is_so = None not in [row.get(name) for name in ("one group", "replaced", "back")] and row["one group"] <= SOON.get(nodes, LONGEST)
            is_so = is_so and (loops > 0 or row["most"] <= MOST_SENT * nodes)
            times = ", ".join(f"{name} {row[name]:.2f}" if row.get(name) is not None else f"{name} never" for name in ("one group", "replaced", "back"))
            said = f"{nodes} nodes, {loops} busy loops: {times} s; until one group each node sent {row['sent']:.0f} messages, one {row['most']} at most; at rest {row.get('at rest', 0):.1f} a second"
            if tally.check(is_so, said):
                print(f"many_nodes.py: {said}", flush=True)
    finally:
        for process in busy:
            process.kill()
            process.wait()


def main():
    invite, tally = program.named(), Tally()
    sizes = [int(sys.argv[2])] if sys.argv[2:] else [64, 128]
    starts = int(sys.argv[3]) if sys.argv[3:] else 3
    rows = [(nodes, loops) for nodes in sizes for loops in ([int(sys.argv[4])] if sys.argv[4:] else [0, 8])]
    with tempfile.TemporaryDirectory(dir=program.MEMORY) as folder:
        for nodes, loops in rows:
            try_all(tally, invite, folder, nodes, starts, loops)
    return tally.close()


if __name__ == "__main__":
    sys.exit(main())
