#!/usr/bin/env python3
"""Three nodes over files whose syncs take long: they become one group, replace a coordinator that died, and take it back.

    slow_disks.py PROGRAM [STARTS [SYNC_MS..]]

STARTS clusters (2 where it is left out) are started, five at once, for each of the lengths of a sync (0 20 50 100 200). Each is three processes; this script carries
their messages at once, and tells each the time every 10 ms, whether it has answered or not: what a node spends in its own syncs is the node's own matter. What
comes about has to come within the longest time that it takes over a disk that syncs at once (docs/TIMERS.md, three nodes with no loss), and 15 syncs more.
What the script's own ticks came late meanwhile comes on top, twice: the nodes wait for the machine as it does. A cluster that was late is played again,
alone, at most twice. The last line counts the checks; with STARTS given, the times stand before it."""
import os, selectors, statistics, subprocess, sys, tempfile, time

sys.path.append(os.path.join(os.path.dirname(os.path.abspath(__file__)), ".."))
from common import program
from common.tally import Tally

NODES, ROUND_TRIP, TICK, MORE = 3, 0.020, 0.010, 15
AT_ONCE = 5                              # clusters, so 15 processes
AGAIN = 2                                # so often a cluster that was late is played again
# the longest times over a disk that syncs at once, in round trips
STEPS = {"one group": 142, "a dead coordinator is replaced": 146, "it is taken back": 142}


class Cluster:
    def __init__(self, invite, folder, sync, library, look):
        self.program, self.folder, self.sync, self.look = invite, folder, sync, look
        self.environment = {**os.environ, "LD_PRELOAD": library, "SYNC_MS": str(sync)}
        self.nodes, self.unread, self.groups, self.stopped = [None] * NODES, [b""] * NODES, [None] * NODES, False
        # of each step what it took, and by how much the script's ticks were late meanwhile
        self.times, self.step, self.dead, self.late = {}, 0, None, 0.0
        os.mkdir(folder)
        for own in range(NODES):
            program.made(invite, f"{folder}/{own}", 64, own, NODES)

    def begin(self):
        self.begun = time.monotonic()
        for own in range(NODES):
            self.start(own)

    def start(self, own):
        self.nodes[own] = subprocess.Popen([self.program, "node", f"{self.folder}/{own}", str(own), str(NODES)], stdin=subprocess.PIPE,
                                           stdout=subprocess.PIPE, bufsize=0, env=self.environment)
        self.look.register(self.nodes[own].stdout, selectors.EVENT_READ, (self, own))
        self.unread[own], self.groups[own] = b"", None
        self.tell(own, b"recover")

    def kill(self, own):
        self.look.unregister(self.nodes[own].stdout)
        self.nodes[own].kill()
        self.nodes[own].wait()
        self.nodes[own].stdin.close()
        self.nodes[own].stdout.close()
        self.nodes[own], self.groups[own] = None, None

    def tell(self, own, line):
        if self.nodes[own] is not None:
            self.nodes[own].stdin.write(line + b"\n")

    def heard(self, own):
        *lines, self.unread[own] = (self.unread[own] + os.read(self.nodes[own].stdout.fileno(), 65536)).split(b"\n")
        for words in (line.split() for line in lines):
            if words[0] == b"send":
                self.tell(int(words[1]), b"deliver " + words[2])
            elif words[0] == b"group":
                self.groups[own] = words[1:]
        if not self.stopped:
            self.go_on()

    def is_group(self, members):
        """Whether these nodes are Normal in one group of just them."""
        first = self.groups[members[0]]
        return first is not None and first[0] == b"Normal" and first[3] == ",".join(map(str, members)).encode() and all(self.groups[own] == first for own in members)

    def go_on(self):
        alive = [own for own in range(NODES) if own != self.dead]
        if not self.is_group(alive):
            return
        name = list(STEPS)[self.step]
        self.times[name], self.step = (time.monotonic() - self.begun, self.late), self.step + 1
        if self.step == len(STEPS):
            self.stop()
        elif self.step == 1:
            self.dead = int(self.groups[0][1])
            self.kill(self.dead)
        else:
            self.start(self.dead)
            self.dead = None
        self.begun, self.late = time.monotonic(), 0.0

    def took(self, name):
        """How long a step took, and how long it may have taken."""
        seconds, late = self.times.get(name, (float("inf"), 0.0))
        return seconds, STEPS[name] * ROUND_TRIP + MORE * self.sync / 1000 + 2 * late

    def is_late(self):
        return any(most < seconds for seconds, most in map(self.took, STEPS))

    def stop(self):
        self.stopped = True
        for own in range(NODES):
            if self.nodes[own] is not None:
                self.kill(own)


def play(clusters, look, until):
    """Until all have come to their end, or that time."""
    ticked = 0.0
    for cluster in clusters:
        cluster.begin()
    while not all(cluster.stopped for cluster in clusters) and time.monotonic() < until:
        now = time.monotonic()
        if now - ticked >= TICK:
            late, ticked = max(0.0, now - ticked - 2 * TICK) if ticked else 0.0, now
            for cluster in clusters:
                cluster.late += late
                for own in range(NODES):
                    cluster.tell(own, b"tick %d" % (now * 1000))
        for key, _ in look.select(max(0.0, ticked + TICK - time.monotonic())):
            cluster, own = key.data
            if cluster.nodes[own] is not None and cluster.nodes[own].stdout is key.fileobj:
                cluster.heard(own)
    for cluster in clusters:
        if not cluster.stopped:
            cluster.stop()


def main():
    invite, tally = program.named(), Tally()
    starts = int(sys.argv[2]) if sys.argv[2:] else 2
    syncs = [int(word) for word in sys.argv[3:]] or [0, 20, 50, 100, 200]
    program.compiler("no disk was slow")
    # in memory, where that can be: a sync takes what it is told to take
    with tempfile.TemporaryDirectory(dir=program.MEMORY) as folder:
        library, look = program.library("slow_sync", folder), selectors.DefaultSelector()
        made = iter(range(1 << 62))
        new = lambda sync: Cluster(invite, os.path.join(folder, f"{sync}-{next(made)}"), sync, library, look)
        longest = sum(STEPS.values()) * ROUND_TRIP + len(STEPS) * MORE * max(syncs) / 1000 + 5
        clusters = [new(sync) for sync in syncs for at in range(starts)]
        for at in range(0, len(clusters), AT_ONCE):
            play(clusters[at:at + AT_ONCE], look, time.monotonic() + 5 * longest)
        for at, cluster in enumerate(clusters):
            for _ in range(AGAIN):
                if clusters[at].is_late():
                    print(f"played again: {cluster.sync} ms a sync: {clusters[at].times}", flush=True)
                    clusters[at] = new(cluster.sync)
                    play([clusters[at]], look, time.monotonic() + 5 * longest)
        for sync in syncs:
            for name in STEPS:
                took = [cluster.took(name) for cluster in clusters if cluster.sync == sync]
                times = [seconds for seconds, _ in took]
                for seconds, most in took:
                    tally.check(seconds <= most, f"{name}, {sync} ms a sync: {seconds} s, of at most {most}")
                if sys.argv[2:]:
                    limit = STEPS[name] * ROUND_TRIP + MORE * sync / 1000
                    print(f"{sync:4} ms a sync, {name}: {min(times):.2f} to {max(times):.2f} s, median {statistics.median(times):.2f}; at most {limit:.2f}")
    return tally.close()


if __name__ == "__main__":
    sys.exit(main())
