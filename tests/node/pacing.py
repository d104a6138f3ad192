#!/usr/bin/env python3
"""Clusters of `invite node` under a clock of this script: when they become one group, and when they give one up.

    pacing.py PROGRAM [SCENE..]
    pacing.py PROGRAM table NODES LOSS SEEDS     a row of the table of TIMERS.md: LOSS in hundredths

Each node is a process over a file of its own. This script carries their messages, each way in a time that it draws, and tells a node the time behind what it is brought, in front of it
where nothing is due, and where it asked to be told: no time goes by but the script's. A node that is stopped does nothing meanwhile; what came for it is brought behind a tick, once it goes on. The
bounds are those of docs/TIMERS.md. The last line counts the checks."""
import heapq, os, random, shutil, statistics, subprocess, sys, tempfile

sys.path.append(os.path.join(os.path.dirname(os.path.abspath(__file__)), ".."))
from common import program
from common.tally import Tally

# how soon three nodes without a coordinator, or without a member, are one group of two, in ms: the round trip as set, the least time of a message, the median and the longest that are allowed
REPLACED = [(20, 9, 900, 1300), (20, 0.1, 600, 950), (5, 2, 500, 700), (100, 45, 2500, 3500)]
DROPPED = [(20, 9, 2500, 3200), (20, 0.1, 2300, 3000)]
# who is stopped for a second every three, the round trip as set, the least time of a message, when that begins, how often it is, and how many groups may be made
STALLS = [("coordinator", 20, 9, range(3000, 4000, 100), 10, 2), ("coordinator", 20, 9, [3000], 80, 2), ("coordinator", 20, 0.1, range(3000, 3500, 100), 6, 2),
          ("coordinator", 5, 2, range(3000, 3500, 100), 5, 2), ("coordinator", 1, 0.1, range(3000, 3200, 100), 3, 2),
          ("member", 20, 9, [3000], 80, 0), ("member", 20, 9, [3200, 3400], 10, 0)]
# for how many round trips a coordinator may list a node that is in another group; links that are dead meanwhile, from L, which led, M, its member, and T, the third
LISTED = 250
CUTS = [("from a coordinator to a member nothing comes", ["LM"]), ("from a member to its coordinator nothing comes", ["ML"]), ("between them nothing comes, and the third starts anew", ["LM", "ML"]), ("from and to a member nothing comes", ["LM", "ML", "MT", "TM"])]


class Node:
    def __init__(self, bed, own):
        self.bed, self.own, self.path, self.process = bed, own, os.path.join(bed.folder, str(own)), None
        program.made(bed.program, self.path, 16, own, bed.nodes)
        self.stopped_until, self.held = 0, []

    def start(self):
        environment = {**os.environ, "LD_PRELOAD": self.bed.still}
        self.process = subprocess.Popen([self.bed.program, "node", self.path, str(self.own), str(self.bed.nodes), str(self.bed.unit)], stdin=subprocess.PIPE, stdout=subprocess.PIPE, env=environment)
        self.group, self.due = None, None
        self.ask("recover")
        self.tick()

    def kill(self):
        if self.process is not None:
            self.process.kill()
            self.process.communicate()
            self.process = None
        self.group, self.due, self.held = None, None, []

    def ask(self, line):
        """One line and its answer."""
        self.process.stdin.write(line.encode() + b"\n")
        self.process.stdin.flush()
        while True:
            words = self.process.stdout.readline().decode().split()
            if words[0] == "send":
                self.bed.send(self.own, int(words[1]), words[2], "tick" in line)
            elif words[0] == "group":
                self.group = words[1:]
                self.bed.noted(self.own)
            elif words[0] == "next":
                self.due = int(words[1])
            elif words[0] in ("ok", "refused", "bad"):
                return
            elif words[0] == "fault":
                raise RuntimeError("a node's device failed")

    def tick(self):
        self.due = None
        self.ask(f"tick {self.bed.now}")
        if self.due is not None:
            self.bed.at(max(self.due, self.bed.now), "tick", self.own, self.due)


class Bed:
    """A cluster. A message takes `way` milliseconds, and up to half of that more."""
    def __init__(self, invite, still, folder, nodes, unit, way, loss=0.0, seed=1):
        self.program, self.still, self.folder, self.nodes, self.unit, self.way, self.loss = invite, still, folder, nodes, unit, way, loss
        self.random, self.now, self.queue, self.count, self.sent, self.groups, self.lost = random.Random(seed), 1000, [], 0, 0, [], lambda a, b: False
        self.node = [Node(self, own) for own in range(nodes)]

    def at(self, time, what, own, data):
        self.count += 1
        heapq.heappush(self.queue, (time, self.count, what, own, data))

    def send(self, sender, receiver, message, again):
        self.sent += 1
        if self.random.random() >= self.loss and not self.lost(sender, receiver):
            self.at(self.now + max(1, round(self.way * self.random.uniform(1, 1.5))), "deliver", receiver, message)

    def noted(self, own):
        group = self.node[own].group
        if group[0] == "Normal" and "," in group[3] and own == int(group[1]):
            self.groups.append((self.now, group[2], group[3]))

    def run(self, until, done=lambda: False):
        """Goes on until this time, or until it is done: then it answers the time that went by."""
        begun = self.now
        while self.queue and self.queue[0][0] <= until:
            time, _, what, own, data = heapq.heappop(self.queue)
            self.now = max(self.now, time)
            node = self.node[own]
            if node.process is None:
                continue
            if node.stopped_until > self.now:
                self.at(node.stopped_until, what, own, data)
            elif what == "deliver":
                if node.due is not None and self.now < node.due:
                    node.tick()
                node.ask(f"deliver {data}")
                node.tick()
            elif data == node.due:
                node.tick()
            if done():
                return self.now - begun
        self.now = max(self.now, until)
        return None

    def stop(self, own, ms):
        """The process is stopped: when it goes on, the first that it does is a look at its timers."""
        node = self.node[own]
        node.stopped_until = self.now + ms
        self.at(node.stopped_until, "tick", own, node.due)

    def is_one(self, members):
        groups = [self.node[own].group for own in members]
        return groups[0] is not None and groups[0][0] == "Normal" and groups[0][3] == ",".join(map(str, members)) and all(group == groups[0] for group in groups)

    def start(self):
        for node in self.node:
            node.start()

    def end(self):
        for node in self.node:
            node.kill()
        shutil.rmtree(self.folder)


class Tried(Tally):
    def __init__(self, invite, folder):
        super().__init__()
        self.program, self.folder, self.beds, self.still = invite, folder, 0, program.library("still_clock", folder)

    def bed(self, nodes, unit, way, **more):
        self.beds += 1
        folder = os.path.join(self.folder, str(self.beds))
        os.mkdir(folder)
        return Bed(self.program, self.still, folder, nodes, unit, way, **more)

    def that(self, good, what):
        """A check, which is told whether it passes or not."""
        if self.check(good, what):
            print(f"pacing.py: {what}", flush=True)


def formed(tried, bed, within, what):
    bed.start()
    took = bed.run(bed.now + 60_000, lambda: bed.is_one(list(range(bed.nodes))))
    tried.that(took is not None and took <= within, f"{what}: one group after {took} ms, {within} allowed")
    return took


def dying(bed, unit):
    """All are one group, and some time goes by."""
    bed.run(bed.now + 60_000, lambda: bed.is_one(list(range(bed.nodes))))
    bed.run(bed.now + bed.random.randrange(70 * unit, 120 * unit))
    return int(bed.node[0].group[1])


def until_one(bed, dead):
    return bed.run(bed.now + 60_000, lambda: bed.is_one([own for own in range(bed.nodes) if own != dead]))


def try_dying(tried, rows, of, what, seeds=10):
    """A node dies at a time that is drawn: how soon the others are one group."""
    for unit, way, median, longest in rows:
        times = []
        for seed in range(seeds):
            bed = tried.bed(3, unit, way, seed=seed)
            bed.start()
            dead = of(dying(bed, unit))
            bed.node[dead].kill()
            times.append(until_one(bed, dead) or 10**6)
            bed.end()
        good = statistics.median(times) <= median and max(times) <= longest
        tried.that(good, f"round trip {2 * way} of {unit} ms: {what} after {sorted(times)} ms, {median} in the median and {longest} allowed")


def try_replaced(tried):
    try_dying(tried, REPLACED, lambda lead: lead, "a dead coordinator is replaced")


def try_dropped(tried):
    try_dying(tried, DROPPED, lambda lead: (lead + 1) % 3, "a dead member's queues have moved")


def try_lead(tried):
    """Members die and come back: the lead stays where it is."""
    for unit, way in ((20, 9), (20, 0.1)):
        moved, backs = 0, []
        for seed in range(10):
            bed = tried.bed(3, unit, way, seed=seed)
            bed.start()
            for dead in (1, 2):
                lead = dying(bed, unit)
                dead = (lead + dead) % 3
                bed.node[dead].kill()
                until_one(bed, dead)
                moved += int(bed.node[lead].group[1]) != lead
                bed.run(bed.now + bed.random.randrange(70 * unit, 120 * unit))
                bed.node[dead].start()
                backs.append(until_one(bed, None) or 10**6)
                moved += int(bed.node[lead].group[1]) != lead
            bed.end()
        tried.that(moved == 0, f"round trip {2 * way} of {unit} ms: the lead moved {moved} times in 20 deaths of a member and 20 returns, 0 allowed")
        tried.that(max(backs) <= 40 * unit, f"round trip {2 * way} of {unit} ms: one that comes back is taken in after {sorted(backs)} ms, {40 * unit} allowed")


def made_in_stalls(tried, who, unit, way, begin, stalls):
    """How many groups are made where the coordinator, or a member, is stopped for a second every three, from so long behind the first group on."""
    bed = tried.bed(3, unit, way, seed=begin)
    bed.start()
    bed.run(bed.now + 60_000, lambda: bed.is_one([0, 1, 2]))
    bed.run(bed.now + begin)
    groups = len(bed.groups)
    for _ in range(stalls):
        first = bed.node[0].group
        lead = int(first[1]) if first and first[0] == "Normal" else 2
        bed.stop(lead if who == "coordinator" else (lead + 1) % 3, 1000)
        bed.run(bed.now + 3000)
    bed.end()
    return len(bed.groups) - groups


def try_stalls(tried):
    """The coordinator, or a member, is stopped: what the first stall teaches is enough for those behind it, whenever it comes."""
    for who, unit, way, begins, stalls, most in STALLS:
        made = [made_in_stalls(tried, who, unit, way, begin, stalls) for begin in begins]
        tried.that(max(made) <= most, f"round trip {2 * way} of {unit} ms: a {who} that is stopped for 1 s of 3, {3 * stalls} s: {made} groups made, {most} allowed")


def lists_a_stranger(bed):
    """Whether a coordinator lists a node that is in another group."""
    groups = [node.group for node in bed.node]
    leading = [group for own, group in enumerate(groups) if group and group[0] == "Normal" and int(group[1]) == own]
    return any(groups[int(member)] is None or groups[int(member)][2] != group[2] for group in leading for member in group[3].split(","))


def longest_listed(bed, until):
    """For how long at a time a coordinator lists a node that is in another group, at most."""
    longest, since = 0, None

    def look():
        nonlocal longest, since
        since = (bed.now if since is None else since) if lists_a_stranger(bed) else None
        longest = max(longest, bed.now - since if since is not None else 0)
    bed.run(until, look)
    return longest


def try_cuts(tried):
    """Links carry nothing, or one way alone: a member that left isn't listed on."""
    for name, links in CUTS:
        worst = []
        for seed in range(5):
            bed = tried.bed(3, 20, 9, seed=seed)
            bed.start()
            lead = dying(bed, bed.unit)
            role = {lead: "L", (lead + 1) % 3: "M", (lead + 2) % 3: "T"}
            bed.lost = lambda sender, receiver: role[sender] + role[receiver] in links
            if "anew" in name:
                bed.node[(lead + 2) % 3].kill()
                bed.node[(lead + 2) % 3].start()
            worst.append(longest_listed(bed, bed.now + 1500 * bed.unit))
            bed.end()
        tried.that(max(worst) <= LISTED * 20, f"{name}: one that left is listed for {sorted(worst)} ms, {LISTED * 20} allowed")


def try_storm(tried):
    """Twenty nodes whose answers take ten times as long as was said: they learn that, and become one group."""
    bed = tried.bed(20, 20, 200)
    took = formed(tried, bed, 20_000, "20 nodes, answers after 400 to 600 ms")
    tried.that(took is not None, f"they sent {bed.sent} messages until then")
    bed.end()


def life(bed):
    """A cluster comes up within 10 round trips, rests for 200, loses its coordinator, has it back, and loses a member; messages are counted while it rests."""
    begun, times = bed.now, {}
    for at, own in sorted((bed.random.randrange(10 * bed.unit), own) for own in range(bed.nodes)):
        bed.run(begun + at)
        bed.node[own].start()
    until_one(bed, None)
    times["until one group"] = bed.now - begun
    sent, groups = bed.sent, len(bed.groups)
    bed.run(bed.now + 200 * bed.unit)
    times["messages in 200 round trips"], times["groups made in these"] = bed.sent - sent, len(bed.groups) - groups
    lead = dying(bed, bed.unit)
    bed.node[lead].kill()
    times["coordinator replaced"] = until_one(bed, lead)
    bed.node[lead].start()
    times["taken back"] = until_one(bed, None)
    dead = (dying(bed, bed.unit) + 1) % bed.nodes
    bed.node[dead].kill()
    times["queues of a member moved"] = until_one(bed, dead)
    bed.end()
    return times


def table(tried, nodes, loss, seeds):
    lives = [life(tried.bed(nodes, 20, 6, loss=loss / 100, seed=seed)) for seed in range(seeds)]
    for what in lives[0]:
        found = sorted(each[what] if each[what] is not None else 10**6 for each in lives)
        tried.that(found[-1] < 10**6, f"{nodes} nodes, {loss} % lost: {what}: {statistics.median(found):.0f} in the median, {found[-1]} at most")


SCENES = {"replaced": try_replaced, "dropped": try_dropped, "lead": try_lead, "stalls": try_stalls, "cuts": try_cuts, "storm": try_storm}


def main():
    invite = program.named()
    program.compiler("no cluster was tried")
    with tempfile.TemporaryDirectory() as folder:
        tried = Tried(invite, folder)
        if sys.argv[2:3] == ["table"]:
            table(tried, *map(int, sys.argv[3:]))
        for name in [] if sys.argv[2:3] == ["table"] else sys.argv[2:] or SCENES:
            SCENES[name](tried)
    return tried.close()


if __name__ == "__main__":
    sys.exit(main())
