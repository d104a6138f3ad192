#!/usr/bin/env python3
"""`invite format --lease` and `invite lease`, line by line: the rows follow from the rules of leases by hand. A voter keeps a grant for V = 100
round trips (2,000 ms by default), its client relies for H = (31 V - 128) / 33 = 1,874 ms of it from when it asked, a process waits V when it
begins, and its floor is the last epoch of the blocks that were taken before it. Called with the program; its last line counts the checks."""
import os, sys, tempfile

sys.path.append(os.path.join(os.path.dirname(os.path.abspath(__file__)), ".."))
from common import program
from common.tally import Tally

PROGRAM, TALLY = program.named(), Tally()
BLOCK = 2 ** 32
KEPT, RELIES = 2000, 1874


def invite(*words, given=""):
    return program.run(PROGRAM, words, given)


class Process(program.Talk):
    """A process of leases: each line is answered by lines of which the last is `next`."""

    def __init__(self, path, machine, machines=3, *more):
        super().__init__([PROGRAM, "lease", path, str(machine), str(machines), *more], ["next"])
        self.machine, self.first = machine, self.line()

    def ask(self, line):
        *said, last = super().ask(line)
        if last[0] != "next":
            return said + [last]
        self.next = int(last[1]) if len(last) > 1 else None
        return said


class Cluster:
    """Three processes on one clock. Messages go at once, but to those that are cut off."""

    def __init__(self, room, first=100):
        self.paths = ["%s/leases%d" % (room, n) for n in range(3)]
        for n, path in enumerate(self.paths):
            done = invite("format", "--lease", path, str(n), str(first))
            TALLY.check(done.returncode == 0 and not done.stdout and not done.stderr, "format %d" % n, done)
        self.nodes = [Process(path, n) for n, path in enumerate(self.paths)]
        self.cut = set()
        self.told = [[], [], []]  # held and lost of each, with the time

    def line(self, n, now, line):
        """Gives a line to a process, and delivers what it sends, and what is sent on that, at the same time."""
        waiting = [(n, line)]
        while waiting:
            to, text = waiting.pop(0)
            if to in self.cut and text.startswith("deliver"):
                continue
            for words in self.nodes[to].ask(text):
                if words[0] == "send":
                    if to not in self.cut:
                        waiting.append((int(words[1]), "deliver %d %s" % (now, words[2])))
                else:
                    self.told[to].append((now, words))

    def all(self, now):
        for n in range(3):
            self.line(n, now, "tick %d" % now)

    def of(self, n, kind):
        return [(now, words) for now, words in self.told[n] if words[0] == kind]


def begins(room):
    """The number of each process, over the life of a file."""
    path = room + "/begun"
    TALLY.check(invite("format", "--lease", path, "1", "7").returncode == 0, "made")
    for number in (8, 9, 10):
        done = invite("lease", path, "1", "3")
        TALLY.check((done.returncode, done.stdout) == (0, "process %d\n" % number), "begins as %d" % number, done)
    one = Process(path, 1)
    TALLY.check(one.first == ["process", "11"], "begins as 11", one.first)
    other = invite("lease", path, "1", "3")
    TALLY.check(other.returncode == 4 and not other.stdout, "locked", other)
    one.kill()
    two = Process(path, 1)
    TALLY.check(two.first == ["process", "12"], "after kill -9 begins as 12", two.first)
    TALLY.check(two.end() == 0, "ends with its input")


def last_block(room):
    """The last block of epochs is given once."""
    path = room + "/last"
    TALLY.check(invite("format", "--lease", path, "0", str(BLOCK - 2)).returncode == 0, "made")
    done = invite("lease", path, "0", "3")
    TALLY.check((done.returncode, done.stdout) == (0, "process %d\n" % (BLOCK - 1)), "the last block is given", done)
    done = invite("lease", path, "0", "3")
    TALLY.check(done.returncode == 5 and not done.stdout and done.stderr == "invite: %s: no epochs are left\n" % path, "no epochs are left", done)


def kinds(room):
    """A node's file isn't one of leases, and the other way round; nor is what isn't made to its end, or another machine's."""
    leases, node, text = room + "/kind.leases", room + "/kind.node", room + "/kind.text"
    invite("format", "--lease", leases, "2")
    invite("format", node, "4", "0", "3")
    with open(text, "w") as file:
        file.write("a text\n")
    rows = [
        (["lease", node, "0", "3"], 5, "it is the file of node 0 of 3"),
        (["node", leases, "2", "3"], 5, "it is the file of the leases of machine 2"),
        (["lease", leases, "1", "3"], 5, "it is the file of the leases of machine 2"),
        (["lease", text, "1", "3"], 5, "it is no file of leases: it was never formatted, or its end was cut off"),
        (["lease", room + "/none", "1", "3"], 7, "there is no such file or folder: No such file or directory (os error 2)"),
        (["format", "--lease", leases, "2"], 1, "there is something of this name: File exists (os error 17): it is the file of the leases of machine 2"),
    ]
    for words, status, why in rows:
        done = invite(*words)
        TALLY.check(done.returncode == status and not done.stdout and done.stderr == "invite: %s: %s\n" % (words[2] if words[1] == "--lease" else words[1], why), " ".join(words), done)
    with open(leases, "r+b") as file:
        file.truncate(os.path.getsize(leases) - 1)
    done = invite("lease", leases, "2", "3")
    TALLY.check(done.returncode == 5 and "it is no file of leases" in done.stderr, "a label that was cut off", done)
    spoiled = room + "/kind.spoiled"
    invite("format", "--lease", spoiled, "2")
    with open(spoiled, "r+b") as file:
        file.seek(20)
        file.write(b"\x01")
    done = invite("lease", spoiled, "2", "3")
    TALLY.check(done.returncode == 5 and done.stderr == "invite: %s: the body in sector 0 is damaged\n" % spoiled, "a damaged cell", done)


def words(room):
    """What can't be read as a command line."""
    for given in (["format", "--lease", room + "/w"], ["format", "--lease", room + "/w", "128"], ["format", "--lease", room + "/w", "0", "x"],
                  ["format", "--lease", room + "/w", "0", "1", "3"], ["format", "--lease", room + "/w", "0", "--stride", "512"],
                  ["format", room + "/w", "4"], ["lease", room + "/w", "3", "3"], ["lease", room + "/w", "0", "3", "0"],
                  ["lease", room + "/w", "0", "3", "--key", "k"]):
        done = invite(*given)
        TALLY.check(done.returncode == 2 and not os.path.exists(room + "/w"), " ".join(given), done)


def life_of_a_lease(room):
    """Acquired once voters have waited, renewed after a third of H, given up by release, and had by another under a greater epoch."""
    three = Cluster(room)
    TALLY.check(all(p.first == ["process", "101"] for p in three.nodes), "the first line is the number of the process", [p.first for p in three.nodes])
    for n in range(3):
        three.line(n, 1000, "tick 1000")
    three.line(0, 1500, "acquire 1500 backup 7")
    now = 1500
    while now < 1000 + KEPT:
        three.all(now)
        TALLY.check(not three.of(0, "held"), "nobody holds at %d, before voters waited" % now, three.told[0])
        now += 100
    while not three.of(0, "held") and now < 6000:
        three.all(now)
        now += 5
    held = three.of(0, "held")
    TALLY.check(len(held) == 1 and held[0][0] <= 3000 + 8 * 20 + 5, "held soon behind the wait", three.told)
    when, said = held[0]
    epoch, until = int(said[3]), int(said[4])
    TALLY.check(said[1:3] == ["backup", "7"], "held NAME CLIENT", said)
    TALLY.check(epoch >= 101 * BLOCK, "an epoch of the blocks behind the file's number", epoch)
    TALLY.check(until == when + RELIES, "until H behind the request", (when, until))
    three.line(1, now, "acquire %d backup 9" % now)
    end = now + 3 * RELIES
    while now < end:
        three.all(now)
        now += 5
    renewed = three.of(0, "held")
    TALLY.check(not three.of(1, "held"), "one client alone holds it", three.told[1])
    TALLY.check(len(renewed) > 5 and all(int(w[3]) == epoch for _, w in renewed), "renewed by the same epoch", renewed)
    TALLY.check(all(int(b[1][4]) > int(a[1][4]) and b[0] < int(a[1][4]) and int(b[1][4]) <= b[0] + RELIES for a, b in zip(renewed, renewed[1:])),
          "each renewal moves UNTIL to H behind it, before the last one's end", renewed)
    three.line(0, now, "release %d backup 7" % now)
    TALLY.check([w for _, w in three.of(0, "lost")] == [["lost", "backup", str(epoch)]], "lost once", three.told[0])
    at = now
    while not three.of(1, "held") and now < at + KEPT:
        now += 5
        three.all(now)
    other = three.of(1, "held")
    TALLY.check(other and other[0][0] <= at + KEPT and int(other[0][1][3]) > epoch, "the other one gets it, within ten round trips or so", three.told[1])
    # The holder is cut off: it says lost by its UNTIL, and another gets it no sooner.
    epoch = int(other[0][1][3])
    three.cut = {1}
    cut_at = now
    three.line(2, now, "acquire %d backup 3" % now)
    while not three.of(2, "held") and now < cut_at + 3 * KEPT:
        now += 5
        three.all(now)
    until = max(int(w[4]) for _, w in three.of(1, "held"))
    lost = three.of(1, "lost")
    third = three.of(2, "held")
    TALLY.check(lost and until <= lost[0][0] <= until + 5, "a holder that is cut off says lost once its time is over", (until, lost))
    TALLY.check(third and third[0][0] >= until and int(third[0][1][3]) > epoch, "and only then another one holds, under a greater epoch", (until, third))
    TALLY.check(third and third[0][0] <= cut_at + KEPT + 12 * 20 + 5, "within V and some round trips", (cut_at, third))
    for process in three.nodes:
        TALLY.check(process.end() == 0, "ends with its input")


def restart_waits(room):
    """A process that begins anew grants nothing for V, or for the longer time for which one before it kept grants, and no epoch twice."""
    folder = room + "/restart"
    os.mkdir(folder)
    three = Cluster(folder)
    now = 0
    three.line(0, now, "acquire 0 a 1")
    while not three.of(0, "held") and now < 6000:
        now += 5
        three.all(now)
    epoch = int(three.of(0, "held")[0][1][3])
    begun = now
    for n in (0, 1, 2):
        three.nodes[n].kill()
        three.nodes[n] = Process(three.paths[n], n)
        TALLY.check(three.nodes[n].first == ["process", "102"], "one more", three.nodes[n].first)
    three.told = [[], [], []]
    three.line(2, now, "acquire %d a 5" % now)
    while not three.of(2, "held") and now < begun + 3 * KEPT:
        now += 5
        three.all(now)
    held = three.of(2, "held")
    TALLY.check(held and held[0][0] >= begun + KEPT, "held behind the wait", (begun, held))
    TALLY.check(held and int(held[0][1][3]) > epoch and int(held[0][1][3]) >= 102 * BLOCK, "an epoch above all before the kill", (epoch, held))
    for process in three.nodes:
        process.end()


def longer_time_kept(room):
    """The file keeps the greatest time: who begins with a shorter one waits for it."""
    path = room + "/longer"
    invite("format", "--lease", path, "0")
    long = Process(path, 0, 1, "100")  # V of 10,000 ms
    long.ask("tick 0")
    long.kill()
    short = Process(path, 0, 1, "20")
    now, held = 0, []
    while not held and now < 20000:
        held = [w for w in short.ask("acquire 0 a 1" if now == 0 else "tick %d" % now) if w[0] == "held"]
        if not held and now % 1000 == 0 and now:
            held = [w for w in short.ask("acquire %d a 1" % now) if w[0] == "held"]
        now += 50
    TALLY.check(held and 10000 <= now - 50 <= 11500, "waits for the greatest time that was kept", (now, held))
    short.end()


def slow_answers(room):
    """Where messages take six round trips of the setting each way, a lease is had all the same, and its renewals come through."""
    folder = room + "/slow"
    os.mkdir(folder)
    three = Cluster(folder)
    for n in range(3):
        three.line(n, 0, "tick 0")
    taken, under_way = 120, []  # how long a message takes; when each comes, to whom, its line

    def give(n, now, line):
        for words in three.nodes[n].ask(line):
            if words[0] == "send":
                under_way.append((now + taken, int(words[1]), "deliver %d %s" % (now + taken, words[2])))
            else:
                three.told[n].append((now, words))

    begun = KEPT + 5
    for now in range(begun, begun + 10000, 5):
        for message in [m for m in under_way if m[0] <= now]:
            under_way.remove(message)
            give(message[1], now, message[2])
        for n in range(3):
            give(n, now, "acquire %d far 1" % now if (n, now) == (0, begun) else "tick %d" % now)
    held, lost = three.of(0, "held"), three.of(0, "lost")
    TALLY.check(held and held[0][0] <= begun + KEPT, "a lease is had over slow answers, within V", held[:1])
    TALLY.check(held and not lost and int(held[-1][1][4]) > begun + 10000 - 5, "and renewed until the end", (held[-1:], lost))
    for process in three.nodes:
        process.end()


def split_votes(room):
    """Two ask at a time, each has its own machine's vote, and the third is cut off: who asks under the lesser epoch gives up, and the other one holds at once."""
    folder = room + "/split"
    os.mkdir(folder)
    three, now = Cluster(folder), 1001 + KEPT
    three.all(1000)
    three.all(now)
    three.cut = {2}
    asked = [three.nodes[n].ask("acquire %d backup %d" % (now, 7 + n)) for n in (0, 1)]
    TALLY.check([[words[:2] for words in said] for said in asked] == [[["send", "1"], ["send", "2"]], [["send", "0"], ["send", "2"]]], "both ask both others", asked)
    three.line(1, now, "deliver %d %s" % (now, asked[0][0][2]))
    TALLY.check(not three.of(0, "held") and not three.of(1, "held"), "none of them holds by its own vote", three.told)
    three.line(0, now, "deliver %d %s" % (now, asked[1][0][2]))
    TALLY.check([len(three.of(n, "held")) for n in (0, 1)] == [0, 1], "one of them holds behind one exchange", three.told)
    for process in three.nodes:
        process.kill()


def main():
    with tempfile.TemporaryDirectory() as room:
        for part in (begins, last_block, kinds, words, life_of_a_lease, restart_waits, longer_time_kept, slow_answers, split_votes):
            part(room)
    return TALLY.close()


sys.exit(main())
