#!/usr/bin/env python3
"""Processes `invite lease` over a network and clocks of lease_cluster.py: who holds a lease, for how long, and under which epoch.

    leases.py PROGRAM [RUNS [SEED]]     random runs, holders whose machines are stopped, and holders whose voters begin anew
    leases.py PROGRAM times [RUNS]      how long an acquisition takes, in round trips, and whether that is too long
    leases.py PROGRAM broken [SETS]     clocks out of their bound: two holders have to be found

A run has three names, and lasts three times as long as a grant is kept. At each of five machines (in every fourth set three) users acquire and release them at
random, while one of five messages is lost, some come twice or are very late, machines are cut off, and processes are killed and begin anew; in every fourth set
messages go under a key. A set of processes bears a hundred runs, side by side and one after another, each with its own names. The last line counts the runs."""
import multiprocessing, os, statistics, sys

sys.dont_write_bytecode = True
sys.path.append(os.path.join(os.path.dirname(os.path.abspath(__file__)), ".."))
from common.program import named
from common.tally import Tally
from lease_cluster import IN_BOUND, KEEPS, TRIP, Cluster, file_of_leases

LEASE = KEEPS * 1000
# Where a holder is gone another one holds the lease behind so many round trips: its voters keep their grants for 100. Where its whole machine is stopped, of three that all
# want it, the two that are left may refuse each other first, and then rest for 16 at most.
REPLACED, STOPPED = 103, 120
SIDE_BY_SIDE, IN_TURN = 25, 4
RUNS_OF_A_SET = SIDE_BY_SIDE * IN_TURN
SETS_AT_A_TIME = 5
IMAGES = []


class Crowd:
    """The users of a set of runs, and what happens to its machines."""

    def __init__(self, program, seed, rates=IN_BOUND):
        self.cluster = Cluster(program, IMAGES[: 3 if seed % 4 == 2 else 5], seed, True, rates, seed % 4 == 3)
        self.draw, self.turn, self.wanted, self.kills, self.cuts = self.cluster.random, 0, {}, 0, 0

    def soon(self, call, *more):
        self.cluster.at(self.cluster.time + self.draw.randrange(LEASE), call, *more)

    def use(self, turn, machine, names):
        """A user wants one of the names of its run, or wants it no more."""
        if turn != self.turn:
            return
        self.soon(self.use, turn, machine, names)
        wanted = self.wanted[machine]
        held = [name for name in names if name in wanted]
        if not machine.process or self.draw.random() < 0.2:
            return
        if held:
            wanted.remove(held[0])
            self.cluster.at(self.cluster.time, machine, b"release %%d %s 1" % held[0])
        else:
            name = self.draw.choice(names)
            wanted.add(name)
            self.cluster.at(self.cluster.time, machine, b"acquire %%d %s 1" % name)

    def harm(self, machine):
        """Its process is killed, or begins anew; or it is cut off for a while."""
        self.soon(self.harm, machine)
        what = self.draw.random()
        if not machine.process:
            machine.start()
            self.cluster.at(self.cluster.time, machine, b"tick %d")
        elif what < 0.06:
            machine.stop()
            self.wanted[machine] = set()
            self.kills += 1
        elif what < 0.12:
            machine.cut_until = self.cluster.time + self.draw.randrange(int(LEASE * 1.5))
            self.cuts += 1

    def steps(self):
        cluster = self.cluster
        self.wanted = {machine: set() for machine in cluster.machines}
        for machine in cluster.machines:
            self.soon(self.harm, machine)
        yield from cluster.steps(LEASE)
        for self.turn in range(1, IN_TURN + 1):
            for run in range(SIDE_BY_SIDE):
                names = [b"%s%d.%d" % (letter, self.turn, run) for letter in (b"a", b"b", b"c")]
                for machine in cluster.machines:
                    self.soon(self.use, self.turn, machine, names)
            yield from cluster.steps(cluster.time + 3 * LEASE)
            for machine, wanted in self.wanted.items():
                for name in sorted(wanted):
                    cluster.at(cluster.time, machine, b"release %%d %s 1" % name)
                wanted.clear()
        cluster.close()


def random_sets(program, seeds, *more):
    """Sets of runs, a step of each in turn. Of each its seed, its flaws, how many leases were acquired, kills, cuts and lines."""
    crowds = {seed: Crowd(program, seed, *more) for seed in seeds}
    going = [crowd.steps() for crowd in crowds.values()]
    while going:
        going = [steps for steps in going if next(steps, "over") != "over"]
    return [(seed, it.cluster.judge.flaws, it.cluster.judge.acquired, it.kills, it.cuts, it.cluster.lines) for seed, it in crowds.items()]


def random_sets_of(words):
    return random_sets(*words)


class Waiting:
    """A cluster whose machines vote, and what is waited for in it."""

    def __init__(self, program, machines, seed):
        self.cluster = Cluster(program, IMAGES[:machines], seed)
        self.machines, self.holder, self.since = self.cluster.machines, {}, {}
        self.cluster.watch = self.see
        self.cluster.run(int(LEASE * 33 / 31) + 2 * TRIP)

    def see(self, machine, name):
        self.holder[name], self.since[name] = machine, self.cluster.time

    def acquire(self, machine, name, pause=0):
        self.cluster.at(self.cluster.time + pause, machine, b"acquire %%d %s 1" % name.encode())

    def until(self, done, trips=1000):
        self.cluster.run(self.cluster.time + trips * TRIP, done)

    def took(self, name, before=None):
        """How long it takes until another one holds it than before, in round trips."""
        begun = self.cluster.time
        self.until(lambda: self.holder.get(name) not in (None, before))
        took = (self.since[name] - begun) / TRIP
        flaws = self.cluster.judge.flaws
        self.cluster.close()
        assert not flaws, flaws
        return took

    def held_by_one_of_two(self):
        """One holds a lease, and another one waits for it."""
        for machine in self.machines[:2]:
            self.acquire(machine, "a")
            self.cluster.run(self.cluster.time + 150 * TRIP)
        return self.holder["a"]


def alone(program, seed):
    """One asks where nobody else does, once it knows of the epochs of all."""
    of = Waiting(program, 3, seed)
    of.acquire(of.machines[0], "warm")
    of.until(lambda: "warm" in of.holder)
    of.acquire(of.machines[0], "a")
    return of.took("a")


def contended(program, seed):
    """Three ask at a time."""
    of = Waiting(program, 5, seed)
    for machine in of.machines[:3]:
        of.acquire(machine, "warm%d" % machine.own)
    of.until(lambda: len(of.holder) == 3)
    for machine in of.machines[:3]:
        of.acquire(machine, "a", of.cluster.random.randrange(TRIP // 2))
    return of.took("a")


def handed_over(program, seed):
    """The holder releases."""
    of = Waiting(program, 3, seed)
    holder = of.held_by_one_of_two()
    of.cluster.at(of.cluster.time, holder, b"release %d a 1")
    return of.took("a", holder)


def replaced(program, seed):
    """The holder dies."""
    of = Waiting(program, 3, seed)
    holder = of.held_by_one_of_two()
    holder.stop()
    return of.took("a", holder)


def stopped(program, seed):
    """All three want it, and ten times the whole machine of the holder is stopped for longer than the others take: the longest time behind a stop."""
    of, longest = Waiting(program, 3, seed), 0
    cluster = of.cluster
    for machine in of.machines:
        of.acquire(machine, "a")
    of.until(lambda: "a" in of.holder)
    for _ in range(10):
        cluster.run(cluster.time + LEASE + cluster.random.randrange(LEASE))
        of.until(lambda: cluster.judge.leases["a"][-1][3] > cluster.time)
        holder, begun = of.machines[cluster.judge.leases["a"][-1][0][0]], cluster.time
        holder.pause()
        of.until(lambda: of.holder["a"] != holder)
        longest = max(longest, (of.since["a"] - begun) / TRIP)
        cluster.run(max(cluster.time, begun + 165 * TRIP))
        holder.go_on()
    flaws = cluster.judge.flaws
    cluster.close()
    assert not flaws, flaws
    return longest


def outlasts(program, seed):
    """A voter of the holder begins anew, and once it votes the other one dies: what is wrong if the holder doesn't keep its lease."""
    of = Waiting(program, 3, seed)
    cluster, (holder, voter, other) = of.cluster, of.machines
    of.acquire(holder, "a")
    of.until(lambda: "a" in of.holder)
    voter.stop()
    voter.start()
    cluster.at(cluster.time, voter, b"tick %d")
    cluster.run(cluster.time + 2 * LEASE)
    other.stop()
    cluster.run(cluster.time + 2 * LEASE)
    judge, last = cluster.judge, cluster.judge.leases["a"][-1]
    flaws = [*judge.flaws, *["it is lost"] * (judge.acquired != 1 or last[3] <= cluster.time), *["its epoch stays"] * (not judge.raised)]
    cluster.close()
    return flaws


# What is measured, and the most round trips that its median, or all, may take.
TIMES = [("alone", alone, 1.5, None), ("three ask at a time", contended, 10, None), ("handed over by a release", handed_over, 10, None),
         ("a dead holder replaced", replaced, None, REPLACED), ("one whose machine is stopped", stopped, None, STOPPED)]


def times(invite, runs=20):
    tally = Tally()
    for what, of, median_most, all_most in TIMES:
        took = sorted(of(invite, seed) for seed in range(runs))
        median, longest = statistics.median(took), took[-1]
        print("%s: median %.1f round trips, 90 of 100 within %.1f, all within %.1f" % (what, median, took[runs * 9 // 10 - 1], longest))
        tally.check(median <= (median_most or longest) and longest <= (all_most or longest), what)
    return tally.close()


def random_runs(invite, runs, first):
    tally = Tally()
    leases = kills = cuts = lines = 0
    seeds = range(first, first + -(-runs // RUNS_OF_A_SET))
    several = [(invite, seeds[at : at + SETS_AT_A_TIME]) for at in range(0, len(seeds), SETS_AT_A_TIME)]
    with multiprocessing.Pool(min(2, os.cpu_count())) as pool:
        for sets in pool.imap_unordered(random_sets_of, several):
            for seed, flaws, acquired, killed, cut, told in sets:
                if flaws:
                    tally.mark("; ".join(flaws[:3]), "set %d" % seed)
                else:
                    tally.add(RUNS_OF_A_SET, 0)
                leases, kills, cuts, lines = leases + acquired, kills + killed, cuts + cut, lines + told
    for seed in range(first, first + 2):
        took = stopped(invite, seed)
        tally.check(took <= STOPPED, "a holder whose machine is stopped is replaced behind %.1f round trips" % took)
        tally.mark("; ".join(outlasts(invite, seed)), "a lease whose voter began anew")
    if leases < tally.passed:
        tally.mark("only %d leases were held" % leases, "all runs")
    print("%d leases were acquired, by %d lines; processes were killed %d times, machines cut off %d times" % (leases, lines, kills, cuts))
    return tally.close()


def main():
    invite = named()
    more = [int(word) for word in sys.argv[2:] if word.isdigit()]
    IMAGES.extend(file_of_leases(invite, own) for own in range(5))
    if sys.argv[2:3] == ["times"]:
        return times(invite, *more)
    if sys.argv[2:3] == ["broken"]:
        sets = more[0] if more else 4
        found = sum(any("two hold" in flaw for flaw in it[1]) for it in random_sets(invite, range(sets), (2**19, 2**21)))
        print("two holders in %d of %d sets" % (found, sets))
        return found == 0
    return random_runs(invite, more[0] if more else 1000, more[1] if len(more) > 1 else 0)


if __name__ == "__main__":
    sys.exit(main())
