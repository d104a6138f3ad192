#!/usr/bin/env python3
"""Leases: the command of the one leader, and locks, under faults.

    leases.py PROGRAM [--faults N] [--only KIND..] [--jobs N] [--trace SECONDS]

Three agents with leases, at each `dumgerokctl lead`, or `own` of 64 shards. Each kind of fault befalls the leader N times; commands of two machines never run at a time, by a clock
that none of them reads, epochs rise, and nobody leads for 3 s at most. With a clock that is out of its bounds two are seen to lead: so the test can fail.
`shards`: a machine goes and comes N times, once all three vote on all leases; no shard pauses but those that move. `hurried`: one goes as soon as the one before has
its shards again, and doesn't vote yet: others pause, too. --trace tells of each shard that paused for so long what became of its lease meanwhile.
"""
import argparse, collections, concurrent.futures, glob, os, signal, statistics, subprocess, sys, tempfile, time, traceback

HERE = os.path.dirname(os.path.abspath(__file__))
sys.path[:0] = [HERE]
from bed import MEMORY, Agents, Direct, Relay, is_there
from beats import GAP, Leads, ShardSpans, beats, clock, overlap, running, runs, spans
from lease_events import LeaseEvents

LEASE_MS = 2000
# Nobody leads for so long at most, at round trips of 20 ms, and a busy machine adds this.
NOBODY, MORE = 3.0, 1.0
# So many shards. Those that move pause, and one in so many more: whose command the machine kept from its turn for a tenth of a second counts, too.
SHARDS, KEPT_FROM_A_TURN = 64, 12
# Who began anew grants nothing for the time of a lease, and is asked for each renewal within a third of it: then all three vote on all leases.
ALL_VOTE = 1.5
# What a millionth of a clock's rate is, of right clocks, of those at their bounds, and of one out of them.
RIGHT, FAST, SLOW, OUT = 1_000_000, 1_031_250, 968_750, 700_000


def children(pid):
    with open("/proc/%d/task/%d/children" % (pid, pid)) as file:
        return [int(word) for word in file.read().split()]


def descendants(pid):
    found = [pid]
    for parent in found:
        for path in glob.glob("/proc/%d/task/*/children" % parent):
            with open(path) as file:
                found += [int(word) for word in file.read().split()]
    return found


def words_of(pid):
    with open("/proc/%d/cmdline" % pid) as file:
        return file.read().split("\0")


def process(agents, i, word):
    """The process `invite WORD` of agent i."""
    return next(pid for pid in children(agents.processes[i].pid) if word in words_of(pid)[:3])


class Cluster:
    """Three agents with leases and a `lead` at each; the clock of each machine has a rate."""

    def __init__(self, program, programs, folder, rates=(RIGHT,) * 3, words=("lead",), of=None, count=3, delay=(0.0, 0.0), key=None, lines=None, lease_ms=LEASE_MS, relay=None):
        self.relay = relay or Relay(count)
        self.relay.delay = delay
        settings = dict(record=None, lease_ms=lease_ms, round_trip_ms=lease_ms // 100, key=key)
        self.nobody = NOBODY * lease_ms / LEASE_MS
        self.agents = Agents(folder, program, self.relay, os.path.join(programs, "dumgerokd"), os.path.join(programs, "dumgerokctl"), settings, within=MEMORY, lines=lines)
        self.environment = [clock_of(folder, rate) for rate in rates]
        for i in range(count):
            subprocess.run([program, "format", "--lease", self.agents.path(i, "node") + ".lease", str(i)], check=True)
        self.leads = Leads(self.agents, list(words), **({"of": of} if of else {}))

    def start(self):
        for i in range(self.agents.count):
            self.agents.start(i, **self.environment[i])
        self.agents.one_group()
        for i in range(self.agents.count):
            self.lead(i)
        return self

    def lead(self, i):
        self.leads.environment = self.environment[i]
        self.leads.start(i)

    def again(self):
        """`lock` ends with its lock: who wants it again asks again."""
        for i, client in enumerate(self.leads.processes):
            if client and client.poll() is not None:
                self.lead(i)

    def restart(self, i):
        self.agents.start(i, **self.environment[i])

    def stop(self):
        self.leads.stop()
        self.agents.stop()
        self.relay.runs = False


def clock_of(folder, rate):
    """An environment in which CLOCK_BOOTTIME goes at a rate."""
    if rate == RIGHT:
        return {}
    library = os.path.join(folder, "rated_clock.so")
    if not os.path.exists(library):
        subprocess.run(["cc", "-shared", "-fPIC", "-O1", "-o", library, os.path.join(HERE, "rated_clock.c")], check=True)
    return dict(LD_PRELOAD=library, RATE_FROM=str(time.clock_gettime_ns(time.CLOCK_BOOTTIME)), RATE_MILLIONTHS=str(rate))


def send(number):
    """Sends a signal to a process, unless that ended meanwhile."""
    def to(pid):
        if is_there(pid):
            os.kill(pid, number)
    return to


def befall(cluster, kind, leader):
    """A fault; how it is mended."""
    agents, leads, relay = cluster.agents, cluster.leads, cluster.relay
    agent, client = agents.processes[leader].pid, leads.processes[leader]
    if kind == "client stopped":
        client.send_signal(signal.SIGSTOP)
        return lambda: client.send_signal(signal.SIGCONT)
    if kind in ("client killed", "client ended"):
        client.send_signal(signal.SIGKILL if kind == "client killed" else signal.SIGTERM)
        return lambda: (client.wait(), cluster.lead(leader))
    if kind in ("agent killed", "agent ended"):
        agents.kill(leader, signal.SIGKILL if kind == "agent killed" else signal.SIGTERM)
        return lambda: cluster.restart(leader)
    stopped = dict(zip(("agent stopped", "node stopped", "process of leases stopped"), ([agent], *([process(agents, leader, word)] for word in ("node", "lease")))))
    stopped["machine stopped"] = descendants(agent) + descendants(client.pid)
    if kind in stopped:
        list(map(send(signal.SIGSTOP), stopped[kind]))
        return lambda: list(map(send(signal.SIGCONT), stopped[kind]))
    if kind == "process of leases killed":
        os.kill(process(agents, leader, "lease"), signal.SIGKILL)
        return lambda: None
    cuts = {frozenset((leader, j)) for j in range(agents.count) if j != leader}
    relay.cuts |= cuts
    return lambda: relay.cuts.difference_update(cuts)


KINDS = ["client stopped", "client killed", "client ended", "agent stopped", "agent killed", "agent ended", "node stopped", "machine stopped", "cut off",
         "process of leases stopped", "process of leases killed"]


def gap(paths, at):
    """For how long behind a time nobody ran, until somebody did again, or so far; 0 where somebody ran on."""
    rows = sorted(span for path in paths for row in beats(path) for span in spans(row) if span[1] > at)
    if rows and rows[0][0] < at:
        at = rows[0][1]
        rows = [row for row in rows if row[1] > at]
        if not rows:
            so_far = clock() - at
            return so_far if so_far >= GAP else 0.0
    return max(0.0, rows[0][0] - at) if rows else float("inf")


def one_fault(cluster, kind):
    """One fault at the leader; for how long nobody led."""
    leads = cluster.leads
    leader, at = leads.wait_for_leader(), clock()
    mend = befall(cluster, kind, leader)
    time.sleep(cluster.nobody + 0.3)
    # somebody leads again, be it the same one
    leads.wait_for_leader()
    nobody = gap(leads.paths, at)
    mend()
    if "agent" in kind or kind in ("cut off", "machine stopped"):
        cluster.agents.one_group()
    time.sleep(0.7)
    leads.wait_for_leader()
    return nobody


def faults(cluster, kind, count):
    """So many faults of a kind: for how long two led, for how long nobody did each time, and whether epochs rise."""
    nobody = []
    for _ in range(count):
        cluster.again()
        nobody.append(one_fault(cluster, kind))
    return overlap(cluster.leads.paths), nobody, rise(cluster.leads.paths)


def rise(paths):
    """Whether the epochs of commands rise, by when they began; one that is started again by the same lease has the same."""
    rows = sorted((row.times[0], row.epoch, path) for path in paths for row in beats(path))
    return len(rows) > 0 and all(a[1] < b[1] or a[1:] == b[1:] for a, b in zip(rows, rows[1:]))


def programs_of(given):
    return os.environ.get("DUMGEROK_AGENT") or given


def many(program, programs, folder, kind, count, rates=(RIGHT,) * 3, words=("lead",), lease_ms=LEASE_MS):
    cluster = Cluster(program, programs, folder, rates, words, lease_ms=lease_ms)
    try:
        return faults(cluster.start(), kind, count)
    finally:
        cluster.stop()


def owner(shard, members):
    """The member to which a shard falls, by rendezvous hashing with splitmix64."""
    def mixed(of):
        of = (of + 0x9e3779b97f4a7c15) % 2 ** 64
        of = (of ^ of >> 30) * 0xbf58476d1ce4e5b9 % 2 ** 64
        of = (of ^ of >> 27) * 0x94d049bb133111eb % 2 ** 64
        return of ^ of >> 31

    return max(members, key=lambda member: (mixed(shard << 8 | member), member))


def each_runs(paths, of, shards):
    """Whether each shard is run by the one of these to which it falls. Looks take time from those that run."""
    time.sleep(0.1)
    found = {i: running(paths[i]) for i in of}
    return all(shard in found[owner(shard, of)] for shard in range(min(shards, 64)))


def two_at_a_time(found):
    """For how long two ran a shard."""
    return sum(max(0.0, min(a[1], b[1]) - max(a[0], b[0])) for row in found.values() for at, a in enumerate(row) for b in row[at + 1:] if a[2] != b[2])


def hung(program, programs, folder, shards, lease_ms=LEASE_MS):
    """The process of leases of a machine hangs, whose agent goes on: how long until others run its shards, for how long two ran one, and for how
    long the machine stopped an observer at most."""
    cluster = Cluster(program, programs, folder, words=("own", str(shards)), lease_ms=lease_ms, relay=Direct(3))
    paths, rest = cluster.leads.paths, [0, 2]
    try:
        cluster.start()
        cluster.agents.until(lambda: each_runs(paths, range(3), shards))
        mend = befall(cluster, "process of leases stopped", 1)
        try:
            took = cluster.agents.until(lambda: each_runs(paths, rest, shards))
        finally:
            mend()
        cluster.agents.until(lambda: each_runs(paths, range(3), shards))
        return took, two_at_a_time(ShardSpans(paths, shards).look()), cluster.leads.observer.longest()
    finally:
        cluster.stop()


Change = collections.namedtuple("Change", "goes moved paused longest")


def pauses(row, at):
    """For how long nobody ran a shard each time behind this one, by the times in which it was run."""
    behind = [span for span in row if span[1] > at]
    first = [behind[0][0] - at] if behind and behind[0][0] > at else []
    return first + [b[0] - a[1] for a, b in zip(behind, behind[1:])]


def moves(which, shards):
    """How many shards fall to another one where this machine goes or comes."""
    return sum(owner(shard % 64, range(3)) == which for shard in range(shards))


def only_those_that_move(change, shards):
    """Whether shards that move pause alone, where a machine goes each of them: where one comes some may move in less than a tenth of a second."""
    return (change.moved if change.goes else 0) <= change.paused <= change.moved + shards // KEPT_FROM_A_TURN


class Changes:
    """A machine goes and comes, another one each time. Pauses from `trace` seconds on are told."""

    def __init__(self, cluster, shards, trace=None, hurries=False):
        self.cluster, self.shards, self.trace, self.hurries = cluster, shards, trace, hurries
        self.seen, self.events = ShardSpans(cluster.leads.paths, shards), LeaseEvents(cluster.agents) if trace else None
        # when the last one that came votes
        self.vote = 0.0

    def run(self, of):
        self.cluster.agents.until(lambda: each_runs(self.cluster.leads.paths, of, self.shards))

    def change(self, number):
        # the greatest leads, the others are members
        agents, goes, which = self.cluster.agents, number % 2 == 0, (2, 0, 1)[number // 2 % 3]
        time.sleep(0.5 if self.hurries or not goes else max(0.5, self.vote - clock()))
        at, of = clock(), [i for i in range(3) if i != which or not goes]
        if goes:
            agents.kill(which)
        else:
            self.cluster.restart(which)
            self.vote = clock() + ALL_VOTE * agents.settings["lease_ms"] / 1000
        agents.one_group(of)
        self.run(of)
        found = {shard: [pause for pause in pauses(row, at) if pause > GAP] for shard, row in self.seen.look().items()}
        self.tell("change %d, machine %d %s" % (number, which, "goes" if goes else "comes"), found, at)
        return Change(goes, moves(which, self.shards), sum(map(bool, found.values())), max((max(all_of) for all_of in found.values() if all_of), default=0.0))

    def tell(self, name, found, at):
        rows = self.seen.look() if self.trace else {}
        for shard, row in rows.items():
            if max(found[shard], default=0.0) >= self.trace:
                runs_ = "; ".join("%d from %+.2f to %+.2f" % (i, begin - at, end - at) for begin, end, i in row if end > at)
                told = "; ".join(self.events.told("own.%d" % (shard % 64), at))
                print("%s, shard %d paused for %s s: run by %s. Told: %s" % (name, shard, ["%.2f" % pause for pause in found[shard]], runs_, told), flush=True)


def changes(program, programs, folder, count, shards=SHARDS, lease_ms=LEASE_MS, trace=None, hurries=False):
    """So many changes: for how long two ran a shard, what came of each, and for how long the machine stopped an observer at most."""
    cluster = Cluster(program, programs, folder, words=("own", str(shards)), lease_ms=lease_ms, relay=Direct(3))
    cluster.environment = [dict(BEAT_MS="20")] * 3
    all_of = Changes(cluster, shards, trace, hurries)
    try:
        cluster.start()
        all_of.run(range(3))
        rows = [all_of.change(number) for number in range(count)]
        return two_at_a_time(all_of.seen.look()), rows, cluster.leads.observer.longest()
    finally:
        if all_of.events:
            all_of.events.ends = True
        cluster.stop()


def wrong_clock(program, programs, folder, count, rate=OUT, lease_ms=LEASE_MS):
    """The leader's clock is 30 % slow, which is out of its bounds: two are seen to lead, for how long, in one of so many tries."""
    cluster = Cluster(program, programs, folder, (rate, RIGHT, RIGHT), ("lead", "--grace", "0"), lease_ms=lease_ms)
    try:
        [cluster.restart(i) for i in range(3)]
        cluster.agents.one_group()
        cluster.lead(0)
        for _ in range(count):
            cluster.agents.until(lambda: runs(cluster.leads.paths[0]))
            [cluster.lead(i) for i in (1, 2)]
            time.sleep(1)
            mend = befall(cluster, "cut off", 0)
            cluster.leads.wait_for_leader((1, 2))
            time.sleep(cluster.nobody)
            mend()
            for i in (1, 2):
                cluster.leads.processes[i].terminate()
                cluster.leads.processes[i].wait()
            cluster.agents.one_group()
            if overlap(cluster.leads.paths) > 0:
                break
        return overlap(cluster.leads.paths)
    finally:
        cluster.stop()


def of_changes(kind, result, shards, most):
    """Whether changes were as they are to be, and what is told of them."""
    two, rows, stopped = result
    told = "%d changes, two ran a shard for %.2f s" % (len(rows), two)
    for word, goes in (("goes", True), ("comes", False)):
        these = [row for row in rows if row.goes is goes]
        counts, times = ([getattr(row, name) for row in these] for name in ("paused", "longest"))
        told += "; where a machine %s %d to %d of %d pause (%d to %d move), for %.2f s at most, %.2f s in the median of changes, %.2f at least" % (
            word, min(counts), max(counts), shards, min(row.moved for row in these), max(row.moved for row in these), max(times), statistics.median(times), min(times))
    is_so = two == 0 and all(row.longest <= most and (kind == "hurried" or only_those_that_move(row, shards)) for row in rows)
    return is_so, told + "; the machine stopped an observer for %.2f s at most" % stopped


def main():
    words = argparse.ArgumentParser(description=__doc__, formatter_class=argparse.RawDescriptionHelpFormatter)
    words.add_argument("program")
    words.add_argument("--faults", type=int, default=50, metavar="N")
    words.add_argument("--only", nargs="*", default=KINDS + ["clocks at their bounds", "a clock out of them", "shards", "hurried"])
    words.add_argument("--lock", action="store_true", help="faults befall who has a lock by `dumgerokctl lock --wait`, and not who leads")
    words.add_argument("--shards", type=int, default=SHARDS)
    words.add_argument("--lease-ms", type=int, default=LEASE_MS, help="with round trips of a hundredth; all bounds scale with it")
    words.add_argument("--jobs", type=int, default=2, help="so many kinds at a time")
    words.add_argument("--trace", type=float, metavar="SECONDS", help="tells of shards that pause for so long")
    given = words.parse_args()
    program, programs = os.path.abspath(given.program), os.path.abspath(programs_of(os.path.join(HERE, "../target/release")))
    folder, passed, failed = tempfile.mkdtemp(prefix="dumgerok-leases-"), 0, 0
    most, led = NOBODY * given.lease_ms / LEASE_MS + MORE, ("lock", "x", "--wait") if given.lock else ("lead",)

    def play(at, kind):
        place = os.path.join(folder, str(at))
        try:
            if kind == "a clock out of them":
                return wrong_clock(program, programs, place, max(3, given.faults // 10), lease_ms=given.lease_ms)
            if kind in ("shards", "hurried"):
                return changes(program, programs, place, 2 * given.faults, given.shards, given.lease_ms, given.trace, kind == "hurried")
            if kind == "clocks at their bounds":
                return many(program, programs, place, "cut off", given.faults, (SLOW, FAST, RIGHT), led, given.lease_ms)
            return many(program, programs, place, kind, given.faults, words=led, lease_ms=given.lease_ms)
        except Exception:
            traceback.print_exc(limit=-3)
            return None

    with concurrent.futures.ThreadPoolExecutor(given.jobs) as pool:
        playing = [(kind, pool.submit(play, at, kind)) for at, kind in enumerate(given.only)]
        for kind, one in playing:
            result = one.result()
            if kind == "a clock out of them":
                is_right, told = result is not None and result > 0, "two led for %.2f s, as they may" % (result or 0)
            elif result is None:
                is_right, told = False, "it ended early"
            elif kind in ("shards", "hurried"):
                is_right, told = of_changes(kind, result, given.shards, most)
            else:
                two, nobody, epochs_rise = result
                is_right = two == 0 and epochs_rise and max(nobody) <= most
                told = "%d faults; two led for %.2f s; nobody for %.2f s in the median and %.2f s at most; epochs %s" % (
                    len(nobody), two, sorted(nobody)[len(nobody) // 2], max(nobody), "rise" if epochs_rise else "DON'T RISE")
            passed, failed = passed + is_right, failed + (not is_right)
            print("%s%s: %s" % ("" if is_right else "FAILED: ", kind, told), flush=True)
    print("%d passed, %d failed" % (passed, failed))
    sys.exit(0 if passed > 0 and not failed else 1)


if __name__ == "__main__":
    main()
