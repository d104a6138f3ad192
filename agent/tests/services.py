"""Services that run where the node leads or owns: `dumgerokctl lead`, `own` and `on-change`, without leases, and with some."""
import json, os, random, shutil, signal, subprocess, time

import leases
from bed import PATIENCE
from beats import GAP, Leads, beats, clock, family, last, overlap, runs
from machine import Notices

ROOT = os.path.dirname(os.path.dirname(os.path.dirname(os.path.abspath(__file__))))

# COMMAND is gone so long behind the last word of the agent at most, and behind the end of who started it.
WITHIN, GRACE = 2.0, 0.3
# What a busy machine takes on top.
MORE = 0.5


def ran_on(bed, leads, i, name, at, most):
    """How long a command ran on behind a fault, with all that it started."""
    time.sleep(most + MORE)
    bed.tally.timed("%s: its command is gone with all that it started" % name, last(leads.paths[i]) - at < most + MORE, last(leads.paths[i]) - at)


def led(bed):
    """The command of the leader: what befalls its client and its agent ends it in time, with all that it started."""
    # a group that a busy machine changes has another leader
    agents, check, timed = bed.agents("led"), bed.tally.check, bed.tally.timed
    agents.start_all()
    agents.one_group()
    leads = Leads(agents, ["lead", "--majority"], family)
    leads.start_all()
    try:
        leader = leads.wait_for_leader()
        status = agents.status(leader)
        timed("it runs where the node leads", status["is_coordinator"])
        agents.until(lambda: len(beats(leads.paths[leader])) == 3)
        first = beats(leads.paths[leader])[0]
        timed("it knows its group and the members", (first.group, first.members, first.epoch) == (status["group"], "0,1,2", None), first[2:])
        others = [i for i in range(3) if i != leader]
        timed("and nowhere else", not any(beats(leads.paths[i]) for i in others))
        for name, number, most in (("a client that stopped", signal.SIGSTOP, WITHIN), ("one that was killed", signal.SIGKILL, GRACE), ("one that was asked to end", signal.SIGTERM, GRACE)):
            at = clock()
            leads.processes[leader].send_signal(number)
            ran_on(bed, leads, leader, name, at, most)
            leads.processes[leader].send_signal(signal.SIGCONT)
            if number != signal.SIGSTOP:
                leads.processes[leader].wait()
                leads.start(leader)
            agents.until(lambda: runs(leads.paths[leader]))
            check("%s: it runs again" % name, True)
        at = clock()
        os.kill(agents.processes[leader].pid, signal.SIGSTOP)
        ran_on(bed, leads, leader, "an agent that stopped", at, WITHIN)
        check("another one leads", leads.wait_for_leader(others) in others)
        os.kill(agents.processes[leader].pid, signal.SIGCONT)
        agents.one_group()
        # the group may come to be another one a moment later
        agents.until(lambda: leads.leader() is not None and agents.status(leads.leader())["is_coordinator"])
        check("once they are one group again its coordinator leads", True)
    finally:
        leads.stop()


def restarted(bed):
    """A command that ends is started again, later each time; one that can't be run is said at once."""
    agents, check = bed.agents("restarted", count=1), bed.tally.check
    agents.start(0)
    agents.one_group()
    words, path = [agents.ctl_path, "-s", agents.path(0, "sock"), "lead", "--majority"], agents.path(0, "times")
    process = subprocess.Popen(words + ["--", "sh", "-c", 'date +%s.%N >> "$0"; exit 7', path], stderr=subprocess.PIPE, text=True)
    lines = lambda: open(path).read().split("\n")[:-1] if os.path.exists(path) else []
    agents.until(lambda: len(lines()) >= 3)
    process.terminate()
    why, times = process.communicate()[1], [float(line) for line in lines()]
    pauses = [b - a for a, b in zip(times, times[1:])]
    bed.tally.timed("a command that ends starts again half a second later, and then a second", len(pauses) >= 2 and 0.5 <= pauses[0] < 0.9 and 1.0 <= pauses[1] < 1.5, pauses)
    check("that is said", "the command ended (exit status: 7), it starts again in 500 ms" in why, why)
    check("the signal ends it", process.returncode == -signal.SIGTERM, process.returncode)
    done = subprocess.run(words + ["--", "no-such-command"], capture_output=True, text=True)
    check("a command that isn't there: 2", done.returncode == 2 and "no-such-command: there is no such program in PATH" in done.stderr, done)
    done = subprocess.run(words + ["--grace", "1500", "--", "true"], capture_output=True, text=True)
    check("a grace that leaves no time to run: 2", done.returncode == 2 and "--grace 1500: it is at most half" in done.stderr, done)
    done = subprocess.run(words[:-2] + ["lock", "a", "--", "true"], capture_output=True, text=True)
    check("a lock where there are no leases: 1", done.returncode == 1 and "this agent has no leases" in done.stderr, done)


def owned(bed):
    """Shards: each is run by one member, and only those of a member that goes move."""
    # a group that a busy machine changes has other owners for a while
    shards, agents, timed = 16, bed.agents("owned"), bed.tally.timed
    agents.start_all()
    agents.one_group()
    owns = Leads(agents, ["own", str(shards), "--majority"])
    owns.start_all()

    def owners(among):
        return {row.shard: i for i in among for row in beats(owns.paths[i]) if clock() - row.times[-1] < 0.2}

    def all_owned(among):
        """Waits until each shard has an owner; these."""
        seen = []
        agents.until(lambda: seen.append(owners(among)) or len(seen[-1]) == shards)
        return seen[-1]

    try:
        before = all_owned(range(3))
        timed("each machine owns some", set(before.values()) == {0, 1, 2}, before)
        away = next(i for i in range(3) if not agents.status(i)["is_coordinator"])
        rest = [i for i in range(3) if i != away]
        agents.kill(away)
        agents.one_group(rest)
        behind = all_owned(rest)
        moved = [shard for shard in range(shards) if before[shard] != behind[shard]]
        timed("of a machine that goes its own shards move, and no others", moved == [shard for shard in range(shards) if before[shard] == away], (before, behind))
        kept = [row for i in rest for row in beats(owns.paths[i]) if row.shard not in moved]
        timed("those that stay were started once", len(kept) == shards - len(moved), [(row.shard, len(row.times)) for row in kept])
    finally:
        owns.stop()


def told_of_changes(bed):
    """`on-change` runs its command for each change, one at a time."""
    agents, check = bed.agents("changes", count=2), bed.tally.check
    agents.start_all()
    agents.one_group()
    path = agents.path(0, "changes")
    script = 'printf "%%s %%s %%s %%s %%s %%s %%s\\n" $DUMGEROK_NODE $DUMGEROK_PHASE $DUMGEROK_GROUP "${DUMGEROK_MEMBERS:--}" $DUMGEROK_LEADS $DUMGEROK_MAJORITY $DUMGEROK_ALIVE >> %s; sleep 0.2' % path
    process = subprocess.Popen([agents.ctl_path, "-s", agents.path(0, "sock"), "on-change", "--", "sh", "-c", script])
    lines = lambda: open(path).read().splitlines() if os.path.exists(path) else []
    try:
        steady, status = bed.tally.steady(agents), agents.status(0)
        agents.until(lambda: lines())
        leads = str(status["is_coordinator"]).lower()
        steady("it is told what is so at first", lines()[0] == "0 Normal %s 0,1 %s true true" % (status["group"], leads), lines())
        agents.kill(1)
        agents.one_group([0])
        group = agents.status(0)["group"]
        agents.until(lambda: lines()[-1] == "0 Normal %s 0 true false true" % group)
        count = len(lines())
        time.sleep(1)
        bed.tally.timed("and each change once", len(lines()) == count <= 6, lines())
    finally:
        process.terminate()
        check("a signal ends it", process.wait(PATIENCE) == -signal.SIGTERM)


def has_leases(bed):
    """Whether the program keeps leases; a program of before is said."""
    done = subprocess.run([bed.program, "lease", "--help"], capture_output=True, text=True)
    has_some = "Usage: invite lease" in done.stdout + done.stderr
    if not has_some:
        bed.tally.left_out("leases", "the program has no command `lease`")
    return has_some


def leased(bed, faults=1):
    """One leader under a lease, over faults of each kind, some of which are drawn where there is one of each; with a clock out of its bounds two are seen."""
    if not has_leases(bed):
        return
    kinds, clocks, check = leases.KINDS, bool(shutil.which("cc")), bed.tally.check
    parts = [[kind] for kind in kinds] if faults > 1 else [random.Random(bed.seed).sample(kinds, 4)]
    for at, part in enumerate(parts):
        rates = (leases.SLOW, leases.FAST, leases.RIGHT) if clocks else (leases.RIGHT,) * 3
        cluster = leases.Cluster(bed.program, bed.programs, os.path.join(bed.folder, "leased%d" % at), rates, lease_ms=100 * bed.round_trip)
        try:
            cluster.start()
            for kind in part:
                nobody = [leases.one_fault(cluster, kind) for _ in range(faults)]
                bed.tally.timed("%s: nobody leads for 150 round trips at most" % kind, max(nobody) <= cluster.nobody, max(nobody))
            two, which = overlap(cluster.leads.paths), ", ".join(part)
            cluster.leads.judge(bed.tally)("never two lead (%s)" % which, two == 0, two)
            check("and epochs rise (%s)" % which, leases.rise(cluster.leads.paths))
        finally:
            cluster.stop()
    if not clocks:
        return bed.tally.left_out("clocks that go wrong", "there is no cc")
    two = leases.wrong_clock(bed.program, bed.programs, os.path.join(bed.folder, "wrong_clock"), 5, lease_ms=100 * bed.round_trip)
    bed.tally.timed("with a clock that is 30 % slow two are seen to lead", two > 0, two)


def shards(bed, changes=4, count=12):
    """Shards under leases, while a machine goes and comes, the one that leads and another one: never two run one, and those that stay go on."""
    if not has_leases(bed):
        return
    for hurries in (False, True):
        folder = os.path.join(bed.folder, "shards%d" % hurries)
        two, rows, stopped = leases.changes(bed.program, bed.programs, folder, changes, count, 100 * bed.round_trip, hurries=hurries)
        never_two(bed, two, stopped)
        for row in rows:
            word = "goes" if row.goes else "comes"
            # where the one before doesn't vote yet leases of the others end, too
            if not hurries:
                bed.tally.timed("where a machine %s shards that move pause, and others go on" % word, leases.only_those_that_move(row, count), row)
            bed.tally.timed("where a machine %s none pauses for longer than 150 round trips" % word, row.longest <= leases.NOBODY * bed.round_trip / 20, row)
    took, two, stopped = leases.hung(bed.program, bed.programs, os.path.join(bed.folder, "hung"), count, 100 * bed.round_trip)
    bed.tally.timed("where the process of leases hangs others have the shards", took <= leases.NOBODY * bed.round_trip / 20 + leases.MORE, took)
    never_two(bed, two, stopped)


def never_two(bed, two, stopped):
    (bed.tally.check if two == 0 or stopped < GAP else bed.tally.timed)("never two run a shard", two == 0, (two, stopped))


def locked(bed):
    """Locks: one after the other, over machines and within one; with a key, and by the lines at the socket."""
    if not has_leases(bed):
        return
    # a lease that a busy machine gives no time to renew is lost, and its command ended
    timed, check = bed.tally.timed, bed.tally.check
    cluster = leases.Cluster(bed.program, bed.programs, os.path.join(bed.folder, "locked"), key=bed.key("cd"), lines=bed.lines, lease_ms=100 * bed.round_trip)
    agents = cluster.agents
    bed.started.append(agents)
    notices = Notices(agents.folder)
    cluster.environment[0], begin = dict(NOTIFY_SOCKET=notices.path), time.monotonic()
    for i in range(3):
        cluster.restart(i)
    check("systemd is told that it is ready", notices.comes("READY=1"))
    timed("no sooner than its machine votes", time.monotonic() - begin > bed.round_trip / 10, time.monotonic() - begin)
    agents.one_group()
    # at their first start they agree on how many vote; who began grants nothing for as long as a lease lasts, whether somebody asked for one meanwhile or not
    time.sleep(bed.round_trip / 20)
    took = agents.until(lambda: agents.ctl(0, "lock", "first", "--wait", "--", "true").returncode == 0)
    timed("and then the first lock is had at once", took < bed.round_trip / 20, took)
    path = os.path.join(bed.folder, "count")
    open(path, "w").write("0")
    script = "n=$(cat %s); sleep 0.05; echo $((n + 1)) > %s; echo $DUMGEROK_EPOCH" % (path, path)
    clients = [subprocess.Popen([agents.ctl_path, "-s", agents.path(at % 3, "sock"), "lock", "count", "--wait", "--", "sh", "-c", script], stdout=subprocess.PIPE, text=True) for at in range(9)]
    epochs = [int(client.communicate(timeout=PATIENCE)[0]) for client in clients]
    timed("nine clients at three machines add one after the other", open(path).read().strip() == "9", open(path).read())
    check("each by an epoch of its own", len(set(epochs)) == 9, epochs)
    for status in (0, 7, 124):
        timed("a command's status is that of the lock", agents.ctl(0, "lock", "a", "--wait", "--", "sh", "-c", "exit %d" % status).returncode == status)
    holder = subprocess.Popen([agents.ctl_path, "-s", agents.path(1, "sock"), "lock", "held", "--wait", "--", "sleep", "1000"])
    agents.until(lambda: agents.ask(1, do="leases")["leases"])
    done = agents.ctl(0, "lock", "held", "--", "true")
    timed("a lock that another has: 1", done.returncode == 1 and "Held: another has the lock held" in done.stderr, done)
    check("dumgerokctl shows it", agents.ctl(1, "leases").stdout.split()[3] == "held", agents.ctl(1, "leases"))
    holder.terminate()
    check("and a signal ends it", holder.wait(PATIENCE) == -signal.SIGTERM)
    the_example(bed, agents)
    at_the_socket(agents, check, timed)


def the_example(bed, agents):
    """examples/lock/add.py under locks; a writer of an earlier lease is refused."""
    script, base = os.path.join(ROOT, "examples/lock/add.py"), os.path.join(bed.folder, "counter.db")
    sums = [agents.ctl(i, "lock", "counter", "--wait", "--", script, base, "5").stdout.strip() for i in range(3)]
    bed.tally.timed("the example adds under locks of three machines", sums == ["5", "10", "15"], sums)
    done = subprocess.run([script, base], env=dict(os.environ, DUMGEROK_EPOCH="1"), capture_output=True, text=True)
    bed.tally.check("and one who comes with an earlier epoch is refused", done.returncode == 1 and "refused: a later lease" in done.stderr, done)


def silent(agents, check, timed):
    """Machine 2 is cut off: its agent answers the others nothing."""
    answer = agents.ask(0, do="silent")
    check("nobody is silent who wasn't asked yet", answer["ok"] and answer["silent"] == [], answer)
    took = agents.until(lambda: agents.ask(2, do="silent") and agents.ask(0, do="silent")["silent"] == [2])
    lease = agents.settings["lease_ms"] / 1000
    timed("who answers nothing for three quarters of a lease is silent", 0.7 * lease < took < lease, took)
    answer = agents.ask(2, do="silent")
    check("one that hears nobody takes nobody for silent", answer["ok"] and answer["silent"] == [], answer)


def at_the_socket(agents, check, timed):
    """A client that speaks for itself. Where a busy machine gives it no turn for long its lease is renewed or lost meanwhile."""
    lease_ms = agents.settings["lease_ms"]
    with agents.connect(2) as link, agents.connect(2) as other, agents.connect(2) as watcher:
        lines, others, watched = link.makefile(), other.makefile(), watcher.makefile()
        ask = lambda to, **request: to.sendall(json.dumps(request).encode() + b"\n")
        ask(watcher, do="watch")
        watched.readline()
        begin = time.clock_gettime(time.CLOCK_BOOTTIME) * 1000
        ask(link, do="acquire", name="own")
        answer = json.loads(lines.readline())
        check("the agent tells its clock", begin - 1 <= answer["now_ms"] <= time.clock_gettime(time.CLOCK_BOOTTIME) * 1000, answer)
        held = json.loads(lines.readline())
        left = held["until_ms"] - time.clock_gettime(time.CLOCK_BOOTTIME) * 1000
        timed("a lease is told with its end", held["event"] == "held" and 0 < left < lease_ms, held)
        said = []
        agents.until(lambda: said.append(json.loads(watched.readline())) or said[-1]["event"] == "lease")
        check("watchers are told of it", (said[-1]["name"], said[-1]["held"]) == ("own", True), said)
        ask(link, do="acquire", name="own")
        check("not twice on a connection", json.loads(lines.readline())["error"] == "Claimed")
        ask(other, do="release", name="own")
        check("nobody gives another's back", json.loads(others.readline())["error"] == "Unclaimed")
        ask(other, do="acquire", name="own")
        check("another one waits", json.loads(others.readline())["ok"])
        # it asks for nothing: the lease goes to the other
        said = [json.loads(lines.readline()) for _ in range(2)]
        agents.until(lambda: said[-1]["event"] == "refused" or said.append(json.loads(lines.readline())))
        check("one that says nothing is told so", said[-1]["why"] == "Silent", said)
        ask(other, do="status")
        next_ = json.loads(others.readline())
        while next_.get("event") != "held":
            ask(other, do="status")
            next_ = json.loads(others.readline())
        last_ = max([held] + [one for one in said if one["event"] == "held"], key=lambda one: one["until_ms"])
        check("and the other has it behind its end, under a greater epoch", time.clock_gettime(time.CLOCK_BOOTTIME) * 1000 >= last_["until_ms"] and next_["epoch"] > held["epoch"], (last_, next_))
        ask(other, do="release", name="own")
        agents.until(lambda: json.loads(others.readline()).get("ok"))
        # a machine that hears nobody has no lease for longer than one lasts
        ask(other, do="acquire", name="own")
        wait_for = lambda event: agents.until(lambda: ask(other, do="status") or json.loads(others.readline()).get("event") == event)
        wait_for("held")
        agents.relay.cuts |= {frozenset((2, i)) for i in range(2)}
        timed("who is cut off is told that its lease is lost", wait_for("lost") < 4 * lease_ms / 1000)
        silent(agents, check, timed)
        agents.relay.cuts.clear()
        agents.until(lambda: agents.ask(0, do="silent")["silent"] == [])
        check("one that answers again isn't silent", True)
