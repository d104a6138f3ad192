"""Machines that are drained, and a rolling restart under load."""
import os, signal, subprocess, threading, time

import dumgerok, leases, services
from beats import Leads, beats, clock, overlap
from bed import PATIENCE
from cluster import judged, metric

# Submissions a second over all machines
RATE = 50


def drain(agents, i, *words):
    return subprocess.Popen([agents.ctl_path, "-s", agents.path(i, "sock"), "drain", *words], stdout=subprocess.PIPE, stderr=subprocess.PIPE, text=True)


def drained(bed):
    """New jobs are kept elsewhere, and the command ends once no job is kept."""
    agents, check, timed = bed.agents("drained", count=3, key=bed.key("ab")), bed.tally.check, bed.tally.timed
    agents.start_all()
    agents.one_group()
    leads = agents.status(0)["coordinator"]
    old = agents.ask(leads, do="submit", queue=1, text="old")
    if not timed("a coordinator keeps jobs", old["ok"] and old["origin"] == leads, old):
        return
    begin, _ = time.monotonic(), agents.ask(leads, do="drain")
    first, still_leads = agents.ask(leads, do="submit", queue=3, text="first"), agents.status(leads)["is_coordinator"]
    timed("a job is kept elsewhere at once", first["ok"] and first["origin"] != leads, first)
    timed("before another one leads", still_leads, time.monotonic() - begin)
    waiting = drain(agents, leads)
    agents.until(lambda: not agents.status(leads)["is_coordinator"] and agents.is_one_group(range(3)))
    took, changes = time.monotonic() - begin, metric(agents, leads, "groups_total")
    bed.tally.note("another one leads %.2f s behind `drain`" % took)
    timed("another one leads soon", took < 0.5 + 25 * bed.round_trip / 1000, took)
    answers = [agents.ask(i, do="submit", queue=2, text="new %d" % i) for i in range(3)]
    check("new jobs are kept elsewhere, whoever is asked", all(one.get("origin") != leads for one in answers), answers)
    timed("and are kept", all(one["ok"] for one in answers), answers)
    time.sleep(1.5)
    check("and it is waited for the old ones", waiting.poll() is None and agents.status(leads)["pending"] == 1 and agents.status(leads)["draining"])
    timed("it goes on as a member", agents.is_one_group(range(3)) and metric(agents, leads, "groups_total") == changes, agents.groups())
    late = agents.ctl(leads, "drain", "--wait", "0.3")
    check("for so long at most: 9", late.returncode == 9 and "it keeps 1 jobs that aren't done" in late.stderr, late)
    owner = next(i for i in range(3) if 1 in agents.status(i)["queues"])
    done = agents.ctl(owner, "take", "--queue", "1", "--once", "--", "true")
    said = waiting.communicate(timeout=PATIENCE)
    check("it ends once they are done: 0", waiting.returncode == 0 and done.returncode == 0 and said[0] == "node %d keeps no job\n" % leads, said)
    alone(bed, agents, leads)
    agents.stop()
    judged(bed, agents, "drained machines", are_sealed=True)


def handed_back(bed):
    """A machine that is drained gives back the leases of its commands: each is asked to end first, and another machine has them before their time is over."""
    if not services.has_leases(bed):
        return
    check, shards = bed.tally.check, 6
    cluster = leases.Cluster(bed.program, bed.programs, os.path.join(bed.folder, "handed"), lease_ms=100 * bed.round_trip)
    agents, lead = cluster.agents, cluster.leads
    bed.started.append(agents)
    owns = Leads(agents, ["own", str(shards)])
    asked = agents.path(0, "asked")
    try:
        cluster.start()
        owns.start_all()
        leader = lead.wait_for_leader()
        command = "trap 'echo asked > %s; exit 0' TERM; echo begun > %s.begun; while :; do sleep 0.01; done" % (asked, asked)
        lock = subprocess.Popen([agents.ctl_path, "-s", agents.path(leader, "sock"), "lock", "db", "--wait", "--", "sh", "-c", command], stderr=subprocess.PIPE, text=True)
        run = lambda of: {row.shard for i in of for row in beats(owns.paths[i]) if clock() - row.times[-1] < 0.2}
        agents.until(lambda: run(range(3)) == set(range(shards)) and os.path.exists(asked + ".begun"))
        at, others = clock(), [i for i in range(3) if i != leader]
        done = agents.ctl(leader, "drain", "--wait", "60")
        took = clock() - at
        bed.tally.timed("a machine with leases is drained, and has none then: 0", done.returncode == 0 and agents.ask(leader, do="leases")["leases"] == [], done)
        said = lock.communicate(timeout=PATIENCE)[1]
        check("that the command of a lock ends is said: 1", lock.returncode == 1 and "this machine is drained" in said, said)
        # one that a busy machine gives no turn is killed at the end of its grace
        bed.tally.timed("it is asked to", os.path.exists(asked))
        other = lead.wait_for_leader(others)
        began = beats(lead.paths[other])[-1].times[0]
        bed.tally.timed("another one leads before the lease would be over", began - at < 0.9 * cluster.agents.settings["lease_ms"] / 1000, began - at)
        bed.tally.note("drained of its leases in %.2f s, another leads after %.2f s" % (took, began - at))
        agents.until(lambda: run(others) == set(range(shards)) and not run([leader]))
        bed.tally.timed("shards go to the machines that aren't drained", agents.status(other)["drained"] == [leader], agents.status(other)["drained"])
        refused = agents.ctl(leader, "lock", "db", "--", "true")
        check("there is no lock to be had at a machine that is drained", refused.returncode == 1 and "Draining" in refused.stderr, refused)
        two = overlap(lead.paths) + sum(overlap(owns.paths, shard) for shard in range(shards))
        lead.judge(bed.tally)("and at no time two had a lease", two == 0, two)
        agents.ctl(leader, "drain", "--off")
        agents.until(lambda: run([leader]))
        check("once it isn't drained any more its shards come back", True)
    finally:
        owns.stop()
        cluster.stop()


def alone(bed, agents, first):
    """Where each machine is drained no job is kept, and a restart or a word ends that."""
    check, others = bed.tally.check, [i for i in range(3) if i != first]
    for i in others:
        agents.ask(i, do="drain")
    agents.until(lambda: not any((agents.status(i) or {}).get("is_coordinator") and len(agents.status(i)["members"]) > 1 for i in range(3)))
    answer = agents.ask(first, do="submit", queue=2, text="nowhere")
    check("where all machines are drained none keeps a job", not answer["ok"], answer)
    # in a group that is being made it has another reason
    bed.tally.timed("which is said, and is sure", answer.get("error") == "Draining" and "may_be_kept" not in answer, answer)
    check("`drain --off` has it kept here", agents.ctl(others[0], "drain", "--off").returncode == 0 and not agents.status(others[0])["draining"])
    agents.kill(first, signal.SIGTERM)
    agents.start(first)
    agents.until(lambda: (agents.status(first) or {}).get("alive"))
    check("and a restart", not agents.status(first)["draining"])
    agents.until(lambda: (agents.ask(others[1], do="submit", queue=2, text="here") or {}).get("ok"))


class Load:
    """Submitters at each machine, so many a second together, and workers. Where an agent ends a submission is made again at the next machine, under its key."""

    def __init__(self, agents):
        self.agents, self.ends, self.is_all, self.lock = agents, False, False, threading.Lock()
        self.waits, self.refused, self.kept, self.done = [], [], set(), set()
        self.submitters, self.workers = ([threading.Thread(target=call, args=(i,), daemon=True) for i in range(agents.count)] for call in (self.submit, self.work))
        for thread in self.submitters + self.workers:
            thread.start()

    def client(self, i, patience=0.0):
        return dumgerok.Agent(self.agents.path(i % self.agents.count, "sock"), patience)

    def submit(self, i):
        turn = 0
        while not self.ends:
            begin, turn = time.monotonic(), turn + 1
            self.submit_one(i, "%d of %d" % (turn, i), begin)
            time.sleep(max(0.0, begin + self.agents.count / RATE - time.monotonic()))

    def submit_one(self, i, text, begin):
        at = i
        while time.monotonic() - begin < PATIENCE:
            try:
                job = self.client(at).submit(turn_of(text), text, key=text)
                with self.lock:
                    self.kept.add(job)
                    self.waits.append(time.monotonic() - begin)
                return
            except dumgerok.Refused as why:
                with self.lock:
                    self.refused.append(str(why))
            except dumgerok.Error:
                at += 1
                time.sleep(0.01)

    def work(self, i):
        def note(job):
            with self.lock:
                self.done.add((job.origin, job.id))
        self.client(i, PATIENCE).work(note, until=lambda: self.is_all and self.is_done())

    def is_done(self):
        with self.lock:
            return self.kept <= self.done

    def end(self):
        """Whether all that was submitted is answered, and then worked on."""
        self.ends = True
        for thread in self.submitters:
            thread.join(PATIENCE)
        self.is_all = True
        for thread in self.workers:
            thread.join(PATIENCE)
        return not any(thread.is_alive() for thread in self.submitters + self.workers)


def turn_of(text):
    return int(text.split()[0]) % 16


def rolling(bed, rounds=1):
    """Each machine is drained, ended and started anew, under load, in so many rounds."""
    agents, tally = bed.agents("rolling", count=3, slots=1024, record=None), bed.tally
    agents.start_all()
    agents.one_group()
    load = Load(agents)
    agents.until(lambda: len(load.waits) > 20)
    for i in list(range(3)) * rounds:
        done = agents.ctl(i, "drain", "--wait", "60")
        tally.timed("a machine is drained under load", done.returncode == 0, done)
        agents.kill(i, signal.SIGTERM)
        agents.start(i)
        agents.one_group()
    tally.check("all jobs are done", load.end() and load.is_done(), len(load.kept - load.done))
    tally.note("%d submissions over a rolling restart, the longest wait %.2f s" % (len(load.waits), max(load.waits)))
    tally.check("no submission is refused", not load.refused, load.refused[:3])
    tally.timed("and none waits for longer than a second", max(load.waits) < max(1.0, 50 * bed.round_trip / 1000), sorted(load.waits)[-5:])
    agents.stop()
