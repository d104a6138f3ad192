"""Hours of loss, kills and cuts, with jobs that go on."""
import json, os, random, threading, time

from cluster import judged


class Work:
    """Submits jobs at all machines and works on them."""

    def __init__(self, agents, chance):
        self.agents, self.chance = agents, chance
        self.kept, self.given, self.refused, self.worked = set(), set(), 0, 0
        self.surely_refused, self.texts_given = set(), set()
        self.runs, self.lock, self.submits, self.submitting = True, threading.Lock(), True, threading.Lock()
        self.threads = [threading.Thread(target=self.submit, daemon=True)]
        self.threads += [threading.Thread(target=self.take, args=(i,), daemon=True) for i in range(agents.count)]
        for thread in self.threads:
            thread.start()

    def submit(self):
        number = 0
        while self.runs:
            time.sleep(0.05)
            with self.submitting:
                if self.submits:
                    number += 1
                    self.submit_one("job %d" % number)

    def submit_one(self, text):
        answer = self.agents.ask(self.chance.randrange(self.agents.count), do="submit", queue=self.chance.randrange(16), text=text)
        with self.lock:
            if answer and answer["ok"]:
                self.kept.add((answer["origin"], answer["id"]))
            else:
                self.refused += 1
                if answer and not answer.get("may_be_kept"):
                    self.surely_refused.add(text.encode().hex())

    def end_submissions(self):
        """No job is submitted from now on, and none is on its way."""
        with self.submitting:
            self.submits = False

    def take(self, i):
        """Works at one machine; the connection is made anew where the agent was killed."""
        while self.runs:
            try:
                with self.agents.connect(i) as link:
                    link.settimeout(1)
                    self.work(link)
            except (OSError, ValueError, KeyError):
                time.sleep(0.1)

    def work(self, link):
        reader = link.makefile()
        while self.runs:
            link.sendall(b'{"do":"take","wait":true}\n')
            job = self.answer(reader)
            with self.lock:
                self.given.add((job["origin"], job["id"]))
                self.texts_given.add(job["payload"])
            link.sendall(json.dumps(dict(do="finish", origin=job["origin"], id=job["id"])).encode() + b"\n")
            if self.answer(reader)["ok"]:
                with self.lock:
                    self.worked += 1

    def answer(self, reader):
        while True:
            line = json.loads(reader.readline())
            if "ok" in line:
                return line

    def left(self):
        """Jobs that aren't done: each node keeps its own until then."""
        answers = [self.agents.ask(i, do="jobs", limit=0) for i in range(self.agents.count)]
        return sum(answer["total"] if answer and answer["ok"] else 1 for answer in answers)

    def never_given(self):
        with self.lock:
            return self.kept - self.given


class Figures:
    """What agents and nodes take, over the time."""

    def __init__(self, agents):
        self.agents, self.begin, self.rows = agents, time.monotonic(), []
        self.files = self.sizes()

    def sizes(self):
        return [os.path.getsize(self.agents.path(i, "node")) for i in range(self.agents.count)]

    def take(self):
        """A row: of each node kB of the agent, kB of the node's process, and file descriptors of both."""
        row = []
        for i in range(self.agents.count):
            figures, pids = self.agents.figures(i), (self.agents.processes[i].pid, self.agents.node(i))
            row.append((figures["agent"][1], figures["node"][1], sum(len(os.listdir("/proc/%d/fd" % pid)) for pid in pids)))
        self.rows.append((time.monotonic() - self.begin, row))

    def grew(self, node, since):
        """How much the figures of a node that wasn't started anew since then grew: the mean of the last third by that of the first."""
        rows = [row[node] for at, row in self.rows if at >= since]
        third = max(1, len(rows) // 3)
        mean = lambda part, at: sum(row[at] for row in part) / len(part)
        return [mean(rows[-third:], at) - mean(rows[:third], at) for at in range(3)] if rows else [0, 0, 0]

    def greatest(self):
        return [max(figures[at] for _, row in self.rows for figures in row) for at in range(3)]

    def records(self):
        folder = self.agents.folder
        return sum(os.path.getsize(os.path.join(folder, name)) for name in os.listdir(folder) if ".record." in name)


def lasting(bed, seconds, seed):
    """`seconds` of 5 % loss, a kill a minute and a cut every five minutes; shorter ones have them closer together. In the second half node 0 isn't
    killed, so that it is seen whether what it takes grows."""
    agents, chance, tally = bed.agents("hour", loss=0.05, twice=0.02, delay=(0.001, 0.006), seed=seed, slots=4096), random.Random(seed), bed.tally
    pace = min(1.0, seconds / 600)
    agents.start_all()
    agents.one_group()
    work, figures = Work(agents, chance), Figures(agents)
    begin, kills, cuts, half = time.monotonic(), 0, 0, None
    while time.monotonic() - begin < seconds:
        for _ in range(6):
            time.sleep(10 * pace)
            figures.take()
        if half is None and time.monotonic() - begin > seconds / 2:
            half = time.monotonic() - figures.begin
        victim = chance.randrange(agents.count) if half is None else chance.randrange(1, agents.count)
        agents.kill(victim)
        time.sleep(chance.uniform(0, 2))
        agents.start(victim)
        agents.until(lambda: (agents.status(victim) or {}).get("alive"))
        kills += 1
        if kills % 5 == 0:
            cuts += 1
            agents.relay.cuts = {frozenset((victim, other)) for other in range(agents.count) if other != victim}
            time.sleep(20 * pace)
            agents.relay.cuts = set()
    figures.take()
    agents.relay.loss = 0.0
    work.end_submissions()
    agents.one_group()
    agents.until(lambda: work.left() == 0)
    work.runs = False
    greatest, grew = figures.greatest(), figures.grew(0, half or 0.0)
    tally.note("%d s: %d kills, %d cuts, %d datagrams, %d lost; %d jobs kept, %d refused, of these %d surely, %d executions" % (
        time.monotonic() - begin, kills, cuts, agents.relay.carried, agents.relay.lost, len(work.kept), work.refused, len(work.surely_refused), work.worked))
    tally.note("at most: agent %d kB, node %d kB, both %d file descriptors; node 0 in the second half by %+d kB, %+d kB, %+.1f; nodes' files %d kB as at first, records %d kB" % (
        *greatest, *grew, sum(figures.files) / 1000, figures.records() / 1000))
    tally.check("each job that was kept was worked on and is done", len(work.kept) > 0 and not work.never_given(), sorted(work.never_given())[:5])
    tally.check("no job was given that was surely refused", not work.surely_refused & work.texts_given, sorted(work.surely_refused & work.texts_given)[:5])
    # over seconds in place of minutes the first third is that of the beginning
    tally.timed("memory stays flat", grew[0] < 1500 and grew[1] < 1500, (grew, figures.rows))
    tally.check("file descriptors stay few", grew[2] < 8, (grew, figures.rows))
    tally.check("nodes' files keep their size", figures.sizes() == figures.files, (figures.files, figures.sizes()))
    judged(bed, agents, "the lasting run")
