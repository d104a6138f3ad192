"""Faults of all kinds at once, of agents, nodes, devices, clients and the network's edge, while jobs are submitted and worked on; judged by a model of its own."""
import collections, json, os, random, shutil, signal, socket, threading, time

from bed import HERE, PATIENCE
from cluster import judged
from machine import compiled, wrapped

# Seconds between faults, in the mean.
EVERY = 2.0
FAULTS = ("kill agent", "kill node", "stop node", "stop agent", "stop both", "reload", "failing sync", "clients", "junk", "end")


class Model:
    """What clients were told, and what of it can't be."""

    def __init__(self):
        self.lock, self.violations = threading.Lock(), []
        self.kept, self.refused, self.unsure = {}, set(), set()     # texts: with the job that was named, surely refused, neither
        self.text_of, self.given, self.asked_to_finish = {}, collections.Counter(), set()
        self.leads, self.members, self.owner, self.gone = {}, {}, {}, set()

    def wrong(self, *what):
        if len(self.violations) < 20:
            self.violations.append(what)

    def submitted(self, text, job=None, is_sure=False):
        with self.lock:
            if job:
                self.kept[text] = job
                self.is_of(job, text)
            else:
                (self.refused if is_sure else self.unsure).add(text)

    def is_of(self, job, text):
        """A job is of one text for ever."""
        if self.text_of.setdefault(job, text) != text:
            self.wrong("one number for two jobs", job, self.text_of[job], text)

    def was_given(self, job, text):
        with self.lock:
            self.given[text] += 1
            self.is_of(job, text)

    def finishes(self, job):
        with self.lock:
            self.asked_to_finish.add(job)

    def event(self, node, group, line):
        """A watcher at this node, whose node works in this group, or in none, was told of something."""
        with self.lock:
            job = (line.get("origin"), line.get("id"))
            if line["event"] == "take" and group and self.owner.setdefault((group, job), node) != node:
                self.wrong("two machines work on a job in one group", group, job, self.owner[group, job], node)
            if line["event"] == "gone" and job not in self.asked_to_finish:
                self.wrong("a job is done that nobody finished", job)
            if line["event"] == "gone" and job in self.gone:
                self.wrong("a job is done twice", job)
            if line["event"] == "gone":
                self.gone.add(job)

    def works_in(self, group, coordinator, members):
        with self.lock:
            if self.leads.setdefault(group, coordinator) != coordinator:
                self.wrong("two coordinators of one group", group, self.leads[group], coordinator)
            if self.members.setdefault(group, members) != members:
                self.wrong("two lists of members of one group", group, self.members[group], members)

    def at_the_end(self):
        """No node keeps a job any more: each that was promised was given to somebody, and left because a worker said that it is done."""
        with self.lock:
            for text, job in self.kept.items():
                if not self.given[text]:
                    self.wrong("a job that was kept was given to nobody", text, job)
                if job not in self.asked_to_finish:
                    self.wrong("a job that was kept is gone, and nobody finished it", text, job)
            for text in self.refused & set(self.given):
                self.wrong("a job was given that was surely refused", text)
            return self.violations


class Clients:
    """Three that submit, two workers at each machine of which one job in twenty kills one, and a watcher at each."""

    def __init__(self, agents, model, seed):
        self.agents, self.model, self.runs, self.submits = agents, model, True, True
        every = range(agents.count)
        works = [(self.submit, n, n) for n in range(3)] + [(self.work, i, 10 + 2 * i + n) for i in every for n in range(2)] + [(self.watch, i, 30 + i) for i in every]
        self.threads = [threading.Thread(target=self.again, args=(work, at, random.Random(seed * 100 + salt)), daemon=True) for work, at, salt in works]
        for thread in self.threads:
            thread.start()

    def again(self, work, at, chance):
        while self.runs and (self.submits or work != self.submit):
            try:
                work(at, chance)
            except (OSError, ValueError, KeyError):
                time.sleep(0.1)

    def connected(self, i, seconds):
        link = socket.socket(socket.AF_UNIX, socket.SOCK_STREAM)
        link.settimeout(seconds)
        link.connect(self.agents.path(i, "sock"))
        return link

    def asked(self, link, reader, **request):
        """The answer; what is told in between is passed over."""
        link.sendall(json.dumps(request).encode() + b"\n")
        while True:
            answer = json.loads(reader.readline())
            if "ok" in answer:
                return answer

    def submit(self, n, chance):
        number = 0
        while self.submits:
            time.sleep(chance.expovariate(8))
            number += 1
            text = "%d of %d, %s" % (number, n, chance.random())
            try:
                with self.connected(chance.randrange(self.agents.count), 15) as link:
                    answer = self.asked(link, link.makefile(), do="submit", queue=chance.randrange(16), priority=chance.choice((0, 0, 9)), text=text)
            except (OSError, ValueError):
                self.model.submitted(text)
                continue
            job = (answer["origin"], answer["id"]) if answer["ok"] else None
            self.model.submitted(text, job, not answer.get("may_be_kept"))

    def work(self, i, chance):
        with self.connected(i, 5) as link:
            reader = link.makefile()
            while self.runs:
                answer = self.asked(link, reader, do="take", wait=True)
                if not answer["ok"]:
                    time.sleep(0.2)
                    continue
                job = (answer["origin"], answer["id"])
                self.model.was_given(job, bytes.fromhex(answer["payload"]).decode())
                if chance.random() < 0.05 and self.submits:
                    return
                time.sleep(chance.choice((0, 0, 0.01, 0.1)))
                self.model.finishes(job)
                self.asked(link, reader, do="finish", origin=job[0], id=job[1])

    def watch(self, i, _chance):
        group = None
        with self.connected(i, 5) as link:
            link.sendall(json.dumps(dict(do="watch", every_ms=1000)).encode() + b"\n")
            for line in map(json.loads, link.makefile()):
                if line.get("event") in ("state", "group"):
                    group = line["group"] if line["phase"] == "Normal" else None
                    if group:
                        self.model.works_in(group, line["coordinator"], line["members"])
                elif "event" in line:
                    self.model.event(i, group, line)
                if not self.runs:
                    return

    def stop(self):
        self.runs = False
        for thread in self.threads:
            thread.join(PATIENCE)


class Faults:
    def __init__(self, agents, chance, triggers):
        self.agents, self.chance, self.triggers, self.done = agents, chance, triggers, collections.Counter()
        self.until, self.timers = [None] * agents.count, []

    def later(self, seconds, what):
        timer = threading.Timer(seconds, what)
        timer.start()
        self.timers.append(timer)

    def stop_for(self, pids, longest):
        for pid in pids:
            os.kill(pid, signal.SIGSTOP)
            self.later(self.chance.uniform(0.2, longest), lambda pid=pid: signalled(pid, signal.SIGCONT))

    def start_again(self):
        """Agents that ended are started anew within three seconds."""
        for i, process in enumerate(self.agents.processes):
            if process.poll() is not None and self.until[i] is None:
                self.done["ended with %s" % process.returncode] += 1
                self.until[i] = time.monotonic() + self.chance.uniform(0, 3)
            elif process.poll() is not None and time.monotonic() > self.until[i]:
                self.until[i] = None
                self.agents.start(i)

    def one(self):
        i, fault = self.chance.randrange(self.agents.count), self.chance.choice(FAULTS)
        process = self.agents.processes[i]
        if process.poll() is not None:
            return
        try:
            self.bring(i, fault, process)
            self.done[fault] += 1
        except (OSError, IndexError):
            pass                                                   # the agent, or its node, ended meanwhile

    def bring(self, i, fault, process):
        node, chance = self.agents.node(i), self.chance
        if fault in ("kill agent", "end"):
            process.send_signal(signal.SIGKILL if fault == "kill agent" else signal.SIGTERM)
        elif fault == "kill node":
            os.kill(node, signal.SIGKILL)
        elif fault.startswith("stop"):
            self.stop_for(dict(node=[node], agent=[process.pid], both=[process.pid, node])[fault.split()[1]], 8)
        elif fault == "reload":
            for _ in range(20):
                process.send_signal(signal.SIGHUP)
        elif fault == "failing sync" and self.triggers:
            with open(self.triggers[i], "w") as file:
                file.write("%d" % chance.randrange(1, 5))
        elif fault == "clients":
            links = [self.agents.connect(i) for _ in range(200)]
            self.later(2, lambda: [link.close() for link in links])
        elif fault == "junk":
            for _ in range(2000):
                self.agents.relay.send(i, os.urandom(chance.randrange(1, 400)))

    def end(self):
        """No fault is left: those that are stopped go on, those that ended are there again, devices are well."""
        for timer in self.timers:
            timer.join()
        for trigger in self.triggers:
            if os.path.exists(trigger):
                os.remove(trigger)


def signalled(pid, number):
    try:
        os.kill(pid, number)
    except OSError:
        pass


def chaos(bed, seconds=60, every=EVERY):
    agents, chance, model = bed.agents("chaos", key=bed.key("ab"), slots=512, loss=0.01, record_files=1000), random.Random(bed.seed), Model()
    triggers = []
    if shutil.which("cc"):
        library = compiled(bed, "fail_sync", os.path.join(HERE, "fail_sync.c"))
        triggers = [os.path.join(agents.folder, "trigger%d" % i) for i in range(agents.count)]
        for i in range(agents.count):
            agents.write(i, program=wrapped(agents, "fails%d" % i, LD_PRELOAD=library, TRIGGER=triggers[i]))
    agents.start_all()
    agents.one_group()
    clients, faults, begin = Clients(agents, model, bed.seed), Faults(agents, chance, triggers), time.monotonic()
    while time.monotonic() - begin < seconds:
        time.sleep(chance.expovariate(1 / every))
        faults.start_again()
        faults.one()
    faults.end()
    clients.submits = False
    settled(bed, agents, faults)
    agents.until(lambda: [(agents.ask(i, do="jobs", limit=0) or {}).get("total") for i in range(agents.count)] == [0] * agents.count)
    clients.stop()
    bed.tally.note("%d s, %s: %d jobs kept, %d surely refused, %d in doubt; %d executions of %d" % (
        time.monotonic() - begin, dict(faults.done), len(model.kept), len(model.refused), len(model.unsure), sum(model.given.values()), len(model.given)))
    violations = model.at_the_end()
    bed.tally.check("faults of all kinds break no promise", not violations, violations)
    bed.tally.timed("and there were jobs and faults", len(model.kept) > seconds / 4 and sum(faults.done[fault] for fault in FAULTS) > seconds / every / 4, faults.done)
    judged(bed, agents, "faults of all kinds")


def settled(bed, agents, faults):
    """All are one group, whatever ended last: a device that failed once is well again."""
    def is_so():
        faults.start_again()
        return agents.is_one_group(range(agents.count))

    bed.tally.note("one group again after %.2f s" % agents.until(is_so))
