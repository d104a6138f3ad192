"""The client in Python, in scenes of agent/tests/run: over an agent of a script, which says what a race brings, and over real ones that are killed."""
import asyncio, contextlib, json, logging, os, random, socket, threading, time

import dumgerok
from bed import PATIENCE
from cluster import metric
from schema import Lines

# what goes wrong here is meant to
logging.getLogger("dumgerok").setLevel(logging.CRITICAL)

STATE = dict(ok=True, event="state", life="0123456789ab", change=7)
JOB = dict(ok=True, origin=2, id=40, queue=3, priority=0, payload="6a6f62", attempt=1)
STOP = dict(event="stop", origin=2, id=40)


class Scripted:
    """An agent that gives each connection what the next script says: lines that it sends, or what makes them; None, a request that it awaits; `begun`, that the client begins
    with a job; `told`, that it goes on with it; `stays`, that the client ends the connection. What it was asked, and `ended` of such a connection, stands in
    `heard`."""

    def __init__(self, path, *scripts):
        self.heard, self.asked, self.is_right, self.lines, self.begins, self.tells = [], [], True, Lines(), threading.Event(), threading.Event()
        self.socket = socket.socket(socket.AF_UNIX, socket.SOCK_STREAM)
        self.socket.bind(path)
        self.socket.listen()
        self.thread = threading.Thread(target=self.serve, args=(scripts,), daemon=True)
        self.thread.start()

    def all_heard(self):
        """What it was asked, once its scripts are over."""
        self.thread.join(PATIENCE)
        return self.heard

    def serve(self, scripts):
        for script in scripts:
            link, _ = self.socket.accept()
            with link, link.makefile("rb") as reader:
                for step in script:
                    self.step(link, reader, step)
        self.socket.close()

    def step(self, link, reader, step):
        if step is None:
            line = reader.readline()
            self.is_right = self.is_right and self.lines.request_of(line)[0] is not None
            self.heard.append(json.loads(line)["do"] if line else "ended")
            self.asked.append(json.loads(line or "{}"))
        elif step == "begun":
            self.begins.wait(PATIENCE)
        elif step == "told":
            self.tells.set()
        elif step == "stays":
            with contextlib.suppress(ConnectionError):
                self.heard.extend(json.loads(line)["do"] for line in reader)
            self.heard.append("ended")
        else:
            step = step() if callable(step) else step
            with contextlib.suppress(BrokenPipeError):         # a client that ends the connection meanwhile
                link.sendall(b"".join(json.dumps(one).encode() + b"\n" for one in (step if isinstance(step, list) else [step])))


class Blocking:
    """Calls of Agent, for a test of both."""

    def __init__(self, path, patience=PATIENCE):
        self.agent = dumgerok.Agent(path, patience)

    def call(self, name, *words):
        return getattr(self.agent, name)(*words)

    def watch(self, count, **words):
        events = self.agent.watch(**words)
        return [next(events) for _ in range(count)]

    def lock(self, seconds, wait=None):
        """The epoch of a lock that is worked under for so many seconds, and for how long it lasted in these."""
        with self.agent.lock("a", wait) as lease:
            begin = time.monotonic()
            while time.monotonic() - begin < seconds and lease.lasts():
                time.sleep(0.01)
            return lease.epoch, time.monotonic() - begin

    def lead(self, count):
        epochs, leases = [], self.agent.lead("a")
        for lease in leases:
            epochs.append(lease.epoch)
            if len(epochs) == count:
                leases.close()
        return epochs

    def work(self, agent, until):
        """What the worker began with, and what it saw to its end."""
        begun, ended = [], []

        def function(job):
            begun.append(job.payload)
            agent.begins.set()
            if job.payload == b"fails":
                raise ValueError(job.name)
            if job.payload == b"deaf":
                agent.tells.wait(PATIENCE)
            while job.payload == b"long":
                if job.stopped():
                    ended.append("stopped")
                    raise dumgerok.Stopped(job.name)
                time.sleep(0.01)

        self.agent.work(function, until=until, tries=3)
        return begun, ended


class Awaited:
    """Calls of AsyncAgent, for a test of both."""

    def __init__(self, path, patience=PATIENCE):
        self.agent = dumgerok.AsyncAgent(path, patience)

    def call(self, name, *words):
        return asyncio.run(getattr(self.agent, name)(*words))

    def watch(self, count, **words):
        async def some():
            seen = []
            async for event in self.agent.watch(**words):
                seen.append(event)
                if len(seen) == count:
                    return seen

        return asyncio.run(some())

    def lock(self, seconds, wait=None):
        async def locked():
            async with self.agent.lock("a", wait) as lease:
                begin = time.monotonic()
                while time.monotonic() - begin < seconds and lease.lasts():
                    await asyncio.sleep(0.01)
                return lease.epoch, time.monotonic() - begin

        return asyncio.run(locked())

    def lead(self, count):
        async def some():
            epochs, leases = [], self.agent.lead("a")
            async for lease in leases:
                epochs.append(lease.epoch)
                if len(epochs) == count:
                    await leases.aclose()
            return epochs

        return asyncio.run(some())

    def work(self, agent, until):
        begun, ended = [], []

        async def function(job):
            begun.append(job.payload)
            agent.begins.set()
            if job.payload == b"fails":
                raise ValueError(job.name)
            try:
                await asyncio.sleep(0 if job.payload == b"job" else PATIENCE)
            except asyncio.CancelledError:
                if job.payload == b"deaf":
                    return
                ended.append("stopped")
                raise

        asyncio.run(self.agent.work(function, until=until, tries=3))
        return begun, ended


def races(bed):
    """What stands in SOCKET.md that a client has to bear, for both kinds of calls."""
    check = bed.tally.check
    schema = Lines().schema
    errors = {error for name in schema.names("refusal") for error in schema.defs["refusal." + name]["properties"]["error"]["enum"]}
    check("there is an exception for each error", set(dumgerok.REFUSALS) == errors, set(dumgerok.REFUSALS) ^ errors)
    for kind in (Blocking, Awaited):
        def scene(*scripts):
            path = os.path.join(bed.folder, "%s%d" % (kind.__name__, random.randrange(10 ** 9)))
            agent = Scripted(path, *scripts)
            return agent, kind(path)

        def mark(name, is_so, said, count=check):
            count("%s: %s" % (kind.__name__, name), is_so, said)

        def timed(name, is_so, said):
            mark(name, is_so, said, bed.tally.timed)

        jobs(scene, mark)
        doubts(scene, mark)
        watches(scene, mark, timed)
        leases(scene, timed)
    with_an_old_event(bed, check)


def done_with(agent, count):
    """Whether the agent heard so much, or is late for it."""
    end = time.monotonic() + PATIENCE
    return lambda: len(agent.heard) >= count or time.monotonic() > end


def jobs(scene, mark):
    long = dict(JOB, payload=b"long".hex())
    agent, client = scene([None, [JOB, STOP], "stays"], [None, JOB, None, dict(ok=True), "stays"])
    begun, _ = client.work(agent, done_with(agent, 5))
    mark("a job that was told to stop isn't begun", (begun, agent.heard) == ([b"job"], ["take", "ended", "take", "finish", "ended"]), (begun, agent.heard))
    agent, client = scene([None, long, "begun", STOP, "stays"])
    seen = client.work(agent, done_with(agent, 2))
    mark("one that is told later is ended, and not finished", (seen, agent.heard) == (([b"long"], ["stopped"]), ["take", "ended"]), (seen, agent.heard))
    agent, client = scene([None, dict(JOB, payload=b"deaf".hex()), "begun", STOP, "told", "stays"])
    seen = client.work(agent, done_with(agent, 2))
    mark("nor where it goes on to its end all the same", (seen, agent.heard) == (([b"deaf"], []), ["take", "ended"]), (seen, agent.heard))
    agent, client = scene([None, [JOB, dict(STOP, id=39)], None, [dict(STOP, id=39), dict(ok=True)], "stays"])
    seen = client.work(agent, done_with(agent, 3))
    mark("a stop of another job is none of this one", (seen, agent.heard) == (([b"job"], []), ["take", "finish", "ended"]), (seen, agent.heard))
    agent, client = scene([None], [None, long, "begun"], [None, JOB, None, [STOP, dict(ok=False, error="UnknownJob")], "stays"])
    seen = client.work(agent, done_with(agent, 5))
    mark("a worker goes on where its agent ended, before and while it works", (seen, agent.heard) ==
         (([b"long", b"job"], ["stopped"]), ["take", "take", "take", "finish", "ended"]), (seen, agent.heard))
    fails = dict(JOB, payload=b"fails".hex())
    agent, client = scene([None, fails, None, dict(ok=True), "stays"], [None, dict(fails, attempt=3), None, dict(ok=True), "stays"])
    client.work(agent, done_with(agent, 6))
    back = [{name: asked.get(name) for name in ("ok", "after_ms", "aside")} for asked in agent.asked if asked.get("do") == "finish"]
    mark("a job that fails is given back for a pause, and put aside where it was tried that often",
         back == [dict(ok=False, after_ms=400, aside=None), dict(ok=False, after_ms=None, aside=True)], back)
    agent, client = scene([None, dict(ok=False, error="TooManyClients")], [None, dict(ok=False, error="NoJob")])
    mark("a job that isn't there is none", client.call("take", [3, 4], False) is None and agent.asked[-1]["queues"] == [3, 4], agent.asked)
    mark("requests are those of the schema", agent.is_right, agent.heard)


def doubts(scene, mark):
    for answers, name, is_in_doubt in (
            ([], "Lost", True), ([dict(ok=False, error="Full", why="x")], "Full", False), ([dict(ok=False, error="NoAnswer", may_be_kept=True)], "NoAnswer", True),
            ([dict(ok=False, error="NoAnswer")], "NoAnswer", False), ([dict(ok=False, error="Device")], "Device", True), ([dict(ok=False, error="New")], "Refused", False)):
        agent, client = scene([None, *answers], [None, dict(ok=True, origin=0, id=1)])
        try:
            seen = client.call("submit", 3, "x")
        except dumgerok.Error as why:
            seen = why
        mark("a submission that ends with %s" % name, (type(seen).__name__, getattr(seen, "in_doubt", None)) == (name, is_in_doubt), repr(seen))
        mark("is a request of the schema, and isn't made again", agent.is_right and agent.heard == ["submit"], agent.heard)
    agent, client = scene([None], [None, dict(ok=False, error="NoAnswer", may_be_kept=True)], [None, dict(ok=True, origin=0, id=1)])
    kept = client.call("submit", 3, "x", 0, "k")
    mark("under a key it is made again", kept == (0, 1) and agent.is_right and [asked["key"] for asked in agent.asked] == ["k"] * 3, agent.asked)
    agent, client = scene([None], [None, dict(ok=False, error="Full")])
    try:
        seen = client.call("submit", 3, "x", 0, "k")
    except dumgerok.Error as why:
        seen = (type(why).__name__, why.in_doubt, agent.heard)
    mark("until it is refused, and the first try may be kept all the same", seen == ("Full", True, ["submit", "submit"]), seen)
    agent, client = scene([None], [None, dict(ok=True, phase="Normal", later=1)])
    mark("a question is asked again", client.call("status")["phase"] == "Normal" and agent.heard == ["status", "status"], agent.heard)
    begin = time.monotonic()
    try:
        seen = type(client)("/nowhere/sock", 2).call("submit", 3, "x")
    except dumgerok.Error as why:
        seen = why
    is_so = isinstance(seen, dumgerok.NoAgent) and not seen.in_doubt and time.monotonic() - begin >= 2
    mark("an agent that isn't there is waited for, and nothing was done", is_so, repr(seen))


def watches(scene, mark, timed):
    other, odd = dict(STATE, life="ffffffffffff", change=90), dict(event="new", change=8, more=[1])
    agent, client = scene([None, STATE, odd], [None, dict(ok=True, life=STATE["life"]), dict(odd, change=9)], [None, other, "stays"])
    seen = client.watch(7, every=PATIENCE / 4)
    told = [(event["event"], event.get("gap"), event.get("restarted"), event.get("change")) for event in seen]
    mark("a watcher goes on over connections, and is told of gaps and restarts", told == [
        ("state", False, False, 7), ("new", None, None, 8), ("lost", None, None, None), ("back", False, False, None), ("new", None, None, 9), ("lost", None, None, None),
        ("state", True, True, 90)], told)
    agent, client = scene([None, [STATE, dict(event="beat", change=7, alive=True)], "stays"])
    begin = time.monotonic()
    told = [(event["event"], event.get("why")) for event in client.watch(3, every=0.2)]
    is_so = told == [("state", None), ("beat", None), ("lost", "no beat in 0.6 s")] and time.monotonic() - begin >= 0.6
    timed("where no beat comes the agent is lost", is_so, told)
    agent, client = scene([None, dict(ok=False, error="Unreadable", why="x")])
    try:
        seen = client.watch(1)
    except dumgerok.Refused as why:
        seen = why.name
    mark("one that was never served is told why", seen == "Unreadable" and agent.is_right, (seen, agent.heard))


def boot_ms():
    return int(time.clock_gettime(time.CLOCK_BOOTTIME) * 1000)


def taken():
    """The answer to `acquire`."""
    return dict(ok=True, now_ms=boot_ms())


def held(epoch, left, **more):
    return lambda: dict(dict(event="held", name="a", epoch=epoch, until_ms=boot_ms() + left), **more)


def locked(client, *words):
    """The epoch of a lock, or why it isn't had or had to the end."""
    try:
        return client.lock(*words)[0]
    except dumgerok.Error as why:
        return type(why).__name__


def leases(scene, mark):
    """Each is of a lease's time, which a busy machine may take."""
    released = ["acquire", "status", "release"]
    heard = lambda agent: [do for at, do in enumerate(agent.all_heard()) if do != "status" or agent.heard[at - 1] != "status"]
    agent, client = scene([None, taken, held(5, 60_000), "stays"])
    mark("a lock is had, and given back", (locked(client, 0.05), heard(agent)[:3]) == (5, released), agent.heard)
    agent, client = scene([None, taken, held(5, 60_000), None, None, None, dict(ok=True, phase="Normal", lease_ms=800), "stays"])
    locked(client, 1.0)
    mark("meanwhile the agent is asked, an eighth of its time apart at most", 6 <= agent.all_heard().count("status") <= 40 and agent.is_right, agent.heard)
    agent, client = scene([None, taken, held(5, 400)])
    begin = time.monotonic()
    said = locked(client, 5)
    mark("where the agent ends it lasts until its end, and that is said", said == "Lost" and 0.3 < time.monotonic() - begin < 2, (said, time.monotonic() - begin))
    agent, client = scene([None, taken, held(5, 300), held(5, 60_000), "stays"])
    mark("a renewal moves the end", locked(client, 0.6) == 5, agent.heard)
    agent, client = scene([None, taken, held(5, 300), held(6, 60_000), "stays"])
    mark("also under a greater epoch, and the first one stays", locked(client, 0.6) == 5, agent.heard)
    agent, client = scene([None, taken, held(5, 300), held(4, 60_000), "stays"])
    mark("that of a smaller epoch doesn't", locked(client, 0.6) == "Lost", agent.heard)
    agent, client = scene([None, taken], [None, taken, dict(event="refused", name="a", why="Silent")], [None, taken, held(7, 60_000), "stays"])
    mark("it is asked for over ends of the agent, and where the client was silent", locked(client, 0) == 7, agent.heard)
    agent, client = scene([None, taken, dict(event="refused", name="a", why="Full")], [None, dict(ok=False, error="NoLeases")])
    mark("a refusal is told", [locked(client, 0), locked(client, 0)] == ["Refused", "NoLeases"], agent.heard)
    agent, client = scene([None, taken, "stays"])
    begin = time.monotonic()
    said = locked(client, 0, 0.3)
    mark("it isn't waited for longer than one likes", said == "Held" and time.monotonic() - begin >= 0.3, (said, agent.heard))
    agent, client = scene([None, dict(ok=True, now_ms=boot_ms() - 60_000), held(5, 60_000), "stays"])
    mark("an agent of another clock isn't relied on", locked(client, 0) == "Error", agent.heard)
    drained = dict(ok=True, phase="Normal", draining=True)
    agent, client = scene([None, taken, None, drained, "stays"], [None, taken, held(8, 60_000), "stays"])
    mark("where the machine is drained none is asked for, until it isn't", locked(client, 0) == 8 and heard(agent)[:3] == ["acquire", "status", "ended"], agent.heard)
    agent, client = scene([None, taken, held(5, 60_000), None, drained, "stays"])
    begin, said = time.monotonic(), locked(client, 5)
    mark("nor does one last there, and it is given back", said == "Lost" and time.monotonic() - begin < 4 and "release" in heard(agent), agent.heard)
    agent, client = scene(*([None, taken, held(epoch, 60_000), "stays"] for epoch in (5, 6)))
    mark("who leads has a lease each time", client.lead(2) == [5, 6] and agent.is_right, agent.heard)


def with_an_old_event(bed, check):
    """An event before an answer isn't taken for it, whichever it is."""
    for kind in (Blocking, Awaited):
        path = os.path.join(bed.folder, "old%s" % kind.__name__)
        agent = Scripted(path, [None, [dict(STOP, id=1), dict(event="new"), dict(ok=True, origin=1, id=2)]])
        kept = kind(path).call("submit", 1, b"\0")
        check("%s: events before an answer are passed over" % kind.__name__, kept == (1, 2) and agent.is_right, kept)


class Service:
    """Workers and watchers at all agents, and the jobs that they are given."""

    def __init__(self, agents):
        self.agents, self.ends, self.lock = agents, False, threading.Lock()
        self.done, self.events = [], [[] for _ in range(agents.count)]
        # blocking at one, awaited at the others
        self.threads = [threading.Thread(target=self.block if i == 0 else self.wait, args=(i,), daemon=True) for i in range(agents.count)]
        self.threads.append(threading.Thread(target=self.watch, args=(0,), daemon=True))
        for thread in self.threads:
            thread.start()

    def note(self, job):
        with self.lock:
            self.done.append((job.origin, job.id))

    def block(self, i):
        dumgerok.Agent(self.agents.path(i, "sock")).work(self.note, until=lambda: self.ends)

    def watch(self, i):
        for event in dumgerok.Agent(self.agents.path(i, "sock")).watch(every=0.5):
            self.events[i].append(event)
            if self.ends:
                return

    def wait(self, i):
        asyncio.run(self.both(i))

    async def both(self, i):
        agent = dumgerok.AsyncAgent(self.agents.path(i, "sock"))

        async def work(job):
            await asyncio.sleep(0)
            self.note(job)

        working = asyncio.ensure_future(agent.work(work))
        async for event in agent.watch(every=0.5):
            self.events[i].append(event)
            if self.ends:
                break
        working.cancel()
        await asyncio.gather(working, return_exceptions=True)

    def end(self):
        self.ends = True
        for thread in self.threads:
            thread.join(PATIENCE)
        return not any(thread.is_alive() for thread in self.threads)


def over_restarts(bed):
    """Agents that are killed, and started again, in the middle of `watch` and `take`: no job that was kept is left, and watchers are told what there is."""
    agents, check, chance, kills = bed.agents("python", count=3, record=None), bed.tally.check, random.Random(bed.seed), [0, 0, 0]
    agents.start_all()
    agents.one_group()
    service, kept, doubts, lives = Service(agents), [], 0, [{agents.status(i)["life"]} for i in range(3)]
    agents.until(lambda: all(service.events))
    for turn in range(4):
        victim = chance.randrange(3)
        for at in range(20):
            if at == 10:
                agents.kill(victim)
                kills[victim] += 1
            try:
                client = dumgerok.Agent(agents.path(chance.choice([i for i in range(3) if i != victim or at < 10]), "sock"))
                kept.append(client.submit(chance.randrange(16), "job %d of %d" % (at, turn)))
            except dumgerok.Error as why:
                doubts += why.in_doubt
        agents.start(victim)
        agents.one_group()
        life = agents.status(victim)["life"]
        lives[victim].add(life)
        agents.until(lambda: any(event.get("life") == life for event in service.events[victim]))
    pending = lambda: sum(metric(agents, i, "jobs_pending") for i in range(3))
    agents.until(lambda: pending() == 0)
    check("jobs are kept", len(kept) > 40, (len(kept), doubts))
    check("each job that was kept is worked on", set(kept) <= set(service.done), sorted(set(kept) - set(service.done))[:5])
    # a watcher was told last what there is
    last = lambda events: [event for event in events if event["event"] in ("state", "group")][-1:]
    is_told = lambda i: last(service.events[i]) and last(service.events[i])[0]["group"] == agents.status(i)["group"] and service.events[i][-1]["event"] != "lost"
    agents.until(lambda: all(is_told(i) for i in range(3)))
    check("all end", service.end())
    for i, events in enumerate(service.events):
        names, begun = [event["event"] for event in events], [event for event in events if "gap" in event]
        losses = names[:max(at for at, event in enumerate(events) if "gap" in event)].count("lost")
        check("a watcher is told of each end of its agent", losses >= kills[i] and len(begun) == losses + 1, (kills, losses, len(begun)))
        check("and of each start", sum(event["restarted"] for event in begun) == kills[i] and {event["life"] for event in begun} == lives[i], (kills, begun))
        check("with all that was missed", all(event["gap"] for event in begun if event["restarted"]), begun)
    client = dumgerok.Agent(agents.path(0, "sock"))
    change = client.status()["change"]
    client.submit(5, "one more")
    events = client.watch(since=change, every=0.2)
    first = [next(events) for _ in range(2)]
    check("a watcher that comes back misses nothing", first[0]["event"] == "back" and not first[0]["gap"], first)
    agents.stop()
