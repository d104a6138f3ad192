"""Asks the Dumgerok agent of this machine. It needs Python 3.8 and nothing else.

    from dumgerok import Agent
    agent = Agent()                             # at $DUMGEROK_SOCKET, or at /run/dumgerok/agent.sock
    agent.submit(3, "resize 17", key="resize 17") # JobKey(origin=0, id=1764396273001); the same where it is made again within ten minutes
    agent.work(lambda job: resize(job.payload), queue=3)
    for event in agent.watch(): print(event)    # goes on over restarts of the agent, and says so
    with agent.lock("db") as lease: add(lease.epoch)
    for lease in agent.lead():                  # each time that this process leads
        while lease.lasts(): step(lease.epoch)

AsyncAgent has the same calls for asyncio. SOCKET.md says what answers and events have. What goes wrong is an Error: a Refused of the error's name, as
Full; NoAgent: nobody listens; Lost: the connection ended, or no answer came. Where its `in_doubt` is true, what was asked may be done all the same.
"""
import asyncio, collections, contextlib, functools, json, logging, os, socket, threading, time

JobKey, log = collections.namedtuple("JobKey", "origin id"), logging.getLogger("dumgerok")

# In seconds how long answers are waited for, the agent's own, others' and that to the end of a lease; and pauses between tries, and between looks. So many
# missing beats end a connection. Who has a lease is heard so often, at least, in the time for which it is granted.
OWN_ANSWER, FAR_ANSWER, LAST_ANSWER, PAUSE, MOST_PAUSE, LOOK, BEATS, HEARD = 10.0, 60.0, 1.0, 0.2, 30.0, 0.02, 3, 8


class Error(Exception):
    """What was asked has no answer, or was refused."""
    in_doubt = False


class NoAgent(Error): """Nobody listens at the socket."""
class Lost(Error): """The connection ended, no answer came in time, or a lease was over before its work was."""
class Stopped(Error): """The job isn't this node's any more: it is to be left alone."""
class Held(Error): """Another has the lock, or too few machines answer."""


class Refused(Error):
    """The agent refused what was asked, for the reason of this name."""

    def __init__(self, line):
        self.name, self.why = line.get("error", "?"), line.get("why")
        super().__init__(": ".join(filter(None, [self.name, self.why])))
        self.in_doubt = line.get("may_be_kept", False) or self.name == "Device"


REFUSALS = {name: type(name, (Refused,), {"__module__": __name__}) for name in """NoObject Unreadable Version BadQueue BadPriority BadPayload BadInterval BadName
    BadKey TooLong TooManyClients Busy NoAnswer Down NotNormal NotCoordinator Draining Full NoJob UnknownJob NotYours NotPermitted NoLeases Claimed Unclaimed Exhausted NoMemory
    Device NoRecord""".split()}
globals().update(REFUSALS)
NoJob, UnknownJob, PASSING = REFUSALS["NoJob"], REFUSALS["UnknownJob"], (Lost, NoAgent, REFUSALS["TooManyClients"], REFUSALS["Busy"])


def line_of(do, **fields):
    return json.dumps({"v": 1, "do": do, **{name: value for name, value in fields.items() if value is not None}}).encode() + b"\n"


class Link:
    """A connection whose calls end before they are awaited."""
    patience = OWN_ANSWER

    def __init__(self, path):
        self.socket, self.rest = socket.socket(socket.AF_UNIX, socket.SOCK_STREAM), b""
        self.socket.settimeout(self.patience)
        try:
            self.socket.connect(path)
        except OSError as why:
            self.close()
            raise NoAgent("%s: %s" % (path, why)) from None

    async def receive(self, wait):
        self.socket.settimeout(wait)
        return self.socket.recv(1 << 16)

    def send(self, line):
        """Where that fails, what is read next says why."""
        with contextlib.suppress(OSError):
            self.socket.settimeout(self.patience)
            self.socket.sendall(line)

    async def line(self, wait=None):
        """The next line; None where none comes in so many seconds."""
        end = None if wait is None else time.monotonic() + wait
        while b"\n" not in self.rest:
            try:
                piece = await self.receive(None if end is None else max(0.0, end - time.monotonic()))
            except (BlockingIOError, socket.timeout, asyncio.TimeoutError):
                return None
            except OSError as why:
                raise Lost(str(why)) from None
            if not piece:
                raise Lost("the agent ended the connection")
            self.rest += piece
        line, self.rest = self.rest.split(b"\n", 1)
        return json.loads(line)

    async def done(self, wait=OWN_ANSWER, until=None):
        """The next answer, which says that it is done, and comes in so many seconds; None once until() is true."""
        line = {}
        while line is None or "ok" not in line:
            line = await self.line(PAUSE if until else wait)
            if line is None and not until:
                raise Lost("no answer in %g s" % wait)
            if line is None and until():
                return None
        if line["ok"] is not True:
            raise REFUSALS.get(line.get("error"), Refused)(line)
        return line

    def close(self):
        self.socket.close()


class AsyncLink(Link):
    """A connection, for asyncio. What is there already is received within a millisecond."""
    patience = 0

    async def receive(self, wait):
        return await asyncio.wait_for(asyncio.get_running_loop().sock_recv(self.socket, 1 << 16), wait if wait is None else max(wait, 0.001))


class Lease:
    """The lease of a name, under an `epoch` greater than each before. While lasts() nobody else has it, as long as clocks go right: look before each step. A
    process may be stopped behind its look, so let what is written to refuse a smaller epoch than it has seen. A thread renews the lease until its work ends."""

    def __init__(self, path, name):
        self.path, self.name, self.until, self.epoch, self.why, self.link, self.is_over, self.is_drained, self.is_left = path, name, 0, *[None] * 3, *[False] * 3
        self.thread = threading.Thread(target=lambda: now(self.keep()), daemon=True)
        self.thread.start()

    def lasts(self):
        """Whether it may be relied on now: until `until`, by CLOCK_BOOTTIME, or until the machine is drained. Then its work is to end, and it is given back."""
        self.is_left = self.is_left or self.is_drained or time.clock_gettime(time.CLOCK_BOOTTIME) >= self.until
        return not self.is_left

    async def keep(self):
        while not (self.epoch or self.why or self.is_over):
            asked = time.clock_gettime(time.CLOCK_BOOTTIME) - 0.001
            try:
                with contextlib.closing(Agent(self.path).asked(line_of("acquire", name=self.name))) as self.link:
                    if not asked <= (await self.link.done())["now_ms"] / 1000 <= time.clock_gettime(time.CLOCK_BOOTTIME):
                        raise Error("the agent's clock is another one than this process has")
                    await self.hold(self.link)
            except PASSING:
                time.sleep(LAST_ANSWER if self.is_drained else PAUSE)
            except Error as why:
                self.why = why

    async def hold(self, link):
        line, pause = None, LOOK
        while not self.is_over:
            if line is None:
                link.send(line_of("status"))            # so that it is heard
            line = await link.line(pause)
            said, self.is_drained = line or {}, (line or {}).get("draining", self.is_drained)
            event, pause = said.get("event"), said.get("lease_ms", 2000 * HEARD * pause) / 2000 / HEARD
            if event == "held" and line["epoch"] >= (self.epoch or 0):
                # a renewal may have a greater epoch: what goes on under the lease keeps the first one
                self.until, self.epoch = line["until_ms"] / 1000, self.epoch or line["epoch"]
            elif event == "refused" and line["why"] != "Silent":
                raise Refused(dict(error=line["why"]))
            elif event in ("held", "lost", "refused") or self.is_drained and not self.epoch:
                raise Lost("the lease %s" % self.name)
        link.send(line_of("release", name=self.name))
        while "phase" in await link.done(LAST_ANSWER):
            pass

    def end(self):
        self.is_over = True
        if self.link:
            self.link.send(line_of("status"))           # whose answer wakes the thread


class GivenJob:
    """A job in hand. Where it is closed without an end another client is given it, which `attempt` counts; its `name` is the same each time."""

    def __init__(self, line, link):
        self.origin, self.id, self.queue, self.priority = (line[name] for name in ("origin", "id", "queue", "priority"))
        self.payload, self.attempt, self.name = bytes.fromhex(line["payload"]), line.get("attempt", 1), "%d:%d" % (self.origin, self.id)
        self.link, self.is_stopped, self.close = link, False, link.close

    async def stopped(self, wait=0.0):
        """Whether work on it is to end: it went to another node, or the agent ended. That is waited for, for so many seconds."""
        try:
            line = {}
            while line is not None and not self.is_stopped:
                line = await self.link.line(wait)
                self.is_stopped = line is not None and line.get("event") == "stop" and (line["origin"], line["id"]) == (self.origin, self.id)
        except Lost:
            self.is_stopped = True
        return self.is_stopped

    async def finish(self, **fields):
        if await GivenJob.stopped(self):
            raise Stopped("job %s" % self.name)
        self.link.send(line_of("finish", origin=self.origin, id=self.id, **fields))
        try:
            await self.link.done(FAR_ANSWER)
        except Lost as why:
            why.in_doubt = True
            raise
        self.close()

    def give_back(self, after=0.0, aside=False):
        """The work can't be done: nobody is given it for so many seconds, or until somebody kicks it."""
        return self.finish(ok=False, **(dict(aside=True) if aside else dict(after_ms=round(1000 * after))))


class AsyncJob(GivenJob):
    listening = None

    async def stopped(self, wait=0.0):
        if not self.listening:
            return await super().stopped(wait)
        await asyncio.wait({self.listening}, timeout=wait)
        return self.is_stopped

    async def do(self, function):
        if await self.stopped():
            return
        running, self.listening = asyncio.ensure_future(function(self)), asyncio.ensure_future(super().stopped(None))
        try:
            await asyncio.wait({running, self.listening}, return_when=asyncio.FIRST_COMPLETED)
        finally:
            running.cancel()
            self.listening.cancel()
            await asyncio.wait({running, self.listening})
            self.listening = None
        if running.cancelled():
            raise Stopped("job %s" % self.name)
        running.result()
        await self.finish()


class AsyncAgent:
    """The agent at a socket, for asyncio. One that isn't there is waited for, for `patience` seconds."""
    link, job, sleep = AsyncLink, AsyncJob, staticmethod(asyncio.sleep)

    def __init__(self, path=None, patience=OWN_ANSWER):
        self.path, self.patience = path or os.environ.get("DUMGEROK_SOCKET") or "/run/dumgerok/agent.sock", patience

    def asked(self, line):
        """A connection on which this was asked."""
        link = self.link(self.path)
        link.send(line)
        return link

    async def ask(self, line, wait=OWN_ANSWER, changes=False, again=True):
        """The answer to one request. One that may be made again is, where its answer doesn't come or is in doubt."""
        end, doubt = time.monotonic() + self.patience, False
        while True:
            try:
                with contextlib.closing(self.asked(line)) as link:
                    return await link.done(wait)
            except (Lost, NoAgent, Refused) as why:
                is_sure = isinstance(why, Refused) and not why.in_doubt
                why.in_doubt = doubt = doubt or why.in_doubt or changes and isinstance(why, Lost)
                if is_sure or doubt and not again or time.monotonic() >= end:
                    raise
            await self.sleep(PAUSE)

    async def status(self):
        return await self.ask(line_of("status"))

    async def members(self):
        return (await self.ask(line_of("members")))["members"]

    async def submit(self, queue, payload, priority=0, key=None):
        """Has a job kept; its JobKey. Made again under its key within ten minutes, at any machine, it is one job: so it is, where it is in doubt."""
        payload = payload.encode() if isinstance(payload, str) else bytes(payload)
        kept = await self.ask(line_of("submit", queue=queue, hex=payload.hex(), priority=priority, key=key), FAR_ANSWER, changes=True, again=key is not None)
        return JobKey(kept["origin"], kept["id"])

    async def kick(self, queue=None):
        return (await self.ask(line_of("kick", queue=queue)))["kicked"]

    async def watch(self, since=None, every=1.0):
        """Each event, without an end, and `beat` each `every` seconds. Where the connection ends `lost` comes, and later `state`, or `back` where no change was
        missed; between these nothing is known. They have `gap`, where changes were missed, and `restarted`, where another life of the agent answers."""
        last, life, is_lost = since, None, False
        while True:
            try:
                with contextlib.closing(self.asked(line_of("watch", since=last, every_ms=round(1000 * every)))) as link:
                    line = await link.done()
                    line = {"event": "back", **line, "gap": last is not None and "event" in line, "restarted": life not in (None, line["life"])}
                    life, is_lost = line["life"], False
                    while line is not None:
                        last = line.get("change", last)
                        yield line
                        line = await link.line(BEATS * every)
                    raise Lost("no beat in %g s" % (BEATS * every))
            except (Lost, NoAgent, Refused) as why:
                if life is None and isinstance(why, Refused):
                    raise
                if not is_lost:
                    is_lost = True
                    yield {"event": "lost", "why": str(why)}
            await self.sleep(PAUSE)

    async def take(self, queue=None, wait=True, until=None):
        """The next job of a queue, or of a list of them; None where there is none and `wait` is false, or once until() is true. Ends of the agent are borne."""
        end = time.monotonic() + self.patience
        while not (until and until()):
            try:
                with contextlib.ExitStack() as opened:
                    link = self.asked(line_of("take", queues=[queue] if isinstance(queue, int) else queue and list(queue), wait=wait))
                    opened.callback(link.close)
                    line = await (link.done(None, until) if wait else link.done())
                    if line is not None:
                        opened.pop_all()
                        return self.job(line, link)
            except NoJob:
                return None
            except PASSING as why:
                if not wait and time.monotonic() >= end:
                    raise
                log.info("a job is waited for: %s", why)
            await self.sleep(PAUSE)

    async def work(self, function, queue=None, until=None, tries=None):
        """Awaits function(job) for each job and finishes those for which it returns, until until() is true. It isn't called for a job that is to stop, and
        cancelled where that comes later; that of Agent isn't: it asks job.stopped(), and then raises Stopped. Where it raises something else the job is given
        back: for a pause, twice as long each time, or, where it was given that often, aside. A job may come twice: let its effect be known by job.name."""
        while (job := await AsyncAgent.take(self, queue, until=until)) is not None:
            try:
                await job.do(function)
            except (Stopped, UnknownJob):
                log.info("job %s went to another node", job.name)
            except Exception:
                log.exception("job %s isn't finished", job.name)
                after = dict(after_ms=round(1000 * min(PAUSE * 2 ** min(job.attempt, 20), MOST_PAUSE)))
                with contextlib.suppress(Error):
                    await GivenJob.finish(job, ok=False, **(dict(aside=True) if tries is not None and job.attempt >= tries else after))
            finally:
                job.close()

    @contextlib.asynccontextmanager
    async def lock(self, name, wait=None):
        """For `with`, or `async with`: its Lease, once it is had; Held where it isn't within so many seconds, and Lost where it was over before its work was."""
        lease, end = Lease(self.path, name), wait and time.monotonic() + wait
        try:
            while not lease.epoch:
                if lease.why or wait is not None and time.monotonic() >= end:
                    raise lease.why or Held("another has the lock %s, or too few machines answer" % name)
                await self.sleep(LOOK)
            yield lease
            if lease.is_left or time.clock_gettime(time.CLOCK_BOOTTIME) >= lease.until:
                raise Lost("the lock %s was over before its work was" % name)
        finally:
            lease.end()
            while lease.thread.is_alive():
                await self.sleep(LOOK)

    async def lead(self, name="lead"):
        """A Lease for each time that this process comes to have it. It is given back where the loop goes on, or ends."""
        while True:
            with contextlib.suppress(Lost):
                async with AsyncAgent.lock(self, name) as lease:
                    yield lease


def now(call):
    """What a call gives that never waits for others."""
    try:
        call.send(None)
    except StopIteration as end:
        return end.value
    raise RuntimeError("it waits")


def blocking(call):
    """The same call, which ends before it returns."""
    return functools.wraps(call)(lambda *words, **named: now(call(*words, **named)))


def each(call):
    """The same events, each of which is waited for before it is given."""
    @functools.wraps(call)
    def events(*words, **named):
        some = call(*words, **named)
        try:
            with contextlib.suppress(StopAsyncIteration):
                while True:
                    yield now(some.__anext__())
        finally:
            now(some.aclose())
    return events


class Job(GivenJob):
    stopped, finish = map(blocking, (GivenJob.stopped, GivenJob.finish))

    async def do(self, function):
        if not self.stopped():
            function(self)
            self.finish()


class Agent(AsyncAgent):
    """The same calls, each of which ends before it returns."""
    link, job, watch, lead, lock = Link, Job, each(AsyncAgent.watch), each(AsyncAgent.lead), contextlib.contextmanager(each(AsyncAgent.lock.__wrapped__))
    status, members, submit, kick, take, work = (blocking(getattr(AsyncAgent, name)) for name in "status members submit kick take work".split())
    async def sleep(self, seconds): time.sleep(seconds)
