"""Clusters of real processes `invite lease`, joined by a network and clocks that are made up here, and a judge of what they say: what the scripts of leases share.

True time is the cluster's own, in microseconds. A machine's clock begins anywhere, and goes 31/32 to 33/32 of it. A message takes 0.3 to 0.7 of a round
trip; with faults some are lost, come twice or are very late, and machines are cut off. No message is quicker than LEAST: so what happens within so short a time
is handed over at once, and the answers are read then, since nothing that one machine says reaches another one in it. A tick may be as much late."""
import heapq, os, random, shutil, tempfile
from common.program import MEMORY, made

ROUND_TRIP = 20
TRIP = ROUND_TRIP * 1000
LEAST = 3 * TRIP // 10
KEEPS = 100 * ROUND_TRIP
IN_BOUND = (31 * 2**15, 33 * 2**15)  # how much a clock goes in 2^20 of true time


def file_of_leases(invite, own, first=1):
    """The bytes of a file of leases, as the program makes it."""
    with tempfile.TemporaryDirectory(dir=MEMORY) as room:
        path = os.path.join(room, "leases")
        made(invite, "--lease", path, own, first)
        with open(path, "rb") as file:
            return file.read()


class Process:
    """A process over a file of leases: `tell` hands lines over, and `answers` reads what answers them."""

    def __init__(self, program, path, own, machines, round_trip, keys=()):
        words = [program, "lease", path, str(own), str(machines), str(round_trip), *keys]
        (reads, self.input), (self.output, writes) = os.pipe(), os.pipe()
        self.pid = os.posix_spawn(program, words, os.environ, file_actions=[(os.POSIX_SPAWN_DUP2, reads, 0), (os.POSIX_SPAWN_DUP2, writes, 1)])
        os.close(reads)
        os.close(writes)
        self.rest, self.number = b"", None

    def begun(self):
        """Waits until it has its file. Its number."""
        while self.number is None:
            self.read()
            self.take_number()
        return self.number

    def take_number(self):
        line, feed, rest = self.rest.partition(b"\n")
        if feed:
            word, number = line.split()
            assert word == b"process", line
            self.number, self.rest = int(number), rest

    def read(self):
        piece = os.read(self.output, 1 << 16)
        assert piece, "the process ended"
        self.rest += piece

    def tell(self, lines):
        """Hands lines over: of lines and answers no more at a time than pipes hold."""
        os.write(self.input, lines)

    def answers(self, count):
        """Of each of so many lines what answers it, as lines."""
        groups, group = [], []
        while len(groups) < count:
            self.read()
            if self.number is None:
                self.take_number()
            *lines, self.rest = self.rest.split(b"\n")
            for line in lines:
                group.append(line)
                if line.startswith((b"next", b"fault")):
                    groups.append(group)
                    group = []
        assert len(groups) == count and not group and not self.rest, (count, groups, group)
        return groups

    def kill(self):
        os.kill(self.pid, 9)
        os.waitpid(self.pid, 0)
        os.close(self.input)
        os.close(self.output)


class Judge:
    """Who held which lease when, by the lines alone. A client holds it from the line `held` on until its machine's clock shows UNTIL or the line `lost` comes; one
    of a process that was killed holds on. It may be told to hold it under a greater epoch, which counts from then on. Wrong is what breaks one of these: one
    holder at a time; who holds later has the greater epoch; each lease that is told as held is told as lost once, by the time at which it ends."""

    def __init__(self):
        self.leases, self.flaws = {}, []  # of each name its leases: [who, epoch, begin, end]
        self.told = {}  # of each machine, of each name that its process told last as held: [user, epoch, until, lease]
        self.acquired = self.raised = 0

    def flaw(self, text, *words):
        self.flaws.append(text % words)

    def held(self, machine, time, now, name, user, epoch, until):
        who, end, leases = (machine.own, machine.process.number, user), machine.shows(until), self.leases.setdefault(name, [])
        if until <= now:
            self.flaw("%s is told as held when it is over", name)
        for other in leases:
            if other[3] > time and other[0] != who:
                self.flaw("two hold %s at %d: %s under %d, and %s under %d", name, time, *other[:2], who, epoch)
        told = self.told.setdefault(machine.own, {}).get(name)
        if told and told[:2] == [user, epoch]:
            if until <= told[2]:
                self.flaw("a renewal of %s moves nothing", name)
            told[2], told[3][3] = until, end
            return False
        if told and (told[0] != user or until < told[2]):
            self.flaw("%s is told as held anew without a lost", name)
        if told:
            told[3][3], self.raised = time, self.raised + 1
        if leases and epoch <= leases[-1][1]:
            self.flaw("%s has epoch %d behind %d", name, epoch, leases[-1][1])
        leases.append([who, epoch, time, end])
        self.told[machine.own][name] = [user, epoch, until, leases[-1]]
        self.acquired += not told
        return not told

    def lost(self, machine, time, name, epoch):
        told = self.told.get(machine.own, {}).pop(name, None)
        if not told or told[1] != epoch:
            return self.flaw("%s is told as lost under %d, which wasn't held", name, epoch)
        told[3][3] = min(told[3][3], time)

    def answered(self, machine, now):
        """Behind the answer to a line: nothing is held whose time is over, and a tick is wanted by when it is."""
        for name, told in self.told.get(machine.own, {}).items():
            if told[2] <= now:
                self.flaw("machine %d doesn't say that %s is over", machine.own, name)
            elif machine.due is None or told[2] < machine.due:
                self.flaw("machine %d wants its next tick behind the end of a lease", machine.own)

    def killed(self, machine):
        self.told.pop(machine.own, None)


class Machine:
    """A machine: its clock, its file, and the process over it, if one runs."""

    def __init__(self, cluster, own, rate, image):
        self.cluster, self.own, self.rate = cluster, own, rate
        self.path = os.path.join(cluster.folder, str(own))
        self.offset = cluster.random.randrange(10**9)
        self.process, self.due, self.ticks, self.cut_until = None, None, None, 0
        self.waiting = None  # the lines that wait for one that is stopped
        with open(self.path, "wb") as file:
            file.write(image)

    def clock(self, time):
        """What its clock shows, in whole milliseconds."""
        return (self.offset + (time * self.rate >> 20)) // 1000

    def shows(self, clock):
        """The first time at which the clock shows this."""
        return max(0, -(-((clock * 1000 - self.offset) << 20) // self.rate))

    def start(self):
        cluster = self.cluster
        self.process = Process(cluster.program, self.path, self.own, len(cluster.images), ROUND_TRIP, cluster.keys)
        self.process.begun()
        self.due = self.ticks = None

    def stop(self):
        if self.process:
            self.process.kill()
            self.process = None
            self.cluster.judge.killed(self)

    def pause(self):
        """The whole machine is stopped: what comes to it waits."""
        self.waiting = []

    def go_on(self):
        """It goes on, with all that came meanwhile."""
        lines, self.waiting = self.waiting, None
        for line in [*lines, b"tick %d"]:
            self.cluster.at(self.cluster.time, self, line)


class Cluster:
    """Machines, the network between them and what is to happen: `at` a time a line for a machine, or a call. `images` are their files."""

    def __init__(self, program, images, seed, faults=False, rates=IN_BOUND, keyed=False):
        self.program, self.images, self.random, self.faults = program, images, random.Random(seed), faults
        self.folder = tempfile.mkdtemp(prefix="leases", dir=MEMORY)
        self.keys = ()
        if keyed:
            self.keys = ("--key", os.path.join(self.folder, "key"), "--cluster", "orders")
            with open(os.open(self.keys[1], os.O_WRONLY | os.O_CREAT, 0o600), "w") as file:
                file.write("%064x\n" % self.random.getrandbits(256))
        self.time, self.events, self.order, self.lines, self.begun = 0, [], 0, 0, {}
        self.judge, self.watch = Judge(), lambda *_: None
        self.machines = [Machine(self, own, self.random.choice((*rates, self.random.randint(*rates))), image) for own, image in enumerate(images)]
        for machine in self.machines:
            machine.start()
            self.at(0, machine, b"tick %d")

    def close(self):
        for machine in self.machines:
            machine.stop()
        shutil.rmtree(self.folder)

    def at(self, time, what, *more):
        """At that time a line, with `%d` in the place of the clock, is told to a machine; or a call is made."""
        self.order += 1
        heapq.heappush(self.events, (time if time > self.time else self.time, self.order, what, more))

    def run(self, until, done=lambda: False):
        for _ in self.steps(until, done):
            pass

    def steps(self, until, done=lambda: False):
        """What happens until then, or until this is so. Between a yield and the next step the processes are at work, and nothing waits for them."""
        events = self.events
        while events and events[0][0] <= until and not done():
            end, batch = events[0][0] + LEAST, []
            while events and events[0][0] < end and len(batch) < 100:
                time, _, what, more = heapq.heappop(events)
                if isinstance(what, Machine):
                    batch.append((time, what, more[0]))
                    continue
                # a call comes behind the answers to what was told before it
                yield from self.tell(batch)
                batch, self.time = [], time
                what(*more)
                break
            yield from self.tell(batch)
        if not done():
            self.time = max(self.time, until)

    def tell(self, batch):
        """Tells lines, in the order of their times, and takes what the processes answer."""
        told, texts = [], {}
        for time, machine, line in batch:
            if not machine.process:
                continue
            now = machine.clock(time)
            if line is None:
                if machine.ticks != time:
                    continue  # one that isn't wanted any more
                machine.ticks, line = None, b"tick %d"
            if machine.waiting is not None:
                machine.waiting.append(line)
                continue
            told.append((time, now, machine))
            texts.setdefault(machine, []).append(line % now)
        for machine, lines in texts.items():
            machine.process.tell(b"\n".join(lines) + b"\n")
        yield
        answers = {machine: iter(machine.process.answers(len(lines))) for machine, lines in texts.items()}
        self.lines += len(told)
        for time, now, machine in told:
            self.time = time
            for line in next(answers[machine]):
                self.take(machine, now, line)
            self.judge.answered(machine, now)
        for machine in texts:
            self.wake(machine)

    def wake(self, machine):
        """Its process wants a tick."""
        if machine.due is not None:
            time = max(machine.shows(machine.due), self.time)
            if machine.ticks is None or time < machine.ticks:
                machine.ticks = time
                self.at(time, machine, None)

    def take(self, machine, now, line):
        words = line.split()
        kind = words[0]
        if kind == b"send":
            self.carry(machine, self.machines[int(words[1])], b"deliver %d " + words[2])
        elif kind == b"next":
            machine.due = int(words[1]) if len(words) > 1 else None
        elif kind == b"held":
            name = words[1].decode()
            if self.judge.held(machine, self.time, now, name, int(words[2]), int(words[3]), int(words[4])):
                self.watch(machine, name)
        elif kind == b"lost":
            self.judge.lost(machine, self.time, words[1].decode(), int(words[2]))
        elif kind == b"fault" or words[1] != (b"Stale" if self.keys else b""):
            self.judge.flaw("machine %d: %s", machine.own, line.decode())

    def carry(self, of, to, line):
        """A message goes. With faults one of five is lost, one of twenty comes twice, and one of fifty is late by up to two leases."""
        draw = self.random.random
        copies = 1
        if self.faults:
            which = draw()
            copies = 0 if which < 0.2 or self.time < of.cut_until or self.time < to.cut_until else 2 if which > 0.95 else 1
        for _ in range(copies):
            late = (0.3 + 0.4 * draw()) * TRIP
            if self.faults and draw() < 0.02:
                late = draw() * 200 * TRIP + LEAST
            self.at(self.time + int(late) + 1, to, line)
