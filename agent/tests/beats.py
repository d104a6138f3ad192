"""What commands did that were led: when each ran, by a clock that is none of the agents', and for which epoch and shard."""
import collections, glob, os, subprocess, sys, time

# Without what is installed beside Python it begins in a quarter of the time: where many begin at once that counts as a pause of whoever they are led by.
BEAT = [sys.executable, "-S", "-E", os.path.join(os.path.dirname(os.path.abspath(__file__)), "beat.py")]
# A command that writes nothing for so long did nothing in that time: it was stopped.
GAP = 0.1

Beats = collections.namedtuple("Beats", "times path group members epoch shard")


def clock():
    return time.monotonic()


def command(path):
    """A command that beats."""
    return [*BEAT, path]


def family(path):
    """A command that beats, with a child that began a session of its own and one that lost its parent, both of which pass SIGTERM over."""
    beat = " ".join("'%s'" % word for word in [*BEAT, path])
    return ["sh", "-c", "setsid %s stubborn & (setsid sh -c \"%s stubborn & sleep 1000\" &) ; %s & wait" % (beat, beat, beat)]


def beats(path):
    """Those of all commands of a path, the first that began first."""
    rows = []
    for name in glob.glob(path + ".[0-9]*"):
        with open(name) as file:
            head, *lines = file.read().split("\n")[:-1] or [""]
        words = [None if word == "None" else word for word in head.split()[1:]] or [None] * 4
        rows.append(Beats([float(line) for line in lines], name, words[0], words[1], words[2] and int(words[2]), words[3] and int(words[3])))
    return sorted((row for row in rows if row.times), key=lambda row: row.times[0])


def lasts(path, within=float("inf")):
    """Of each command of a path that wrote something within so many seconds its shard, and when it beat last: without all that it wrote before."""
    for name in glob.glob(path + ".[0-9]*"):
        if time.time() - os.stat(name).st_mtime > within:
            continue
        with open(name, "rb") as file:
            words = file.readline().split()
            file.seek(max(file.tell(), os.path.getsize(name) - 64))
            lines = file.read().split(b"\n")[1 if file.tell() > 64 else 0:-1]
        if lines and len(words) == 5:
            yield (None if words[4] == b"None" else int(words[4])), float(lines[-1])


def last(path):
    return max((time_ for _, time_ in lasts(path)), default=0.0)


def runs(path):
    return clock() - last(path) < GAP


def running(path, within=3 * GAP):
    """The shards whose commands beat just now."""
    return {shard for shard, time_ in lasts(path, 1 + within) if clock() - time_ < within}


def spans(row):
    """The times in which a command ran."""
    begin = before = row.times[0]
    for time_ in row.times[1:] + [float("inf")]:
        if time_ - before > GAP:
            yield begin, before
            begin = time_
        before = time_


class ShardSpans:
    """Of each shard the times in which it was run, and by which machine. What was read isn't read again: the reader would take the machine's time from those
    whom it watches, and the more of it the longer they run."""

    def __init__(self, paths, shards):
        self.paths, self.shards, self.files = paths, shards, {}

    def look(self):
        """All so far; of each shard in the order of time."""
        found = {shard: [] for shard in range(self.shards)}
        for i, path in enumerate(self.paths):
            for name in glob.glob(path + ".[0-9]*"):
                shard, _, rows = self.files[name] = self.read(name, *self.files.get(name, (None, 0, [])))
                if shard is not None:
                    found[shard] += [(begin, end, i) for begin, end in rows]
        return {shard: sorted(rows) for shard, rows in found.items()}

    def read(self, name, shard, at, rows):
        if os.path.getsize(name) > at:
            with open(name, "rb") as file:
                file.seek(at)
                text = file.read()
            text = text[:text.rfind(b"\n") + 1]
            at, lines = at + len(text), text.split(b"\n")[:-1]
            if shard is None and lines:
                shard, lines = int(lines[0].split()[4]), lines[1:]
            for time_ in map(float, lines):
                if rows and time_ - rows[-1][1] <= GAP:
                    rows[-1][1] = time_
                else:
                    rows.append([time_, time_])
        return shard, at, rows


def overlap(paths, shard=None):
    """For how long commands of two of these paths ran at a time."""
    rows = [(begin, end, path) for path in paths for row in beats(path) if row.shard == shard for begin, end in spans(row)]
    return sum(max(0.0, min(a[1], b[1]) - max(a[0], b[0])) for at, a in enumerate(rows) for b in rows[at + 1:] if a[2] != b[2])


class Observer:
    """A command that nobody leads: how long it ever did nothing says what the machine does to the others."""

    def __init__(self, path):
        self.path = path
        self.process = subprocess.Popen(command(path))

    def longest(self):
        times = beats(self.path)[0].times
        return max((b - a for a, b in zip(times, times[1:])), default=0.0)

    def stop(self):
        self.process.kill()
        self.process.wait()


class Leads:
    """`dumgerokctl lead`, or another of its kind, at each of some agents."""

    def __init__(self, agents, words, of=command, **environment):
        self.agents, self.words, self.of, self.environment = agents, words, of, environment
        self.paths = [agents.path(i, "beat-" + "".join(words).replace("/", "")) for i in range(agents.count)]
        self.processes, self.observer = [None] * agents.count, None

    def judge(self, tally):
        """A check of what holds while clocks go right and keepers have their turn: timed where the machine kept a process like theirs from it for long."""
        return lambda name, is_so, said="": (tally.check if is_so or self.observer.longest() < GAP else tally.timed)(name, is_so, said)

    def start(self, i):
        self.observer = self.observer or Observer(self.agents.path(0, "observer-" + self.words[0]))
        words = [self.agents.ctl_path, "-s", self.agents.path(i, "sock"), *self.words, "--", *self.of(self.paths[i])]
        with open(self.paths[i] + ".log", "ab") as log:
            self.processes[i] = subprocess.Popen(words, stderr=log, env=dict(os.environ, **self.environment))

    def start_all(self):
        for i in range(self.agents.count):
            self.start(i)

    def leader(self, of=None):
        """Of these the one whose command runs now."""
        return next((i for i in (range(len(self.paths)) if of is None else of) if runs(self.paths[i])), None)

    def wait_for_leader(self, of=None):
        found = []
        self.agents.until(lambda: found.append(self.leader(of)) or found[-1] is not None)
        return found[-1]

    def stop(self):
        if self.observer:
            self.observer.stop()
        for process in self.processes:
            if process and process.poll() is None:
                process.kill()
                process.wait()
