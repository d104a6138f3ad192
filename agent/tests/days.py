"""`dumgerokctl judge --follow` over hours that pass in minutes: nodes under a clock of this script, as tests/node/pacing.py has them, with jobs, kills and cuts. What it forgets changes no verdict."""
import concurrent.futures, os, random, re, subprocess, sys, time

HERE = os.path.dirname(os.path.abspath(__file__))
sys.path.append(os.path.join(HERE, "../../tests/node"))
import pacing
from followed import follow, number
from records import CLOSES

HEAD = "# dumgerok record 1 node %d of %d part 1 cluster days\n"
MINUTE, HOUR = 60_000, 3_600_000
# An alarm, or that there is none, is waited for so many seconds.
LONG = 300
# Where so long nothing is new all was read.
QUIET = 8


class Recorded(pacing.Node):
    """A node whose requests and answers are written down as an agent does."""

    def __init__(self, bed, own):
        super().__init__(bed, own)
        self.path_of_record = os.path.join(bed.folder, "%d.record.1" % own)
        self.record = open(self.path_of_record, "w")
        self.record.write(HEAD % (own, bed.nodes))

    def start(self):
        self.record.write("start 1764000000000\n")
        super().start()

    def ask(self, line):
        lines = ["> %s\n" % line]
        self.process.stdin.write(line.encode() + b"\n")
        self.process.stdin.flush()
        while not CLOSES.match(lines[-1]):
            lines.append(self.process.stdout.readline().decode())
            words = lines[-1].split()
            if words[0] == "send":
                self.bed.send(self.own, int(words[1]), words[2], "tick" in line)
            elif words[0] == "group":
                self.group = words[1:]
            elif words[0] == "next":
                self.due = int(words[1])
            elif words[0] == "take":
                self.bed.at(self.bed.now + self.bed.random.randrange(50, 3000), "finish", self.own, words[1:3])
        self.record.write("".join(lines))


class Day(pacing.Bed):
    """Three nodes, or more, and what is done to them."""

    def __init__(self, program, still, folder, seed, nodes=3, job_each=20_000, kill_each=10 * MINUTE):
        super().__init__(program, still, folder, 0, 20, 3, loss=0.01, seed=seed)
        self.nodes, self.job_each, self.kill_each, self.marks, self.kills, self.jobs = nodes, job_each, kill_each, [], 0, 0
        self.node = [Recorded(self, own) for own in range(nodes)]
        self.cut = None
        self.lost = lambda a, b: self.cut in (a, b)

    def send(self, sender, receiver, message, again):
        super().send(sender, receiver, message, again)
        if self.random.random() < 0.01:
            super().send(sender, receiver, message, again)

    def pass_by(self, until):
        """Goes on until this time, and notes by each minute how long the records are."""
        for what, pause in (("submit", self.job_each), ("kill", self.kill_each), ("cut", 2 * self.kill_each)):
            self.at(self.now + pause, what, 0, pause)
        while self.queue and self.queue[0][0] <= until:
            at, _, what, own, data = pacing.heapq.heappop(self.queue)
            while not self.marks or self.marks[-1][0] + MINUTE <= at:
                self.marks.append((self.marks[-1][0] + MINUTE if self.marks else self.now, [node.record.tell() for node in self.node]))
            self.now = max(self.now, at)
            getattr(self, "on_" + what)(self.node[own], data)
        for node in self.node:
            node.record.flush()

    def on_deliver(self, node, message):
        if node.process is not None:
            if node.due is not None and self.now < node.due:
                node.tick()
            node.ask("deliver %s" % message)
            node.tick()

    def on_tick(self, node, due):
        if node.process is not None and due == node.due:
            node.tick()

    def on_finish(self, node, job):
        if node.process is not None:
            node.ask("finish %s" % " ".join(job))
            node.tick()

    def on_submit(self, _, pause):
        self.at(self.now + self.random.randrange(pause // 2, 2 * pause), "submit", 0, pause)
        leading = [node for node in self.node if node.process is not None and node.group and node.group[0] == "Normal" and int(node.group[1]) == node.own]
        if leading:
            self.jobs += 1
            self.random.choice(leading).ask("submit %d %04x" % (self.random.randrange(16), self.random.randrange(1 << 16)))

    def on_kill(self, _, pause):
        self.at(self.now + self.random.randrange(pause // 2, 2 * pause), "kill", 0, pause)
        node = self.random.choice(self.node)
        if node.process is not None:
            self.kills += 1
            node.kill()
            self.at(self.now + self.random.randrange(3000, MINUTE), "start", node.own, None)

    def on_start(self, node, _):
        node.start()

    def on_cut(self, _, pause):
        self.cut = self.random.randrange(self.nodes)
        self.at(self.now + self.random.randrange(5000, MINUTE), "mend", 0, pause)

    def on_mend(self, _, pause):
        self.cut = None
        self.at(self.now + pause, "cut", 0, pause)

    def end(self):
        for node in self.node:
            node.kill()

    def texts(self):
        return [open(node.path_of_record).read() for node in self.node]

    def split(self, share):
        """How long the records were when this share of the time had gone by."""
        return self.marks[int(share * (len(self.marks) - 1))][1]


def day_of(bed, name, length, **more):
    """A day that went by, its records and its nodes' files in a folder."""
    folder, still = os.path.join(bed.folder, name), os.path.join(bed.folder, "still_clock.so")
    os.makedirs(folder)
    subprocess.run(["cc", "-shared", "-fPIC", "-O1", "-o", still, os.path.join(HERE, "../../tests/shim/still_clock.c"), "-ldl"], check=True)
    day = Day(bed.program, still, folder, bed.seed, **more)
    day.start()
    day.pass_by(day.now + length)
    day.end()
    bed.tally.note("%s: %.1f hours, %d jobs, %d kills, %d bytes" % (name, length / HOUR, day.jobs, day.kills, sum(map(len, day.texts()))))
    return day


class Copied:
    """Records in a folder of their own: up to some place each, and then the rest."""

    def __init__(self, folder, texts, ends):
        os.makedirs(folder)
        self.paths, self.texts, self.ends = [os.path.join(folder, "%d.record.1" % own) for own in range(len(texts))], texts, ends
        self.metrics = os.path.join(folder, "judge.prom")
        for path, text, end in zip(self.paths, texts, ends):
            with open(path, "w") as file:
                file.write(text[:end])

    def go_on(self):
        for path, text, end in zip(self.paths, self.texts, self.ends):
            with open(path, "a") as file:
                file.write(text[end:])

    def entries_left(self):
        return (number(self.metrics, "entries") or 0) - (number(self.metrics, "forgotten_entries") or 0)


def until(what, seconds=LONG):
    end = time.monotonic() + seconds
    while time.monotonic() < end:
        if what():
            return True
        time.sleep(0.05)
    return False


def alarm_of(bed, copied):
    """What is said where the second part of records comes once the first was judged, and of that something forgotten. None where nothing is."""
    process = follow(bed, copied.paths, "--metrics", copied.metrics)
    try:
        if not until(lambda: (number(copied.metrics, "forgotten_entries") or 0) > 0 or process.poll() is not None) or process.poll() is not None:
            return "nothing was forgotten: %s" % (process.communicate() if process.poll() is not None else "",)
        copied.go_on()
        before = number(copied.metrics, "entries")
        until(lambda: process.poll() is not None or number(copied.metrics, "entries") > before, 20)
        until(lambda: process.poll() is not None, 8)
        return " ".join(process.communicate()) if process.poll() is not None else None
    finally:
        process.kill()
        process.communicate()


def numbered(text):
    """The text with its answers closed by the numbers of their requests."""
    lines, closed = text.splitlines(keepends=True), 0
    for at, line in enumerate(lines):
        if line.startswith("start"):
            closed = 0
        elif CLOSES.match(line):
            closed += 1
            lines[at] = re.sub(r"\d+", str(closed), line, count=1)
    return "".join(lines)


def raised(found):
    return found[1] + "%016x" % (int(found[2], 16) + 1) + found[3]


# What is turned, and what stands in its place. A message is VERSION KIND SENDER RECEIVER LENGTH, and then its group or its answer.
WAYS = [
    ("an answer that wasn't sent", r"^send \d 010[24].*\n", ""),
    ("a question that wasn't sent", r"^send \d 010[13].*\n", ""),
    ("yes for no", r"^(send \d 0102\w{4}0001)00(.*\n)", r"\g<1>01\2"),
    ("no for yes", r"^(send \d 0104\w{4}000a\w{18})01(.*\n)", r"\g<1>00\2"),
    ("another group", r"^(send \d 010[34]\w{4}00\w\w\w\w)(\w{16})(.*\n)", raised),
    ("a message twice", r"^(send \d 010[1-4].*\n)", r"\1\1"),
    ("one that nobody sent", r"^(> tick .*\n)", "> deliver 010a%02x%02x0008ffffffffffffff00\nok 0\n\\1"),
    ("an answer that didn't come", r"^> deliver 0104\w+01\n(next \d+\n)?ok.*\n", ""),
    ("no answer that came", r"^> deliver 0102\w{4}000100\n(next \d+\n)?ok.*\n", ""),
    ("another timer", r"^fired check\n", "fired coord\n"),
    ("a timer less", r"^fired coord\n", ""),
    ("a timer more", r"^(fired check\n)", r"fired merge\n\1"),
    ("a group that wasn't told", r"^group .*\n", ""),
    ("a job that wasn't taken", r"^take .*\n", ""),
]


def spoiled(texts, ends, chance, pattern, new):
    """The texts with one place turned behind the first parts; none where there is no such place."""
    own = chance.randrange(len(texts))
    if isinstance(new, str) and "%02x" in new:
        new = new % ((own + 1) % len(texts), own)
    found = [place for place in re.finditer(pattern, texts[own], re.M) if place.start() >= ends[own]]
    if not found:
        return None
    place = chance.choice(found)
    turned = new(place) if callable(new) else place.expand(new)
    return [numbered(text[:place.start()] + turned + text[place.end():]) if one == own else text for one, text in enumerate(texts)]


def named(said):
    """The node and its entry where an entry can't be; where something was told otherwise the record and the line. None where all that is left waits."""
    found = re.search(r"look first at node (\d), entry (\d+)\nnode", said) or re.search(r"in the answer that ends in \S*(\d)\.record\.1, line (\d+)", said)
    return found and found.groups()


def named_by_alarm(said, name, is_told):
    found = re.search(r"alarm: look first at node (\d), entry (\d+), which ends in \S*(\d)\.record\.1, line (\d+)", said)
    return found and (found.groups()[2:] if is_told else found.groups()[:2]) == name


def compared(bed, day, ways, share=0.6):
    """Each way at some place behind the first part: what is said is what `judge` says of the whole."""
    chance, check = random.Random(bed.seed), bed.tally.check
    texts, ends = day.texts(), day.split(share)

    def tried(at, way):
        name, pattern, new = way
        with_it = spoiled(texts, ends, random.Random(chance.random()), pattern, new)
        if with_it is None:
            return name, None, None
        whole = Copied(os.path.join(day.folder, "whole-%d" % at), with_it, [len(text) for text in with_it])
        done = subprocess.run([os.path.join(bed.programs, "dumgerokctl"), "judge", "--program", bed.program, *whole.paths], capture_output=True, text=True)
        return name, done, alarm_of(bed, Copied(os.path.join(day.folder, "grown-%d" % at), with_it, ends))

    with concurrent.futures.ThreadPoolExecutor(3) as pool:
        results = list(pool.map(tried, range(len(ways)), ways))
    wrong = 0
    for name, done, said in results:
        if done is None:
            continue
        is_run = done.returncode == 0
        wrong += not is_run
        check("%s: what is forgotten changes no verdict" % name, (said is None) == is_run and (is_run or "alarm" in said), (done, said))
        if named(done.stderr):
            check("%s: the same is named" % name, said and named_by_alarm(said, named(done.stderr), "in the answer" in done.stderr), (done.stderr, said))
    check("most of these are no runs", wrong > len(ways) / 2, wrong)


def followed_on(bed, day, share=0.6):
    """The records as they are: no alarm, and of the second part, too, most is forgotten."""
    check, copied = bed.tally.check, Copied(os.path.join(day.folder, "right"), day.texts(), day.split(share))
    process = follow(bed, copied.paths, "--metrics", copied.metrics)
    first = until(lambda: (number(copied.metrics, "forgotten_entries") or 0) > 0)
    copied.go_on()
    before, most, since = 0, 0, time.monotonic()
    # until nothing more comes: what is in it, and in the program that it asks
    while process.poll() is None and time.monotonic() < since + QUIET:
        most = max(most, memory(process.pid))
        before, since = (before, since) if number(copied.metrics, "entries") == before else (number(copied.metrics, "entries"), time.monotonic())
        time.sleep(0.02)
    check("a day as it should be is followed without an alarm", process.poll() is None, process.poll() is not None and process.communicate())
    check("and to its end", number(copied.metrics, "waiting_nodes") == 0, open(copied.metrics).read())
    left = copied.entries_left()
    check("what repeats is forgotten", first and left < 0.5 * number(copied.metrics, "entries"), open(copied.metrics).read())
    bed.tally.note("of %d entries %d are left with %d bytes; at most %d kB" % (number(copied.metrics, "entries"), left, number(copied.metrics, "entry_bytes"), most))
    process.kill()
    process.communicate()


def memory(pid):
    """kB of a process and those that it began."""
    try:
        with open("/proc/%d/task/%d/children" % (pid, pid)) as file:
            pids = [pid, *map(int, file.read().split())]
        return sum(int(re.search(r"VmRSS:\s*(\d+)", open("/proc/%d/status" % one).read())[1]) for one in pids)
    except (OSError, TypeError):
        return 0


def forgotten(bed):
    """Twenty minutes."""
    day = day_of(bed, "forgotten", 20 * MINUTE, kill_each=3 * MINUTE)
    followed_on(bed, day)
    compared(bed, day, WAYS)


def day(bed):
    """A day and a night."""
    whole = day_of(bed, "day", 24 * HOUR, kill_each=30 * MINUTE)
    followed_on(bed, whole, 0.5)
    compared(bed, whole, WAYS * 3, 0.9)
