"""Records of agents and nodes that are killed while they are asked many things at a time: what a kill leaves in doubt is borne by the judge, and what no doubt
covers isn't."""
import json, os, random, re, signal, threading, time

from cluster import judged
from records import CLOSES, answered

# What a client has on its way at a time.
AT_ONCE = 48
# So many answers before each start are taken away: then they are in doubt, though they count.
TAKEN_AWAY = (1, 3, 12)
LOST = "did one lose its end"


class Load:
    """Clients that submit much at a time, and workers that finish what they are given, at each machine."""

    def __init__(self, agents):
        self.agents, self.runs, self.kept = agents, True, 0
        works = [(work, i) for i in range(agents.count) for work in (self.submit, self.work)]
        self.threads = [threading.Thread(target=self.again, args=each, daemon=True) for each in works]
        for thread in self.threads:
            thread.start()

    def again(self, work, i):
        while self.runs:
            try:
                with self.agents.connect(i) as link:
                    work(link, link.makefile())
            except (OSError, ValueError, KeyError):
                time.sleep(0.02)

    def submit(self, link, reader):
        chance = random.Random(1)
        while self.runs:
            lines = [dict(do="submit", queue=chance.randrange(16), priority=chance.choice((0, 0, 9)), text="%08x" % chance.randrange(1 << 32)) for _ in range(AT_ONCE)]
            link.sendall(b"".join(json.dumps(line).encode() + b"\n" for line in lines))
            self.kept += sum(json.loads(reader.readline())["ok"] for _ in lines)
            time.sleep(0.005)

    def work(self, link, reader):
        link.sendall(b'{"do":"take","wait":true}\n' * 8)
        while self.runs:
            line = json.loads(reader.readline())
            if "payload" in line:
                link.sendall(json.dumps(dict(do="finish", origin=line["origin"], id=line["id"])).encode() + b'\n{"do":"take","wait":true}\n')

    def stop(self):
        self.runs = False


def killed(agents, chance, kills):
    """Kills agents and nodes under load, and starts them anew."""
    agents.start_all()
    agents.one_group()
    load = Load(agents)
    for turn in range(kills):
        time.sleep(chance.uniform(0.1, 0.5))
        i = chance.randrange(agents.count)
        if turn % 3 == 2:
            os.kill(agents.node(i), signal.SIGKILL)
            agents.processes[i].wait()
        else:
            agents.kill(i)
        agents.start(i)
        agents.until(lambda: (agents.status(i) or {}).get("alive"))
    load.stop()
    agents.until(lambda: all((agents.status(i) or {}).get("alive") for i in range(agents.count)))
    return load.kept


def records(agents):
    """The texts of all records, by their files."""
    files = sorted(os.path.join(agents.folder, name) for name in os.listdir(agents.folder) if re.search(r"\.record\.\d+$", name))
    return {path: open(path).read() for path in files}


def tokens(text):
    """The head, starts, requests and whole answers of a record."""
    found, answer = [], []
    for line in text.splitlines(keepends=True):
        if line[0] in ">#" or line.startswith("start"):
            answer = answer if line[0] == ">" else []
            found.append((line[0], line))
        else:
            answer.append(line)
            if CLOSES.match(line):
                found.append(("answer", "".join(answer)))
                answer = []
    return found


def doubts(text):
    """How many requests each kill left without an answer."""
    left, counts = 0, []
    for kind, _ in tokens(text):
        if kind == "s":
            counts.append(left)
        left = 0 if kind == "s" else left + (kind == ">") - (kind == "answer")
    return counts[1:]


def without_answers(text, count):
    """A record without the last answers before each start but the first."""
    kept, left, starts = [], 0, sum(kind == "s" for kind, _ in tokens(text))
    for kind, lines in reversed(tokens(text)):
        starts -= kind == "s"
        if kind == "answer" and left > 0 and "\nkeeps " not in lines:
            left -= 1
            continue
        left = count if kind == "s" and starts > 0 else left
        kept.append(lines)
    return "".join(reversed(kept))


def said_of(agents, texts):
    """What is said of records, of which some are spoiled."""
    folder = os.path.join(agents.folder, "spoiled")
    os.makedirs(folder, exist_ok=True)
    files = [os.path.join(folder, os.path.basename(path)) for path in texts]
    for file, text in zip(files, texts.values()):
        with open(file, "w") as out:
            out.write(text)
    return agents.ctl(0, "judge", "--program", agents.program, *files)


def is_run(done):
    return done.returncode == 0 and done.stdout.startswith("Run")


def is_borne(done):
    """A run, or one of which a record lost its end: what others heard of it is missing."""
    return is_run(done) or (done.returncode == 1 and LOST in done.stderr)


def short(done):
    return done.returncode, done.stdout[-100:], done.stderr[-400:]


def recorded(bed):
    """One machine alone, whose record nobody else's has to fit, and three."""
    for count, kills, borne in ((1, 9, is_run), (3, 15, is_borne)):
        chance, agents = random.Random(bed.seed + count), bed.agents("recorded%d" % count, count=count, slots=2048)
        kept = killed(agents, chance, kills)
        name = "%d machine%s" % (count, "s" * (count > 1))
        judged(bed, agents, "%s killed under load" % name)
        texts = records(agents)
        left = [one for text in texts.values() for one in doubts(text)]
        bed.tally.note("%s: %d jobs; requests that kills left in doubt: %s" % (name, kept, left))
        bed.tally.timed("%s: kills left more than one request in doubt" % name, sum(one > 1 for one in left) >= 2, left)
        taken_away(bed, agents, name, texts, borne)
        cut(bed, agents, chance, name, texts, borne)
        wrong(bed, agents, name, texts)


def taken_away(bed, agents, name, texts, borne):
    """Answers that kills cost, though what they say was done and kept: of all records but the first one they stay."""
    path = next(iter(texts))
    for number in TAKEN_AWAY:
        done = said_of(agents, {**texts, path: without_answers(texts[path], number)})
        bed.tally.check("%s: without the last %d answers before each start nothing is held against it" % (name, number), borne(done), short(done))


def cut(bed, agents, chance, name, texts, borne):
    """A record that ends anywhere in its last kilobytes."""
    path = max(texts)
    text, failed = texts[path], []
    for at in sorted(chance.sample(range(len(text) - 6000, len(text)), 24)):
        if "\nstart" in text[at:]:
            continue
        done = said_of(agents, {**texts, path: text[:at]})
        if not borne(done):
            failed.append((at, short(done)))
    bed.tally.check("%s: a record that ends anywhere in its last kilobytes is borne" % name, not failed, failed[:2])


def sent_in(text):
    """Messages of answers to messages, and where they stand: what a tick sends again no event of a trace has."""
    answers = [(begin, lines) for request, lines, begin in answered(text) if request and request.startswith("deliver ") and lines[0].startswith("send ")]
    return [(begin, lines[0]) for begin, lines in answers]


def wrong(bed, agents, name, texts):
    """An answer before the doubtful end that the node can't have given."""
    path = next(iter(texts))
    text = texts[path]
    last = list(re.finditer(r"^ok \d+ id (\d+)\n", text[:text.rindex("\nstart")], re.M))[-1]
    another = text[:last.start(1)] + str(int(last[1]) + 1) + text[last.end(1):]
    done = said_of(agents, {**texts, path: another})
    bed.tally.check("%s: another id before the doubtful end is refused" % name, not is_borne(done) and done.returncode in (1, 2), short(done))
    before = text[:text.rindex("\nstart")]
    if len(texts) == 1:
        # nobody else can have ended it meanwhile
        gone = list(re.finditer(r"^gone \d+\n", before, re.M))[-1]
        name_of, spoiled = "an end of a job that isn't said", text[:gone.start()] + text[gone.end():]
    else:
        begin, line = sent_in(before)[-1]
        name_of, spoiled = "a message that isn't said", text[:begin] + text[begin + len(line):]
    done = said_of(agents, {**texts, path: spoiled})
    bed.tally.check("%s: so is %s" % (name, name_of), not is_borne(done) and done.returncode in (1, 2), short(done))
