"""`dumgerokctl judge --follow` over records that grow: of a cluster that is as it should be, and of one whose record lacks a message."""
import concurrent.futures, os, re, subprocess, threading, time

# The last line of an answer.
CLOSES = re.compile(r"(ok|refused|bad|fault) ")


class Mirror:
    """Copies the records of agents line by line as they grow. Once it is asked for, it leaves out a message that was sent, of the answer to one that came, or
    puts in one that came and that nobody sent."""

    def __init__(self, agents, folder):
        self.agents, self.folder = agents, folder
        self.read, self.lines, self.wanted, self.spoiled, self.runs = {}, {}, None, None, True
        # of each record the requests that have no answer yet: a record waits for none; the last one that was closed; the record in which later ones are one more
        self.asked, self.closed, self.later = {}, {}, None
        os.makedirs(folder)
        self.copy()
        self.thread = threading.Thread(target=self.run, daemon=True)
        self.thread.start()

    def paths(self):
        return [os.path.join(self.folder, name) for name in self.read]

    def run(self):
        while self.runs:
            self.copy()
            time.sleep(0.03)

    def copy(self):
        for name in sorted(name for name in os.listdir(self.agents.folder) if re.search(r"\.record\.\d+$", name)):
            with open(os.path.join(self.agents.folder, name), "rb") as file:
                file.seek(self.read.setdefault(name, 0))
                new = file.read()
            new = new[:new.rfind(b"\n") + 1]
            self.read[name] += len(new)
            with open(os.path.join(self.folder, name), "ab") as file:
                file.write("".join(self.taken(name, line) for line in new.decode().splitlines(True)).encode())

    def taken(self, name, line):
        """What stands in the copy for a line."""
        asked = self.asked.setdefault(name, [])
        if self.wanted == "lost" and not self.spoiled and line.startswith("send ") and asked and asked[0].startswith("> deliver "):
            self.spoiled = (name, self.lines[name] + 1, time.monotonic())
            return ""
        self.lines[name] = self.lines.get(name, 0) + line.count("\n")
        if self.wanted == "forged" and not self.spoiled and line.startswith("> tick ") and not asked:
            # the answer of a node to itself: no node sends that
            self.spoiled = (name, self.lines[name] + 1, time.monotonic())
            own = int(re.search(r"(\d+)\.", name)[1]) if re.search(r"(\d+)\.", name) else 0
            self.lines[name] += 2
            line = "> deliver 010a%02x%02x0008ffffffffffffff00\nok %d\n%s" % ((own + 1) % 3, own, self.closed.get(name, 0) + 1, line)
            self.later = name
        if line.startswith("start"):
            asked.clear()
            self.closed[name] = 0
            self.later = None if self.later == name else self.later
        elif line.startswith("> "):
            asked.append(line.splitlines()[-1])
        elif asked and CLOSES.match(line):
            asked.pop(0)
            words = line.split(" ")
            self.closed[name] = int(words[1])
            if self.later == name:
                # behind the request that was put in each has a number more
                line = " ".join([words[0], "%d%s" % (int(words[1]) + 1, "\n" if len(words) == 2 else ""), *words[2:]])
        return line

    def stop(self):
        self.runs = False
        self.thread.join()


def follow(bed, paths, *words):
    ctl = os.path.join(bed.programs, "dumgerokctl")
    return subprocess.Popen([ctl, "judge", "--follow", "--program", bed.program, *words, *paths], stdout=subprocess.PIPE, stderr=subprocess.PIPE, text=True)


def ended(process):
    """What it printed, and when it was over."""
    return (*process.communicate(timeout=60), time.monotonic())


def number(path, name):
    """A number that a monitor is told; none before the file is there."""
    try:
        with open(path) as file:
            return float(re.search(r"^dumgerok_judge_%s (.*)$" % name, file.read(), re.M)[1])
    except OSError:
        return None


def followed(bed):
    agents = bed.agents("followed", loss=0.02, twice=0.02, delay=(0.001, 0.006))
    check, metrics = bed.tally.check, os.path.join(bed.folder, "judge.prom")
    for i in range(3):
        agents.start(i)
    agents.one_group()
    mirrors = {what: Mirror(agents, os.path.join(bed.folder, what)) for what in ("lost", "forged")}
    right = follow(bed, [os.path.join(agents.folder, name) for name in mirrors["lost"].read], "--metrics", metrics)
    others = {what: follow(bed, mirror.paths()) for what, mirror in mirrors.items()}
    for turn in range(2):
        lead = agents.status(0)["coordinator"]
        agents.kill(lead)
        agents.one_group([i for i in range(3) if i != lead])
        agents.start(lead)
        agents.one_group()
        agents.ask(turn, do="submit", queue=turn, text="followed")
    time.sleep(2)
    check("a cluster that is as it should be is followed without an alarm", [each.poll() for each in (right, *others.values())] == [None] * 3,
          [each.communicate() for each in (right, *others.values()) if each.poll() is not None])
    agents.until(lambda: (number(metrics, "entries") or 0) > 100)
    entries = number(metrics, "entries")
    check("and the monitor is told", number(metrics, "alarm") == 0 and number(metrics, "absent_nodes") == 0, open(metrics).read())
    for what, mirror in mirrors.items():
        mirror.wanted = what
    with concurrent.futures.ThreadPoolExecutor() as pool:
        printed = dict(zip(others, pool.map(ended, others.values())))
    for what, late, mirror in (("lost", 2, mirrors["lost"]), ("forged", 3, mirrors["forged"])):
        out, errors, end = printed[what]
        took = end - mirror.spoiled[2]
        name, line = mirror.spoiled[:2]
        mirror.stop()
        with open(os.path.join(mirror.folder, name)) as file:
            ends = [at for at, text in enumerate(file.read().split("\n"), 1) if at >= line and text.startswith("ok ")]
        node = int(re.search(r"^# dumgerok record 1 node (\d+)", open(os.path.join(mirror.folder, name)).read())[1])
        said = re.fullmatch(r"alarm: look first at node (\d+), entry \d+, which ends in (.*), line (\d+)\n", out)
        check("%s: an alarm, and status 1" % what, others[what].returncode == 1 and said, (others[what].returncode, out, errors[-500:]))
        check("%s: it names the node, the file and the line" % what, said and (int(said[1]), said[2], int(said[3])) == (node, os.path.join(mirror.folder, name), ends[0]), (out, mirror.spoiled, ends[:2]))
        bed.tally.timed("%s: within %d s" % (what, late), took < late, took)
    check("and the one that is as it should be goes on", agents.until(lambda: number(metrics, "entries") > entries) >= 0 and right.poll() is None)
    right.kill()
    right.communicate()
