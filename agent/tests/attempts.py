"""Jobs that fail: they are counted, given back, put aside and kicked, and keep no other from its turn; commands that run for too long, and a guard that is killed."""
import json, os, signal, subprocess, time

from bed import PATIENCE, is_there
from cluster import metric


class Client:
    """A connection that asks one thing after another; what comes beside answers stands in `events`."""

    def __init__(self, agents, i=0):
        self.link = agents.connect(i)
        self.reader, self.events = self.link.makefile(), []

    def ask(self, **request):
        self.link.sendall(json.dumps(request).encode() + b"\n")
        while True:
            line = json.loads(self.reader.readline())
            if "ok" in line:
                return line
            self.events.append(line)

    def close(self):
        self.reader.close()
        self.link.close()


def text_of(job):
    return bytes.fromhex(job["payload"]).decode()


def failing_jobs(bed):
    agents, check = bed.agents("attempts", count=1, record=None), bed.tally.check
    agents.start(0)
    agents.one_group()
    plain_worker(agents, check)
    given_back(agents, check)
    put_aside(agents, check)
    ended_commands(agents, check)
    killed_guard(agents, check, bed.tally.timed)
    agents.stop()


def plain_worker(agents, check):
    """A worker that knows nothing of failures: it ends its connection where its work fails."""
    for text in ("fails", "a", "b"):
        agents.ask(0, do="submit", queue=1, text=text)
    seen = []
    while len(seen) < 5 and {"a", "b"} - {text for text, _ in seen}:
        worker = Client(agents)
        job = worker.ask(do="take", queue=1, wait=True)
        seen.append((text_of(job), job["attempt"]))
        if text_of(job) != "fails":
            worker.ask(do="finish", origin=job["origin"], id=job["id"])
        worker.close()
    check("a job that fails keeps no other from a plain worker", seen == [("fails", 1), ("a", 1), ("b", 1)], seen)
    worker = Client(agents)
    job = worker.ask(do="take", queue=1, wait=True)
    check("which is given it again, and told how often it was", (text_of(job), job["attempt"]) == ("fails", 2), job)
    worker.ask(do="finish", origin=job["origin"], id=job["id"])
    worker.close()


def given_back(agents, check):
    """`finish` of a job that isn't done, and `take` of several queues over one connection."""
    one, other = Client(agents), Client(agents)
    for queue in (2, 3, 4):
        agents.ask(0, do="submit", queue=queue, text="of %d" % queue)
    jobs = [one.ask(do="take", queues=[2, 4]) for _ in range(3)]
    check("jobs of several queues are given over one connection", [job.get("queue") for job in jobs] == [2, 4, None] and jobs[2]["error"] == "NoJob", jobs)
    first = dict(origin=jobs[0]["origin"], id=jobs[0]["id"])
    refused = other.ask(do="finish", ok=False, **first)
    check("who doesn't have a job doesn't give it back", refused["error"] == "NotYours", refused)
    check("nor finishes it", other.ask(do="finish", **first)["error"] == "NotYours" and agents.ctl(0, "finish", *map(str, first.values())).returncode == 1)
    refused = [one.ask(do="finish", aside=True, **first), one.ask(do="finish", ok=False, after_ms=86400001, **first), other.ask(do="finish", ok=False, origin=9, id=9)]
    check("nor one that isn't in hand, or for too long", [one["error"] for one in refused] == ["Unreadable", "BadInterval", "UnknownJob"], refused)
    begin = time.monotonic()
    check("its holder does", one.ask(do="finish", ok=False, after_ms=1000, **first)["ok"])
    early = other.ask(do="take", queue=2)
    if not early["ok"] or time.monotonic() - begin < 1:
        check("and nobody is given it", early.get("error") == "NoJob", early)
    job = early if early["ok"] else other.ask(do="take", queue=2, wait=True)
    check("before its time", time.monotonic() - begin >= 1 and (job["id"], job["attempt"]) == (first["id"], 2), job)
    forced = agents.ctl(0, "finish", str(jobs[1]["origin"]), str(jobs[1]["id"]), "--force")
    told = one.ask(do="finish", origin=jobs[1]["origin"], id=jobs[1]["id"])
    stop = dict(event="stop", origin=jobs[1]["origin"], id=jobs[1]["id"])
    check("but by force, and its holder is told to stop", forced.returncode == 0 and told["error"] == "UnknownJob" and one.events[-1] == stop, (forced, told, one.events))
    for client, job in ((other, job), (other, other.ask(do="take", queue=3))):
        check("done", client.ask(do="finish", origin=job["origin"], id=job["id"])["ok"], job)
    one.close()
    other.close()


def put_aside(agents, check):
    watcher = Client(agents)
    watcher.ask(do="watch")
    agents.ask(0, do="submit", queue=5, text="poison")
    begin = time.monotonic()
    worker = subprocess.Popen([agents.ctl_path, "-s", agents.path(0, "sock"), "take", "--queue", "5,6", "--tries", "2", "--", "false"],
                              stderr=subprocess.PIPE, text=True)
    agents.until(lambda: agents.status(0)["aside"] == 1)
    check("a job that failed as often as it is tried is put aside, and not at once", time.monotonic() - begin >= 0.5, time.monotonic() - begin)
    row = agents.ask(0, do="jobs", queue=5)["jobs"]
    check("as `jobs` says", [(job["attempt"], job["aside"]) for job in row if not job["kept"]] == [(2, True)], row)
    check("and a metric", metric(agents, 0, "jobs_aside") == 1 and metric(agents, 0, 'jobs_total{event="aside"}') == 1)
    check("nobody is given it", agents.ask(0, do="take", queue=5)["error"] == "NoJob" and worker.poll() is None)
    worker.terminate()
    said = worker.communicate()[1]
    check("and its worker said so", "is put aside" in said, said)
    while "aside" not in [event["event"] for event in watcher.events]:
        watcher.events.append(json.loads(watcher.reader.readline()))
    check("watchers are told", watcher.events[-1]["id"] == row[0]["id"], watcher.events[-1])
    none = agents.ask(0, do="kick", queue=6), agents.ask(0, do="kick", origin=7, id=7), agents.ask(0, do="kick", origin=7)
    check("`kick` of others kicks none", [one.get("kicked") for one in none] == [0, 0, None] and none[2]["error"] == "Unreadable", none)
    kicked = agents.ctl(0, "kick", "--queue", "5")
    check("`kick` has it given again", kicked.returncode == 0 and kicked.stdout == "1 jobs may be given again\n", kicked)
    done = agents.ctl(0, "take", "--queue", "5", "--once", "--", "sh", "-c", 'test "$DUMGEROK_ATTEMPT" = 1')
    check("counted anew", done.returncode == 0 and agents.status(0)["aside"] == 0, done)
    watcher.close()
    # a job that kills its worker each time is put aside before it is begun once more
    agents.ask(0, do="submit", queue=5, text="deadly")
    for _ in range(2):
        client = Client(agents)
        client.ask(do="take", queue=5, wait=True)
        client.close()
    done = agents.ctl(0, "take", "--queue", "5", "--once", "--tries", "2", "--", "true")
    check("a job whose workers ended is put aside, too", done.returncode == 1 and agents.status(0)["aside"] == 1, done)
    agents.ctl(0, "kick")
    agents.ctl(0, "take", "--queue", "5", "--once", "--", "true")


def ended_commands(agents, check):
    """A command that runs for too long, and one that is told before."""
    agents.ask(0, do="submit", queue=7, text="long")
    said = os.path.join(agents.folder, "said")
    command = 'trap "echo ended >> %s; exit 1" TERM; sleep 1000 & wait' % said
    done = agents.ctl(0, "take", "--queue", "7", "--once", "--timeout", "3", "--grace", "60", "--", "sh", "-c", command)
    check("a command that runs for too long is told to end", open(said).read() == "ended\n" and "ran for too long" in done.stderr and done.returncode == 1, done)
    os.remove(said)
    begin = time.monotonic()
    command = 'trap "" TERM; echo $$ > %s; sleep 1000 & wait; sleep 1000' % said
    done = agents.ctl(0, "take", "--queue", "7", "--once", "--timeout", "3", "--grace", "0.5", "--", "sh", "-c", command)
    check("and killed where it doesn't", time.monotonic() - begin >= 3.5 and done.returncode == 1 and not is_there(int(open(said).read())), done)
    done = agents.ctl(0, "take", "--queue", "7", "--once", "--", "true")
    check("its job is given again", done.returncode == 0, done)


def killed_guard(agents, check, timed):
    """The process between a worker and its command is killed: the command isn't left beside the one that is begun next."""
    agents.ask(0, do="submit", queue=8, text="guarded")
    began = os.path.join(agents.folder, "began")
    worker = subprocess.Popen([agents.ctl_path, "-s", agents.path(0, "sock"), "take", "--queue", "8", "--", "sh", "-c", "sleep 1000 & echo $$ $! >> %s; wait" % began],
                              stderr=subprocess.DEVNULL)
    commands = lambda: [[int(pid) for pid in line.split()] for line in open(began)] if os.path.exists(began) else []
    agents.until(lambda: len(commands()) == 1)
    # a guard says right behind the begin which process its command is
    time.sleep(0.5)
    with open("/proc/%d/task/%d/children" % (worker.pid, worker.pid)) as file:
        os.kill(int(file.read().split()[0]), signal.SIGKILL)
    agents.until(lambda: len(commands()) == 2)
    timed("where a guard is killed its command is, with what it started, before it is begun again", not any(is_there(pid) for pid in commands()[0]), commands())
    worker.kill()
    worker.wait()
    end = time.monotonic() + PATIENCE
    while any(is_there(pid) for pid in commands()[1]) and time.monotonic() < end:
        time.sleep(0.01)
    check("and a worker that is killed leaves none", not any(is_there(pid) for pid in commands()[1]))
