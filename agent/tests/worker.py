"""`dumgerokctl take -- COMMAND` that is stopped: what the command started is ended with it."""
import json, os, signal, subprocess, time

from bed import PATIENCE, is_there
from cluster import metric

# A command that starts another one, says which, and waits for it.
COMMAND = ["sh", "-c", 'sleep 1000 & echo $! > "$0.new"; mv "$0.new" "$0"; wait']


def begun(agents, i, name):
    """A worker at agent i whose command runs, and the process that the command started."""
    said = os.path.join(agents.folder, name)
    # what a shell runs in the background ignores SIGINT, and so would the worker
    default = lambda: signal.signal(signal.SIGINT, signal.SIG_DFL)
    worker = subprocess.Popen([agents.ctl_path, "-s", agents.path(i, "sock"), "take", "--", *COMMAND, said], stderr=subprocess.DEVNULL, preexec_fn=default)
    agents.until(lambda: os.path.exists(said) or worker.poll() is not None)
    with open(said) as file:
        return worker, int(file.read())


def ended(bed, started, name):
    end = time.monotonic() + PATIENCE
    while is_there(started) and time.monotonic() < end:
        time.sleep(0.01)
    if not bed.tally.check(name, not is_there(started)):
        os.kill(started, signal.SIGKILL)


def asked(agents, **request):
    """The lines that a client is told which asks this at agent 0."""
    with agents.connect(0) as link:
        link.sendall(json.dumps(request).encode() + b"\n")
        return link.makefile()


def stopped_worker(bed):
    """By a signal, by its job that goes to another node, by its agent's end."""
    agents, check = bed.agents("worker", count=2), bed.tally.check
    done = agents.ctl(0, "take", "--", "no-such-command")
    check("a command that isn't there: 2", done.returncode == 2 and "no-such-command" in done.stderr, done)
    agents.start(0)
    agents.one_group([0])
    agents.ask(0, do="submit", queue=1, text="x")
    for number in (signal.SIGTERM, signal.SIGINT):
        worker, started = begun(agents, 0, "by-%d" % number)
        worker.send_signal(number)
        check("a signal ends a worker", worker.wait(PATIENCE) == -number, worker.returncode)
        agents.until(lambda: not is_there(started))
    worker, started = begun(agents, 0, "by-SIGKILL")
    worker.kill()
    worker.wait()
    ended(bed, started, "what a command started ends with a worker that is killed")
    # in a group of two the second one works on queues 1 and 3
    watching, taker = asked(agents, do="watch"), asked(agents, do="take", queue=3, wait=True)
    agents.ask(0, do="submit", queue=3, text="y")
    job = json.loads(taker.readline())
    worker, started = begun(agents, 0, "elsewhere")
    agents.start(1)
    agents.one_group()
    agents.until(lambda: not is_there(started))
    agents.until(lambda: metric(agents, 0, "clients_waiting") == 1 or worker.poll() is not None)
    check("a worker whose job went to another node goes on", worker.poll() is None, worker.returncode)
    stop = json.loads(taker.readline())
    check("a client whose job went there is told to stop", stop == dict(event="stop", origin=job["origin"], id=job["id"]), (job, stop))
    worker.send_signal(signal.SIGTERM)
    check("and is ended by a signal while it waits", worker.wait(PATIENCE) == -signal.SIGTERM, worker.returncode)
    worker, started = begun(agents, 1, "without-agent")
    agents.kill(1)
    check("a worker whose agent ended: 3", worker.wait(PATIENCE) == 3, worker.returncode)
    agents.until(lambda: not is_there(started))
    done = agents.ctl(0, "take", "--once", "--", "sh", "-c", 'test "$(cut -d " " -f 6 /proc/$$/stat)" = $$')
    check("a command is run in a session of its own", done.returncode == 0, done)
    told = []
    while "gone" not in told:
        told.append(json.loads(watching.readline())["event"])
    check("and a watcher of all that", {"state", "take", "drop", "group", "gone"} <= set(told), told)
    agents.stop()


def submitted(agents, texts):
    with agents.connect(0) as link:
        link.sendall(b"".join(json.dumps(dict(do="submit", queue=1, text=text)).encode() + b"\n" for text in texts))
        reader = link.makefile()
        return [json.loads(reader.readline())["ok"] for _ in texts].count(True)


def lasting_worker(bed):
    """One worker for more jobs than an agent has clients, and a job whose command always fails among others."""
    agents, check, count = bed.agents("lasting_worker", count=1, slots=1024, record=None), bed.tally.check, 300
    agents.start(0)
    agents.one_group()
    check("all are kept", submitted(agents, ["x"] * count) == count)
    kept = lambda: metric(agents, 0, "jobs_pending")
    worker = subprocess.Popen([agents.ctl_path, "-s", agents.path(0, "sock"), "take", "--", "true"], stderr=subprocess.PIPE, text=True)
    agents.until(lambda: kept() == 0 or worker.poll() is not None)
    said = worker.communicate()[1] if worker.poll() is not None else ""
    check("a worker goes on for more jobs than an agent has clients", worker.poll() is None and kept() == 0, (said, kept()))
    check("and has one connection", metric(agents, 0, "clients") <= 2, metric(agents, 0, "clients"))
    worker.kill()
    worker.communicate()
    tries = os.path.join(agents.folder, "tries")
    command = 'read -r job; [ "$job" != fails ] || { echo x >> "$0"; exit 1; }'
    check("ten are kept", submitted(agents, ["fails"] + ["x\n"] * 9) == 10)
    worker = subprocess.Popen([agents.ctl_path, "-s", agents.path(0, "sock"), "take", "--", "sh", "-c", command, tries], stderr=subprocess.DEVNULL)
    agents.until(lambda: kept() == 1 or worker.poll() is not None)
    check("a job whose command fails keeps no other from its turn", kept() == 1, kept())
    agents.until(lambda: len(open(tries).read()) >= 6 or worker.poll() is not None)
    check("and is tried again", worker.poll() is None)
    worker.kill()
    worker.wait()
    with open("/dev/full", "w") as full:
        words = [agents.ctl_path, "-s", agents.path(0, "sock"), "take", "--once", "--", "false"]
        done = subprocess.run(words, stderr=full, timeout=PATIENCE)
        check("a worker bears a standard error that is full", done.returncode == 1, done)
        done = subprocess.run([agents.daemon, agents.path(0, "nowhere")], stderr=full, timeout=PATIENCE)
        check("and an agent, too", done.returncode == 2, done)
    agents.until(lambda: agents.ctl(0, "take", "--once", "--", "true").returncode == 0)
    check("by another worker, too, once that one is gone", kept() == 0)
    check("one is kept", submitted(agents, ["by hand"]) == 1)
    given = agents.ctl(0, "take")
    words = [agents.ctl_path, "finish", *given.stdout.split()[:2], "-s", agents.path(0, "sock")]
    done = subprocess.run(words, capture_output=True, text=True, timeout=PATIENCE)
    check("`finish` takes what `take` prints of a job, and the socket behind it", done.returncode == 0 and kept() == 0, (given, done))
    agents.stop()
