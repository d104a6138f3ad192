"""Who asked: what changes a machine for all its clients stands in the log with who asked for it, and a group of those who may is named by the configuration."""
import json, os, shutil, socket, subprocess, sys, tempfile

from bed import PATIENCE
from cluster import metric
from enemies import logged

# A client of another user: of the group of the socket, and of one more.
ANOTHER = 65534
# What it asks, one by one.
CLIENT = """
import json, socket, sys
path, requests = sys.argv[1], json.loads(sys.argv[2])
link = socket.socket(socket.AF_UNIX, socket.SOCK_STREAM)
link.connect(path)
reader = link.makefile()
for request in requests:
    link.sendall(json.dumps(request).encode() + b"\\n")
    print(reader.readline(), end="")
"""


def asked(bed):
    """compact, record, drain and the end of another client's job."""
    if os.geteuid() != 0 or not shutil.which("setpriv"):
        return bed.tally.left_out("who asked", "this is not root, or there is no setpriv")
    # the one of these tests may lie where other users have no way
    python = next((path for path in ("/usr/bin/python3", sys.executable) if as_another([], [path, "-c", ""]).returncode == 0), None)
    if not python:
        return bed.tally.left_out("who asked", "another user can't run Python here")
    agents, check = bed.agents("asked", count=1, record=None), bed.tally.check
    folder = tempfile.mkdtemp(prefix="dumgerok-asked-")
    try:
        os.chmod(folder, 0o755)
        path = os.path.join(folder, "sock")
        # group 4 is one that each system of Debian has
        agents.write(0, socket=path, record=None, admin_group="4")
        agents.start(0)
        agents.until(lambda: os.path.exists(path) and all_as(python, path, [4], [dict(do="status")])[0].get("alive"))
        refused(agents, check, python, path)
        permitted(agents, check, python, path)
    finally:
        agents.stop()
        shutil.rmtree(folder)


def as_another(groups, words):
    """Runs words as another user, of these groups."""
    of_groups = ["--groups", ",".join(map(str, groups))] if groups else ["--clear-groups"]
    return subprocess.run(["setpriv", "--reuid", str(ANOTHER), "--regid", "0", *of_groups, *words], stdout=subprocess.PIPE, stderr=subprocess.PIPE, text=True, timeout=PATIENCE)


def all_as(python, path, groups, requests):
    """What a client of another user, of these groups, is answered."""
    done = as_another(groups, [python, "-c", CLIENT, path, json.dumps(requests)])
    answers = [json.loads(line) for line in done.stdout.splitlines()]
    return answers if len(answers) == len(requests) else [dict(error=done.stderr[-300:])] * len(requests)


CHANGES = [dict(do="compact"), dict(do="record", on=True), dict(do="record", on=False), dict(do="drain"), dict(do="drain", on=False)]
NAMES = ["compact", "record on", "record off", "drain", "drain off"]


def held_job(path):
    """A client that works on a job, and that job."""
    link = socket.socket(socket.AF_UNIX, socket.SOCK_STREAM)
    link.settimeout(PATIENCE)
    link.connect(path)
    reader = link.makefile()
    link.sendall(b'{"do":"submit","queue":0,"text":"x"}\n{"do":"take","wait":true}\n')
    answers = [json.loads(reader.readline()) for _ in range(2)]
    return link, reader, {name: answers[0][name] for name in ("origin", "id")}


def refused(agents, check, python, path):
    answers = all_as(python, path, [], CHANGES)
    check("what changes the machine for all is refused to who isn't of the group", [one.get("error") for one in answers] == ["NotPermitted"] * 5, answers)
    check("and nothing of it is done", (metric(agents, 0, "compactions_total"), metric(agents, 0, "recorded")) == (0, 0))
    check("the log says what, and who", all(logged(agents, 0, "%s: refused to user nobody, process " % name) for name in NAMES))
    link, reader, job = held_job(path)
    answers = all_as(python, path, [], [dict(do="finish", **job), dict(do="finish", force=True, **job), dict(do="finish", ok=False, aside=True, force=True, **job)])
    check("so is the end of another client's job", [one.get("error") for one in answers] == ["NotYours", "NotPermitted", "NotPermitted"], answers)
    link.sendall(json.dumps(dict(do="finish", **job)).encode() + b"\n")
    said = json.loads(reader.readline())
    check("who has it ends it", said == dict(ok=True), said)
    answers = all_as(python, path, [], [dict(do="submit", queue=0, text="y"), dict(do="take", wait=True), dict(do="members")])
    check("all else is anybody's", all(one.get("ok") for one in answers), answers)
    link.close()


def permitted(agents, check, python, path):
    answers = all_as(python, path, [4], CHANGES)
    check("who is of the group may", all(one.get("ok") for one in answers), answers)
    check("it is done", metric(agents, 0, "compactions_total") == 1 and metric(agents, 0, "compactions_seconds_total") > 0)
    check("the log says who asked for it", all(logged(agents, 0, "%s: asked for by user nobody, process " % name) for name in NAMES))
    link, reader, job = held_job(path)
    answers = all_as(python, path, [4], [dict(do="finish", force=True, **job)])
    check("also for the end of another client's job, who is told so", answers == [dict(ok=True)] and json.loads(reader.readline()).get("event") == "stop", answers)
    check("and root may", next(iter(ask_as_root(path))).get("ok") and logged(agents, 0, "compact: asked for by user root, process "))
    link.close()


def ask_as_root(path):
    done = subprocess.run([sys.executable, "-c", CLIENT, path, json.dumps([dict(do="compact")])], stdout=subprocess.PIPE, text=True, timeout=PATIENCE)
    return [json.loads(line) for line in done.stdout.splitlines()]
