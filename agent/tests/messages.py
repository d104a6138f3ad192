"""What is said to an operator who made a mistake, or whose machine or network did: what it is, where, and what to do."""
import os, re, shutil, signal, subprocess, tempfile, time

from bed import HERE, PATIENCE
from cluster import metric
from machine import compiled, ends

KEY = "0a" * 32 + "\n"


def configurations(agents, check):
    """Settings by their line, a program that may not be run, an address of another machine."""
    for more, said in ((dict(tick=3), r": line \d+: there is no setting tick "), (dict(log="loud"), r": line \d+: log: unknown variant `loud`, expected one of `error`"),
                       (dict(id=None), ": the setting id is missing$"), (dict(http="localhost:80"), r": line \d+: http: is an address with a port"),
                       (dict(record_mb="9"), r": line \d+: record_mb: .* expected a number$")):
        agents.write(0, **more)
        status, told = ends(agents)
        check("a configuration with %s: what and where" % more, status == 2 and re.search(said, told.strip()), (status, told))
    text = os.path.join(agents.folder, "text")
    with open(text, "w") as file:
        file.write("#!/bin/sh\n")
    os.chmod(text, 0o644)
    for more, said in ((dict(program=text), "it may not be run (mode 0644)"), (dict(program="/nowhere/invite"), "there is no such program"),
                       (dict(listen=None, nodes=["198.51.100.1:7000"]), "`nodes` has it for `id` 0, and there is no `listen`): is `id` this machine's?"),
                       (dict(listen="198.51.100.1:7000"), "this machine has no such address (`listen` has it)")):
        agents.write(0, record=None, **more)
        status, told = ends(agents)
        check("%s: what and where" % sorted(more), status == 1 and said in told, (status, told))


def key_files(agents, check):
    """Each fault of a key file has a text of its own, and none shows the key. A pipe isn't waited for."""
    path = os.path.join(agents.folder, "key")
    for text, mode, said in ((KEY, 0o640, "others than its owner may read or write it (mode 0640): `chmod 600 %s`" % path), (KEY[:-2] + "\r\n", 0o600, "line 1 has a blank or a carriage return"),
                             (KEY + "\n", 0o600, "line 2 is empty"), (KEY[2:], 0o600, "line 1 has 62 hex digits and not 64"), (KEY * 3, 0o600, "more than two lines"),
                             ("", 0o600, "it has no line"), (None, 0o600, "it is no regular file"), ("-", 0o600, "No such file")):
        agents.write(0, key=path, record=None)
        if text is None:
            os.mkfifo(path, mode)
        elif text != "-":
            with open(path, "w") as file:
                file.write(text)
            os.chmod(path, mode)
        status, told = ends(agents)
        check("a key file: %s" % said, status == 6 and said in told and KEY[:16] not in told, (status, told))
        if os.path.exists(path):
            os.remove(path)


def files(agents, check):
    """A file that isn't there, of a folder that isn't there, one that is there already, and jobs that are none."""
    clock = lambda words: [] if "--first" in words else ["--clock-unchecked"]
    make = lambda *words, **options: agents.ctl(0, "format", "--config", agents.path(0, "toml"), *clock(words), *words, **options)
    agents.write(0, file=os.path.join(agents.folder, "nowhere", "node"), record=None)
    status, told = ends(agents)
    check("a folder that isn't there: 7", status == 7 and "its folder isn't there: is its file system mounted?" in told, (status, told))
    done = make()
    check("nor is a file made there", done.returncode == 7 and "is its file system mounted?" in done.stderr, done)
    agents.write(0, file=os.path.join(agents.folder, "new"), record=None)
    status, told = ends(agents)
    check("no file: by whom it is made", status == 7 and "dumgerokctl format --config %s` makes it" % agents.path(0, "toml") in told, (status, told))
    for words, jobs, said in ((("--slots", "3"), "", "slots are a number from 4 to 4096"), (("--stride", "513"), "", "[possible values: 512, 4096]"),
                              (("--jobs", "-", "--first", "9"), "job 7 3 -\njob 8 3\n", "--jobs: line 2: it isn't `job ID QUEUE HEX [PRIORITY]`"),
                              (("--jobs", "-", "--first", "9"), "job 9 3 -\n", "line 1: id 9 isn't below 9"),
                              (("--jobs", "-", "--first", "9", "--slots", "4"), "job 1 3 -\njob 2 3 -\njob 3 3 -\n", "line 3: 2 jobs fit into 4 slots")):
        done = make(*words, input=jobs)
        check("format %s: %s" % (" ".join(words), said), done.returncode == 2 and said in done.stderr and not os.path.exists(os.path.join(agents.folder, "new")), done)
    done = make("--slots", "8", "--first", "9", "--jobs", "-", input="job 7 3 -\n")
    said = r"new is made, in \d+\.\d\d s: node 0 of 16 places, 8 slots of 4096 bytes\. At most 6 jobs may be pending\. A compaction makes 4 syncs"
    check("format says what it made, and how long a compaction takes", done.returncode == 0 and re.search(said, done.stdout), done)
    check("by default each sector has a block of its own", os.path.getsize(os.path.join(agents.folder, "new")) == (8 + 4 * 8) * 4096 + 32)
    done = make()
    check("a file that is there stays: 1", done.returncode == 1 and "stays as it is: it is the file of node 0 of 16, keeps 1 jobs" in done.stderr and len(done.stderr.splitlines()) == 1, done)
    text = os.path.join(agents.folder, "a-text")
    with open(text, "w") as file:
        file.write("no node\n")
    done = agents.ctl(0, "inspect", text, "--program", agents.program)
    check("a text is inspected: 1", done.returncode == 1 and "this is no node's file" in done.stderr, done)


def clocks(bed, agents, check):
    """A file whose numbers are to begin behind the time is made where the kernel calls the clock synchronized, or where one says that it is right."""
    if not shutil.which("cc"):
        return bed.tally.left_out("a clock that was never synchronized", "there is no C compiler")
    library = compiled(bed, "kernel_clock", os.path.join(HERE, "kernel_clock.c"))
    agents.write(0, file=os.path.join(agents.folder, "timed"), record=None)
    path = os.path.join(agents.folder, "timed")
    for status, words, is_made in ((0x40, (), False), (0x2041, (), False), (0x2001, (), True), (0x40, ("--clock-unchecked",), True), (0x40, ("--first", "9"), True)):
        environment = {**os.environ, "LD_PRELOAD": library, "CLOCK_STATUS": str(status)}
        before = time.time_ns() // 10**6
        done = subprocess.run([agents.ctl_path, "format", "--config", agents.path(0, "toml"), *words], stdout=subprocess.PIPE, stderr=subprocess.PIPE, text=True, env=environment, timeout=PATIENCE)
        check("a clock of status %#x, %r: made, or nothing and why" % (status, words), done.returncode == 0 and os.path.exists(path) if is_made
              else done.returncode == 2 and "never synchronized" in done.stderr and not os.path.exists(path), done)
        if os.path.exists(path):
            with open(path, "rb") as file:
                count = int.from_bytes(file.read(8), "big")
            check("its count is the time, or what was given", count == 9 if "--first" in words else before <= count <= time.time_ns() // 10**6, count)
            os.remove(path)
    agents.write(0, record=None)


def as_root(bed, agents, check):
    """Root makes the file as the owner of its folder, and another user is told whose it is."""
    if os.geteuid() != 0 or not shutil.which("setpriv"):
        return bed.tally.left_out("a file that root makes", "this isn't root, or there is no setpriv")
    with tempfile.TemporaryDirectory(prefix="dumgerok-owner-", dir="/tmp") as folder:
        os.chmod(folder, 0o755)
        programs = [shutil.copy(path, folder) for path in (agents.daemon, agents.ctl_path, agents.program)]
        state = os.path.join(folder, "state")
        os.mkdir(state, 0o700)
        os.chown(state, 65534, 65534)
        agents.write(0, file=os.path.join(state, "node"), program=programs[2], socket=os.path.join(state, "sock"), record=None)
        config = shutil.copy(agents.path(0, "toml"), os.path.join(folder, "node.toml"))
        done = subprocess.run([programs[1], "format", "--clock-unchecked", "--config", config], stdout=subprocess.PIPE, stderr=subprocess.PIPE, text=True)
        owner = os.stat(os.path.join(state, "node")).st_uid if done.returncode == 0 else None
        check("a file that root makes is its folder's owner's", owner == 65534, (done, owner))
        as_nobody = ["setpriv", "--reuid", "65534", "--regid", "65534", "--clear-groups"]
        os.chown(os.path.join(state, "node"), 0, 0)
        done = subprocess.run(as_nobody + [programs[0], config], stderr=subprocess.PIPE, text=True, timeout=PATIENCE)
        check("a file that is root's: whose", done.returncode == 7 and "this user, nobody, may not open it: it is root's (`chown nobody: " in done.stderr, done)
        os.remove(os.path.join(state, "node"))
        done = subprocess.run(as_nobody + [programs[0], config], stderr=subprocess.PIPE, text=True, timeout=PATIENCE)
        check("no file: as whom it is made", "`runuser -u nobody -- dumgerokctl format --config %s` makes it" % config in done.stderr, done)
        agents.write(0, record=None)
        agents.start(0)
        agents.one_group()
        os.chmod(agents.folder, 0o755)
        reached = os.path.join(folder, "sock")
        os.link(agents.path(0, "sock"), reached)
        done = subprocess.run(as_nobody + [programs[1], "-s", reached, "status"], stderr=subprocess.PIPE, text=True, timeout=PATIENCE)
        check("a socket of others: 1, and who may ask", done.returncode == 1 and "refused: " in done.stderr and "(`usermod -aG root USER`" in done.stderr, done)
        agents.kill(0, signal.SIGTERM)


def payloads(agents, check):
    """What is wrong with a submission; a payload of standard input; a job that isn't in hand; an agent that was stopped."""
    agents.write(0, record=None)
    agents.start(0)
    agents.one_group()
    for words, status, said in ((("3", "abc", "--hex"), 1, "hex digits come in twos, and these are 3"), (("3", "xyz!", "--hex"), 1, "'x' is no hex digit"),
                                (("3", "x" * 401), 1, "at most 400 bytes, and this one has 401"), (("16", "x"), 2, "a queue is a number from 0 to 15"),
                                (("3", "x", "--priority", "256"), 2, "a priority is a number from 0 to 255")):
        done = agents.ctl(0, "submit", *words)
        check("submit %s: %s" % (" ".join(words)[:20], said), done.returncode == status and said in done.stderr, done)
    for request, said in ((dict(queue=1), "is missing"), (dict(queue=1, text="", hex=""), "here are both"), (dict(queue=1, text="", priority=256), "a priority is a number from 0 to 255"),
                          (dict(queue=16, text=""), "a queue is a number from 0 to 15")):
        answer = agents.ask(0, do="submit", **request)
        check("a request with %s: %s" % (request, said), answer["ok"] is False and said in answer["why"], answer)
    done = agents.ctl(0, "submit", "3", "-", "--priority", "9", input="from a pipe")
    job = agents.ask(0, do="take", queue=3)
    check("a payload is read from standard input", done.returncode == 0 and bytes.fromhex(job["payload"]) == b"from a pipe", (done, job))
    done = agents.ctl(0, "submit", "4", "-", "--hex", input="00ff\n")
    check("as hex digits, too", done.returncode == 0 and agents.ask(0, do="take", queue=4)["payload"] == "00ff", done)
    agents.ask(0, do="submit", queue=5, text="unheld")
    agents.until(lambda: metric(agents, 0, "jobs_unheld_seconds") > 0.2)
    check("a job that nobody works on is told by its age", metric(agents, 0, "jobs_in_hand") >= 1)
    done = agents.ctl(0, "finish", "0", "77")
    check("a job that isn't in hand: why", done.returncode == 1 and "UnknownJob (it isn't in hand here: " in done.stderr, done)
    agents.processes[0].send_signal(signal.SIGSTOP)
    done = agents.ctl(0, "status")
    agents.processes[0].send_signal(signal.SIGCONT)
    check("an agent that was stopped: 9, for how long, and where to look", done.returncode == 9 and "for 10 s" in done.stderr and "systemctl status" in done.stderr, done)
    agents.kill(0, signal.SIGTERM)
    done = agents.ctl(0, "status")
    check("no agent: 3, and where to look", done.returncode == 3 and "systemctl status dumgerok" in done.stderr, done)


def helps(agents, check):
    """Each command has an example, and offers no option that does nothing there."""
    commands = re.findall(r"^  ([\w-]+)", agents.ctl(0, "--help").stdout.split("Commands:")[1].split("Options:")[0], re.M)
    check("there are the commands", len(commands) > 12, commands)
    for command in commands:
        if command == "help":
            continue
        text = agents.ctl(0, command, "--help").stdout
        check("%s has an example" % command, re.search(r"Examples?: .*dumgerokctl %s" % command, text), text)
        asks = command not in ("format", "judge", "why", "draw", "completions", "key", "inspect", "export")
        check("%s is offered --socket where it asks an agent" % command, ("--socket" in text) == asks, text)
        check("%s is offered --json where it prints it" % command, ("--json" in text) == (asks or command in ("inspect", "export")), text)


def mistakes(bed):
    agents, check = bed.agents("messages", count=1, record=None), bed.tally.check
    helps(agents, check)
    configurations(agents, check)
    key_files(agents, check)
    made_key(agents, check)
    files(agents, check)
    clocks(bed, agents, check)
    damaged(agents, check)
    as_root(bed, agents, check)
    payloads(agents, check)
    agents.stop()


def made_key(agents, check):
    path = os.path.join(agents.folder, "made-key")
    done = agents.ctl(0, "key", path)
    check("a key is made, for its owner alone", done.returncode == 0 and os.stat(path).st_mode & 0o777 == 0o600 and re.fullmatch("[0-9a-f]{64}\n", open(path).read()), done)
    before = open(path).read()
    done = agents.ctl(0, "key", path)
    check("over none that is there", done.returncode == 1 and "it stays as it is" in done.stderr and open(path).read() == before, done)
    agents.write(0, key=path, record=None)
    agents.start(0)
    check("and an agent takes it", agents.one_group() >= 0)
    agents.kill(0, signal.SIGTERM)


def damaged(agents, check):
    """A file of which a sector is spoiled: the agent says which one, as `inspect` does."""
    file, spoiled = agents.path(0, "node"), os.path.join(agents.folder, "spoiled")
    with open(file, "rb") as before:
        whole = before.read()
    for sector in range(8, len(whole) // 512):
        with open(spoiled, "wb") as out:
            out.write(whole[:sector * 512] + b"\xff" * 512 + whole[sector * 512 + 512:])
        found = re.search(r"^damaged_journal (\d+)$", agents.ctl(0, "inspect", spoiled, "--program", agents.program).stdout, re.M)
        if found:
            agents.write(0, file=spoiled, record=None)
            status, told = ends(agents)
            return check("a damaged file: 5, and the sector", status == 5 and "can't be mounted: Damaged, sector %s:" % found[1] in told, (status, told))
    check("a sector is one by which a file is damaged", False)


def told_of_the_network(bed):
    """One direction that is cut, and a member that dies: a line of the log each, at the node that can know."""
    agents, check, timed = bed.agents("network", record=None), bed.tally.check, bed.tally.timed
    said = lambda i, text: [line for line in open(agents.path(i, "log")) if text in line]
    agents.start_all()
    agents.one_group()
    steady = bed.tally.steady(agents)
    time.sleep(6)
    steady("in a cluster that is well nobody is told so", not any(said(i, "answers nothing") or said(i, "no member any more") for i in range(3)))
    lead = agents.status(0)["coordinator"]
    one, other = [i for i in range(3) if i != lead]
    agents.relay.one_way.add((lead, one))
    agents.until(lambda: said(lead, "node %d isn't reached by itself: what is said to it goes through node %d" % (one, other)))
    agents.relay.one_way.clear()
    agents.until(lambda: said(lead, "node %d is reached by itself again" % one))
    timed("a way that is cut in one direction is told, and once it is mended", not said(other, "by itself"), said(other, "by itself"))
    # without a third machine nothing goes round it
    agents.kill(other)
    agents.one_group([lead, one])
    lead = agents.status(one)["coordinator"]
    one = next(i for i in range(3) if i not in (lead, other))
    agents.relay.one_way.add((lead, one))
    text = "node %d is heard and answers nothing: what is sent to it is lost" % one
    agents.until(lambda: said(lead, text))
    timed("a way that is cut in one direction is told where it begins", not said(one, "answers nothing"))
    timed("and once", len(said(lead, text)) == 1)
    agents.relay.one_way.clear()
    agents.start(other)
    agents.one_group()
    lead = agents.status(0)["coordinator"]
    gone = next(i for i in range(3) if i != lead)
    os.kill(agents.processes[gone].pid, signal.SIGSTOP)
    os.kill(agents.node(gone), signal.SIGSTOP)
    agents.until(lambda: said(lead, "node %d is no member any more: it was heard " % gone))
    check("a member that fell silent is told", True)
    os.kill(agents.node(gone), signal.SIGCONT)
    os.kill(agents.processes[gone].pid, signal.SIGCONT)
    agents.stop()
