"""A node that stops or dies, and a file that can't be used."""
import ctypes, fcntl, json, os, re, shutil, signal, socket, stat, subprocess, sys, tempfile, time

from bed import PATIENCE
from cluster import judged, metric, page

ROOT = os.path.dirname(os.path.dirname(os.path.dirname(os.path.abspath(__file__))))
sys.path.insert(0, os.path.join(ROOT, "tests/shim"))
from device import Device


class Notices:
    """What an agent tells systemd."""

    def __init__(self, folder):
        self.path = os.path.join(folder, "notices")
        self.link = socket.socket(socket.AF_UNIX, socket.SOCK_DGRAM)
        self.link.bind(self.path)

    def within(self, seconds, until=None):
        """What comes in so many seconds, or until this comes."""
        said, end = [], time.monotonic() + seconds
        while time.monotonic() < end and until not in said:
            self.link.settimeout(max(0.01, end - time.monotonic()))
            try:
                said += self.link.recv(4096).decode().split("\n")
            except OSError:
                pass
        return [line for line in said if line]

    def comes(self, notice):
        return notice in self.within(PATIENCE, notice)

    def quieten(self):
        """Passes over what was said before: until nothing comes for a second, or for ten seconds."""
        for _ in range(10):
            if not self.within(1):
                return


def ended_in_time(bed, agents, name):
    """SIGTERM ends an agent within a second. What the machine takes at the same time to end another process comes on top."""
    begin = time.monotonic()
    other = subprocess.Popen(["sleep", "1000"])
    other.terminate()
    other.wait()
    late, begin = 10 * (time.monotonic() - begin), time.monotonic()
    status = agents.kill(0, signal.SIGTERM)
    took = time.monotonic() - begin
    bed.tally.check("%s: with status 0" % name, status == 0, status)
    bed.tally.timed(name, took < 1.0 + late, (took, late))


def stopped_node(bed):
    """SIGSTOP and SIGKILL of a node, seen by its agent."""
    agents, check = bed.agents("stopped", key=bed.key("ab"), count=1), bed.tally.check
    notices = Notices(agents.folder)
    agents.start(0, NOTIFY_SOCKET=notices.path, WATCHDOG_USEC="1000000")
    check("systemd is told that it is ready", notices.comes("READY=1"))
    agents.one_group()
    bed.tally.timed("and that it lives", notices.within(3).count("WATCHDOG=1") >= 2)
    node = agents.node(0)
    os.kill(node, signal.SIGSTOP)
    agents.until(lambda: page(agents, 0, "/healthz")[0] == 503)
    notices.quieten()
    check("a node that stopped: no sign of life", "WATCHDOG=1" not in notices.within(2))
    check("the agent answers all the same", agents.status(0)["alive"] is False)
    without_answer(agents, check)
    os.kill(node, signal.SIGCONT)
    agents.until(lambda: page(agents, 0, "/healthz")[0] == 200)
    check("it goes on", notices.comes("WATCHDOG=1"))
    os.kill(node, signal.SIGKILL)
    check("a killed node ends its agent with 1", agents.processes[0].wait(PATIENCE) == 1)
    check("and the socket is gone", not os.path.exists(agents.path(0, "sock")))
    judged(bed, agents, "a stopped node", are_sealed=True)


def without_answer(agents, check):
    """Submissions at a node that stopped: each is answered in its time. What the node may have read may be kept, the rest isn't."""
    count, line = 120, json.dumps(dict(do="submit", queue=1, text="x" * 400)).encode() + b"\n"
    with agents.connect(0) as link:
        link.sendall(line * count)
        reader = link.makefile()
        answers = [json.loads(reader.readline()) for _ in range(count)]
    check("a submission at a node that stopped has no answer", all(one["ok"] is False and one["error"] == "NoAnswer" for one in answers), answers[:2])
    unsure = sum(one.get("may_be_kept", False) for one in answers)
    check("it may be kept where the node was asked, and isn't elsewhere", 0 < unsure < count, unsure)
    check("and the agent answers on", agents.status(0)["alive"] is False)
    check("the alarm for that: up is 0", metric(agents, 0, "up") == 0)
    agents.send_all(0, [b"\1" * 1000] * 200, do="status")
    dropped = metric(agents, 0, 'dropped_total{reason="NoRoom"}')
    check("what clients ask leaves room for datagrams", 100 < dropped < 195, dropped)


def unread_notices(bed):
    """A notify socket that nobody reads stops nobody."""
    agents = bed.agents("unread", count=1)
    notices = Notices(agents.folder)
    agents.start(0, NOTIFY_SOCKET=notices.path, WATCHDOG_USEC="20000")
    agents.one_group()
    time.sleep(2)
    bed.tally.check("a notify socket that nobody reads stops nobody", agents.status(0)["alive"])
    ended_in_time(bed, agents, "SIGTERM ends it within a second")


def unread_log(bed):
    """A log that nobody reads stops nobody."""
    agents, check = bed.agents("log", count=1, log="debug"), bed.tally.check
    reader, writer = os.pipe()
    fcntl.fcntl(writer, 1031, 4096)          # F_SETPIPE_SZ
    agents.processes[0] = subprocess.Popen([agents.daemon, agents.path(0, "toml")], stderr=writer)
    os.close(writer)
    agents.one_group()
    for _ in range(600):
        agents.processes[0].send_signal(signal.SIGHUP)
        time.sleep(0.002)
    check("a log that nobody reads stops nobody", (agents.status(0) or {}).get("alive"))
    ended_in_time(bed, agents, "nor does it keep the agent from its end")
    os.close(reader)


def ends(agents, i=0, **more):
    """How an agent ends by itself, and what it said."""
    done = subprocess.run([agents.daemon, agents.path(i, "toml")], stderr=subprocess.PIPE, text=True, timeout=PATIENCE, **more)
    return done.returncode, done.stderr


def files(bed):
    """Files that are locked, foreign, not there, not permitted; configurations that can't be read; a second agent."""
    agents, check = bed.agents("files", count=2), bed.tally.check
    agents.start(0)
    agents.until(lambda: (agents.status(0) or {}).get("alive"))
    status, said = ends(agents)
    check("a second agent ends", status == 1 and "another agent" in said, said)
    agents.write(1, id=0, file=agents.path(0, "node"), record=None)
    check("a locked file: 4", ends(agents, 1)[0] == 4)
    agents.write(1, record=agents.path(0, "record"))
    status, said = ends(agents, 1)
    check("a record that another agent writes: 1", status == 1 and "record %s: another agent writes it" % agents.path(0, "record") in said, (status, said))
    check("of which each part is left as it is", [name for name in os.listdir(agents.folder) if ".record" in name] == ["0.record.1"])
    looked_at(bed, agents, check)
    agents.kill(0)
    agents.write(1, id=1, file=agents.path(0, "node"), record=None)
    check("another node's file: 5", ends(agents, 1)[0] == 5)
    with open(agents.path(1, "node"), "rb") as file:
        whole = file.read()
    with open(agents.path(1, "damaged"), "wb") as file:
        file.write(bytes(20 * 512) + whole[20 * 512:])
    agents.write(1, file=agents.path(1, "damaged"), record=None)
    status, said = ends(agents, 1)
    check("a damaged file: 5", status == 5 and "can't be mounted: NotFormatted" in said, (status, said))
    agents.write(1, file=agents.path(1, "nowhere"), record=None)
    status, said = ends(agents, 1)
    check("no file: 7", status == 7 and "no such file" in said, said)
    agents.write(1, nodes=agents.relay.peers(1)[:1], record=None)
    check("a configuration that can't be read: 2", ends(agents, 1)[0] == 2)
    agents.write(1, listen="7000", record=None)
    status, said = ends(agents, 1)
    check("an address that is none: 2", status == 2 and "listen" in said, (status, said))
    agents.write(1, key=agents.path(1, "toml"), record=None)
    check("a key that can't be read: 6", ends(agents, 1)[0] == 6)
    named_by_mistake(agents, check)
    if os.geteuid() == 0 and shutil.which("setpriv"):
        no_permission(agents, check)
    else:
        bed.tally.left_out("a file without permission", "this isn't root, or there is no setpriv")
    agents.stop()


def named_by_mistake(agents, check):
    """A socket and a file that are something else."""
    file = agents.path(1, "node")
    with open(file, "rb") as before:
        held = before.read()
    agents.write(1, socket=file, record=None)
    status, said = ends(agents, 1)
    with open(file, "rb") as after:
        check("a file where the socket should be stays as it is", status == 1 and "no socket" in said and after.read() == held, (status, said))
    for how in (os.remove, lambda path: os.rename(path + ".other", path)):
        shutil.copy(file, file + ".own")
        shutil.copy(file, file + ".other")
        agents.write(1, record=None)
        agents.start(1)
        agents.until(lambda: (agents.status(1) or {}).get("alive"))
        how(file)
        status, log = agents.processes[1].wait(PATIENCE), open(agents.path(1, "log")).read()
        check("a file that is removed, or whose name another one takes: 7", status == 7 and "it was removed" in log.splitlines()[-1], (status, log))
        os.replace(file + ".own", file)
    agents.write(1, file=agents.path(1, "pipe"), record=None)
    os.mkfifo(agents.path(1, "pipe"))
    status, said = ends(agents, 1)
    check("a file that is no regular one: 7", status == 7, (status, said))
    agents.write(1, file=agents.folder, record=None)
    status, said = ends(agents, 1)
    check("a folder: 7", status == 7, (status, said))


def at_once(bed):
    """A signal to all processes of an agent, and agents that begin at the same time where one was killed."""
    agents, check = bed.agents("at_once", count=1, record=None, http=None), bed.tally.check

    def begin():
        with open(agents.path(0, "log"), "ab") as log:
            return subprocess.Popen([agents.daemon, agents.path(0, "toml")], stderr=log, start_new_session=True)

    def ends_with_0(name, end):
        agents.processes[0] = begin()
        agents.one_group()
        said = os.path.getsize(agents.path(0, "log"))
        end()
        status = agents.processes[0].wait(PATIENCE)
        with open(agents.path(0, "log")) as log:
            log.seek(said)
            last = log.read()
        return check(name, status == 0, (status, last)) and last

    for number in (signal.SIGTERM, signal.SIGINT) * 5:
        if not ends_with_0("%s to the agent's process group ends it with 0" % number.name, lambda: os.killpg(agents.processes[0].pid, number)):
            return

    def node_first():
        os.kill(agents.node(0), number)
        time.sleep(0.05)
        os.kill(agents.processes[0].pid, number)
    for number in (signal.SIGTERM, signal.SIGINT):
        ends_with_0("%s to the node, and then to its agent, ends it with 0" % number.name, node_first)
    not_ended_in_time(bed, agents, ends_with_0)
    agents.processes[0] = begin()
    agents.one_group()
    for _ in range(3):
        agents.kill(0)
        check("a killed agent leaves its socket", os.path.exists(agents.path(0, "sock")))
        both = [begin() for _ in range(4)]
        agents.until(lambda: sum(one.poll() is not None for one in both) >= 3)
        agents.processes = [one for one in both if one.poll() is None]
        if not check("of agents that begin at the same time one stays, and the others end with 1", sorted(one.poll() or 0 for one in both) == [0, 1, 1, 1]):
            return
        agents.one_group()
    agents.stop()


PTRACE_SEIZE = 0x4206


def not_ended_in_time(bed, agents, ends_with_0):
    """A node that is killed and isn't gone, as one that waits for its disk: of a process that another one traces its parent isn't told before that one lets go of it."""
    trace = ctypes.CDLL(None, use_errno=True).ptrace
    trace.argtypes = [ctypes.c_long, ctypes.c_long, ctypes.c_void_p, ctypes.c_void_p]
    nodes, times = [], []

    def end():
        nodes.append(agents.node(0))
        if trace(PTRACE_SEIZE, nodes[0], None, None) != 0:
            nodes[0] = 0
        times.append(time.monotonic())
        agents.processes[0].send_signal(signal.SIGTERM)
    last = ends_with_0("SIGTERM ends an agent with 0 whose node isn't gone in time", end)
    took = time.monotonic() - times[0]
    if not nodes[0]:
        return bed.tally.left_out("a node that isn't gone in time", "no process may be traced here")
    os.waitpid(nodes[0], 0x40000000)         # __WALL
    bed.tally.check("and the log says so once", last and last.count("the node can't be ended") == 1, last)
    bed.tally.timed("within a second", took < 1.2, took)


def narrow_socket(bed):
    """At no time may others come to a socket than those whom its mode lets in."""
    if not shutil.which("strace"):
        return bed.tally.left_out("the mode of a socket from its begin on", "there is no strace")
    agents, modes = bed.agents("narrow", count=1, record=None), set()
    # strace lets a socket be for a while between two calls of the agent
    words = ["strace", "-D", "-f", "-qq", "-o", "/dev/null", "-e", "trace=bind", "-e", "inject=bind:delay_exit=300000", agents.daemon, agents.path(0, "toml")]
    agents.processes[0] = subprocess.Popen(words, stderr=subprocess.DEVNULL, preexec_fn=lambda: os.umask(0))

    def seen():
        if os.path.exists(agents.path(0, "sock")):
            modes.add(stat.S_IMODE(os.stat(agents.path(0, "sock")).st_mode))
        return (modes and agents.status(0)) or agents.processes[0].poll() is not None

    agents.until(seen)
    bed.tally.check("a socket never is wider than its mode", modes == {0o660}, [oct(mode) for mode in modes])
    agents.stop()


def unasked(bed):
    """Signals that a terminal sends to all its processes as it goes, and nodes that end though nobody asked them to."""
    agents, check = bed.agents("unasked", count=1, record=None, http=None), bed.tally.check
    agents.processes[0] = subprocess.Popen([agents.daemon, agents.path(0, "toml")], stderr=subprocess.DEVNULL, start_new_session=True)
    agents.one_group()
    node = agents.node(0)
    for _ in range(3):
        os.killpg(agents.processes[0].pid, signal.SIGHUP)
        time.sleep(0.2)
    check("a terminal that hangs up ends no node", agents.processes[0].poll() is None and agents.node(0) == node and agents.status(0)["alive"],
          agents.processes[0].poll())
    with agents.connect(0) as link:
        for _ in range(2):
            os.remove(agents.path(0, "sock"))
            agents.until(lambda: agents.status(0))
        link.sendall(b'{"do":"status"}\n')
        check("a socket that is removed is made again, and those that had it are served on", json.loads(link.makefile().readline())["ok"])
    os.remove(agents.path(0, "sock"))
    with open(agents.path(0, "sock"), "w") as file:
        file.write("of somebody else")
    time.sleep(2.5)
    agents.kill(0, signal.SIGTERM)
    with open(agents.path(0, "sock")) as file:
        check("what somebody else put there stays", file.read() == "of somebody else")
    os.remove(agents.path(0, "sock"))
    for name, command, wanted in (("with success", "exit 0", 1), ("with a status of its own", "exit 99", 1), ("with one of the table", "exit 5", 5)):
        path = os.path.join(agents.folder, "program")
        with open(path, "w") as file:
            file.write("#!/bin/sh\n%s\n" % command)
        os.chmod(path, 0o755)
        agents.write(0, program=path, record=None)
        status, said = ends(agents)
        check("a node that ends by itself %s: %d" % (name, wanted), status == wanted, (status, said))
    agents.write(0, program=agents.path(0, "nowhere"), record=None)
    status, said = ends(agents)
    check("no program: 1", status == 1 and "no such program" in said, (status, said))


def rest(link):
    """All that comes until a connection ends, in whatever way."""
    came = b""
    try:
        while True:
            piece = link.recv(65536)
            if not piece:
                return came
            came += piece
    except ConnectionError:
        return came


def told_at_end(bed):
    """An agent that is ended in the midst of submissions: a job that is kept is one that was answered."""
    line = json.dumps(dict(do="submit", queue=1, text="x" * 300)).encode() + b"\n"
    for name, settings in (("told", {}), ("told_without_record", dict(record=None))):
        agents, check, answered = bed.agents(name, count=1, slots=1024, **settings), bed.tally.check, 0
        for _ in range(4):
            agents.start(0)
            agents.one_group()
            with agents.connect(0) as link:
                link.sendall(line * 100)
                told = link.recv(10)
                status = agents.kill(0, signal.SIGTERM)
                told += rest(link)
            answered += sum(json.loads(text)["ok"] for text in told.splitlines())
            check("it ends with 0", status == 0, status)
        said = agents.ctl(0, "--json", "inspect", agents.path(0, "node"), "--program", bed.program)
        kept = json.loads(said.stdout)["jobs"]
        # a node that a busy machine gives no time is killed, with what it has just done
        bed.tally.timed("a job that is kept at the end of an agent is one that was answered", kept == answered, (kept, answered))
        check("and none was answered that isn't", kept >= answered, (kept, answered))
        if not settings:
            judged(bed, agents, "an agent that was ended")


def looked_at(bed, agents, check):
    """What a file holds while its node runs, by its path and by the configuration; and a file that is made with jobs."""
    file, restored, program = agents.path(0, "node"), agents.path(0, "restored"), ("--program", bed.program)
    said = agents.ctl(0, "inspect", file, *program)
    check("a file is inspected", said.returncode == 0 and said.stdout.startswith("kind node\nnode 0\nnodes 2\n"), said)
    said = agents.ctl(0, "--json", "inspect", "--config", agents.path(0, "toml"))
    found = json.loads(said.stdout or "{}")
    check("and as JSON", said.returncode == 0 and found.get("kind") == "node" and found.get("queues") == {}, said)
    said = agents.ctl(0, "inspect", agents.path(0, "nowhere"), *program)
    check("no file is inspected: 7", said.returncode == 7 and said.stdout == "", said)
    agents.write(1, id=0, file=restored, record=None)
    words = ("format", "--config", agents.path(1, "toml"), "--slots", "8", "--first", "9", "--jobs", "-")
    said = agents.ctl(0, *words, input="job 7 3 6869 255\n")
    check("a file is made with jobs", said.returncode == 0, said)
    said = agents.ctl(0, "--json", "export", restored, *program)
    jobs = [json.loads(line) for line in said.stdout.splitlines()]
    check("which are exported", jobs == [{"id": 7, "queue": 3, "priority": 255, "payload": "6869"}], said)
    with open("/dev/full", "w") as full:
        done = subprocess.run([agents.ctl_path, "export", restored, *program], stdout=full, stderr=subprocess.PIPE, text=True, timeout=PATIENCE)
    check("to where there is room", done.returncode == 1 and "can't be written" in done.stderr, done)


def no_permission(agents, check):
    folder = tempfile.mkdtemp(prefix="dumgerok-nobody-", dir="/tmp")
    os.chmod(folder, 0o777)
    shutil.copy(agents.path(1, "node"), os.path.join(folder, "node"))
    os.chmod(os.path.join(folder, "node"), 0o600)
    os.chown(os.path.join(folder, "node"), 0, 0)
    agents.write(1, file=os.path.join(folder, "node"), socket=os.path.join(folder, "sock"), record=None)
    config = os.path.join(folder, "toml")
    shutil.copy(agents.path(1, "toml"), config)
    daemon = shutil.copy(agents.daemon, os.path.join(folder, "dumgerokd"))
    words = ["setpriv", "--reuid", "65534", "--clear-groups", daemon, config]
    done = subprocess.run(words, stderr=subprocess.PIPE, text=True, timeout=PATIENCE)
    check("a file without permission: 7, and no device failed", done.returncode == 7 and "may not open" in done.stderr, done)
    shutil.rmtree(folder)


def wrapped(agents, name, **environment):
    """A program that is the node's, with more in its environment."""
    path = os.path.join(agents.folder, name)
    with open(path, "w") as file:
        words = " ".join("%s=%s" % pair for pair in environment.items())
        file.write('#!/bin/sh\nexec env %s %s "$@"\n' % (words, agents.program))
    os.chmod(path, 0o755)
    return path


def compiled(bed, name, source):
    """A library for LD_PRELOAD, or None."""
    path = os.path.join(bed.folder, name + ".so")
    if not os.path.exists(path) and subprocess.run(["cc", "-shared", "-fPIC", "-O1", "-o", path, source, "-ldl"]).returncode != 0:
        return None
    return path


def failed_device(bed):
    """A device that fails: status 3. Started again, the agent has what was answered."""
    check = bed.tally.check
    if not shutil.which("cc"):
        return bed.tally.left_out("a device that fails, a slow sync", "there is no C compiler")
    slots = 64
    agents = bed.agents("device", count=1, slots=slots)
    library = compiled(bed, "faults", os.path.join(ROOT, "tests/shim/faults.c"))
    # the calls of a start are some 40, and two for each slot of the area that it writes anew; later ones are those of a submission
    faulty = wrapped(agents, "faulty", LD_PRELOAD=library, FAULT_FILE=agents.path(0, "node"), FAULT=5, FAULT_AT=80 + 2 * slots)
    agents.write(0, program=faulty)
    agents.start(0)
    agents.one_group()
    answers = []
    while agents.processes[0].poll() is None and len(answers) < 40:
        answers.append(agents.ask(0, do="submit", queue=0, text="x"))
    check("some jobs were kept before", bool(answers) and answers[0] is not None and answers[0].get("ok"), answers[:2])
    doubted = [answer for answer in answers if answer and not answer["ok"] and answer["error"] == "Device"]
    check("what a failed device was to keep may be kept", all(answer.get("may_be_kept") for answer in doubted), doubted)
    check("a failed device: 3", agents.processes[0].wait(PATIENCE) == 3)
    agents.write(0)
    agents.start(0)
    agents.one_group()
    kept = sum(1 for answer in answers if answer and answer.get("ok"))
    check("started again, it has what was answered", agents.ask(0, do="jobs", queue=0)["total"] >= kept, kept)
    judged(bed, agents, "a failed device")


def failed_write_back(bed):
    """A device that fails to write one page, which the kernel then holds to be clean, and an agent that is started again at once: what a loss of power
    leaves has all that was answered, and no id was given twice."""
    check, folder = bed.tally.check, os.path.join(bed.folder, "over-a-device")
    os.mkdir(folder)
    try:
        device = Device(folder)
    except OSError as why:
        return bed.tally.left_out("a page that isn't written", "there is no file system over /dev/fuse (%s)" % why)
    agents, given = bed.agents("page", count=1), []
    with device:
        file = os.path.join(folder, "node")
        subprocess.run([agents.program, "format", file, "16", "0", "1"], check=True)
        agents.write(0, file=file, record=None)

        def serve(jobs):
            agents.start(0)
            agents.one_group()
            given.extend((agents.ask(0, do="submit", queue=0, text="x") or {}).get("id") for _ in range(jobs))

        # the fourth job's record is the last one in its page, and later ones lie in the next
        serve(3)
        device.fail_write(2)
        agents.ask(0, do="submit", queue=0, text="x")
        check("a page that isn't written: 3", agents.processes[0].wait(PATIENCE) == 3 and device.failed == 1, device.failed)
        serve(2)
        agents.kill(0, signal.SIGTERM)
        left = agents.path(0, "left")
        with open(left, "wb") as out:
            out.write(device.held("node"))
    done = subprocess.run([agents.program, "node", left, "0", "1"], input="recover\njobs\n", stdout=subprocess.PIPE, text=True, timeout=PATIENCE)
    kept = {int(line.split()[1]) for line in done.stdout.splitlines() if line.startswith("pending ")}
    check("a page that isn't written: all that was answered is kept", len(given) == 5 and None not in given and set(given) <= kept, (given, kept))
    check("a page that isn't written: no id was given twice", len(set(given)) == 5, given)
    agents.stop()


def jumping_clock(bed):
    """Machines whose clocks are set, and set back: what agents and nodes wait for doesn't go by them."""
    if not shutil.which("cc"):
        return bed.tally.left_out("clocks that jump", "there is no C compiler")
    agents, check, kept = bed.agents("clocks", key=bed.key("ab")), bed.tally.check, set()
    library = compiled(bed, "jumping_clock", os.path.join(os.path.dirname(os.path.abspath(__file__)), "jumping_clock.c"))
    for turn in range(3):
        for i in range(3):
            agents.start(i, LD_PRELOAD=library)
        agents.one_group()
        answers = [agents.ask(i, do="submit", queue=i, text="x") for i in range(3)]
        kept |= {(one["origin"], one["id"]) for one in answers if one and one["ok"]}
        for i in range(3):
            agents.kill(i)
    for i in range(3):
        agents.start(i)
    agents.one_group()
    found = {(job["origin"], job["id"]) for i in range(3) for job in agents.ask(i, do="jobs")["jobs"] if job["kept"]}
    check("what is kept while clocks jump stays", len(kept) > 0 and kept <= found, (kept, found))
    judged(bed, agents, "clocks that jump")


def full_record(bed):
    """A record whose device is full: the node goes on, an operator is told, and the record isn't judged."""
    agents, check = bed.agents("full", count=1), bed.tally.check
    folder = os.path.join(agents.folder, "small")
    os.mkdir(folder)
    agents.write(0, record=os.path.join(folder, "record"))
    within = ["unshare", "-rm", "sh", "-c", 'mount -t tmpfs -o size=64k tmpfs "$0" && exec "$@"', folder]
    try:
        if subprocess.run(within + ["true"], stderr=subprocess.DEVNULL).returncode != 0:
            raise OSError("unshare -rm")
    except OSError as why:
        return bed.tally.left_out("a record whose device is full", "no file system of one's own can be had (%s)" % why)
    with open(agents.path(0, "log"), "ab") as log:
        agents.processes[0] = subprocess.Popen(within + [agents.daemon, agents.path(0, "toml")], stderr=log)
    agents.one_group()
    check("the metrics say that a node is recorded", metric(agents, 0, "recorded") == 1)
    kept = []
    while agents.status(0)["recorded"] and len(kept) < 200:
        kept.append(agents.ask(0, do="submit", queue=0, text="x" * 400)["ok"])
    kept.append(agents.ask(0, do="submit", queue=0, text="x")["ok"])
    check("a record whose device is full: each job is kept", 10 < len(kept) < 200 and all(kept), len(kept))
    is_told = lambda: ("the record ends: No space left" in open(agents.path(0, "log")).read() and metric(agents, 0, "recorded") == 0 and
                       re.search("^recorded +no$", agents.ctl(0, "status").stdout, re.M))
    check("the log, the metrics and dumgerokctl say that the record ended", agents.until(is_told) >= 0)
    check("though it was wanted, by which an alarm knows", metric(agents, 0, "record_wanted") == 1)
    check("a record that nobody wants any more is none to be missed", agents.ask(0, do="record", on=False)["ok"] and metric(agents, 0, "record_wanted") == 0)
    # the folder as the agent sees it
    done = agents.ctl(0, "judge", "--program", bed.program, "/proc/%d/root%s/record.1" % (agents.processes[0].pid, folder))
    check("and it isn't judged", done.returncode == 2 and "the node ran on" in done.stderr, done)
    agents.stop()


def slow_sync(bed):
    """Syncs of 15 ms: a group forms, and a job is kept."""
    if not shutil.which("cc"):
        return
    agents = bed.agents("slow")
    library = compiled(bed, "slow_sync", os.path.join(os.path.dirname(os.path.abspath(__file__)), "../../tests/shim/slow_sync.c"))
    for i in range(3):
        agents.write(i, program=wrapped(agents, "slow%d" % i, LD_PRELOAD=library, SYNC_MS=15))
        agents.start(i)
    bed.tally.timed("a group forms where a sync takes 15 ms", agents.one_group() < 1500 * bed.round_trip / 1000)
    bed.tally.steady(agents)("and a job is kept", agents.ask(0, do="submit", queue=1, text="slow")["ok"])
    judged(bed, agents, "slow syncs")
