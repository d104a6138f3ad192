"""A bed for agents on one machine: a relay between them loses, delays, repeats and cuts by a seed. Needs Python 3.8 alone, and no root."""
import heapq, json, os, random, selectors, signal, socket, subprocess, tempfile, threading, time

from schema import Checked

HERE = os.path.dirname(os.path.abspath(__file__))

# What has to come about at all has so long for it: on a machine that is slow or busy it comes late, and a fault has it never come.
PATIENCE = 120
# So many datagrams at once are far fewer than the buffer of a socket takes.
AT_ONCE = 16


def in_memory(folder="/dev/shm", least=256_000_000):
    """A folder in memory, where there is one with room: how long a sync takes is another matter."""
    if not os.access(folder, os.W_OK):
        return None
    room = os.statvfs(folder)
    return folder if room.f_bavail * room.f_frsize >= least else None


MEMORY = in_memory()

ports, ports_lock = iter(random.sample(range(10000, 30000), 20000)), threading.Lock()


def free_port():
    """A port that nobody has, below those that the system gives by itself, and one that wasn't given before."""
    while True:
        with ports_lock:
            port = next(ports)
        try:
            for kind in (socket.SOCK_DGRAM, socket.SOCK_STREAM):
                with socket.socket(socket.AF_INET, kind) as link:
                    link.bind(("127.0.0.1", port))
            return port
        except OSError:
            pass


def is_there(pid):
    """Whether a process runs."""
    try:
        with open("/proc/%d/stat" % pid) as file:
            return file.read().rsplit(")", 1)[1].split()[0] not in "ZX"
    except OSError:
        return False


def command(pid):
    """The first word behind the program's name."""
    with open("/proc/%d/cmdline" % pid) as file:
        return (file.read().split("\0") + [""])[1]


def datagram_socket():
    link = socket.socket(socket.AF_INET, socket.SOCK_DGRAM)
    link.bind(("127.0.0.1", 0))
    return link


class Relay:
    """Carries datagrams: what node i sends to node j comes to a socket of that pair, and goes on to where node j listens."""

    def __init__(self, count, seed=1):
        self.count, self.chance = count, random.Random(seed)
        self.loss, self.twice, self.delay, self.cuts, self.one_way = 0.0, 0.0, (0.0, 0.0), set(), set()
        self.carried = self.lost = 0
        self.kept, self.senders = [], []     # datagrams, to be sent again much later, and whose each is
        self.real = [("127.0.0.1", free_port()) for _ in range(count)]
        self.out = datagram_socket()
        self.links = {(i, j): datagram_socket() for i in range(count) for j in range(count) if i != j}
        self.look = selectors.DefaultSelector()
        for pair, link in self.links.items():
            self.look.register(link, selectors.EVENT_READ, pair)
        self.later, self.runs = [], True
        threading.Thread(target=self.run, daemon=True).start()

    def peers(self, i):
        """The addresses of all nodes, as node i is told them."""
        return ["%s:%d" % (self.real[j] if i == j else self.links[i, j].getsockname()) for j in range(self.count)]

    def run(self):
        while self.runs:
            wait = max(0.0, min(0.1, self.later[0][0] - time.monotonic())) if self.later else 0.1
            for key, _ in self.look.select(wait):
                self.take(key.data, key.fileobj.recv(4096))
            while self.later and self.later[0][0] <= time.monotonic():
                _, _, j, datagram = heapq.heappop(self.later)
                self.out.sendto(datagram, self.real[j])

    def take(self, pair, datagram):
        if frozenset(pair) in self.cuts or pair in self.one_way or self.chance.random() < self.loss:
            self.lost += 1
            return
        if len(self.kept) < 20000:
            self.kept.append((pair[1], datagram))
            self.senders.append(pair[0])
        for _ in range(2 if self.chance.random() < self.twice else 1):
            self.carried += 1
            heapq.heappush(self.later, (time.monotonic() + self.chance.uniform(*self.delay), self.carried, pair[1], datagram))

    def head(self, j):
        """What stands in front of a message that node j takes without a key."""
        return next(datagram[:10] for to, datagram in list(self.kept) if to == j and datagram[:2] == b"\xd6\2")

    def send(self, j, datagram):
        self.out.sendto(datagram, self.real[j])


class Direct:
    """Machines that reach each other by themselves: where nothing is to be lost, and what a test carries would cost more than what is measured."""

    def __init__(self, count):
        self.count, self.runs, self.real = count, True, [("127.0.0.1", free_port()) for _ in range(count)]

    def peers(self, _i):
        return ["%s:%d" % at for at in self.real]


class Agents:
    """Agents in a folder, each with a node of its own. The nodes' files are there, too, or in a folder within another one."""

    def __init__(self, folder, program, relay, daemon, ctl, settings=None, first=None, slots=256, within=None, lines=None, places=None):
        """With `lines` what they are asked at their sockets and what they answer is checked. Their files are of so many places, or of as many as there are agents."""
        self.lines = lines
        self.folder, self.program, self.relay, self.daemon, self.ctl_path, self.settings = folder, program, relay, daemon, ctl, settings or {}
        self.count, self.processes = relay.count, [None] * relay.count
        self.http, self.within = [None] * relay.count, within and tempfile.TemporaryDirectory(prefix="dumgerok-nodes-", dir=within)
        os.makedirs(folder, exist_ok=True)
        for i in range(self.count):
            self.http[i] = free_port()
            self.write(i)
            if not os.path.exists(self.path(i, "node")):
                words = [program, "format", self.path(i, "node"), str(slots), str(i), str(places or self.count)]
                subprocess.run(words + ([str(first)] if first else []), check=True)

    def write(self, i, **settings):
        """The configuration of agent i."""
        rows = dict(cluster="bed", id=i, nodes=self.relay.peers(i), listen="%s:%d" % self.relay.real[i], file=self.path(i, "node"),
                    program=self.program, socket=self.path(i, "sock"), http="127.0.0.1:%d" % self.http[i], record=self.path(i, "record"))
        rows.update({**self.settings, **settings})
        with open(self.path(i, "toml"), "w") as file:
            file.write("".join("%s = %s\n" % (name, json.dumps(value)) for name, value in rows.items() if value is not None))

    def path(self, i, what):
        return os.path.join(self.within.name if self.within and what == "node" else self.folder, "%d.%s" % (i, what))

    def start(self, i, **environment):
        words = ["sh", "-c", 'export WATCHDOG_PID=$$; ulimit -n "${FILES:-1024}"; exec "$0" "$1"', self.daemon, self.path(i, "toml")]
        with open(self.path(i, "log"), "ab") as log:
            self.processes[i] = subprocess.Popen(words, stderr=log, env=dict(os.environ, **environment))

    def start_all(self):
        for i in range(self.count):
            self.start(i)

    def kill(self, i, number=signal.SIGKILL):
        """Ends an agent; its status. Its node, which ends with its input, has let go of its file then."""
        node = self.node(i)
        self.processes[i].send_signal(number)
        status = self.processes[i].wait(PATIENCE)
        self.until(lambda: not is_there(node))
        return status

    def node(self, i):
        """The process of the node of agent i."""
        own = self.processes[i].pid
        with open("/proc/%d/task/%d/children" % (own, own)) as file:
            return int(file.read().split()[0])

    def connect(self, i):
        link = Checked(self.lines) if self.lines else socket.socket(socket.AF_UNIX, socket.SOCK_STREAM)
        end = time.monotonic() + PATIENCE
        link.settimeout(PATIENCE)
        while True:
            try:
                link.connect(self.path(i, "sock"))
                return link
            except BlockingIOError:          # more wait to be taken than the system keeps
                if time.monotonic() > end:
                    raise
                time.sleep(0.01)

    def ask(self, i, **request):
        try:
            with self.connect(i) as link:
                link.sendall(json.dumps(request).encode() + b"\n")
                return json.loads(link.makefile().readline())
        except (OSError, ValueError):
            return None

    def status(self, i):
        return self.ask(i, do="status")

    def groups(self):
        """Of each agent that was started the phase and the number of its node's group."""
        seen = [self.status(i) for i in range(self.count) if self.processes[i] and self.processes[i].poll() is None]
        return [one and (one["phase"], one["group"]) for one in seen]

    def ctl(self, i, *words, **options):
        return subprocess.run([self.ctl_path, "-s", self.path(i, "sock"), *words], capture_output=True, text=True, timeout=PATIENCE, **options)

    def is_one_group(self, ids):
        """Whether these are one group, and nobody else is in it."""
        seen = [self.status(i) for i in ids]
        return all(s and s["phase"] == "Normal" and s["members"] == sorted(ids) and s["group"] == seen[0]["group"] for s in seen)

    def send_all(self, j, datagrams, do="jobs"):
        """Sends datagrams to agent j, a few at a time. An agent that answers a request has taken all datagrams that came before it; its node, which answers
        `jobs`, too."""
        for at in range(0, len(datagrams), AT_ONCE):
            for datagram in datagrams[at:at + AT_ONCE]:
                self.relay.send(j, datagram)
            if not self.ask(j, do=do)["ok"]:
                raise TimeoutError("agent %d doesn't answer" % j)

    def until(self, what):
        """How long it takes until something is so."""
        begin = time.monotonic()
        while time.monotonic() - begin < PATIENCE:
            if what():
                return time.monotonic() - begin
            time.sleep(0.01)
        raise TimeoutError("after %d s not yet: %s" % (PATIENCE, self.groups()))

    def one_group(self, ids=None):
        ids = list(range(self.count)) if ids is None else ids
        return self.until(lambda: self.is_one_group(ids))

    def stop(self):
        for process in self.processes:
            if process and process.poll() is None:
                process.kill()
                process.wait()

    def own_processes(self, i):
        """The numbers of the agent and of each process of the program, which is named by its command."""
        own = self.processes[i].pid
        with open("/proc/%d/task/%d/children" % (own, own)) as file:
            return dict(agent=own, **{command(pid): pid for pid in map(int, file.read().split())})

    def memory(self, i):
        """kB of memory of a machine's processes in all, of which what is of one file counts once: the greatest part of it that one of them has."""
        own, files = 0, {}
        for pid in self.own_processes(i).values():
            of_files, name = {}, None
            with open("/proc/%d/smaps" % pid) as file:
                for words in map(str.split, file):
                    if "-" in words[0]:
                        name = words[5] if len(words) > 5 else ""
                    elif words[0] == "Rss:":
                        of_files[name] = of_files.get(name, 0) + int(words[1])
                    elif words[0] == "Anonymous:":
                        own += int(words[1])
                        of_files[name] -= int(words[1])
            files = {name: max(files.get(name, 0), of_files.get(name, 0)) for name in {**files, **of_files}}
        return own + sum(files.values())

    def figures(self, i):
        """Of the agent and of each process of the program, which is named by its command: seconds of processor, kB of memory (RSS), voluntary switches (wakes)."""
        rows = {}
        for who, pid in self.own_processes(i).items():
            switches = kb = 0
            for task in os.listdir("/proc/%d/task" % pid):
                with open("/proc/%d/task/%s/status" % (pid, task)) as file:
                    status = dict(line.split(":", 1) for line in file if ":" in line)
                switches += int(status["voluntary_ctxt_switches"])
                kb = int(status["VmRSS"].split()[0])
            with open("/proc/%d/stat" % pid) as file:
                words = file.read().rsplit(")", 1)[1].split()
            rows[who] = ((int(words[11]) + int(words[12])) / os.sysconf("SC_CLK_TCK"), kb, switches)
        return rows
