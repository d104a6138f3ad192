"""Three nodes of Dumgerok, serf, etcd and corosync, each node in a namespace of the network of its own, and what each says of the group. Needs root, and `ip`."""
import ctypes, json, os, re, signal, socket, subprocess, time, urllib.request

from bed import Agents

COUNT, HERE = 3, os.path.dirname(os.path.abspath(__file__))
NEW_MOUNTS, NEW_NETWORK = 0x00020000, 0x40000000


def programs():
    """Those of the agent."""
    folder = os.environ.get("DUMGEROK_AGENT", os.path.join(HERE, "../target/release"))
    return [os.path.abspath(os.path.join(folder, name)) for name in ("dumgerokd", "dumgerokctl")]


def until(what, seconds, pause=0.01):
    """How long it takes until something is so."""
    begin = time.monotonic()
    while time.monotonic() - begin < seconds:
        if what():
            return time.monotonic() - begin
        time.sleep(pause)
    raise TimeoutError("not within %d s" % seconds)


def ip(*words):
    subprocess.run(["ip", *words], check=True)


class Network:
    """Machines on one bridge. All of it belongs to this process, and ends with it: the machine's own network isn't touched."""

    def __init__(self, count=COUNT):
        self.count, self.real, self.runs = count, [(self.address(i), 7000) for i in range(count)], True
        if ctypes.CDLL(None, use_errno=True).unshare(NEW_MOUNTS | NEW_NETWORK) != 0:
            raise OSError(ctypes.get_errno(), "no namespaces: this needs root")
        subprocess.run(["mount", "--make-rprivate", "/"], check=True)
        subprocess.run(["mount", "-t", "tmpfs", "tmpfs", "/run"], check=True)
        ip("link", "set", "lo", "up")
        ip("link", "add", "bridge", "type", "bridge")
        ip("addr", "add", "10.9.0.254/24", "dev", "bridge")
        ip("link", "set", "bridge", "up")
        for i in range(count):
            ip("netns", "add", self.name(i))
            ip("link", "add", "to%d" % i, "type", "veth", "peer", "name", "eth0", "address", self.hardware(i), "netns", self.name(i))
            ip("link", "set", "to%d" % i, "master", "bridge", "up")
            ip("-n", self.name(i), "addr", "add", self.address(i) + "/24", "dev", "eth0")
            ip("-n", self.name(i), "link", "set", "eth0", "up")
            ip("-n", self.name(i), "link", "set", "lo", "up")
        for i in range(count):
            for j in range(count):
                if i != j:
                    self.join(i, j)

    def address(self, i):
        return "10.9.0.%d" % (i + 1)

    def hardware(self, i):
        return "02:00:00:00:00:%02x" % (i + 1)

    def name(self, i):
        return "node%d" % i

    def inside(self, i):
        """What stands in front of a command that runs at machine i."""
        return ["ip", "netns", "exec", self.name(i)]

    def peers(self, _i):
        return ["%s:%d" % at for at in self.real]

    def neighbour(self, i, j, hardware):
        ip("-n", self.name(i), "neigh", "replace", self.address(j), "lladdr", hardware, "dev", "eth0", "nud", "permanent")

    def join(self, i, j):
        self.neighbour(i, j, self.hardware(j))

    def cut(self, i, j):
        """What i sends to j is lost without a word, by whatever protocol: it goes to a network card that isn't there."""
        self.neighbour(i, j, self.hardware(99))


class System:
    """Three nodes of one system."""

    def __init__(self, folder, network):
        self.folder, self.network, self.processes = folder, network, [None] * COUNT
        os.makedirs(folder)

    def run(self, i, words):
        with open(os.path.join(self.folder, "%d.log" % i), "ab") as log:
            self.processes[i] = subprocess.Popen(self.network.inside(i) + words, cwd=self.folder, stdout=log, stderr=log)

    def pids(self, i):
        return [self.processes[i].pid]

    def kill(self, i, number=signal.SIGKILL):
        self.processes[i].send_signal(number)
        self.processes[i].wait()

    def send(self, i, number):
        for pid in self.pids(i):
            os.kill(pid, number)

    def stop(self):
        for process in self.processes:
            if process and process.poll() is None:
                process.kill()
                process.wait()

    def groups(self):
        """What each node says of its group: those of one group say the same. None where one says that it is in none."""
        raise NotImplementedError

    def is_whole(self):
        groups = self.groups()
        return None not in groups and len(set(groups)) == 1 and self.is_all(groups[0])

    def is_all(self, _group):
        """Whether all three are members of this group that all three name."""
        return True


class Ourselves(Agents):
    """Agents at machines of the network."""

    def start(self, i, **environment):
        with open(self.path(i, "log"), "ab") as log:
            self.processes[i] = subprocess.Popen(self.relay.inside(i) + [self.daemon, self.path(i, "toml")], stderr=log, env=dict(os.environ, **environment))


class Dumgerok(System):
    name, packages, program = "Dumgerok", [], None

    def __init__(self, folder, network):
        self.agents = Ourselves(folder, self.program, network, *programs(), dict(record=None, http=None), slots=4096)
        self.processes, self.network = self.agents.processes, network

    def start_all(self):
        self.agents.start_all()

    def restart(self, i):
        self.agents.start(i)

    def groups(self):
        seen = [self.agents.status(i) for i in range(COUNT)]
        return [said and said["phase"] == "Normal" and (said["group"], *said["members"]) or None for said in seen]

    def is_all(self, group):
        return len(group) == 1 + COUNT

    def victim(self):
        return self.agents.status(0)["coordinator"]

    def has_noticed(self, victim):
        return self.agents.is_one_group([i for i in range(COUNT) if i != victim])

    def view(self, i, _victim):
        said = self.agents.status(i)
        return said["group"] if said and said["phase"] == "Normal" else None

    def pids(self, i):
        return [self.processes[i].pid, self.agents.node(i)]


class Serf(System):
    name, packages = "serf", ["serf"]

    def __init__(self, folder, network):
        super().__init__(folder, network)
        self.rpc, self.turn = [network.address(i) + ":7373" for i in range(COUNT)], 0

    def start(self, i, at):
        words = ["serf", "agent", "-node=n%d" % i, "-bind=" + self.network.address(i), "-rpc-addr=" + self.rpc[i]]
        self.run(i, words + (["-join=" + self.network.address(at)] if at != i else []))

    def start_all(self):
        # one that asks a peer which isn't there yet asks again after 30 s
        self.start(0, 0)
        until(lambda: self.is_open(0), 20)
        self.start(1, 0)
        self.start(2, 0)

    def is_open(self, i):
        with socket.socket() as link:
            return link.connect_ex((self.network.address(i), 7373)) == 0

    def restart(self, i):
        self.start(i, (i + 1) % COUNT)

    def members(self, i):
        done = subprocess.run(["serf", "members", "-format=json", "-rpc-addr=" + self.rpc[i]], capture_output=True, text=True)
        return {row["name"]: row["status"] for row in json.loads(done.stdout)["members"]} if done.returncode == 0 else {}

    def groups(self):
        return [tuple(sorted(name for name, status in self.members(i).items() if status == "alive")) or None for i in range(COUNT)]

    def is_all(self, group):
        return len(group) == COUNT

    def victim(self):
        self.turn += 1
        return self.turn % COUNT

    def has_noticed(self, victim):
        return all(self.view(i, victim) not in (None, "alive") for i in range(COUNT) if i != victim)

    def view(self, i, victim):
        return self.members(i).get("n%d" % victim)


class Etcd(System):
    name, packages = "etcd", ["etcd-server", "etcd-client"]

    def url(self, i, port):
        return "http://%s:%d" % (self.network.address(i), port)

    def start(self, i, state):
        cluster = ",".join("n%d=%s" % (j, self.url(j, 2380)) for j in range(COUNT))
        client, peer = self.url(i, 2379), self.url(i, 2380)
        self.run(i, ["etcd", "--name", "n%d" % i, "--data-dir", os.path.join(self.folder, "n%d" % i), "--listen-client-urls", client, "--advertise-client-urls", client,
                     "--listen-peer-urls", peer, "--initial-advertise-peer-urls", peer, "--initial-cluster", cluster, "--initial-cluster-state", state])

    def start_all(self):
        for i in range(COUNT):
            self.start(i, "new")

    def restart(self, i):
        self.start(i, "existing")

    def status(self, i):
        """Its own number, and that of its leader."""
        try:
            ask = urllib.request.Request(self.url(i, 2379) + "/v3/maintenance/status", data=b"{}")
            with urllib.request.urlopen(ask, timeout=2) as answer:
                said = json.load(answer)
            return said["header"]["member_id"], said.get("leader", "0")
        except OSError:
            return None, None

    def groups(self):
        """The leader that each names, if that one leads by its own word."""
        said = [self.status(i) for i in range(COUNT)]
        leaders = {leader for own, leader in said if own and own == leader}
        return [leader if leader in leaders else None for _, leader in said]

    def victim(self):
        self.old = next(group for group in self.groups() if group)
        return next(i for i in range(COUNT) if self.status(i)[0] == self.old)

    def has_noticed(self, victim):
        leaders = {self.status(i)[1] for i in range(COUNT) if i != victim}
        return len(leaders) == 1 and not leaders & {None, "0", self.old}

    def view(self, i, _victim):
        return self.status(i)[1]


class Corosync(System):
    """By Debian's configuration, but for three nodes, and a log of its own for each."""
    name, packages = "corosync", ["corosync"]

    def __init__(self, folder, network):
        super().__init__(folder, network)
        self.turn, self.begun = 0, [0] * COUNT
        nodes = "".join(" node {\n  name: n%d\n  nodeid: %d\n  ring0_addr: %s\n }\n" % (i, i + 1, network.address(i)) for i in range(COUNT))
        for i in range(COUNT):
            os.makedirs(self.path(i, "state"))
            with open(self.path(i, "conf"), "w") as file:
                file.write("totem {\n version: 2\n cluster_name: debian\n crypto_cipher: none\n crypto_hash: none\n}\n"
                           "logging {\n to_stderr: no\n to_syslog: no\n to_logfile: yes\n logfile: %s\n}\n"
                           "quorum {\n provider: corosync_votequorum\n}\nsystem {\n state_dir: %s\n}\nnodelist {\n%s}\n" % (self.path(i, "told"), self.path(i, "state"), nodes))

    def path(self, i, what):
        return os.path.join(self.folder, "%d.%s" % (i, what))

    def start(self, i):
        """Its folder /run is its own, too: there it writes which process it is."""
        self.begun[i] = os.path.getsize(self.path(i, "told")) if os.path.exists(self.path(i, "told")) else 0
        self.run(i, ["unshare", "--mount", "sh", "-c", "mount -t tmpfs tmpfs /run && exec corosync -f -c " + self.path(i, "conf")])

    def start_all(self):
        for i in range(COUNT):
            self.start(i)

    def restart(self, i):
        self.start(i)

    def members(self, i):
        """Those that its log named last, since it began."""
        try:
            with open(self.path(i, "told"), errors="replace") as file:
                file.seek(self.begun[i])
                said = re.findall(r"Members\[\d+\]:([ 0-9]*)", file.read())
        except OSError:
            return None
        return tuple(int(word) - 1 for word in said[-1].split()) if said else None

    def groups(self):
        return [self.members(i) for i in range(COUNT)]

    def is_all(self, group):
        return len(group) == COUNT

    def victim(self):
        self.turn += 1
        return self.turn % COUNT

    def has_noticed(self, victim):
        others = tuple(i for i in range(COUNT) if i != victim)
        return all(self.members(i) == others for i in others)

    def view(self, i, _victim):
        return self.members(i)
