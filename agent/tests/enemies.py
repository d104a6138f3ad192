"""What an agent bears: half lines, a folder of its socket that goes, a flood while it is stopped, signals and name servers at its begin, odd requests for its
pages, a node of which old messages come."""
import json, os, re, shutil, signal, socket, subprocess, time

from bed import AT_ONCE, PATIENCE, free_port
from cluster import metric, page

# A line may have 16 KiB: so much of one is the most that costs nothing to keep.
HALF = 16_000


def logged(agents, i, text):
    with open(agents.path(i, "log")) as file:
        return [line for line in file if text in line]


def half_lines(bed):
    """Clients that keep half a line each slow nobody."""
    agents, count = bed.agents("half_lines", count=1, record=None), 1500
    agents.start(0)
    agents.one_group()

    def rate():
        with agents.connect(0) as link:
            reader, begin = link.makefile(), time.monotonic()
            for _ in range(count):
                link.sendall(b'{"do":"status"}\n')
                reader.readline()
            return count / (time.monotonic() - begin)

    quiet, links = rate(), [agents.connect(0) for _ in range(200)]
    for link in links:
        link.sendall(b"x" * HALF)
    agents.until(lambda: metric(agents, 0, "clients") >= 200)
    beside = rate()
    for link in links:
        link.close()
    quiet = min(quiet, rate())
    bed.tally.note("answers a second: %.0f beside nobody, %.0f beside 200 half lines" % (quiet, beside))
    bed.tally.timed("half lines slow nobody", beside > 0.7 * quiet, (quiet, beside))
    agents.stop()


def no_folder(bed):
    """A socket whose folder is removed comes again once the folder does."""
    agents, check = bed.agents("no_folder", count=1, record=None), bed.tally.check
    folder = os.path.join(agents.folder, "run")
    os.mkdir(folder)
    agents.write(0, socket=os.path.join(folder, "sock"), record=None)
    agents.start(0)
    asked = lambda: subprocess.run([agents.ctl_path, "-s", os.path.join(folder, "sock"), "status"], capture_output=True, timeout=PATIENCE).returncode == 0
    agents.until(asked)
    shutil.rmtree(folder)
    agents.until(lambda: logged(agents, 0, "it was removed, and can't be made again"))
    time.sleep(2.5)
    check("what can't be done is said once", len(logged(agents, 0, "can't be made again")) == 1)
    os.mkdir(folder)
    check("a socket whose folder was removed comes again with it", agents.until(asked) >= 0)
    agents.stop()


def unseen_drops(bed):
    """What the system drops while an agent has no processor is counted."""
    agents = bed.agents("drops", count=1, record=None)
    agents.start(0)
    agents.one_group()
    agents.processes[0].send_signal(signal.SIGSTOP)
    for _ in range(30_000):
        agents.relay.send(0, b"\1" * 400)
    agents.processes[0].send_signal(signal.SIGCONT)
    with open("/proc/net/udp") as file:
        rows = [line.split() for line in file if ":%04X " % agents.relay.real[0][1] in line.split(" 00000000")[0] + " "]
    dropped, told = sum(int(row[-1]) for row in rows), metric(agents, 0, 'dropped_total{reason="Kernel"}')
    bed.tally.check("what the system drops is counted", dropped > 1000 and abs(told - dropped) <= dropped / 20, (dropped, told))
    agents.stop()


def catches(pid, number):
    """Whether a process has a way of its own with a signal: before that it isn't one that could."""
    with open("/proc/%d/status" % pid) as file:
        return int(re.search(r"^SigCgt:\s*(\w+)", file.read(), re.M)[1], 16) >> number - 1 & 1


def at_begin(bed):
    """Signals at each time since an agent was called, also where its own name is looked up and nobody answers."""
    agents, check, timed = bed.agents("at_begin", count=1, record=None, http=None), bed.tally.check, bed.tally.timed
    for number, wanted in ((signal.SIGHUP, None), (signal.SIGTERM, 0)):
        for ms in (0, 1, 2, 5, 10, 20):
            agents.start(0)
            while not catches(agents.processes[0].pid, number):
                time.sleep(0.0005)
            time.sleep(ms / 1000)
            agents.processes[0].send_signal(number)
            if wanted is None:
                check("a HUP at the begin is passed over", agents.until(lambda: (agents.status(0) or {}).get("alive") or agents.processes[0].poll() is not None) >= 0
                      and agents.processes[0].poll() is None)
                agents.kill(0)
            else:
                check("a TERM at the begin ends it with 0", agents.processes[0].wait(PATIENCE) == wanted, agents.processes[0].returncode)
    resolv = os.path.join(agents.folder, "resolv")
    with socket.socket(socket.AF_INET, socket.SOCK_DGRAM) as silent, open(resolv, "w") as file:
        file.write("nameserver 127.0.0.1\n")
        within = ["unshare", "-rm", "sh", "-c", 'mount --bind "$0" /etc/resolv.conf && exec "$@"', resolv]
        try:
            silent.bind(("127.0.0.1", 53))
            if subprocess.run(within + ["true"], stderr=subprocess.DEVNULL).returncode != 0:
                raise OSError("unshare -rm")
        except OSError as why:
            return bed.tally.left_out("a name server that doesn't answer", why)
        agents.write(0, nodes=["me.example.org:%d" % free_port()], listen=None, record=None)
        begun = subprocess.Popen(within + [agents.daemon, agents.path(0, "toml")], stderr=subprocess.PIPE)
        silent.settimeout(PATIENCE)
        silent.recv(512)
        begin = time.monotonic()
        begun.send_signal(signal.SIGTERM)
        status = begun.wait(PATIENCE)
        begun.stderr.close()
        check("a name that is looked up at the begin keeps nobody from its end: 0", status == 0, status)
        timed("within a second", time.monotonic() - begin < 1, time.monotonic() - begin)
    agents.stop()


def odd_pages(bed):
    """HEAD, absolute targets, names of other hosts."""
    agents, check = bed.agents("odd_pages", count=1, record=None), bed.tally.check
    agents.start(0)
    agents.one_group()

    def asked(*lines):
        with socket.create_connection(("127.0.0.1", agents.http[0]), PATIENCE) as link:
            link.sendall("".join(line + "\r\n" for line in lines + ("",)).encode())
            return b"".join(iter(lambda: link.recv(65536), b"")).decode()

    head, got = asked("HEAD /status HTTP/1.1"), asked("GET /status HTTP/1.1")
    length = re.search(r"Content-Length: (\d+)", head)
    check("HEAD is GET without a body", head.startswith("HTTP/1.1 200 ") and head.endswith("\r\n\r\n") and length and int(length[1]) > 100 and got.endswith("}"), (head, got))
    for target, host, status in (("http://localhost:%d/healthz" % agents.http[0], "x", 200), ("/healthz", "127.0.0.1:%d" % agents.http[0], 200), ("/healthz", "[::1]", 200),
                                 ("/status", "evil.example", 421), ("http://evil.example/status", "localhost", 421)):
        said = asked("GET %s HTTP/1.1" % target, "Host: " + host)
        check("%s of %s is answered with %d" % (target, host, status), said.startswith("HTTP/1.1 %d " % status), said[:200])
    check("one that is refused on the loopback is told whom to ask", said.endswith(": ask localhost or an address of the loopback, as 127.0.0.1\n"), said)
    elsewhere(agents, check, asked)
    said = asked("DELETE / HTTP/1.1")
    check("another method is told which there are", said.startswith("HTTP/1.1 405 ") and "\r\nAllow: GET, HEAD\r\n" in said, said[:300])
    agents.stop()


def elsewhere(agents, check, asked):
    """Pages beyond the loopback, which a setting of its own asks for."""
    agents.kill(0, signal.SIGTERM)
    agents.write(0, http="0.0.0.0:%d" % agents.http[0], record=None)
    done = subprocess.run([agents.daemon, agents.path(0, "toml")], stderr=subprocess.PIPE, text=True, timeout=PATIENCE)
    check("an address beyond the loopback alone is refused: 2", done.returncode == 2 and "with `http_anywhere = true` another one" in done.stderr, done)
    agents.write(0, http="0.0.0.0:%d" % agents.http[0], http_anywhere=True, record=None)
    agents.start(0)
    agents.one_group()
    check("with a setting of its own it is served, and the log says who may read it", logged(agents, 0, "HTTP at 0.0.0.0:%d: whoever reaches it may read" % agents.http[0]))
    for host, status in (("10.1.2.3:7080", 200), ("[fe80::1]", 200), ("localhost", 200), ("evil.example", 421), ("10.1.2.3.evil.example", 421)):
        said = asked("GET /healthz HTTP/1.1", "Host: " + host)
        check("of %s it is answered with %d" % (host, status), said.startswith("HTTP/1.1 %d " % status), said[:200])
    check("one that is refused beyond the loopback is told so, too", said.endswith(": ask an address, localhost, or a host that `nodes` names\n"), said)


def old_messages(bed):
    """Under a key a node of which nothing but old messages come is told; keys have names; a version of agents that isn't known is counted; a list of keys that
    changed is told."""
    key = bed.key("ab")
    agents, check = bed.agents("old_messages", count=2, record=None, key=key, first=1000), bed.tally.check
    agents.start_all()
    agents.one_group()
    told = agents.status(0)["keys"]
    check("a key has a name by which it is told from others, the same at each machine", re.fullmatch("[0-9a-f]{8}", told[0]) and agents.status(1)["keys"] == told and len(told) == 1, told)
    check("dumgerokctl shows it", re.search("^keys +%s$" % told[0], agents.ctl(0, "status").stdout, re.M))
    check("so do the metrics, and each has its cluster", 'dumgerok_key{name="%s",cluster="bed"} 1\n' % told[0] in page(agents, 0, "/metrics")[1] and metric(agents, 0, "sealed") == 1)
    for i in range(2):
        agents.relay.send(i, b"\xd6\x05{}")
        agents.until(lambda: metric(agents, i, 'dropped_total{reason="Version"}') == 1)
    agents.kill(1)
    old = [datagram for j, datagram in list(agents.relay.kept) if j == 0][-4 * AT_ONCE:]

    def is_told():
        agents.send_all(0, old)
        return logged(agents, 0, "node 1: all that comes in its name from 127.0.0.1:")

    agents.until(is_told)
    check("a node of which nothing but old messages come is told", len(logged(agents, 0, "is older than what it said before")) == 1)
    with open(key, "a") as file:
        file.write("cd" * 32 + "\n")
    agents.processes[0].send_signal(signal.SIGHUP)
    check("a file of keys that changed is taken by a restart", agents.until(lambda: logged(agents, 0, "the file of keys changed")) >= 0)
    agents.stop()
    agents.write(0, key=None, listen="0.0.0.0:%d" % agents.relay.real[0][1], record=None)
    agents.start(0)
    check("without a key off the loopback it is warned", agents.until(lambda: logged(agents, 0, "there is no `key`: whoever reaches 0.0.0.0:")) >= 0)
    check("and dumgerokctl says so", agents.until(lambda: "keys          none: whoever reaches the port" in agents.ctl(0, "status").stdout) >= 0)
    agents.stop()
