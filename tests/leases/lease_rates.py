#!/usr/bin/env python3
"""Three processes `invite lease` on one machine, joined by a relay in real time: how many leases they give, and how soon.

    lease_rates.py PROGRAM many [SECONDS]     64 clients, each with a name of its own, acquire and release as fast as they can
    lease_rates.py PROGRAM etcd [SECONDS]     the same of three etcd and their locks
    lease_rates.py PROGRAM soon [TIMES]       one acquires where nobody else asks; a holder dies, and another one waits; messages take half a round trip, 20 ms, each way

`many` says how much processor time the three processes take for one acquisition and its release, and how much the relay does beside them. `soon` gives times in round trips."""
import base64, concurrent.futures, heapq, http.client, json, os, resource, statistics, subprocess, sys, tempfile, time

sys.dont_write_bytecode = True
sys.path.append(os.path.join(os.path.dirname(os.path.abspath(__file__)), ".."))
from common.program import MEMORY, named
from lease_cluster import KEEPS, ROUND_TRIP, Process, file_of_leases

CLIENTS = 64
TRIP = ROUND_TRIP / 1000


def clock():
    return time.clock_gettime_ns(time.CLOCK_BOOTTIME) // 10**6


class Three:
    """Three processes that vote, or begin to."""

    def __init__(self, program):
        self.room = tempfile.TemporaryDirectory(prefix="leases", dir=MEMORY)
        self.program, self.processes = program, []
        for own in range(3):
            with open(self.path(own), "wb") as file:
                file.write(file_of_leases(program, own))
            self.processes.append(Process(program, self.path(own), own, 3, ROUND_TRIP))
        self.begun = [False] * 3

    def path(self, own):
        return os.path.join(self.room.name, str(own))

    def end(self):
        """Ends the processes. How much processor time they took."""
        before = resource.getrusage(resource.RUSAGE_CHILDREN)
        for process in self.processes:
            process.kill()
        after = resource.getrusage(resource.RUSAGE_CHILDREN)
        self.room.cleanup()
        return after.ru_utime + after.ru_stime - before.ru_utime - before.ru_stime


def settle(three):
    for process in three.processes:
        process.tell(b"tick %d\n" % clock())
        process.answers(1)
    time.sleep(KEEPS / 1000 + 0.01)


def many(program, seconds=5):
    three = Three(program)
    settle(three)
    lines = [[b"acquire %%d c%d 1\n" % client for client in range(own, CLIENTS, 3)] for own in range(3)]
    pairs, told, held = 0, 0, {}
    begun, own_time = time.monotonic(), time.process_time()
    while time.monotonic() < begun + seconds:
        lines = lines if any(lines) else [[b"tick %d\n"]] * 3
        now, asked = clock(), [len(its) for its in lines]
        for process, its in zip(three.processes, lines):
            process.tell(b"".join(its) % ((now,) * len(its)))
        told += sum(asked)
        lines = [[], [], []]
        for own, process in enumerate(three.processes):
            for answer in process.answers(asked[own]) if asked[own] else ():
                for line in answer:
                    if line.startswith(b"send"):
                        _, to, message = line.split()
                        lines[int(to)].append(b"deliver %d " + message + b"\n")
                    elif line.startswith(b"held"):
                        _, name, _, epoch, _ = line.split()
                        assert held.get(name, 0) < int(epoch), "an epoch doesn't rise"
                        held[name], pairs = int(epoch), pairs + 1
                        lines[own] += b"release %%d %s 1\n" % name, b"acquire %%d %s 1\n" % name
    took, own_time = time.monotonic() - begun, time.process_time() - own_time
    processes_time = three.end()
    assert pairs, "nobody acquired anything"
    print("%d clients: %d acquisitions a second, and as many releases: %d in %.1f s, by %.1f lines each" % (CLIENTS, pairs / took, pairs, took, told / pairs))
    print("of each, three processes took %.1f µs of processor time, and the relay %.1f µs" % (processes_time / pairs * 1e6, own_time / pairs * 1e6))


class Relay:
    """Messages between the three, each for half a round trip, in real time."""

    def __init__(self, program):
        self.three = Three(program)
        self.processes = dict(enumerate(self.three.processes))
        self.events, self.order, self.held = [], 0, {}
        for own in self.processes:
            self.at(0, own, b"tick %d\n")
        self.run(lambda: False, KEEPS / 1000 + 0.01)

    def at(self, late, own, line):
        self.order += 1
        heapq.heappush(self.events, (time.monotonic() + late, self.order, own, self.processes[own], line))

    def run(self, done, most):
        """Until this is so, or for so many seconds at most."""
        end = time.monotonic() + most
        while not done() and time.monotonic() < end:
            while self.events and self.events[0][0] <= time.monotonic():
                _, _, own, process, line = heapq.heappop(self.events)
                if self.processes.get(own) is process:
                    process.tell(line % clock())
                    for said in process.answers(1)[0]:
                        self.take(own, said)
            wait = min(self.events[0][0] if self.events else end, end) - time.monotonic()
            if wait > 0 and not done():
                time.sleep(wait)

    def take(self, own, said):
        kind, *words = said.split()
        if kind == b"send" and int(words[0]) in self.processes:
            self.at(TRIP / 2, int(words[0]), b"deliver %d " + words[1] + b"\n")
        elif kind == b"next" and words:
            self.at(max(0, int(words[0]) - clock()) / 1000, own, b"tick %d\n")
        elif kind == b"held":
            if (own, words[0]) not in self.held:
                self.held[own, words[0]] = time.monotonic()
        elif kind == b"lost":
            self.held.pop((own, words[0]), None)

    def until_held(self, own, name, most=10):
        """How many round trips pass until this one holds that lease."""
        begun = time.monotonic()
        self.run(lambda: (own, name) in self.held, most)
        return (self.held[own, name] - begun) / TRIP

    def acquire(self, own, name):
        self.at(0, own, b"acquire %d " + name + b" 1\n")
        return self.until_held(own, name)

    def kill(self, own):
        self.processes.pop(own).kill()
        self.held = {key: since for key, since in self.held.items() if key[0] != own}


def etcd_members(room):
    """Three etcd on this machine, over a folder in memory; how each is asked."""
    ports = [(own, 12379 + 2 * own, 12380 + 2 * own) for own in range(3)]
    all_of = ",".join("m%d=http://127.0.0.1:%d" % (own, peers) for own, _, peers in ports)
    for own, clients, peers in ports:
        words = ["etcd", "--name", "m%d" % own, "--data-dir", os.path.join(room, str(own)), "--initial-cluster", all_of, "--log-level", "error"]
        for kind, port in (("client", clients), ("peer", peers)):
            at = "http://127.0.0.1:%d" % port
            words += ["--listen-%s-urls" % kind, at, "--%sadvertise-%s-urls" % ("initial-" if kind == "peer" else "", kind), at]
        yield subprocess.Popen(words, stdin=subprocess.DEVNULL, stdout=subprocess.DEVNULL, stderr=subprocess.DEVNULL), clients


def etcd_ask(connection, path, **fields):
    connection.request("POST", path, json.dumps(fields), {"Content-Type": "application/json"})
    answer = json.loads(connection.getresponse().read())
    assert "error" not in answer, answer
    return answer


def etcd_clients(port, numbers, end):
    """Clients in threads, each with a lock of its own. How often they had it."""

    def one(number):
        connection, count = http.client.HTTPConnection("127.0.0.1", port), 0
        lease = etcd_ask(connection, "/v3/lease/grant", TTL="60")["ID"]
        name = base64.b64encode(b"c%d" % number).decode()
        while time.monotonic() < end:
            key = etcd_ask(connection, "/v3/lock/lock", name=name, lease=lease)["key"]
            etcd_ask(connection, "/v3/lock/unlock", key=key)
            count += 1
        return count

    with concurrent.futures.ThreadPoolExecutor(len(numbers)) as pool:
        return sum(pool.map(one, numbers))


def etcd(seconds=5):
    """The same of etcd's locks, over its gateway for JSON; each of its changes waits for a sync of its log, here in memory."""
    with tempfile.TemporaryDirectory(dir=MEMORY) as room:
        members = list(etcd_members(room))
        try:
            for _, port in members:
                until(lambda: etcd_ask(http.client.HTTPConnection("127.0.0.1", port), "/v3/kv/range", key="YQ=="))
            begun, before = time.monotonic(), sum(time_of(process.pid) for process, _ in members)
            with concurrent.futures.ProcessPoolExecutor(6) as pool:
                asked = [pool.submit(etcd_clients, members[at % 3][1], range(at, CLIENTS, 6), begun + seconds) for at in range(6)]
                pairs = sum(it.result() for it in asked)
            took, own_time = time.monotonic() - begun, resource.getrusage(resource.RUSAGE_CHILDREN)
            processes_time = sum(time_of(process.pid) for process, _ in members) - before
            print("etcd, %d clients: %d locks a second, and as many unlocks: %d in %.1f s" % (CLIENTS, pairs / took, pairs, took))
            print("of each, three members took %.1f µs of processor time, and the clients %.1f µs" % (
                processes_time / pairs * 1e6, (own_time.ru_utime + own_time.ru_stime) / pairs * 1e6))
        finally:
            for process, _ in members:
                process.kill()
                process.wait()


def time_of(pid):
    """The processor time of a process, in seconds."""
    with open("/proc/%d/stat" % pid) as file:
        words = file.read().rpartition(")")[2].split()
    return (int(words[11]) + int(words[12])) / os.sysconf("SC_CLK_TCK")


def until(done, most=60):
    """Until this is so without an error."""
    end = time.monotonic() + most
    while True:
        try:
            return done()
        except (OSError, AssertionError, http.client.HTTPException):
            if time.monotonic() > end:
                raise
            time.sleep(0.1)


def tell(what, took):
    took = sorted(took)
    print("%s: median %.2f round trips, 90 of 100 within %.2f, all within %.2f" % (what, statistics.median(took), took[(len(took) * 9 + 9) // 10 - 1], took[-1]))


def soon(program, times=100):
    relay, took = Relay(program), []
    relay.acquire(0, b"warm")
    for time_ in range(times):
        name = b"a%d" % time_
        took.append(relay.acquire(time_ % 3, name))
        relay.at(0, time_ % 3, b"release %d " + name + b" 1\n")
        relay.run(lambda: False, 2 * TRIP)
    relay.three.end()
    tell("acquired where nobody else asks, %d times" % times, took)
    took = []
    for time_ in range(max(1, times // 5)):
        relay = Relay(program)
        relay.acquire(0, b"a")
        relay.at(0, 1, b"acquire %d a 1\n")
        relay.run(lambda: False, (30 + 7 * time_ % 40) * TRIP)
        relay.kill(0)
        took.append(relay.until_held(1, b"a"))
        for process in relay.processes.values():
            process.kill()
        relay.three.room.cleanup()
    tell("a dead holder replaced, where a grant is kept for %d round trips, %d times" % (KEEPS / ROUND_TRIP, len(took)), took)


def main():
    invite, what, more = named(), sys.argv[2], [int(word) for word in sys.argv[3:]]
    etcd(*more) if what == "etcd" else {"many": many, "soon": soon}[what](invite, *more)


main()
