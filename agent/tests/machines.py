"""Machines that come and go while the others run: 128 places, of which those named have a machine."""
import json, os, random, shutil, signal, subprocess, threading, time

import dumgerok
import leases
from beats import Leads, overlap
from bed import PATIENCE, free_port
from cluster import judged, metric
from enemies import logged

PLACES = 128
# Nothing is refused for longer, in seconds.
REFUSED = 5
# Submissions a second
RATE = 30


def listed(agents, i, named):
    """The list of agent i: those named and itself, up to the last of them."""
    peers = [peer if n in named or n == i else "-" for n, peer in enumerate(agents.relay.peers(i))]
    return peers[:max(n for n, peer in enumerate(peers) if peer != "-") + 1]


def tell(agents, i, named):
    """Agent i goes by this list from now on; one that doesn't run yet has it when it starts."""
    agents.write(i, nodes=listed(agents, i, named))
    if agents.processes[i] and agents.processes[i].poll() is None:
        agents.processes[i].send_signal(signal.SIGHUP)


class Load:
    """Submissions at the machines that are there, each under its key and made again at another one until it is kept, and a worker at each."""

    def __init__(self, agents, ids, seed):
        self.agents, self.ids, self.chance, self.lock = agents, list(ids), random.Random(seed), threading.Lock()
        self.kept, self.done, self.waits, self.ends, self.is_all, self.workers = set(), set(), [], False, False, []
        self.submitters = [threading.Thread(target=self.submit, args=(n,), daemon=True) for n in range(2)]
        for i in ids:
            self.work_at(i)
        for thread in self.submitters:
            thread.start()

    def submit(self, n):
        turn = 0
        while not self.ends:
            turn, begin = turn + 1, time.monotonic()
            self.submit_one("%d of %d" % (turn, n), begin)
            time.sleep(max(0.0, begin + 2 / RATE - time.monotonic()))

    def submit_one(self, text, begin):
        while time.monotonic() - begin < PATIENCE:
            try:
                at = self.chance.choice(self.ids)
                job = dumgerok.Agent(self.agents.path(at, "sock"), 0.0).submit(self.chance.randrange(16), text, key=text)
                with self.lock:
                    self.kept.add(job)
                    self.waits.append(time.monotonic() - begin)
                return
            except (dumgerok.Refused, dumgerok.Error):
                time.sleep(0.02)
        self.waits.append(PATIENCE)

    def work_at(self, i):
        self.workers.append(threading.Thread(target=self.work, args=(i,), daemon=True))
        self.workers[-1].start()

    def work(self, i):
        def note(job):
            with self.lock:
                self.done.add((job.origin, job.id))
        while not (self.is_all and self.is_done()):
            try:
                dumgerok.Agent(self.agents.path(i, "sock"), 0.0).work(note, until=lambda: self.is_all and self.is_done())
            except dumgerok.Error:
                time.sleep(0.1)

    def is_done(self):
        with self.lock:
            return self.kept <= self.done

    def end(self):
        """Whether all that was kept is worked on."""
        self.ends = True
        for thread in self.submitters:
            thread.join(PATIENCE)
        self.is_all = True
        for thread in self.workers:
            thread.join(PATIENCE)
        return self.is_done()


def waited(bed, load, name):
    """The longest wait of a submission since the last one was asked for."""
    with load.lock:
        waits, load.waits = load.waits, []
    worst = max(waits, default=PATIENCE)
    bed.tally.note("%s: %d submissions, the longest wait %.2f s" % (name, len(waits), worst))
    bed.tally.timed("%s: nothing is refused for longer than %d s" % (name, REFUSED), worst < REFUSED * max(1, bed.round_trip / 20), sorted(waits)[-3:])


def groups_made(agents, ids):
    return [metric(agents, i, "groups_total") for i in ids]


def grown(bed, apart=3, rounds=1):
    """Three machines become five and four again under load, by SIGHUP; lists differ for so many seconds, and agents are killed meanwhile."""
    agents, tally = bed.agents("grown", count=5, slots=1024, places=PLACES, key=bed.key("ab"), loss=0.01), bed.tally
    for i in range(3):
        tell(agents, i, {0, 1, 2})
        agents.start(i)
    tally.note("three machines of 128 places are one group after %.2f s" % agents.one_group([0, 1, 2]))
    seen = agents.status(0)
    tally.check("nodes and members are those named", (seen["nodes"], len(agents.ask(0, do="members")["members"]), metric(agents, 0, "nodes")) == (3, 3, 3), seen)
    load = Load(agents, [0, 1, 2], bed.seed)
    agents.until(lambda: len(load.waits) > 10)
    fourth(bed, agents, load, apart)
    members = {0, 1, 2, 3, 4}
    for i in members:
        tell(agents, i, members)
    agents.start(4)
    tally.note("a fifth: %.2f s" % agents.one_group(members))
    load.work_at(4)
    load.ids = list(members)
    waited(bed, load, "a fifth machine")
    tally.check("as many as are named are nodes", agents.status(4)["nodes"] == 5)
    tally.timed("a majority is one of them", metric(agents, 4, "majority") == 1)
    for turn in range(rounds):
        gone = agents.status(0)["coordinator"] if turn == 0 else random.Random(bed.seed + turn).choice(sorted(members))
        rest = sorted(members - {gone})
        taken_away(bed, agents, load, gone, rest)
        if turn + 1 < rounds:
            come_back(bed, agents, load, gone, rest, apart)
    pids = [agents.node(i) for i in rest]
    tally.check("all that was kept is done", load.end(), sorted(load.kept - load.done)[:5])
    tally.check("what is meant for places without a machine isn't sent", all(metric(agents, i, 'dropped_total{reason="NotSent"}') == 0 for i in rest), [metric(agents, i, 'dropped_total{reason="NotSent"}') for i in rest])
    idle(bed, agents, rest)
    tally.check("their nodes are the same throughout", pids == [agents.node(i) for i in rest])
    judged(bed, agents, "machines that came and went", are_sealed=True)


def fourth(bed, agents, load, apart):
    """A fourth machine is started before the others know of it, then one of them knows, and another one is killed."""
    tally = bed.tally
    tell(agents, 3, {0, 1, 2, 3})
    agents.start(3)
    agents.until(lambda: (agents.status(3) or {}).get("phase") == "Normal")
    before = groups_made(agents, range(3))
    time.sleep(apart)
    tally.timed("a machine that the others don't name changes nothing", agents.is_one_group([0, 1, 2]) and groups_made(agents, range(3)) == before, agents.groups())
    agents.until(lambda: all(logged(agents, i, "node 3: a machine at 3 in its `nodes` alone") for i in range(3)))
    tally.check("each of them says so once", all(len(logged(agents, i, "in its `nodes` alone")) == 1 for i in range(3)))
    tally.check("what comes of it is counted", agents.until(lambda: metric(agents, 0, 'dropped_total{reason="Unnamed"}') > 0) >= 0)
    tell(agents, 0, {0, 1, 2, 3})
    time.sleep(apart)
    waited(bed, load, "lists that differ")
    load.work_at(3)
    agents.write(1, nodes=listed(agents, 1, {0, 1, 2, 3}))
    agents.kill(1)
    agents.start(1)
    tell(agents, 2, {0, 1, 2, 3})
    tally.note("a fourth, and one that was killed: %.2f s" % agents.one_group([0, 1, 2, 3]))
    load.ids = [0, 1, 2, 3]
    waited(bed, load, "a fourth machine and a kill")


def taken_away(bed, agents, load, gone, rest):
    """A machine is drained, stopped and taken off the lists."""
    done = agents.ctl(gone, "drain", "--wait", "60")
    bed.tally.timed("a machine that goes is drained within a minute", done.returncode == 0, done)
    load.ids = rest
    agents.kill(gone, signal.SIGTERM)
    for i in rest:
        tell(agents, i, set(rest))
    bed.tally.note("node %d is taken away: one group after %.2f s" % (gone, agents.one_group(rest)))
    agents.until(lambda: all(agents.status(i)["nodes"] == 4 for i in rest))
    rows = [row["node"] for row in agents.ask(rest[0], do="members")["members"]]
    bed.tally.check("members are those that are left", rows == rest, rows)
    waited(bed, load, "a machine that goes")


def come_back(bed, agents, load, gone, rest, apart):
    """It comes again, over its own file; the lists differ for a while."""
    whole = {*rest, gone}
    tell(agents, gone, whole)
    agents.start(gone)
    for i in rest[:2]:
        tell(agents, i, whole)
    time.sleep(apart)
    agents.kill(rest[0])
    agents.start(rest[0])
    for i in rest[2:]:
        tell(agents, i, whole)
    agents.one_group(whole)
    load.ids = sorted(whole)
    waited(bed, load, "a machine that comes back")


def idle(bed, agents, rest):
    """At rest the coordinator says little, though its node asks all places."""
    lead = agents.status(rest[0])["coordinator"]
    before, begin = metric(agents, lead, "messages_out_total"), time.monotonic()
    time.sleep(2)
    rate = (metric(agents, lead, "messages_out_total") - before) / (time.monotonic() - begin)
    bed.tally.timed("at rest the coordinator of four sends at most 30 messages a second", rate <= 30 and agents.status(lead)["is_coordinator"], rate)


def voters(bed):
    """Those who vote for leases become five and four again, by one at a time, and no two lead."""
    agents, tally = bed.agents("voters", count=5, places=PLACES, record=None, lease_ms=100 * bed.round_trip), bed.tally
    among = lambda: [(agents.ask(i, do="leases") or {}).get("voters") for i in range(5) if agents.processes[i]]
    for i in range(5):
        subprocess.run([agents.program, "format", "--lease", agents.path(i, "node") + ".lease", str(i)], check=True)
        tell(agents, i, {0, 1, 2} if i < 3 else {0, 1, 2, 3, 4})
    leads, whole = Leads(agents, ["lead"]), {0, 1, 2, 3, 4}
    try:
        for i in range(3):
            agents.start(i)
        agents.until(lambda: among() == [3, 3, 3])
        for i in range(5):
            leads.start(i)
        leads.wait_for_leader()
        agents.start(3)
        agents.start(4)
        tell(agents, 0, whole)
        agents.until(lambda: among() == [4, 3, 3, 0, 0])
        time.sleep(100 * bed.round_trip / 1000)
        tally.check("a machine whose list has two more goes on by one, and those that came wait for all others", among() == [4, 3, 3, 0, 0], among())
        tell(agents, 1, whole)
        # a majority of four has to leave three: machines 0, 1 and 2
        time.sleep(100 * bed.round_trip / 1000)
        tally.check("not by two as long as the last one is left", among()[:3] in ([4, 4, 3], [4, 3, 3]), among())
        agents.kill(1)
        agents.start(1)
        tell(agents, 2, whole)
        tally.note("all five vote after %.2f s" % agents.until(lambda: among() == [5] * 5))
        agents.until(lambda: leads.leader() is not None)
        agents.kill(leads.leader() or 0)
        agents.until(lambda: leads.leader() is not None)
        for i in range(5):
            if agents.processes[i].poll() is not None:
                agents.start(i)
        agents.one_group(whole)
        agents.kill(4, signal.SIGTERM)
        agents.processes[4] = None
        for i in range(4):
            tell(agents, i, {0, 1, 2, 3})
        tally.note("four vote after %.2f s" % agents.until(lambda: among() == [4] * 4))
        # one that begins while another is away goes by what its disk has: who never voted would wait for all
        agents.kill(2)
        agents.kill(3)
        agents.start(3)
        agents.until(lambda: among()[3] == 4)
        agents.start(2)
        agents.until(lambda: among() == [4] * 4)
        leads.processes[4].kill()
        tally.check("one of them leads", leads.wait_for_leader(range(4)) in range(4))
        leads.judge(tally)("no two lead at a time", overlap(leads.paths) == 0, overlap(leads.paths))
        tally.check("and the epochs rise", leases.rise(leads.paths))
    finally:
        leads.stop()
    agents.stop()


def ends(agents, i):
    """The status of an agent that can't begin, and what it says."""
    done = subprocess.run([agents.daemon, agents.path(i, "toml")], capture_output=True, text=True, timeout=PATIENCE)
    return done.returncode, done.stderr


def places(bed):
    """A file of fewer places: what it takes, and what it refuses."""
    agents, check = bed.agents("places", record=None), bed.tally.check
    peers = agents.relay.peers
    agents.start_all()
    agents.one_group()
    agents.write(0, nodes=[*peers(0), "127.0.0.1:%d" % free_port()], record=None)
    agents.processes[0].send_signal(signal.SIGHUP)
    agents.until(lambda: logged(agents, 0, "nothing was taken of it"))
    said = logged(agents, 0, "nothing was taken of it")[0]
    check("more places than its file has aren't taken, and it says what is to be done", "nodes: has 4 places, and" in said and "is the file of a node of 3. One of more is made so" in said and "format --places N --jobs jobs" in said, said)
    check("and all goes on", agents.one_group() >= 0)
    left_out_at_once(bed, agents)
    agents.kill(0, signal.SIGTERM)
    status, said = ends(agents, 0)
    check("nor at a start: 2", status == 2 and "is the file of a node of 3" in said, (status, said))
    agents.write(0, nodes=["-", *peers(0)[1:]], record=None)
    status, said = ends(agents, 0)
    check("a place of its own has a machine: 2", status == 2 and "id: is a place of `nodes` that has a machine, and 0 has none" in said, (status, said))
    for i in (1, 2):
        agents.write(i, nodes=["-", *peers(i)[1:]], record=None)
        agents.processes[i].send_signal(signal.SIGHUP)
    agents.one_group([1, 2])
    agents.until(lambda: agents.status(1)["nodes"] == 2)
    bed.tally.steady(agents)("a machine is taken away from three places, too", agents.ask(1, do="submit", queue=1, text="x")["ok"] and agents.status(2)["majority"])
    formatted(bed, agents)
    agents.stop()


def left_out_at_once(bed, agents):
    """A member that is at work is taken off the lists: the others go on without it at once, and not only once three checks found it silent."""
    peers = agents.relay.peers
    for i in (1, 2):
        agents.write(i, nodes=["-", *peers(i)[1:]], record=None)
    for i in (1, 2):
        agents.processes[i].send_signal(signal.SIGHUP)
    took = agents.one_group([1, 2])
    bed.tally.timed("a member that is taken off the lists is left out at once", took < 50 * bed.round_trip / 1000, took)
    bed.tally.check("and the log says so", logged(agents, 1, "node 0: its machine was taken away"))
    for i in (1, 2):
        agents.write(i, nodes=peers(i), record=None)
        agents.processes[i].send_signal(signal.SIGHUP)
    agents.one_group()


def formatted(bed, agents):
    """Files as dumgerokctl makes them."""
    check, path = bed.tally.check, agents.path(0, "new")
    agents.write(0, nodes=agents.relay.peers(0), file=path)
    words = [agents.ctl_path, "format", "--config", agents.path(0, "toml"), "--first", "7"]
    for more, count in (([], 16), (["--places", "3"], 3)):
        done = subprocess.run([*words, *more], capture_output=True, text=True)
        with open(path, "rb") as file:
            label = file.read()[-32:]
        check("a file is formatted for %d places" % count, done.returncode == 0 and label[9:11] == bytes([0, count]) and "node 0 of %d places" % count in done.stdout, (done, label))
        os.remove(path)
    one, again, mistaken = [subprocess.run([*words, *more], capture_output=True, text=True) for more in (["--if-missing"], ["--if-missing"], [])]
    check("a file that is there is no mistake with --if-missing", (one.returncode, again.returncode, mistaken.returncode) == (0, 0, 1) and again.stdout == "%s is there\n" % path, (one, again, mistaken))
    os.remove(path)
    of_host(bed, agents, words, path)
    agents.write(0, nodes=agents.relay.peers(0), file=path)
    done = subprocess.run([*words, "--places", "2"], capture_output=True, text=True)
    check("but not for fewer than `nodes` has", done.returncode == 2 and "`nodes` has 3 places" in done.stderr and not os.path.exists(path), done)


def tagged(bed):
    """Tags of machines, and events that all are told."""
    agents, check = bed.agents("tagged", record=None, key=bed.key("ab"), loss=0.05), bed.tally.check
    tags = [dict(role="db", rack="7"), dict(role="web"), None]
    for i in range(3):
        agents.write(i, tags=None)
        if tags[i]:
            put_tags(agents, i, tags[i])
        agents.start(i)
    agents.one_group()
    seen = lambda i: [row["tags"] for row in agents.ask(i, do="members")["members"]]
    agents.until(lambda: all(seen(i) == [tags[0], tags[1], {}] for i in range(3)))
    rows = agents.ask(2, do="members")["members"]
    check("each machine sees the tags of all, with their age", rows[0]["tags_ms"] is not None and rows[0]["tags_ms"] < 60_000 and rows[2]["tags"] == {}, rows)
    check("`members` prints them", "rack=7,role=db (" in agents.ctl(1, "members").stdout and "role=web\n" in agents.ctl(1, "members").stdout, agents.ctl(1, "members"))
    put_tags(agents, 0, dict(role="spare"))
    agents.processes[0].send_signal(signal.SIGHUP)
    # told at once; a datagram that is lost is told again 30 s later
    agents.until(lambda: all(seen(i)[0] == dict(role="spare") for i in range(3)))
    check("others are taken by SIGHUP, without a restart", "other settings" not in open(agents.path(0, "log")).read())
    told(bed, agents)
    agents.stop()


def put_tags(agents, i, tags):
    agents.write(i)
    with open(agents.path(i, "toml"), "a") as file:
        file.write("tags = { %s }\n" % ", ".join('%s = "%s"' % row for row in tags.items()))


def told(bed, agents):
    """Of 30 events over a network that loses one datagram in twenty; each is sent three times."""
    check, links = bed.tally.check, [agents.connect(i) for i in range(3)]
    readers = []
    for link in links:
        link.sendall(b'{"do":"watch"}\n')
        readers.append(link.makefile())
        readers[-1].readline()
    for number in range(30):
        answer = agents.ask(1, do="event", name="deploy", text="version %d" % number)
        check("an event is sent to both others", answer["ok"] and answer["sent"] == 2, answer)
        time.sleep(0.02)
    time.sleep(1.5)
    for i, reader in enumerate(readers):
        done = agents.ctl(1, "event", "end", "of %d" % i)
        check("dumgerokctl tells of one, too", done.returncode == 0 and done.stdout == "sent to 2 other machines\n", done)
        came = []
        while not came or came[-1]["name"] != "end":
            line = json.loads(reader.readline())
            came += [line] if line.get("event") == "told" else []
        texts = [line["text"] for line in came if line["name"] == "deploy"]
        check("no event is told twice", len(texts) == len(set(texts)) and all(line["from"] == 1 for line in came), texts)
        # a datagram of a kind with stamps that overtakes it makes one of three old; the chance that all three are lost is 1 in 8,000
        bed.tally.timed("each is told at machine %d" % i, len(texts) == 30 if i == 1 else len(texts) >= 29, len(texts))
    for link in links:
        link.close()
    for bad, error in (dict(name="a b", text="x"), "BadName"), (dict(name="a", text="x" * 401), "BadPayload"), (dict(name="a", text="\1" * 400), "BadPayload"):
        check("one that isn't fit is refused as %s" % error, agents.ask(0, do="event", **bad).get("error") == error)


def of_host(bed, agents, words, path):
    """A node whose number is that of its machine's name."""
    agents.write(0, nodes=agents.relay.peers(0), file=path, id="hostname")
    done = subprocess.run(["unshare", "--map-root-user", "--uts", "sh", "-c", 'hostname box-2 && exec "$@"', "sh", *words], capture_output=True, text=True) if shutil.which("unshare") else None
    if done is None or "unshare" in done.stderr:
        return bed.tally.left_out("a machine of another name", "unshare isn't there or isn't permitted")
    with open(path, "rb") as file:
        label = file.read()[-32:]
    os.remove(path)
    bed.tally.check("a number is taken of the machine's name", done.returncode == 0 and label[9] == 2, (done, label))
