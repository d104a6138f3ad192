"""Three agents: groups, jobs, kills, cuts."""
import http.client, json, os, re, shutil, signal, socket, subprocess, time, urllib.request

from bed import PATIENCE, free_port
from records import answered


def judged(bed, agents, name, are_sealed=False):
    """The records of all nodes are those of a run, and give an order of it; where messages are sealed it is known which one came."""
    files = [os.path.join(agents.folder, file) for file in os.listdir(agents.folder) if ".record." in file]
    agents.stop()
    done = agents.ctl(0, "judge", "--program", agents.program, *files)
    bed.tally.check("%s: the records are judged Run" % name, done.returncode == 0 and done.stdout.startswith("Run"),
                    (done.returncode, done.stdout[-200:], done.stderr[-200:]))
    trace = json.loads(agents.ctl(0, "judge", "--trace", *files).stdout)
    bed.tally.check("%s: and give an order" % name, "order" in trace)
    if are_sealed and "order" in trace:
        brought = [entry for history in trace["histories"] for entry in history if entry["do"] == "deliver"]
        known = sum(number != "-" for number in trace["order"].split()[1::2])
        bed.tally.check("%s: by which it is known of each message that was brought which one it was" % name, known == len(brought), (known, len(brought)))


def spoiled(bed, agents):
    """A record without one message that was sent isn't judged Run."""
    files = [os.path.join(agents.folder, file) for file in os.listdir(agents.folder) if ".record." in file]
    longest = max(files, key=os.path.getsize)
    with open(longest) as file:
        text = file.read()
    # one of the answer to a message: what a tick sends again no event of a trace has
    answers = (lines + [begin] for request, lines, begin in answered(text) if request and request.startswith("deliver ") and lines[0].startswith("send "))
    sent, *_, begin = next(answers)
    spoiled_path = longest + ".spoiled"
    with open(spoiled_path, "w") as file:
        file.write(text[:begin] + text[begin + len(sent):])
    done = agents.ctl(0, "judge", "--program", agents.program, spoiled_path, *[file for file in files if file != longest])
    bed.tally.check("a record without a message that was sent isn't judged Run", done.returncode == 1 and done.stdout.startswith("NotARun"), done)


def jumped(bed, agents):
    """Records of machines whose clocks jumped: they are judged by no clock, and give an order all the same."""
    files = [os.path.join(agents.folder, file) for file in os.listdir(agents.folder) if re.search(r"\.record\.\d+$", file)]
    for jump in (3_600_000, -3_600_000):
        moved = []
        for at, path in enumerate(sorted(files)):
            with open(path) as file:
                text = re.sub(r"^start (\d+)$", lambda start: "start %d" % (int(start[1]) + at * jump), file.read(), flags=re.M)
            moved.append(path + ".jumped")
            with open(moved[-1], "w") as file:
                file.write(text)
        done = agents.ctl(0, "judge", "--program", agents.program, *moved)
        trace = json.loads(agents.ctl(0, "judge", "--trace", *moved).stdout)
        bed.tally.check("records of clocks that jumped are judged Run", done.returncode == 0 and done.stdout.startswith("Run") and "order" in trace, done)
        for path in moved:
            os.remove(path)


def page(agents, i, path):
    """The status and the text of a page. One for which a busy machine gave the agent no time is asked for again."""
    end = time.monotonic() + PATIENCE
    while True:
        try:
            with urllib.request.urlopen("http://127.0.0.1:%d%s" % (agents.http[i], path), timeout=PATIENCE) as answer:
                came = answer.status, answer.read().decode()
        except urllib.error.HTTPError as error:
            came = error.code, error.read().decode()
        except (OSError, http.client.HTTPException) as error:
            came = 0, str(error)
        if (came[0] != 0 and came[1] != "the agent doesn't answer\n") or time.monotonic() > end:
            return came
        time.sleep(0.05)


def told(agents, i):
    """What Prometheus is told, without the label that all of it has."""
    return re.sub(r'\{cluster="[^"]*"\}|,cluster="[^"]*"', "", page(agents, i, "/metrics")[1])


def metric(agents, i, name):
    text = told(agents, i)
    return sum(float(line.rsplit(" ", 1)[1]) for line in text.splitlines() if line.startswith(("dumgerok_" + name + " ", "dumgerok_" + name + "{")))


def whole_life(bed):
    """The life of a cluster."""
    agents = bed.agents("life", loss=0.02, twice=0.02, delay=(0.001, 0.006), first=1_700_000_000_000)
    tally, soon = bed.tally, 1500 * bed.round_trip / 1000
    for i in range(3):
        agents.start(i)
    agents.one_group()
    # where a machine is so busy that a job's end is told late, its work comes again, as it may
    job_elsewhere(agents, tally.timed)
    metrics(agents, tally.timed)
    workers(agents, tally.timed)
    for turn in range(2):
        lead = agents.status(0)["coordinator"]
        rest = [i for i in range(3) if i != lead]
        agents.kill(lead)
        tally.timed("a killed coordinator is replaced", agents.one_group(rest) < soon)
        tally.steady(agents)("a submission is taken while a node is away", agents.ask(rest[0], do="submit", queue=turn, text="away").get("ok") is True)
        agents.start(lead)
        tally.timed("it comes back", agents.one_group() < soon)
    watched = watcher(agents, 1)
    partition(bed, agents)
    changes_without_gap(agents, watched, tally.check)
    judged(bed, agents, "the life of a cluster")
    jumped(bed, agents)
    spoiled(bed, agents)


def job_elsewhere(agents, check):
    """A job that is submitted at one machine is worked on at another."""
    lead = agents.status(0)["coordinator"]
    other = (lead + 1) % 3
    status = agents.status(other)
    queue = status["queues"][0]
    taker = agents.connect(other)
    taker.sendall(json.dumps(dict(do="take", wait=True, queue=queue, request="w")).encode() + b"\n")
    third = (lead + 2) % 3
    kept = agents.ask(third, do="submit", queue=queue, text="hello", request=5)
    check("a member's machine takes a submission", kept and kept["ok"] and kept["origin"] == lead and kept["request"] == 5, kept)
    job = json.loads(taker.makefile().readline())
    is_it = job["request"] == "w" and bytes.fromhex(job["payload"]) == b"hello" and (job["origin"], job["id"]) == (lead, kept["id"])
    check("who waits for it is given it, elsewhere", is_it, job)
    check("it isn't given to a second one", agents.ask(other, do="take", queue=queue) == {"ok": False, "error": "NoJob"})
    taker.close()
    agents.until(lambda: agents.ask(other, do="take", queue=queue)["ok"])
    check("it is handed to another where the taker's connection ended", True)
    check("it is finished", agents.ask(other, do="finish", origin=lead, id=kept["id"])["ok"])
    agents.until(lambda: agents.ask(lead, do="jobs")["total"] == 0)
    never = agents.ask(other, do="finish", origin=lead, id=kept["id"] + 1000)
    check("a finish of a job that isn't in hand is refused", never["error"] == "UnknownJob" and "it isn't in hand here" in never["why"], never)


def metrics(agents, check):
    """What Prometheus is told of the cluster, at the coordinator and at a member, once a job was done."""
    lead = agents.status(0)["coordinator"]
    other = (lead + 1) % 3
    for i, rows in ((lead, ['phase{phase="Normal"} 1', 'phase{phase="Down"} 0', "coordinator 1", "majority 1", "members 3", "nodes 3", "up 1",
                            'commands_durable_total{command="put"} 1', 'commands_durable_total{command="done"} 1', 'commands_durable_total{command="group"} ',
                            'messages_in_total{kind="Accept"} ', 'messages_out_total{kind="Invitation"} ', 'messages_out_total{kind="Ready"} ', "jobs_pending 0",
                            'build_info{version="', "sealed 0", "record_wanted 1", "recorded 1", "jobs_unheld_seconds 0",
                            'jobs_total{event="kept"} 1', 'jobs_total{event="gone"} 1', "group_age_seconds ", "groups_total "]),
                    (other, ["coordinator 0", 'messages_in_total{kind="Ready"} ', 'refused_total{reason="UnknownJob"} 1', "jobs_in_hand 0", "jobs_held 0",
                             'jobs_total{event="taken"} ', 'commands_durable_total{command="group"} '])):
        text = told(agents, i)
        missing = [row for row in rows if not any(line.startswith("dumgerok_" + row) for line in text.splitlines())]
        check("node %d's metrics" % i, not missing, (missing, text))


def workers(agents, check):
    """dumgerokctl: submit, take, its statuses."""
    lead = agents.status(0)["coordinator"]
    done = agents.ctl(lead, "submit", "0", "one", "--priority", "3")
    check("submit says where it is kept", done.returncode == 0 and done.stdout.startswith("node %d keeps it as " % lead), done)
    owner = next(i for i in range(3) if 0 in agents.status(i)["queues"])
    out = os.path.join(agents.folder, "worked")
    done = agents.ctl(owner, "take", "--queue", "0", "--once", "--", "sh", "-c", 'cat > "$1"; echo " $DUMGEROK_PRIORITY" >> "$1"', "-", out)
    check("a worker runs its command and finishes the job", done.returncode == 0 and open(out).read() == "one 3\n", done)
    agents.until(lambda: agents.ask(lead, do="jobs")["total"] == 0)
    agents.ctl(lead, "submit", "0", "two")
    failed = agents.ctl(owner, "take", "--once", "--", "false")
    check("a job whose command fails isn't finished", failed.returncode == 1 and agents.ask(lead, do="jobs")["total"] >= 1, failed)
    agents.until(lambda: agents.ctl(owner, "take", "--once", "--", "true").returncode == 0)
    for words, status in ((["status"], 0), (["members", "--json"], 0), (["jobs"], 0), (["finish", "0", "77"], 1), (["dance"], 2), (["submit", "16", ""], 2)):
        done = agents.ctl(owner, *words)
        check("dumgerokctl %s ends with %d" % (" ".join(words), status), done.returncode == status, done)
    check("without an agent it ends with 3", agents.ctl(owner, "-s", "/nowhere", "status").returncode in (2, 3))
    for shell in ("bash", "zsh", "fish"):
        check("completions for %s" % shell, "dumgerokctl" in agents.ctl(owner, "completions", shell).stdout)


def watcher(agents, i):
    link = agents.connect(i)
    link.sendall(b'{"do":"watch"}\n')
    return link, i


def changes_without_gap(agents, watched, check):
    """Each change has a number, and none is missed; a watcher that comes back is told what it missed."""
    link, i = watched
    last = agents.status(i)["change"]
    with link.makefile() as reader:
        lines = [json.loads(reader.readline())]
        while lines[-1]["change"] < last:
            lines.append(json.loads(reader.readline()))
    own = [line for line in lines[1:] if "change" in line]
    check("a watcher is told the state first", bool(lines) and lines[0].get("event") == "state", lines[:1])
    numbers = [line["change"] for line in own]
    check("and then each change, with no gap", numbers == list(range(lines[0]["change"] + 1, lines[0]["change"] + 1 + len(numbers))) and
          any(line["event"] == "group" for line in own), numbers[:5])
    with agents.connect(i) as later:
        later.sendall(json.dumps(dict(do="watch", since=max(0, numbers[-1] - 2) if numbers else 0)).encode() + b"\n")
        reader = later.makefile()
        again = [json.loads(reader.readline()) for _ in range(3)] if len(numbers) > 2 else []
        check("one that comes back is told what it missed", [line.get("change") for line in again[1:]] == numbers[-2:], again)


def partition(bed, agents):
    out = (agents.status(0)["coordinator"] + 1) % 3
    rest = [i for i in range(3) if i != out]
    agents.relay.cuts |= {frozenset((i, out)) for i in rest}
    agents.until(lambda: agents.is_one_group(rest) and agents.is_one_group([out]))
    check = bed.tally.steady(agents)
    sides = [agents.status(i)["majority"] for i in (out, *rest)]
    check("both sides of a partition say what they know", sides == [False, True, True], sides)

    def are_told():
        majority, coordinator = ([metric(agents, i, name) for i in (out, *rest)] for name in ("majority", "coordinator"))
        return majority == [0, 1, 1] and sum(coordinator) == 2
    # a machine that is held up says for a moment that it hears nobody
    check("and so do their metrics: no majority on one side, two coordinators", agents.until(are_told) >= 0)
    fewer = [metric(agents, i, "members") < metric(agents, i, "nodes") for i in (out, *rest)]
    check("and fewer members than nodes on both", all(fewer), fewer)
    ready = [page(agents, i, "/readyz")[0] for i in (out, *rest)]
    check("and are ready or not by it", ready == [503, 200, 200], ready)
    kept = agents.ask(out, do="submit", queue=0, text="alone")
    check("the side of one takes jobs of its own", kept["ok"] and kept["origin"] == out, kept)
    agents.relay.cuts.clear()
    bed.tally.timed("it heals", agents.one_group() < 3000 * bed.round_trip / 1000)


def addresses(bed):
    """Addresses that change (SIGHUP), names, IPv6."""
    agents, check = bed.agents("addresses", count=2), bed.tally.check
    for i in range(2):
        wrong = agents.relay.peers(i)
        wrong[1 - i] = "127.0.0.1:%d" % free_port()
        agents.write(i, nodes=wrong)
    agents.start_all()
    agents.until(lambda: agents.is_one_group([0]) and agents.is_one_group([1]))
    time.sleep(1)
    check("with wrong addresses each is alone", agents.is_one_group([0]) and agents.is_one_group([1]))
    for i in range(2):
        agents.write(i)
        agents.processes[i].send_signal(signal.SIGHUP)
    check("a changed list of addresses is taken by SIGHUP", agents.one_group() > 0)
    with open(agents.path(0, "toml"), "w") as file:
        file.write("cluster =\n")
    agents.processes[0].send_signal(signal.SIGHUP)
    agents.until(lambda: "nothing was taken of it" in open(agents.path(0, "log")).read())
    check("one that can't be read changes nothing", agents.one_group() > 0)
    # the relay is at an address of its own, as another node of this id is
    said = open(agents.path(0, "log")).read().count("node 1: it is heard from 127.0.0.1:%d" % agents.relay.out.getsockname()[1])
    check("a node that is heard from an address which isn't its own is told, once", said == 1, said)
    judged(bed, agents, "changed addresses")
    try:
        socket.getaddrinfo("localhost", 1)
    except OSError as error:
        bed.tally.left_out("the name localhost", error)
    else:
        moved(bed)
        no_address(bed)
        ipv6(bed)
    second_address(bed)
    stranded(bed)


def moved(bed):
    """A node that has another name and port since, and is heard: what is sent to it goes there, too."""
    agents, ports = bed.agents("moved", count=2), [free_port() for _ in range(3)]
    names = ["127.0.0.1:%d" % ports[0], "localhost:%d" % ports[1], "localhost:%d" % ports[2]]
    for i in range(2):
        agents.write(i, nodes=names[:2], listen="127.0.0.1:%d" % ports[i])
    agents.start_all()
    agents.one_group()
    agents.kill(1)
    agents.write(1, nodes=[names[0], names[2]], listen="127.0.0.1:%d" % ports[2])
    agents.start(1)
    heard = lambda: agents.ask(0, do="members")["members"][1]["heard_ms"]
    agents.until(lambda: (agents.status(1) or {}).get("up_ms", 0) > 1000 and heard() < 1000)
    agents.write(0, nodes=[names[0], names[2]], listen="127.0.0.1:%d" % ports[0])
    agents.processes[0].send_signal(signal.SIGHUP)
    bed.tally.check("a name that is taken by SIGHUP is looked up though its node is heard", agents.one_group() > 0)
    judged(bed, agents, "a node that moved")


def no_address(bed):
    """A name that means nothing, and an address that the socket doesn't reach."""
    agents = bed.agents("nowhere", count=1, record=None)
    agents.write(0, nodes=[agents.relay.peers(0)[0], "nowhere.invalid:7000", "[::1]:7000"], record=None)
    os.unlink(agents.path(0, "node"))
    subprocess.run([bed.program, "format", agents.path(0, "node"), "64", "0", "3"], check=True)
    agents.start(0)
    agents.until(lambda: (agents.status(0) or {}).get("alive"))
    agents.until(lambda: metric(agents, 0, 'dropped_total{reason="NotSent"}') > 0)
    said = lambda: open(agents.path(0, "log")).read()
    agents.until(lambda: "node 1: nowhere.invalid:7000 has no address" in said() and "node 2: [::1]:7000 can't be reached" in said())
    bed.tally.check("nodes that can't be reached are named, once", said().count("has no address") == 1, said())
    agents.kill(0)
    # a machine whose own name means the loopback there
    agents.write(0, nodes=["localhost:%d" % agents.relay.real[0][1], "198.51.100.1:7000", "198.51.100.2:7000"], listen=None, record=None)
    agents.start(0)
    agents.until(lambda: all("node %d: nothing can be sent from localhost" % node in said() for node in (1, 2)))
    bed.tally.check("and why nothing can be sent to them, once", said().count("nothing can be sent") == 2 and "of this machine alone" in said(), said())
    agents.stop()


def second_address(bed):
    """A name whose first address nobody listens at: the relay is at 127.0.0.1 alone. The agents see a file of names of their own."""
    agents = bed.agents("second", count=2)
    hosts = os.path.join(agents.folder, "hosts")
    with open(hosts, "w") as file:
        file.write("::1 twofold\n127.0.0.1 twofold\n")
    within = ["unshare", "-rm", "sh", "-c", 'mount --bind "$0" /etc/hosts && exec "$@"', hosts]
    try:
        seen = subprocess.run(within + ["getent", "ahosts", "twofold"], capture_output=True, text=True).stdout.split()
    except OSError:
        seen = []
    if seen[:1] != ["::1"] or "127.0.0.1" not in seen:
        return bed.tally.left_out("a name with two addresses", "no file of names of one's own with IPv6 can be had (unshare -rm)")
    for i in range(2):
        nodes = [name.replace("127.0.0.1", "twofold") for name in agents.relay.peers(i)]
        agents.write(i, nodes=nodes, listen="[::]:%d" % agents.relay.real[i][1])
        with open(agents.path(i, "log"), "ab") as log:
            agents.processes[i] = subprocess.Popen(within + [agents.daemon, agents.path(i, "toml")], stderr=log)
    bed.tally.check("nodes whose names have a first address that is dead find each other", agents.one_group() > 0)
    address = agents.ask(0, do="members")["members"][1]["address"]
    bed.tally.check("at the second one", "127.0.0.1" in address, address)
    judged(bed, agents, "second addresses")


def stranded(bed):
    """A machine that has no longer the address at which its agent began. The agents are in a network of their own."""
    made = "ip link set lo up && ip addr add 10.9.0.1/32 dev lo && ip addr add 10.9.0.2/32 dev lo && echo made && exec sleep 1000"
    network = subprocess.Popen(["sh", "-c", 'exec unshare -rn sh -c "$0"', made], stdout=subprocess.PIPE, stderr=subprocess.DEVNULL, text=True)
    try:
        within = ["nsenter", "-t", str(network.pid), "-U", "-n", "--preserve-credentials"]
        if network.stdout.readline() != "made\n" or not shutil.which("nsenter"):
            return bed.tally.left_out("an address that a machine loses", "no network of one's own can be had (unshare -rn, ip, nsenter)")
        agents, names = bed.agents("stranded", count=2, record=None, http=None), ["10.9.0.1:7000", "10.9.0.2:7000"]
        for i in range(2):
            agents.write(i, nodes=names, listen=None)
            with open(agents.path(i, "log"), "ab") as log:
                agents.processes[i] = subprocess.Popen(within + [agents.daemon, agents.path(i, "toml")], stderr=log)
        agents.one_group()
        subprocess.run(within + ["ip", "addr", "del", "10.9.0.1/32", "dev", "lo"], check=True)
        said = lambda: [line for line in open(agents.path(0, "log")) if "nothing can be sent from 10.9.0.1:7000 to 10.9.0.2:7000" in line]
        agents.until(said)
        bed.tally.check("a machine that lost its agent's address is told so, and what helps", "a restart takes another one" in said()[0], said())
        agents.stop()
    finally:
        network.kill()
        network.wait()


def ipv6(bed):
    ports = [free_port(), free_port()]
    try:
        with socket.socket(socket.AF_INET6, socket.SOCK_DGRAM) as link:
            link.bind(("::1", 0))
    except OSError as error:
        return bed.tally.left_out("IPv6", error)
    agents = bed.agents("ipv6", count=2)
    for i in range(2):
        agents.write(i, nodes=["localhost:%d" % ports[0], "[::1]:%d" % ports[1]], listen="[::]:%d" % ports[i])
    agents.start_all()
    bed.tally.check("names and IPv6", agents.one_group() > 0)
    judged(bed, agents, "IPv6")


def said_majority(bed, turns=3):
    """A coordinator that is cut off says no more that it works in a majority by the time when another one does, and watchers are told."""
    agents, tally, overlaps, ended = bed.agents("majority", record=None), bed.tally, [], []
    agents.start_all()
    agents.one_group()
    for turn in range(turns):
        time.sleep(1 + 0.3 * (turn % 7))
        # a busy machine may have cost a group
        agents.one_group()
        out = agents.status(0)["coordinator"]
        rest = [i for i in range(3) if i != out]
        with agents.connect(out) as link:
            link.sendall(b'{"do":"watch"}\n')
            reader = link.makefile()
            reader.readline()
            agents.relay.cuts.update(frozenset((out, i)) for i in rest)
            both, last, until = 0.0, time.monotonic(), None
            while not agents.is_one_group(rest) or until is None:
                own, others = agents.status(out)["majority"], any(s["majority"] for s in map(agents.status, rest) if s["coordinator"] != out)
                now = time.monotonic()
                both, last, until = both + (now - last if own and others else 0.0), now, until or (None if own else now)
                time.sleep(0.005)
            told = json.loads(reader.readline())
        overlaps.append(both)
        tally.timed("a watcher is told before its group ends", told.get("event") == "majority" and told.get("majority") is False, told)
        tally.timed("readyz says so", page(agents, out, "/readyz")[0] == 503 and metric(agents, out, "majority") == 0)
        agents.relay.cuts.clear()
        agents.one_group()
    tally.note("a majority was said at both sides for %s" % ["%.2f s" % one for one in overlaps])
    tally.timed("two majorities are said for a moment at most", max(overlaps) < 0.3, overlaps)
    agents.stop()
