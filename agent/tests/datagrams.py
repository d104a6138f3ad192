"""Datagrams that nobody of the cluster sent now: spoiled, of another cluster, recorded and sent again."""
import json, os, random, shutil, signal, socket, time

from bed import HERE, PATIENCE, free_port
from cluster import judged, metric, told
from machine import compiled
from records import answered, parts

# Recorded datagrams come for so many seconds, and so many at least.
WINDOW, MANY = 4, 1000


def random_bytes(chance, least, most):
    return bytes(chance.getrandbits(8) for _ in range(chance.randrange(least, most)))


def refused(agents, i):
    """How many datagrams were refused, by the node or by the agent."""
    total = 0.0
    for line in told(agents, i).splitlines():
        if line.startswith(("dumgerok_refused_total", 'dumgerok_dropped_total{reason="Forged"}', 'dumgerok_dropped_total{reason="Version"}')):
            total += float(line.rsplit(" ", 1)[1])
    return total


def changes(agents):
    """How often groups or phases changed in the lives of the agents."""
    return sum(metric(agents, i, "groups_total") for i in range(agents.count))


def rubbish(bed):
    """Bytes that are no message, and messages that are spoiled: nothing of it ends anybody."""
    agents, check, chance = bed.agents("rubbish", count=2), bed.tally.check, random.Random(3)
    library = shutil.which("cc") and compiled(bed, "small_room", os.path.join(HERE, "small_room.c"))
    agents.start(0, **(dict(LD_PRELOAD=library) if library else {}))
    agents.start(1)
    agents.one_group()
    counted = lambda: metric(agents, 0, "refused_total") + metric(agents, 0, "dropped_total")
    before, sent = counted(), [b""]
    head = agents.relay.head(0)
    for _ in range(400):
        sent += [random_bytes(chance, 1, 1500), head + random_bytes(chance, 0, 300), head + b"\1\1\1" + random_bytes(chance, 0, 300), b"\xd6\x01" + random_bytes(chance, 0, 300)]
    agents.send_all(0, sent)
    agents.until(lambda: counted() - before >= len(sent))
    check("bytes that are no message are refused and counted", agents.status(0)["alive"])
    check("the group stays", agents.one_group() >= 0)
    burst(bed, agents)
    if library:
        busy(bed, agents)
    else:
        bed.tally.left_out("a small socket", "there is no C compiler")
    agents.stop()


def burst(bed, agents):
    """More at once than the node has room for, of another node to one that answers, and more than the system keeps by itself: it waits until there is room."""
    with open("/proc/sys/net/core/rmem_max") as file:
        many = 300 if int(file.read()) >= 212_992 else 100
    if many == 100:
        bed.tally.left_out("300 long datagrams at once", "net.core.rmem_max is less than 212992")
    came = counted_since(agents)
    agents.processes[0].send_signal(signal.SIGSTOP)
    send_long(agents, many)
    agents.processes[0].send_signal(signal.SIGCONT)
    bed.tally.check("nothing of a burst is lost where the node answers", came(many) == (many, 0), came(many))


def busy(bed, agents):
    """While the node is busy more comes of another node than the socket holds: it waits in the agent, and what is more than that is dropped, and counted."""
    for name, many, is_all in (("more than a socket holds waits for a node that is busy", 1000, True), ("of more than there is room for the rest is dropped", 6000, False)):
        came, node = counted_since(agents), agents.node(0)
        os.kill(node, signal.SIGSTOP)
        for _ in range(0, many, 50):
            send_long(agents, 50)
            time.sleep(0.005)
        os.kill(node, signal.SIGCONT)
        taken, dropped = came(many)
        # an agent that a busy machine gives no time loses some, too; and messages of the other node itself find no room, either
        is_right = (taken, dropped) == (many, 0) if is_all else taken >= 1000 and dropped > 0 and many <= taken + dropped < many + 50
        bed.tally.timed(name, is_right, (taken, dropped))


def send_long(agents, many):
    """Datagrams as long as a long job, from where agent 0 knows the other node to be."""
    message = agents.relay.head(0) + b"\1" * 490
    for _ in range(many):
        agents.relay.links[0, 1].sendto(message, agents.relay.real[0])


def counted_since(agents):
    """Waits until so many more datagrams were refused by the node or dropped by the agent, or for long, and says how many of each there are."""
    now = lambda: (metric(agents, 0, 'refused_total{reason="NoMessage"}'), metric(agents, 0, 'dropped_total{reason="NoRoom"}'))
    before = now()

    def came(many):
        end, count = time.monotonic() + PATIENCE / 4, (0, 0)
        while sum(count) < many and time.monotonic() < end:
            time.sleep(0.05)
            count = tuple(one - other for one, other in zip(now(), before))
        return count

    return came


def many_long_jobs(bed):
    """More long jobs of one node for another than its socket holds, where Linux has its defaults: all of them come with one dispatch."""
    if not shutil.which("cc"):
        return bed.tally.left_out("a small socket", "there is no C compiler")
    many, ports = 1000, [free_port() for _ in range(2)]
    agents, names = bed.agents("long_jobs", count=2, slots=2048, record=None), ["127.0.0.1:%d" % port for port in ports]
    library = compiled(bed, "small_room", os.path.join(HERE, "small_room.c"))
    # no relay: its sockets are small, too
    for i in range(2):
        agents.write(i, nodes=names, listen=names[i], record=None)
    agents.start(0)
    agents.one_group([0])
    line = json.dumps(dict(do="submit", queue=1, text="x" * 400)).encode() + b"\n"
    with agents.connect(0) as link:
        reader = link.makefile()
        for _ in range(0, many, 50):
            link.sendall(line * 50)
            if not all([json.loads(reader.readline())["ok"] for _ in range(50)]):
                raise ValueError("a job isn't kept")
    agents.start(1, LD_PRELOAD=library)
    agents.one_group()
    # of those that are lost each later dispatch brings some, and these are far between
    agents.until(lambda: metric(agents, 1, "jobs_in_hand") == many)
    sent = metric(agents, 0, 'messages_out_total{kind="Work"}')
    bed.tally.timed("as many long jobs as a socket doesn't hold come with one dispatch", sent == many, sent)
    agents.stop()


def forwarded(bed):
    """With a key: what agents send each other, spoiled in each bit and sent again. The node is given no key, and no lives."""
    agents = bed.agents("forwarded", key=bed.key("ab"))
    path = os.path.join(agents.folder, "without_key")
    with open(path, "w") as file:
        file.write('#!/bin/sh\nsed -u "/^life /d" | "%s" node "$2" "$3" "$4"\n' % agents.program)
    os.chmod(path, 0o755)
    for i in range(3):
        agents.write(i, program=path)
    agents.start_all()
    agents.one_group()
    lead = agents.status(0)["coordinator"]
    check = bed.tally.steady(agents)
    sender, first = (lead + 1) % 3, len(agents.relay.kept)
    kept = [agents.ask(sender, do="submit", queue=q, text="once %d" % q) for q in range(4)]
    check("sealed submissions are taken", all(one and one["ok"] for one in kept), kept)
    # nobody else reads what they are: the submissions are among them
    mine = [message for j, message in list(agents.relay.kept)[first:] if j == lead and message[2] == sender]
    before, bits = refused(agents, lead), 8 * len(mine[-1])
    agents.send_all(lead, [spoiled(mine[-1], bit) for bit in range(bits)])
    # the head's bits make it a message of nodes, which the node refuses
    agents.until(lambda: refused(agents, lead) - before >= bits)
    sent_again(agents, lead, mine, len(kept))
    total = agents.ask(lead, do="jobs", limit=0)["total"]
    jobs = {(job["origin"], job["id"]) for job in agents.ask(lead, do="jobs")["jobs"] if job["kept"]}
    check("recorded submissions sent again make no further job", jobs == {(one["origin"], one["id"]) for one in kept}, (total, jobs))
    agents.kill(lead)
    agents.start(lead)
    agents.until(lambda: (agents.status(lead) or {}).get("phase") == "Normal")
    sent_again(agents, lead, mine, len(kept))
    jobs = [job for job in agents.ask(lead, do="jobs")["jobs"] if job["kept"]]
    bed.tally.check("nor in the agent's next life", len(jobs) == len(kept), jobs)
    judged(bed, agents, "forwarded submissions")


def spoiled(message, bit):
    return message[:bit // 8] + bytes([message[bit // 8] ^ 1 << bit % 8]) + message[bit // 8 + 1:]


def sent_again(agents, i, messages, submissions):
    """What was recorded comes to agent i three times more, so many submissions in it, and it has judged each."""
    before = metric(agents, i, 'forwarded_total{event="again"}')
    agents.send_all(i, messages * 3)
    agents.until(lambda: metric(agents, i, 'forwarded_total{event="again"}') - before >= 3 * submissions)


def forged(bed):
    """With a key: each bit of a message spoiled, messages of another cluster and of another key, and messages that were recorded."""
    key = bed.key("ab")
    # its groups are to stay what they are: with longer round trips a machine has to be busier to change them
    agents = bed.agents("forged", key=key, round_trip_ms=max(60, bed.round_trip))
    agents.start_all()
    agents.one_group()
    # a group that a busy machine changed isn't told from one that was changed by what came
    spoiled_bits(agents, bed.tally.timed)
    foreign(bed, agents, bed.tally.timed)
    recorded(agents, bed.tally.timed)
    judged(bed, agents, "forged datagrams", are_sealed=True)


def spoiled_bits(agents, timed):
    _, message = max((one for one in list(agents.relay.kept) if one[0] == 0), key=lambda one: len(one[1]))
    before, begin, bits = refused(agents, 0), changes(agents), 8 * len(message)
    agents.send_all(0, [spoiled(message, bit) for bit in range(bits)])
    agents.until(lambda: refused(agents, 0) - before >= bits)
    timed("a message with any bit spoiled is refused and counted", changes(agents) == begin, (bits, refused(agents, 0) - before))


def another_key(bed):
    """A node under another key, without one, and of another cluster's name: the log of both sides says so, once."""
    agents, check = bed.agents("another_key", count=2, record=None, key=bed.key("ab")), bed.tally.check
    said = lambda i: [line for line in open(agents.path(i, "log")) if "what comes in its name from 127.0.0.1:" in line]
    agents.start(0)
    for name, settings, hint in (("another key", dict(key=bed.key("cd")), "another key or none there"), ("no key", dict(key=None), "a key there and none here"),
                                 ("another name", dict(cluster="other"), "another key or none there")):
        agents.write(1, **settings)
        agents.start(1)
        agents.until(lambda: said(1) and said(0))
        check("a node with %s is told, and tells" % name, "node 0:" in said(1)[0] and hint in said(1)[0] and "node 1:" in said(0)[0], (said(0), said(1)))
        # what isn't decrypted is told before the nodes are up
        agents.until(lambda: agents.is_one_group([0]) and (agents.status(1) or {}).get("phase") == "Normal")
        check("%s: they don't meet" % name, agents.is_one_group([0]) and agents.is_one_group([1]), agents.groups())
        agents.kill(1)
        os.remove(agents.path(1, "log"))
    check("no more often than once in a while", len(said(0)) == 1, said(0))
    agents.stop()


def flood(bed):
    """Recorded datagrams from elsewhere, as fast as this machine sends them: the node hears the others all the same."""
    # longer round trips would hide it
    agents = bed.agents("flood", key=bed.key("ab"), record=None, round_trip_ms=min(60, bed.round_trip))
    agents.start_all()
    agents.one_group()
    old, begin = [message for j, message in list(agents.relay.kept) if j == 0], changes(agents)
    with socket.socket(socket.AF_INET, socket.SOCK_DGRAM) as link:
        end, at = time.monotonic() + 2 * WINDOW, 0
        while time.monotonic() < end:
            for _ in range(200):
                link.sendto(old[at % len(old)], agents.relay.real[0])
                at += 1
            time.sleep(0.004)
    dropped = metric(agents, 0, 'dropped_total{reason="NoRoom"}')
    bed.tally.timed("a flood of datagrams from elsewhere changes no group", changes(agents) == begin, (at, dropped, changes(agents) - begin))
    agents.stop()


def foreign(bed, agents, timed):
    for name, more in (("cluster", dict(cluster="other")), ("key", dict(key=bed.key("cd")))):
        others = bed.agents("other_%s" % name, **dict(dict(key=bed.key("ab")), **more))
        others.start_all()
        others.one_group()
        others.stop()
        begin, before = changes(agents), refused(agents, 0)
        mine = [message for j, message in others.relay.kept if j == 0][:200]
        agents.send_all(0, mine)
        agents.until(lambda: refused(agents, 0) - before >= len(mine))
        timed("messages of another %s are refused" % name, changes(agents) == begin)


def recorded(agents, timed):
    for _ in range(2):
        lead = agents.status(0)["coordinator"]
        agents.kill(lead)
        agents.one_group([i for i in range(3) if i != lead])
        agents.start(lead)
        agents.one_group()
    for i in range(3):
        agents.ask(i, do="submit", queue=i, text="recorded")
    agents.until(lambda: all((agents.status(i) or {}).get("submissions") == 0 for i in range(3)))
    old, begin = list(agents.relay.kept), changes(agents)
    jobs = [agents.ask(i, do="jobs")["total"] for i in range(3)]
    end, at = time.monotonic() + WINDOW, 0
    while time.monotonic() < end or at < MANY:
        agents.send_all(old[at % len(old)][0], [old[at % len(old)][1]])
        at += 1
    timed("recorded datagrams sent again add no job", [agents.ask(i, do="jobs")["total"] for i in range(3)] == jobs)
    timed("and change no group", changes(agents) == begin, (at, changes(agents) - begin))



def delivered(agents, i):
    """The messages that the node of agent i was given in each of its lives, as digits, with the first and the last word of what it answered."""
    lives = []
    for request, lines, _ in answered("".join(open(path).read() for path in parts(agents, i))):
        if request is None:
            lives.append([])
        elif request.startswith("deliver "):
            words = lines[-1].split()
            lives[-1].append((request.split()[1], words[0], words[-1]))
    return lives


def again(agents, i, sender):
    """What the node of agent i, since it began, answered to messages in the name of a node that it was given before."""
    *before, now = delivered(agents, i)
    old = {message for life in before for message, _, _ in life if int(message[4:6], 16) == sender}
    return [how for message, *how in now if message in old]


def of_the_gone(bed):
    """Under a key a node that began takes nothing that was recorded before: neither of a machine that is gone for good nor of one that lives."""
    agents, check, timed = bed.agents("of_the_gone", key=bed.key("ab")), bed.tally.check, bed.tally.timed
    agents.start_all()
    agents.one_group()
    others, turn = (1, 2), 0
    while min(sum(int(message[4:6], 16) == i for life in delivered(agents, 0) for message, *_ in life) for i in others) < 60:
        # who leads has much to say, and each of them leads for a while
        agents.ask(1, do="submit", queue=turn % 8, text="recorded")
        for i in others:
            agents.kill(i)
        agents.start(others[turn % 2])
        agents.one_group([0, others[turn % 2]])
        agents.start(others[1 - turn % 2])
        agents.one_group()
        turn += 1
    agents.kill(1)
    agents.kill(0)
    agents.start(0)
    agents.one_group([0, 2])
    kept = list(zip(list(agents.relay.kept), agents.relay.senders))
    groups = agents.groups()
    for i in others:
        agents.send_all(0, [datagram for (to, datagram), sender in kept if (to, sender) == (0, i)])
        agents.until(lambda: len(again(agents, 0, i)) >= 50)
        answers = again(agents, 0, i)
        check("no recorded message of node %d is taken by a node that began later" % i, all(how == ["refused", "Forged"] for how in answers), answers)
    timed("no group is changed by them", agents.groups() == groups, (groups, agents.groups()))
    agents.start(1)
    check("a machine that comes back is heard", agents.one_group() >= 0)
    judged(bed, agents, "recorded datagrams", are_sealed=True)
