"""Agents that are told to end or are killed, and nodes that end under them: the others know at once, by nothing that was recorded, and by nothing that is made up."""
import os, random, signal, socket, struct, time

from bed import is_there
from cluster import judged, metric


def planned(bed):
    """SIGTERM of a coordinator and of a member, and a node of each that is killed, under a key; then all that said so is sent again."""
    agents, tally, times = bed.agents("planned", key=bed.key("ab"), delay=(0.0, 0.001)), bed.tally, {}
    said = lambda i, text: [line for line in open(agents.path(i, "log")) if text in line]
    agents.start_all()
    agents.one_group()
    for turn in range(2):
        for kind in ("coordinator", "member"):
            for way in ("SIGTERM", "node"):
                lead = agents.status(0)["coordinator"]
                gone = lead if kind == "coordinator" else next(i for i in range(3) if i != lead)
                rest = [i for i in range(3) if i != gone]
                # two members hear each other only while a group is made, so one of them may not know the other's stamps
                partners = rest if kind == "coordinator" else [lead]
                told = [metric(agents, i, 'farewells_total{event="taken"}') for i in partners]
                # nobody waits for a check that is due by chance
                time.sleep(random.Random(bed.seed + turn).uniform(0.5, 1.5))
                node, begin = agents.node(gone), time.monotonic()
                os.kill(agents.processes[gone].pid if way == "SIGTERM" else node, signal.SIGTERM if way == "SIGTERM" else signal.SIGKILL)
                agents.until(lambda: agents.is_one_group(rest))
                times.setdefault((kind, way), []).append(time.monotonic() - begin)
                agents.processes[gone].wait()
                agents.until(lambda: not is_there(node))
                taken = lambda: [metric(agents, i, 'farewells_total{event="taken"}') for i in partners]
                # they may be a group by what one of them was told
                agents.until(lambda: all(a > b for a, b in zip(taken(), told)))
                tally.check("%s, %s: those who talked with it are told, once" % (kind, way), all(a - b == 1 for a, b in zip(taken(), told)), (kind, way))
                tally.timed("and say why it is missing", any(said(i, "node %d is no member any more" % gone) and said(i, "and said that it ends") for i in rest))
                agents.start(gone)
                agents.one_group()
    took = {" ".join(kind): ["%.2f" % one for one in all_of] for kind, all_of in times.items()}
    tally.note("a group without one that ended: %s" % took)
    # TIMERS: a dead coordinator is missed after 62 round trips and a dead member after three checks, by who is told of it at once neither
    soonest = min(one for way in ("SIGTERM", "node") for one in times["coordinator", way])
    tally.timed("the next coordinator looks for the others at once", soonest < 20 * bed.round_trip / 1000, soonest)
    tally.timed("a planned end isn't waited for", all(one < bound(bed, kind) for kind, all_of in times.items() for one in all_of), took)
    again(bed, agents)
    judged(bed, agents, "planned ends", are_sealed=True)


def bound(bed, kind):
    """What a busy machine takes, and a merge, behind a recovery where it is a member: some 15 and 35 round trips. A coordinator's next one looks for the others
    at once."""
    return 0.5 + (25 if kind[0] == "coordinator" else 50) * bed.round_trip / 1000


def settle(agents, seconds):
    """Waits until no group changed for so long: the one that came last may be asked by another one still."""
    seen, since = agents.groups(), time.monotonic()

    def rests():
        nonlocal seen, since
        now = agents.groups()
        if now != seen:
            seen, since = now, time.monotonic()
        return time.monotonic() - since >= seconds
    agents.until(rests)


def again(bed, agents):
    """All that was recorded comes again, each datagram twice: what told of those ends, each to two others, is refused, and nobody is given up by it."""
    settle(agents, 30 * bed.round_trip / 1000)
    old = list(agents.relay.kept)
    before = [metric(agents, j, 'farewells_total{event="taken"}') for j in range(3)]
    refused, groups = sum(metric(agents, j, 'farewells_total{event="refused"}') for j in range(3)), agents.groups()

    def come():
        for j in range(3):
            agents.send_all(j, [message for to, message in old if to == j] * 2)

    def come_and_change_nothing():
        settle(agents, 30 * bed.round_trip / 1000)
        groups = agents.groups()
        come()
        return agents.groups() == groups
    come()
    came = sum(metric(agents, j, 'farewells_total{event="refused"}') for j in range(3)) - refused
    bed.tally.check("farewells that were recorded are refused, each", came >= 2 * 16 and came % 2 == 0, (len(old), came))
    bed.tally.check("and none is taken", [metric(agents, j, 'farewells_total{event="taken"}') for j in range(3)] == before)
    # on a busy machine so many datagrams at once may cost a group, whatever they say: what they say would each time
    bed.tally.timed("nor changes a group", agents.groups() == groups or any(come_and_change_nothing() for _ in range(2)))


KILLED, DOUBTED = 'farewells_total{event="killed"}', 'farewells_total{event="doubted"}'


def killed(bed):
    """Agents that are killed where their machine lives: it refuses what is sent to them, by which the others know. Under a key and without one."""
    times, tally = {}, bed.tally
    for name, settings in (("killed", dict(key=bed.key("ab"))), ("killed_without_key", {})):
        agents = bed.agents(name, direct=True, **settings)
        agents.start_all()
        agents.one_group()
        for kind in ("coordinator", "member"):
            # nobody waits for a check that is due by chance
            time.sleep(random.Random(bed.seed).uniform(0.5, 1.5))
            lead = agents.status(0)["coordinator"]
            gone = lead if kind == "coordinator" else next(i for i in range(3) if i != lead)
            rest = [i for i in range(3) if i != gone]
            who = rest if kind == "coordinator" else [lead]
            before, begin = [metric(agents, i, KILLED) for i in who], time.monotonic()
            agents.kill(gone)
            agents.until(lambda: agents.is_one_group(rest))
            times.setdefault(kind, []).append(time.monotonic() - begin)
            end = time.monotonic() + 20
            while time.monotonic() < end and all(metric(agents, i, KILLED) == count for i, count in zip(who, before)):
                time.sleep(0.05)
            settle(agents, 30 * bed.round_trip / 1000)
            counts = [metric(agents, i, KILLED) - count for i, count in zip(who, before)]
            tally.check("%s, a %s: it is given up by those who talked with it, once" % (name, kind), max(counts) == 1, counts)
            agents.start(gone)
            agents.one_group()
        begun_anew(bed, agents, name)
        made_up(bed, agents, name)
        judged(bed, agents, name, are_sealed="key" in settings)
        agents.stop()
    took = {kind: ["%.2f" % one for one in all_of] for kind, all_of in times.items()}
    tally.note("a group without one that was killed: %s" % took)
    # TIMERS: without a word from the network a dead coordinator is replaced after some 50 round trips in the median, and a dead member after 115
    tally.timed("an agent that was killed isn't waited for", all(one < 0.5 + 45 * bed.round_trip / 1000 for all_of in times.values() for one in all_of), took)


def begun_anew(bed, agents, name):
    """One that begins anew at once, whose port is refused for a moment, is a member again as soon as one that comes."""
    lead = agents.status(0)["coordinator"]
    gone = next(i for i in range(3) if i != lead)
    agents.kill(gone)
    agents.start(gone)
    agents.until(lambda: (agents.status(gone) or {}).get("alive"))
    begin = time.monotonic()
    agents.one_group()
    took = time.monotonic() - begin
    bed.tally.timed("%s: one that begins anew is a member soon" % name, took < 1.5 + 100 * bed.round_trip / 1000, took)


def refusal(own, peer):
    """What the network says where nobody has the port of a peer (ICMP, port unreachable): with it the heads of the datagram that was sent there."""
    address = socket.inet_aton("127.0.0.1")
    head = struct.pack(">BBHHHBBH4s4s", 0x45, 0, 28, 0, 0, 64, socket.IPPROTO_UDP, 0, address, address)
    said = struct.pack(">BBHI", 3, 3, 0, 0) + head + struct.pack(">HHHH", own, peer, 8, 0)
    total = sum(struct.unpack(">%dH" % (len(said) // 2), said))
    total = (total & 0xffff) + (total >> 16)
    return said[:2] + struct.pack(">H", ~(total + (total >> 16)) & 0xffff) + said[4:]


def made_up(bed, agents, name):
    """Whoever knows addresses and ports can say that: nobody is given up by it who answers."""
    try:
        link = socket.socket(socket.AF_INET, socket.SOCK_RAW, socket.IPPROTO_ICMP)
    except OSError as why:
        return bed.tally.left_out("refusals that are made up", str(why))
    settle(agents, 30 * bed.round_trip / 1000)
    counts, groups, doubts = [metric(agents, i, KILLED) for i in range(3)], agents.groups(), [metric(agents, i, DOUBTED) for i in range(3)]
    begin = time.monotonic()
    with link:
        for _ in range(300):
            for i in range(3):
                for j in range(3):
                    if i != j:
                        link.sendto(refusal(agents.relay.real[i][1], agents.relay.real[j][1]), ("127.0.0.1", 0))
            time.sleep(0.01)
    doubted = [metric(agents, i, DOUBTED) - count for i, count in enumerate(doubts)]
    # two others, asked once in half a second each
    bed.tally.check("%s: who is refused by what is made up is asked, and not more often than that" % name, all(2 <= count <= 4 * (time.monotonic() - begin) + 4 for count in doubted), doubted)
    bed.tally.timed("and nobody is given up who answers", [metric(agents, i, KILLED) for i in range(3)] == counts)
    bed.tally.timed("nor changes a group", agents.groups() == groups, (groups, agents.groups()))
