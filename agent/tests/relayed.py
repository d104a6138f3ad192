"""Two machines that can't reach each other while both reach a third: what they say to each other goes through its agent."""
import json, os, struct, threading, time

from bed import PATIENCE
from cluster import judged, metric, page

# What is between two of them is done within so many round trips of the cut: 5 s at 20 ms.
SOON = 250
TEXT = "relayed payload"


class Workers:
    """One at each machine, that finishes all that it is given."""

    def __init__(self, agents):
        self.agents, self.runs = agents, True
        self.threads = [threading.Thread(target=self.work, args=(i,), daemon=True) for i in range(agents.count)]
        for thread in self.threads:
            thread.start()

    def work(self, i):
        while self.runs:
            try:
                with self.agents.connect(i) as link:
                    reader = link.makefile()
                    while self.runs:
                        link.sendall(b'{"do":"take","wait":true}\n')
                        job = next(line for line in map(json.loads, reader) if "payload" in line and "ok" in line)
                        link.sendall(json.dumps(dict(do="finish", origin=job["origin"], id=job["id"])).encode() + b"\n")
                        next(line for line in map(json.loads, reader) if "ok" in line)
            except (OSError, ValueError, KeyError, StopIteration):
                time.sleep(0.05)

    def stop(self):
        self.runs = False


def given_up(agents):
    """The lead goes from one machine, which keeps sixteen jobs, to another one; the keeper, who leads, the third."""
    agents.start_all()
    agents.one_group()
    keeper = agents.status(0)["coordinator"]
    for queue in range(16):
        while not agents.ask(keeper, do="submit", queue=queue, text="%s %d" % (TEXT, queue))["ok"]:
            time.sleep(0.05)
    agents.ask(keeper, do="drain", on=True)
    agents.until(lambda: agents.is_one_group(range(3)) and agents.status(keeper)["coordinator"] != keeper)
    agents.ask(keeper, do="drain", on=False)
    lead = agents.status(keeper)["coordinator"]
    return keeper, lead, 3 - keeper - lead


def through(agents, i, other):
    return next(row for row in agents.ask(i, do="members")["members"] if row["node"] == other)["through"]


def relayed(bed):
    for name, key in (("clear", None), ("sealed", bed.key("ab"))):
        agents, check, timed = bed.agents("relayed-" + name, key=key), bed.tally.check, bed.tally.timed
        keeper, lead, other = given_up(agents)
        # whoever was there before another one may speak to it through the third at first
        check("%s: nobody is reached through another one" % name, agents.until(lambda: [through(agents, i, j) for i in range(3) for j in range(3)] == [None] * 9) >= 0)
        before = carried(agents)
        agents.relay.cuts.add(frozenset((keeper, other)))
        workers = Workers(agents)
        groups = agents.groups()
        took = agents.until(lambda: agents.status(keeper)["pending"] == 0)
        bed.tally.note("%s: jobs between two that can't reach each other are done after %.2f s" % (name, took))
        # in another group another machine may have their queue
        timed("%s: in the group in which it was cut" % name, groups == agents.groups(), (groups, agents.groups()))
        timed("%s: jobs between two that can't reach each other are done soon" % name, took < SOON * bed.round_trip / 1000, took)
        told(bed, agents, name, (keeper, lead, other), before)
        whole(bed, agents, name, (keeper, lead, other))
        if key:
            kept = [datagram for _, datagram in list(agents.relay.kept)]
            check("sealed: what is carried on is read by nobody", not any(TEXT.encode() in datagram for datagram in kept), len(kept))
        junk(bed, agents, name, (keeper, lead, other))
        mended(bed, agents, name)
        workers.stop()
        judged(bed, agents, "%s: what another one carried on" % name)


def carried(agents):
    return [metric(agents, i, 'relayed_total{event="carried"}') for i in range(3)]


def told(bed, agents, name, machines, before):
    """Who is reached through whom stands in `members`, in the metrics and in what dumgerokctl prints."""
    keeper, lead, other = machines
    agents.ask(keeper, do="submit", queue=0, text="more")
    ways = agents.until(lambda: through(agents, keeper, other) == lead and through(agents, keeper, lead) is None)
    bed.tally.check("%s: members tells through whom one is reached" % name, ways >= 0)
    numbers = agents.until(lambda: (metric(agents, keeper, "peers_through"), metric(agents, lead, "peers_through")) == (1, 0))
    bed.tally.check("%s: so does a metric" % name, numbers >= 0)
    shown = agents.until(lambda: "through node %d" % lead in agents.ctl(keeper, "members").stdout)
    bed.tally.check("%s: dumgerokctl shows it" % name, shown >= 0)
    counts = [after - count for after, count in zip(carried(agents), before)]
    bed.tally.check("%s: the third one alone carried it on" % name, [i for i in range(3) if counts[i]] == [lead], counts)


def whole(bed, agents, name, machines):
    """Where who leads and a member can't reach each other either they are one group, whose jobs are done."""
    keeper, lead, other = machines
    agents.relay.cuts.clear()
    agents.until(lambda: all(through(agents, i, j) is None for i in range(3) for j in range(3)))
    agents.one_group()
    lead = agents.status(0)["coordinator"]
    member = (lead + 1) % 3
    agents.relay.cuts.add(frozenset((lead, member)))
    begin = time.monotonic()
    time.sleep(3)
    gone = agents.until(lambda: agents.is_one_group(range(3)) and {through(agents, lead, member), through(agents, member, lead)} == {(lead + 2) % 3} - {None})
    bed.tally.note("%s: who leads and a member are one group again %.2f s behind the cut" % (name, time.monotonic() - begin))
    bed.tally.check("%s: who leads and a member are one group through the third" % name, gone >= 0)
    for queue in range(16):
        agents.until(lambda: agents.ask(member, do="submit", queue=queue, text="again")["ok"])
    bed.tally.check("%s: and jobs of all queues are done there" % name, agents.until(lambda: [agents.status(i)["pending"] for i in range(3)] == [0] * 3) >= 0)


def junk(bed, agents, name, machines):
    """What isn't to be carried on isn't: of nobody's, for nobody, for the own machine, within another one."""
    lead = machines[1]
    mark = agents.relay.head(lead)[2:] if name == "clear" else bytes(8)
    envelope = lambda leg, deaf, sender, to, by, inner: b"\xd6\x06" + struct.pack("BBBBB", leg, deaf, sender, to, by) + mark + inner
    a, b = (i for i in range(3) if i != lead)
    rows = [envelope(1, 0, a, 77, a, b"x"), envelope(1, 0, 77, b, 77, b"x"), envelope(1, 0, lead, b, lead, b"x"), envelope(1, 0, a, lead, a, b"x"), envelope(1, 0, a, b, b, b"x"),
            envelope(3, 0, a, b, a, b"x"), envelope(1, 2, a, b, a, b"x"), envelope(2, 0, a, b, b, b"x"), envelope(1, 0, a, b, a, envelope(1, 0, a, b, a, b"x")), b"\xd6\x06\x01"]
    dropped = lambda: sum(metric(agents, lead, 'dropped_total{reason="%s"}' % reason) for reason in ("Relay", "Forged"))
    before, carried = dropped(), metric(agents, lead, 'relayed_total{event="carried"}')
    agents.relay.cuts.clear()
    agents.until(lambda: all(through(agents, i, j) is None for i in range(3) for j in range(3)))
    time.sleep(0.5)
    before, carried = dropped(), metric(agents, lead, 'relayed_total{event="carried"}')
    agents.send_all(lead, rows)
    bed.tally.check("%s: what isn't to be carried on is dropped" % name, dropped() - before >= len(rows) and metric(agents, lead, 'relayed_total{event="carried"}') == carried, (dropped(), before))


def mended(bed, agents, name):
    """Once they reach each other again nothing goes through another one."""
    agents.relay.cuts.clear()
    agents.until(lambda: all(through(agents, i, j) is None for i in range(3) for j in range(3)))
    sent = lambda: [metric(agents, i, 'relayed_total{event="sent"}') for i in range(3)]
    # one that was told that another one doesn't hear it answers the same way for three seconds more
    for _ in range(4):
        before = sent()
        agents.until(lambda: agents.ask(0, do="submit", queue=1, text="last")["ok"])
        time.sleep(2)
        if before == sent():
            break
    bed.tally.steady(agents)("%s: once they reach each other nothing is carried on" % name, before == sent(), (before, sent()))
