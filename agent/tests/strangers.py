"""Agents of which one has another cluster's name, another number of places or another order of them, with a key or without one: they don't hear each other, and
both say so. One whose list has a machine where another one has none fits, and is heard by those that name it."""
import os, signal, subprocess, time

from bed import free_port
from cluster import metric
from enemies import logged

# Each side has so many seconds to say it.
SOON = 5


def other_lists(bed):
    """Of three nodes the last one has another configuration than the two others, which are a group without it."""
    for key in (None, bed.key("ab")):
        word = "sealed" if key else "open"
        ports = [free_port() for _ in range(4)]
        names = ["127.0.0.1:%d" % port for port in ports]
        of_three = names[:3]
        cases = [("another order", dict(nodes=[names[1], names[0], names[2]]), "the 3 nodes of cluster bed", "place 0 of `nodes` here is place 1 there"),
                 ("its own place is another one", dict(nodes=[names[2], names[1], names[0]], listen=names[2]), "the 3 nodes of cluster bed", "place 0 of `nodes` here is place 2 there"),
                 ("a machine at another place", dict(nodes=[names[0], "-", names[1]], listen=names[2]), "the 2 nodes of cluster bed", "place 1 of `nodes` here is place 2 there")]
        if not key:
            # under a key a seal tells these apart
            cases += [("another name", dict(cluster="other", nodes=of_three), "the 3 nodes of cluster other", "of cluster bed"), ("another length", dict(nodes=names), "the 4 nodes of cluster bed", "the 3 of cluster bed")]
        for at, (name, settings, theirs, hint) in enumerate(cases):
            scene(bed, "%s (%s)" % (name, word), "strangers_%s_%d" % (word, at), key, of_three, settings, theirs, hint)
        gaps(bed, word, key, of_three)


def gaps(bed, word, key, names):
    """The last one has a machine where the two others have none: it is heard once they name it."""
    agents, check = bed.agents("gaps_%s" % word, record=None, key=key), bed.tally.check
    for i in range(3):
        agents.write(i, nodes=names if i == 2 else names[:2], listen=None, record=None)
        agents.start(i)
    agents.one_group([0, 1])
    agents.until(lambda: all(logged(agents, i, "a machine at 2 in") for i in range(3)))
    told = [len(logged(agents, i, "node 2: a machine at 2 in its `nodes` alone: who doesn't name a machine doesn't hear it")) for i in range(2)]
    check("a list with one machine more (%s): both sides say so, once for each other" % word, told == [1, 1] and 1 <= len(logged(agents, 2, "a machine at 2 in `nodes` here alone")) <= 2, told)
    # more than one check of each coordinator: 60 round trips
    time.sleep(60 * bed.round_trip / 1000)
    bed.tally.timed("a list with one machine more (%s): it isn't heard by those that don't name it" % word, agents.is_one_group([0, 1]) and agents.is_one_group([2]), agents.groups())
    check("a list with one machine more (%s): what it sends is counted, as that of no stranger" % word, metric(agents, 0, 'dropped_total{reason="Unnamed"}') > 0 and metric(agents, 0, 'dropped_total{reason="Stranger"}') == 0)
    for i in range(2):
        agents.write(i, nodes=names, listen=None, record=None)
        agents.processes[i].send_signal(signal.SIGHUP)
    check("a list with one machine more (%s): once they name it, it joins" % word, agents.one_group() >= 0)
    agents.stop()


def scene(bed, name, folder, key, of_three, settings, theirs, hint):
    agents, check = bed.agents(folder, record=None, key=key), bed.tally.check
    for i in range(2):
        agents.write(i, nodes=of_three, listen=None, record=None)
    agents.write(2, **{**dict(nodes=of_three, listen=None, record=None), **settings})
    os.remove(agents.path(2, "node"))
    subprocess.run([agents.program, "format", agents.path(2, "node"), "64", "2", str(len(settings.get("nodes", of_three)))], check=True)
    agents.start(0)
    agents.start(1)
    agents.one_group([0, 1])
    agents.start(2)
    begin = time.monotonic()
    agents.until(lambda: logged(agents, 2, "they don't hear each other") and (logged(agents, 0, "they don't hear each other") or logged(agents, 1, "they don't hear each other")))
    bed.tally.timed("%s: both sides say so soon" % name, time.monotonic() - begin < SOON, time.monotonic() - begin)
    said = logged(agents, 0, "they don't hear each other") + logged(agents, 1, "they don't hear each other")
    check("%s: they say what the other one is, and what they are" % name, all("it is node 2 of %s" % theirs in one and hint in one for one in said), said)
    check("%s: the other one does, too" % name, all("of the 3 nodes of cluster bed, and this one is node 2 of the" in one for one in logged(agents, 2, "they don't hear each other")))
    # more than one check of each coordinator: 60 round trips
    time.sleep(60 * bed.round_trip / 1000)
    check("%s: it never joins" % name, not any("2" in line.split("of [")[1].split("]")[0] for i in range(2) for line in logged(agents, i, "Normal")) and agents.status(2)["members"] in ([], [2]), agents.groups())
    check("%s: and each says so once for each other" % name, all(len(logged(agents, i, "they don't hear each other")) <= 2 for i in range(3)))
    if not key:
        check("%s: what it sends is counted" % name, metric(agents, 0, 'dropped_total{reason="Stranger"}') + metric(agents, 1, 'dropped_total{reason="Stranger"}') > 0)
    agents.stop()
