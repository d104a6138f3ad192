"""A node's file that was put back from a copy, or made with numbers that are too low, is known by what the other machines were told before; and nothing else is
taken for one."""
import os, shutil, signal, subprocess, time

from bed import PATIENCE
from cluster import metric
from enemies import logged

COPY = 9
END_TEXT = "this file was put back from a copy"


def again(agents, i, number=signal.SIGKILL):
    agents.kill(i, number)
    agents.start(i)
    agents.one_group()


def known(agents, i):
    """Waits until each other agent has the numbers of node i: what it was told is all that it can tell."""
    time.sleep(2.5)


def count_of(agents, i):
    said = subprocess.run([agents.program, "inspect", agents.path(i, "node")], stdout=subprocess.PIPE, text=True).stdout
    return int(said.split("count ")[1].split()[0])


def refused(bed, agents, i, name, others):
    """Agent i is started over what its file is now: it ends with a status of its own, before it acknowledges anything."""
    before = [metric(agents, j, 'farewells_total{event="copy"}') for j in others]
    agents.start(i)
    # one that a busy machine gives no time tells or asks the others too late
    told, end, timed = [], time.monotonic() + PATIENCE / 6, bed.tally.timed
    while agents.processes[i].poll() is None and time.monotonic() < end:
        told.append(agents.ask(i, do="submit", queue=0, text="no"))
    if not timed("%s: a status of its own" % name, agents.processes[i].poll() == COPY, (agents.processes[i].poll(), told[-3:])):
        raise ValueError("it goes on")
    timed("%s: nothing is acknowledged" % name, not any(one and one["ok"] for one in told), told)
    check = bed.tally.check
    check("%s: what happened, and what to do" % name, END_TEXT in logged(agents, i, "--first above ")[-1])
    for j, count in zip(others, before):
        agents.until(lambda: metric(agents, j, 'farewells_total{event="copy"}') == count + 1)
    check("%s: the others' logs say so, too" % name, all(logged(agents, j, "node %d ends: its file was put back from a copy" % i) for j in others))
    return int(logged(agents, i, "--first above ")[-1].rsplit(" ", 1)[1])


def formatted(agents, i, first):
    os.remove(agents.path(i, "node"))
    subprocess.run([agents.program, "format", agents.path(i, "node"), "64", str(i), str(agents.count), str(first)], check=True)


def put_back(bed):
    for key in (None, bed.key("ab")):
        scene(bed, "sealed" if key else "open", key)


def scene(bed, word, key):
    agents, check = bed.agents("copies_%s" % word, record=None, key=key, first=1000), bed.tally.check
    file, copy = agents.path(0, "node"), agents.path(0, "copy")
    agents.start_all()
    agents.one_group()
    name = "a copy of before the last start (%s)" % word
    agents.kill(0, signal.SIGTERM)
    shutil.copy(file, copy)
    agents.start(0)
    agents.one_group()
    known(agents, 0)
    agents.kill(0)
    last = os.path.join(agents.folder, "last")
    shutil.copy(file, last)
    shutil.copy(copy, file)
    count = count_of(agents, 0)
    least = refused(bed, agents, 0, name, [1, 2])
    check("%s: the number that it names is above what was given" % name, least >= count + 1, (least, count))
    # its own file is none, though the others were told of the copy's life
    shutil.copy(last, file)
    agents.start(0)
    agents.one_group()
    name = "a copy of the same life, in which jobs were kept since (%s)" % word
    lead = agents.status(0)["coordinator"]
    one_below, file = copied(agents, lead), agents.path(lead, "node")
    steady = bed.tally.steady(agents)
    kept = [agents.ask(lead, do="submit", queue=q, text="x") for q in range(5)]
    steady("%s: they are kept" % name, all(one["ok"] and one["origin"] == lead for one in kept), kept)
    known(agents, lead)
    agents.kill(lead)
    shutil.copy(file, last)
    shutil.copy(one_below, file)
    refused(bed, agents, lead, name, [i for i in range(3) if i != lead])
    name = "a new file whose numbers begin too low (%s)" % word
    formatted(agents, lead, 5)
    least = refused(bed, agents, lead, name, [i for i in range(3) if i != lead])
    formatted(agents, lead, least + 1)
    agents.start(lead)
    check("one above that is taken (%s)" % word, agents.one_group() >= 0)
    no_alarm(bed, agents, word)
    agents.stop()


def copied(agents, i):
    path = agents.path(i, "copy")
    shutil.copy(agents.path(i, "node"), path)
    return path


def no_alarm(bed, agents, word):
    """Kills, restarts, and all datagrams of before again: no file is taken for a copy."""
    for turn in range(4):
        for i in range(3):
            agents.ask(i, do="submit", queue=turn, text="kept")
        again(agents, turn % 3, signal.SIGTERM if turn == 3 else signal.SIGKILL)
        old = list(agents.relay.kept)[-1500:]
        for j in range(3):
            agents.send_all(j, [datagram for to, datagram in old if to == j])
    alive = [agents.processes[i].poll() for i in range(3)]
    bed.tally.check("kills, restarts and recorded datagrams: no file is taken for a copy (%s)" % word, alive == [None] * 3, alive)


def last_alive(bed):
    """One peer that is alive, and that heard the node, suffices; without one there is nobody to ask, and the node begins."""
    agents, check = bed.agents("last_alive", record=None, first=1000), bed.tally.check
    agents.start_all()
    agents.one_group()
    agents.kill(0)
    copied(agents, 0)
    agents.start(0)
    agents.one_group()
    known(agents, 0)
    agents.kill(1)
    agents.kill(0)
    shutil.copy(agents.path(0, "copy"), agents.path(0, "node"))
    refused(bed, agents, 0, "one peer alive", [2])
    agents.kill(2)
    agents.start(0)
    check("none: it begins", agents.one_group([0]) >= 0)
    agents.stop()


def replaced(agents, file, other):
    os.rename(other, file)


def emptied(agents, file, other):
    length = os.path.getsize(file)
    os.truncate(file, 0)
    os.truncate(file, length)


def overwritten(agents, file, other):
    with open(other, "rb") as bytes_of, open(file, "r+b") as over:
        over.write(bytes_of.read())


def changed_file(bed):
    """A node's file that another one took the place of, that was cut to nothing and grew again, that was written over by another node's or by its own of before:
    what is asked next isn't acknowledged."""
    agents, check = bed.agents("changed_file", count=1, record=None, http=None, first=1000), bed.tally.check
    os.remove(agents.path(0, "node"))
    file = agents.path(0, "node")
    begun, foreign = file + ".begun", file + ".foreign"
    # a second name keeps the number of its links
    requests = dict(submit=dict(queue=0, text="x"), compact={})
    for name, other, change, said in (("replaced", begun, replaced, "another file took its name"), ("emptied", begun, emptied, "written over"),
                                      ("another node's", foreign, overwritten, "written over"), ("its own of before", begun, overwritten, "its counter isn't what the node gave")):
        for do, more in requests.items():
            subprocess.run([agents.program, "format", file, "64", "0", "1", "1000"], check=True)
            subprocess.run([agents.program, "format", foreign, "64", "1", "2", "9000"], check=True)
            shutil.copy(file, begun)
            agents.start(0)
            agents.one_group([0])
            kept = agents.ask(0, do="submit", queue=0, text="before")
            os.link(file, file + ".second")
            change(agents, file, other)
            answer = agents.ask(0, do=do, **more)
            check("%s: a %s isn't acknowledged" % (name, do), kept["ok"] and not (answer and answer["ok"]), (kept, answer))
            status = agents.processes[0].wait(PATIENCE)
            check("%s: a status, and why" % name, status == 7 and logged(agents, 0, said), (status, said))
            for path in (file, file + ".second", foreign, begun):
                if os.path.exists(path):
                    os.remove(path)
    agents.stop()
