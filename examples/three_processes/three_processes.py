#!/usr/bin/env python3
"""Three nodes as processes, each over a file of its own. This script is their network, their clock and their enemy.

    three_processes.py PROGRAM SECONDS SEED [kill] [cut] [lose]

It kills nodes (kill -9), cuts links and loses messages, submits jobs and finishes those that nodes take. Over the whole run it checks that
a group number has one coordinator and one set of members, and that no node gives a number twice. It ends by turning the nodes' logs into a
trace, which the command `trace` has to judge a run.
"""
import heapq, json, os, random, selectors, shutil, subprocess, sys, tempfile, time
from trace_of_logs import CLOSING, trace_of

NODES, ROUND_TRIP, SPEED = 3, 20, 2      # a round trip in milliseconds of the nodes' clock, which goes so much faster than the wall's
program, seconds, seed, enemy = sys.argv[1], float(sys.argv[2]), int(sys.argv[3]), set(sys.argv[4:])
chance = random.Random(seed)
folder = tempfile.mkdtemp(prefix="three_processes-")
begun = time.monotonic()
look = selectors.DefaultSelector()
nodes, logs = [None] * NODES, [open(f"{folder}/{i}.log", "w") for i in range(NODES)]
waiting = [[] for _ in range(NODES)]     # the requests that aren't asked yet
asked = [None] * NODES                   # the one that isn't answered yet
unread = [b""] * NODES                   # what was read of its answer
leader = [None] * NODES                  # the coordinator of each node that is Normal
links_cut = set()
due = []                                 # what is to happen: (time, place, what, ..)
places = iter(range(1 << 62))
coordinator, members, last_count = {}, {}, [0] * NODES
seen = dict(kills=0, groups=0, sent=0, lost=0, answered=0, taken=0, gone=0)


def fail(why):
    print("VIOLATION:", why, "in", folder, flush=True)
    os._exit(1)


def clock():
    """Milliseconds of the nodes' clock."""
    return (time.monotonic() - begun) * 1000 * SPEED


def later(after, *what):
    heapq.heappush(due, (clock() + after, next(places)) + what)


def feed(i, line):
    """A request is asked once the one before it is answered."""
    waiting[i].append(line)
    ask(i)


def ask(i):
    if asked[i] is None and waiting[i]:
        asked[i] = waiting[i].pop(0)
        logs[i].write(f"> {asked[i]}\n")
        nodes[i].stdin.write(asked[i].encode() + b"\n")


def start(i):
    nodes[i] = subprocess.Popen([program, "node", f"{folder}/{i}", str(i), str(NODES)], stdin=subprocess.PIPE, stdout=subprocess.PIPE, bufsize=0)
    look.register(nodes[i].stdout, selectors.EVENT_READ, i)
    waiting[i], asked[i], unread[i], leader[i] = [], None, b"", None
    feed(i, "recover")


def kill(i):
    """What it wrote whole before counts; an answer that has no closing line doesn't."""
    nodes[i].kill()
    nodes[i].wait()
    look.unregister(nodes[i].stdout)
    answered(i, nodes[i].stdout.read())
    logs[i].write("killed\n")
    seen["kills"] += 1


def answered(i, piece):
    unread[i] += piece
    *lines, rest = unread[i].decode().split("\n")
    if lines and lines[-1].split()[0] in CLOSING:
        unread[i], asked[i] = rest.encode(), None
        logs[i].write("".join(line + "\n" for line in lines))
        for line in lines:
            heard(i, line.split())


def send(i, to, message):
    seen["sent"] += 1
    if "lose" in enemy and chance.random() < 0.05:
        seen["lost"] += 1
    else:
        later(chance.uniform(0.1, 0.5) * ROUND_TRIP, "deliver", i, to, message)


def group_is(i, phase, lead=None, number=None, ids=None):
    leader[i] = int(lead) if phase == "Normal" else None
    if phase not in ("Reorganization", "Normal"):
        return
    if coordinator.setdefault(number, lead) != lead:
        fail(f"{number} has two coordinators, {coordinator[number]} and {lead}")
    if phase == "Normal":
        seen["groups"] += number not in members
        if members.setdefault(number, ids) != ids:
            fail(f"{number} has two tasks, of {members[number]} and of {ids}")


def new_number(i, number):
    creator, count = map(int, number.split(":"))
    if creator == i:
        if count < last_count[i]:
            fail(f"node {i} is in {number} after {i}:{last_count[i]}")
        last_count[i] = count


def heard(i, words):
    if words[0] == "send":
        send(i, int(words[1]), words[2])
    elif words[0] == "group":
        if words[1] in ("Election", "Reorganization", "Normal"):
            new_number(i, words[3])
        group_is(i, *words[1:])
    elif words[0] == "take":
        seen["taken"] += 1
        later(chance.uniform(0, 5) * ROUND_TRIP, "finish", i, words[1], words[2])
    elif words[0] == "gone":
        seen["gone"] += 1
    elif words[0] == "ok" and len(words) > 2:
        seen["answered"] += 1
    elif words[0] in ("bad", "fault"):
        fail(f"node {i} answers {' '.join(words)}")


def happens(now, what, *of):
    if what == "deliver" and frozenset(of[:2]) not in links_cut:
        feed(of[1], "deliver " + of[2])
    elif what == "finish":
        feed(of[0], f"finish {of[1]} {of[2]}")
    elif what == "tick":
        if not waiting[of[0]]:
            feed(of[0], f"tick {int(now)}")
        later(ROUND_TRIP / 2, "tick", of[0])
    elif what == "submit":
        leads = [i for i in range(NODES) if leader[i] == i]
        if leads:
            priority = chance.randrange(4)
            feed(chance.choice(leads), f"submit {chance.randrange(16)} {chance.getrandbits(32):08x}" + (f" {priority}" if priority else ""))
        later(2.5 * ROUND_TRIP, "submit")
    elif what == "kill":
        i = chance.randrange(NODES)
        kill(i)
        start(i)
        later(chance.uniform(50, 700) * SPEED, "kill")
    elif what == "cut":
        alone = chance.randrange(NODES)
        links_cut.clear()
        if chance.random() < 0.5:
            links_cut.update(frozenset((alone, i)) for i in range(NODES) if i != alone)
        later(chance.uniform(300, 2000) * SPEED, "cut")


def judge():
    """The trace of all logs is a run: the command `trace` says so."""
    for log in logs:
        log.close()
    with open(f"{folder}/run.json", "w") as file:
        json.dump(trace_of([f"{folder}/{i}.log" for i in range(NODES)]), file)
    verdict = subprocess.run([program, "trace"], stdin=open(f"{folder}/run.json"), capture_output=True, text=True).stdout.split()
    if verdict[:1] != ["Run"]:
        fail(f"the trace run.json is judged {' '.join(verdict)}")
    return len(verdict) - 1


for i in range(NODES):
    subprocess.run([program, "format", f"{folder}/{i}", "64", str(i), str(NODES)], check=True)
    start(i)
    later(0, "tick", i)
later(25 * ROUND_TRIP, "submit")
for what in ("kill", "cut"):
    if what in enemy:
        later(500, what)
while (now := clock()) < seconds * 1000 * SPEED:
    while due and due[0][0] <= now:
        happens(now, *heapq.heappop(due)[2:])
    for key, _ in look.select(0.0005):
        answered(key.data, os.read(key.fileobj.fileno(), 65536))
        ask(key.data)
for i in range(NODES):
    kill(i)
seen["kills"] -= NODES
entries = judge()
print(f"no violation in {seconds:g} s, and a run of {entries} entries: " + ", ".join(f"{name} {count}" for name, count in seen.items()))
shutil.rmtree(folder)
