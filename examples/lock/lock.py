#!/usr/bin/env python3
"""A lock with fencing: whoever coordinates a majority may add to one number in an SQLite file, through a partition.

    lock.py PROGRAM SECONDS

The row is (epoch, token, value). A node that is Normal and coordinator of C:K takes it by compare-and-swap, to (epoch + 1, C:K), and adds only
where the token is still C:K. A number has one coordinator and is never given twice, so between two takeovers one node adds. In the
middle third of the run the coordinator is cut off from the others and isn't given the time, as one whose driver hangs: it goes on as
coordinator, and its client goes on adding until the others take the row, and is refused from then on.
"""
import heapq, os, selectors, sqlite3, subprocess, sys, tempfile, time

NODES, program, seconds = 3, sys.argv[1], float(sys.argv[2])
folder = tempfile.mkdtemp(prefix="lock-")
base = sqlite3.connect(f"{folder}/row", isolation_level=None)
base.execute("create table row (epoch integer, token text, value integer)")
base.execute("insert into row values (0, '', 0)")
begun = time.monotonic()
look = selectors.DefaultSelector()
nodes, unread = [], [b""] * NODES
leads = [None] * NODES       # the number of the group that a node coordinates, where a majority are its members
holds = [None] * NODES       # the number with which it took the row
since = [0.0] * NODES
due, places = [], iter(range(1 << 62))
alone = None                 # the node that is cut off
seen = dict(takeovers=0, added=0, refused=0, both=0)


def feed(i, line):
    nodes[i].stdin.write(line.encode() + b"\n")


def heard(i, words):
    if words[0] == "send":
        heapq.heappush(due, (time.monotonic() + 0.005, next(places), i, int(words[1]), words[2]))
    elif words[0] == "group":
        members = words[4].split(",") if words[1] == "Normal" else []
        leads[i] = words[3] if len(members) > NODES / 2 and words[2] == str(i) else None
        since[i] = time.monotonic()


def client(i):
    """A step of the client at node i: it takes the row over, two tenths of a second after its group was made, or adds to it."""
    if leads[i] is None:
        return
    epoch, token, _ = base.execute("select * from row").fetchone()
    if holds[i] != leads[i]:
        if time.monotonic() - since[i] > 0.2:
            took = base.execute("update row set epoch = epoch + 1, token = ? where epoch = ? and token = ?", (leads[i], epoch, token))
            if took.rowcount:
                holds[i] = leads[i]
                seen["takeovers"] += 1
                print(f"{time.monotonic() - begun:5.1f} s: node {i} took the row with {holds[i]}, epoch {epoch + 1}")
        return
    added = base.execute("update row set value = value + 1 where token = ?", (holds[i],)).rowcount
    seen["added" if added else "refused"] += 1


for i in range(NODES):
    subprocess.run([program, "format", f"{folder}/{i}", "64", str(i), str(NODES)], check=True)
    nodes.append(subprocess.Popen([program, "node", f"{folder}/{i}", str(i), str(NODES)], stdin=subprocess.PIPE, stdout=subprocess.PIPE, bufsize=0))
    look.register(nodes[i].stdout, selectors.EVENT_READ, i)
    feed(i, "recover")
ticked = 0.0
while (now := time.monotonic()) - begun < seconds:
    while due and due[0][0] <= now:
        _, _, i, to, message = heapq.heappop(due)
        if alone not in (i, to):
            feed(to, "deliver " + message)
    if alone is None and seconds / 3 < now - begun < 2 * seconds / 3:
        alone = next((i for i in range(NODES) if leads[i]), None)
    elif now - begun > 2 * seconds / 3:
        alone = None
    if now - ticked > 0.01:
        ticked = now
        for i in range(NODES):
            if i != alone:
                feed(i, f"tick {int((now - begun) * 1000)}")
            client(i)
        seen["both"] += sum(lead is not None for lead in leads) > 1
    for key, _ in look.select(0.002):
        i = key.data
        *lines, unread[i] = (unread[i] + os.read(key.fileobj.fileno(), 65536)).split(b"\n")
        for line in lines:
            heard(i, line.decode().split())
for node in nodes:
    node.kill()
value = base.execute("select value from row").fetchone()[0]
print(", ".join(f"{name} {count}" for name, count in seen.items()) + f"; the row has {value}")
if value != seen["added"]:
    sys.exit("VIOLATION: a write was lost")
