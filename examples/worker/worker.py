#!/usr/bin/env python3
"""A worker: one node that runs the command of each job that it takes, and finishes the job when the command ends.

    worker.py PROGRAM node FILE SELF NODES

Its standard input and output are those of the node, so a transport carries its messages as if it were the node: what is asked through it is answered by the
numbers that it would have at the node, and the worker's own requests by no closing line. What the node takes is a command for the shell, in hex; the
command's output goes to standard error. A command may run twice: where the group changes while it runs, the job is dropped here and taken elsewhere; and where
the word that it is done is lost. So a command has to bear that.
"""
import collections, subprocess, sys, threading

node = subprocess.Popen(sys.argv[1:], stdin=subprocess.PIPE, stdout=subprocess.PIPE, text=True, bufsize=1)
turn = threading.Lock()
asked = collections.deque()              # of each request that isn't answered yet, whether it came through the worker


def feed(line, through):
    with turn:
        if line != "\n":
            asked.append(through)
        node.stdin.write(line)
        node.stdin.flush()


def work(origin, id, payload):
    command = "" if payload == "-" else bytes.fromhex(payload).decode()
    subprocess.run(command, shell=True, stdin=subprocess.DEVNULL, stdout=sys.stderr)
    feed(f"finish {origin} {id}\n", False)


def carry():
    for line in sys.stdin:
        feed(line, True)
    node.stdin.close()


threading.Thread(target=carry, daemon=True).start()
number = 0
for line in node.stdout:
    words = line.split()
    if words[0] == "take":
        threading.Thread(target=work, args=(words[1], words[2], words[4]), daemon=True).start()
    elif words[0] in ("ok", "refused", "bad", "fault"):
        if not asked.popleft():
            continue
        number += 1
        line = " ".join([words[0], str(number), *words[2:]]) + "\n"
    print(line, end="", flush=True)
sys.exit(node.wait())
