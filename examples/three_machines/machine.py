#!/usr/bin/env python3
"""One node of a cluster on its machine: it starts the node, carries its messages as datagrams, tells it the time, and hands it what you type.

    machine.py PROGRAM FILE SELF ADDRESS..

PROGRAM may be several words, as 'python3 worker.py invite'. The addresses are those of all nodes, as HOST:PORT, in their order; the one at SELF is its own.
What is written are the answers to what you type, and what comes about by itself: `group`, `take`, `drop`, `gone`. A datagram may be lost or come twice: the
protocol bears both, and nodes send again what they wait for. Whoever can send datagrams to it can take part: keep it to a network of your own.
"""
import os, selectors, shlex, signal, socket, subprocess, sys, time

signal.signal(signal.SIGINT, signal.SIG_DFL)      # ^C ends it, and the node with it
program, path, own = shlex.split(sys.argv[1]), sys.argv[2], int(sys.argv[3])
hosts = [(host, int(port)) for host, port in (word.rsplit(":", 1) for word in sys.argv[4:])]
link = socket.socket(socket.AF_INET, socket.SOCK_DGRAM)
link.bind(hosts[own])
node = subprocess.Popen([*program, "node", path, str(own), str(len(hosts))], stdin=subprocess.PIPE, stdout=subprocess.PIPE, bufsize=0)
look = selectors.SelectSelector()          # the input may be a file
for file in (link, node.stdout, sys.stdin):
    look.register(file, selectors.EVENT_READ)
asked, typed, unread, begun = 0, set(), b"", b""
due = None                                 # when something is due at the node; nothing is, where it doesn't say


def feed(line):
    global asked
    asked += 1
    text = line + b"\n"
    while text:
        text = text[node.stdin.write(text):]


def tick():
    global due
    due = None
    feed(b"tick %d" % (time.monotonic() * 1000))


def ask(line):
    """A line that was typed."""
    if line:
        feed(line)
        typed.add(asked)


def heard(words, line):
    """One line of the node."""
    global due
    if words[0] == "send":
        try:
            link.sendto(bytes.fromhex(words[2]), hosts[int(words[1])])
        except OSError:
            pass                                  # the same as a message that is lost
    elif words[0] == "next":
        due = int(words[1]) / 1000
    elif words[0] in ("ok", "refused", "bad", "fault"):
        if int(words[1]) in typed:
            print(" ".join([words[0], *words[2:]]), flush=True)
    elif words[0] != "fired":
        print(line, flush=True)


feed(b"recover")
tick()
while node.poll() is None:
    fed = asked
    for key, _ in look.select(None if due is None else max(0.0, due - time.monotonic())):
        if key.fileobj is link:
            feed(b"deliver " + link.recv(1024).hex().encode())
        elif key.fileobj is sys.stdin:
            piece = os.read(0, 4096)
            *lines, begun = (begun + piece).split(b"\n")
            for line in lines:
                ask(line)
            if not piece:
                look.unregister(sys.stdin)
                ask(begun)
        else:
            *lines, unread = (unread + os.read(node.stdout.fileno(), 65536)).split(b"\n")
            for line in lines:
                heard(line.decode().split(), line.decode())
    if asked != fed or (due is not None and due <= time.monotonic()):
        tick()                                    # behind each batch of other lines, and where something is due
sys.exit(node.returncode)
