#!/usr/bin/env python3
"""How the time of `trace` grows on runs that are hard on a checker: it has to be linear in their entries, and each has to be a run.

    trace_growth.py PROGRAM [--long] [--only NAME] [--baseline BASELINE] [--folder FOLDER]

Runs of 10,000 and 100,000 entries are made by the model of a node in tests/hostile; with --long also of 1,000,000 (which takes some minutes to make). The
program is run five times on each, and the least time of the processor counts: between two sizes it may grow with the power 1.1 of the number of
entries. With BASELINE, another program of the same commands, it may take at most 1.3 times as long at the largest size. The last line counts the checks."""
import argparse, os, resource, subprocess, sys, tempfile

HERE = os.path.dirname(os.path.abspath(__file__))
sys.path += [os.path.join(HERE, ".."), os.path.join(HERE, "../hostile")]
from common.program import named
from common.tally import Tally
from node_model import Node

PAYLOAD = b"\x61" * 8
MOST_GROWTH, MOST_RATIO = 1.1, 1.3
# what the start of a process may take, in seconds, and be measured wrong by
START = 0.01


class Cluster:
    """Nodes, and the history of each, of which each entry is written as it comes."""

    def __init__(self, nodes):
        self.nodes = [Node(own, nodes) for own in range(nodes)]
        self.histories = [[] for _ in range(nodes)]
        self.entries = 0

    def do(self, own, event, fields="", *args):
        """The node does this; what it sent is given back."""
        sent = self.nodes[own].take(event, *args) or []
        listed = ",".join(f'"{one.hex()}"' for one in sent)
        self.histories[own].append(f'{{"do":"{event}"{fields},"sent":[{listed}]}}')
        self.entries += 1
        return sent

    def bring(self, messages):
        """Each message comes to its node, and what is sent then comes too, until nothing more is sent."""
        waiting = list(messages)
        while waiting:
            one = waiting.pop(0)
            waiting += self.deliver(one)

    def deliver(self, message):
        return self.do(message[3], "deliver", f',"msg":"{message.hex()}"', message)

    def submit(self, own, queue, priority=0):
        ranked = f',"priority":{priority}' if priority else ""
        return self.do(own, "submit", f',"payload":"{PAYLOAD.hex()}"{ranked},"queue":{queue}', queue, PAYLOAD, priority)

    def finish(self, own, origin, job):
        return self.do(own, "finish", f',"id":{job},"origin":{origin}', origin, job)

    def gather(self, leader):
        """The leader makes a group of all nodes that lead one."""
        self.bring(self.do(leader, "check"))
        self.bring(self.do(leader, "merge"))
        self.bring(self.do(leader, "accept"))

    def text(self):
        histories = ",".join("[" + ",".join(history) + "]" for history in self.histories)
        return f'{{"histories":[{histories}],"nodes":{len(self.nodes)}}}'

    def write(self, path):
        with open(path, "w") as out:
            out.write(self.text())


def elections(entries):
    """One job stays pending over all elections of its node: it is sent in each group, and never comes."""
    cluster = Cluster(2)
    cluster.submit(0, 1)
    while cluster.entries < entries:
        cluster.do(0, "recover", ',"kept":false')
        cluster.do(1, "recover", ',"kept":false')
        cluster.gather(0)
        cluster.do(0, "dispatch")
    return cluster


def drain(order):
    """Half of the entries take jobs in hand, and the other half finish them."""

    def made(entries):
        cluster = Cluster(1)
        for _ in range(entries // 2):
            cluster.submit(0, 0)
        for job in order(range(entries // 2)):
            cluster.finish(0, 0, job)
        return cluster

    return made


def backlog(entries):
    """4,000 jobs stay pending for another node that never answers, while others are submitted and finished."""
    cluster = Cluster(2)
    cluster.gather(0)
    for _ in range(min(4_000, entries // 4)):
        cluster.submit(0, 1)
    while cluster.entries < entries:
        cluster.submit(0, 0)
        cluster.finish(0, 0, cluster.nodes[0].next - 1)
    return cluster


def by_priority(entries):
    """Jobs of all priorities come to another node, the greatest first, which finishes them in that order."""
    cluster = Cluster(2)
    cluster.gather(0)
    jobs = entries // 4
    for job in range(jobs):
        cluster.submit(0, 1, job % 256)
    cluster.bring(cluster.do(0, "dispatch"))
    for job in sorted(range(jobs), key=lambda job: (-(job % 256), job)):
        cluster.finish(1, 0, job)
    while cluster.entries < entries:
        cluster.do(0, "check")
    return cluster


def outwards(jobs):
    """The jobs from the middle outwards."""
    return sorted(jobs, key=lambda job: abs(2 * job + 1 - len(jobs)))


def middle(entries):
    """Jobs come to another node, which finishes them from the middle outwards."""
    cluster = Cluster(2)
    cluster.gather(0)
    jobs = range(entries // 4)
    for _ in jobs:
        cluster.bring(cluster.submit(0, 1))
    for job in outwards(jobs):
        cluster.bring(cluster.finish(1, 0, job))
    return cluster


def redispatch(entries):
    """All jobs of a node leave its hand by a recovery, and come back by a dispatch, over and over."""
    cluster = Cluster(1)
    jobs = entries // 3
    for _ in range(jobs):
        cluster.submit(0, 0)
    # not by the model, which takes each job in hand each time
    cluster.histories[0] += ['{"do":"recover","kept":false,"sent":[]}', '{"do":"dispatch","sent":[]}'] * ((entries - jobs) // 2)
    return cluster


def dispatches(entries):
    """Jobs of all priorities, and as many dispatches, which find all of them in hand: ten looks at a job for each entry of the other runs."""
    cluster = Cluster(1)
    jobs = round((10 * entries) ** 0.5)
    for job in range(jobs):
        cluster.submit(0, 0, job % 256)
    for _ in range(jobs):
        cluster.do(0, "dispatch")
    return cluster


def once(entries):
    """One message is taken in each entry but the first."""
    cluster = Cluster(2)
    (question,) = cluster.do(0, "check")
    for _ in range(entries - 1):
        cluster.deliver(question)
    return cluster


def last_first(entries):
    """All entries of the last node can come first; the others wait for what it sent last."""
    cluster = Cluster(4)
    while cluster.entries < entries // 2:
        questions = cluster.do(3, "check")
    while cluster.entries < entries:
        for one in questions:
            cluster.deliver(one)
    return cluster


WORKLOADS = {
    "elections": elections,
    "drain, oldest first": drain(lambda jobs: jobs),
    "drain, newest first": drain(reversed),
    "backlog": backlog,
    "jobs of another node": by_priority,
    "middle": middle,
    "redispatch": redispatch,
    "dispatches": dispatches,
    "one message": once,
    "last node first": last_first,
}


def seconds(program, path):
    """The least time of the processor of five runs, and what is wrong with the verdict."""
    least, wrong = None, ""
    for _ in range(5):
        before = resource.getrusage(resource.RUSAGE_CHILDREN)
        with open(path, "rb") as given:
            done = subprocess.run([program, "trace"], stdin=given, capture_output=True)
        after = resource.getrusage(resource.RUSAGE_CHILDREN)
        took = after.ru_utime + after.ru_stime - before.ru_utime - before.ru_stime
        least = took if least is None else min(least, took)
        if done.returncode or not done.stdout.startswith(b"Run "):
            wrong = f"no run: {done.stdout[:60]!r}"
    return least, wrong


def tried(name, made, sizes, options):
    """What is wrong with the times and verdicts of one workload."""
    times, problems = [], []
    for size in sizes:
        path = os.path.join(options.folder, f"{name.replace(' ', '-').replace(',', '')}-{size}.json")
        if not os.path.exists(path):
            made(size).write(path)
        took, wrong = seconds(options.program, path)
        times.append(took)
        problems += [f"{size}: {wrong}"] if wrong else []
        if len(times) > 1:
            most = (times[-2] + START) * (size / sizes[len(times) - 2]) ** MOST_GROWTH
            problems += [f"{times[-2]:.3f} s grew to {took:.3f} s at {size} entries"] if took > most else []
    if options.baseline:
        peer, _ = seconds(options.baseline, path)
        problems += [f"{times[-1]:.3f} s, and the baseline {peer:.3f} s"] if times[-1] > MOST_RATIO * peer + START else []
    print(f"{name}: " + ", ".join(f"{took:.3f}" for took in times) + " s" + (f" (baseline {peer:.3f} s)" if options.baseline else ""))
    return problems


def main():
    parser = argparse.ArgumentParser()
    parser.add_argument("program")
    parser.add_argument("--long", action="store_true")
    parser.add_argument("--only", choices=WORKLOADS)
    parser.add_argument("--baseline")
    parser.add_argument("--folder")
    options = parser.parse_args()
    sizes = [10_000, 100_000] + ([1_000_000] if options.long else [])
    options.program, tally = named(options.program), Tally()
    with tempfile.TemporaryDirectory() as room:
        options.folder = options.folder or room
        for name, made in WORKLOADS.items():
            if options.only in (None, name):
                tally.mark("; ".join(tried(name, made, sizes, options)), name)
    return tally.close()


if __name__ == "__main__":
    sys.exit(main())
