"""Leases by the clients in Python and in Rust: the examples that lead and lock, one at each machine, over agents that are killed and drained."""
import os, subprocess, sys, time

import leases, services
from bed import PATIENCE

ROOT = os.path.dirname(os.path.dirname(os.path.dirname(os.path.abspath(__file__))))
PYTHON = [sys.executable, os.path.join(ROOT, "examples/agent_leader/leader.py")]


def kinds(bed):
    """The words of each client; a client that isn't built is left out, and said."""
    rust = os.path.join(bed.programs, "examples", "leader")
    found = dict(rust=[rust], python=PYTHON, asyncio=PYTHON)
    if not os.path.exists(rust):
        bed.tally.left_out("leases by the client in Rust", "there is no %s" % rust)
        found["rust"] = PYTHON
    return found


class Examples:
    def __init__(self, bed, agents):
        self.agents, self.words, self.path = agents, list(kinds(bed).items()), os.path.join(bed.folder, "epochs")
        self.processes = [None] * 3

    def start(self, i, *words):
        kind, command = self.words[i]
        environment = dict(os.environ, DUMGEROK_SOCKET=self.agents.path(i, "sock"), PYTHONPATH=os.path.join(ROOT, "clients/python"))
        words = ("wait", *words[1:]) if words[0] == "lead" and kind == "asyncio" else words
        self.processes[i] = subprocess.Popen([*command, *words], stdout=subprocess.PIPE, stderr=subprocess.PIPE, text=True, env=environment)
        return self.processes[i]

    def epochs(self):
        if not os.path.exists(self.path):
            return []
        with open(self.path) as file:
            return [int(line) for line in file.read().split("\n")[:-1]]

    def next(self, above):
        """Waits for an epoch above another one."""
        self.agents.until(lambda: (self.epochs() or [0])[-1] > above)
        return self.epochs()[-1]

    def stop(self):
        for process in self.processes:
            if process and process.poll() is None:
                process.kill()
                process.communicate()


def drained(examples, agents, i, last, timed):
    """A machine that is drained: the client that leads there is told to end its work, gives its lease back and waits, and leads again once it may."""
    kind, done = examples.words[i][0], agents.ctl(i, "drain", "--wait", "60")
    timed("%s: a machine whose client leads is drained: 0" % kind, done.returncode == 0 and examples.processes[i].poll() is None, done)
    given_back = examples.epochs()[-1]
    time.sleep(0.5)
    timed("%s: it leads no more there" % kind, examples.epochs()[-1] == given_back == last and not agents.ask(i, do="leases")["leases"])
    agents.ctl(i, "drain", "--off")
    return examples.next(last)


def clients(bed):
    """The epochs that three clients write never fall: so no two led at a time."""
    if not services.has_leases(bed):
        return
    # a lease that a busy machine gives no time to renew is lost, and another one has it
    check, timed = bed.tally.check, bed.tally.timed
    cluster = leases.Cluster(bed.program, bed.programs, os.path.join(bed.folder, "leaders"), lease_ms=100 * bed.round_trip)
    agents = cluster.agents
    bed.started.append(agents)
    examples = Examples(bed, agents)
    try:
        for i in range(3):
            cluster.restart(i)
        agents.one_group()
        locking = [examples.start(i, "lock", "db", examples.path, "20") for i in range(3)]
        said = [process.communicate(timeout=PATIENCE) for process in locking]
        epochs = examples.epochs()
        timed("three clients lock one after the other", [process.returncode for process in locking] == [0, 0, 0] and len(epochs) == 60 and epochs == sorted(epochs) and len(set(epochs)) == 3, (said, epochs))
        # each of the three leads once, and its agent is killed
        led, last = [], epochs[-1]
        for i in range(3):
            examples.start(i, "lead", "main", examples.path)
            last = drained(examples, agents, i, examples.next(last), timed)
            agents.kill(i)
            examples.processes[i].kill()
            examples.processes[i].communicate()
            cluster.restart(i)
            agents.one_group()
        [examples.start(i, "lead", "main", examples.path) for i in range(3)]
        last = examples.next(last)
        while len(led) < 3:
            leader = next(i for i in range(3) if agents.ask(i, do="leases")["leases"])
            led.append(leader)
            if len(led) < 3:
                examples.processes[leader].kill()
                examples.processes[leader].communicate()
                last = examples.next(last)
        timed("where one is killed another one leads", sorted(led) == [0, 1, 2], led)
        epochs = examples.epochs()
        check("epochs never fall: no two write at a time", epochs == sorted(epochs), [pair for pair in zip(epochs, epochs[1:]) if pair[0] > pair[1]][:3])
    finally:
        examples.stop()
