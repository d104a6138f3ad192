"""Jobs in hand over a change of the group: those whose queue stays at its machine go on there."""
import collections, json, selectors, time

# Jobs that were given, by machine and queue, and how many were told to stop.
Told = collections.namedtuple("Told", "given stopped")


class Takers:
    """Clients that take a job each and never finish it, so many at each machine."""

    def __init__(self, agents, jobs):
        self.agents, self.jobs, self.look = agents, jobs, selectors.DefaultSelector()

    def come(self, i):
        for _ in range(self.jobs):
            link = self.agents.connect(i)
            self.look.register(link, selectors.EVENT_READ, dict(at=i, rest=b""))
            self.take(link)

    def take(self, link):
        link.sendall(b'{"do": "take", "wait": true}\n')

    def hear(self, seconds):
        """What they are told meanwhile."""
        begin, given, stopped = time.monotonic(), [], 0
        while time.monotonic() - begin < seconds:
            for key, _ in self.look.select(0.05):
                for line in self.lines(key):
                    if "payload" in line:
                        given.append((key.data["at"], line["queue"]))
                    elif line.get("event") == "stop":
                        stopped += 1
                        self.take(key.fileobj)
        return Told(given, stopped)

    def lines(self, key):
        try:
            came = key.fileobj.recv(65536)
        except OSError:
            came = b""
        if not came:
            self.look.unregister(key.fileobj)
        *lines, key.data["rest"] = (key.data["rest"] + came).split(b"\n")
        return map(json.loads, lines)


def lost_and_back(agents, jobs=16):
    """A member of three that doesn't lead is killed, and started again: what was told at first, then, and when it came back."""
    agents.start_all()
    agents.one_group()
    time.sleep(1)
    lead, takers = agents.status(0)["coordinator"], Takers(agents, jobs)
    member = (lead + 1) % 3
    for queue in range(jobs):
        agents.ask(lead, do="submit", queue=queue, text="long")
    [takers.come(i) for i in range(3)]
    first = takers.hear(2)
    agents.kill(member)
    agents.one_group([i for i in range(3) if i != member])
    lost = takers.hear(3)
    agents.start(member)
    agents.one_group()
    takers.come(member)
    return first, lost, takers.hear(3)


def undisturbed(bed):
    first, lost, back = lost_and_back(bed.agents("undisturbed"))
    owners = [dict((queue, at) for at, queue in told.given) for told in (first, lost, back)]
    bed.tally.check("each of 16 jobs is in hand", sorted(queue for _, queue in first.given) == list(range(16)), first)
    for name, told, before in (("lost", lost, owners[0]), ("back", back, {**owners[0], **owners[1]})):
        stays = [queue for at, queue in told.given if before[queue] == at]
        bed.tally.timed("a member is %s: no job is given anew to the machine that has it" % name, not stays, (told, before))
    count = sum(len(told.given) for told in (first, lost, back))
    bed.tally.timed("so 16 jobs are executed 40 times", count <= 40, (first, lost, back))
