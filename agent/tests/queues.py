"""Jobs a second of clients, each of which submits its next job once its last one is finished, and of workers that finish each at once: of agents, beanstalkd, redis."""
import collections, json, os, selectors, socket, statistics, subprocess, time


class OfAgents:
    """Lines of JSON. Clients at the coordinator's machine, workers at all in turn."""

    def __init__(self, agents):
        self.agents, self.lead = agents, agents.status(0)["coordinator"]

    def connect(self, kind, number):
        return self.agents.connect(self.lead if kind == "client" else number % self.agents.count)

    def line(self, **request):
        return json.dumps(request).encode() + b"\n"

    def submit(self, number):
        return self.line(do="submit", queue=number % 16, text="%08d" % number)

    def take(self):
        return self.line(do="take", wait=True)

    def finish(self, job):
        return self.line(do="finish", origin=job["origin"], id=job["id"])

    def read(self, told):
        """Of each whole answer in `told` the job, whether it is well, and what it answers; and what is left."""
        *lines, rest = told.split(b"\n")
        answers = [answer for answer in map(json.loads, lines) if "ok" in answer]
        return [(int(bytes.fromhex(answer["payload"])) if "payload" in answer else None, answer["ok"], answer) for answer in answers], rest


class OfOne:
    """A server of one process that ends what it says with line ends."""

    def __init__(self, port):
        self.port = port

    def connect(self, _kind, _number):
        link = socket.create_connection(("127.0.0.1", self.port))
        link.setsockopt(socket.IPPROTO_TCP, socket.TCP_NODELAY, 1)
        return link

    def read(self, told):
        answers = []
        while b"\r\n" in told:
            head, rest = told.split(b"\r\n", 1)
            count = self.body(head)
            if count is None:
                answers.append((None, not head.startswith(b"-"), head))
            elif len(rest) < count + 2:
                break
            else:
                answers.append((int(rest[:count]), True, (head, rest[:count])))
                rest = rest[count + 2:]
            told = rest
        return answers, told


class OfBeanstalkd(OfOne):
    def submit(self, number):
        return b"put 100 0 600 8\r\n%08d\r\n" % number

    def take(self):
        return b"reserve\r\n"

    def finish(self, job):
        return b"delete %s\r\n" % job[0].split()[1]

    def body(self, head):
        return int(head.split()[2]) if head.startswith(b"RESERVED") else None


class OfRedis(OfOne):
    """A list of jobs, and one of those in hand, from which a worker's death loses nothing."""

    def say(self, *words):
        return b"*%d\r\n" % len(words) + b"".join(b"$%d\r\n%s\r\n" % (len(word), word) for word in words)

    def submit(self, number):
        return self.say(b"LPUSH", b"jobs", b"%08d" % number)

    def take(self):
        return self.say(b"BRPOPLPUSH", b"jobs", b"hand", b"0")

    def finish(self, job):
        return self.say(b"LREM", b"hand", b"1", job[1])

    def body(self, head):
        return int(head[1:]) if head.startswith(b"$") and head != b"$-1" else None


Connection = collections.namedtuple("Connection", "kind link at")


class Jobs:
    """A load over a protocol: so many clients and workers."""

    def __init__(self, protocol, clients, workers=6):
        self.protocol, self.look, self.number, self.done, self.ends = protocol, selectors.DefaultSelector(), 0, 0, False
        self.kept, self.ended, self.owner, self.begun, self.waits = set(), set(), {}, {}, []
        for kind, count in (("worker", workers), ("client", clients)):
            for number in range(count):
                link = protocol.connect(kind, number)
                link.setblocking(False)
                one = Connection(kind, link, dict(rest=b"", job=None))
                self.look.register(link, selectors.EVENT_READ, one)
                self.submit(one) if kind == "client" else link.send(protocol.take())

    def submit(self, one):
        self.number += 1
        one.at["job"], self.owner[self.number], self.begun[self.number] = self.number, one, time.monotonic()
        one.link.send(self.protocol.submit(self.number))

    def heard(self, one, job, well, answer):
        if one.kind == "client":
            if not well:
                return self.submit(one)
            self.kept.add(one.at["job"])
            self.go_on(one.at["job"])
        elif job is not None:
            one.at["job"] = job
            one.link.send(self.protocol.finish(answer))
        else:
            job, one.at["job"] = one.at["job"], None
            if well and job is not None and job in self.begun:
                self.done += 1
                self.waits.append(time.monotonic() - self.begun.pop(job))
                self.ended.add(job)
                self.go_on(job)
            one.link.send(self.protocol.take())

    def go_on(self, job):
        """A client submits its next one when its last is known to be kept, and finished."""
        if job in self.kept and job in self.ended:
            self.kept.discard(job)
            self.ended.discard(job)
            owner = self.owner.pop(job)
            if not self.ends:
                self.submit(owner)

    def rate(self, seconds):
        """Jobs a second."""
        begin, done, self.waits = time.monotonic(), self.done, []
        while time.monotonic() - begin < seconds:
            for key, _ in self.look.select(0.1):
                told = key.fileobj.recv(65536)
                if not told:
                    raise ConnectionError("a server closed a connection")
                answers, key.data.at["rest"] = self.protocol.read(key.data.at["rest"] + told)
                for answer in answers:
                    self.heard(key.data, *answer)
        return (self.done - done) / (time.monotonic() - begin)

    def wait(self):
        """Of the jobs of the last rate, from its submission until it is finished, the median in milliseconds."""
        return 1000 * statistics.median(self.waits) if self.waits else float("inf")

    def close(self):
        for key in list(self.look.get_map().values()):
            key.fileobj.close()
        self.look.close()


def server(folder, name, words, port, **environment):
    """A process that listens at a port."""
    with open(os.path.join(folder, name + ".log"), "ab") as log:
        process = subprocess.Popen(words, cwd=folder, stdout=log, stderr=log, env=dict(os.environ, **environment))
    end = time.monotonic() + 20
    while time.monotonic() < end:
        with socket.socket() as link:
            if link.connect_ex(("127.0.0.1", port)) == 0:
                return process
        time.sleep(0.02)
    raise TimeoutError("%s doesn't listen" % name)
