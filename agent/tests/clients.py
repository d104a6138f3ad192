"""Clients that don't read, that send rubbish, that are many."""
import fcntl, json, os, random, signal, socket, stat, subprocess, termios, threading, time

from bed import PATIENCE
from cluster import judged, metric, page
from datagrams import random_bytes

REFUSED = [(b"\n", "NoObject"), (b"{}\n", "Unreadable"), (b"[1]\n", "NoObject"), (b'{"do":1}\n', "Unreadable"), (b'{"do":"x"}\n', "Unreadable"),
           (b"\xff\xfe\n", "NoObject"), (b'{"do":"submit","queue":16,"text":""}\n', "BadQueue"), (b'{"do":"finish","origin":0}\n', "Unreadable"),
           (b'{"do":"submit","queue":1}\n', "BadPayload"), (b'{"do":"watch","every_ms":5}\n', "BadInterval"), (b'{"do":"submit","queue":1,"text":"%s"}\n' % (b"x" * 401), "BadPayload"),
           (b'{"do":"status","v":2}\n', "Version"), (b'{"do":"status"}x\n', "NoObject")]


def odd_clients(bed):
    """One agent in odd company."""
    agents = bed.agents("clients", count=1)
    agents.start(0)
    agents.one_group()
    check = bed.tally.check
    rubbish(agents, check)
    half_closed(agents, check)
    many(agents, check, bed.tally.timed)
    hanging(agents, check)
    crowd(bed, agents)
    deaf(agents, check)
    mode = stat.S_IMODE(os.stat(agents.path(0, "sock")).st_mode)
    check("the socket is its group's alone", mode == 0o660, oct(mode))
    memory = agents.figures(0)["agent"][1]
    check("the agent stays small", memory < 64_000, memory)
    pages(agents, check)
    long_words(agents, check)
    beats(agents, check, bed.tally.timed)
    silent(agents, check)
    earlier_life(agents, check)
    judged(bed, agents, "odd clients")


def long_words(agents, check):
    """A request that is too long."""
    done = agents.ctl(0, "submit", "0", "x" * 120_000)
    check("dumgerokctl says what the agent says of a request that is too long", done.returncode == 1 and "TooLong" in done.stderr, done)


def silent(agents, check):
    """An agent that was stopped: whoever asks it is told so in time, and so is one for whom the system has no room any more."""
    ask = lambda *words: (words, subprocess.Popen([agents.ctl_path, "-s", agents.path(0, "sock"), *words], stderr=subprocess.PIPE, text=True))
    agents.processes[0].send_signal(signal.SIGSTOP)
    asked = [ask("status"), ask("watch"), ask("jobs"), ask("submit", "0", "x")]
    time.sleep(1)
    for _ in range(5000):
        with socket.socket(socket.AF_UNIX, socket.SOCK_STREAM | socket.SOCK_NONBLOCK) as link:
            if link.connect_ex(agents.path(0, "sock")):
                break
    asked.append(ask("status", "--json"))
    for words, process in asked:
        try:
            said = process.communicate(timeout=PATIENCE)[1]
        except subprocess.TimeoutExpired:
            process.kill()
            said = process.communicate()[1] + "it waits"
        is_told = process.returncode == 9 and "no answer in time" in said and (words[0] == "submit" or "may be done" not in said)
        check("an agent that was stopped isn't waited for without an end, by %s: 9" % " ".join(words), is_told, (process.returncode, said))
    agents.processes[0].send_signal(signal.SIGCONT)
    check("and answers on", agents.until(lambda: agents.status(0)["alive"]) >= 0)


def earlier_life(agents, check):
    """A watcher that names a change of the agent's earlier life has missed what came between: it is told the state."""
    lives = []
    for _ in range(2):
        agents.kill(0)
        agents.start(0)
        agents.one_group()
        lives.append(agents.status(0))
    agents.ask(0, do="submit", queue=6, text="one more change")
    told = [watch(agents, since=life["change"])[1] for life in lives]
    check("a change of an earlier life is none of this one", [one.get("event") for one in told] == ["state", None], (lives, told))
    check("each life has a name of its own", [one["life"] for one in told] == [lives[1]["life"]] * 2 and lives[0]["life"] != lives[1]["life"], (lives, told))


def watch(agents, **fields):
    """A watcher, and what it is told first."""
    with agents.connect(0) as link:
        reader = link.makefile()
        link.sendall(json.dumps(dict(do="watch", **fields)).encode() + b"\n")
        return reader, json.loads(reader.readline())


def beats(agents, check, timed):
    """A watcher that asks for beats is told that the agent lives, where nothing changes, and whether its node does."""
    begin = time.monotonic()
    (quiet, _), (reader, state) = watch(agents), watch(agents, every_ms=100)
    beat = lambda: json.loads(reader.readline())
    told, took = [beat() for _ in range(3)], time.monotonic() - begin
    check("beats name the last change", told == [dict(event="beat", change=state["change"], alive=True)] * 3, (state, told))
    check("and come no more often than asked for", took >= 0.3, took)
    timed("nor much less often", took < 2, took)
    node = agents.node(0)
    os.kill(node, signal.SIGSTOP)
    try:
        agents.until(lambda: not beat()["alive"])
    finally:
        os.kill(node, signal.SIGCONT)
    agents.until(lambda: beat()["alive"])
    check("who asks for none gets none", agents.ask(0, do="submit", queue=6, text="a change")["ok"] and json.loads(quiet.readline())["event"] == "take")
    reader.close()
    quiet.close()


def rubbish(agents, check):
    for line, name in REFUSED:
        with agents.connect(0) as link:
            link.sendall(line)
            answer = json.loads(link.makefile().readline())
            check("%r is refused" % line[:40], (answer["ok"], answer["error"]) == (False, name), answer)
    with agents.connect(0) as link:
        try:
            link.sendall(b"x" * 100_000)
            is_cut_off = b"TooLong" in link.recv(100)
        except ConnectionError:
            is_cut_off = True
        check("a line without an end is cut off", is_cut_off)
    chance = random.Random(7)
    for _ in range(100):
        try:
            with agents.connect(0) as link:
                link.sendall(random_bytes(chance, 1, 3000) + b"\n")
        except OSError:
            pass
    check("rubbish stops nobody", agents.status(0)["ok"])


def each_request(agents, check):
    """Those that no other scene makes, and that one that names its version and itself is answered so."""
    record = dict(record=agents.path(0, "node") + ".record")
    for ask, said in ((dict(do="compact"), {}), (dict(do="record", on=False), {}), (dict(do="members"), None), (dict(do="record", on=True), record),
                      (dict(do="record", on=False), record)):
        answer = agents.ask(0, request="mine", v=1, **ask)
        is_so = answer["ok"] and len(answer["members"]) == 1 if said is None else answer == dict(ok=True, request="mine", **said)
        check("%s is answered" % ask["do"], is_so, answer)


def half_closed(agents, check):
    """A client that ends what it writes and then waits, as `socat` does, gets its answers."""
    ask = [dict(do="submit", queue=2, text="half", request=1), dict(do="jobs", request=2), dict(do="watch", since=0, request=3)]
    for count in (1, 2):
        with agents.connect(0) as link:
            link.sendall(b"".join(json.dumps(one).encode() + b"\n" for one in ask[:count]))
            link.shutdown(socket.SHUT_WR)
            answers = [json.loads(line) for line in link.makefile()]
            check("a client that has ended its requests gets all %d answers" % count,
                  [(one["ok"], one["request"]) for one in answers] == [(True, one["request"]) for one in ask[:count]], answers)
    with agents.connect(0) as link:
        link.sendall(json.dumps(ask[2]).encode() + b"\n")
        check("an answer to `watch` names its request", json.loads(link.makefile().readline()).get("request") == 3)
    with agents.connect(0) as link:
        link.sendall(b"x" * 20_000)
        check("a line that is too long is answered so", json.loads(link.makefile().readline()) == {"ok": False, "error": "TooLong"})
    for _ in range(2):
        job = agents.ask(0, do="take", queue=2)
        check("jobs of clients that went away are given to others", job["ok"] and agents.ask(0, do="finish", origin=job["origin"], id=job["id"])["ok"], job)


def greedy(bed):
    """Clients that keep the node busy without an end don't keep it from others."""
    agents, check = bed.agents("greedy", count=1, slots=1024, record=None), bed.tally.check
    agents.start(0)
    agents.one_group()
    with agents.connect(0) as link:
        reader, answers, line = link.makefile(), [], b'{"do":"submit","queue":1,"text":"%s"}\n' % (b"x" * 400)
        # fewer than the sockets' buffers hold are ahead of their answers: a send has no more patience than a line
        for sent in range(0, 1000, 50):
            link.sendall(line * 50)
            answers += [json.loads(reader.readline()) for _ in range(50 if sent else 0)]
        answers += [json.loads(reader.readline()) for _ in range(50)]
    refused = [answer for answer in answers if not answer["ok"]]
    # where a busy machine gives the node no time for seconds some have no answer in time
    count = bed.tally.timed if all(answer["error"] == "NoAnswer" for answer in refused) else check
    count("a thousand jobs are kept", not refused, (len(refused), refused[:1]))
    runs, links = [True], [agents.connect(0) for _ in range(2)]
    asked = [b'{"do":"submit","queue":1,"text":"%s"}\n' % (b"x" * 400), b'{"do":"jobs"}\n']

    def ask(link, line):
        try:
            while runs[0]:
                link.sendall(line * 64)
        except OSError:
            pass

    def read(link):
        try:
            while link.recv(1 << 20):
                pass
        except OSError:
            pass

    for link, line in zip(links, asked):
        link.settimeout(None)
        threading.Thread(target=ask, args=(link, line), daemon=True).start()
        threading.Thread(target=read, args=(link,), daemon=True).start()
    # how long an agent takes that nobody else asks says what the machine does meanwhile
    calm, waits, calm_waits, memory = bed.agents("calm", count=1, record=None), [], [], 0
    calm.start(0)
    calm.one_group()
    for _ in range(20):
        for asked, times in ((agents, waits), (calm, calm_waits)):
            begin, answer = time.monotonic(), asked.status(0)
            times.append(time.monotonic() - begin if answer else PATIENCE)
        memory = max(memory, agents.figures(0)["agent"][1])
        time.sleep(0.1)
    runs[0] = False
    for link in links:
        link.close()
    bed.tally.timed("greedy clients leave others their turn", max(waits) < 2 + 20 * max(calm_waits), (waits, calm_waits))
    check("and the agent small", memory < 48_000, memory)
    agents.stop()


def fill(bed):
    """A journal that fills up: what an operator sees of it, and when."""
    agents, check = bed.agents("fill", count=1, slots=16, record=None), bed.tally.check
    agents.start(0)
    agents.one_group()
    each_request(agents, check)
    log = lambda: open(agents.path(0, "log")).read()
    warnings = lambda: (log().count("more than half"), log().count("the journal is full"))
    submit = lambda: agents.ask(0, do="submit", queue=1, text="x")
    for jobs, seen in ((8, (0, 0)), (1, (1, 0)), (5, (1, 1))):
        check("jobs are kept", all(submit()["ok"] for _ in range(jobs)))
        agents.until(lambda: warnings() == seen)
    status = agents.status(0)
    check("status has how many are kept, and how many fit", (status["pending"], status["pending_max"]) == (14, 14), status)
    check("so do the metrics", (metric(agents, 0, "jobs_pending"), metric(agents, 0, "jobs_pending_max")) == (14, 14))
    check("and `dumgerokctl status`", "jobs kept     14 of 14: further ones are refused\n" in agents.ctl(0, "status").stdout)
    done = agents.ctl(0, "submit", "1", "x")
    check("one more is refused, and why is said", done.returncode == 1 and "Full (the journal" in done.stderr, done)
    for job in agents.ask(0, do="jobs")["jobs"][:14]:
        check("a job is finished all the same", agents.ask(0, do="finish", origin=job["origin"], id=job["id"])["ok"])
    check("then there is room", agents.status(0)["pending"] == 0 and submit()["ok"])
    check("what was said once isn't said again", warnings() == (1, 1), log())
    agents.stop()


def is_told(link, word):
    """Whether a client that asked nothing is told something."""
    link.settimeout(0.01)
    try:
        return word in link.recv(200)
    except OSError:
        return False


def many(agents, check, timed):
    links = [agents.connect(0) for _ in range(200)]
    for link in links:
        link.sendall(b'{"do":"watch"}\n')
    readers = [link.makefile() for link in links]
    check("200 watch", all(json.loads(reader.readline())["event"] == "state" for reader in readers))
    agents.ask(0, do="submit", queue=3, text="seen by all")
    check("and each is told", all(json.loads(reader.readline())["event"] == "take" for reader in readers))
    more, told = [], {}
    # each watches before the next one comes
    while not told.get("error") and len(more) < 60:
        more.append(agents.connect(0))
        more[-1].sendall(b'{"do":"watch"}\n')
        told = json.loads(more[-1].makefile().readline())
    check("more than 240 that watch are told that there are too many", (told.get("error"), len(more)) == ("TooManyClients", 41), (len(more), told))
    for words in (["watch"], ["take"], ["take", "--", "true"]):
        done = agents.ctl(0, *words)
        check("`dumgerokctl %s` says so, too" % " ".join(words), done.returncode == 1 and "TooManyClients" in done.stderr, done)
    for words in (["status"], ["jobs"], ["submit", "3", "by an operator"]):
        done = agents.ctl(0, *words)
        check("those that stay keep no `dumgerokctl %s` out" % words[0], done.returncode == 0, done)
    # one that asks for nothing would give its place to one more
    more.pop().close()
    agents.until(lambda: metric(agents, 0, "clients") == 240)
    more += all_at_work(agents, (links[0], readers[0]), timed)
    for link in links + more:
        link.close()
    agents.until(lambda: (agents.status(0) or {}).get("ok"))
    begin, served = time.monotonic(), 0
    for _ in range(1000):
        answer = agents.ask(0, do="status")
        served += answer is not None and answer["ok"]
    check("a thousand come and go", served == 1000, "%d in %.1f s" % (served, time.monotonic() - begin))
    job = agents.ask(0, do="take")
    check("a job is finished", agents.ask(0, do="finish", origin=job["origin"], id=job["id"])["ok"], job)


def unread(link):
    """How many bytes of what was sent here the other end hasn't read; of a socket of this machine the system counts them with its own upkeep."""
    return int.from_bytes(fcntl.ioctl(link, termios.TIOCOUTQ, b"\0" * 4), "little")


def all_at_work(agents, watcher, timed):
    """Beside those that stay, of whom this is one, as many as are served, each with a request that has no answer yet: one more is told so."""
    links, node = [agents.connect(0) for _ in range(16)], agents.node(0)
    os.kill(node, signal.SIGSTOP)
    try:
        for link in links:
            link.sendall(b'{"do":"finish","origin":0,"id":99999}\n')
        # until the agent has taken and read these
        agents.until(lambda: metric(agents, 0, "clients") == 256 and not any(unread(link) for link in links))
        # and obeyed: what it answers behind that
        watcher[0].sendall(b'{"do":"status"}\n')
        agents.until(lambda: "phase" in json.loads(watcher[1].readline()))
        done = agents.ctl(0, "status")
        timed("where all places are taken `dumgerokctl status` says so", done.returncode == 1 and "TooManyClients" in done.stderr, done)
    finally:
        os.kill(node, signal.SIGCONT)
    told = [json.loads(link.makefile().readline()).get("error") for link in links]
    timed("and they are served on", told == ["UnknownJob"] * len(links), told)
    return links


def hanging(agents, check):
    """Clients that ask for nothing, as many as are served, keep nobody out; one that waits for a job stays, and so does one that works on a job."""
    waiting, working = agents.connect(0), agents.connect(0)
    agents.ask(0, do="submit", queue=4, text="first")
    agents.until(lambda: agents.ask(0, do="jobs", queue=4)["total"] >= 2)
    working.sendall(b'{"do":"take","queue":4}\n')
    job = json.loads(working.makefile().readline())
    waiting.sendall(b'{"do":"take","queue":5,"wait":true}\n')
    agents.until(lambda: metric(agents, 0, "clients_waiting") == 1)
    links = [agents.connect(0) for _ in range(300)]
    for link in links[::2]:
        try:
            link.sendall(b'{"do":"sta')
        except ConnectionError:
            pass
    for words in (["status"], ["jobs"], ["submit", "5", "second"]):
        done = agents.ctl(0, *words)
        check("clients that hang keep no `dumgerokctl %s` out" % words[0], done.returncode == 0, done)
    check("the one that hung for the longest is told why it is cut off", is_told(links[0], b"TooManyClients"))
    told = json.loads(waiting.makefile().readline())
    check("one that waits for a job isn't", told.get("queue") == 5, told)
    check("nor is one that works on a job", agents.ask(0, do="take", queue=4) == {"ok": False, "error": "NoJob"})
    for link, one in ((working, job), (waiting, told)):
        link.sendall(json.dumps(dict(do="finish", origin=one["origin"], id=one["id"])).encode() + b"\n")
        check("and each finishes its job", json.loads(link.makefile().readline()).get("ok"))
    for link in links + [waiting, working]:
        link.close()
    agents.until(lambda: (agents.status(0) or {}).get("ok"))


def crowd(bed, agents):
    """Many clients that ask a lot at once: what one of them asks of the node doesn't wait for all that."""
    links, last, each = [agents.connect(0) for _ in range(200)], agents.connect(0), 64
    agents.until(lambda: metric(agents, 0, "clients") > 200)
    agents.processes[0].send_signal(signal.SIGSTOP)
    for link in links:
        link.sendall(b'{"do":"status"}\n' * each)
    last.sendall(b'{"do":"jobs"}\n')
    agents.processes[0].send_signal(signal.SIGCONT)
    told = last.makefile().readline()
    agents.processes[0].send_signal(signal.SIGSTOP)
    before = sum(link.recv(1 << 20, socket.MSG_DONTWAIT).count(b"\n") for link in links)
    agents.processes[0].send_signal(signal.SIGCONT)
    bed.tally.timed("a crowd that asks keeps nobody from the node", json.loads(told)["ok"] and before < each * len(links) / 2, before)
    for link in links + [last]:
        link.close()
    agents.until(lambda: metric(agents, 0, "clients") == 0)


def web(bed):
    """Those that ask for pages in odd ways, and more connections than there are file descriptors."""
    agents, check = bed.agents("web", count=1, record=None), bed.tally.check
    agents.start(0, FILES="64")
    agents.one_group()
    for sent, said in ((b"POST / HTTP/1.1\r\n\r\n", b" 405 "), (b"\x16\x03\x01\r\n\r\n", b" 400 "), (b"GET / HTTP/1.1\r\nA: " + b"b" * 8200, b" 400 "),
                       (b"GET /healthz?x HTTP/1.0\r\n\r\n", b" 200 ")):
        with socket.create_connection(("127.0.0.1", agents.http[0]), PATIENCE) as link:
            link.sendall(sent)
            answer = link.recv(4096)
            # where the agent has no time for it for some seconds it is answered with 503
            count = bed.tally.timed if answer.startswith(b"HTTP/1.1 503 ") else check
            count("%r is answered with%s" % (sent[:20], said.decode()), answer.startswith(b"HTTP/1.1" + said), answer[:100])
    links = []
    for _ in range(120):
        link = socket.socket()
        link.setblocking(False)
        link.connect_ex(("127.0.0.1", agents.http[0]))
        links.append(link)
    time.sleep(0.5)
    check("idle connections to the page don't end the agent", agents.processes[0].poll() is None and agents.status(0)["ok"])
    check("nor take more than its threads", len(os.listdir("/proc/%d/task" % agents.processes[0].pid)) < 20)
    for link in links:
        link.close()
    agents.until(lambda: page(agents, 0, "/healthz")[0] == 200)
    links = [agents.connect(0) for _ in range(100)]
    time.sleep(0.5)
    check("with no file descriptor left it lives", agents.processes[0].poll() is None)
    for link in links:
        link.close()
    agents.until(lambda: (agents.status(0) or {}).get("ok"))
    agents.stop()


def deaf(agents, check):
    """One that asks and never reads is cut off, and the others are served."""
    for _ in range(20):
        with agents.connect(0) as link:
            link.sendall(b'{"do":"jobs"}\n' * 50)
    agents.ask(0, do="jobs")
    check("those that went away aren't counted as cut off", metric(agents, 0, "clients_cut_off") == 0, metric(agents, 0, "clients_cut_off"))
    with agents.connect(0) as link:
        is_cut_off = False
        try:
            for _ in range(300):
                link.sendall(b'{"do":"status"}\n' * 100)
                check_served = agents.status(0)
        except ConnectionError:
            is_cut_off = True
        check("one that never reads is cut off", is_cut_off)
        check("while others are served", check_served["ok"] and agents.status(0)["ok"])
    agents.until(lambda: metric(agents, 0, "clients_cut_off") >= 1)


def pages(agents, check):
    for path, status, said in (("/healthz", 200, "ok"), ("/readyz", 200, "ok"), ("/status", 200, '"phase":"Normal"'), ("/members", 200, '"in_group":true'),
                               ("/metrics", 200, "# TYPE dumgerok_groups_total counter"), ("/state", 200, '"pending_by_queue"'),
                               ("/", 200, "<!doctype html>"), ("/nowhere", 404, "no such page")):
        came = page(agents, 0, path)
        check("%s is %d" % (path, status), came[0] == status and said in came[1], came)
    text = page(agents, 0, "/")[1]
    check("the page takes nothing from elsewhere", "http://" not in text.replace("http://www.w3.org/2000/svg", "") and "https://" not in text)
