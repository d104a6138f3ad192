"""How much memory `dumgerokctl judge` takes, by records of its own making: of two nodes, of which one asks the other over and over, under a key; of one that
does nothing but small jobs, of two that have each other do them, and of one that takes and drops many over and over."""
import os, re, subprocess

BYTES = 10_000_000
SEAL = "5a" * 40
GROUP = "01%016x" % 101


def asks():
    """AreYouCoordinator and its answer, each with a seal that no other one has."""
    for number in range(BYTES):
        ask, answer = (message(kind, sender, 1 - sender, "") + SEAL + "%016x" % number for kind, sender in ((1, 0), (2, 1)))
        yield 0, "tick %d" % (20 * number), ["fired check", "send 1 " + ask], ""
        yield 1, "deliver " + ask, ["send 0 " + answer], ""


def own_jobs(payload):
    """Jobs that the node takes itself, and finishes."""
    for job in range(5, BYTES):
        yield 0, "submit 3 " + payload, ["take 0 %d 3 %s" % (job, payload)], " id %d" % job
        yield 0, "finish 0 %d" % job, ["gone %d" % job], ""
        if job % 50 == 0:
            yield 0, "tick %d" % job, ["next 149"], ""


def others_jobs(payload):
    """Jobs that node 1 keeps and node 0 does."""
    for job in range(5, BYTES):
        work = message(9, 1, 0, GROUP + "%016x03%04x%s" % (job, len(payload) // 2, payload))
        done = message(10, 0, 1, "%016x" % job)
        yield 1, "submit 3 " + (payload or "-"), ["send 0 " + work], " id %d" % job
        yield 0, "deliver " + work, ["take 1 %d 3 %s" % (job, payload or "-")], ""
        yield 0, "finish 1 %d" % job, ["send 1 " + done], ""
        yield 1, "deliver " + done, ["gone %d" % job], ""


def drops(count):
    """So many jobs, which are taken and dropped."""
    jobs = range(5, 5 + count)
    for job in jobs:
        yield 0, "submit 3 -", ["take 0 %d 3 -" % job], " id %d" % job
    for group in range(102, BYTES):
        yield 0, "recover", ["group Normal 0 0:%d 0" % group, *("drop 0 %d" % job for job in jobs), "keeps %d %d %d" % (group, 5 + count, count)], ""
        yield 0, "tick %d" % (20 * group), ["fired dispatch", *("take 0 %d 3 -" % job for job in jobs), "next 149"], ""


def message(kind, sender, receiver, body):
    return "01%02x%02x%02x%04x%s" % (kind, sender, receiver, len(body) // 2, body)


def written(folder, nodes, turns):
    """The records of nodes that have these turns, each a request, the lines of its answer, and the end of the last one, until there are enough bytes of them."""
    os.makedirs(folder, exist_ok=True)
    paths = [os.path.join(folder, "%d.record.1" % node) for node in range(nodes)]
    files, numbers, size = [open(path, "w") for path in paths], [1] * nodes, 0
    for node, file in enumerate(files):
        file.write("# dumgerok record 1 node %d of %d part 1 cluster bed\nstart 1700000000000\n> recover\ngroup Normal %d %d:101 %d\nkeeps 101 5 0\nok 1\n" % (node, nodes, node, node, node))
    for node, request, lines, end in turns:
        numbers[node] += 1
        size += files[node].write("> %s\n%sok %d%s\n" % (request, "".join(line + "\n" for line in lines), numbers[node], end))
        if size > BYTES:
            break
    for file in files:
        file.close()
    return paths, sum(numbers)


def peak(process):
    """The memory that it had at most so far."""
    with open("/proc/%d/status" % process.pid) as file:
        found = re.search(r"VmHWM:\s*(\d+)", file.read())
    return 1024 * int(found[1]) if found else 0


def memory(bed):
    shapes = [("asks", 2, asks()), ("drops", 1, drops(10_000))]
    for size in (0, 4, 100):
        shapes += [("own jobs of %d bytes" % size, 1, own_jobs("ab" * size or "-")), ("another one's jobs of %d bytes" % size, 2, others_jobs("ab" * size))]
    for name, nodes, turns in shapes:
        paths, count = written(os.path.join(bed.folder, "records"), nodes, turns)
        size = sum(map(os.path.getsize, paths))
        process = subprocess.Popen([os.path.join(bed.programs, "dumgerokctl"), "judge", "--trace", *paths], stdout=subprocess.PIPE)
        # it waits with the most of the trace until that is read
        pieces, most = [], 0
        for piece in iter(lambda: process.stdout.read(1 << 18), b""):
            pieces.append(piece)
            most = max(most, peak(process))
        text = b"".join(pieces)
        is_made = process.wait() == 0 and text.startswith(b'{"histories":[[{') and b'"order":"' in text
        bed.tally.check("%s: a trace is made of the records" % name, is_made and text.count(b'"do":') > count // 2, text[-99:])
        bed.tally.check("%s: in less than twice their memory" % name, 0 < most < 2 * size, (most, size))
        bed.tally.note("%s: %d bytes of records, %d of memory" % (name, size, most))
