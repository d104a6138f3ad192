#!/usr/bin/env python3
"""Feeds the commands with what comes of spoiling vectors, schedules, plans, recorded sessions and traces of random runs, and compares what they print
with what is worked out here.

    fuzz.py PROGRAM SECONDS SEED [--each] [COMMAND..]

The same seed tries the same inputs. With --each every command is tried in a process of its own, side by side, and printed by itself. Some minutes apart
the counts are printed; the last line counts the runs. An input that went wrong is left in a file that is named."""
import itertools, os, random, re, resource, sys, tempfile, time
from concurrent.futures import ProcessPoolExecutor

sys.dont_write_bytecode = True
sys.path.append(os.path.join(os.path.dirname(os.path.abspath(__file__)), ".."))
from common.program import named
from common.tally import Tally
import grammar, recorded, shim, tables, traces, turns, wire
from files_tried import Model
from inputs import SESSIONS, STORES, WORDS, Inputs
from layout import Refused, mounted
from memory_tried import trouble_in_faulted
from node_model import Cluster
from program import Tried
from session_model import Session
from traces_tried import verdict

# A run under load may take long; one that takes so long is made again with five times as much.
SECONDS = 120
COUNTS_EVERY = 120


def one_piece(fuzz):
    """`show` and `answer`, over pieces of hex."""
    chance, inputs = fuzz.chance, fuzz.inputs
    data = b"".join(chance.choice(inputs.pieces) for _ in range(chance.choice((1, 1, 2, 3))))
    data = inputs.flipped(data) if chance.random() < 0.8 else data
    cuts = sorted(chance.randrange(len(data) + 1) for _ in range(chance.choice((0, 0, 1, 3))))
    fed = b"".join((data[a:b].hex() or "-").encode() + b"\n" for a, b in zip([0, *cuts], [*cuts, len(data)]))
    fed = inputs.flipped(fed) if chance.random() < 0.2 else fed
    bad = grammar.bad_in_pieces(fed)
    own, nodes = chance.choice(((0, 3), (0, 128), (1, 3), (2, 128), (64, 128), (127, 128), (0, 1)))
    words = chance.choice((["show"], ["answer", str(own), str(nodes)], ["answer", str(own), str(nodes)]))
    if bad is not None:
        return words, fed, (1, b"bad line %d\n" % bad)
    data = b"".join(b"" if line in (b"", b"-") else bytes.fromhex(line.decode()) for _, line in grammar.lines_in(fed))
    return words, fed, wire.show(data) if words == ["show"] else wire.answer(own, nodes, data)


def schedule_of(fuzz):
    inputs, chance = fuzz.inputs, fuzz.chance
    if chance.random() < 0.5:
        fed = inputs.schedule()[0]
        return inputs.lines_changed(fed, inputs.schedules) if chance.random() < 0.3 else fed
    return inputs.lines_changed(chance.choice(inputs.schedules), inputs.schedules)


def one_schedule(fuzz):
    fed = schedule_of(fuzz)
    bad = grammar.bad_in_schedule(fed)
    if bad is not None:
        return ["sim"], fed, (1, b"bad line %d\n" % bad)
    head, *acts = [line.decode() for line in fed.split(b"\n") if line]
    if any(act.startswith("arm") for act in acts):
        fuzz.tried.count("schedules with faults")
        return ["sim"], fed, lambda status, out: f"status {status}" if status != 0 else tables.problem_in(out.decode(), acts)
    fuzz.tried.count("schedules without faults")
    cluster = Cluster(*map(int, head.split(" ")[1:]))
    text = "".join(map(cluster.act, acts)) + cluster.table()
    return ["sim"], fed, lambda status, out: f"status {status}" if status != 0 else unlike(out, text.encode()) or tables.problem_in(text, acts)


def one_record(fuzz):
    """The trace of a schedule's run. Where disks fail, what `sim` tells of the same schedule says what has to stand in it."""
    fed = schedule_of(fuzz)
    bad = grammar.bad_in_schedule(fed)
    if bad is not None:
        return ["record"], fed, (1, b"bad line %d\n" % bad)
    head, *acts = [line.decode() for line in fed.split(b"\n") if line]
    nodes, slots = map(int, head.split(" ")[1:])
    if not any(act.startswith("arm") for act in acts):
        fuzz.tried.count("schedules without faults")
        cluster = Cluster(nodes, slots)
        return ["record"], fed, (0, recorded.recorded_text(nodes, acts, [cluster.act(act)[:-1] for act in acts]))
    fuzz.tried.count("schedules with faults")
    _, printed, trouble = fuzz.tried.run(["sim"], fed)
    printed = printed.decode().split("\n")[:len(acts)]
    return ["record"], fed, lambda status, out: trouble or (f"status {status}" if status != 0 else recorded.problem_in_recorded(out, nodes, acts, printed))


def one_run_of_plans(fuzz):
    """Nodes in threads: what comes first is up to them, so the trace has to have the plans, and to be that of a run."""
    inputs, chance = fuzz.inputs, fuzz.chance
    fed = inputs.some_plans() if chance.random() < 0.6 else chance.choice(inputs.plans)
    fed = inputs.lines_changed(fed, inputs.plans) if chance.random() < 0.5 else fed
    # many links of many messages take their room
    fed = re.sub(rb"(?m)^links [1-9][0-9]{2,}$", b"links 99", fed)
    fed = re.sub(rb"(?m)^cluster (?=[0-9]{2})[0-9]+ [0-9]+$", b"cluster 12 8", fed)
    bad = grammar.bad_in_plans(fed)
    if bad is not None:
        return ["threads", "--order"], fed, (1, b"bad line %d\n" % bad)
    fuzz.tried.count("plans that were run")
    head, _, *turns = [line.decode() for line in fed.split(b"\n") if line]
    words = [line.split(" ") for line in turns]
    return ["threads", "--order"], fed, lambda status, out: f"status {status}" if status != 0 else recorded.problem_in_threads(out, int(head.split(" ")[1]), words)


def unlike(out, text):
    if out == text:
        return ""
    return next((f"it prints {a!r} in place of {b!r}" for a, b in zip(out.split(b"\n"), text.split(b"\n")) if a != b), "it ends elsewhere")


def trace_of(fuzz):
    inputs, chance = fuzz.inputs, fuzz.chance
    return inputs.trace() if chance.random() < 0.7 else inputs.flipped(chance.choice(inputs.traces))


def one_trace(fuzz):
    fed = trace_of(fuzz)
    status, text = verdict(fed)
    fuzz.tried.count("bad traces" if text.startswith("bad") else "no runs" if status else "runs")
    return ["trace"], fed, (status, text.encode())


def all_turns(fuzz):
    """The turns of what can be taken; of what is no trace what `trace` prints."""
    fed = trace_of(fuzz)
    try:
        nodes, histories = traces.read(fed)
    except traces.Bad as bad:
        return ["trace", "--turns"], fed, (1, f"{bad}\n".encode())
    search = turns.Watched(nodes, histories)
    wanted, _ = search.verdict()
    fuzz.tried.count("turns of traces")
    return ["trace", "--turns"], fed, lambda status, out: f"status {status}" if status != wanted else turns.problem_in_turns(out, search)


class Stores:
    """What `store` answers, over a file that isn't there at first."""

    def __init__(self):
        self.file = self.mounted = None

    def answer(self, line):
        verb, *words = line.split(" ")
        if verb == "format":
            self.file, self.mounted = Model(0, 0, {}, int(words[0])), None
            return "ok\n"
        if verb == "mount":
            self.mounted = self.file
            return "ok\n" if self.file else "refused Device\n"
        if self.mounted is None:
            return "refused Broken\n"
        return self.mounted.listed() if verb == "list" else self.mounted.apply(line) + "\n"


def one_store(fuzz):
    inputs, chance = fuzz.inputs, fuzz.chance
    others = [text.replace(";", "\n").encode() for text in STORES]
    fed = inputs.lines_changed(chance.choice(others), others)
    # a great file takes its time
    fed = re.sub(rb"^format [1-9][0-9]{2,3}$", b"format 99", fed, flags=re.M)
    path = os.path.join(fuzz.folder, "store")
    if os.path.exists(path):
        os.remove(path)
    bad = grammar.bad_in_store(fed)
    if bad is not None:
        return ["store", path], fed, (1, b"bad line %d\n" % bad)
    stores = Stores()
    return ["store", path], fed, (0, "".join(stores.answer(line.decode()) for _, line in grammar.lines_in(fed) if line).encode())


def one_format(fuzz):
    """The file of a node: made just where the words can be read and nothing is there, and then as the pages say."""
    chance, path = fuzz.chance, os.path.join(fuzz.folder, "made")
    if os.path.exists(path):
        os.remove(path)
    words = [chance.choice(some) for some in ((b"4", b"5", b"16", b"64"), (b"0", b"1", b"2"), (b"3", b"128"), (b"0", b"7", b"1764000000000", b"18446744073709551615"))][:chance.choice((4, 4, 4, 3))]
    for _ in range(chance.choice((0, 0, 1, 1, 2))):
        words[chance.randrange(len(words))] = chance.choice(WORDS)
    if chance.random() < 0.1:
        words = chance.choice((words[:-1], words + [chance.choice(WORDS)], words + words))
    fits = grammar.is_making(words)
    there = chance.random() < 0.2 and chance.choice((b"", b"a5", bytes(12304)))
    if there is not False:
        with open(path, "wb") as file:
            file.write(there)
    where = path if there is not False or chance.random() < 0.9 else os.path.join(fuzz.folder, "none", "made")
    want = (2,) if not fits else (1,) if there is not False else (0,) if where == path else (7,)
    return ["format", where, *words], b"unread", lambda status, out: problem_in_made(fuzz, path, words, there, status, want)


def problem_in_made(fuzz, path, words, there, status, want):
    if status not in want:
        return f"status {status} in place of {want}"
    if status != 0:
        kept = there if there is not False else None
        found = None
        if os.path.exists(path):
            with open(path, "rb") as file:
                found = file.read()
        return "" if found == kept else "the file is made, or is another"
    fuzz.tried.count("files that were made")
    slots, own, nodes, first = [int(word) for word in (*words, b"0")[:4]]
    with open(path, "rb") as file:
        data = file.read()
    try:
        found = mounted(data)
    except Refused as refused:
        return f"the layout finds {refused}"
    label = b"dumgerok" + bytes([2, own, nodes, 0, 0, 0, 0, 0]) + slots.to_bytes(2, "big") + bytes(14)
    if len(data) != (8 + 4 * slots) * 512 + 32 or data[-32:] != label or found != (first, first, {}):
        return f"the file has {len(data)} bytes, ends with {data[-32:]!r}, and is mounted as {found}"
    text = f"group Normal {own} {own}:{first + 1} {own}\nkeeps {first + 1} {first} 0\nok 1\n" if first < grammar.GREATEST else "refused 1 Exhausted\n"
    got, out, trouble = fuzz.tried.run(["node", path, str(own), str(nodes)], b"recover\n")
    return trouble or (f"status {got} of its node" if got else unlike(out, text.encode()))


def one_node(fuzz):
    """Two lives of a node over one file. What is answered is looked at as a service would."""
    inputs, chance, tried = fuzz.inputs, fuzz.chance, fuzz.tried
    others = [text.replace(";", "\n").encode() for text in SESSIONS]
    path = os.path.join(fuzz.folder, "node")
    if os.path.exists(path):
        os.remove(path)
    slots = chance.choice((4, 5, 16))
    tried.run(["format", path, str(slots), "0", "3"], b"")
    seen, session = Seen(), Session(0, 3, slots)
    for _ in range(2):
        fed = inputs.lines_changed(inputs.session() if chance.random() < 0.5 else chance.choice(others), others) + b"\nstate\n"
        requests, lines = grammar.node_requests(fed), [line for line in fed.split(b"\n")[:-1] if line]
        status, out, trouble = tried.run(["node", path, "0", "3"], fed)
        trouble = trouble or (f"status {status}" if status != 0 else seen.problem(out.decode(), requests, lines))
        if session and any(read and line.startswith((b"tick", b"lost")) for read, line in zip(requests, lines)):
            session = None
        if session and not trouble:
            tried.count("lives that were foreseen")
            session.begin()
            text = "".join(answer + "\n" for read, line in zip(requests, lines) for answer in session.answer(line.decode("latin1"), read))
            trouble = unlike(in_order(out), in_order(text.encode()))
        if trouble:
            return ["node", path, "0", "3"], fed, lambda *_: trouble
    fed = b"recover\njobs\n"
    return ["node", path, "0", "3"], fed, seen.ends_well


def in_order(out):
    """The jobs of a hand are printed in no order that the pages name: those that are printed one behind the other are sorted."""
    printed = itertools.groupby(out.splitlines(True), lambda line: line.split(b" ")[0])
    return b"".join(b"".join(sorted(lines) if word in (b"take", b"drop", b"hand") else lines) for word, lines in printed)


class Seen:
    """What a node answered: its counts rise, each id is new, and a job that was answered is kept until it is gone."""

    def __init__(self):
        self.count, self.next, self.pending, self.groups = 0, 0, {}, tables.Groups()

    def problem(self, out, requests, lines):
        at = 0
        for line in out.split("\n")[:-1]:
            words = line.split(" ")
            if words[0] in ("ok", "refused", "bad", "fault"):
                if at >= len(requests) or words[1] != str(at + 1) or (words[0] == "bad") == requests[at] or words[0] == "fault":
                    return f"request {at + 1} {lines[at][:80] if at < len(lines) else ''!r} is closed by {line}"
                asked = lines[at].decode().split(" ") if requests[at] else []
                if words[0] == "ok" and asked[0] == "submit":
                    if int(words[3]) != self.next:
                        return f"the id {words[3]} comes after {self.next - 1}"
                    self.pending[self.next] = asked[1:]
                    self.next += 1
                at += 1
            elif words[0] == "gone":
                if int(words[1]) not in self.pending and int(words[1]) != self.next:
                    return f"{line}, and no such job was kept"
                self.pending.pop(int(words[1]), None)
            elif words[0] == "group":
                trouble = self.group(words)
                if trouble:
                    return trouble
            elif words[0] == "keeps":
                if words[1:] != [str(self.count), str(self.next), str(len(self.pending))]:
                    return f"{line} behind {self.count} groups and {self.next} jobs, of which {len(self.pending)} are pending"
            elif words[0] == "next":
                if at >= len(lines) or not lines[at].startswith(b"tick "):
                    return f"{line} stands in the answer to {lines[at][:80] if at < len(lines) else ''!r}"
            elif words[0] not in ("send", "fired", "take", "drop", "state", "pending", "hand"):
                return f"there is a line {line[:100]!r}"
        return "" if at == len(requests) else f"{at} requests are answered, of {len(requests)}"

    def group(self, words):
        creator, count = map(int, words[3].split(":"))
        if creator != int(words[2]):
            return f"{words} has a number of another"
        if creator == 0:
            if count < self.count:
                return f"count {count} comes after {self.count}"
            self.count = count
        if words[1] == "Normal":
            return self.groups.seen((creator, count), creator, words[4]) if creator == 0 else ""
        return ""

    def ends_well(self, status, out):
        text = f"group Normal 0 0:{self.count + 1} 0\nkeeps {self.count + 1} {self.next} {len(self.pending)}\nok 1\n"
        for job, (queue, payload, *priority) in sorted(self.pending.items()):
            text += " ".join(["pending", str(job), queue, payload.lower(), *priority]) + "\n"
        return f"status {status}" if status != 0 else unlike(out, (text + "ok 2\n").encode())


def one_refusal(fuzz):
    """One of the commands that read their whole input, with one allocation refused by chance, behind those of the command line."""
    chance, tried = fuzz.chance, fuzz.tried
    words, fed, _ = chance.choice((one_piece, one_schedule, one_schedule, one_trace, one_store, one_record))(fuzz)
    begin = lambda: os.path.exists(words[-1]) and os.remove(words[-1]) if words[0] == "store" else None
    begin()
    status, whole, trouble = tried.run(words, fed, shim.environment(fuzz.library, fuzz.noted))
    total = shim.read_noted(fuzz.noted)[1]
    if trouble or total < 100:
        return words, fed, lambda *_: trouble
    begin()
    at = chance.randrange(100, total + 1)
    got, out, trouble = tried.run(words, fed, shim.environment(fuzz.library, fuzz.noted, REFUSE_AT=at))
    shim.read_noted(fuzz.noted)
    begin()
    if not trouble and (got, out) not in ((status, whole), (1, b"no memory\n")):
        acts = [line.decode() for line in fed.split(b"\n") if line][1:]
        trouble = f"status {got}, it prints {out[:200]!r}"
        if got == 0 == status and words[0] in ("sim", "record"):
            trouble = trouble_in_faulted(out.decode(), whole.decode(), acts) if words[0] == "sim" else recorded.no_run(out)
            tried.count("disks that found no memory")
    return words, fed, lambda *_: f"allocation {at} of {total}: {trouble}" if trouble else ""


COMMANDS = {"pieces": one_piece, "sim": one_schedule, "record": one_record, "threads": one_run_of_plans, "trace": one_trace, "turns": all_turns, "store": one_store,
            "format": one_format, "node": one_node, "refusals": one_refusal}


class Patient(Tried):
    """A run that takes too long is made again with more time, since other work may have kept it waiting."""

    def run(self, words, fed, env=None, seconds=SECONDS, limit=None):
        status, out, trouble = super().run(words, fed, env, seconds, limit)
        if status is not None:
            return status, out, trouble
        self.count(f"runs that took more than {seconds} s")
        return super().run(words, fed, env, 5 * seconds, limit)


class Fuzz:
    def __init__(self, program, seed, names, folder):
        self.name = " ".join(names) if len(names) < len(COMMANDS) else f"fuzz {seed}"
        self.tried, self.folder, self.names, self.seed = Patient(program, self.name), folder, names, seed
        self.chance = random.Random(seed)
        self.inputs = Inputs(self.chance)
        self.library, self.noted = shim.built(folder), os.path.join(folder, "noted")
        if self.library is None:
            self.names = [name for name in names if name != "refusals"]
        self.begun = time.monotonic()

    def turn(self):
        name = self.chance.choice(self.names)
        words, fed, want = COMMANDS[name](self)
        status, out, trouble = self.tried.run(words, fed)
        if not trouble and callable(want):
            trouble = self.judged(want, status, out)
        elif not trouble:
            trouble = f"status {status} in place of {want[0]}" if status != want[0] else unlike(out, want[1])
        self.tried.count(name)
        if trouble:
            kept = os.path.join(tempfile.gettempdir(), f"fuzz-{self.seed}-{name}-{self.tried.failed}")
            with open(kept, "wb") as file:
                file.write(fed)
            trouble += f" (the input is {kept})"
        self.tried.mark(trouble, (name, words, fed[:200]))

    def judged(self, want, status, out):
        """What is wrong with an output; one that can't be read as what it should be is wrong too."""
        try:
            return want(status, out)
        except Exception as error:
            return f"{error!r} at {out[:200]!r}"

    def until(self, end):
        last = time.monotonic()
        while time.monotonic() < end and self.tried.failed < 20 and self.names:
            self.turn()
            if time.monotonic() - last > COUNTS_EVERY:
                last = time.monotonic()
                self.print_counts()

    def print_counts(self):
        own, program = (sum(resource.getrusage(who)[:2]) for who in (resource.RUSAGE_SELF, resource.RUSAGE_CHILDREN))
        seconds = time.monotonic() - self.begun
        print(f"{self.name}: {self.tried.passed} runs and {self.tried.failed} wrong in {seconds:.0f} s, with {own + program:.0f} s of a processor, {program:.0f} of them the program's", flush=True)


def fuzzed(program, seconds, seed, names):
    """How many runs were right, and how many weren't."""
    end = time.monotonic() + seconds
    with tempfile.TemporaryDirectory(dir="/dev/shm" if os.access("/dev/shm", os.W_OK) else None) as folder:
        fuzz = Fuzz(program, seed, names, folder)
        fuzz.until(end)
    fuzz.print_counts()
    return fuzz.tried.told()


def main():
    program, (seconds, seed, *words), tally = named(), sys.argv[2:], Tally()
    names = [word for word in words if word != "--each"] or list(COMMANDS)
    groups = [[name] for name in names] if "--each" in words else [names]
    if len(groups) == 1:
        counted = [fuzzed(program, float(seconds), int(seed), groups[0])]
    else:
        with ProcessPoolExecutor(len(groups)) as pool:
            counted = [one.result() for one in [pool.submit(fuzzed, program, float(seconds), int(seed), group) for group in groups]]
    for passed, failed in counted:
        tally.add(passed, failed)
    return tally.close()


if __name__ == "__main__":
    sys.exit(main())
