"""Each allocation of some small runs is refused in turn. What is printed is the text that is printed with ample memory, or `no memory` alone with
status 1. In `sim` a refused growth of a disk's record is a fault of that act's device. What a store or a node had answered is in its file."""
import os, re, resource, tempfile
import rows, shim, tables
from files_tried import Model, lined, found_in, node_text, read


class Refusing:
    """Runs one command again and again, with one allocation more that is granted each time."""

    def __init__(self, tried, library, folder):
        self.tried, self.library, self.noted = tried, library, os.path.join(folder, "noted")

    def every(self, words, fed, before=lambda: None, run=None):
        """Of each run: its number, status, output, what was wrong with its end, and what is printed with ample memory."""
        run = run or self.tried.run
        before()
        _, whole, trouble = run(words, fed, shim.environment(self.library, self.noted))
        total = shim.read_noted(self.noted)[1]
        self.tried.mark(trouble or ("" if total else "no allocation was counted"), words)
        for more in ({}, {"REFUSE_ALL": 1}) if self.tried.is_long else ({},):
            for at in range(1, total + 1):
                before()
                status, out, trouble = run(words, fed, shim.environment(self.library, self.noted, REFUSE_AT=at, **more))
                shim.read_noted(self.noted)
                self.tried.count("allocations refused")
                yield at, status, out, trouble, whole

    def is_over(self, status, out, trouble, note):
        """Whether the run ended as none may end, or before its command began: with `no memory` alone."""
        is_refused = (status, out) == (1, b"no memory\n")
        if trouble or is_refused:
            self.tried.mark(trouble, note)
        return trouble != "" or is_refused


def try_batches(refusing, words, fed, want, note):
    """`answer`, `show`, `trace`, and schedules where no disk is refused memory."""
    acts = [line.decode() for line in fed.split(b"\n") if line][1:] if words == ["sim"] else None
    for at, status, out, trouble, whole in refusing.every(words, fed):
        if refusing.is_over(status, out, trouble, (note, at)):
            continue
        right = (status, out) == (want, whole) or (status, out) == (1, b"no memory\n")
        if not right and acts is not None and status == 0:
            trouble = trouble_in_faulted(out.decode(), whole.decode(), acts)
            refusing.tried.count("faults of a disk that found no memory")
        elif not right:
            trouble = f"status {status}, it prints {out[-200:]!r}"
        refusing.tried.mark(trouble, (note, "allocation", at))


def trouble_in_faulted(out, whole, acts):
    """A schedule in which an act is a fault of its device: before it all is printed as ever. Where the device was to fail in that act anyway, it
    fails in an earlier call now, and what differs comes later."""
    lines, wanted = out.split("\n"), whole.split("\n")
    first = next((k for k, (a, b) in enumerate(zip(lines, wanted)) if a != b), None)
    is_fault = first is not None and first < len(acts) and lines[first] == f"{first} fault Device"
    if not is_fault and not any(line.endswith("fault Device") for line in lines[:first]):
        return f"line {first} is {lines[first] if first is not None else ''!r}"
    return tables.problem_in(out, acts)


STORE = ["mount", "raise", "raise", "put 1 6869", "put 2 -", "done 0", "compact", "put 15 61", "list"]
NODE = ["recover", "submit 1 6869", "check", "deliver 010101000000", "state", "submit 2 -", "finish 0 0", "compact", "jobs", "recover", "lost 1", "tick 5", "tick 5000"]


def try_store(refusing, folder):
    path, tried = os.path.join(folder, "store"), refusing.tried
    states, model = [], Model(0, 0, {}, 4)
    for line in STORE:
        model.apply(line) if line not in ("mount", "list") else None
        states.append(model.listed())

    def anew():
        if os.path.exists(path):
            os.remove(path)

    def formatted():
        anew()
        tried.run(["store", path], b"format 4\n")

    for before, lines in ((formatted, STORE), (anew, ["format 4", *STORE])):
        for at, status, out, trouble, whole in refusing.every(["store", path], lined(lines), before):
            if refusing.is_over(status, out, trouble, ("store", at)):
                continue
            right = (status, out) in ((0, whole), (1, b"no memory\n"))
            tried.mark("" if right else f"status {status}, it prints {out[-200:]!r}", ("store", "allocation", at))
            found = tried.run(["store", path], b"mount\nlist\n")[1].decode()
            allowed = ["ok\n" + state for state in ([states[-1]] if (status, out) == (0, whole) else states)]
            allowed += [] if before is formatted or (status, out) == (0, whole) else ["refused Device\nrefused Broken\n"]
            tried.mark("" if found in allowed else f"then the file has {found!r}", ("store", "allocation", at))


def answered(out):
    """How many requests of a node were answered, and the counts and ids that it answered; what stands behind the last closing line isn't whole."""
    closing, counts, ids, gone = 0, [], [], []
    for line in out.decode().split("\n")[:-1]:
        words = line.split(" ")
        if words[0] in ("ok", "refused", "bad", "fault"):
            closing += 1
            ids += [int(words[3])] if words[2:3] == ["id"] else []
        if words[0] == "group" and len(words) == 5 and words[3].startswith("0:"):
            counts.append(int(words[3][2:]))
        gone += [int(words[1])] if words[0] == "gone" else []
    return closing, counts, ids, gone


def timeless(out):
    """A node measures what its own commands take, and its waits allow for that: when the next tick is due is another in each run."""
    return re.sub(rb"^next \d+$", b"next MS", out, flags=re.M)


def try_node(refusing, folder):
    path, tried = os.path.join(folder, "node"), refusing.tried

    def anew():
        if os.path.exists(path):
            os.remove(path)
        tried.run(["format", path, "4", "0", "3"], b"")

    for name, run in (("node", tried.run), ("node, line by line", tried.talk)):
        for at, status, out, trouble, whole in refusing.every(["node", path, "0", "3"], lined(NODE), anew, run):
            if refusing.is_over(status, out, trouble, (name, at)):
                continue
            out, whole = timeless(out), timeless(whole)
            closing, counts, ids, gone = answered(out)
            problem = ""
            if status == 0 and closing != len(NODE):
                problem = f"{closing} requests are answered, of {len(NODE)}"
            if status == 0 and out != whole and b"NoMemory" not in out:
                problem = f"it answers {out!r}"
            if status not in (0, 1):
                problem = f"status {status}"
            if status == 1 and not whole.startswith(out):
                problem = f"it answers {out!r}"
            tried.count("ends of a node", status == 1)
            tried.count("requests that were refused", status == 0 and out != whole)
            tried.mark(problem, (name, "allocation", at, out[-200:]))
            found, refused = found_in(read(path))
            if not tried.mark(refused or "", (name, "allocation", at, "then the file is refused")):
                continue
            # the request in which it ended has no answer: it counts whole, or not at all
            asked = NODE[closing].split(" ") if status == 1 else []
            gone += [int(asked[2])] if asked[:2] == ["finish", "0"] else []
            lost = [job for job in ids if job not in gone and job not in found.pending]
            problem = f"jobs {lost} are lost" if lost else "a count is lost" if counts and found.count < max(counts) else ""
            if ids and found.next <= max(ids):
                problem = "an id is lost"
            tried.mark(problem, (name, "allocation", at))
            lines, _ = node_text(found, refused, 0)
            tried.expect(["node", path, "0", "3"], lined(["recover", "jobs", "submit 0 61"]), 0, lined(lines), ("node begun again", at))


def try_format(refusing, folder):
    path, tried = os.path.join(folder, "made"), refusing.tried

    def anew():
        if os.path.exists(path):
            os.remove(path)

    for at, status, out, trouble, whole in refusing.every(["format", path, "4", "0", "3", "7"], b"", anew):
        if refusing.is_over(status, out, trouble, ("format", at)):
            continue
        made = os.path.exists(path)
        tried.mark("" if (status, made) in ((0, True), (1, False)) else f"status {status}, {made}", ("format", "allocation", at))


MEGABYTE = 1 << 20


def try_little_room(tried, folder):
    """Inputs that need more memory than the process may have: each way ends in `no memory` alone, whatever had been done before."""
    def limited(words, fed, megabytes, status, text):
        limit = lambda: resource.setrlimit(resource.RLIMIT_AS, (megabytes * MEGABYTE,) * 2)
        got, out, trouble = tried.run(words, fed, limit=limit)
        tried.mark(trouble or ("" if (got, out) == (status, text) else f"status {got}, it prints {out[:100]!r}"), (words, len(fed), megabytes))
    two = rows.lines("cluster 2 4096;check 0;deliver 0;deliver 1;merge 0;deliver 2;deliver 3;accept 0;deliver 4;deliver 5")
    jobs = (b"submit 0 1 " + b"61" * 400 + b"\n") * 1000
    entries = b",".join([b'{"do":"none","sent":[]}'] * 200_000)
    node, store = os.path.join(folder, "node"), os.path.join(folder, "store")
    none = b"no memory\n"
    limited(["sim"], b"cluster 128 4\n" + b"check 0\n" * 60_000, 80, 1, none)
    limited(["sim"], two + jobs + b"dispatch 0\n" * 100, 40, 1, none)
    limited(["sim"], b"cluster 128 4096\n", 100, 1, none)
    # a text that is no trace takes no more than one that is
    for last in (b"", b',{"do":1}'):
        for megabytes in (14, 11):
            limited(["trace"], b'{"nodes":1,"histories":[[' + entries + last + b"]]}", megabytes, 1, none)
    limited(["trace"], b'{"nodes":1,"histories":[[' + entries + b',{"do":1}]]}', 80, 1, b"bad trace 0 200000\n")
    limited(["show"], b"a" * (40 * MEGABYTE), 20, 1, none)
    limited(["answer", "0", "3"], b"010101000000\n" * MEGABYTE, 20, 1, none)
    limited(["store", store], b"format 4\nmount\n" + b"list\n" * MEGABYTE, 20, 1, none)
    tried.run(["format", node, "4", "0", "3"], b"")
    # what was answered before is written, and the node ends
    limited(["node", node, "0", "3"], b"recover\n" + b"a" * (12 * MEGABYTE), 12, 1, b"group Normal 0 0:1 0\nkeeps 1 0 0\nok 1\n")
    tried.expect(["node", node, "0", "3"], b"recover\n", 0, b"group Normal 0 0:2 0\nkeeps 2 0 0\nok 1\n", "begun again")


def try_memory(tried):
    with tempfile.TemporaryDirectory() as folder:
        try_little_room(tried, folder)
        library = shim.built(folder)
        if library is None:
            print("there is no C compiler cc, so no allocation was refused")
            return
        refusing = Refusing(tried, library, folder)
        for text, status in (("010102000000", 0), ("010102000001", 0), ("01010200000100", 1), ("010501000009010000000000000002", 0)):
            try_batches(refusing, ["answer", "0", "3"], text.encode() + b"\n", status, ("answer", text))
        for text, status in (("01070001000c000000000000000002020001\n010102", 0), ("01070001000c000000000000000002020100", 1)):
            try_batches(refusing, ["show"], text.encode() + b"\n", status, ("show", text))
        for name, text in rows.SCHEDULES.items():
            if tried.is_long or name != "cut":
                try_batches(refusing, ["sim"], rows.lines(text), 0, name)
        for name, text in rows.TRACES.items():
            if tried.is_long or name != "circle":
                try_batches(refusing, ["trace"], text.encode(), 0 if name in ("run", "all kinds") else 1, name)
        path = os.path.join(folder, "trace.json")
        with open(path, "w", encoding="utf-8") as file:
            file.write(rows.TRACES["run"])
        try_batches(refusing, ["trace", path], b"", 0, "trace of a file")
        try_batches(refusing, ["trace", "--turns"], rows.TRACES["run"].encode(), 0, "turns of a trace")
        try_batches(refusing, ["record"], b"cluster 2 8\ncheck 0\ndeliver 0\n", 0, "record")
        try_batches(refusing, ["threads"], b"cluster 1 4\nlinks 1\n0 clock check\n0 clock accept\n", 0, "threads")
        try_store(refusing, folder)
        try_node(refusing, folder)
        try_format(refusing, folder)
