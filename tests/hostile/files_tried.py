"""Files of a store and of a node with a sector that holds other bytes: what a mounting finds is what the layout says, or it is refused with the
word that the layout says. Of arbitrary damage no more is promised; where a crash may have left those bytes, what was acknowledged is kept."""
import os, random, tempfile
import shim
from layout import SECTOR, File, Refused, cell, listed, mounted
from spelling import HAS_PRIORITIES

SECTORS = 32
# Six slots in each area: 32 sectors, and each of them is damaged in turn.
HISTORIES = {
    "as formatted": [],
    "a raise": ["raise"],
    "a journal": ["raise", "raise", "raise", "put 1 6869", "put 2 -", "done 0", "put 15 " + "61" * 400],
    "compacted once": ["raise", "raise", "put 1 61", "put 0 62", "done 0", "compact", "put 3 63", "raise"],
    "compacted twice": ["raise", "put 1 61", "put 0 62", "compact", "done 0", "put 4 64", "compact", "put 3 63", "raise", "raise"],
    "a full journal": ["put 0 61", "done 0", "put 0 62", "done 1", "put 0 63", "put 0 64"],
}
if HAS_PRIORITIES:
    HISTORIES["priorities"] = ["raise", "put 1 61 7", "put 0 62", "put 2 - 255", "done 1", "compact", "put 3 63 1"]
GREATEST = 2**64 - 1


def fills(is_long, at):
    """What a sector is made to hold, with a name for each."""
    yield "zeros", bytes(SECTOR)
    yield "ones", b"\xff" * SECTOR
    yield "seals", b"\xa5" * SECTOR
    yield "a seal", b"\xa5" + bytes(SECTOR - 1)
    yield "the greatest number", b"\xff" * 8 + bytes(SECTOR - 8)
    yield "a great base", b"\3" + b"\xff" * 8 + bytes(SECTOR - 9)
    for seed in range(8 if is_long else 2):
        noise = random.Random(1000 * at + seed).randbytes(SECTOR)
        yield f"noise {seed}", noise
        yield f"a seal and noise {seed}", b"\xa5" + noise[1:]


class Model:
    """A mounted store: what it answers. Of the journal it knows how many slots are used, and the value of the area cell."""

    def __init__(self, count, next_id, pending, slots, used=0, area=1):
        self.count, self.next, self.pending, self.slots, self.used, self.area = count, next_id, dict(pending), slots, used, area

    def room(self):
        """Whether a slot is free for a record, with a compaction where that is needed."""
        return self.used < self.slots or self.compact()

    def compact(self):
        if self.area == GREATEST:
            return False
        self.area, self.used = self.area + 1, 1 + len(self.pending)
        return True

    def apply(self, line):
        verb, *words = line.split(" ")
        if verb == "raise":
            if self.count == GREATEST:
                return "refused Exhausted"
            self.count += 1
            return f"ok {self.count}"
        if verb == "put":
            if self.next == GREATEST:
                return "refused Exhausted"
            if len(self.pending) + 3 > self.slots:
                return "refused Full"
            if not self.room():
                return "refused Exhausted"
            self.pending[self.next] = (int(words[0]), b"" if words[1] == "-" else bytes.fromhex(words[1]), int(words[2]) if words[2:] else 0)
            self.next, self.used = self.next + 1, self.used + 1
            return f"ok {self.next - 1}"
        if verb == "done":
            if int(words[0]) not in self.pending:
                return "refused NoSuchJob"
            if not self.room():
                return "refused Exhausted"
            del self.pending[int(words[0])]
            self.used += 1
            return "ok"
        return "ok" if self.compact() else "refused Exhausted"

    def listed(self):
        return listed(self.count, self.next, self.pending)


def found_in(data):
    """The store that a mounting finds, or the word with which it is refused."""
    try:
        file = File(data)
        return Model(*mounted(data), file.slots, sealed_in(file).index(False), cell(file, 4)), None
    except Refused as refused:
        return None, refused.word


def sealed_in(file):
    """Of each slot of the present area whether it is sealed; the end of the area counts as one that isn't."""
    begin = 8 + (0 if cell(file, 4) % 2 else 2 * file.slots)
    return [file.sealed(begin + 2 * k) is not None for k in range(file.slots)] + [False]


def is_sound(data):
    """Whether no slot behind the journal's end is sealed, in the present area."""
    sealed = sealed_in(File(data))
    return sealed == sorted(sealed, reverse=True)


def lined(lines):
    return "".join(line + "\n" for line in lines).encode()


def damaged(data, at, bytes_there):
    return data[:at * SECTOR] + bytes_there + data[(at + 1) * SECTOR:]


def write(path, data):
    with open(path, "wb") as file:
        file.write(data)


def read(path):
    with open(path, "rb") as file:
        return file.read()


def made(tried, path, history):
    """The file with this history, and the counts and ids that were given in it."""
    slots = (SECTORS - 8) // 4
    model, answers = Model(0, 0, {}, slots), ["ok", "ok"]
    answers += [model.apply(line) for line in history]
    tried.expect(["store", path], lined([f"format {slots}", "mount", *history, "list"]), 0, (lined(answers) + model.listed().encode()), "the file is made")
    data = read(path)
    tried.mark("" if found_in(data)[0].listed() == model.listed() else "the layout finds something else", history)
    return data, model


def as_before_priorities(data):
    """The same file with the records that were written when jobs had no priorities, for the jobs that have none."""
    bodies = [data[at:at + SECTOR] for at in range(0, SECTORS * SECTOR, SECTOR)]
    for at in range(8, SECTORS, 2):
        body = bodies[at]
        if body[0] in (5, 6) and body[10] == 0:
            bodies[at] = bytes([{5: 1, 6: 4}[body[0]]]) + body[1:10] + body[11:] + b"\0"
    return b"".join(bodies) + data[SECTORS * SECTOR:]


# What is done with a damaged file. A compaction comes last: a put after it is answered by its new area.
COMMANDS = ["raise", "put 3 7a", "raise", "put 0 -", "compact", "put 0 7b"]


def one_store(tried, path, data, before, at, name, note):
    """Mounts the damaged file, changes it, and mounts it again."""
    model, refused = found_in(data)
    write(path, data)
    if refused:
        tried.count("refused")
        words = ["mount", "list", "raise"]
        text = f"refused {refused}\nrefused Broken\nrefused Broken\n"
        if tried.expect(["store", path], lined(words), 0, text.encode(), note):
            tried.mark("" if read(path) == data else "a refused mounting wrote to the file", note)
        return
    tried.count("mounted")
    text, given = "ok\n" + model.listed(), []
    sound = is_sound(data)
    for line in COMMANDS:
        verb, count, next_id = line.split(" ")[0], model.count, model.next
        answer = model.apply(line)
        text += answer + "\n"
        given.append((verb, answer))
        if verb == "raise" and answer.startswith("ok") and count + 1 <= before.count:
            tried.count("gave a count again")
            tried.mark("" if at is not None and at < 4 else "a count comes again, and the counter wasn't damaged", note)
        if verb == "put" and answer.startswith("ok") and next_id < before.next:
            tried.count("gave an id again")
            tried.mark("" if at is None or at >= 4 else "an id comes again, and the journal wasn't damaged", note)
    if not sound:
        # A sealed slot behind the end: sealing the next one may join what was there. Only the first answers are foreseen.
        tried.count("not sound")
        text = "ok\n" + found_in(data)[0].listed()
        status, out, trouble = tried.run(["store", path], lined(["mount", "list", *COMMANDS, "list"]))
        tried.mark(trouble or ("" if status == 0 and out.startswith(text.encode()) else f"it prints {out!r}"), note)
    elif not tried.expect(["store", path], lined(["mount", "list", *COMMANDS, "list"]), 0, (text + model.listed()).encode(), note):
        return
    again, refused = found_in(read(path))
    text = f"refused {refused}\nrefused Broken\n" if refused else "ok\n" + again.listed()
    tried.expect(["store", path], lined(["mount", "list"]), 0, text.encode(), (note, "mounted again"))
    if sound:
        tried.mark("" if again and again.listed() == model.listed() else "what was acknowledged isn't there", note)


def try_damage(tried, folder):
    path = os.path.join(folder, "store")
    for name, history in HISTORIES.items():
        data, before = made(tried, path, history)
        one_store(tried, path, data, Model(0, 0, {}, 6), None, name, (name, "undamaged"))
        if HAS_PRIORITIES:
            one_store(tried, path, as_before_priorities(data), Model(0, 0, {}, 6), None, name, (name, "as before priorities"))
        for at in range(SECTORS):
            for fill, bytes_there in fills(tried.is_long, at):
                one_store(tried, path, damaged(data, at, bytes_there), before, at, name, (name, "sector", at, fill))


def try_lengths(tried, folder):
    """A file that was cut, or that has more bytes: what is left at its end belongs to no sector."""
    path = os.path.join(folder, "cut")
    data, before = made(tried, path, HISTORIES["compacted once"])
    lengths = {*range(0, len(data) + 1, 512 if tried.is_long else 2048), 1, 511, 24 * SECTOR - 1, 24 * SECTOR, len(data) - 1, len(data) + 1, len(data) + 2048}
    for length in sorted(lengths):
        cut = (data + bytes(4096))[:length]
        write(path, cut)
        model, refused = found_in(cut)
        text = f"refused {refused}\nrefused Broken\n" if refused else "ok\n" + model.listed()
        tried.expect(["store", path], lined(["mount", "list"]), 0, text.encode(), ("length", length))


def skipped_in(data, count):
    """The number that comes next, where it stands in a slot of the counter that isn't sealed."""
    number = (count + 1).to_bytes(9, "big")[1:] + bytes(SECTOR - 8)
    return count + 1 if count < GREATEST and any(data[at * SECTOR:(at + 1) * SECTOR] == number and data[(at + 1) * SECTOR] != 0xa5 for at in (0, 2)) else None


def expect_node(tried, words, data, model, refused, own, note):
    """Whether a node over this file answers as it may, and skips a number exactly where one may have been given. `model` goes on with it."""
    number, said = None if refused else skipped_in(data, model.count), b""
    if number is not None:
        tried.count("skipped a number")
        model.apply("raise")
        said = f"invite: {words[1]}: group number {own}:{number} may have been given before: it is skipped\n".encode()
    lines, is_up = node_text(model, refused, own)
    if not tried.expect(words, lined(["recover", "jobs", "submit 0 61"]), 0, lined(lines), note):
        return False
    return tried.mark("" if tried.error == said else f"standard error {tried.error!r} in place of {said!r}", note) and is_up


def node_text(model, refused, own):
    """What a node over this file answers to `recover`, `jobs` and `submit`, and whether it is up."""
    lines = []
    if refused or model.count == GREATEST:
        word = refused or "Exhausted"
        return [f"refused 1 {word}", "ok 2", "refused 3 Down"], False
    model.apply("raise")
    lines += [f"group Normal {own} {own}:{model.count} {own}", f"keeps {model.count} {model.next} {len(model.pending)}", "ok 1"]
    lines += [f"pending {job} {queue} {payload.hex() or '-'}" + (f" {priority}" if priority else "") for job, (queue, payload, priority) in sorted(model.pending.items())]
    lines.append("ok 2")
    answer = model.apply("put 0 61")
    if answer.startswith("ok "):
        lines += [f"take {own} {answer[3:]} 0 61", f"ok 3 id {answer[3:]}"]
    else:
        lines.append(answer.replace("refused ", "refused 3 "))
    return lines, True


def try_nodes(tried, folder):
    """The file of a node with a sector damaged, and with its label damaged."""
    path, own = os.path.join(folder, "node"), 1
    words = ["node", path, str(own), "3", "--cluster", "orders"]
    tried.expect(["format", path, "6", str(own), "3", "40", "--cluster", "orders"], b"", 0, b"", "format")
    fed = lined(["recover", "submit 0 61", "submit 1 62", "finish 1 40", "recover", "submit 2 -"])
    status, out, trouble = tried.run(words, fed)
    tried.mark(trouble or ("" if status == 0 and out.count(b"\nok ") == 6 and b"1:42" in out else f"it answers {out!r}"), "the node's file")
    data = read(path)
    before = Model(42, 3, {}, 6)
    for at in range(SECTORS):
        for fill, bytes_there in fills(tried.is_long, at):
            one_node(tried, path, damaged(data, at, bytes_there), before, own, at, fill)
    for at in range(SECTORS * SECTOR, len(data)):
        for byte in (0, data[at] ^ 1, 255):
            if byte != data[at]:
                other = data[:at] + bytes([byte]) + data[at + 1:]
                write(path, other)
                status, out, trouble = tried.run(words, b"recover\n")
                same = read(path) == other
                tried.mark(trouble or ("" if status == 5 and out == b"" and same else f"status {status}, {out!r}, the file is {'as it was' if same else 'another'}"), ("label", at, byte))
    for length in range(0, len(data) + 600, 256 if tried.is_long else 1024):
        if length != len(data):
            write(path, (data + bytes(1024))[:length])
            status, out, trouble = tried.run(["node", path, str(own), "3"], b"recover\n")
            tried.mark(trouble or ("" if status == 5 and out == b"" else f"status {status}, {out!r}"), ("length", length))


def one_node(tried, path, data, before, own, at, fill):
    write(path, data)
    model, refused = found_in(data)
    if not refused and not is_sound(data):
        tried.count("not sound")
        status, out, trouble = tried.run(["node", path, str(own), "3"], lined(["recover", "jobs"]))
        tried.mark(trouble or ("" if status == 0 else f"status {status}"), ("node", at, fill))
        return
    if model and model.count < before.count:
        tried.count("gave a count again")
        tried.mark("" if at < 4 else "a count comes again, and the counter wasn't damaged", ("node", at, fill))
    tried.count("refused" if refused else "mounted")
    if expect_node(tried, ["node", path, str(own), "3"], data, model, refused, own, ("node", at, fill)):
        again = found_in(read(path))[0]
        tried.mark("" if again and again.listed() == model.listed() else "what was answered isn't in the file", ("node", at, fill))


# Ends of the process at each call that writes, with the unsynced sectors made to hold anything: what a loss of power may leave.
LIVES = {
    "store": ["raise", "raise", "put 1 6869", "put 2 -", "done 0", "put 15 61", "done 1", "raise", "compact", "put 0 62", "put 0 63", "done 3", "put 4 64", "raise"],
    "node": ["recover", "submit 1 6869", "submit 2 -", "finish 0 0", "recover", "submit 15 61", "compact", "submit 0 62", "recover"],
}


def as_commands(line):
    """The command that a line to a node makes of its store."""
    verb, *words = line.split(" ")
    return {"recover": "raise", "submit": "put " + " ".join(words), "finish": "done " + (words[-1] if words else ""), "compact": "compact"}[verb]


def unsynced(calls):
    """The sectors that were written since the last sync, that of the call in whose place the program was ended included."""
    found = set()
    for call in calls[:-1]:
        found = set() if call is None else found | {call}
    return sorted(found | ({calls[-1]} if calls[-1] is not None else set()))


def crash_fills(data, at, seed):
    noise = random.Random(seed).randbytes(SECTOR)
    yield bytes(SECTOR)
    yield b"\xff" * SECTOR
    yield b"\xa5" + noise[1:]
    yield noise
    yield data[at * SECTOR:at * SECTOR + 4] + bytes(SECTOR - 4)


def try_crashes(tried, folder, library):
    for kind, lines in LIVES.items():
        path, noted = os.path.join(folder, "life-" + kind), os.path.join(folder, "noted")
        commands = lines if kind == "store" else [as_commands(line) for line in lines]
        # the mounting is the first line of a store, and a part of a node's first recovery
        words = ["store", path] if kind == "store" else ["node", path, "0", "3"]
        fed = lined(["mount", *lines] if kind == "store" else lines)
        begin = lambda: os.path.exists(path) and os.remove(path) or tried.run(["format", path, "4", "0", "3"], b"")
        ends, states, model = [], [], Model(0, 0, {}, 4)
        for k in range(len(lines) + 1):
            begin()
            tried.run(words, lined(["mount", *lines[:k]] if kind == "store" else lines[:k]), shim.environment(library, noted))
            ends.append(len(shim.read_noted(noted)[0]))
            if k:
                model.apply(commands[k - 1])
            states.append(model.listed())
        for at in range(1, ends[-1] + 1):
            begin()
            status = tried.run(words, fed, shim.environment(library, noted, END_AT=at))[0]
            calls = shim.read_noted(noted)[0]
            tried.mark("" if status == -9 and len(calls) == at else f"status {status}, {len(calls)} calls", (kind, "end at", at))
            data, done = read(path), max(k for k, end in enumerate(ends) if end < at) if ends[0] < at else 0
            dirty = unsynced(calls)
            for seed in range(4 if tried.is_long else 1):
                for which in range(5):
                    image = data
                    for sector in dirty:
                        image = damaged(image, sector, list(crash_fills(image, sector, at * 100 + seed))[which])
                    write(path, image)
                    if kind == "store":
                        out = tried.run(["store", path], b"mount\nlist\n")[1].decode()
                    else:
                        out = "ok\n" + (found_in(image)[0] or Model(-1, 0, {}, 4)).listed()
                    allowed = ["ok\n" + state for state in states[done:done + 2]]
                    tried.count("crash images")
                    if tried.mark("" if out in allowed else f"{out!r} in place of {allowed}", (kind, "end at", at, "fill", which, "sectors", dirty)) and kind == "node":
                        begun_again(tried, words, image, (kind, "end at", at, "fill", which))
                    if not dirty:
                        break


def begun_again(tried, words, image, note):
    model, refused = found_in(image)
    expect_node(tried, words, image, model, refused, 0, note)


def try_half_made(tried, folder, library):
    """The making of a node's file is ended at each write and sync: then it is no node's file."""
    path, noted = os.path.join(folder, "half"), os.path.join(folder, "noted")
    words, at, status = ["format", path, "4", "0", "3", "5"], 0, None
    while status != 0 and at < 1000:
        at += 1
        if os.path.exists(path):
            os.remove(path)
        status = tried.run(words, b"", shim.environment(library, noted, END_AT=at))[0]
        shim.read_noted(noted)
        if status == 0:
            tried.expect(["node", path, "0", "3"], b"recover\n", 0, b"group Normal 0 0:6 0\nkeeps 6 5 0\nok 1\n", "a whole file")
            continue
        data = read(path)
        got, out, trouble = tried.run(["node", path, "0", "3"], b"recover\n")
        tried.mark(trouble or ("" if (status, got, out) == (-9, 5, b"") and read(path) == data else f"status {got}, {out!r}"), ("half made", at))
        tried.mark("" if tried.run(words, b"")[0] == 1 and read(path) == data else "it is made over what is there", ("half made", at))


def try_files(tried):
    with tempfile.TemporaryDirectory() as folder:
        try_damage(tried, folder)
        try_lengths(tried, folder)
        try_nodes(tried, folder)
        library = shim.built(folder)
        if library is None:
            print("there is no C compiler cc, so no process was ended at a call")
        else:
            try_crashes(tried, folder, library)
            try_half_made(tried, folder, library)
