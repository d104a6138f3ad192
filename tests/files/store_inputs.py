#!/usr/bin/env python3
"""Random inputs of `store` over files that are there, missing, folders, unreadable, sockets, pipes, full or another's: each line is answered as a small
model here says, and of each line for which the file can't be had it is said why.

    store_inputs.py PROGRAM [INPUTS [SEED]]

As root it takes a file system of 16 KiB for some of them, and another user for what may not be read; where it can't have these it says so. The last
line counts the inputs."""
import errno, fcntl, os, random, re, resource, shutil, signal, socket, subprocess, sys, tempfile

sys.path.append(os.path.join(os.path.dirname(os.path.abspath(__file__)), ".."))
from common import program
from common.tally import Tally

SECTOR, PAGE, ROOM = 512, 4096, 4 * 4096
OTHERS = 65534
SEAL = b"\xa5"
LABELS = [b"dumgerok" + bytes([1, 0, 3]) + bytes(5), b"dumgerok" + bytes([2, 0, 3]) + bytes(21)]

# The words of standard error, by what a line is refused for.
SAYS = {
    "NotFound": ("there is no such file or folder", errno.ENOENT),
    "Folder": ("it is a folder", errno.EISDIR),
    "NotAFile": ("it is no regular file", None),
    "below": ("it can't be opened", errno.ENOTDIR),
    "loop": ("it can't be opened", errno.ELOOP),
    "long": ("it can't be opened", errno.ENAMETOOLONG),
    "Denied": ("it may not be read and written", errno.EACCES),
    "full": ("there is no room for it", errno.ENOSPC),
    "limited": ("there is no room for it", errno.EFBIG),
    "socket": ("the device failed", errno.ENXIO),
}
KINDS = {"below": "Unusable", "loop": "Unusable", "long": "Unusable", "full": "NoRoom", "limited": "NoRoom", "socket": "Device"}


def reason(line, why):
    said, error = SAYS[why]
    return f"invite: line {line}: {KINDS.get(why, why)}: {said}" + (f": {os.strerror(error)} (os error {error})" if error else "") + "\n"


class Store:
    """What a store keeps."""

    def __init__(self, slots, counter=0, jobs=()):
        self.slots, self.counter, self.next = slots, counter, len(jobs)
        self.jobs = dict(enumerate(jobs))

    def bytes(self):
        data = bytearray(SECTOR * (8 + 4 * self.slots))
        bodies = [(0, self.counter.to_bytes(8, "big")), (4, (1).to_bytes(8, "big"))]
        for place, (id, (queue, payload, priority)) in enumerate(self.jobs.items()):
            bodies.append((8 + 2 * place, bytes([5]) + id.to_bytes(8, "big") + bytes([queue, priority]) + len(payload).to_bytes(2, "big") + payload))
        for at, body in bodies:
            data[at * SECTOR:at * SECTOR + len(body)] = body
            data[(at + 1) * SECTOR:(at + 1) * SECTOR + 1] = SEAL
        return bytes(data)

    def answer(self, verb, words):
        if verb == "raise":
            self.counter += 1
            return f"ok {self.counter}\n"
        if verb == "put":
            if len(self.jobs) + 3 > self.slots:
                return "refused Full\n"
            payload = b"" if words[1] == "-" else bytes.fromhex(words[1])
            self.jobs[self.next] = (int(words[0]), payload, int(words[2]) if words[2:] else 0)
            self.next += 1
            return f"ok {self.next - 1}\n"
        if verb == "done":
            return "refused NoSuchJob\n" if self.jobs.pop(int(words[0]), None) is None else "ok\n"
        if verb == "compact":
            return "ok\n"
        lines = [f"job {id} {queue} {payload.hex() or '-'}" + (f" {priority}" if priority else "") for id, (queue, payload, priority) in self.jobs.items()]
        return "".join(line + "\n" for line in [f"count {self.counter} next {self.next}", *lines])


class Place:
    """Where a path leads to. `store` is what stands there; of anything else `bar` is what opening it is refused for, and `word` what is answered. A
    `limit` is how many bytes a new file may have at most, and why no more."""

    def __init__(self, path, store=None, bar=None, word="Device", limit=None, **run):
        self.path, self.store, self.bar, self.word, self.limit, self.run = path, store, bar, word, limit, run
        self.mounted, self.failed = None, False

    def format(self, line, slots):
        self.mounted = None
        if self.bar and self.bar != "NotFound" and self.word != "TooSmall" and self.word != "NotFormatted":
            return self.refused(line)
        if self.word == "nowhere":
            return self.refused(line)
        if self.limit:
            most, why = self.limit
            length = SECTOR * (8 + 4 * slots)
            free = most - (self.pages() if why == "full" else 0)
            if (length + PAGE - 1) // PAGE * PAGE > free if why == "full" else length > free:
                return "refused Device\n", reason(line, why)
        self.store, self.bar, self.failed = Store(slots), None, False
        return "ok\n", ""

    def pages(self):
        """The room that the file has."""
        return (len(self.store.bytes()) + PAGE - 1) // PAGE * PAGE if self.store else 0

    def mount(self, line):
        self.mounted = None
        if self.failed:
            return "refused Device\n", ""
        if self.bar:
            return self.refused(line)
        self.mounted = self.store
        return "ok\n", ""

    def refused(self, line):
        """What is answered for the file, and what is said of it."""
        if self.word not in ("Device", "nowhere"):
            return f"refused {self.word}\n", ""
        self.failed = self.failed or KINDS.get(self.bar) == "Device"
        return "refused Device\n", reason(line, self.bar)


def answers(place, lines):
    """The text of the answers, and that of standard error."""
    text = said = ""
    for number, line in enumerate(lines, 1):
        if not line:
            continue
        verb, *words = line.split(" ")
        more = ""
        if verb == "format":
            answer, more = place.format(number, int(words[0]))
        elif verb == "mount":
            answer, more = place.mount(number)
        else:
            answer = place.mounted.answer(verb, words) if place.mounted else "refused Broken\n"
        text, said = text + answer, said + more
    return text, said


class Places:
    """Makes a place of each kind, in a folder that is empty before."""

    def __init__(self, chance, room, invite):
        self.chance, self.room, self.open, self.notes = chance, room, [], []
        self.small = os.path.join(room, "small")
        os.mkdir(self.small)
        self.has_small = os.geteuid() == 0 and shutil.which("mount") is not None and subprocess.run(
            ["mount", "-t", "tmpfs", "-o", f"size={ROOM}", "none", self.small], capture_output=True).returncode == 0
        if not self.has_small:
            self.notes.append("there is no file system of 16 KiB, so none was full but by a limit of the process")
        self.is_root = os.geteuid() == 0
        self.mine = os.path.join(room, "program")
        shutil.copy(invite, self.mine)
        os.chmod(self.mine, 0o755)
        self.can_deny = not self.is_root or self.runs_as_another()
        if not self.can_deny:
            self.notes.append("the program can't be run as another user, so nothing was denied")

    def runs_as_another(self):
        try:
            return program.run(self.mine, ["show"], preexec_fn=as_another).returncode == 0
        except (OSError, subprocess.SubprocessError):
            return False

    def close(self):
        for it in self.open:
            it.close()
        self.open = []

    def end(self):
        if self.has_small:
            subprocess.run(["umount", self.small], check=True)

    def anew(self):
        """An empty folder."""
        self.close()
        folder = os.path.join(self.room, "at")
        if os.path.isdir(folder):
            os.chmod(folder, 0o755)
            shutil.rmtree(folder)
        os.mkdir(folder)
        for name in os.listdir(self.small) if self.has_small else []:
            os.remove(os.path.join(self.small, name))
        return folder

    def a_store(self):
        slots = self.chance.choice((4, 4, 5, 6, 9, 20))
        jobs = [(self.chance.randrange(16), bytes(self.chance.randrange(256) for _ in range(self.chance.choice((0, 1, 2, 40)))), self.chance.choice((0, 0, 7, 255)))
                for _ in range(self.chance.randrange(min(slots - 1, 5)))]
        return Store(slots, self.chance.choice((0, 0, 1, 9, 1 << 40)), jobs)

    def write(self, path, data, mode=0o600):
        with open(path, "wb") as file:
            file.write(data)
        os.chmod(path, mode)
        if self.is_root:
            os.chown(path, OTHERS if mode != 0o600 else 0, -1)

    def one(self):
        folder = self.anew()
        path, chance = os.path.join(folder, "f"), self.chance
        kind = chance.choice(("store", "store", "store", "missing", "missing", "nowhere", "folder", "denied", "closed", "socket", "pipe", "device", "to_nothing", "to_store",
                              "loop", "long", "below", "short", "blank", "node", "locked", "limited", "limited_missing", "full", "full_missing"))
        who = {"preexec_fn": as_another} if self.is_root else {}
        if kind in ("denied", "closed") and not self.can_deny or kind in ("full", "full_missing") and not self.has_small:
            kind = "missing"
        store = self.a_store()
        if kind in ("store", "to_store", "locked", "limited"):
            self.write(path, store.bytes() + bytes(chance.choice((0, 0, 1, 511))))
        if kind == "store":
            return Place(path, store)
        if kind == "missing":
            return Place(path, bar="NotFound")
        if kind == "nowhere":
            return Place(os.path.join(folder, "none", "f"), bar="NotFound", word="nowhere")
        if kind == "folder":
            os.mkdir(path)
            return Place(path, bar="Folder")
        if kind == "denied":
            self.write(path, store.bytes(), chance.choice((0o000, 0o444, 0o222)))
            os.chmod(folder, 0o777)
            return Place(path, bar="Denied", **who)
        if kind == "closed":
            os.chmod(folder, 0o555)
            return Place(path, bar="NotFound", limit=(-1, "Denied"), **who)
        if kind == "socket":
            it = socket.socket(socket.AF_UNIX)
            it.bind(path)
            self.open.append(it)
            return Place(path, bar="socket")
        if kind == "pipe":
            os.mkfifo(path)
            return Place(path, bar="NotAFile")
        if kind == "device":
            return Place(chance.choice(("/dev/null", "/dev/zero", "/dev/full")), bar="NotAFile")
        if kind == "to_nothing":
            os.symlink("other", path)
            return Place(path, bar="NotFound")
        if kind == "to_store":
            os.symlink(path, path + "-link")
            return Place(path + "-link", store)
        if kind == "loop":
            os.symlink("f", path)
            return Place(path, bar="loop")
        if kind == "long":
            return Place(os.path.join(folder, "x" * 300), bar="long")
        if kind == "below":
            self.write(path, b"")
            return Place(os.path.join(path, "f"), bar="below")
        if kind == "short":
            self.write(path, bytes(chance.choice((0, 1, 511, 12_287))))
            return Place(path, bar="short", word="TooSmall")
        if kind == "blank":
            self.write(path, bytes(chance.choice((12_288, 20_000))))
            return Place(path, bar="blank", word="NotFormatted")
        if kind == "node":
            self.write(path, store.bytes() + chance.choice(LABELS))
            return Place(path, bar="node", word="Foreign")
        if kind == "locked":
            it = open(path, "rb")
            fcntl.flock(it, chance.choice((fcntl.LOCK_SH, fcntl.LOCK_EX)) | fcntl.LOCK_NB)
            self.open.append(it)
            return Place(path, bar="locked", word="Locked")
        if kind in ("limited", "limited_missing"):
            most = len(store.bytes()) + chance.choice((0, 0, 2048))
            place = Place(path, store if kind == "limited" else None, bar=None if kind == "limited" else "NotFound", limit=(most, "limited"), preexec_fn=limited(most))
            return place
        path = os.path.join(self.small, "f")
        store = Store(chance.choice((4, 5, 6)))
        if kind == "full":
            self.write(path, store.bytes())
        return Place(path, store if kind == "full" else None, bar=None if kind == "full" else "NotFound", limit=(ROOM, "full"))


def as_another():
    """In a process that is begun with this: it is no longer root's."""
    os.setgroups([])
    os.setgid(OTHERS)
    os.setuid(OTHERS)


def limited(most):
    """No file may be longer than that, in a process that is begun with this."""
    def limit():
        resource.setrlimit(resource.RLIMIT_FSIZE, (most, most))
        signal.signal(signal.SIGXFSZ, signal.SIG_IGN)
    return limit


def a_line(chance):
    verb = chance.choice(("mount", "mount", "mount", "format", "raise", "put", "put", "done", "compact", "list", "list", ""))
    if verb == "format":
        return f"format {chance.choice((4, 4, 5, 6, 7, 12, 40))}"
    if verb == "put":
        payload = bytes(chance.randrange(256) for _ in range(chance.choice((0, 1, 2, 400)))).hex() or "-"
        return f"put {chance.randrange(16)} {payload}" + chance.choice(("", "", " 9", " 255"))
    return f"done {chance.randrange(6)}" if verb == "done" else verb


BAD = ["mout", "format 3", "format 4097", "put 16 61", "put 1 6", "done", "mount 1", " list", "list\r"]


def main():
    invite, tally, many = program.named(), Tally(), int(sys.argv[2]) if sys.argv[2:] else 1000
    chance = random.Random(int(sys.argv[3]) if sys.argv[3:] else 12)
    with tempfile.TemporaryDirectory(prefix="si-") as room:
        os.chmod(room, 0o755)
        places = Places(chance, room, invite)
        try:
            for at in range(many):
                place = places.one()
                lines = [a_line(chance) for _ in range(chance.randrange(1, 14))]
                bad = chance.random() < 0.05 and chance.randrange(len(lines))
                if bad is not False:
                    lines[bad] = chance.choice(BAD)
                    wanted = 1, f"bad line {bad + 1}\n", None
                else:
                    wanted = 0, *answers(place, lines)
                ended = program.run(places.mine, ["store", place.path], "\n".join(lines), **place.run)
                said = ended.stderr
                found = ended.returncode, ended.stdout, None if wanted[2] is None and re.fullmatch(f"invite: line {wanted[1].split()[2]}: [ -~]+\n", said) else said
                trouble = "" if found == wanted else f"{found!r:.600} in place of {wanted!r:.600}"
                if not trouble and place.store is not None and not place.bar:
                    # what stands there then, as another process finds it
                    again = program.run(places.mine, ["store", place.path], "mount\nlist\n").stdout
                    trouble = "" if again == "ok\n" + place.store.answer("list", []) else f"then there is {again!r:.300}"
                tally.mark(trouble, f"input {at}, {place.bar or 'a store'}, {lines!r:.400}")
            places.close()
        finally:
            places.end()
        for note in places.notes:
            print("store_inputs.py:", note)
    return tally.close()


if __name__ == "__main__":
    sys.exit(main())
