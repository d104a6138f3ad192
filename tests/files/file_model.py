"""What the bytes of a file stand for, what they show of rot, and which jobs can be salvaged of them: a model of docs/FORMATS.md for the scripts that
damage files. Jobs are kept by their ids, each as its queue, payload and priority."""
import collections

SECTOR, BLOCK = 512, 4096
# How many bytes a label has, and one of version 1.
LABEL, OLDER_LABEL = 32, 16
SEALED = b"\xa5"

State = collections.namedtuple("State", "count next jobs")


class Refused(Exception):
    """A mounting is refused so."""


def number(piece):
    return int.from_bytes(piece, "big")


def job_in(body, priority, at):
    """A job whose length stands there, and how many bytes its record has; None where it is none."""
    length = number(body[at:at + 2])
    if body[9] > 15 or length > 400:
        return None
    return number(body[1:9]), (body[9], body[at + 2:at + 2 + length], priority), at + 2 + length


def record_in(body, spoiled=0):
    """A record as its kind and what it says; so many bytes behind it may be other than zero."""
    kind, said, ends = body[0], None, 9
    if kind in (2, 3):
        said = number(body[1:9])
    elif kind in (1, 4, 5, 6):
        job = job_in(body, 0, 10) if kind in (1, 4) else job_in(body, body[10], 11)
        if job is None:
            return None
        said, ends = job[:2], job[2]
    if said is None or SECTOR - ends - body[ends:].count(0) > spoiled:
        return None
    return {1: "put", 4: "keep", 5: "put", 6: "keep", 2: "done", 3: "base"}[kind], said


class File:
    def __init__(self, data):
        behind = len(data) % SECTOR
        self.data, self.label = data, data[-behind:].ljust(LABEL, b"\0") if behind in (LABEL, OLDER_LABEL) else b""
        spaced = len(data) % BLOCK < SECTOR and self.label[:8] == b"dumgerok" and self.label[11] == 1
        self.stride = BLOCK if spaced else SECTOR
        self.sectors = len(data) // self.stride
        self.slots = min(4096, (self.sectors - 8) // 4)

    def at(self, sector):
        return self.data[sector * self.stride:sector * self.stride + SECTOR]

    def sealed(self, body):
        return self.at(body + 1)[:1] == SEALED

    def numbers(self, first, spoiled=0):
        """Of each slot of a cell: None where it is unsealed, "damaged", or its number."""
        for body in (first, first + 2):
            blank = SECTOR - 8 - self.at(body)[8:].count(0) <= spoiled
            yield None if not self.sealed(body) else number(self.at(body)[:8]) if blank else "damaged"

    def cell(self, first):
        numbers = list(self.numbers(first))
        if "damaged" in numbers:
            raise Refused("Damaged", first + 2 * numbers.index("damaged"))
        return max((value for value in numbers if value is not None), default=None)

    def areas(self):
        """Where the present area begins, and the other one."""
        value = self.cell(4)
        if not value:
            raise Refused("Damaged", 5)
        areas = [8, 8 + 2 * self.slots]
        return areas if value % 2 else areas[::-1]

    def used(self, first):
        return next((slot for slot in range(self.slots) if not self.sealed(first + 2 * slot)), self.slots)

    def journal(self, first):
        """The next id and the jobs of an area."""
        following, jobs, kept = 0, {}, None
        for body in range(first, first + 2 * self.used(first), 2):
            kind, said = record_in(self.at(body)) or ("none", None)
            if kind == "put" and said[0] == following != 2**64 - 1:
                jobs[following] = said[1]
                following, kept = following + 1, None
            elif kind == "done" and said in jobs:
                del jobs[said]
                kept = None
            elif kind == "base" and body == first:
                following, kept = said, -1
            elif kind == "keep" and kept is not None and kept < said[0] < following:
                kept = said[0]
                jobs[kept] = said[1]
            else:
                raise Refused("Damaged", body)
            if len(jobs) + 2 > self.slots:
                raise Refused("Damaged", body)
        return following, jobs

    def mounted(self):
        if self.sectors < 24:
            raise Refused("TooSmall")
        count = self.cell(0)
        if count is None:
            raise Refused("NotFormatted")
        return State(count, *self.journal(self.areas()[0]))

    # ---- what the bytes show of rot

    def unraised(self, first):
        a, b = self.numbers(first)
        return [] if None in (a, b) or "damaged" in (a, b) or abs(a - b) == 1 else [(a, b)]

    def unsealed(self):
        """The number that comes next, where it stands in the counter's slot that isn't sealed."""
        try:
            count = self.cell(0)
        except Refused:
            return []
        spare = [self.at(body) for body in (0, 2) if count is not None and not self.sealed(body)]
        return [count + 1 for body in spare if number(body[:8]) == count + 1 and not any(body[8:])]

    def findings(self):
        """The lines that `inspect --verify` prints behind those of `inspect`."""
        lines = [f"broken counter_slots {a} {b}" for a, b in self.unraised(0)] + [f"broken area_slots {a} {b}" for a, b in self.unraised(4)]
        lines += [f"hint counter_unsealed {number}" for number in self.unsealed()]
        try:
            here, there = self.areas()
        except Refused:
            return lines
        behind = (first for first in range(here + 2 * self.used(here), here + 2 * self.slots, 2) if self.sealed(first))
        lines += [f"broken sealed_behind {first}" for first in list(behind)[:1]]
        try:
            (following, jobs), (others_following, others) = self.journal(here), self.journal(there)
        except Refused:
            return lines
        if following < others_following:
            lines.append(f"hint other_area_next_id {others_following} {following}")
        return lines + [f"hint job_differs {job}" for job in sorted(jobs) if others.get(job, jobs[job]) != jobs[job]]

    # ---- salvage

    def surely(self):
        """The areas that are read: the present one where there is no doubt of it."""
        numbers = list(self.numbers(4, 1))
        values = [value for value in numbers if value is not None]
        both = [8, 8 + 2 * self.slots]
        if "damaged" in values or not any(values) or (len(values) == 2 and abs(values[0] - values[1]) != 1):
            return both
        return both[:1] if max(values) % 2 else both[1:]

    def salvaged(self):
        """The jobs, and what is said on standard error."""
        said, jobs, done = [], {}, set()
        try:
            self.journal(self.areas()[0])
        except Refused as why:
            said.append(f"damaged_journal {why.args[1]}")
        areas = self.surely()
        if len(areas) == 2:
            said.append("the present area isn't known, so both are read")
        for first in areas:
            last = max((slot for slot in range(self.slots) if self.sealed(first + 2 * slot)), default=-1)
            for body in range(first, first + 2 * last + 1, 2):
                kind, what = record_in(self.at(body), 1) or ("none", None)
                if kind in ("put", "keep"):
                    jobs[what[0]] = what[1]
                elif kind == "done":
                    done.add(what)
                if not self.sealed(body) or record_in(self.at(body)) is None:
                    said.append(f"sector {body} " + ("can't be read" if kind == "none" else "is damaged, and taken for what it says"))
        return {job: work for job, work in jobs.items() if job not in done}, said


def job_lines(jobs):
    """Jobs as `export` prints them."""
    return "".join(f"job {job} {queue} {payload.hex() or '-'}{f' {priority}' if priority else ''}\n" for job, (queue, payload, priority) in sorted(jobs.items()))


# ---- files in use

def session(chance, slots, longest):
    """Requests of a node that is alone, which keep its journal full and empty by turns and end behind a job that it keeps."""
    lines, pending, following = ["recover"], [], 0
    for step in range(chance.randrange(2 * slots, 6 * slots)):
        what = chance.choice(["recover", "compact", "put", "done"] if step % 9 == 0 else ["put", "done"])
        if what == "put" and len(pending) + 3 > slots or what == "done" and not pending:
            what = "done" if pending else "put"
        if what == "put":
            lines.append(put(chance, longest))
            pending.append(following)
            following += 1
        elif what == "done":
            lines += ["dispatch", f"finish 0 {pending.pop(chance.randrange(len(pending)))}"]
        else:
            lines.append(what)
    return lines + (["recover", put(chance, longest)] if len(pending) + 3 <= slots else [])


def put(chance, longest):
    return f"submit {chance.randrange(16)} {chance.randbytes(chance.randrange(longest)).hex() or '-'}" + chance.choice(["", " 7"])


def flipped(data, at, bit):
    image = bytearray(data)
    image[at] ^= 1 << bit
    return bytes(image)
