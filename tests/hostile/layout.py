"""What a file of sectors stands for, worked out from docs/FORMATS.md and not from the program: the counter, the next id and the pending jobs, or
how its mounting is refused."""
from spelling import HAS_PRIORITIES

SECTOR = 512


class Refused(Exception):
    def __init__(self, word):
        super().__init__(word)
        self.word = word


class File:
    def __init__(self, data):
        self.data = data
        self.sectors = len(data) // SECTOR
        self.slots = min(4096, (self.sectors - 8) // 4)

    def sector(self, at):
        return self.data[at * SECTOR:(at + 1) * SECTOR]

    def sealed(self, at):
        """The body of the slot at this sector, or None where it is unsealed."""
        return self.sector(at) if self.sector(at + 1)[0] == 0xA5 else None


def number(data):
    return int.from_bytes(data, "big")


def cell(file, at):
    """The value of a cell, or None where no slot is sealed."""
    values = []
    for slot in (at, at + 2):
        body = file.sealed(slot)
        if body is not None:
            if any(body[8:]):
                raise Refused(f"Damaged {slot}")
            values.append(number(body[:8]))
    return max(values, default=None)


def record(body):
    """The kind and fields of a record, or None where it is none."""
    kind, job = body[0], number(body[1:9])
    if kind in (2, 3):
        return None if any(body[9:]) else (kind, job)
    if kind not in ((1, 4, 5, 6) if HAS_PRIORITIES else (1, 4)):
        return None
    head = 11 if kind in (5, 6) else 10
    size = number(body[head:head + 2])
    payload = body[head + 2:head + 2 + size]
    if body[9] > 15 or size > 400 or any(body[head + 2 + size:]):
        return None
    return {5: 1, 6: 4}.get(kind, kind), job, body[9], payload, body[10] if head == 11 else 0


def journal(file):
    """The next id and the pending jobs, in order of id, as `list` prints them."""
    area = cell(file, 4)
    if not area:
        raise Refused("Damaged 5")
    begin = 8 + (0 if area % 2 else 2 * file.slots)
    next_id, pending, kept, may_keep = 0, {}, -1, False
    for k in range(file.slots):
        body = file.sealed(begin + 2 * k)
        if body is None:
            break
        said = record(body)
        if said is None:
            raise Refused(f"Damaged {begin + 2 * k}")
        kind, job = said[:2]
        allowed = {1: job == next_id and next_id < 2**64 - 1, 2: job in pending, 3: k == 0, 4: may_keep and kept < job < next_id}[kind]
        if not allowed:
            raise Refused(f"Damaged {begin + 2 * k}")
        if kind == 1:
            next_id += 1
        if kind in (1, 4):
            pending[job] = said[2:]
        if kind == 2:
            del pending[job]
        if kind == 3:
            next_id = job
        may_keep = kind in (3, 4)
        kept = job if kind == 4 else kept
        if len(pending) + 2 > file.slots:
            raise Refused(f"Damaged {begin + 2 * k}")
    return next_id, pending


def mounted(data):
    """The counter, the next id and the pending jobs that a mounting finds. The counter is looked at first."""
    file = File(data)
    if file.sectors < 24:
        raise Refused("TooSmall")
    count = cell(file, 0)
    if count is None:
        raise Refused("NotFormatted")
    return (count, *journal(file))


def listed(count, next_id, pending):
    """What `list` prints."""
    text = f"count {count} next {next_id}\n"
    for job, (queue, payload, priority) in sorted(pending.items()):
        text += f"job {job} {queue} {payload.hex() or '-'}" + (f" {priority}" if priority else "") + "\n"
    return text
