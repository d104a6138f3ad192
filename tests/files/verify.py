#!/usr/bin/env python3
"""What `inspect --verify` tells of files in which a bit flipped, and that it tells nothing of what a crash leaves.

    verify.py PROGRAM [--long]

Files are those of nodes, with sectors packed and apart. Every bit of them is flipped by a model of docs/FORMATS.md: of those flips that change the count, the
next id or which jobs there are, and that no mounting refuses, at least nine in ten have to be told, and each as the model tells it; so do some of the others.
Then the calls of a node on its file are recorded by strace, and files made of what crashes between them may leave: any part of the sectors that weren't synced, with
the old bytes, the new or any. None of them is broken. Where there is no strace that is left out, and a line says so. With --long there are 300,000 of these
files. The last line counts the checks."""
import concurrent.futures, os, random, re, shutil, subprocess, sys, tempfile

sys.path.append(os.path.join(os.path.dirname(os.path.abspath(__file__)), ".."))
from common import program
from common.tally import Tally
from file_model import LABEL, SECTOR, File, Refused, flipped, number, session

# The slots of a file, its stride, and how long its payloads are.
FILES = [(16, 512, 60), (16, 4096, 60), (24, 512, 300), (32, 512, 40)]
CRASHED = [(4, 60), (5, 300), (8, 60)]
CALL = re.compile(r'(pwrite64|fdatasync)\((\d+)(?:, "((?:\\x[0-9a-f]{2})*)"(?:\.\.\.)?, \d+, (\d+))?\) += (-?\d+)')


class Tried(Tally):
    def __init__(self, invite, room):
        super().__init__()
        self.program, self.room = invite, room

    def verified(self, image, name):
        """The findings that are printed of a file, and its status."""
        path = os.path.join(self.room, name)
        with open(path, "wb") as file:
            file.write(image)
        ended = program.run(self.program, ["inspect", "--verify", path])
        os.unlink(path)
        lines = ended.stdout.splitlines()
        return [line for line in lines if line.startswith(("broken ", "hint "))], ended.returncode, [line for line in lines if line.startswith(("damaged", "count none", "too_small"))]

    def told(self, images):
        """Of how many of these the program tells something else than the model."""
        with concurrent.futures.ThreadPoolExecutor(os.cpu_count()) as several:
            found = several.map(lambda pair: self.verified(pair[1], f"image{pair[0]}"), enumerate(images))
        wrong = 0
        for image, (lines, status, damage) in zip(images, found):
            wanted = File(image).findings()
            wrong += lines != wanted or status != (1 if damage or any(line.startswith("broken") for line in wanted) else 0)
        return wrong


def node_file(tried, slots, stride, longest, chance):
    path = os.path.join(tried.room, "node")
    program.made(tried.program, path, slots, 0, 3, "--stride", stride)
    lines = session(chance, slots, longest)
    ended = program.run(tried.program, ["node", path, "0", "3"], lines)
    assert ended.returncode == 0 and "refused" not in ended.stdout, ended
    with open(path, "rb") as file:
        data = file.read()
    os.unlink(path)
    return data


def silent(data):
    """The flips of one bit that change the count, the next id or which jobs there are, and that are mounted. A record's payload, what stands behind it and
    the rest of a gate change none of that, so the first bytes of each sector are flipped alone."""
    before = File(data).mounted()
    stride = File(data).stride
    for at in (place for first in range(0, len(data) // stride * stride, stride) for place in range(first, first + 16)):
        for bit in range(8):
            image = flipped(data, at, bit)
            try:
                after = File(image).mounted()
            except Refused:
                continue
            if (after.count, after.next, set(after.jobs)) != (before.count, before.next, set(before.jobs)):
                yield image


def uncounted(data):
    """The flips of the gate's first byte by which the counter's present slot isn't sealed any more, and the number that was given there."""
    file = File(data)
    count, present = max((number(file.at(body)[:8]), body) for body in (0, 2) if file.sealed(body))
    return count, [flipped(data, (present + 1) * file.stride, bit) for bit in range(8)]


def flips(tried, chance):
    changed = named = 0
    for slots, stride, longest in FILES:
        name = f"{slots} slots, stride {stride}"
        data = node_file(tried, slots, stride, longest, chance)
        tried.check(File(data).findings() == [] and tried.verified(data, "whole") == ([], 0, []), f"{name}: something is told of a file that is whole")
        images = list(silent(data))
        changed, named = changed + len(images), named + sum(1 for image in images if File(image).findings())
        wrong = tried.told(images)
        tried.check(images and not wrong, f"{name}: {wrong} of {len(images)} flips that change what is kept are told otherwise")
        count, spoiled = uncounted(data)
        told = [tried.verified(image, "spoiled") for image in spoiled]
        tried.check(told == [([f"hint counter_unsealed {count}"], 0, [])] * 8, f"{name}: a number that was given isn't told: {told}")
        others = [flipped(data, chance.randrange(len(data) - LABEL), chance.randrange(8)) for _ in range(200)]
        wrong = tried.told(others)
        tried.check(not wrong, f"{name}: {wrong} of {len(others)} flips are told otherwise")
    print(f"verify.py: of {changed} flips that change what is kept {named} are told")
    tried.check(10 * named >= 9 * changed > 0, "fewer than nine in ten are told")


def recorded(tried, slots, longest, chance):
    """The bytes of a node's file, and the writes and syncs of a session: the place and the bytes of a write, none for a sync."""
    path, log = os.path.join(tried.room, "node"), os.path.join(tried.room, "log")
    program.made(tried.program, path, slots, 0, 1)
    with open(path, "rb") as file:
        data = file.read()
    lines = "".join(f"{line}\n" for line in session(chance, slots, longest))
    subprocess.run(["strace", "-xx", "-s", "600", "-e", "trace=pwrite64,fdatasync", "-o", log, tried.program, "node", path, "0", "1"], input=lines.encode(), capture_output=True, timeout=600, check=True)
    with open(log) as file:
        calls = [CALL.match(line) for line in file if line.startswith(("pwrite64", "fdatasync"))]
    os.unlink(path)
    assert all(call and int(call[5]) >= 0 for call in calls), log
    return data, [(int(call[4]), bytes.fromhex(call[3].replace("\\x", ""))) if call[1] == "pwrite64" else None for call in calls]


def any_bytes(chance, old, new):
    """What a sector may hold that wasn't synced."""
    cut = chance.randrange(SECTOR)
    return chance.choice([old, new, new[:cut] + old[cut:], bytes(SECTOR), b"\xff" * SECTOR, b"\xa5" + bytes(SECTOR - 1), chance.randbytes(SECTOR)])


def crashes(tried, chance, wanted):
    if not shutil.which("strace"):
        print("verify.py: there is no strace, so no crash was tried")
        return
    images, hints, broken = 0, 0, 0
    while images < wanted:
        slots, longest = chance.choice(CRASHED)
        data, calls = recorded(tried, slots, longest, chance)
        durable, unsynced, made = bytearray(data), {}, []
        for call in calls:
            if call is None:
                for at, new in unsynced.items():
                    durable[at:at + SECTOR] = new
                unsynced = {}
                continue
            unsynced[call[0]] = call[1]
            for _ in range(2 if len(unsynced) < 3 else 4):
                image = bytearray(durable)
                for at, new in unsynced.items():
                    image[at:at + SECTOR] = any_bytes(chance, bytes(durable[at:at + SECTOR]), new)
                made.append(bytes(image))
        chance.shuffle(made)
        made = made[:min(1000, wanted - images)]
        images += len(made)
        tried.check(not tried.told(made), f"images of {slots} slots are told otherwise")
        findings = [File(image).findings() for image in made]
        hints += sum(1 for lines in findings if lines)
        broken += sum(1 for lines in findings if any(line.startswith("broken") for line in lines))
    print(f"verify.py: of {images} files that a crash left {broken} are told as broken, and of {hints} there is a hint")
    tried.check(images == wanted and not broken, f"{broken} files that a crash left are told as broken")


def main():
    is_long = sys.argv[2:] == ["--long"]
    chance = random.Random(11)
    with tempfile.TemporaryDirectory(dir=program.MEMORY) as room:
        tried = Tried(program.named(), room)
        flips(tried, chance)
        crashes(tried, chance, 300_000 if is_long else 2_000)
    return tried.close()


if __name__ == "__main__":
    sys.exit(main())
