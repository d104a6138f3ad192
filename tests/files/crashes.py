#!/usr/bin/env python3
"""What a crash leaves of a node's file: in each of its images stands what was acknowledged, with the whole of the request in doubt or with nothing of it.

    crashes.py PROGRAM [--long]

The calls of sessions on their files are recorded by strace: writes, syncs and answers, compactions at large among them. After each write files are made of what a
crash may leave then: each sector that wasn't synced has the old bytes, the new ones, a part of them or any others. A model of docs/FORMATS.md says what such a file
stands for. With the last sync of each compaction before its area cell left out it has to find files that stand for something else. Where there is no strace
nothing is tried, and a line says so. With --long there are 120,000 files. The last line counts the checks."""
import os, random, re, shutil, subprocess, sys, tempfile

sys.path.append(os.path.join(os.path.dirname(os.path.abspath(__file__)), ".."))
from common import program
from common.tally import Tally, left_out
from file_model import SECTOR, File, Refused, State, session
from verify import any_bytes

CALL = re.compile(r'(pwrite64|fdatasync|write)\((\d+)(?:, "((?:\\x[0-9a-f]{2})*)"(?:\.\.\.)?, \d+(?:, (\d+))?)?\) += (-?\d+)')
FILES = [(4, 60), (5, 300), (6, 60), (8, 100), (16, 40)]
# The area cell is sectors 4 to 7; the journal begins behind it.
AREA_CELL, JOURNAL = 4, 8


def expected(first, lines):
    """What the file stands for in front of these requests, and behind each: by what they ask for alone."""
    states = [first]
    for line in lines:
        count, following, jobs = states[-1]
        words = line.split()
        if words[0] == "recover":
            count += 1
        elif words[0] == "submit":
            payload = b"" if words[2] == "-" else bytes.fromhex(words[2])
            jobs, following = {**jobs, following: (int(words[1]), payload, int(words[3]) if len(words) > 3 else 0)}, following + 1
        elif words[0] == "finish":
            jobs = {job: work for job, work in jobs.items() if job != int(words[2])}
        states.append(State(count, following, jobs))
    return states


def recorded(invite, room, slots, lines):
    """The bytes of a node's file, and the calls of a session: ("write", place, bytes), ("sync",) or ("answered", how many requests)."""
    path, log = os.path.join(room, "node"), os.path.join(room, "log")
    program.made(invite, path, slots, 0, 1)
    with open(path, "rb") as file:
        data = file.read()
    text = "".join(f"{line}\n" for line in lines).encode()
    subprocess.run(["strace", "-xx", "-s", "70000", "-e", "trace=pwrite64,fdatasync,write", "-o", log, invite, "node", path, "0", "1"], input=text, capture_output=True, timeout=600, check=True)
    os.unlink(path)
    calls, said = [], b""
    with open(log) as file:
        for name, number, piece, place, result in (CALL.match(line).groups() for line in file if CALL.match(line)):
            assert int(result) >= 0, log
            held = bytes.fromhex((piece or "").replace("\\x", ""))
            if name == "pwrite64":
                calls.append(("write", int(place), held))
            elif name == "fdatasync":
                calls.append(("sync",))
            elif number == "1":
                said += held
                calls.append(("answered", len(re.findall(rb"(?m)^ok \d+", said))))
    assert calls[-1] == ("answered", len(lines)), calls[-1]
    return data, calls


def spoiled(calls):
    """The calls without the last sync in front of each write of the area cell that comes behind one of the journal."""
    left = []
    for call in calls:
        if call[0] == "write" and AREA_CELL <= call[1] // SECTOR < JOURNAL:
            last = max((at for at, (name, *_) in enumerate(left) if name == "sync"), default=0)
            if any(name == "write" and rest[0] // SECTOR >= JOURNAL for name, *rest in left[:last][-2:]):
                del left[last]
        left.append(call)
    return left


def images(chance, data, calls):
    """What a crash may leave after each write, how many sectors weren't synced then, and how many requests were answered."""
    durable, unsynced, answered = bytearray(data), {}, 0
    for name, *rest in calls:
        if name == "sync":
            for at, new in unsynced.items():
                durable[at:at + SECTOR] = new
            unsynced = {}
        elif name == "answered":
            answered = rest[0]
        else:
            unsynced[rest[0]] = rest[1]
            for _ in range(3 if len(unsynced) < 3 else 6):
                image = bytearray(durable)
                for at, new in unsynced.items():
                    image[at:at + SECTOR] = any_bytes(chance, bytes(durable[at:at + SECTOR]), new)
                yield bytes(image), len(unsynced), answered


def stands_for(image):
    try:
        return File(image).mounted()
    except Refused as why:
        return why.args


def judged(chance, data, calls, states):
    """How many images stand for something else than what was acknowledged or that and the next change, of how many, and of how many with many sectors unsynced."""
    wrong = count = many = 0
    for image, unsynced, answered in images(chance, data, calls):
        following = next((state for state in states[answered:] if state != states[answered]), None)
        wrong += stands_for(image) not in (states[answered], following)
        count, many = count + 1, many + (unsynced > 2)
    return wrong, count, many


def main():
    invite, wanted = program.named(), 120_000 if sys.argv[2:] == ["--long"] else 6_000
    if not shutil.which("strace"):
        left_out("there is no strace, so no crash was tried")
    chance, tally = random.Random(23), Tally()
    sessions = compactions = count = many = found = 0
    with tempfile.TemporaryDirectory(dir=program.MEMORY) as room:
        while count < wanted:
            slots, longest = FILES[sessions % len(FILES)]
            lines = session(chance, slots, longest)
            data, calls = recorded(invite, room, slots, lines)
            states = expected(State(0, 0, {}), lines)
            wrong, more, unsynced = judged(chance, data, calls, states)
            sessions, count, many = sessions + 1, count + more, many + unsynced
            compactions += sum(1 for name, *rest in calls if name == "write" and rest[0] // SECTOR in (AREA_CELL + 1, AREA_CELL + 3) and rest[1][:1] == b"\xa5")
            found += judged(chance, data, spoiled(calls), states)[0]
            tally.check(not wrong, f"session {sessions}, {slots} slots: {wrong} of {more} files stand for something else")
    print(f"crashes.py: {sessions} sessions, {compactions} compactions, {count} files of which {many} had more than two sectors unsynced; {found} more stand for something else where a sync is left out")
    for name, holds in ((f"{found} files where a sync is left out stand for something else", found > 0), (f"{compactions} compactions", compactions > 5), (f"{many} files of many sectors", 10 * many > count)):
        tally.check(holds, name)
    return tally.close()


if __name__ == "__main__":
    sys.exit(main())
