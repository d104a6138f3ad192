#!/usr/bin/env python3
"""A node whose device failed once, and that is started again while the machine runs on: what a loss of power then leaves of its file.

    failed_device.py PROGRAM

The file lies on a file system over /dev/fuse whose device fails one write. The kernel holds that page to be clean, so who opens the file again at once goes
on over what the device never had, and no sync puts that right. A node's first recovery writes anew all that it keeps; a store's mounting doesn't, and shows
what is lost then. The last line counts the checks. Where there is no /dev/fuse nothing is tried, and a line says so."""
import os, shutil, subprocess, sys, tempfile

HERE = os.path.dirname(os.path.abspath(__file__))
sys.path += [os.path.join(HERE, ".."), os.path.join(HERE, "../shim")]
from common import program
from common.tally import Tally, left_out
from device import Device

SLOTS = 16
# A page of 4,096 bytes has the slots 0 to 3 of the journal: so many records leave the last of them, whose page fails, and what comes then touches another
# page. A node's journal begins with a Base.
RECORDS, AFTER = 3, 2
# An append has two syncs, and each writes one page: the second is that of the gate.
WRITE_OF_THE_GATE = 2


class Node:
    """A node alone in its cluster."""

    begin, before, failing, more, listing = ["recover"], RECORDS - 1, "submit 0 63", "submit 0 62", ["recover", "jobs"]
    failed = (["fault 2 Device"], 3)

    def __init__(self, invite):
        self.program = invite

    def session(self, file, lines):
        """What is answered to these lines, and the status."""
        ran = program.run(self.program, self.words(file), lines)
        return ran.stdout.splitlines(), ran.returncode

    def fail_once(self, file, device):
        """The answers to one more job, at whose gate the device fails, and the status."""
        node = subprocess.Popen([self.program, *self.words(file)], stdin=subprocess.PIPE, stdout=subprocess.PIPE, stderr=subprocess.DEVNULL, text=True, bufsize=1)
        node.stdin.write("recover\n")
        while not node.stdout.readline().startswith("ok "):
            pass
        device.fail_write(WRITE_OF_THE_GATE)
        node.stdin.write(f"{self.failing}\n")
        node.stdin.close()
        answers = node.stdout.read().splitlines()
        return answers[-1:], node.wait(600)

    def make(self, file):
        program.made(self.program, file, SLOTS, 0, 1)

    def words(self, file):
        return ["node", file, "0", "1"]

    def ids(self, answers):
        """The ids of the jobs that were acknowledged."""
        return [int(answer.split()[3]) for answer in answers if answer.startswith("ok ") and " id " in answer]

    def kept(self, answers):
        return [int(answer.split()[1]) for answer in answers if answer.startswith("pending ")]


class Store(Node):
    """A store, whose lines are answered once all are read."""

    begin, before, failing, more, listing = ["mount"], RECORDS, "put 0 63", "put 0 62", ["mount", "list"]
    failed = (["refused Device"], 0)

    def fail_once(self, file, device):
        device.fail_write(WRITE_OF_THE_GATE)
        answers, status = self.session(file, self.begin + [self.failing])
        return answers[-1:], status

    def make(self, file):
        self.session(file, [f"format {SLOTS}"])

    def words(self, file):
        return ["store", file]

    def ids(self, answers):
        return [int(answer.split()[1]) for answer in answers if answer.startswith("ok ")]

    def kept(self, answers):
        return [int(answer.split()[1]) for answer in answers if answer.startswith("job ")]


def drop_cache(file):
    """The command of docs/OPERATING.md."""
    subprocess.run(["dd", f"if={file}", "iflag=nocache", "count=0", "status=none"], check=True)


class Tried:
    """Jobs are acknowledged, the device fails at the gate of one more, and the file is opened again; then the power is lost."""

    def __init__(self, kind, room, has_dropped_cache):
        folder = os.path.join(room, "disk")
        os.mkdir(folder)
        with Device(folder) as device:
            file = os.path.join(folder, "node")
            kind.make(file)
            first, _ = kind.session(file, kind.begin + [kind.more] * kind.before)
            self.answered = kind.fail_once(file, device)
            if has_dropped_cache:
                drop_cache(file)
            again, _ = kind.session(file, kind.begin + [kind.more] * AFTER)
            self.failed = device.failed
            self.acknowledged = kind.ids(first) + kind.ids(again)
            left = os.path.join(room, "left")
            with open(left, "wb") as out:
                out.write(device.held("node"))
        self.left = kind.kept(kind.session(left, kind.listing)[0])
        os.rmdir(folder)

    def is_kept(self):
        return set(self.acknowledged) <= set(self.left) and len(set(self.acknowledged)) == len(self.acknowledged)


def main():
    invite, tally, room = program.named(), Tally(), tempfile.mkdtemp()
    node, store = Node(invite), Store(invite)
    try:
        tries = [
            ("a node at once", node, Tried(node, tempfile.mkdtemp(dir=room), False)),
            ("a node, cache dropped", node, Tried(node, tempfile.mkdtemp(dir=room), True)),
            ("a store at once", store, Tried(store, tempfile.mkdtemp(dir=room), False)),
            ("a store, cache dropped", store, Tried(store, tempfile.mkdtemp(dir=room), True)),
        ]
    except OSError as error:
        left_out(f"no file system over /dev/fuse ({error}), so no device was failed")
    finally:
        shutil.rmtree(room, ignore_errors=True)
    for name, kind, tried in tries:
        tally.check(tried.failed == 1, f"{name}: the device failed once: {tried.failed}")
        tally.check(tried.answered == kind.failed, f"{name}: that was said: {tried.answered}")
        tally.check(len(tried.acknowledged) == kind.before + AFTER, f"{name}: so many jobs were acknowledged: {tried.acknowledged}")
        # a store that is opened at once shows that the file system loses them
        tally.check(tried.is_kept() == (name != "a store at once"), f"{name}: acknowledged {tried.acknowledged}, left {tried.left}")
    return tally.close()


if __name__ == "__main__":
    sys.exit(main())
