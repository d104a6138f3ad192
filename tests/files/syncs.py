#!/usr/bin/env python3
"""How many syncs the commands of a node cost, and its compactions.

    syncs.py PROGRAM

A command is two syncs. A compaction is one of the other area and three of the area cell, two where its spare slot is unsealed, whatever the slots and the
jobs. Counted by a library that is loaded before the C library; where there is no C compiler nothing is counted, and a line says so. The last line counts the
checks."""
import os, sys, tempfile

sys.path.append(os.path.join(os.path.dirname(os.path.abspath(__file__)), ".."))
from common import program
from common.tally import Tally

# Of a node that raises its counter when it recovers: the sync of the mounting, three of the raise, and a compaction's.
RAISE, MOUNT = 3, 1


class Node:
    """A node alone in its cluster, over a file of so many slots."""

    def __init__(self, invite, library, room, slots):
        self.program, self.library = invite, library
        self.file, self.counted = os.path.join(room, f"node{slots}"), os.path.join(room, "syncs")
        program.made(invite, self.file, slots, 0, 1)

    def syncs(self, lines):
        """How many syncs a process makes that is asked these lines, all of which are done."""
        environment = {**os.environ, "LD_PRELOAD": self.library, "SYNCS": self.counted}
        ran = program.run(self.program, ["node", self.file, "0", "1"], lines, env=environment)
        ran.check_returncode()
        closing = [line for line in ran.stdout.splitlines() if line.split()[0] in ("ok", "refused", "fault", "bad")]
        assert len(closing) == len(lines) and all(line.startswith("ok ") for line in closing), closing[-1]
        made = os.path.getsize(self.counted)
        os.remove(self.counted)
        return made


def turns(first, count):
    """So many jobs that are submitted and finished by turns, the first of this id: two commands each."""
    return [line for at in range(count) for line in ("submit 0 61", "dispatch", f"finish 0 {first + at}")]


def main():
    invite, tally = program.named(), Tally()
    program.compiler("no sync was counted")
    with tempfile.TemporaryDirectory() as room:
        library = program.library("count_syncs", room)
        for slots, pending, most in ((128, 0, 2.1), (128, 62, 2.1), (128, 96, 2.2), (64, 48, 2.4)):
            node = Node(invite, library, room, slots)
            first = node.syncs(["recover"] + ["submit 0 61"] * pending)
            tally.check(first <= MOUNT + RAISE + 4 + 2 * pending, f"{slots} slots, {pending} jobs: {first} syncs to begin")
            rest = node.syncs(["recover"])
            tally.check(rest == MOUNT + RAISE + 4, f"{slots} slots, {pending} jobs: a recovery is {rest} syncs")
            commands = 2 * 150
            made = node.syncs(["recover"] + turns(pending, commands // 2)) - rest
            tally.check(made <= most * commands, f"{slots} slots, {pending} jobs: {made / commands:.2f} syncs a command, of at most {most}")
            os.remove(node.file)
        node = Node(invite, library, room, 4096)
        node.syncs(["recover"] + ["submit 0 61"] * 2048)
        for lines, wanted in ((["recover"], MOUNT + RAISE + 4), (["recover", "compact"], MOUNT + RAISE + 4 + 4)):
            made = node.syncs(lines)
            tally.check(made == wanted, f"4,096 slots, 2,048 jobs: {' and '.join(lines)} are {made} syncs, not {wanted}")
    return tally.close()


if __name__ == "__main__":
    sys.exit(main())
