#!/usr/bin/env python3
"""File systems that are full under a node's file.

    full.py PROGRAM

The file is made on ext4, xfs or btrfs, then others take all the room, and the node goes on. Where a file is written in place it needs no room. Where it is copied
on a write (btrfs, a reflink, a snapshot, a quota) the node ends with status 8 and no other, and goes on once there is room. Each time all that was acknowledged
has to be there, and no id is given again, by a model of docs/FORMATS.md. Root is needed, with loop devices; what can't be tried is left out, and a line says so. The
last line counts the checks."""
import os, re, sys, tempfile

HERE = os.path.dirname(os.path.abspath(__file__))
sys.path += [os.path.join(HERE, ".."), os.path.join(HERE, "../files")]
from blocks import Missing, made, mounted, system
from common import program
from common.tally import Tally
from file_model import File, Refused

NO_ROOM = 8
ROUND = ["recover"] + ["submit 0 " + "ab" * 300, "dispatch"] * 50 + ["compact", "compact"]


def nothing(_folder):
    pass


def not_copied(folder):
    system("chattr", "+C", folder)


def reflinked(folder):
    system("cp", "--reflink=always", os.path.join(folder, "node"), os.path.join(folder, "copy"))


def snapshot(folder):
    system("btrfs", "subvolume", "snapshot", folder, os.path.join(folder, "snap"))


def limited(folder):
    system("btrfs", "quota", "enable", folder)
    system("btrfs", "qgroup", "limit", "8M", folder)


# The file system, options of its mount, the stride, what is done before the file is made and behind it, and whether a write takes room.
SCENES = [
    ("ext4", "", 512, nothing, nothing, False), ("ext4", "", 4096, nothing, nothing, False),
    ("xfs", "", 4096, nothing, nothing, False), ("xfs", "", 4096, nothing, reflinked, True),
    ("btrfs", "", 4096, nothing, nothing, True), ("btrfs", ",compress-force=zstd", 4096, nothing, nothing, True), ("btrfs", "", 4096, not_copied, nothing, False),
    ("btrfs", "", 4096, not_copied, snapshot, True), ("btrfs", "", 4096, nothing, limited, True),
]


def fill(folder):
    """Takes the room that is left, and what is given back when it is synced."""
    for turn in range(4):
        for size in (1 << 20, 1 << 12, 512):
            try:
                with open(os.path.join(folder, f"fill{turn}-{size}"), "wb", buffering=0) as file:
                    while file.write(b"\x5a" * size) == size:
                        pass
            except OSError:
                pass
        os.sync()


def empty(folder):
    for name in os.listdir(folder):
        if name.startswith("fill"):
            os.unlink(os.path.join(folder, name))
    os.sync()


class Node:
    def __init__(self, invite, file):
        self.program, self.file, self.acknowledged, self.last = invite, file, [], None

    def rounds(self, most):
        """So many processes, until one ends other than well: its status and what it says."""
        for _ in range(most):
            ran = program.run(self.program, ["node", self.file, "0", "1"], ROUND)
            self.acknowledged += [int(one) for one in re.findall(r"(?m)^ok \d+ id (\d+)$", ran.stdout)]
            self.last = ran.returncode, ran.stderr.strip()
            if ran.returncode:
                break
        return self.last

    def lost(self):
        """Where something that was acknowledged isn't there, what."""
        try:
            with open(self.file, "rb") as found:
                state = File(found.read()).mounted()
        except Refused as why:
            return f"it is refused: {why}"
        missing, again = set(self.acknowledged) - set(state.jobs), len(self.acknowledged) - len(set(self.acknowledged))
        return missing or again or not state.next > max(self.acknowledged)


def tried(invite, room, scene, statuses):
    """Four checks; how the node ended, where a write takes room, is added."""
    kind, options, stride, before, behind, takes_room = scene
    image = os.path.join(room, "image")
    made(image, kind, 200 if behind is limited else 0)
    with mounted(image, os.path.join(room, "disk"), "loop" + options) as folder:
        before(folder)
        node = Node(invite, os.path.join(folder, "node"))
        program.made(invite, node.file, 1024, 0, 1, 5, "--stride", stride)
        node.rounds(1)
        behind(folder)
        fill(folder)
        status, said = node.rounds(6)
        statuses += [status] if takes_room else []
        yield status in ((0, NO_ROOM) if takes_room else (0,)), f"it ends with {status}: {said}"
        yield not node.lost(), f"lost: {node.lost()}"
        empty(folder)
        if behind is limited:
            system("btrfs", "quota", "disable", folder)
        status, said = node.rounds(1)
        yield status == 0, f"with room again it ends with {status}: {said}"
        yield not node.lost(), f"lost behind that: {node.lost()}"


def main():
    invite, tally, statuses = program.named(), Tally(), []
    with tempfile.TemporaryDirectory(dir=program.MEMORY) as room:
        for scene in SCENES:
            name = f"{scene[0]}{scene[1]}, stride {scene[2]}, {scene[3].__name__}, {scene[4].__name__}"
            try:
                for holds, said in tried(invite, room, scene, statuses):
                    tally.check(holds, name, said)
            except (Missing, OSError) as why:
                print(f"full.py: {name}: not tried: {why}")
    if statuses:
        print(f"full.py: {statuses.count(NO_ROOM)} of {len(statuses)} nodes whose writes take room found none")
        tally.check(NO_ROOM in statuses, "no node was without room for a write")
    return tally.close()


if __name__ == "__main__":
    sys.exit(main())
