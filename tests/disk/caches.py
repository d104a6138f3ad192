#!/usr/bin/env python3
"""A device that fails one write, once, below one cache or two, under a node that goes on: what a loss of power then leaves of its file.

    caches.py PROGRAM

The file lies on ext4, xfs or btrfs over a device that notes what reaches it, or on the ext4 of a guest whose disk is a file of its host's ext4. The device fails
one write of a record's gate, so the node ends; it is started again, at once, or while another process has the file mapped, or behind a start of its guest, and
acknowledges two jobs more. Then the power is lost: of the host, where there are two. All that was acknowledged has to be there, with no id given again, by a
model of docs/FORMATS.md. Root is needed, with loop devices and /dev/fuse; what can't be tried is left out, and a line says so. The last line counts the checks."""
import contextlib, mmap, os, random, re, sys, tempfile

HERE = os.path.dirname(os.path.abspath(__file__))
sys.path += [os.path.join(HERE, ".."), os.path.join(HERE, "../files")]
from common import program
from common.tally import Tally
from blocks import Device, Missing, SYSTEMS, looped, made, mounted
from file_model import File, Refused

# The payload of the job at which the device fails: its record's write, and then that of its gate, have these bytes in their page.
PAYLOAD = bytes.fromhex("deadbeefcafebabe1122334455667788")
OF_THE_GATE = 2


class Scene(Tally):
    def __init__(self, invite, room, chance):
        super().__init__()
        self.program, self.room, self.chance = invite, room, chance

    def path(self, name):
        return os.path.join(self.room, name)

    def node(self, file, lines):
        """The ids that are acknowledged, and the status."""
        ran = program.run(self.program, ["node", file, "0", "1"], lines)
        return [int(one) for one in re.findall(r"(?m)^ok \d+ id (\d+)$", ran.stdout)], ran.returncode

    def fails_once(self, device, file):
        """Two jobs, and one more at whose gate the device fails."""
        program.made(self.program, file, 16, 0, 1, 5)
        acknowledged, _ = self.node(file, ["recover", "submit 0 61", "submit 0 62"])
        seen = []

        def fails(_place, data):
            if PAYLOAD in data:
                seen.append(data)
            return PAYLOAD in data and len(seen) == OF_THE_GATE
        device.fails = fails
        more, status = self.node(file, ["recover", f"submit 0 {PAYLOAD.hex()}"])
        device.fails = lambda _place, _data: False
        return acknowledged + more, status

    def judge(self, name, file, acknowledged, status, failed):
        self.check(failed == 1 and status == 3, name, f"the device failed {failed} times, and the node ended with {status}")
        try:
            with open(file, "rb") as found:
                state = File(found.read()).mounted()
        except (Refused, OSError) as why:
            return self.check(False, name, f"its file is refused: {why}")
        self.check(len(acknowledged) == 4 and set(acknowledged) <= set(state.jobs) and state.next > max(acknowledged), name, f"acknowledged {acknowledged}, there are {sorted(state.jobs)}, the next id is {state.next}")


def one_cache(scene, kind, is_mapped):
    name = f"{kind}, {'mapped' if is_mapped else 'at once'}"
    made(scene.path("base"), kind)
    with Device(scene.path("fuse"), scene.path("base")) as device, looped(device.path) as loop:
        with mounted(loop, scene.path("disk"), "") as folder, contextlib.ExitStack() as held:
            file = os.path.join(folder, "node")
            acknowledged, status = scene.fails_once(device, file)
            if is_mapped:
                page = held.enter_context(mmap.mmap(held.enter_context(open(file, "rb")).fileno(), 0, prot=mmap.PROT_READ))
                sum(page[at] for at in range(0, len(page), 4096))
            acknowledged += scene.node(file, ["recover", "submit 0 65", "submit 0 66"])[0]
            for kept in (0, 1):
                device.left(scene.chance, scene.path(f"left{kept}"), kept)
    for kept in (0, 1):
        with mounted(scene.path(f"left{kept}"), scene.path("disk")) as folder:
            scene.judge(f"{name}, {kept} of what wasn't flushed", os.path.join(folder, "node"), acknowledged, status, device.failed)


def two_caches(scene, is_begun_anew):
    name = "a guest that is started again" if is_begun_anew else "a guest, at once"
    made(scene.path("base"), "ext4", 64)
    with mounted(scene.path("base"), scene.path("host")) as host:
        made(os.path.join(host, "disk"), "ext4")
    with Device(scene.path("fuse"), scene.path("base")) as device, looped(device.path) as loop, mounted(loop, scene.path("host"), "") as host:
        disk = os.path.join(host, "disk")
        with contextlib.ExitStack() as guest:
            folder = guest.enter_context(mounted(guest.enter_context(looped(disk)), scene.path("guest"), ""))
            acknowledged, status = scene.fails_once(device, os.path.join(folder, "node"))
            if is_begun_anew:
                guest.close()
                folder = guest.enter_context(mounted(guest.enter_context(looped(disk)), scene.path("guest"), ""))
            acknowledged += scene.node(os.path.join(folder, "node"), ["recover", "submit 0 65", "submit 0 66"])[0]
            for kept in (0, 1):
                device.left(scene.chance, scene.path(f"left{kept}"), kept)
    for kept in (0, 1):
        with mounted(scene.path(f"left{kept}"), scene.path("host")) as host, mounted(os.path.join(host, "disk"), scene.path("guest")) as folder:
            scene.judge(f"{name}, {kept} of what wasn't flushed", os.path.join(folder, "node"), acknowledged, status, device.failed)


def main():
    with tempfile.TemporaryDirectory(dir=program.MEMORY) as room:
        scene = Scene(program.named(), room, random.Random(3))
        tries = [(f"{kind}, mapped: {is_mapped}", one_cache, kind, is_mapped) for kind in SYSTEMS for is_mapped in (False, True)]
        tries += [(f"a guest, begun anew: {is_begun_anew}", two_caches, is_begun_anew) for is_begun_anew in (False, True)]
        for name, tried, *words in tries:
            try:
                tried(scene, *words)
            except (Missing, OSError) as why:
                print(f"caches.py: {name}: not tried: {why}")
    return scene.close()


if __name__ == "__main__":
    sys.exit(main())
