#!/usr/bin/env python3
"""The life of a file: what `inspect` and `export` say of files of nodes and of stores, whole, damaged and in use; files that are made with jobs; and the
commands of docs/FORMATS.md, as they stand there.

    life.py PROGRAM

The files are made here byte by byte from docs/FORMATS.md, and what is expected was worked out from it. The last line counts the checks."""
import fcntl, os, re, shutil, subprocess, sys, tempfile, time

HERE = os.path.dirname(os.path.abspath(__file__))
sys.path.append(os.path.join(HERE, ".."))
from common import program
from common.tally import Tally
from images import BLOCK, EMPTY, SEAL, SECTOR, image, label_of, spread

PAGE = os.path.join(HERE, "../../docs/FORMATS.md")

LABEL, OLDER_LABEL = label_of(2, 3, 4), "64756d6765726f6b 01 02 03 0000000000"
FULL = {**EMPTY, 8: "05 0000000000000000 03 00 0001 61", 9: SEAL, 10: "05 0000000000000001 0f 07 0002 6869", 11: SEAL, 12: "02 0000000000000000", 13: SEAL}
KEPT = {**EMPTY, 0: "0000000000000005", 2: "0000000000000006", 3: SEAL, 6: "0000000000000002", 7: SEAL, 16: "03 0000000000000009", 17: SEAL,
        18: "06 0000000000000004 03 00 0000", 19: SEAL, 20: "06 0000000000000007 03 ff 0001 62", 21: SEAL}

# The name of a file, how many sectors it has, what stands in them, what stands behind the last one, what `inspect` prints, and how it ends.
FILES = [
    ("a store", 24, EMPTY, "", "kind store\nslots 4\nused 0\ncount 0\nnext 0\njobs 0\n", 0),
    ("a node", 24, EMPTY, LABEL, "kind node\nnode 2\nnodes 3\nslots 4\nused 0\ncount 0\nnext 0\njobs 0\n", 0),
    ("a node, by an older label", 24, EMPTY, OLDER_LABEL, "kind node\nnode 2\nnodes 3\nslots 4\nused 0\ncount 0\nnext 0\njobs 0\n", 0),
    ("a node of a cluster", 24, EMPTY, label_of(127, 128, 4, "a1b2c3d4"), "kind node\nnode 127\nnodes 128\nslots 4\nused 0\ncount 0\nnext 0\njobs 0\n", 0),
    ("more than a label", 24, EMPTY, LABEL[:-2] + "01", "kind unknown\nslots 4\nused 0\ncount 0\nnext 0\njobs 0\n", 0),
    ("jobs of a node", 24, FULL, LABEL, "kind node\nnode 2\nnodes 3\nslots 4\nused 3\ncount 0\nnext 2\njobs 1\nqueue_15 1\n", 0),
    ("the other area", 24, KEPT, "", "kind store\nslots 4\nused 3\ncount 6\nnext 9\njobs 2\nqueue_3 2\n", 0),
    ("more sectors", 8 + 4 * 100, EMPTY, "", "kind store\nslots 100\nused 0\ncount 0\nnext 0\njobs 0\n", 0),
    ("more sectors than slots", 20_000, EMPTY, "", "kind store\nslots 4096\nused 0\ncount 0\nnext 0\njobs 0\n", 0),
    ("another label", 24, EMPTY, "64756d6765726f6b ff 02 03 0000000000", "kind unknown\nslots 4\nused 0\ncount 0\nnext 0\njobs 0\n", 0),
    ("a label that is cut off", 24, EMPTY, "64756d6765726f6b 01", "kind store\nslots 4\nused 0\ncount 0\nnext 0\njobs 0\n", 0),
    ("zeros", 24, {}, "", "kind store\nslots 4\nused 0\ncount none\ndamaged_journal 5\n", 1),
    ("few sectors", 23, EMPTY, "", "too_small 23\n", 1),
    ("no bytes", 0, {}, "", "too_small 0\n", 1),
    ("a damaged counter", 24, {**FULL, 0: "00" * 8 + "01"}, LABEL, "kind node\nnode 2\nnodes 3\nslots 4\nused 3\ndamaged_counter 0\nnext 2\njobs 1\nqueue_15 1\n", 1),
    ("a damaged second slot", 24, {**FULL, 2: "00" * 511 + "01", 3: SEAL}, "", "kind store\nslots 4\nused 3\ndamaged_counter 2\nnext 2\njobs 1\nqueue_15 1\n", 1),
    ("a damaged area cell", 24, {**FULL, 6: "ff" * 9, 7: SEAL}, "", "kind store\nslots 4\nused 0\ncount 0\ndamaged_journal 6\n", 1),
    ("no area", 24, {**FULL, 4: "00"}, "", "kind store\nslots 4\nused 0\ncount 0\ndamaged_journal 5\n", 1),
    ("a record of no kind", 24, {**FULL, 10: "07"}, "", "kind store\nslots 4\nused 3\ncount 0\ndamaged_journal 10\n", 1),
    ("a job that isn't pending", 24, {**FULL, 12: "02 0000000000000005"}, "", "kind store\nslots 4\nused 3\ncount 0\ndamaged_journal 12\n", 1),
    ("a gate that isn't sealed", 24, {**FULL, 11: "00"}, "", "kind store\nslots 4\nused 1\ncount 0\nnext 1\njobs 1\nqueue_3 1\n", 0),
]

# The jobs of some of them.
EXPORTS = {
    "a node": ("", 0),
    "jobs of a node": ("job 1 15 6869 7\n", 0),
    "the other area": ("job 4 3 -\njob 7 3 62 255\n", 0),
    "a damaged counter": ("job 1 15 6869 7\n", 0),
    "a record of no kind": ("damaged_journal 10\n", 1),
    "zeros": ("damaged_journal 5\n", 1),
    "few sectors": ("too_small 23\n", 1),
}


# What is given to format in front of the file's name and behind it, the lines of jobs, the sectors of the file, and what it exports.
BEGUN = {**EMPTY, 9: SEAL}
MADE = [
    ("4 0 3", None, {**BEGUN, 8: "03 0000000000000000"}, ""),
    ("4 0 3 258", None, {**BEGUN, 0: "0000000000000102", 8: "03 0000000000000102"}, ""),
    ("4 0 3 258", "", {**BEGUN, 0: "0000000000000102", 8: "03 0000000000000102"}, ""),
    ("4 0 3 258", "job 7 3 6869 255\n", {**BEGUN, 0: "0000000000000102", 8: "03 0000000000000102", 10: "06 0000000000000007 03 ff 0002 6869", 11: SEAL}, "job 7 3 6869 255\n"),
    ("4 0 3 9", "job 0 15 -\n\njob 8 0 61", {**BEGUN, 0: "0000000000000009", 8: "03 0000000000000009", 10: "06 0000000000000000 0f 00 0000", 11: SEAL,
                                          12: "06 0000000000000008 00 00 0001 61", 13: SEAL}, "job 0 15 -\njob 8 0 61\n"),
]

# Lines that no file is made with, and the line that is named.
NOT_MADE = [
    ("4 0 3 9", "job 9 0 61\n", 1),
    ("4 0 3 9", "job 3 0 61\njob 3 0 61\n", 2),
    ("4 0 3 9", "job 3 0 61\njob 2 0 61\n", 2),
    ("4 0 3 9", "job 1 0 61\njob 2 0 61\njob 3 0 61\n", 3),
    ("4 0 3", "job 0 0 61\n", 1),
    ("4 0 3 9", "job 1 16 61\n", 1),
    ("4 0 3 9", "job 1 0 6\n", 1),
    ("4 0 3 9", "job 1 0\n", 1),
    ("4 0 3 9", "job 1 0 61 0\n", 1),
    ("4 0 3 9", "job 1 0 61 256\n", 1),
    ("4 0 3 9", "job 1 0 61 1 1\n", 1),
    ("4 0 3 9", "job 1 0 " + "61" * 401 + "\n", 1),
    ("4 0 3 9", "\njib 1 0 61\n", 2),
    ("4 0 3 9", "damaged_journal 10\n", 1),
]


def ran(invite, *words, text=""):
    """What is printed, the status, and what is said."""
    done = program.run(invite, words, text)
    return done.stdout, done.returncode, done.stderr


def judge(tally, name, got, want):
    tally.mark("" if got[:2] == want else f"{got} in place of {want}", name)


def files(tally, invite, room):
    path = os.path.join(room, "file")
    for name, sectors, parts, behind, text, status in FILES:
        held = image(sectors, parts, behind)
        with open(path, "wb") as file:
            file.write(held)
        os.chmod(path, 0o400)
        before = os.stat(path)
        judge(tally, f"inspect {name}", ran(invite, "inspect", path), (text, status))
        if name in EXPORTS:
            judge(tally, f"export {name}", ran(invite, "export", path), EXPORTS[name])
        after = os.stat(path)
        with open(path, "rb") as file:
            tally.mark("" if file.read() == held and before.st_mtime_ns == after.st_mtime_ns else "it was written to", f"{name} stays as it was")
        os.unlink(path)


def filled(path, sector, byte):
    """Fills the block of a sector, as a write that was torn may leave it."""
    with open(path, "r+b") as file:
        file.seek(BLOCK * sector)
        file.write(bytes([byte]) * BLOCK)


def spaced(tally, invite, room):
    """Files with a block for each sector: the bytes are those of a packed file, spread; they are read and served without a word about it."""
    path = os.path.join(room, "spaced")
    for name, sectors, parts, behind, text, status in FILES:
        if behind not in (LABEL, OLDER_LABEL):
            continue
        held = spread(image(sectors, parts, behind))
        with open(path, "wb") as file:
            file.write(held)
        judge(tally, f"inspect {name}, spaced", ran(invite, "inspect", path), (text, status))
        if name in EXPORTS:
            judge(tally, f"export {name}, spaced", ran(invite, "export", path), EXPORTS[name])
        os.unlink(path)
    for words, jobs, parts, exported in MADE:
        slots, node, nodes = [int(word) for word in words.split()[:3]]
        packed = image(8 + 4 * slots, parts, label_of(node, nodes, slots))
        for stride, held in (("512", packed), ("4096", spread(packed))):
            out = ran(invite, "format", path, *words.split(), "--stride", stride, *(["--jobs", "-"] if jobs is not None else []), text=jobs or "")
            with open(path, "rb") as file:
                tally.mark("" if out == ("", 0, "") and file.read() == held else f"{out}, or other bytes", f"format {words} --stride {stride} with {jobs!r}")
            judge(tally, f"export of format {words} --stride {stride} with {jobs!r}", ran(invite, "export", path), (exported, 0))
            os.unlink(path)
    for stride in ("0", "511", "1024", "04096", "4096 ", "x", ""):
        out, status, _ = ran(invite, "format", path, "4", "0", "3", "--stride", stride)
        tally.mark("" if status == 2 and not os.path.exists(path) else f"{status}: {out}", f"format --stride {stride!r}")
    served(tally, invite, path)


def served(tally, invite, path):
    """A node over such a file is killed; what it answered is there, nothing stands between its sectors, and a torn block costs one sector."""
    ran(invite, "format", path, "8", "0", "3", "--stride", "4096")
    node = subprocess.Popen([invite, "node", path, "0", "3"], stdin=subprocess.PIPE, stdout=subprocess.PIPE, text=True)
    node.stdin.write("recover\nsubmit 3 6869 7\nsubmit 0 61\n")
    node.stdin.flush()
    for line in node.stdout:
        if line.startswith("ok 3"):
            break
    node.kill()
    node.wait()
    text = "kind node\nnode 0\nnodes 3\nslots 8\nused 3\ncount 1\nnext 2\njobs 2\nqueue_0 1\nqueue_3 1\n"
    judge(tally, "inspect behind a kill, spaced", ran(invite, "inspect", path), (text, 0))
    judge(tally, "export behind a kill, spaced", ran(invite, "export", path), ("job 0 3 6869 7\njob 1 0 61\n", 0))
    with open(path, "rb") as file:
        held = file.read()
    between = [at for at in range((len(held) - 32) // BLOCK) if any(held[BLOCK * at + SECTOR:BLOCK * (at + 1)])]
    tally.mark("" if not between and len(held) == BLOCK * 40 + 32 else f"{len(held)} bytes, {between}", "nothing stands between sectors")
    out, status, said = ran(invite, "node", path, "1", "3")
    tally.mark("" if status == 5 and "the file of node 0 of 3" in said else f"{status}: {said}", "another node's file, spaced")
    judge(tally, "a store isn't made over it", ran(invite, "store", path, text="mount\nformat 4\n"), ("refused Foreign\nrefused Foreign\n", 0))
    # the gate and the body of the next raise, and those of the next record
    for sector, byte in ((1, 0), (0, 0xff), (14, 0xff), (15, 0)):
        filled(path, sector, byte)
        judge(tally, f"the block of sector {sector} is torn", ran(invite, "inspect", path), (text, 0))
    out, status, _ = ran(invite, "node", path, "0", "3", text="recover\njobs\n")
    tally.mark("" if status == 0 and "keeps 2 2 2\n" in out else f"{status}: {out}", "a node recovers with torn blocks")
    filled(path, 12, 0xff)
    judge(tally, "a torn block of a record", ran(invite, "inspect", path), (text[:text.index("count")] + "count 2\ndamaged_journal 12\n", 1))
    os.unlink(path)


def in_use(tally, invite, room):
    """A file that is locked, and one that a node has open, are read all the same."""
    path = os.path.join(room, "node")
    ran(invite, "format", path, "8", "0", "3")
    with open(path, "r+b") as file:
        fcntl.flock(file, fcntl.LOCK_EX)
        out, status, _ = ran(invite, "inspect", path)
        tally.mark("" if status == 0 and "kind node\n" in out else f"{status}: {out}", "inspect a locked file")
    node = subprocess.Popen([invite, "node", path, "0", "3"], stdin=subprocess.PIPE, stdout=subprocess.PIPE, text=True)
    node.stdin.write("recover\nsubmit 3 6869 7\n")
    node.stdin.flush()
    for line in node.stdout:
        if line.startswith("ok 2"):
            break
    out, status, _ = ran(invite, "inspect", path)
    tally.mark("" if status == 0 and "count 1\n" in out and "jobs 1\nqueue_3 1\n" in out else f"{status}: {out}", "inspect a node's file while it runs")
    out, status, _ = ran(invite, "export", path)
    tally.mark("" if status == 0 and out.endswith(" 3 6869 7\n") and out.count("\n") == 1 else f"{status}: {out}", "export while a node runs")
    node.stdin.close()
    node.wait()


def no_file(tally, invite, room):
    os.mkfifo(os.path.join(room, "pipe"))
    os.mkdir(os.path.join(room, "folder"))
    for word in ("inspect", "export"):
        for name in ("nothing", "folder", "pipe", "/dev/zero"):
            out, status, said = ran(invite, word, os.path.join(room, name))
            tally.mark("" if out == "" and status == 7 and said.startswith("invite: ") else f"{status}: {out}{said}", f"{word} {name}")


def made(tally, invite, room):
    """Files that are made, with jobs and without, from a file of lines and from standard input."""
    path, lines = os.path.join(room, "made"), os.path.join(room, "lines")
    for words, jobs, parts, exported in MADE:
        slots, node, nodes = [int(word) for word in words.split()[:3]]
        held = image(8 + 4 * slots, parts, label_of(node, nodes, slots))
        for given in ("-", lines) if jobs is not None else (None,):
            with open(lines, "w") as file:
                file.write(jobs or "")
            out = ran(invite, "format", path, *words.split(), *(["--jobs", given] if given else []), text=jobs if given == "-" else "")
            with open(path, "rb") as file:
                tally.mark("" if out == ("", 0, "") and file.read() == held else f"{out}, or other bytes", f"format {words} with {jobs!r}")
            judge(tally, f"export of format {words} with {jobs!r}", ran(invite, "export", path), (exported, 0))
            os.unlink(path)
    for words, jobs, bad in NOT_MADE:
        out, status, said = ran(invite, "format", path, *words.split(), "--jobs", "-", text=jobs)
        good = out == "" and status == 1 and said.startswith(f"invite: line {bad}: ") and not os.path.exists(path)
        tally.mark("" if good else f"{status}: {out}{said}", f"format {words} with {jobs!r}")
    out, status, said = ran(invite, "format", path, "4", "0", "3", "9", "--jobs", os.path.join(room, "nothing"))
    tally.mark("" if (out, status) == ("", 7) and said and not os.path.exists(path) else f"{status}: {out}{said}", "format with no file of jobs")
    # the first id of a file, and a job that was kept, at its node
    ran(invite, "format", path, "8", "0", "3", "1000", "--jobs", "-", text="job 7 3 6869 255\n")
    out, status, _ = ran(invite, "node", path, "0", "3", text="recover\nsubmit 0 61\n")
    tally.mark("" if "keeps 1001 1000 1\n" in out and "ok 2 id 1000\n" in out else out, "ids of a node begin at FIRST")
    os.unlink(path)


def the_page(tally, invite, room):
    """The commands of the page, as they stand there, over a node's file with two jobs."""
    with open(PAGE) as file:
        blocks = re.findall(r"^```sh\n(.*?)^```$", file.read(), re.S | re.M)
    folder = os.path.join(room, "page")
    for name in ("old", "new"):
        os.makedirs(os.path.join(folder, name))
    node = os.path.join(folder, "old", "node0")
    ran(invite, "format", node, "8", "0", "3", "100")
    ran(invite, "node", node, "0", "3", text="recover\nsubmit 3 6869\nsubmit 0 61 7\n")
    before = int(time.time() * 1000)
    script = "set -eu\n" + "echo :next:\n".join(blocks)
    done = subprocess.run(["bash", "-c", script], cwd=folder, env=dict(os.environ, PROGRAM=invite), capture_output=True, text=True, timeout=600)
    came = done.stdout.split(":next:\n")
    tally.mark("" if done.returncode == 0 and len(came) == len(blocks) == 3 else f"{done.returncode}: {done.stdout}{done.stderr}", "the page's commands run")
    whole = "kind node\nnode 0\nnodes 3\n"
    wanted = [
        ("a moved disk", whole + r"slots 8\nused 3\ncount 101\nnext 102\njobs 2\nqueue_0 1\nqueue_3 1\n"),
        ("a restore", whole + r"slots 128\nused 3\ncount (\d+)\nnext \1\njobs 2\nqueue_0 1\nqueue_3 1\n"),
        ("a lost file", whole + r"slots 64\nused 1\ncount (\d+)\nnext \1\njobs 0\n"),
    ]
    for (name, text), said in zip(wanted, came):
        match = re.fullmatch(text, said)
        late = match is not None and all(int(number) >= before for number in match.groups())
        tally.mark("" if late else said, name)


def main():
    invite, tally = program.named(), Tally()
    room = tempfile.mkdtemp()
    try:
        files(tally, invite, room)
        spaced(tally, invite, room)
        in_use(tally, invite, room)
        no_file(tally, invite, room)
        made(tally, invite, room)
        the_page(tally, invite, room)
    finally:
        shutil.rmtree(room)
    return tally.close()


if __name__ == "__main__":
    sys.exit(main())
