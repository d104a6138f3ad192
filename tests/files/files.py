#!/usr/bin/env python3
"""Files of stores and of nodes that are made and read here, over `store`, `format` and `node`: where each byte lies, which files are taken and which
are refused, what is left of them, and who else may have them meanwhile.

    files.py PROGRAM

What is expected was worked out from docs/FORMATS.md. The last line counts the checks."""
import errno, fcntl, hmac, os, re, resource, select, shutil, signal, subprocess, sys, tempfile

sys.path.append(os.path.join(os.path.dirname(os.path.abspath(__file__)), ".."))
from common import program
from common.tally import Tally
from images import BLOCK, EMPTY, SEAL, SECTOR, image, label_of, spread

OTHERS = 65534

# The files of a store: how many slots it has, what is asked of it once it is mounted, what stands in its sectors (from the sector's first byte on,
# and zeros everywhere else), and what `list` shows. Of a job: its kind, id, queue, priority, length and payload.
FIRST = {8: "05 0000000000000000 00 00 0001 61", 9: SEAL}
SECOND = {10: "05 0000000000000001 01 07 0001 62", 11: SEAL}
STORES = [
    (4, "", EMPTY, "count 0 next 0\n"),
    (64, "", EMPTY, "count 0 next 0\n"),
    # 300 sectors: zeros are written in pieces of 65,536 bytes, two of them and a part of a third
    (73, "", EMPTY, "count 0 next 0\n"),
    # the slots of the counter take turns
    (4, "raise", {**EMPTY, 2: "0000000000000001", 3: SEAL}, "count 1 next 0\n"),
    (4, "raise;raise", {**EMPTY, 0: "0000000000000002", 2: "0000000000000001", 3: SEAL}, "count 2 next 0\n"),
    (4, "raise;raise;raise", {**EMPTY, 0: "0000000000000002", 2: "0000000000000003", 3: SEAL}, "count 3 next 0\n"),
    # the journal
    (4, "put 0 -", {**EMPTY, 8: "05", 9: SEAL}, "count 0 next 1\njob 0 0 -\n"),
    (4, "put 1 6869", {**EMPTY, 8: "05 0000000000000000 01 00 0002 6869", 9: SEAL}, "count 0 next 1\njob 0 1 6869\n"),
    (4, "put 0 61;put 1 62 7", {**EMPTY, **FIRST, **SECOND}, "count 0 next 2\njob 0 0 61\njob 1 1 62 7\n"),
    (4, "put 0 61;put 1 62 7;done 0", {**EMPTY, **FIRST, **SECOND, 12: "02 0000000000000000", 13: SEAL}, "count 0 next 2\njob 1 1 62 7\n"),
    (5, "put 15 " + "a5" * 400 + " 255", {**EMPTY, 8: "05 0000000000000000 0f ff 0190" + "a5" * 400, 9: SEAL}, "count 0 next 1\njob 0 15 " + "a5" * 400 + " 255\n"),
    # a compaction into the other area, which begins in sector 16, or 20 where there are six slots
    (4, "put 0 61;put 1 62 7;done 0;compact",
     {**EMPTY, 6: "0000000000000002", 7: SEAL, **FIRST, **SECOND, 12: "02 0000000000000000", 13: SEAL, 16: "03 0000000000000002", 17: SEAL,
      18: "06 0000000000000001 01 07 0001 62", 19: SEAL},
     "count 0 next 2\njob 1 1 62 7\n"),
    (6, "compact;put 0 62", {**EMPTY, 6: "0000000000000002", 7: SEAL, 20: "03 0000000000000000", 21: SEAL, 22: "05 0000000000000000 00 00 0001 62", 23: SEAL},
     "count 0 next 1\njob 0 0 62\n"),
]

# One of version 1, and the cluster `orders` as a label has it: HMAC-SHA256 under this key, of `dumgerok cluster 2`.
OLDER = "64756d6765726f6b 01 00 03 0000000000"
ORDERS = hmac.new(b"orders", b"dumgerok cluster 2", "sha256").hexdigest()[:8]

# The files of a node: SLOTS SELF NODES FIRST, what is asked of it, its sectors, and the label behind the last one.
NODES = [
    ("4 0 3", "", {**EMPTY, 8: "03", 9: SEAL}, label_of(0, 3, 4)),
    ("8 127 128", "", {**EMPTY, 8: "03", 9: SEAL}, label_of(127, 128, 8)),
    ("4 0 1 258", "", {**EMPTY, 0: "0000000000000102", 8: "03 0000000000000102", 9: SEAL}, label_of(0, 1, 4)),
    ("4 0 1 18446744073709551615", "", {**EMPTY, 0: "ff" * 8, 8: "03" + "ff" * 8, 9: SEAL}, label_of(0, 1, 4)),
    ("4 2 3", "recover\nsubmit 3 6869 7\n", {**EMPTY, 2: "0000000000000001", 3: SEAL, 6: "0000000000000002", 7: SEAL, 8: "03", 9: SEAL, 16: "03", 17: SEAL, 18: "05 0000000000000000 03 07 0002 6869", 19: SEAL}, label_of(2, 3, 4)),
    ("4 2 3 --cluster orders", "", {**EMPTY, 8: "03", 9: SEAL}, label_of(2, 3, 4, ORDERS)),
    ("300 2 3 --cluster=orders", "", {**EMPTY, 8: "03", 9: SEAL}, label_of(2, 3, 300, ORDERS)),
]

# Files that a store is made in place of: how long, of bytes 55, and with how many slots.
REPLACED = [(length, slots) for length in (0, 1, 5000, 12288, 200_000) for slots in (4, 5, 73)]

# Lengths of a file of zeros, and what a mounting of it is refused with.
LENGTHS = [(0, "TooSmall"), (1, "TooSmall"), (511, "TooSmall"), (512, "TooSmall"), (12_287, "TooSmall"), (12_288, "NotFormatted"), (12_289, "NotFormatted"), (12_800, "NotFormatted")]

# How many bytes stand behind a store of four slots, and how many jobs it then takes: two less than it has slots.
BEHIND = [(0, 2), (1, 2), (511, 2), (512, 2), (3 * 512 + 511, 2), (4 * 512, 3), (4 * 512 + 511, 3), (8 * 512, 4), (8 * 512 + 13, 4)]

# Where a path leads to, whether `store` may make its file there, and else its word for it on standard error (it answers `refused Device`), the statuses
# of `node` and of `format`, and what `node` says.
PLACES = [
    ("nothing", True, "NotFound", 7, 0, "there is no such file or folder: No such file or directory (os error 2)"),
    ("nothing/below", False, "NotFound", 7, 7, "there is no such file or folder: No such file or directory (os error 2)"),
    ("folder", False, "Folder", 7, 1, "it is a folder: Is a directory (os error 21)"),
    ("file/below", False, "Unusable", 7, 7, "it can't be opened: Not a directory (os error 20)"),
    ("pipe", False, "NotAFile", 7, 1, "it is no regular file"),
    ("/dev/null", False, "NotAFile", 7, 1, "it is no regular file"),
    ("/dev/zero", False, "NotAFile", 7, 1, "it is no regular file"),
    ("/dev/full", False, "NotAFile", 7, 1, "it is no regular file"),
    ("to-nothing", True, "NotFound", 7, 1, "there is no such file or folder: No such file or directory (os error 2)"),
    ("to-folder", False, "Folder", 7, 1, "it is a folder: Is a directory (os error 21)"),
    ("to-itself", False, "Unusable", 7, 1, "it can't be opened: Too many levels of symbolic links (os error 40)"),
    ("x" * 300, False, "Unusable", 7, 7, "it can't be opened: File name too long (os error 36)"),
]

# How `node` and `format` end where the system refuses to open the file so, and the word of `store`; and the same where a file can't be locked so.
OPENING = [(errno.ENOENT, 7, "NotFound"), (errno.EEXIST, 1, "Exists"), (errno.EACCES, 7, "Denied"), (errno.EPERM, 7, "Denied"), (errno.EROFS, 7, "Denied"),
           (errno.EISDIR, 7, "Folder"), (errno.ENOSPC, 8, "NoRoom"), (errno.EDQUOT, 8, "NoRoom"), (errno.EFBIG, 8, "NoRoom"), (errno.EAGAIN, 7, "Unusable"),
           (errno.ETXTBSY, 7, "Unusable"), (errno.EIO, 3, "Device"), (errno.EMFILE, 3, "Device")]
LOCKING = [(errno.EWOULDBLOCK, 4, "Locked"), (errno.EIO, 3, "Device"), (errno.ENOLCK, 3, "Device")]

# What standard error says of a line of `store` for which the file can't be had, by that word.
WORDS = {"Exists": "there is something of this name", "NotFound": "there is no such file or folder", "Denied": "it may not be read and written",
         "Folder": "it is a folder", "Unusable": "it can't be opened", "NoRoom": "there is no room for it", "Device": "the device failed"}

# What is said of a file by the label behind its last sector, or by none.
NOBODYS = "it is no node's file: it was never formatted, or its end was cut off"
LABELS = [
    ("", NOBODYS),
    ("64756d6765726f6b 01 01 03 0000000000", "it is the file of node 1 of 3"),
    ("64756d6765726f6b 01 00 04 0000000000", "it is the file of node 0 of 4"),
    ("64756d6765726f6b 01 7f 80 0000000000", "it is the file of node 127 of 128"),
    (label_of(1, 3, 4), "it is the file of node 1 of 3"),
    (label_of(0, 4, 4), "it is the file of node 0 of 4"),
    (label_of(1, 3, 4, ORDERS), "it is the file of node 1 of 3"),
    (label_of(0, 3, 5), "it was made with 5 slots, and isn't as long as that: bytes of it are missing, or were put in"),
    (label_of(0, 3, 3, ORDERS), "it was made with 3 slots, and isn't as long as that: bytes of it are missing, or were put in"),
    ("64756d6765726f6b 03 00 03 0000000000", "its format is of version 3, which isn't read here"),
    ("64756d6765726f6b ff 00 00 0000000001", "its format is of version 255, which isn't read here"),
    ("64756d6765726f6b 01 00 03 0000000001", NOBODYS),
    # of version 2 with what isn't zero behind it, with a stride that there isn't, and without its second half
    (label_of(0, 3, 4)[:-2] + "01", NOBODYS),
    (label_of(0, 3, 4).replace("03 00", "03 02", 1), NOBODYS),
    (label_of(0, 3, 4, ORDERS)[:-32], NOBODYS),
    ("64756d6765726f6c 01 00 03 0000000000", NOBODYS),
    ("64756d6765726f6b 01 00 03 00000000", NOBODYS),
]

# The lengths that a node's file of 24 sectors and its label is cut to, once the node has opened it.
CUT = [0, 1, 512, 1024, 2047, 4096, 4608, 4609, 5120, 12_287, 12_288, 12_304, 12_319]

UP = b"group Normal 0 0:1 0\nkeeps 1 0 0\nok 1\n"

# What is said of a file that isn't the one that was opened any more.
DISPLACED = "the file was removed or another file took its name while it was open"
WRITTEN_OVER = "the file was cut off or written over while it was open"
OLDER_COUNT = "the file was written over, and its counter isn't what the node gave while it was open"


def reason(line, word, error):
    """What standard error says of this line of `store`."""
    return f"invite: line {line}: {word}: {WORDS[word]}: {os.strerror(error)} (os error {error})\n"


def bytes_of(slots, sectors, behind=""):
    """A file of so many slots."""
    return image(8 + 4 * slots, sectors, behind)


def read(path):
    with open(path, "rb") as file:
        return file.read()


def write(path, data):
    with open(path, "wb") as file:
        file.write(data)


class Tried(Tally):
    def __init__(self, invite):
        super().__init__()
        self.program = invite

    def run(self, words, fed, **more):
        """The status and the standard output. Where the status isn't 0, one line is said of it, and else nothing."""
        ended = program.run(self.program, words, fed if isinstance(fed, bytes) else fed.encode(), **more)
        is_said = re.fullmatch(rb"invite: [^\n]+\n", ended.stderr) is not None if ended.returncode else ended.stderr == b""
        if not is_said:
            self.mark(f"it says {ended.stderr!r}", words)
        return ended.returncode, ended.stdout

    def says(self, words, fed, status, said, **more):
        """Nothing is printed, and one line is said."""
        ended = program.run(self.program, words, fed, **more)
        self.same((ended.returncode, ended.stdout, ended.stderr), (status, "", f"invite: {said}\n"), words)

    def expect(self, words, fed, text, status=0, **more):
        self.same(self.run(words, fed, **more), (status, text.encode() if isinstance(text, str) else text), (words, fed))

    def answers(self, path, fed, text, said, **more):
        """What `store` answers, and what standard error says of the lines for which the file can't be had."""
        ended = program.run(self.program, ["store", path], fed, **more)
        self.same((ended.returncode, ended.stdout, ended.stderr), (0, text, said), (path, fed))

    def node(self, path, nodes=1):
        """A node that runs, and has its file open."""
        child = subprocess.Popen([self.program, "node", path, "0", str(nodes)], bufsize=0, stdin=subprocess.PIPE, stdout=subprocess.PIPE, stderr=subprocess.PIPE)
        self.ask(child, b"state\n", b"state Down\nok 1\n")
        return child

    def ask(self, child, fed, text):
        """Expects this answer to lines, within five minutes from one piece of it to the next."""
        found = b""
        try:
            child.stdin.write(fed)
            while len(found) < len(text) and select.select([child.stdout], [], [], 300)[0] and (piece := child.stdout.read(65_536)):
                found += piece
        except BrokenPipeError:
            found += b"(it has ended)"
        self.same(found, text, fed)

    def end(self, child, status, text, name):
        out, _ = child.communicate(timeout=600)
        self.same((child.returncode, out), (status, text), name)

    def lost(self, child, fed, path, said, name):
        """A node that is fed this acknowledges nothing, and says what became of its file."""
        out, errors = child.communicate(fed, timeout=600)
        self.same((child.returncode, out, errors.decode()), (7, b"", f"invite: {path}: {said}\n"), name)

    def formatted(self, path, words="4 0 1"):
        if os.path.lexists(path):
            os.remove(path)
        self.expect(["format", path, *words.split()], "", "")


def try_bytes(tried, path):
    """Each file is what the page says, and one that is written here is read as it says."""
    for slots, requests, sectors, shown in STORES:
        lines = [line for line in requests.split(";") if line]
        found = tried.run(["store", path], "".join(line + "\n" for line in [f"format {slots}", "mount", *lines, "list"]))
        tried.same(found[1].decode()[-len(shown):], shown, requests)
        tried.same(read(path), bytes_of(slots, sectors), (slots, requests))
        tried.mark("" if os.stat(path).st_mode & 0o777 == 0o600 else "others may read it", (slots, requests))
        # the zeros take the room that later writes need: a file of holes would have none
        tried.mark("" if os.stat(path).st_blocks >= 8 + 4 * slots else "it has no room", (slots, requests))
        write(path, bytes_of(slots, sectors))
        tried.expect(["store", path], "mount\nlist\n", "ok\n" + shown)
        # a mounting writes nothing: the file stays, with the number of its area
        tried.same(read(path), bytes_of(slots, sectors), ("mounted alone", requests))
    for words, requests, sectors, label in NODES:
        tried.formatted(path, words)
        _, out = tried.run(["node", path, *words.split()[1:3], *words.split()[3:] * ("--cluster" in words)], requests)
        tried.mark("" if out.count(b"ok ") == requests.count("\n") else f"it answers {out!r}", (words, requests))
        tried.same(read(path), bytes_of(int(words.split()[0]), sectors, label), (words, requests))
        tried.mark("" if os.stat(path).st_mode & 0o777 == 0o600 else "others may read it", (words, requests))


def try_made(tried, folder):
    """A store is made in place of what is there, whatever it holds; a node's file is never made over anything."""
    path, link = os.path.join(folder, "made"), os.path.join(folder, "link")
    for length, slots in REPLACED:
        write(path, b"\x55" * length)
        tried.expect(["store", path], f"format {slots}\n", "ok\n")
        tried.same(read(path), bytes_of(slots, EMPTY), (length, slots))
        tried.mark("" if os.stat(path).st_blocks >= 8 + 4 * slots else "it has no room", (length, slots))
    # a file of holes, and one behind a symbolic link
    write(path, b"")
    os.truncate(path, 1 << 20)
    tried.expect(["store", path], "format 73\n", "ok\n")
    tried.mark("" if os.stat(path).st_blocks >= 300 else "it has no room", "holes")
    os.symlink(path, link)
    tried.expect(["store", link], "format 4\n", "ok\n")
    tried.same((os.path.islink(link), read(path)), (True, bytes_of(4, EMPTY)), "a symbolic link")
    # what was left of a format that was cut off is in nobody's way
    write(path + ".unfinished", b"\x55" * 70_000)
    tried.expect(["store", path], "format 5\nmount\nlist\n", "ok\nok\ncount 0 next 0\n")
    tried.same((read(path), sorted(os.listdir(folder))), (bytes_of(5, EMPTY), ["link", "made"]), "what was left")
    for kept in (b"", b"kept", bytes_of(4, EMPTY, NODES[0][3])):
        write(path, kept)
        for name in (path, link):
            tried.expect(["format", name, "4", "0", "3"], "", "", 1)
        tried.same(read(path), kept, "a file that is there")
    # in the folder that it runs in
    tried.expect(["format", "here", "4", "0", "3"], "", "", cwd=folder)
    tried.same(read(os.path.join(folder, "here")), bytes_of(4, NODES[0][2], NODES[0][3]), "a file in this folder")


def try_lengths(tried, path):
    """A file has as many sectors as wholly fit into it, and what is left at its end belongs to none."""
    for length, word in LENGTHS:
        write(path, bytes(length))
        tried.expect(["store", path], "mount\n", f"refused {word}\n")
        tried.same(read(path), bytes(length), length)
    for more, jobs in BEHIND:
        behind = b"\x41" * more
        write(path, bytes_of(4, EMPTY) + behind)
        tried.expect(["store", path], "mount\n" + "put 0 61\n" * 5, "ok\n" + "".join(f"ok {at}\n" for at in range(jobs)) + "refused Full\n" * (5 - jobs))
        tried.same(read(path)[12_288:], behind, (more, "bytes behind"))
    # a node's file has just its label there
    label, older = bytes.fromhex(NODES[0][3]), bytes.fromhex(OLDER)
    for behind, status in ((b"", 5), (label, 0), (label[:31], 5), (label[:16], 5), (label[:15], 5), (label + b"\0", 5), (older, 0), (older[:15], 5), (older + b"\0", 5), (older + bytes(16), 0)):
        write(path, bytes_of(4, EMPTY) + behind)
        tried.expect(["node", path, "0", "3"], "", "", status)
        tried.same(read(path), bytes_of(4, EMPTY) + behind, (behind, "a label"))


def try_places(tried, folder):
    """What isn't there, or is no file."""
    os.mkdir(os.path.join(folder, "folder"))
    write(os.path.join(folder, "file"), b"kept")
    os.mkfifo(os.path.join(folder, "pipe"))
    for name, to in (("to-nothing", "nowhere"), ("to-folder", "folder"), ("to-itself", "to-itself")):
        os.symlink(to, os.path.join(folder, name))
    for place, may_be_made, word, node, making, said in PLACES:
        path = os.path.join(folder, place)
        before = sorted(os.listdir(folder))
        tried.answers(path, "\nmount\nlist\n", "refused Device\nrefused Broken\n", f"invite: line 2: {word}: {said}\n")
        tried.says(["node", path, "0", "3"], "recover\n", node, f"{path}: {said}")
        tried.same(sorted(os.listdir(folder)), before, (place, "what is there"))
        if making == 1:
            tried.says(["format", path, "4", "0", "3"], "", making, f"{path}: there is something of this name: File exists (os error 17)")
        elif making:
            tried.says(["format", path, "4", "0", "3"], "", making, f"{path}: {said}")
        else:
            tried.expect(["format", path, "4", "0", "3"], "", "")
            os.remove(path)
        tried.same(sorted(os.listdir(folder)), before, (place, "what is there"))
        tried.answers(path, "format 4\n", *(("ok\n", "") if may_be_made else ("refused Device\n", f"invite: line 1: {word}: {said}\n")))
        if may_be_made:
            tried.same(read(path), bytes_of(4, EMPTY), place)
            os.remove(os.path.realpath(path))
        tried.same(sorted(os.listdir(folder)), before, (place, "what is there"))
    tried.same(read(os.path.join(folder, "file")), b"kept", "a file in a folder's place")


def try_labels(tried, path):
    """Whose a file is, is said where it isn't this node's."""
    for label, said in LABELS:
        write(path, bytes_of(4, EMPTY, label))
        tried.says(["node", path, "0", "3"], "recover\n", 5, f"{path}: {said}")
        tried.same(read(path), bytes_of(4, EMPTY, label), (label, "a label"))


def as_another():
    """In a process that is begun with this: it is no longer root's."""
    os.setgroups([])
    os.setgid(OTHERS)
    os.setuid(OTHERS)


def try_denied(tried, folder):
    """What the user may not read, write or make. Where this runs as root, the program runs as another user."""
    mine, path, inner = os.path.join(folder, "program"), os.path.join(folder, "denied"), os.path.join(folder, "closed")
    who = {"preexec_fn": as_another} if os.geteuid() == 0 else {}
    shutil.copy(tried.program, mine)
    os.chmod(mine, 0o755)
    os.chmod(folder, 0o755)
    try:
        program.run(mine, ["show"], **who).check_returncode()
    except (OSError, subprocess.SubprocessError):
        print("files.py: the program can't be run as another user, so nothing was denied")
        return
    other, denied = Tried(mine), "it may not be read and written: Permission denied (os error 13)"
    os.mkdir(inner, 0o755)
    write(os.path.join(inner, "there"), bytes_of(4, EMPTY, NODES[0][3]))
    if not who:
        os.chmod(inner, 0o555)
    for mode in (0o000, 0o444, 0o222):
        write(path, bytes_of(4, EMPTY, NODES[0][3]))
        os.chmod(path, mode)
        other.answers(path, "mount\nformat 4\n", "refused Device\n" * 2, reason(1, "Denied", errno.EACCES) + reason(2, "Denied", errno.EACCES), **who)
        other.says(["node", path, "0", "3"], "recover\n", 7, f"{path}: {denied}", **who)
        os.chmod(path, 0o600)
        tried.same(read(path), bytes_of(4, EMPTY, NODES[0][3]), ("a file of mode", mode))
        os.remove(path)
    new = os.path.join(inner, "new")
    other.says(["format", new, "4", "0", "3"], "", 7, f"{new}: {denied}", **who)
    other.answers(new, "format 4\n", "refused Device\n", reason(1, "Denied", errno.EACCES), **who)
    tried.same(os.listdir(inner), ["there"], "a folder that may not be written")
    tried.add(other.passed, other.failed)
    os.chmod(inner, 0o755)


def try_locked(tried, path):
    """As long as a node runs nobody else has its file, and it takes none that another process has locked."""
    tried.formatted(path)
    child, before = tried.node(path), read(path)
    tried.expect(["store", path], "mount\nformat 4\nlist\n", "refused Locked\nrefused Locked\nrefused Broken\n")
    tried.says(["node", path, "0", "1"], "recover\n", 4, f"{path}: another process has it open")
    tried.expect(["format", path, "4", "0", "1"], "", "", 1)
    tried.same(read(path), before, "a file that is locked")
    with open(path, "rb") as file:
        for how in (fcntl.LOCK_SH, fcntl.LOCK_EX):
            try:
                fcntl.flock(file, how | fcntl.LOCK_NB)
                tried.mark("it isn't locked", how)
            except BlockingIOError:
                tried.mark("", how)
    tried.ask(child, b"recover\nsubmit 3 6869\n", UP.replace(b"ok 1", b"ok 2") + b"take 0 0 3 6869\nok 3 id 0\n")
    tried.end(child, 0, b"", "a node whose file was asked for")
    for how in (fcntl.LOCK_SH, fcntl.LOCK_EX):
        with open(path, "rb") as file:
            fcntl.flock(file, how | fcntl.LOCK_NB)
            before = read(path)
            tried.expect(["store", path], "mount\nformat 4\nraise\n", "refused Locked\nrefused Locked\nrefused Broken\n")
            tried.expect(["node", path, "0", "1"], "recover\n", "", 4)
            tried.same(read(path), before, ("locked by another process", how))
        write(path + ".copy", read(path)[:-32])
        tried.expect(["store", path + ".copy"], "mount\nlist\n", "ok\ncount 1 next 1\njob 0 3 6869\n")
        os.remove(path + ".copy")
    os.truncate(path, 12_288)
    # a second mounting in one process has the file once the first one has given it up, and so has a format
    tried.expect(["store", path], "format 4\nmount\nmount\nraise\nmount\nlist\nformat 5\nmount\nlist\n", "ok\nok\nok\nok 1\nok\ncount 1 next 0\nok\nok\ncount 0 next 0\n")


def try_changed(tried, path):
    """A file that becomes shorter or longer while a node has it open."""
    for length in CUT:
        tried.formatted(path)
        child, before = tried.node(path), read(path)
        os.truncate(path, length)
        tried.ask(child, b"recover\n", b"fault 2 Device\n")
        tried.end(child, 7, b"", ("cut before it is mounted", length))
        tried.same(read(path), before[:length], ("cut before it is mounted", length))

        tried.formatted(path)
        child = tried.node(path)
        tried.ask(child, b"recover\n", UP.replace(b"ok 1", b"ok 2"))
        before = read(path)
        os.truncate(path, length)
        tried.ask(child, b"submit 0 61\n", b"group Down\nfault 3 Device\n")
        tried.end(child, 7, b"", ("cut before a write", length))
        tried.same(read(path), before[:length], ("cut before a write", length))
        # put back it is fit for use
        write(path, before)
        tried.expect(["node", path, "0", "1"], "recover\n", "group Normal 0 0:2 0\nkeeps 2 0 0\nok 1\n")
    for length in (12_321, 20_000):
        tried.formatted(path)
        child = tried.node(path)
        os.truncate(path, length)
        tried.lost(child, b"recover\n", path, WRITTEN_OVER, ("another length, with all sectors", length))
        tried.same(os.path.getsize(path), length, ("another length, with all sectors", length))
        tried.expect(["node", path, "0", "1"], "", "", 5)
        os.truncate(path, 12_288)
        tried.expect(["store", path], "mount\nlist\n", "ok\ncount 1 next 0\n")


def try_removed(tried, path):
    """A file that is removed while a node has it open, or whose name another one takes: of a file without a name the system says so itself."""
    for how in (os.remove, lambda path: os.rename(path + ".other", path)):
        for lines, asked, text in (
            (b"", b"recover\n", b"fault 2 Device\n"),
            (b"recover\n", b"recover\n", b"group Down\nfault 3 Device\n"),
            (b"recover\n", b"compact\n", b"group Down\nfault 3 Device\n"),
        ):
            write(path + ".other", b"")
            tried.formatted(path)
            child = tried.node(path)
            if lines:
                tried.ask(child, lines, UP.replace(b"ok 1", b"ok 2"))
            how(path)
            tried.ask(child, asked, text)
            said = child.stderr.read()
            tried.same(said.decode(), f"invite: {path}: the file was removed while it was open\n", (lines, asked))
            tried.end(child, 7, b"", (lines, asked))
            os.remove(path + ".other") if os.path.exists(path + ".other") else None
        # and so by the next job
        write(path + ".other", b"")
        tried.formatted(path)
        child = tried.node(path)
        tried.ask(child, b"recover\n", UP.replace(b"ok 1", b"ok 2"))
        how(path)
        out, _ = child.communicate(b"".join(b"submit 0 -\nfinish 0 %d\n" % at for at in range(8)), timeout=600)
        tried.mark("" if (child.returncode, out) == (7, b"") else f"status {child.returncode}, it answers {out[-200:]!r}", "removed before jobs")
        os.remove(path + ".other") if os.path.exists(path + ".other") else None


def emptied(path, begun, foreign):
    length = os.path.getsize(path)
    os.truncate(path, 0)
    os.truncate(path, length)


def over(data):
    def overwritten(path, begun, foreign):
        with open(path, "r+b") as file:
            file.write(data(begun, foreign))
    return overwritten


def try_displaced(tried, path):
    """A file whose name is gone or leads to another one, which was cut to nothing and grew again, or was written over, while a node has it open: what it is
    asked next isn't acknowledged. A second name of it doesn't hide that."""
    begun, foreign, second = path + ".begun", path + ".foreign", path + ".second"
    for name, change, said in (
        ("removed", lambda path, begun, foreign: os.remove(path), DISPLACED),
        ("replaced", lambda path, begun, foreign: os.rename(begun, path), DISPLACED),
        ("emptied", emptied, WRITTEN_OVER),
        ("another node's", over(lambda begun, foreign: read(foreign)), WRITTEN_OVER),
        ("its own of before", over(lambda begun, foreign: read(begun)), OLDER_COUNT),
    ):
        for asked in (b"submit 0 61\n", b"finish 0 1000\n", b"compact\n", b"state\nsubmit 0 61\nstate\n"):
            tried.formatted(path, "4 0 1 1000 --cluster orders")
            tried.formatted(foreign, "4 1 2 9000 --cluster orders")
            shutil.copy(path, begun)
            os.link(path, second)
            child = tried.node(path)
            tried.ask(child, b"recover\nsubmit 0 62\n", b"group Normal 0 0:1001 0\nkeeps 1001 1000 0\nok 2\ntake 0 1000 0 62\nok 3 id 1000\n")
            change(path, begun, foreign)
            tried.lost(child, asked, path, said, (name, asked))
            for one in (path, begun, foreign, second):
                os.remove(one) if os.path.exists(one) else None
    # before it is mounted, too
    for change in (lambda path: os.rename(begun, path), os.remove):
        tried.formatted(path)
        shutil.copy(path, begun)
        os.link(path, second)
        child = tried.node(path)
        change(path)
        tried.lost(child, b"recover\n", path, DISPLACED, "replaced before it is mounted")
        for one in (path, begun, second):
            os.remove(one) if os.path.exists(one) else None
    # another name of the file is as good, and so is what nobody wrote: a link to it, and its times
    tried.formatted(path)
    os.rename(path, begun)
    os.symlink(begun, path)
    child = tried.node(path)
    os.utime(path)
    os.chmod(path, 0o640)
    tried.ask(child, b"recover\nsubmit 0 61\n", UP.replace(b"ok 1", b"ok 2") + b"take 0 0 0 61\nok 3 id 0\n")
    tried.end(child, 0, b"", "a link to the file")
    os.remove(path)
    os.remove(begun)


def try_clusters(tried, path):
    """A file that says its cluster, and one that doesn't, to a node that says one and to one that doesn't; and bytes that are cut out in front of a label."""
    other = f"{path}: it is the file of node 0 of 3 of another cluster"
    for made, asked, taken in (
        ("", [], True), ("", ["--cluster", "orders"], True), (" --cluster orders", [], True), (" --cluster orders", ["--cluster", "orders"], True),
        (" --cluster orders", ["--cluster", "bills"], False), (" --cluster orders", ["--cluster", ""], False), (" --cluster orders", ["--cluster", "orders2"], False),
    ):
        for stride in ("512", "4096"):
            tried.formatted(path, f"4 0 3 --stride {stride}{made}")
            before = read(path)
            if taken:
                tried.expect(["node", path, "0", "3", *asked], "", "")
            else:
                tried.says(["node", path, "0", "3", *asked], "recover\n", 5, other)
            tried.same(read(path), before, (made, asked))
    for slots, stride, sectors in ((64, 512, 1), (64, 512, 8), (64, 4096, 1), (300, 512, 4)):
        tried.formatted(path, f"{slots} 0 3 --stride {stride} --cluster orders")
        data = read(path)
        for more in (data[:-32 - sectors * stride] + data[-32:], data[:-32] + bytes(sectors * stride) + data[-32:]):
            write(path, more)
            tried.says(["node", path, "0", "3"], "recover\n", 5, f"{path}: it was made with {slots} slots, and isn't as long as that: bytes of it are missing, or were put in")
            tried.same(read(path), more, (slots, stride, sectors))
    # a file of version 1 is served on, and stays one; its cluster and its slots aren't said
    write(path, bytes_of(4, EMPTY, OLDER))
    tried.expect(["node", path, "0", "3", "--cluster", "orders"], "recover\nsubmit 3 6869 7\n", UP + b"take 0 0 3 6869 7\nok 2 id 0\n")
    tried.same(read(path)[-16:], bytes.fromhex(OLDER), "a label of version 1")
    write(path, read(path)[:-16 - 512] + read(path)[-16:])
    tried.expect(["node", path, "0", "3"], "", "", 5)
    tried.formatted(path, "4 0 3")


def try_skipped(tried, path):
    """The number that comes next, in a slot of the counter that isn't sealed: the node skips it before it is served. Nothing else is skipped."""
    based, number = {**EMPTY, 8: "03", 9: SEAL}, lambda count: f"{count:016x}"
    for sectors, count, skipped in (
        ({2: number(1)}, 0, 1),
        ({0: number(5), 2: number(6), 3: "a4"}, 5, 6),
        ({0: number(8), 1: "00", 2: number(7), 3: SEAL}, 7, 8),
        ({0: number(255), 2: number(256)}, 255, 256),
        ({2: number(2)}, 0, None),
        ({0: number(1), 2: number(1)}, 1, None),
        ({2: number(1) + "00" * 503 + "01"}, 0, None),
        ({2: number(1), 3: SEAL}, 1, None),
        ({0: "ff" * 8}, 2 ** 64 - 1, None),
    ):
        for stride in (SECTOR, BLOCK):
            for fed in (b"", b"recover\n"):
                packed = bytes_of(4, {**based, **sectors}, label_of(0, 1, 4))
                write(path, packed if stride == SECTOR else spread(packed))
                ended = program.run(tried.program, ["node", path, "0", "1"], fed)
                last = (skipped or count) + 1
                text = "refused 1 Exhausted\n" if last >> 64 else f"group Normal 0 0:{last} 0\nkeeps {last} 0 0\nok 1\n"
                said = f"invite: {path}: group number 0:{skipped} may have been given before: it is skipped\n" if skipped else ""
                tried.same((ended.returncode, ended.stdout.decode(), ended.stderr.decode()), (0, text if fed else "", said), (sectors, stride, fed))
                found = tried.run(["inspect", "--verify", path], "")[1].decode()
                tried.mark("" if f"\ncount {min(last, 2 ** 64 - 1) if fed else skipped or count}\n" in found else f"then there is {found!r}", (sectors, stride, fed))
    # of a file that can't be mounted the node says why, and nothing is skipped
    for sectors, why in (({2: number(1), 10: "07", 11: SEAL}, "Damaged 10"), ({1: "00", 2: number(1)}, "NotFormatted"), ({0: number(0) + "01", 2: number(1)}, "Damaged 0")):
        write(path, bytes_of(4, {**based, **sectors}, label_of(0, 1, 4)))
        tried.expect(["node", path, "0", "1"], "recover\n", f"refused 1 {why}\n")
        tried.same(read(path), bytes_of(4, {**based, **sectors}, label_of(0, 1, 4)), why)


def try_foreign(tried, path):
    """No store is made or mounted of a node's file, whatever the version of its format."""
    for label in (NODES[0][3], OLDER, "64756d6765726f6b 03 00 03 0000000000", "64756d6765726f6b ff ff ff ffffffffff"):
        write(path, bytes_of(4, EMPTY, label))
        tried.expect(["store", path], "format 4\nmount\nlist\n", "refused Foreign\nrefused Foreign\nrefused Broken\n")
        tried.same(read(path), bytes_of(4, EMPTY, label), ("a node's file", label))
    for label in ("64756d6765726f6b 01 00 03 00000000", "64756d6765726f6c 01 00 03 0000000000"):
        write(path, bytes_of(4, EMPTY, label))
        tried.expect(["store", path], "mount\nlist\n", "ok\ncount 0 next 0\n")


def limited(most):
    """No file may be longer than that, in a process that is begun with this."""
    def limit():
        resource.setrlimit(resource.RLIMIT_FSIZE, (most, most))
        signal.signal(signal.SIGXFSZ, signal.SIG_IGN)
    return limit


def try_too_long(tried, path):
    """A length that can't be had."""
    for kept in (b"", b"\x55" * 5000, bytes_of(5, EMPTY)):
        write(path, kept)
        # what is there is mounted as before, for its device hasn't failed
        tried.answers(path, "format 73\nmount\n", "refused Device\n" + ("ok\n" if len(kept) == 14_336 else "refused TooSmall\n"), reason(1, "NoRoom", errno.EFBIG), preexec_fn=limited(150_000))
        tried.same((read(path), os.path.exists(path + ".unfinished")), (kept, False), "a file that is there")
    tried.expect(["store", path], "format 73\n", "ok\n", preexec_fn=limited(153_600))
    os.remove(path)
    # the label is written last; what was made of a file that isn't whole is removed
    for most in (12_287, 12_288, 12_319):
        tried.says(["format", path, "4", "0", "1"], "", 8, f"{path}: there is no room for it: File too large (os error 27)", preexec_fn=limited(most))
        tried.mark("it is there" if os.path.exists(path) else "", ("format", most))
        tried.answers(path, "format 4\n", *(("refused Device\n", reason(1, "NoRoom", errno.EFBIG)) if most == 12_287 else ("ok\n", "")), preexec_fn=limited(most))
        tried.same(os.path.exists(path), most > 12_287, ("store", most))
        if most > 12_287:
            os.remove(path)
    tried.expect(["format", path, "4", "0", "1"], "", "", preexec_fn=limited(12_320))
    tried.expect(["node", path, "0", "1"], "", "")


def try_refused_calls(tried, folder, path):
    """The system refuses to open or to lock a file, or a call fails and the file is mounted again."""
    library, noted = program.library("faults", folder), os.path.join(folder, "noted")

    def failing(at, error):
        return {"env": {**os.environ, "LD_PRELOAD": library, "FAULT_FILE": path, "FAULT_AT": str(at), "FAULT": str(error), "FAULT_COUNT": noted}}

    for error, status, word in OPENING:
        tried.formatted(path)
        tried.expect(["node", path, "0", "1"], "recover\n", "", status, **failing(1, error))
        tried.answers(path, "mount\nlist\n", "refused Device\nrefused Broken\n", reason(1, word, error), **failing(1, error))
        os.remove(path)
        tried.expect(["format", path, "4", "0", "1"], "", "", status, **failing(1, error))
        tried.mark("it was made" if os.path.exists(path) else "", ("format", errno.errorcode[error]))
    # opened, asked what it is, and then locked
    for error, status, word in LOCKING:
        tried.formatted(path)
        before = read(path)
        tried.expect(["node", path, "0", "1"], "recover\n", "", status, **failing(3, error))
        tried.same(read(noted).split()[1:], [b"flock"], "the third call")
        said = "" if word == "Locked" else reason(1, word, error)
        tried.answers(path, "mount\n", f"refused {word}\n", said, **failing(3, error))
        tried.answers(path, "format 5\n", f"refused {word}\n", said, **failing(3, error))
        tried.same(read(noted).split()[1:], [b"flock"], "the third call")
        tried.same(read(path), before, "a file that couldn't be locked")
    # a format that fails at any call removes what it made, and says why
    for error, status, said in ((errno.EIO, 3, "the device failed: Input/output error (os error 5)"), (errno.ENOSPC, 8, "there is no room for it: No space left on device (os error 28)")):
        for at in range(1, 200):
            if os.path.exists(path):
                os.remove(path)
            ended = program.run(tried.program, ["format", path, "4", "0", "3", "7"], b"", **failing(at, error))
            if ended.returncode == 0:
                break
            tried.same((ended.returncode, ended.stderr.decode(), os.path.exists(path)), (status, f"invite: {path}: {said}\n", False), ("format", at, read(noted)))
        tried.mark("" if 40 < at < 199 else f"{at} calls", "a format's calls")
    # a device that fails before a node is served, which has opened its file with seven calls and looks at its counter with 17, and while it runs
    for at in range(8, 48):
        tried.formatted(path)
        ended = program.run(tried.program, ["node", path, "0", "1"], b"recover\n", **failing(at, errno.EIO))
        has_failed = at <= 24 and ended.stdout == b"" or b"fault 1 Device" in ended.stdout
        tried.same((ended.returncode, ended.stderr.decode()), (3, f"invite: {path}: the device failed: Input/output error (os error 5)\n") if has_failed else (0, ""), at)

    # Calls of a mounting: it opens the file, asks what it is, locks it and asks for its length, and once more for its label; a sync; eight reads, one
    # less before the first raise, and before all but the last a look whether the file has its name. Of a raise: such a look before the number, a look at
    # the length with each of two or three writes, and as many syncs. Once one failed, nothing is mounted by this process any more. Of a mounting that
    # fails it is said why.
    session, at, none_more = "mount\nraise\nmount\nraise\nlist\n", 0, "refused Device\nrefused Broken\nrefused Broken\n"
    for calls, text, counts, line in (
        (19, "refused Device\nrefused Broken\n" + none_more, "0", 1),
        (6, "ok\nrefused Device\n" + none_more, "01", None),
        # the sync of the gate alone: it was written
        (1, "ok\nrefused Device\n" + none_more, "1", None),
        (21, "ok\nok 1\n" + none_more, "1", 3),
        (10, "ok\nok 1\nok\nrefused Device\ncount 1 next 0\n", "12", None),
        (3, "ok\nok 1\nok\nok 2\ncount 2 next 0\n", "2", None),
    ):
        for _ in range(calls):
            at += 1
            write(path, bytes_of(4, EMPTY))
            tried.answers(path, session, text, reason(line, "Device", errno.EIO) if line else "", **failing(at, errno.EIO))
            found = tried.run(["store", path], "mount\nlist\n")[1].decode()
            tried.mark("" if found in [f"ok\ncount {count} next 0\n" for count in counts] else f"then there is {found!r}", ("call that fails", at))
    # a format makes a file of its own, which may be mounted
    write(path, bytes_of(4, EMPTY))
    tried.answers(path, "mount\nmount\nformat 4\nmount\nlist\n", "refused Device\nrefused Device\nok\nok\ncount 0 next 0\n", reason(1, "Device", errno.EIO), **failing(6, errno.EIO))


def try_short_calls(tried, folder, path):
    """Reads and writes that move less than was asked for, or are interrupted, are gone on with; where nothing is moved at all, that is printed."""
    library, noted = program.library("short", folder), os.path.join(folder, "disturbed")
    lines = "format 4\nmount\nraise\nput 1 6869\nput 15 " + "a5" * 400 + " 255\ndone 0\ncompact\nraise\nmount\nlist\n"
    whole, answers, before = None, None, bytes_of(4, EMPTY)
    for most in (1 << 20, 511, 100, 5, 1):
        env = {**os.environ, "LD_PRELOAD": library, "SHORT_FILE": path, "SHORT_MOST": str(most), "SHORT_COUNT": noted}
        write(path, b"\x55" * 5000)
        if whole is None:
            answers = tried.run(["store", path], lines)
            whole = read(path)
            write(path, b"\x55" * 5000)
        tried.same(tried.run(["store", path], lines, env=env), answers, ("moved at most", most))
        tried.same(read(path), whole, ("moved at most", most))
        tried.mark("" if int(read(noted)) > 50 else f"{read(noted)} calls were disturbed", ("moved at most", most))
        tried.formatted(path)
        tried.expect(["node", path, "0", "1"], "recover\nsubmit 0 61\n", UP + b"take 0 0 0 61\nok 2 id 0\n", env=env)
    tried.same(answers, (0, b"ok\nok\nok 1\nok 0\nok 1\nok\nok\nok 2\nok\ncount 2 next 2\njob 1 15 " + b"a5" * 400 + b" 255\n"), "the session")
    env["SHORT_MOST"] = "0"
    write(path, before)
    tried.answers(path, "mount\n", "refused Device\n", "invite: line 1: Device: the device failed: failed to fill whole buffer\n", env=env)
    tried.same(read(path), before, "nothing is moved")
    tried.answers(path, "format 4\n", "refused Device\n", "invite: line 1: Device: the device failed: failed to write whole buffer\n", env=env)
    tried.same((read(path), os.path.exists(path + ".unfinished")), (before, False), "nothing is moved")
    os.remove(path)
    tried.expect(["format", path, "4", "0", "1"], "", "", 3, env=env)
    tried.mark("it is there" if os.path.exists(path) else "", "a format that moves nothing")


def main():
    tried = Tried(program.named())
    with tempfile.TemporaryDirectory() as folder:
        path = os.path.join(folder, "path")
        try_bytes(tried, path)
        try_lengths(tried, path)
        try_labels(tried, path)
        try_locked(tried, path)
        try_changed(tried, path)
        try_removed(tried, path)
        try_displaced(tried, path)
        try_clusters(tried, path)
        try_skipped(tried, path)
        try_foreign(tried, path)
        try_too_long(tried, path)
        for run in (try_made, try_places, try_denied):
            inner = os.path.join(folder, run.__name__)
            os.mkdir(inner)
            os.chmod(folder, 0o755)
            run(tried, inner)
        if shutil.which("cc") is None:
            print("files.py: there is no C compiler cc, so no call was refused or cut short")
        else:
            try_refused_calls(tried, folder, path)
            try_short_calls(tried, folder, path)
    return tried.close()


if __name__ == "__main__":
    sys.exit(main())
