"""A block device with a volatile cache: a loop device over a file of a file system of its own over /dev/fuse. Each write that reaches it and each flush is noted, in
their order, so that what a loss of power leaves can be made: all that was written before the last flush, and any part of what came later. Writes can be made to
fail. And file systems on such devices and on plain files, mounted and taken away again. Root is needed."""
import contextlib, ctypes, errno, os, shutil, stat, struct, subprocess, threading, time

SECTOR, BLOCK, FILE = 512, 4096, 2
LOOKUP, FORGET, GETATTR, SETATTR, OPEN, READ, WRITE, STATFS, RELEASE, FSYNC, FLUSH, INIT, OPENDIR, READDIR, RELEASEDIR, FSYNCDIR, INTERRUPT, BATCH_FORGET, FALLOCATE = (
    1, 2, 3, 4, 14, 15, 16, 17, 18, 20, 25, 26, 27, 28, 29, 30, 36, 42, 43)
ZEROED, PUNCHED, DIRECT, BIG_WRITES = 0x10, 0x02, 1, 1 << 5

# What makes a file system, and how many MiB it takes at least.
SYSTEMS = {"ext4": (["mkfs.ext4", "-q", "-F", "-J", "size=4"], 24), "xfs": (["mkfs.xfs", "-q", "-f"], 310), "btrfs": (["mkfs.btrfs", "-q", "-f"], 130)}


class Missing(Exception):
    """Something isn't there that it takes."""


def system(*words, **options):
    done = subprocess.run(words, stdout=subprocess.PIPE, stderr=subprocess.PIPE, **options)
    if done.returncode:
        raise Missing(f"{' '.join(words)}: {done.stderr.decode().strip()}")
    return done.stdout.decode().strip()


def made(path, kind, least=0):
    """A file with an empty file system."""
    words, size = SYSTEMS[kind]
    if not shutil.which(words[0]):
        raise Missing(f"there is no {words[0]}")
    with open(path, "wb") as file:
        file.truncate(max(size, least) << 20)
    system(*words, path)


@contextlib.contextmanager
def mounted(what, folder, options="loop"):
    """The file system of a file, or of a device, in a folder."""
    os.makedirs(folder, exist_ok=True)
    system("mount", *(["-o", options] if options else []), what, folder)
    try:
        yield folder
    finally:
        for _ in range(200):
            if subprocess.run(["umount", folder], stderr=subprocess.DEVNULL).returncode == 0:
                break
            time.sleep(0.05)
        else:
            system("umount", "-l", folder)


@contextlib.contextmanager
def looped(path):
    """A loop device over a file."""
    name = system("losetup", "-f", "--show", path)
    try:
        yield name
    finally:
        system("losetup", "-d", name)
        time.sleep(0.3)


class Device:
    """A device that begins with the contents of a file; `with Device(folder, path) as device` takes it away at the end."""

    def __init__(self, folder, path):
        os.makedirs(folder, exist_ok=True)
        self.folder, self.path, self.size = folder, os.path.join(folder, "device"), os.path.getsize(path)
        self.base = open(path, "rb")
        self.blocks, self.log, self.failed, self.lock = {}, [], 0, threading.Lock()
        self.fails = lambda place, data: False
        self.libc = ctypes.CDLL(None, use_errno=True)
        self.fd = os.open("/dev/fuse", os.O_RDWR)
        if self.libc.mount(b"device", os.fsencode(folder), b"fuse", 0, f"fd={self.fd},rootmode=40000,user_id=0,group_id=0,allow_other".encode()):
            raise Missing(f"/dev/fuse: {os.strerror(ctypes.get_errno())}")
        threading.Thread(target=self.serve, daemon=True).start()

    def __enter__(self):
        return self

    def __exit__(self, *_):
        self.libc.umount2(os.fsencode(self.folder), 2)
        self.base.close()

    def block(self, number):
        if number not in self.blocks:
            self.base.seek(number * BLOCK)
            self.blocks[number] = bytearray(self.base.read(BLOCK).ljust(BLOCK, b"\0"))
        return self.blocks[number]

    def read(self, place, size):
        piece = bytearray()
        while len(piece) < min(size, self.size - place):
            number, at = divmod(place + len(piece), BLOCK)
            piece += self.block(number)[at:at + size - len(piece)]
        return bytes(piece)

    def write(self, place, data):
        for at in range(0, len(data), SECTOR):
            number, within = divmod(place + at, BLOCK)
            self.block(number)[within:within + SECTOR] = data[at:at + SECTOR]
        self.log.append((place, data))

    def left(self, chance, path, kept):
        """Writes what a loss of power leaves; of each sector that was written since the last flush the chance that the device kept it is this."""
        flushed = max((at for at, entry in enumerate(self.log) if entry is None), default=0)
        shutil.copyfile(self.base.name, path)
        with open(path, "r+b") as out:
            for at, entry in enumerate(self.log):
                for first in range(0, len(entry[1]) if entry else 0, SECTOR):
                    if at < flushed or chance.random() < kept:
                        out.seek(entry[0] + first)
                        out.write(entry[1][first:first + SECTOR])

    def attributes(self, node):
        size, mode, links = (self.size, stat.S_IFREG | 0o600, 1) if node == FILE else (0, stat.S_IFDIR | 0o700, 2)
        return struct.pack("<6Q3I7I", node, size, size // SECTOR, 0, 0, 0, 0, 0, 0, mode, links, 0, 0, 0, BLOCK, 0)

    def answer(self, code, node, body):
        """The answer to a request, or the code of an error."""
        if code == INIT:
            ahead = struct.unpack_from("<IIII", body)[2]
            return struct.pack("<IIIIHHIIHH8I", 7, 31, ahead, BIG_WRITES, 16, 12, 1 << 17, 1, 32, 0, *([0] * 8))
        if code == LOOKUP:
            return struct.pack("<4Q2I", FILE, 0, 3600, 3600, 0, 0) + self.attributes(FILE) if body.split(b"\0")[0] == b"device" else errno.ENOENT
        if code in (GETATTR, SETATTR):
            return struct.pack("<QII", 3600, 0, 0) + self.attributes(node)
        if code in (OPEN, OPENDIR):
            return struct.pack("<QII", node, DIRECT if code == OPEN else 0, 0)
        if code == READ:
            return self.read(*struct.unpack_from("<QI", body, 8))
        if code in (WRITE, FALLOCATE):
            place, size = struct.unpack_from("<QI" if code == WRITE else "<QQ", body, 8)
            if code == FALLOCATE and not struct.unpack_from("<I", body, 24)[0] & (ZEROED | PUNCHED):
                return errno.EOPNOTSUPP
            data = body[40:40 + size] if code == WRITE else bytes(size)
            if self.fails(place, data):
                self.failed += 1
                return errno.EIO
            self.write(place, data)
            return struct.pack("<II", size, 0) if code == WRITE else b""
        if code == STATFS:
            return struct.pack("<5Q4I6I", 1 << 20, 1 << 20, 1 << 20, 1000, 1000, BLOCK, 255, BLOCK, 0, *([0] * 6))
        if code in (FSYNC, FSYNCDIR):
            self.log.append(None)
        return b"" if code in (FSYNC, FSYNCDIR, RELEASE, RELEASEDIR, FLUSH, READDIR) else errno.ENOSYS

    def serve(self):
        while True:
            try:
                raw = os.read(self.fd, (1 << 20) + BLOCK)
                length, code, unique, node = struct.unpack_from("<IIQQ", raw)
                if code in (FORGET, INTERRUPT, BATCH_FORGET):
                    continue
                with self.lock:
                    said = self.answer(code, node, raw[40:length])
                error, said = (said, b"") if isinstance(said, int) else (0, said)
                os.write(self.fd, struct.pack("<IiQ", 16 + len(said), -error, unique) + said)
            except OSError as why:
                if why.errno == errno.ENODEV:
                    return
