"""A folder whose files lie on a device of its own: a file system over /dev/fuse with a write-back cache, as the ones of disks have. What the kernel
writes back is what the device holds. A write of the device can be made to fail once: then the kernel answers the sync with an error and takes the
page for clean, so that reads give what the device never had."""
import ctypes
import errno
import os
import struct
import threading
import time

ROOT = 1
WRITEBACK_CACHE, BIG_WRITES = 1 << 16, 1 << 5
HAS_SIZE = 1 << 3  # of a request that changes attributes
KEEP_CACHE = 1 << 1  # of an opened file: as disks do it
LOOKUP, FORGET, GETATTR, SETATTR, UNLINK, RENAME, OPEN, READ, WRITE, STATFS, RELEASE = 1, 2, 3, 4, 10, 12, 14, 15, 16, 17, 18
FSYNC, FLUSH, INIT, OPENDIR, READDIR, RELEASEDIR, FSYNCDIR, CREATE, INTERRUPT, BATCH_FORGET = 20, 25, 26, 27, 28, 29, 30, 35, 36, 42
UNANSWERED = (FORGET, INTERRUPT, BATCH_FORGET)


class Failure(Exception):
    """The error that a request is answered with."""

    def __init__(self, code):
        super().__init__(os.strerror(code))
        self.code = code


class Device:
    """Mounts the folder; `with Device(folder) as device` takes it away at the end. OSError where /dev/fuse can't be had."""

    def __init__(self, folder):
        self.folder, self.files, self.names, self.made = folder, {}, {}, ROOT
        self.fail_in = 0
        self.failed = 0
        self.fd = os.open("/dev/fuse", os.O_RDWR)
        self.libc = ctypes.CDLL(None, use_errno=True)
        options = f"fd={self.fd},rootmode=40000,user_id={os.getuid()},group_id={os.getgid()}".encode()
        if self.libc.mount(b"device", os.fsencode(folder), b"fuse", 0, options):
            code = ctypes.get_errno()
            os.close(self.fd)
            raise OSError(code, os.strerror(code))
        threading.Thread(target=self.serve, daemon=True).start()

    def __enter__(self):
        return self

    def __exit__(self, *_):
        self.libc.umount2(os.fsencode(self.folder), 2)

    def fail_write(self, number):
        """The write of that number from now on, the next one being 1, fails; only that one."""
        self.fail_in = number

    def held(self, name):
        """What the device holds of a file: what a loss of power leaves."""
        return bytes(self.files[self.names[os.fsencode(name)]])

    def serve(self):
        while True:
            try:
                request = os.read(self.fd, 1 << 20)
            except OSError as error:
                if error.errno == errno.ENODEV:  # unmounted
                    return
                continue
            length, kind, unique, node = struct.unpack_from("<IIQQ", request)
            if kind in UNANSWERED:
                continue
            try:
                answer, code = self.answer(kind, node, request[40:length]), 0
            except Failure as failure:
                answer, code = b"", failure.code
            os.write(self.fd, struct.pack("<IiQ", 16 + len(answer), -code, unique) + answer)

    def answer(self, kind, node, body):
        if kind == INIT:
            return self.greeting(body)
        if kind == LOOKUP:
            return self.entry(self.node_of(name_in(body)))
        if kind == GETATTR:
            return self.attributes(node)
        if kind == SETATTR:
            return self.resize(node, body)
        if kind == CREATE:
            return self.create(name_in(body[16:]))
        if kind == UNLINK:
            self.names.pop(name_in(body), None)
            return b""
        if kind == RENAME:
            return self.rename(body[8:])
        if kind in (OPEN, OPENDIR):
            return struct.pack("<QII", node, KEEP_CACHE, 0)
        if kind == READ:
            _, offset, size = struct.unpack_from("<QQI", body)
            return bytes(self.files[node][offset : offset + size])
        if kind == WRITE:
            return self.write(node, body)
        if kind == STATFS:
            return struct.pack("<5Q4I6I", 1 << 20, 1 << 20, 1 << 20, 1000, 1000, 4096, 255, 4096, 0, *[0] * 6)
        if kind in (RELEASE, RELEASEDIR, FSYNC, FSYNCDIR, FLUSH, READDIR):
            return b""
        raise Failure(errno.ENOSYS)

    def greeting(self, body):
        ahead = struct.unpack_from("<IIII", body)[2]
        return struct.pack("<IIIIHHIIHH8I", 7, 31, ahead, BIG_WRITES | WRITEBACK_CACHE, 16, 12, 1 << 17, 1, 32, 0, *[0] * 8)

    def node_of(self, name):
        if name not in self.names:
            raise Failure(errno.ENOENT)
        return self.names[name]

    def stat(self, node):
        now = int(time.time())
        kind, links, size = (0o040700, 2, 0) if node == ROOT else (0o100600, 1, len(self.files[node]))
        return struct.pack("<6Q3I7I", node, size, (size + 511) // 512, now, now, now, 0, 0, 0, kind, links, os.getuid(), os.getgid(), 0, 4096, 0)

    def attributes(self, node):
        return struct.pack("<QII", 3600, 0, 0) + self.stat(node)

    def entry(self, node):
        return struct.pack("<4Q2I", node, 0, 0, 3600, 0, 0) + self.stat(node)

    def resize(self, node, body):
        asked, _, _, size = struct.unpack_from("<IIQQ", body)
        if asked & HAS_SIZE:
            grow(self.files[node], size)
            del self.files[node][size:]
        return self.attributes(node)

    def create(self, name):
        self.made += 1
        self.files[self.made], self.names[name] = bytearray(), self.made
        return self.entry(self.made) + struct.pack("<QII", self.made, KEEP_CACHE, 0)

    def rename(self, names):
        old, new = names.split(b"\0")[:2]
        self.names[new] = self.node_of(old)
        del self.names[old]
        return b""

    def write(self, node, body):
        _, offset, size = struct.unpack_from("<QQI", body)
        self.fail_in -= 1
        if self.fail_in == 0:
            self.failed += 1
            raise Failure(errno.EIO)
        grow(self.files[node], offset + size)
        self.files[node][offset : offset + size] = body[40 : 40 + size]
        return struct.pack("<II", size, 0)


def name_in(body):
    return body.split(b"\0")[0]


def grow(file, size):
    file.extend(bytes(max(0, size - len(file))))
