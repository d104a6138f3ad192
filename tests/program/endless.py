#!/usr/bin/env python3
"""An input without an end, a line feed at each read: 16,777,216 reads are made, and it can't be read.

    endless.py PROGRAM

It takes minutes over a program with checks at run time. Where there is no C compiler, nothing is tried. The last line counts the checks."""
import os, subprocess, sys, tempfile

sys.path.append(os.path.join(os.path.dirname(os.path.abspath(__file__)), ".."))
from common import program
from common.tally import Tally

MOST = 16777216


def main():
    invite, tally = program.named(), Tally()
    program.compiler("no input was without an end")
    with tempfile.TemporaryDirectory() as folder:
        library, noted = program.library("endless", folder), os.path.join(folder, "reads")
        with open(noted, "wb") as file:
            file.truncate(8)
        environment = {**os.environ, "LD_PRELOAD": library, "NOTED": noted}
        found = subprocess.run([invite, "show"], stdin=subprocess.DEVNULL, capture_output=True, env=environment, timeout=600)
        with open(noted, "rb") as file:
            reads = int.from_bytes(file.read(), "little")
    said = b"invite: can't read: the input has no end within %d reads\n" % MOST
    tally.same((found.returncode, found.stdout, found.stderr, reads), (1, b"", said, MOST), "an input without an end")
    return tally.close()


sys.exit(main())
