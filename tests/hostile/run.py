#!/usr/bin/env python3
"""Hostile input: what is fed to the commands, byte by byte, line by line, sector by sector, entry by entry, and with each allocation refused.

    run.py PROGRAM [--long] [NAME..]

The expected texts are worked out here from the pages under docs/. Each NAME is one of bytes, lines, plans, files, traces, shapes, memory, refused, streams; with none
all are tried, and with --long more of each. It needs a C compiler for what is loaded before the C library, and says so where there is none; and for `refused` the
programs of tests that `rt ci`, or `rt test` in their crates, leaves. The last line counts the checks."""
import os, sys, time

sys.dont_write_bytecode = True
sys.path.append(os.path.join(os.path.dirname(os.path.abspath(__file__)), ".."))
from common.program import named
from common.tally import Tally
from program import Tried


def main():
    program, words, tally = named(), sys.argv[2:], Tally()
    names = [word for word in words if not word.startswith("--")] or ["bytes", "lines", "plans", "files", "traces", "shapes", "memory", "refused", "streams"]
    for name in names:
        begun = time.monotonic()
        tried = Tried(program, name, "--long" in words)
        getattr(__import__(f"{name}_tried"), f"try_{name}")(tried)
        tally.add(*tried.told())
        print(f"{name}: {time.monotonic() - begun:.1f} s", file=sys.stderr)
    return tally.close()


sys.exit(main())
