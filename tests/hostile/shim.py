"""The library that is loaded before the C library: tests/shim/hostile.c."""
import os, shutil
from common.program import library


def built(folder):
    """The library, or None where there is no C compiler."""
    return library("hostile", folder) if shutil.which("cc") else None


def environment(loaded, noted, **what):
    return {**os.environ, "LD_PRELOAD": loaded, "NOTED": noted, **{name: str(value) for name, value in what.items()}}


def read_noted(path):
    """The calls that write, each a sector or None for a sync, and the number of allocations."""
    calls, allocations = [], 0
    if os.path.exists(path):
        with open(path) as file:
            for line in file:
                word, _, rest = line.strip().partition(" ")
                if word == "allocations":
                    allocations = int(rest)
                else:
                    calls.append(int(rest) if word == "write" else None)
        os.remove(path)
    return calls, allocations
