"""A copy of some crates and those that they stand on, for rt ci: it goes by a crate's files, its line in crates.txt and the crates below, so it takes over
what the gate proved, and keeps for the gate what it proves."""
import os
import re
import shutil

TOP = os.path.dirname(os.path.dirname(os.path.dirname(os.path.abspath(__file__))))
PARTS = ("src", "specs", "proofs")


def text_of(path):
    with open(path, encoding="utf-8") as it:
        return it.read()


def lines_of_crates():
    """Returns the line in crates.txt of each crate."""
    lines = [it for it in text_of(f"{TOP}/crates.txt").split("\n") if it and not it.startswith("#")]
    return {re.match(r"\w+", it)[0]: it for it in lines}


def lay(folder, names):
    """Makes a repository of these crates and those below, without tests and wrong bodies."""
    lines, wanted = lines_of_crates(), []

    def want(name):
        if name in lines and name not in wanted:
            for below in lines[name].partition(":")[2].split():
                want(below)
            wanted.append(name)

    for name in names:
        want(name)
    os.makedirs(f"{folder}/.git")  # (the top of a repository is where .git is)
    shutil.copy(f"{TOP}/HANDLES", folder)
    with open(f"{folder}/crates.txt", "w", encoding="utf-8") as it:
        it.write("".join(f"{lines[name]}\n" for name in wanted))
    for name in wanted:
        for part in PARTS:
            if os.path.isdir(f"{TOP}/crates/{name}/{part}"):
                shutil.copytree(f"{TOP}/crates/{name}/{part}", f"{folder}/crates/{name}/{part}")
