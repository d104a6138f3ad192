"""The schedules and plans of this repository. What stands in front of the line `----` is what the program reads, and what stands behind it what it prints."""
import glob
import os

TOP = os.path.dirname(os.path.dirname(os.path.dirname(os.path.abspath(__file__))))
LINE = "----\n"


def acts(path):
    """What the program reads."""
    with open(path, encoding="utf-8") as file:
        return file.read().partition(LINE)[0]


def all_of(folder):
    """The files of the folder schedules, or plans."""
    return sorted(glob.glob(os.path.join(TOP, folder, "*.txt")))
