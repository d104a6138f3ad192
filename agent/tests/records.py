"""The lines of a record: requests, and their answers in the order of the requests."""
import collections, os, re

CLOSES = re.compile(r"(ok|refused|bad|fault) ")


def parts(agents, i):
    """The files of a node's record, the oldest first."""
    names = [name for name in os.listdir(agents.folder) if re.fullmatch(r"%d\.record\.\d+" % i, name)]
    return [os.path.join(agents.folder, name) for name in sorted(names, key=lambda name: int(name.rsplit(".", 1)[1]))]


def answered(text):
    """Of each answer its request, its lines and where it begins in the text; of each start None."""
    asked, lines, begin, at = collections.deque(), [], 0, 0
    for line in text.splitlines(keepends=True):
        if line.startswith("> "):
            asked.append(line[2:-1])
        elif line.startswith("start"):
            asked.clear()
            lines = []
            yield None, [], at
        elif line[0] != "#":
            begin = begin if lines else at
            lines.append(line)
            if CLOSES.match(line):
                yield asked.popleft(), lines, begin
                lines = []
        at += len(line)
