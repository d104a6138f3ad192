#!/usr/bin/env python3
"""Lines of specs and proofs have at most 140 columns.

    columns.py           tells those that have more; the last line counts the files
    columns.py --write   breaks them where their parts end, and has rt fmt set what it broke in
"""
import glob, os, subprocess, sys

TOP = os.path.dirname(os.path.dirname(os.path.dirname(os.path.abspath(__file__))))
sys.path.append(os.path.join(TOP, "tests"))
from common.tally import Tally
# A piece has so many columns at least, where that can be; the rest of a line stands so much further in than its begin.
MOST, LEAST, FURTHER = 140, 56, 4
OPEN, CLOSE = "([{⟨", ")]}⟩"
# A line is broken before these words, and behind those: the lower the number, the rather.
BEFORE = {"→": 0, "|": 0, "⊎": 1, "×": 1, "∙": 1, "then": 1, "else": 1, "≡": 2, "where": 3, "++": 3, "&&": 3, "||": 3}
BEHIND = {"in": 0, ",": 0, "=": 1, "↦": 2, ":": 2, "of": 2}
# One bracket more about a place weighs as much as so many of these numbers.
DEPTH, OTHER = 4, 9


def rank(behind, before, depth):
    """How well a line is broken between these words."""
    if behind == ":" and depth:
        return OTHER
    if behind.endswith(")") and before.startswith("(") and not depth:
        return 2
    head_of_function = 5 if behind.endswith(".") and behind != "." else OTHER
    return min(BEFORE.get(before, OTHER), BEHIND.get("," if behind.endswith(",") else behind, OTHER), head_of_function)


def places(text, begin):
    """The spaces behind the begin at which the text may be broken, each with what that costs."""
    depth, is_quoted = 0, False
    for at, letter in enumerate(text):
        is_quoted ^= letter == '"'
        if is_quoted:
            continue
        depth += (letter in OPEN) - (letter in CLOSE)
        behind, before = text[:at].rsplit(" ", 1)[-1], text[at + 1:].split(" ", 1)[0]
        if letter == " " and at > begin and before:
            yield at, depth * DEPTH + rank(behind, before, depth)


def broken(line):
    """The lines that it becomes."""
    begin = len(line) - len(line.lstrip(" "))
    if line.lstrip().startswith("-- "):
        return filled(" " * begin + "-- ", line[begin + 3:].split(" "), " ", "")
    if line.lstrip().startswith(("use ", "pub use ")) and line.endswith("}"):
        # over several lines it would have one for each name
        head, _, names = line.partition("{")
        return filled(head + "{", names[:-1].split(", "), ", ", "}")
    lines, own = [], begin
    while len(line) > MOST:
        all_places = [one for one in places(line, own) if one[0] <= MOST]
        fit = [one for one in all_places if one[0] >= own + LEAST] or all_places
        if not fit:
            break
        at = min(fit, key=lambda one: (one[1], -one[0]))[0]
        lines.append(line[:at])
        own = begin + FURTHER
        line = " " * own + line[at + 1:]
    return lines + [line]


def filled(head, words, between, end):
    """As many words a line as it takes, each line with this head and end."""
    lines, now = [], []
    for word in words:
        if now and len(head + between.join(now + [word]) + end) > MOST:
            lines.append(head + between.join(now) + end)
            now = []
        now.append(word)
    return lines + [head + between.join(now) + end]


def read(path):
    with open(path) as file:
        return file.read()


def write(path):
    """Breaks the lines of a file; whether there were such."""
    old = read(path)
    new = "\n".join(part for line in old.split("\n") for part in ([line] if len(line) <= MOST else broken(line)))
    if new != old:
        with open(path, "w") as file:
            file.write(new)
    return new != old


def write_all():
    """What rt fmt sets in may be too wide again, so both take turns."""
    for crate in sorted(glob.glob(os.path.join(TOP, "crates/*"))):
        for _ in range(4):
            if any([write(path) for path in files_of(crate)]):
                subprocess.run(["rt", "fmt"], cwd=crate, stdout=subprocess.DEVNULL, check=True)


def files_of(crate):
    return [path for part in ("specs", "proofs") for path in sorted(glob.glob(os.path.join(crate, part, "**/*.antt"), recursive=True))]


def main():
    if "--write" in sys.argv[1:]:
        write_all()
    tally = Tally()
    for path in files_of(os.path.join(TOP, "crates/*")):
        wide = [(number, len(line)) for number, line in enumerate(read(path).split("\n"), 1) if len(line) > MOST]
        tally.mark("; ".join("line %d has %d columns, of at most %d" % (number, columns, MOST) for number, columns in wide), os.path.relpath(path, TOP))
    return tally.close()


if __name__ == "__main__":
    sys.exit(main())
