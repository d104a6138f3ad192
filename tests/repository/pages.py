#!/usr/bin/env python3
"""Looks at the pages: README.md, CONTRIBUTING.md, SECURITY.md, docs/, and the READMEs below crates/, schedules/ and examples/. Each link leads to a file,
and to a heading of it; each file, script, schedule and wrong body that is named is there; docs/SOCKET.md names what agent/protocol.json has; the
hand-written pages keep their measure. Last it counts. `pages.py --figures` compares the figures of docs/figures.txt with what their commands
print, in place of that; it is run before a release."""
import collections, glob, os, re, subprocess, sys

sys.dont_write_bytecode = True
TOP = os.path.dirname(os.path.dirname(os.path.dirname(os.path.abspath(__file__))))
sys.path += [os.path.join(TOP, "tests"), os.path.join(TOP, "agent/tests")]
import promises
from common.tally import Tally
from schema import Schema

GENERATED = ["docs/PROMISES.md", "docs/TRUSTED.md"]
MEASURED = ("docs/PERFORMANCE.md", "docs/COMPARISON.md")
WORDS, LINE, CELL = 39400, 160, 40
MONTHS = "January|February|March|April|May|June|July|August|September|October|November|December"
ROOTS = r"(?:tests|crates|docs|schedules|plans|examples|packaging|agent|clients|measures)"


def found(*patterns):
    return sorted(os.path.relpath(path, TOP) for pattern in patterns for path in glob.glob(os.path.join(TOP, pattern)))


def text_of(page):
    with open(os.path.join(TOP, page)) as file:
        return file.read()


def outside_code(text):
    """The lines that aren't code, with their numbers."""
    fenced = False
    for number, line in enumerate(text.split("\n"), 1):
        if line.lstrip().startswith("```"):
            fenced = not fenced
        elif not fenced and not line.startswith("    "):
            yield number, line


def anchors(text):
    """The names of the headings, as a forge makes them."""
    names = set()
    for _, line in outside_code(text):
        if line.startswith("#"):
            title = re.sub(r"\[([^\]]*)\]\([^)]*\)", r"\1", line.lstrip("#").strip()).replace("`", "")
            names.add(re.sub(r"[^\w\- ]", "", title.lower()).replace(" ", "-"))
    return names


def links(page, text):
    for number, line in outside_code(text):
        bare = re.sub(r"`[^`]*`", "", line)
        for target in re.findall(r"\]\(([^)\s]+)\)", bare):
            if re.match(r"[a-z]+://", target):
                continue
            path, _, anchor = target.partition("#")
            whole = os.path.normpath(os.path.join(TOP, os.path.dirname(page), path)) if path else os.path.join(TOP, page)
            if not os.path.exists(whole):
                yield "%s:%d: no file %s" % (page, number, target)
            elif anchor and whole.endswith(".md"):
                with open(whole) as file:
                    if anchor not in anchors(file.read()):
                        yield "%s:%d: no heading %s" % (page, number, target)


def names(page, text):
    """What stands in code marks as a path of this repository."""
    for number, line in enumerate(text.split("\n"), 1):
        for said in re.findall(r"`([^`]+)`", line):
            for path in re.findall(r"(?:^|[\s/])(%s/[\w./*-]*\w)" % ROOTS, said):
                path = re.sub(r"/(?:NAME|X)(?=[/.]|$)", "/*", path)
                if "out/" in path or path.startswith(("agent/target", "measures/out")) or path.endswith("/out"):
                    continue
                if not glob.glob(os.path.join(TOP, path)):
                    yield "%s:%d: there is no %s" % (page, number, path)


def cells_of(line):
    return [cell.strip() for cell in re.split(r"(?<!\\)\|", line)[1:-1]]


def functions():
    """The functions of all crates, by each of their names: crate::Type::name, Type::name, name."""
    names = set()
    for folder in glob.glob(os.path.join(TOP, "crates", "*")):
        if os.path.isdir(folder + "/src"):
            crate = promises.Crate(folder)
            for path in crate.functions:
                names |= {path, path.split("::")[-1], crate.name + "::" + path}
    return names


def tables(page, text, edits, schedules, calls):
    """The columns that name schedules, wrong bodies and functions."""
    head = []
    for number, line in enumerate(text.split("\n"), 1):
        if not line.startswith("|"):
            head = []
            continue
        cells = cells_of(line)
        if not head:
            head = [cell.lower() for cell in cells]
            continue
        for title, cell in zip(head, cells):
            for said in re.findall(r"`(\w+)`", cell):
                if title in ("schedule", "shown by") and said not in schedules:
                    yield "%s:%d: there is no schedule %s" % (page, number, said)
                if title in ("wrong body", "a wrong body", "wrong bodies", "edit") and said not in edits:
                    yield "%s:%d: there is no wrong body %s" % (page, number, said)
            if title in ("contract of", "law, or contract"):
                yield from ("%s:%d: there is no function %s" % (page, number, said) for said in re.findall(r"`([\w:]+)`", cell) if said not in calls)


def measure(page, text):
    """Long lines, long cells, dates."""
    for number, line in outside_code(text):
        if line.startswith("|"):
            yield from ("%s:%d: a cell of more than %d words" % (page, number, CELL) for cell in cells_of(line) if len(cell.split()) > CELL)
        elif len(line) > LINE and not re.search(r"\]\(", line):
            yield "%s:%d: a line of more than %d letters" % (page, number, LINE)
        if page not in MEASURED and re.search(r"\b(?:%s) (?:19|20)\d\d\b" % MONTHS, line):
            yield "%s:%d: a date" % (page, number)


def socket_tables():
    """Of each table of docs/SOCKET.md, by its first title, the cells of each name that a row begins with."""
    tables, rows = {}, None
    for line in text_of("docs/SOCKET.md").split("\n"):
        cells = cells_of(line)
        if not line.startswith("|"):
            rows = None
        elif rows is None:
            rows = tables[cells[0]] = {}
        else:
            rows.update((name, cells[1:]) for name in re.findall(r"`(\w+)`", cells[0]))
    return tables


def socket_page():
    """Where docs/SOCKET.md says of the requests, events, fields and errors that there are, and of what each has, something else than agent/protocol.json."""
    schema, said = Schema(), socket_tables()
    everywhere = {"do", "request", "ok", "event"}
    fields = lambda name: schema.fields(schema.defs[name]).keys() - everywhere

    def named(cell):
        """The fields of a cell, with those of an event whose all it has."""
        others = re.findall(r"all of `(\w+)`", cell)
        return set(re.findall(r"`(\w+)`", re.sub(r"all of `\w+`", "", cell))).union(*(named(said["Event"][other][0]) for other in others))

    requests, events = schema.names("request"), schema.names("event")
    answers = {name: fields("answer." + name) | (fields("event.state") if name == "watch" else set()) for name in requests}
    yield from differing("request", {name: (named(cells[0]), named(cells[1])) for name, cells in said["Request"].items()},
                         {name: (fields("request." + name) - {"v"}, answers[name]) for name in requests})
    yield from differing("event", {name: named(cells[0]) for name, cells in said["Event"].items()}, {name: fields("event." + name) for name in events})
    yield from differing("field", dict.fromkeys(said["Field"], "that it is"), dict.fromkeys(set().union(*map(fields, schema.defs)), "that it is"))
    of = collections.defaultdict(set)
    for name in schema.names("refusal"):
        for error in schema.defs["refusal." + name]["properties"]["error"]["enum"]:
            of[error].add("no request" if name == "unreadable" else name)
    # a job may be kept whatever refused a later try, but where it can't be read or the device surely was asked
    are_in_doubt = {error for error in of if "submit" in of[error]} - {"BadPayload", "BadKey", "Device"}
    yield from differing("error", {name: (set(cells[0].replace("`", "").split(", ")), "`may_be_kept`" in cells[2]) for name, cells in said["Error"].items()},
                         {error: (names, error in are_in_doubt) for error, names in of.items()})


def differing(what, said, there):
    for name in sorted(said.keys() | there.keys()):
        if name not in there or name not in said or said[name] != there[name]:
            yield "docs/SOCKET.md: %s %s: it says %s, and agent/protocol.json %s" % (what, name, said.get(name, "nothing"), there.get(name, "nothing"))


def look():
    hand = [page for page in found("README.md", "CONTRIBUTING.md", "docs/*.md") if page not in GENERATED]
    others = found("CHANGELOG.md", "SECURITY.md", "crates/*/README.md", "schedules/README.md", "examples/*/README.md", "measures/README.md")
    edits = {os.path.basename(path)[:-5] for path in found("crates/*/must-fail/*.edit", "tests/more_edits/*/*.edit")}
    schedules = {os.path.basename(path)[:-4] for path in found("schedules/*.txt")}
    calls = functions()
    problems, passed = [], 0
    for page in hand + others + GENERATED:
        text = text_of(page)
        more = list(links(page, text)) + list(tables(page, text, edits, schedules, calls))
        if page != "CHANGELOG.md":
            more += names(page, text)
        if page in hand:
            more += measure(page, text)
        problems += more
        passed += not more
    for path in found("invite", "check", "tests/*/*", "crates/*/src/*.rt", "examples/*/*", "packaging/*", "agent/src/*", "agent/tests/*", "clients/*/*"):
        if os.path.isfile(os.path.join(TOP, path)):
            with open(os.path.join(TOP, path), errors="replace") as file:
                for named in set(re.findall(r"docs/\w+\.md|(?<![\w/])tests/[\w/]+\.(?:py|sh|c)\b", file.read())):
                    if not os.path.exists(os.path.join(TOP, named)):
                        problems.append("%s: there is no %s" % (path, named))
    more = list(socket_page())
    problems += more
    passed += not more
    words = sum(len(text_of(page).split()) for page in hand)
    if words > WORDS:
        problems.append("%d words in the hand-written pages, of at most %d" % (words, WORDS))
    return problems, passed


def figures():
    """Lines of docs/figures.txt: a page, a text of it in which # stands for the figure, how far it may be off in parts of a hundred, a command."""
    problems, passed = [], 0
    for number, line in enumerate(text_of("docs/figures.txt").split("\n"), 1):
        if not line or line.startswith("#"):
            continue
        page, said, off, command = [part.strip() for part in line.split(" ~ ", 3)]
        where = "docs/figures.txt:%d: " % number
        text = re.sub(r"\s+", " ", text_of(page).replace("**", ""))
        stated = re.search(re.escape(said).replace(r"\#", "#").replace("#", r"([\d,.]+)").replace(r"\ ", " "), text)
        if not stated:
            problems.append(where + "%s doesn't say '%s'" % (page, said))
            continue
        done = subprocess.run(["bash", "-c", command], cwd=TOP, stdout=subprocess.PIPE, text=True)
        came = done.stdout.strip().split("\n")[-1].replace(",", "")
        try:
            near = abs(float(stated.group(1).rstrip(".,").replace(",", "")) - float(came)) <= float(came) * float(off) / 100
        except ValueError:
            near = False
        if near:
            passed += 1
        else:
            problems.append(where + "%s says %s, the command %s" % (page, stated.group(1), came))
    return problems, passed


def main():
    problems, passed = figures() if "--figures" in sys.argv[1:] else look()
    tally = Tally()
    tally.add(passed, 0)
    tally.fail(problems)
    return tally.close()


if __name__ == "__main__":
    sys.exit(main())
