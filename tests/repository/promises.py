#!/usr/bin/env python3
"""The table of promises. A promise stands in the sources, as comment lines directly above the clause that carries it:

    // Promise: what is promised, in one sentence.
    // Also: other_clause, Type::function, crate::function.     (further clauses of the function, and functions, that say it too)
    // Refuses: wrong_body, crate::wrong_body.                   (must-fail edits that turn it)

or above a type or an invariant, where that carries it. `promises.py` looks whether each clause, function and edit that is named is
there, and whether docs/PROMISES.md is the page that the comments give; `promises.py --write` writes that page. Each claim of README names a
wrong body that the gate tries, in `must-fail/` of the crate whose contract it is. The last line counts."""
import glob, os, re, sys

TOP = os.path.dirname(os.path.dirname(os.path.dirname(os.path.abspath(__file__))))
sys.path.append(os.path.join(TOP, "tests"))
from common.tally import Tally
PAGE = os.path.join(TOP, "docs", "PROMISES.md")
# From what a user of a cluster takes down to bytes and texts.
ORDER = """processes runs cluster_sim durable_node node_core histories node_store job_journal safe_cell slot_gate sector_disk disk_layout file_disk
job_model group_task wire_msg sealed_msg message_list sim_net link_ring node_lock node_threads node_timers node_session node_server trace_check
trace_text trace_console threads_console invite_console store_console console_text schedule line_words
command_line""".split()
KEYS = re.compile(r"\s*// (Promise|Also|Refuses): (.*)")
CLAUSE = re.compile(r"\s*(?:ensures|requires)\b\s*(\w*)")
FUNCTION = re.compile(r"\s*(?:pub(?:\([^)]*\))? )?(?:const )?fn (\w+)")
HEAD = """# Promises

Generated from the sources by `tests/repository/promises.py --write`: don't edit it. Each row is a promise as it stands above the clause that carries it,
with that clause and the wrong bodies (*must-fail edits*) by which it is tried: changes of real code, or of a definition, that the prover has to
refuse. They stand in `crates/NAME/must-fail/` and `tests/more_edits/NAME/`, each in a file of its name with `.edit` behind it.
[PROVED.md](PROVED.md) says in plain words what all of it comes to, and explains the words that are used here.
"""


def owner_of(line):
    """The type of an `impl`, the name of a `trait`."""
    named = re.match(r"(?:pub )?trait (\w+)", line)
    if named:
        return named.group(1)
    text = re.match(r"(?:pub )?(?:unsafe )?impl\b(.*)", line).group(1).strip()
    if text.startswith("<"):
        depth = 0
        for at, letter in enumerate(text):
            depth += (letter == "<") - (letter == ">" and text[at - 1] != "-")
            if depth == 0:
                text = text[at + 1:].strip()
                break
    return re.match(r"(?:&(?:'\w+ )?)?(?:mut )?([\w:]+)", text.split(" for ")[-1]).group(1).split("::")[-1]


class Crate:
    def __init__(self, folder):
        self.name = os.path.basename(folder)
        self.functions = {}  # path -> labels of its clauses
        self.types = set()
        self.promises = []
        self.problems = []
        self.edits = {os.path.basename(path)[:-5] for path in
                      glob.glob(folder + "/must-fail/*.edit") + glob.glob(os.path.join(TOP, "tests", "more_edits", self.name, "*.edit"))}
        for path in sorted(glob.glob(folder + "/src/*.rt")):
            with open(path) as file:
                self.read(os.path.relpath(path, TOP), file.read().split("\n"))

    def read(self, path, lines):
        owner, function, open_ones, key = "", "", [], None
        for number, line in enumerate(lines, 1):
            if re.match(r"(pub )?(unsafe )?(impl|trait)\b", line):
                owner = owner_of(line)
            elif line[:1] not in ("", " ", "}", "/", "#", ")"):
                owner = ""
            stated = re.match(r"pub (?:struct|enum|trait|type) (\w+)", line)
            if stated:
                self.types.add(stated.group(1))
            begun = FUNCTION.match(line)
            if begun:
                function = (owner + "::" if owner and line[:1] == " " else "") + begun.group(1)
                self.functions.setdefault(function, set())
            clause = CLAUSE.match(line)
            if clause and function:
                self.functions[function].add(clause.group(1))
            said = KEYS.match(line)
            if said:
                key = said.group(1)
                if key == "Promise":
                    open_ones.append({"Promise": "", "Also": "", "Refuses": "", "place": "%s:%d" % (path, number)})
                if not open_ones:
                    self.problems.append("%s:%d: %s with no promise in front" % (path, number, key))
                else:
                    open_ones[-1][key] = said.group(2)
            elif key and line.strip().startswith("// "):
                open_ones[-1][key] += " " + line.strip()[3:]
            elif open_ones and not line.strip().startswith(("///", "#[")):
                carried = None
                if clause and function:
                    carried = (function, clause.group(1))
                elif begun:
                    carried = (function, "")
                elif stated:
                    carried = (stated.group(1), "")
                elif re.match(r"\s*ghost (invariant|state)\b", line) and owner:
                    carried = (owner, line.split()[1])
                if carried:
                    for one in open_ones:
                        one["carried"] = carried
                        self.promises.append(one)
                else:
                    self.problems += ["%s: no clause, function or type below it" % one["place"] for one in open_ones]
                open_ones, key = [], None
            else:
                key = None


def names_in(text):
    return [name.strip() for name in text.rstrip(".").split(",") if name.strip()]


def carriers(crates, crate, one):
    """Where a promise stands: the clause, and what Also names; and what of that isn't there."""
    function, label = one["carried"]
    shown, missing, clauses = [], [], [label] if label else []
    others = []
    for name in names_in(one["Also"]):
        parts = name.split("::")
        at = crates.get(parts[0]) if len(parts) > 1 else None
        path = "::".join(parts[1:]) if at else name
        if name in crate.functions.get(function, ()):
            clauses.append(name)
        elif path in (at or crate).functions or path in (at or crate).types:
            others.append(name)
        else:
            missing.append(name)
    shown.append("`%s`" % function + (": " + ", ".join("`%s`" % label for label in clauses) if clauses else ""))
    shown += ["`%s`" % name for name in others]
    return "; ".join(shown), missing


def edits_of(crates, crate, one):
    shown, missing = [], []
    for name in names_in(one["Refuses"]):
        at, _, edit = name.rpartition("::")
        where = crates.get(at) if at else crate
        (shown if where and edit in where.edits else missing).append(name)
    return shown, missing


def page_of(crates):
    text, problems = [HEAD], []
    for name in ORDER + sorted(set(crates) - set(ORDER)):
        crate = crates.get(name)
        if crate is None or not (crate.promises or crate.edits or crate.problems):
            continue
        problems += crate.problems
        text.append("\n## `%s`\n" % name)
        named = set()
        if crate.promises:
            text.append("\n| Promise | Carried by | Wrong bodies |\n|---|---|---|\n")
        for one in crate.promises:
            where, missing = carriers(crates, crate, one)
            edits, gone = edits_of(crates, crate, one)
            problems += ["%s: there is no %s" % (one["place"], what) for what in missing + gone]
            named |= set(edits)
            text.append("| %s | %s | %s |\n" % (one["Promise"].rstrip(".").replace("|", "\\|"), where, ", ".join("`%s`" % edit for edit in edits)))
        others = sorted(crate.edits - named - {edit for other in crates.values() for one in other.promises
                                               for at, _, edit in [n.rpartition("::") for n in names_in(one["Refuses"])] if at == name})
        if others:
            text.append("\nFurther wrong bodies: %s.\n" % ", ".join("`%s`" % edit for edit in others))
    return "".join(text), problems


def claims():
    """README's claims, each with its function and its wrong body; and those of which none such stands in the gate."""
    with open(os.path.join(TOP, "README.md")) as file:
        rows = re.findall(r"^\| ([^|]+) \| `([\w:]+)` \| `(\w+)` \|", file.read(), re.M)
    return rows, ["README: '%s': %s isn't in must-fail" % (claim, edit) for claim, _, edit in rows
                  if not glob.glob(os.path.join(TOP, "crates", "*", "must-fail", edit + ".edit"))]


def main():
    crates = {}
    for folder in sorted(glob.glob(os.path.join(TOP, "crates", "*"))):
        if os.path.isdir(folder + "/src"):
            crates[os.path.basename(folder)] = Crate(folder)
    page, problems = page_of(crates)
    if "--write" in sys.argv[1:]:
        with open(PAGE, "w") as file:
            file.write(page)
    elif not os.path.exists(PAGE) or open(PAGE).read() != page:
        problems.append("docs/PROMISES.md isn't what the sources give: tests/repository/promises.py --write")
    claimed, unclaimed = claims()
    problems += unclaimed if claimed else ["README has no claims"]
    tally = Tally()
    tally.add(sum(len(crate.promises) for crate in crates.values()) + len(claimed), 0)
    tally.fail(problems)
    return tally.close()


if __name__ == "__main__":
    sys.exit(main())
