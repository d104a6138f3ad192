#!/usr/bin/env python3
"""The page of what is trusted, docs/TRUSTED.md. It is made of the sources, and of the words below, which name what no source can:

    tests/repository/trusted.py            looks whether the page is the one that the sources give, and whether what it names is there; over a program that `rt ci`
                                built here, whether the C functions that it calls are those of the page, too
    tests/repository/trusted.py --write    writes it; without such a program the kit and the C functions stay as they stand in the page

The last line counts."""
import glob, os, re, shutil, struct, subprocess, sys

TOP = os.path.dirname(os.path.dirname(os.path.dirname(os.path.abspath(__file__))))
sys.path.append(os.path.join(TOP, "tests"))
from common.tally import Tally
PAGE = os.path.join(TOP, "docs", "TRUSTED.md")
PROGRAM = os.path.join(TOP, "crates", "invite", "out", "invite")

# What each of the kit's crates does here.
KIT = {
    "atomic_table": "the word from which turns in threads draw their numbers",
    "clap": "reads the words of the command line",
    "crossbeam_utils": "barriers of the tests with threads",
    "fast_float": "numbers of JSON, below `serde_json`",
    "hex": "hexadecimal digits of messages",
    "itoa": "decimal digits, below `serde_json` and texts",
    "json": "JSON values, below `serde_json`",
    "memchr": "looks for a byte",
    "rand_core": "the trait of random numbers",
    "rand_pcg": "the random numbers of jitter",
    "rtrb": "the ring of a link between two threads",
    "serde_json": "reads and writes traces",
    "sha2": "SHA-256, below HMAC",
    "simdutf8": "UTF-8 of JSON, below `serde_json`",
    "std_io": "standard input and output, and the system's errors",
    "thiserror": "`Display` of faults",
}
# The commands, the functions whose contracts say what they do, and what no contract says of them.
COMMANDS = [
    ("answer", ["invite_console::answer"], ""),
    ("show", ["invite_console::show"], ""),
    ("sim", ["invite_console::sim"], ""),
    ("record", ["invite_console::record"], ""),
    ("threads", ["threads_console::threads", "node_threads::run_threads"], ""),
    ("trace", ["trace_console::trace", "trace_console::turns"], "of several files: that they are read in the order in which they are named"),
    ("store", ["store_console::store"], "what a file does"),
    ("inspect", ["store_console::inspect"], "that it is this file which is opened"),
    ("export", ["store_console::inspect", "store_console::salvage"], "that it is this file which is opened"),
    ("node", ["node_session::Session::feed", "node_server::serve_node", "processes::processes_are_a_cluster", "processes::sessions_are_processes"],
     "that the file's label is what was read of it, the look at its path, the life that skips a number, and the key file that was named"),
    ("format", ["node_server::format_node"], "what a file does; which line of jobs is bad"),
]
# What is assumed beside the toolchain: in which words, where it is a premise, and what breaks it.
PREMISES = [
    ("A disk keeps to its model", "`sector_disk/specs/Disk`: `honest`", "[FORMATS.md](FORMATS.md#what-breaks-the-model)"),
    ("What is delivered was sent", "`processes/specs/Processes`: `AreProcessesOf`", "forged or altered messages, where there is no key"),
    ("No two nodes have one id, and no two processes one file", "`processes/specs/Processes`: `AreProcessesOf`", "a file put back from a copy; copies of a file"),
    ("A new file begins above a lost one", "`FIRST` of `format`", "a clock that is behind"),
    ("Nobody makes a tag of HMAC-SHA256 without its key", "none: `sealed_msg` proves what is computed", "a key that isn't secret"),
    ("Clocks of leases run at 31/32 to 33/32 of true time", "`lease_runs/specs/Run`: `IsTimed`", "a machine that is suspended"),
]
# Scripts that stand for clauses that can't be stated.
SCRIPTS = [
    ("that a call succeeds while memory is left", "tests/hostile/run.py"),
    ("how many calls of the device are made", "tests/files/syncs.py"),
    ("where each byte lies in a file; locks, short and interrupted calls; that the path is looked at, that a number is skipped, and that a mounting writes nothing", "tests/files/files.py"),
    ("that a sync reaches the system, and in which order", "tests/node/node.sh"),
    ("what a file keeps where a device fails or a process is killed at any moment", "tests/program/stops.py"),
    ("the same, of the program `store`; that a new file takes an old one's name, and the old one isn't removed first", "tests/files/store_faults.sh"),
    ("that its `format` formats, and that its `mount` finds what stands in the file", "tests/files/store_inputs.py"),
    ("that what was written before a failed write is written anew", "tests/files/failed_device.py"),
    ("worked times of timers", "tests/node/node_rows.py"),
    ("that a node writes the answers of its session, each once, and seals them", "tests/node/sealed.py"),
    ("lives of a process over one file", "tests/files/life.py"),
    ("usage texts, standard error, and the exit status", "tests/program/command_lines.sh"),
    ("that time and memory grow with the length of a trace", "tests/traces/trace_growth.py"),
    ("threads that end", "tests/program/endless.py"),
    ("which worker of a run in threads stopped first", "tests/traces/trace_rows.py"),
    ("the agent", "agent/tests/run"),
]
HEAD = """# What is trusted

Generated by `tests/repository/trusted.py --write`: don't edit it. All that the proofs rest on and don't prove, on one page: the toolchain, the C functions, the kit's
crates, the premises, the functions of which only safety is proved, the definitions that say what is meant, and the scripts that stand for what can't be stated.
What is proved says [PROVED.md](PROVED.md).

## To check it in an hour

1. `rt version` prints the kit below. `grep -rn unsafe crates/*/src` finds nothing, nor does `grep -rn 'axiom\\|hides' crates/*/specs crates/*/proofs`; `cat HANDLES`.
2. `rt ci` (half an hour on 4 processors): each crate ends with `logic=proved`, and the last line says that nothing failed.
3. `python3 tests/repository/trusted.py` then looks whether the C functions that the program calls are those below.
4. Read the premises, then the definitions of one command (a table below says how many lines they are): does it say what you want of the command?
5. Turn a line of code, or of a definition, and prove again: `crates/*/must-fail` and `tests/more_edits` have examples.
"""
FUNCTION = re.compile(r"\s*(?:pub(?:\([^)]*\))? )?(?:const )?fn (\w+)")


def own_crates():
    """The crates of the repository, and the libraries that each uses."""
    uses = {}
    with open(os.path.join(TOP, "crates.txt")) as file:
        for line in file:
            if ":" in line.split("#")[0]:
                name, others = line.split("#")[0].split(":")
                uses[name.split()[0]] = others.split()
    return uses


def sources(crate):
    for path in sorted(glob.glob(os.path.join(TOP, "crates", crate, "src", "*.rt"))):
        with open(path) as file:
            yield path, file.read()


# ---- the kit's crates

def imports(text):
    """The names that a source takes from each library: `use library::{a, b::c}`."""
    for library, names in re.findall(r"^use (\w+)::((?:[^;{]|\{[^}]*\})+);", text, re.M):
        prefix, _, several = names.partition("{")
        for name in (several.rstrip("}\n ").split(",") if several else [prefix]):
            name = (prefix if several else "") + name.strip()
            if name.strip():
                yield library, re.sub(r"\s+", "", name).replace("{", "").replace("}", "")
    for library, name in re.findall(r"(?<![\w:])([a-z]\w+)::([a-z]\w+)\(", re.sub(r"^ *(ghost use|use|//).*", "", text, flags=re.M)):
        yield library, name


def taken_from(crates):
    """Of each library that isn't a crate of the repository: the names taken, and who takes them."""
    taken, users = {}, {}
    for crate in crates:
        if crate in ("core_tests", "thread_tests"):
            continue
        for _path, text in sources(crate):
            for library, name in imports(text):
                if library in KIT or library == "std":
                    taken.setdefault(library, set()).add(name)
                    users.setdefault(library, set()).add(crate)
    return taken, users


def kit_table(crates):
    taken, users = taken_from(crates)
    named = {library for libraries in crates.values() for library in libraries} - set(crates)
    rows, missing = [], []
    for library in sorted(named):
        if library not in KIT:
            missing.append("%s: no word in tests/repository/trusted.py says what it does here" % library)
        names = ", ".join("`%s`" % name for name in sorted(taken.get(library, ()))) or "definitions that clauses name, or nothing but what another of these takes"
        who = sorted(users.get(library, ())) or sorted(crate for crate in crates if library in crates[crate])
        rows.append("| `%s` | %s | %s | %s |\n" % (library, KIT.get(library, ""), names, ", ".join(who)))
    standard = ", ".join("`%s`" % name for name in sorted({name.rsplit("::", 1)[0] for name in taken.get("std", ())}))
    text = ["## The kit's crates\n\nTheir contracts are taken as they are stated; the kit has their proofs. The names that are imported from each:\n\n",
            "| Crate | What it does here | Taken from it | By |\n|---|---|---|---|\n"] + rows
    text.append("\nOf the standard library (`std`) these modules are used: %s.\n" % standard)
    return "".join(text), missing


# ---- functions without a clause

def functions(text):
    """Each function of a source that isn't of a trait's implementation or a test: its path, and whether its head has an `ensures`."""
    owner, trait, test, at = "", False, False, 0
    lines = text.split("\n")
    while at < len(lines):
        line = lines[at]
        if re.match(r"(pub )?(impl|trait)\b", line):
            trait = " for " in line or line.lstrip("pub ").startswith("trait")
            owner = re.sub(r"<.*", "", re.sub(r"^(pub )?(impl(<[^>]*(<[^>]*>)?[^>]*>)?|trait) *", "", line)).split(" for ")[-1].strip(" {")
        elif re.match(r"\S", line) and line[0] not in "}/#)":
            owner, trait = "", False
        if re.match(r"\s*#\[test\]", line):
            test = True
        found = FUNCTION.match(line)
        if found and (line[:1] != " " or owner):
            head, stop = [], at
            while stop < len(lines) and not re.match(r"\s*(\{\s*\}?|.*[^=]\{\s*\}?)$", re.sub(r"\{[^{}]*\}", "", lines[stop]) if "ensures" in lines[stop] or "requires" in lines[stop] else lines[stop]):
                head.append(lines[stop])
                stop += 1
            head.append(lines[stop] if stop < len(lines) else "")
            if not trait and not test:
                yield (owner + "::" if owner and line[:1] == " " else "") + found.group(1), any(re.match(r"\s*ensures\b", part) for part in head)
            test = False
        at += 1


def unsaid_table(crates):
    """The functions of which nothing but safety is proved."""
    rows, total, without = [], 0, 0
    for crate in sorted(crates):
        if crate in ("core_tests", "thread_tests"):
            continue
        names = []
        for _path, text in sources(crate):
            for name, said in functions(text):
                total += 1
                if not said:
                    names.append(name)
        without += len(names)
        if names:
            rows.append("| `%s` | %s |\n" % (crate, ", ".join("`%s`" % name for name in names)))
    return ("## Functions without a clause\n\nOf these %d of %d functions it is proved that they are safe and end, and nothing else. (A function of a trait's implementation has the trait's "
            "clauses, and isn't counted; a constructor of a constant may say all by its body.)\n\n| Crate | Functions |\n|---|---|\n" % (without, total)) + "".join(rows)


# ---- what has to be read

class Definitions:
    """The definitions of all specs/, and which others each names."""

    def __init__(self, crates):
        self.lines, self.tokens, self.imported = {}, {}, {}
        for crate in crates:
            folder = os.path.join(TOP, "crates", crate, "specs")
            for path in sorted(glob.glob(folder + "/**/*.antt", recursive=True)):
                with open(path) as file:
                    self.read((crate, os.path.relpath(path, folder)[:-5].replace("/", ".")), file.read().split("\n"))
        self.homes = {}
        for crate, module, name in self.lines:
            self.homes.setdefault((crate, name), []).append(module)

    def read(self, place, lines):
        self.imported[place] = taken = {}
        for line in lines:
            use = re.match(r"(?:pub )?use Rattle\.(\w+)\.specs\.([\w.]+)\.\{(.*)\}", line)
            for name in use.group(3).split(",") if use else ():
                old, _, new = name.strip().partition(" as ")
                taken[(new or old).strip()] = (use.group(1), use.group(2), old.strip())
        at = 0
        while at < len(lines):
            begun = re.match(r"(?:abbrev |unfoldable )?(?:pub )?(?:abbrev |unfoldable )?(?:(?:record|data) (\w+)|([A-Za-z_][\w\-]*) :)", lines[at])
            if not begun or lines[at].startswith(("use ", "pub use ")):
                at += 1
                continue
            name, stop = begun.group(1) or begun.group(2), at + 1
            while stop < len(lines) and (lines[stop].startswith(" ") or lines[stop].startswith(name + " ")):
                stop += 1
            body = [re.sub(r"--.*", "", line) for line in lines[at:stop]]
            self.lines[place + (name,)] = len([line for line in body if line.strip()])
            self.tokens[place + (name,)] = set(re.findall(r"[A-Za-z_]\w*", "\n".join(body)))
            if " data " in " " + lines[at]:
                for line in body[1:]:
                    built = re.match(r"  (\w+) :", line)
                    if built:
                        self.lines[place + (built.group(1),)], self.tokens[place + (built.group(1),)] = 0, {name}
            at = stop

    def find(self, crate, module, name):
        if (crate, module, name) in self.lines:
            return (crate, module, name)
        for home in self.homes.get((crate, name), ()):
            return (crate, home, name)
        return None

    def below(self, key):
        crate, module, own = key
        for token in self.tokens[key]:
            if (crate, module, token) in self.lines and token != own:
                yield (crate, module, token)
            elif token in self.imported[(crate, module)]:
                found = self.find(*self.imported[(crate, module)][token])
                if found:
                    yield found

    def closure(self, roots):
        seen, left = set(), list(roots)
        while left:
            key = left.pop()
            if key not in seen:
                seen.add(key)
                left += self.below(key)
        return seen


def roots_of(definitions, crate, function):
    """The definitions that the clauses of a function name."""
    owner, _, name = function.rpartition("::")
    for _path, text in sources(crate):
        known = {}
        for use in re.finditer(r"^\s*ghost use Rattle\.(\w+)\.specs\.([\w.]+)\.\{([^}]*)\}", text, re.M):
            for one in use.group(3).split(","):
                old, _, new = one.strip().partition(" as ")
                known[(new or old).strip()] = (use.group(1), use.group(2), old.strip())
        for found in re.finditer(r"^ *pub(?:\([^)]*\))? (?:const )?fn %s\b.*?^ *\{" % name, text, re.M | re.S):
            if owner and not re.search(r"^impl\b[^\n]*\b%s\b" % owner, text, re.M):
                continue
            clauses = "\n".join(re.findall(r"(?:ensures|requires)\b.*", found.group(0)) + re.findall(r"^ +→.*", found.group(0), re.M))
            keys = [definitions.find(*known[token]) for token in set(re.findall(r"[A-Za-z_]\w*", clauses)) if token in known]
            return [key for key in keys if key]
    return None


def reading_table(crates):
    definitions, rows, missing = Definitions(crates), [], []
    for command, functions_of_it, beside in COMMANDS:
        keys = []
        for path in functions_of_it:
            crate, _, function = path.partition("::")
            found = roots_of(definitions, crate, function)
            if found is None:
                missing.append("there is no function %s" % path)
            keys += found or []
        read = [key for key in definitions.closure(keys) if definitions.lines[key]]
        rows.append("| `%s` | %s | %d | %d | %s |\n" % (command, ", ".join("`%s`" % path for path in functions_of_it), len(read), sum(definitions.lines[key] for key in read), beside))
    return ("## What has to be read\n\nA contract means what its definitions mean. Of each command: the functions whose contracts say what it does, how many definitions of `crates/*/specs` they "
            "rest on, how many lines these are, and what no contract says.\n\n| Command | Contract of | Definitions | Lines | Not said |\n|---|---|---|---|---|\n") + "".join(rows), missing


# ---- the kit

def run(words, folder):
    return subprocess.run(words, cwd=folder, stdin=subprocess.DEVNULL, stdout=subprocess.PIPE, stderr=subprocess.STDOUT, text=True).stdout


def undefined(program):
    """The names that a 64-bit ELF program takes from the system's libraries: the undefined symbols of its dynamic table."""
    with open(program, "rb") as file:
        image = file.read()
    at, size, count = struct.unpack_from("<Q", image, 40)[0], *struct.unpack_from("<HH", image, 58)
    sections = [struct.unpack_from("<IIQQQQIIQQ", image, at + size * n) for n in range(count)]
    names = set()
    for kind, start, length, link in [(section[1], section[4], section[5], section[6]) for section in sections]:
        if kind == 11:  # the dynamic symbols, of which each takes 24 bytes; its text is in the section that it links to
            for symbol in range(start, start + length, 24):
                name, _, _, section = struct.unpack_from("<IBBH", image, symbol)
                text = sections[link][4] + name
                if section == 0 and name:
                    names.add(image[text:image.index(b"\0", text)].decode())
    return sorted(names)


def kit_part():
    """The kit, and the C functions that the program calls."""
    identity = run(["rt", "version"], TOP).strip()
    called = undefined(PROGRAM)
    text = "## The toolchain\n\n- The kit: `%s`: Rattle's prover and compiler, LLVM.\n" % identity
    text += "- Nothing of the repository is taken on trust by a word: no `unsafe`, no foreign code, no axiom, no hole; handles: `%s`\n" % open(os.path.join(TOP, "HANDLES")).read().strip()
    text += "- The C library. The program calls these %d of its functions, whose contracts the kit states and nobody proves; `rt ci` counts them by crate (`axioms`):\n\n" % len(called)
    return text + "".join("  %s\n" % line for line in wrapped(["`%s`" % name for name in called])) + "\n"


def wrapped(words):
    lines, line = [], ""
    for at, word in enumerate(words):
        word += "," if at + 1 < len(words) else ""
        if len(line) + len(word) + 1 > 140:
            lines.append(line)
            line = ""
        line += (" " if line else "") + word
    return lines + [line] if line else lines


def kept_kit_part():
    found = re.search(r"^## The toolchain\n.*?(?=^## )", open(PAGE).read(), re.M | re.S) if os.path.exists(PAGE) else None
    return found.group(0) if found else "## The toolchain\n\n"


def main():
    crates, problems = own_crates(), []
    toolchain = kept_kit_part()
    if shutil.which("rt") and os.path.exists(PROGRAM):
        found = kit_part()
        if "--write" in sys.argv[1:]:
            toolchain = found
        elif found.split("- Nothing", 1)[-1] != toolchain.split("- Nothing", 1)[-1]:
            problems.append("the C functions that the program calls aren't those of docs/TRUSTED.md: tests/repository/trusted.py --write")
        elif found != toolchain:
            print("trusted.py: this is another kit than that of docs/TRUSTED.md: tests/repository/trusted.py --write")
    else:
        print("trusted.py: no program was proved here, so the kit and the C functions weren't looked at")
    kit, missing = kit_table(crates)
    reading, absent = reading_table(crates)
    problems += missing + absent
    with open(os.path.join(TOP, "check")) as file:
        table = file.read()
    for _what, script in SCRIPTS:
        if not os.path.exists(os.path.join(TOP, script)) or script not in table:
            problems.append("%s: no such script, or ./check doesn't run it" % script)
    premises = "## Premises\n\n| What is assumed | Where | What breaks it |\n|---|---|---|\n" + "".join("| %s | %s | %s |\n" % row for row in PREMISES)
    for _what, where, _breaks in PREMISES:
        place = re.match(r"`(\w+)/specs/(\w+)`: `?(\w+)", where)
        if place:
            path = os.path.join(TOP, "crates", place.group(1), "specs", place.group(2) + ".antt")
            if not os.path.exists(path) or ("`%s`" % place.group(3) in where and place.group(3) not in open(path).read()):
                problems.append("no %s" % where)
    scripts = "## What scripts stand for\n\nNo clause can say these; a script of the gate tries them.\n\n| What | Script |\n|---|---|\n" + "".join("| %s | `%s` |\n" % row for row in SCRIPTS)
    page = "\n".join([HEAD, toolchain + kit, premises, reading, unsaid_table(crates), scripts])
    if "--write" in sys.argv[1:]:
        with open(PAGE, "w") as file:
            file.write(page)
    elif not os.path.exists(PAGE) or open(PAGE).read() != page:
        problems.append("docs/TRUSTED.md isn't what the sources give: tests/repository/trusted.py --write")
    tally, rows = Tally(), len(KIT) + len(COMMANDS) + len(PREMISES) + len(SCRIPTS)
    tally.add(max(rows - len(problems), 0), 0)
    tally.fail(problems)
    return tally.close()


if __name__ == "__main__":
    sys.exit(main())
