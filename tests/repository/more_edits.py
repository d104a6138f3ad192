#!/usr/bin/env python3
"""Tries must-fail edits of tests/more_edits, which the gate leaves out: the prover has to refuse each.

    tests/repository/more_edits.py [CRATE..]           tries the edits of these crates, or all
    tests/repository/more_edits.py --sample N SEED     tries N of all, drawn by the seed
    tests/repository/more_edits.py --kept WORDS..      tries over what rt check kept; WORDS as above
    tests/repository/more_edits.py --apply [CRATE..]   says at once, without the prover, which edits don't fit the sources that they turn, those of crates/NAME/must-fail among them

With --jobs J before these words J checks run side by side, whatever memory they take; without it as many as processors and memory hold. rt ci tries the edits in a
copy of the repository that has the crates that they turn, those below and no other edits: it takes over what the gate proved, and proves a crate once more for all its edits.
With --kept as the first word rt check tries them, in copies of the crates over what it kept in crates/NAME/out: for that, rt all check comes first, and copies take up to
200 MB a crate for each check that runs. Since a caller's proof rests on a contract and on no body, edits that turn different functions are tried together, in one check of these
functions alone: each has to be refused at a goal of a function that it turns. One that isn't is tried once more, alone, and where its functions are proved all the same, or it turns
what is no function, in a check of the whole crate.
Each edit is printed behind what refused it:

    goal      a goal of a function that it turns
    other     a goal of another function
    script    an answer or a lemma in proofs/ that no longer fits: this says less of the contract
    limit     a limit of the prover, which gave no verdict
    passed    nothing: the crate is proved with it
    untried   it can't be applied, compiled or read, or its check was cut off

The last line counts the edits that were refused, and the others: 'N passed, M failed'.
"""
import os
import random
import re
import shutil
import subprocess
import sys
import tempfile
from concurrent.futures import ThreadPoolExecutor

sys.dont_write_bytecode = True
from crate_copy import TOP, lay, lines_of_crates, text_of

sys.path.append(f"{TOP}/tests")
from common.tally import Tally

EDITS = f"{TOP}/tests/more_edits"
KINDS = ("goal", "other", "script", "limit", "passed", "untried")
# The front of a function, with what stands above it.
FUNCTION = re.compile(r"^(?:[ \t]*(?:#\[|///).*\n)*[ \t]*(?:pub(?:\([^)]*\))? )?(?:const )?fn (\w+)", re.M)


def stop(why):
    sys.exit(f"more_edits.py: {why}")


def names_in(folder):
    return sorted(os.listdir(folder)) if os.path.isdir(folder) else []


def pairs_in(edit):
    """Returns the pairs of an edit, each a file, a text and what stands in its place, or says which line can't be read."""
    file, old, pairs = None, None, []
    for line in text_of(edit).split("\n"):
        word, _, rest = line.partition(": ")
        if word == "file":
            file = rest
        elif word == "old":
            old = rest
        elif line.startswith("new:") and file and old:
            pairs.append((file, old, re.sub(r"\A ", "", line[len("new:") :])))
            old = None
        elif line:
            return [], f"this line can't be read: {line}"
    return pairs, None if pairs else "it changes nothing"


def misfit(crate, edit):
    """Returns what keeps an edit from being applied, or None: each old text stands once in its file, behind the earlier changes."""
    pairs, why = pairs_in(edit)
    texts = {}
    for file, old, new in pairs:
        path = f"{TOP}/crates/{crate}/{file}"
        if file not in texts and not os.path.isfile(path):
            return f"there is no file {file}"
        text = texts.get(file) or text_of(path)
        if text.count(old) != 1:
            return f"{file} has this text {text.count(old)} times: {old}"
        if old == new:
            return "it changes nothing"
        texts[file] = text.replace(old, new)
    return why


def apply(crates):
    """Says which edits don't fit, and counts them all."""
    tally = Tally()
    for crate in crates or sorted({*names_in(EDITS), *lines_of_crates()}):
        for folder in (f"{EDITS}/{crate}", f"{TOP}/crates/{crate}/must-fail"):
            for name in names_in(folder):
                why = misfit(crate, f"{folder}/{name}") if name.endswith(".edit") else "its name doesn't end in .edit"
                tally.mark(why, f"{crate}/{name}")
    return tally.close()


def turned(crate, edit):
    """Returns the functions that an edit turns: the file of each, its first and last line, and its name."""
    found = []
    for file, old, _ in pairs_in(edit)[0]:
        text = text_of(f"{TOP}/crates/{crate}/{file}")
        starts = {it.start(): it[1] for it in FUNCTION.finditer(text)}
        at = text.find(old) + len(old) - 1
        first = max([it for it in starts if it <= at], default=0)
        last = min([it for it in starts if it > at], default=len(text))
        found.append((file, text.count("\n", 0, first) + 1, text.count("\n", 0, last), starts.get(first)))
    return found


def kind_of(crate, edit, said):
    """Returns what refused an edit, by what rt said of it."""
    if "NOT REFUSED" in said:
        return "passed"
    if "refused, as it must be" not in said:
        return "untried"
    if "only by a limit" in said:
        return "limit"
    at = re.search(r"(?:\./)?(src/\S+?):(\d+):\d+: ", said)
    if not at or re.search(r"(\./)?proofs/", said[: at.start()]):
        return "script"
    is_own = any(file == at[1] and first <= int(at[2]) <= last for file, first, last, _ in turned(crate, edit))
    return "goal" if is_own else "other"


class Copy:
    """A copy of a crate and those below, where edits are tried by rt check over what it kept."""

    def __init__(self, crate, folder):
        lay(folder, [crate])
        for below in os.listdir(f"{folder}/crates"):
            if os.path.isdir(f"{TOP}/crates/{below}/out"):
                shutil.copytree(f"{TOP}/crates/{below}/out", f"{folder}/crates/{below}/out", symlinks=True)
        self.crate, self.at = crate, f"{folder}/crates/{crate}"
        lines = self.check()
        self.is_proved = any(it.startswith("logic=proved") for it in lines)
        self.functions = [it.split()[1].rstrip(":") for it in lines if re.match(r"fn \S+: proved", it)]

    def check(self, *flags):
        """Returns what rt check says of the copy as it stands."""
        ran = subprocess.run(["rt", "check", "--jobs", "1", *flags], cwd=self.at, stdin=subprocess.DEVNULL, stdout=subprocess.PIPE, stderr=subprocess.STDOUT, errors="replace")
        return ran.stdout.split("\n")

    def named(self, name):
        """Returns the paths of the functions that an edit turns, as rt check names them, or none where it turns something else."""
        paths = []
        for file, _, _, function in turned(self.crate, f"{EDITS}/{self.crate}/{name}"):
            module = re.sub(r"^src/(lib|main)?|\.rt$", "", file).strip("/").replace("/", "::")
            front = f"{self.crate}::{module}::" if module else f"{self.crate}::"
            own = [it for it in self.functions if re.fullmatch(rf"{front}(\w+::)?{function}", it)]
            if not function or not own:
                return []
            paths += own
        return paths

    def apply(self, names):
        """Applies as many of these edits as turn different functions and still fit, and returns them with the texts that stood there before."""
        taken, functions, before, texts = [], set(), {}, {}
        for name in names:
            path = f"{EDITS}/{self.crate}/{name}"
            own, trial = set(turned(self.crate, path)), dict(texts)
            for file, old, new in pairs_in(path)[0]:
                text = trial.get(file) or text_of(f"{self.at}/{file}")
                if text.count(old) != 1 or "\n" in new:
                    break
                trial[file] = text.replace(old, new)
            else:
                if not own & functions:
                    taken, functions, texts = [*taken, name], functions | own, trial
        for file, text in texts.items():
            before[file] = text_of(f"{self.at}/{file}")
            self.write({file: text})
        return taken, before

    def write(self, texts):
        for file, text in texts.items():
            with open(f"{self.at}/{file}", "w", encoding="utf-8") as it:
                it.write(text)

    def only(self, names):
        """Returns the flags of a check of the functions alone that these edits turn."""
        return [word for path in sorted({path for name in names for path in self.named(name)}) for word in ("--only", path)]

    def together(self, names):
        """Tries as many of these edits in one check as it can, and returns those, and the refusals of them at a goal of their own."""
        taken, before = self.apply(names)
        lines = self.check("--allow-holes", *self.only(taken))
        self.write(before)
        if len(taken) > 1 and not any(it.startswith("only=") for it in lines):
            # one of them keeps the others from the prover
            half = len(taken) // 2
            return taken, {**self.together(taken[:half])[1], **self.together(taken[half:])[1]}
        lines = [it for it in lines if AT_GOAL.search(it)]
        said = {}
        for name in taken:
            for line in lines:
                if kind_of(self.crate, f"{EDITS}/{self.crate}/{name}", f"refused, as it must be: {line}") == "goal":
                    said[name] = f"refused, as it must be: {line[:160]}"
                    break
        return taken, said

    def alone(self, name):
        """Tries one edit, and returns what rt must-fail would say of it."""
        taken, before = self.apply([name])
        if not taken:
            return "BAD EDIT: it doesn't fit"
        only = self.only([name])
        lines = self.check(*only)
        count = next((it for it in map(re.compile(r"only=(\d+) proved=(\d+)").match, lines) if it), None)
        if only and (not count or count[1] == count[2]):
            lines, count = self.check(), None
        self.write(before)
        if any(it.startswith("logic=proved") for it in lines):
            return "NOT REFUSED"
        if not count and not any(it.startswith("logic=not-proved") for it in lines):
            return "BAD EDIT: " + next((it for it in lines if ": error" in it), "it did not reach the prover")
        told = [it for it in lines if re.match(r"(note: )?(\./)?\S+?:\d+:\d+: ", it) and (": error" in it or it.startswith("note: "))]
        return f"refused, as it must be: {([*filter(AT_GOAL.search, told), *told] or [''])[0][:160]}"


# What rt says of a goal of a function.
AT_GOAL = re.compile(r"^(note: )?(\./)?src/\S+?:\d+:\d+: .*(it is not proved that|is not proved)")


def tried_over_kept(crate, names):
    """Tries a crate's edits over what rt check kept, and returns what rt says of each."""
    with tempfile.TemporaryDirectory() as folder:
        copy = Copy(crate, f"{folder}/repository")
        if not copy.is_proved:
            return {(crate, name): f"BAD EDIT: {crate} itself isn't proved" for name in names}
        said, left = {}, [it for it in names if copy.named(it)]
        doubtful = [it for it in names if it not in left]
        while left:
            taken, refused = copy.together(left)
            said.update(refused)
            doubtful += [it for it in taken if it not in refused] if taken else left
            left = [it for it in left if it not in taken] if taken else []
            print(f"{crate}: {len(said)} of {len(names)} refused at a goal of their own, {len(left)} left", file=sys.stderr, flush=True)
        for name in doubtful:
            said[name] = copy.alone(name)
            print(f"{crate}: tried {name} alone", file=sys.stderr, flush=True)
        return {(crate, name): why for name, why in said.items()}


def attempt_over_kept(chosen, jobs):
    """Tries the chosen edits over what rt check kept, crate by crate, the one with the most edits first."""
    crates = sorted({crate for crate, _ in chosen}, key=lambda it: -sum(crate == it for crate, _ in chosen))
    said = {}
    with ThreadPoolExecutor(int(jobs or os.cpu_count())) as pool:
        for one in pool.map(lambda it: tried_over_kept(it, [name for crate, name in chosen if crate == it]), crates):
            said.update(one)
    return tell(chosen, said)


def attempt(chosen, jobs):
    """Tries the chosen edits by rt ci, prints what refused each, and counts them."""
    said = {}
    with tempfile.TemporaryDirectory() as folder:
        lay(f"{folder}/repository", [crate for crate, _ in chosen])
        for crate, name in chosen:
            os.makedirs(f"{folder}/repository/crates/{crate}/must-fail", exist_ok=True)
            shutil.copy(f"{EDITS}/{crate}/{name}", f"{folder}/repository/crates/{crate}/must-fail")
        how = {"cwd": f"{folder}/repository", "stdin": subprocess.DEVNULL, "stdout": subprocess.PIPE, "stderr": subprocess.STDOUT, "errors": "replace"}
        with subprocess.Popen(["rt", "ci"], env={**os.environ, **({"RT_JOBS": jobs} if jobs else {})}, **how) as ran:
            for line in ran.stdout:
                at = re.match(r"rt: must-fail (\w+)/(\S+\.edit): ", line)
                if at:
                    said[at[1], at[2]] = line[at.end() :].strip()
                elif not re.match(r"fn \S+: proved$|statements |logic |\d+ passed, ", line):
                    print(line, end="", flush=True)
    return tell(chosen, said)


def tell(chosen, said):
    """Prints what refused each edit, and counts them."""
    counts = dict.fromkeys(KINDS, 0)
    for crate, name in chosen:
        why = said.get((crate, name), "")
        kind = kind_of(crate, f"{EDITS}/{crate}/{name}", why)
        counts[kind] += 1
        print(f"{kind:9} {crate}/{name}: {why.replace('refused, as it must be: ', '')}")
    print(f"tried {len(chosen)}: refused at a goal of a function that is turned {counts['goal']}, at another goal {counts['other']}, by a script that no longer fits {counts['script']}, "
          f"by a limit {counts['limit']}; passed {counts['passed']}, untried {counts['untried']}")
    tally, failed = Tally(), counts["passed"] + counts["untried"]
    tally.add(len(chosen) - failed, failed)
    return tally.close()


def main(words):
    jobs, tries = None, attempt
    if words[:1] == ["--kept"]:
        tries, words = attempt_over_kept, words[1:]
    if words[:1] == ["--jobs"] and len(words) > 1 and re.fullmatch(r"[1-9]\d*", words[1]):
        jobs, words = words[1], words[2:]
    every = [(crate, name) for crate in names_in(EDITS) for name in names_in(f"{EDITS}/{crate}")]
    if words[:1] == ["--sample"]:
        if len(words) != 3 or not words[1].isdigit() or not 0 < int(words[1]) <= len(every):
            stop(f"--sample takes how many of the {len(every)} edits to draw, and a seed")
        return tries(sorted(random.Random(words[2]).sample(every, int(words[1]))), jobs)
    crates = words[1:] if words[:1] == ["--apply"] else words
    lost = [it for it in crates if not os.path.isdir(f"{TOP}/crates/{it}") or not re.fullmatch(r"\w+", it)]
    if lost:
        stop(f"there is no crate {lost[0]}")
    if words[:1] == ["--apply"]:
        return apply(crates)
    lost = [it for it in crates if not names_in(f"{EDITS}/{it}")]
    if lost:
        stop(f"no edits in tests/more_edits: {lost[0]}")
    return tries([it for it in every if not crates or it[0] in crates], jobs)


if __name__ == "__main__":
    sys.exit(main(sys.argv[1:]))
