"""The node's file is verified before the node opens it: by a stand-in for the program that says what it is told to, and by the program itself; and a number
that may have been given is skipped."""
import fcntl, os, subprocess

from bed import PATIENCE
from enemies import logged
from machine import ends

LOCKED = 4
BROKEN = 10


def stand_in(agents, status, text, command=None):
    """A program that says this of each file that it is to verify, and else is the program, or does this."""
    path = os.path.join(agents.folder, "stand-in")
    with open(path, "w") as file:
        file.write('''#!/bin/sh
if [ "$2" = --verify ] || [ "$2" = --salvage ]; then printf '%s\\n' "$3" >> "$0.asked"; printf '%%s' '%s'; exit %d; fi
%s
''' % ("%s", text, status, command or 'exec "%s" "$@"' % agents.program))
    os.chmod(path, 0o755)
    return path


def verified(bed):
    agents, check = bed.agents("verified", count=1, record=None, http=None), bed.tally.check
    broken = "kind node\nbroken counter_slots 4 9\nhint job_differs 3\nbroken sealed_behind 12\n"
    agents.write(0, program=stand_in(agents, 1, broken), record=None)
    status, told = ends(agents)
    check("a broken file: a status of its own", status == BROKEN, (status, told))
    check("what is broken, and what to do", all(one in told for one in ("broken counter_slots 4 9: no crash leaves this", "broken sealed_behind 12: ", "`dumgerokctl export --salvage` prints")), told)
    with open(os.path.join(agents.folder, "stand-in.asked")) as file:
        check("the file of the configuration was verified", set(file.read().splitlines()) == {agents.path(0, "node")})
    with open(agents.path(0, "node"), "rb") as file:
        fcntl.flock(file, fcntl.LOCK_EX)
        status, told = ends(agents)
        check("a file that another node writes to: nothing is concluded", status == LOCKED and "another process has it open" in told and "no crash leaves" not in told, (status, told))
    for status, text, said in ((0, "hint job_differs 3\n", "hint job_differs 3: this may be an older state"), (2, "", "it isn't verified: "), (1, "kind node\n", None)):
        agents.write(0, program=stand_in(agents, status, text), record=None)
        if os.path.exists(agents.path(0, "log")):
            os.remove(agents.path(0, "log"))
        agents.start(0)
        check("status %d and %r: the node begins" % (status, text), agents.one_group([0]) >= 0)
        check("status %d and %r: it is told" % (status, text), said is None and not logged(agents, 0, "verified") or said and logged(agents, 0, said))
        agents.kill(0)
    done = subprocess.run([agents.ctl_path, "inspect", "--verify", agents.path(0, "node"), "--program", stand_in(agents, 1, broken), "--json"], stdout=subprocess.PIPE, text=True, timeout=PATIENCE)
    check("dumgerokctl inspect passes --verify on", done.returncode == 1 and '"broken":["counter_slots 4 9","sealed_behind 12"]' in done.stdout, done)
    done = subprocess.run([agents.ctl_path, "export", "--salvage", agents.path(0, "node"), "--program", stand_in(agents, 1, "job 7 3 -\n")], stdout=subprocess.PIPE, text=True, timeout=PATIENCE)
    check("dumgerokctl export passes --salvage on", (done.returncode, done.stdout) == (1, "job 7 3 -\n"), done)
    by_the_program(agents, check)
    agents.stop()


def by_the_program(agents, check):
    """A number of the counter in which a bit flipped: both slots of the cell are sealed (docs/FORMATS.md), and differ by more than one."""
    agents.write(0, record=None)
    agents.start(0)
    agents.one_group([0])
    kept = agents.ask(0, do="submit", queue=3, text="kept")
    agents.kill(0)
    with open(agents.path(0, "node"), "r+b") as file:
        cell = file.read(4 * 512)
        numbers = [int.from_bytes(cell[at:at + 8], "big") for at in (0, 1024)]
        check("both slots of the counter are sealed", [cell[at] for at in (512, 1536)] == [0xa5] * 2 and abs(numbers[0] - numbers[1]) == 1, numbers)
        numbers[0] ^= 1 << 20
        file.seek(0)
        file.write(numbers[0].to_bytes(8, "big"))
    status, told = ends(agents)
    check("a bit that flipped: what is broken", status == BROKEN and "broken counter_slots %d %d: no crash leaves this" % tuple(numbers) in told, (status, told))
    done = subprocess.run([agents.ctl_path, "export", "--salvage", agents.path(0, "node"), "--program", agents.program], stdout=subprocess.PIPE, text=True, timeout=PATIENCE)
    check("its jobs can still be read", "job %d 3 %s" % (kept["id"], b"kept".hex()) in done.stdout.splitlines(), done)


def spoil(path):
    """Spoils the gate of the counter's present slot; the number there."""
    with open(path, "r+b") as file:
        data = file.read()
        stride = 4096 if data[len(data) // 512 * 512:][11] == 1 else 512
        count, present = max((data[body * stride:body * stride + 8], body) for body in (0, 2))
        file.seek((present + 1) * stride)
        file.write(b"\xa4")
    return int.from_bytes(count, "big")


def skipped(bed):
    """A count whose gate is spoiled behind each start: no number is given twice."""
    check, told = bed.tally.check, "may have been given before: it is skipped"
    for word, key in (("open", None), ("sealed", bed.key("ab"))):
        agents, numbers = bed.agents("skipped_%s" % word, count=1, record=None, http=None, key=key), []
        for _ in range(4):
            agents.start(0)
            agents.one_group()
            numbers.append(int(agents.status(0)["group"].split(":")[1]))
            agents.kill(0)
            check("%s: the count that is spoiled is the number that was given" % word, spoil(agents.path(0, "node")) == numbers[-1], numbers)
        check("%s: no number is given twice" % word, numbers == list(range(numbers[0], numbers[0] + 4)), numbers)
        lines = [line for number in numbers[:-1] for line in logged(agents, 0, "group number 0:%d %s" % (number, told))]
        check("%s: it is told once at each start but the first" % word, len(lines) == 3 == len(logged(agents, 0, told)), (numbers, lines))
        agents.stop()
    agents = bed.agents("not_skipped", count=1, record=None, http=None)
    for command, status in (("exit 3", 3), ("read asked; echo refused 1 Damaged 14; cat > /dev/null", 5)):
        agents.write(0, program=stand_in(agents, 0, "hint counter_unsealed 7\n", command), record=None)
        found, said = ends(agents)
        check("%s where it can't be skipped the node doesn't begin" % command, found == status and told not in said, (found, said))
    agents.stop()
