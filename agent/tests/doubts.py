"""What a client is told where the device of a node fails while the node keeps a job: each sync of a submission fails once, at the own machine and at another."""
import os, shutil

from bed import PATIENCE
from cluster import judged
from machine import compiled, wrapped

HERE = os.path.dirname(os.path.abspath(__file__))
# More syncs than a submission makes
MOST = 6


def failing_syncs(bed):
    """Who is surely refused has no job that some node keeps, and whoever is told of a job has that one."""
    if not shutil.which("cc"):
        return bed.tally.left_out("syncs of a submission that fail", "there is no C compiler")
    library = compiled(bed, "fail_sync", os.path.join(HERE, "fail_sync.c"))
    for place, count in (("own", 1), ("another", 3)):
        agents = bed.agents("syncs-%s" % place, count=count)
        trigger = os.path.join(agents.folder, "trigger")
        program = wrapped(agents, "fails", LD_PRELOAD=library, TRIGGER=trigger)
        for i in range(count):
            agents.write(i, program=program)
        agents.start_all()
        told = [one for one in (tried(agents, trigger, number) for number in range(1, MOST)) if one]
        bed.tally.check("%s machine: each sync of a submission fails once" % place, len(told) >= 2, told)
        wrong = [(answer, kept) for answer, kept in told if kept == 0 and answer.get("ok") or kept and not answer.get("ok") and not answer.get("may_be_kept")]
        bed.tally.check("%s machine: no job is kept that was surely refused, and each that was promised is" % place, not wrong, wrong)
        bed.tally.check("%s machine: some job is kept whose client was told nothing sure" % place, any(kept and not answer.get("ok") for answer, kept in told), told)
        agents.stop()
        judged(bed, agents, "failing syncs, %s machine" % place)


def tried(agents, trigger, number):
    """What the client was told whose submission met a sync that failed, and how often its job is kept once all are there again; None where no sync of this number
    is made."""
    agents.one_group()
    leads = agents.status(0)["coordinator"]
    asks, text = (leads + 1) % agents.count, "sync %d" % number
    with open(trigger, "w") as file:
        file.write("%d" % number)
    answer = agents.ask(asks, do="submit", queue=0, text=text) or {}
    with open(trigger) as file:
        left = int(file.read())
    os.remove(trigger)
    if left > 0:
        return None
    status = agents.processes[leads].wait(PATIENCE)
    if status != 3:
        raise AssertionError("an agent whose device failed ended with %d" % status)
    agents.start(leads)
    agents.one_group()
    rows = [row for i in range(agents.count) for row in agents.ask(i, do="jobs")["jobs"]]
    return answer, sum(1 for row in rows if row["kept"] and row["payload"] == text.encode().hex())
