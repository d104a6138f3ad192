"""Submissions that are made again under their key: one job, at whichever machine, over agents that end."""
import concurrent.futures, random, signal


def kept(agents, text):
    """How many jobs with this payload are kept, by the nodes that are there."""
    alive = [i for i in range(agents.count) if agents.processes[i].poll() is None]
    rows = [row for i in alive for row in agents.ask(i, do="jobs")["jobs"]]
    return sum(1 for row in rows if row["kept"] and row["payload"] == text.encode().hex())


def submitted(agents, i, key, text=None):
    """The job of a submission, or what it was refused by."""
    answer = agents.ask(i, do="submit", queue=9, text=text or key, key=key) or {}
    return (answer["origin"], answer["id"]) if answer.get("ok") else answer.get("error")


def keys(bed):
    # an agent that a busy machine gives no time for 10 round trips knows nothing of a key, by its silence
    agents, check, timed = bed.agents("keys", count=3, key=bed.key("ab")), bed.tally.check, bed.tally.timed
    agents.start_all()
    agents.one_group()
    wrong = [agents.ask(0, do="submit", queue=9, text="x", key=key)["error"] for key in ("", "k" * 201)] + [agents.ask(0, do="submit", queue=9, text="x", key=7)["error"]]
    check("keys that are none", wrong == ["BadKey", "BadKey", "Unreadable"], wrong)
    first = submitted(agents, 1, "a")
    again = [submitted(agents, i, "a", "something else") for i in range(3)]
    timed("a submission that is made again is one job, at each machine", isinstance(first, tuple) and again == [first] * 3, (first, again))
    timed("and none is kept beside it", (kept(agents, "a"), kept(agents, "something else")) == (1, 0), (kept(agents, "a"), kept(agents, "something else")))
    timed("by another key it is another one", submitted(agents, 1, "b") not in (None, first))
    at_once(agents, timed)
    over_ends(agents, timed)
    agents.stop()


def at_once(agents, timed):
    """The same submission at all machines at the same time."""
    with concurrent.futures.ThreadPoolExecutor(9) as pool:
        told = {turn: [pool.submit(submitted, agents, i % 3, "at once %d" % turn) for i in range(9)] for turn in range(5)}
        jobs = {turn: {one.result() for one in some} for turn, some in told.items()}
    timed("nine at the same time are one", all(len(some) == 1 for some in jobs.values()), jobs)
    timed("of which one is kept", [kept(agents, "at once %d" % turn) for turn in jobs] == [1] * 5)


def over_ends(agents, timed):
    chance = random.Random(7)
    for how in (signal.SIGTERM, signal.SIGKILL):
        leads, text = agents.status(0)["coordinator"], "over signal %d" % how
        at = chance.choice([i for i in range(3) if i != leads])
        first = submitted(agents, at, text)
        others = [i for i in range(3) if i != leads]
        # whoever was told of it, and who wasn't, asks the others
        agents.kill(leads, how)
        agents.one_group(others)
        again = [submitted(agents, i, text) for i in others]
        timed("%s: where its keeper ended those who were told answer" % how.name, again == [first] * 2, (first, again))
        agents.start(leads)
        agents.one_group()
        # where the others are drained the keeper leads, which remembers nothing
        for i in others:
            agents.ask(i, do="drain")
        agents.until(lambda: agents.is_one_group(range(3)) and agents.status(leads)["is_coordinator"])
        again = [submitted(agents, i, text) for i in range(3)]
        timed("%s: and the keeper, which was started anew, asks them" % how.name, again == [first] * 3, (first, again))
        timed("%s: one is kept" % how.name, kept(agents, text) == 1, kept(agents, text))
        for i in others:
            agents.ask(i, do="drain", on=False)
    for i in range(3):
        agents.kill(i)
    agents.start_all()
    agents.one_group()
    timed("where all were started anew nobody remembers it", submitted(agents, 0, "a") not in (None, first) and kept(agents, "a") == 2, kept(agents, "a"))
