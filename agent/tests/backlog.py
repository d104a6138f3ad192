"""Many long jobs that are pending as a member is killed and comes back: the Work of a new dispatch is taken, under a key as without one."""
import json, statistics, time

from bed import free_port
from cluster import metric

JOBS, AT_A_TIME, ROUNDS = 3000, 20, 5
# Under a key it takes at most so many times as long as without one, and each job is sent at most so often in a group.
RATIO = 1.3


def work_in_order(bed):
    times = {}
    for key in (None, bed.key("ab")):
        times[bool(key)] = measured(bed, key)
    sealed, open_ = statistics.median(times[True]), statistics.median(times[False])
    bed.tally.note("%d jobs in hand again behind a whole group: %.2f s without a key, %.2f s under one" % (JOBS, open_, sealed))
    # a turn of the loop that asks is no part of it
    bed.tally.timed("under a key all are in hand again about as soon as without one", sealed <= RATIO * open_ + 0.1, times)


def measured(bed, key):
    """How long it takes, each time, until all jobs are in hand."""
    word = "sealed" if key else "open"
    # with longer round trips what a busy machine lost is sent again much later
    agents, check = bed.agents("work_%s" % word, slots=4096, record=None, key=key, round_trip_ms=min(60, bed.round_trip)), bed.tally.check
    # no relay: its sockets hold little
    names = ["127.0.0.1:%d" % free_port() for _ in range(3)]
    for i in range(3):
        agents.write(i, nodes=names, listen=None, record=None)
    agents.start_all()
    agents.one_group()
    lead = agents.status(0)["coordinator"]
    others, times = [i for i in range(3) if i != lead], []
    with agents.connect(lead) as link:
        reader, kept = link.makefile(), 0
        while kept < JOBS:
            link.sendall(b"".join(json.dumps(dict(do="submit", queue=q % 16, hex="ab" * 400)).encode() + b"\n" for q in range(AT_A_TIME)))
            answers = [json.loads(reader.readline()) for _ in range(AT_A_TIME)]
            # one that a busy machine gave no answer in time may be kept, too
            if not all(one["ok"] or one["error"] == "NoAnswer" for one in answers):
                raise ValueError("a job isn't kept: %s" % [one for one in answers if not one["ok"]][:2])
            kept += sum(one["ok"] for one in answers)
    kept = sum(agents.status(i)["pending"] for i in range(3))
    stale = lambda: sum(metric(agents, i, 'refused_total{reason="Stale"}') for i in others)
    in_hand = lambda: sum((agents.status(i) or {}).get("in_hand", 0) for i in range(3))
    agents.until(lambda: in_hand() == kept)
    for _ in range(ROUNDS):
        agents.kill(others[0])
        agents.one_group([i for i in range(3) if i != others[0]])
        agents.start(others[0])
        agents.one_group()
        begin = time.monotonic()
        agents.until(lambda: in_hand() >= kept)
        times.append(time.monotonic() - begin)
        check("no message is refused as older than another one (%s)" % word, stale() == 0, stale())
    agents.stop()
    return times
