"""What somebody reads who sees each datagram between the machines."""
import os

# So many bytes of a payload in a datagram are read as a part of it; by chance they never stand there.
READ = 8


def pieces(payload):
    """What a datagram has of a payload that can be read in it: bytes, or their digits."""
    return {text[at:at + READ] for text in (payload, payload.hex().encode()) for at in range(len(text) - READ + 1)}


def shown(agents, payloads):
    """How many of the datagrams so far have a piece of a payload."""
    known = set().union(*map(pieces, payloads))
    return sum(any(datagram[at:at + READ] in known for at in range(len(datagram))) for _, datagram in list(agents.relay.kept))


def payloads(bed):
    """Under a key no piece of a job is read on its way to the coordinator's machine and to its worker's; without one it is."""
    for name, key in (("in_clear", None), ("encrypted", bed.key("ab"))):
        agents, check = bed.agents("capture_" + name, record=None, key=key), bed.tally.check
        agents.start_all()
        agents.one_group()
        sent = [os.urandom(200) for _ in range(8)]
        steady = bed.tally.steady(agents)
        answers = [agents.ask(i % 3, do="submit", queue=i, hex=payload.hex()) for i, payload in enumerate(sent)]
        steady("%s: jobs are taken at each machine" % name, all(answer and answer["ok"] for answer in answers), answers)
        agents.until(lambda: sum(agents.status(i)["in_hand"] for i in range(3)) == len(sent))
        seen = shown(agents, sent)
        check("%s: what is read of them" % name, (seen > 0) == (key is None), seen)
        check("%s: it is said" % name, [agents.status(i)["encrypted"] for i in range(3)] == [key is not None] * 3)
        agents.stop()
