"""Which lines can be read, from docs/SIMULATION.md and docs/FORMATS.md."""
import re
from node_model import TIMERS
from spelling import HAS_PRIORITIES
from wire import Malformed, decode

GREATEST = 2**64 - 1
MOST_ACTS = 65_536


def is_number(word, most=GREATEST, least=0):
    return re.fullmatch(rb"0|[1-9][0-9]*", word) is not None and len(word) <= 20 and least <= int(word) <= most


def is_hex(word, most=None):
    """Bytes in hex, at most so many; `-` for none."""
    if word == b"-":
        return True
    return re.fullmatch(rb"([0-9a-fA-F]{2})+", word) is not None and (most is None or len(word) <= 2 * most)


def is_node(word):
    return is_number(word, 127)


def is_message(word):
    if word == b"-" or not is_hex(word):
        return False
    try:
        data = bytes.fromhex(word.decode())
        if len(data) < 6 or len(data) != 6 + int.from_bytes(data[4:6], "big"):
            return False
        decode(data)
        return True
    except Malformed:
        return False


number, node, queue = is_number, is_node, lambda word: is_number(word, 15)
payload = lambda word: is_hex(word, 400)
priority = lambda word: is_number(word, 255, 1)
rows = lambda *fields: [fields]
job = [(queue, payload), (queue, payload, priority)] if HAS_PRIORITIES else [(queue, payload)]

# Of each word the lists of fields that may stand behind it.
SIM = {
    **{timer.encode(): rows(node) for timer in (*TIMERS, "recover", "compact")},
    b"deliver": rows(number), b"lose": rows(number),
    b"cut": rows(node, node), b"mend": rows(node, node),
    b"submit": [(node, *fields) for fields in job], b"finish": rows(node, node, number),
    b"arm": rows(node, number), b"crash": [(node,), (node, is_hex)],
}
STORE = {
    b"format": rows(lambda word: is_number(word, 4096, 4)), b"mount": rows(), b"raise": rows(), b"compact": rows(), b"list": rows(),
    b"put": job, b"done": rows(number),
}
NODE = {
    **{timer.encode(): rows() for timer in (*TIMERS, "recover", "compact", "state", "jobs")},
    b"deliver": rows(is_message), b"tick": rows(number), b"lost": rows(node),
    b"submit": job, b"finish": rows(node, number),
}


def is_read(line, grammar):
    """Whether a line that isn't empty can be read."""
    verb, *fields = line.split(b" ")
    return any(len(kinds) == len(fields) and all(kind(word) for kind, word in zip(kinds, fields)) for kinds in grammar.get(verb, []))


OPERATOR = {
    b"submit": job, b"finish": rows(node, number), b"arm": rows(number), b"crash": [(), (is_hex,)], b"recover": rows(),
}


def is_turn(line, nodes):
    """Whether a line of plans is a turn, in a cluster of so many nodes."""
    own, worker, *fields = line.split(b" ") + [b""] * (2 - len(line.split(b" ")))
    if not is_number(own, nodes - 1):
        return False
    if worker == b"intake":
        return len(fields) == 1 and is_number(fields[0], nodes - 1) and fields[0] != own
    if worker == b"clock":
        return len(fields) == 1 and fields[0] in [timer.encode() for timer in TIMERS]
    return worker == b"operator" and is_read(b" ".join(fields), OPERATOR)


def is_making(words):
    """Whether these words behind its path make the file of a node."""
    if len(words) not in (3, 4) or not is_number(words[0], 4096, 4) or not is_node(words[1]) or not is_number(words[2], 128, 1):
        return False
    return int(words[1]) < int(words[2]) and all(map(is_number, words[3:]))


def lines_in(data):
    """The lines of an input, numbered from 1."""
    lines = data.split(b"\n")
    return list(enumerate(lines if lines[-1] else lines[:-1], 1))


def bad_in_schedule(data):
    """The number of the line of a schedule that can't be read, or None."""
    lines, acts = lines_in(data), None
    for at, line in lines:
        if not line:
            continue
        if acts is None:
            words = line.split(b" ")
            if len(words) != 3 or words[0] != b"cluster" or not is_number(words[1], 128, 1) or not is_number(words[2], 4096, 4):
                return at
            acts = 0
            continue
        acts += 1
        if acts > MOST_ACTS or not is_read(line, SIM):
            return at
    return len(lines) + 1 if acts is None else None


def bad_in_plans(data):
    """The number of the line of plans that can't be read, or None."""
    lines, nodes, capacity = lines_in(data), None, None
    for at, line in lines:
        if not line:
            continue
        words = line.split(b" ")
        if nodes is None:
            if len(words) != 3 or words[0] != b"cluster" or not is_number(words[1], 128, 1) or not is_number(words[2], 4096, 4):
                return at
            nodes = int(words[1])
        elif capacity is None:
            if len(words) != 2 or words[0] != b"links" or not is_number(words[1], 65_536, 1):
                return at
            capacity = int(words[1])
        elif not is_turn(line, nodes):
            return at
    return len(lines) + 1 if capacity is None else None


def bad_in_store(data):
    return next((at for at, line in lines_in(data) if line and not is_read(line, STORE)), None)


def bad_in_pieces(data):
    """The number of the line of `answer` or `show` that can't be read, or None."""
    return next((at for at, line in lines_in(data) if line and not is_hex(line)), None)


def node_requests(data):
    """For each request of a node whether it can be read; a last line that isn't whole is none."""
    return [is_read(line, NODE) for line in data.split(b"\n")[:-1] if line]
