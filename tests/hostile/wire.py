"""Messages, streams and the commands `show` and `answer`, written from docs/FORMATS.md and docs/PROTOCOL.md and not from the program."""
import os, re
from spelling import HAS_PRIORITIES

PAGE = os.path.join(os.path.dirname(os.path.abspath(__file__)), "../../docs/FORMATS.md")


def table():
    """The rows of the page's table of kinds: number, name, fields and length of the body."""
    with open(PAGE) as file:
        section = file.read().split("\n## Messages\n")[1].split("\n### ")[0]
    return [(int(row[0], 16), *row[1:]) for row in re.findall(r"^\| ([0-9a-f]{2}) \| (\w+) \| ([^|]+) \| ([^|]+) \|", section, re.M)]


KINDS = table()
NAMES = {kind: name for kind, name, _, _ in KINDS}
LENGTHS = {kind: int(length) for kind, _, _, length in KINDS if length.isdigit()}
WITH_GROUP = {kind for kind, _, fields, _ in KINDS if re.match("group", fields)}
WITH_TRUTH = {kind for kind, _, fields, _ in KINDS if re.search("truth$", fields)}


class Malformed(Exception):
    pass


def need(truth):
    if not truth:
        raise Malformed


def number(data):
    return int.from_bytes(data, "big")


def body_of(kind, body):
    """The fields of a body: what it says, and the ids of nodes in it."""
    if kind in LENGTHS:
        need(len(body) == LENGTHS[kind])
    said = {}
    if kind in WITH_GROUP:
        need(len(body) >= 9)
        said["group"] = (body[0], number(body[1:9]))
        need(said["group"][1] >= 1)
    if kind in WITH_TRUTH:
        need(body[-1] <= 1)
        said["truth"] = body[-1] == 1
    if kind == 7:
        need(len(body) >= 10 and len(body) == 10 + body[9])
        ids = list(body[10:])
        need(1 <= len(ids) <= 128 and all(a < b for a, b in zip(ids, ids[1:])) and body[0] in ids)
        said["members"] = ids
    if kind in (9, 11):
        head = 18 + (kind == 11)
        need(len(body) >= head + 2)
        size = number(body[head:head + 2])
        need(size <= 400 and len(body) == head + 2 + size and body[17] < 16)
        need(kind == 9 or body[18] > 0)
        said.update(job=number(body[9:17]), queue=body[17], priority=body[18] if kind == 11 else 0, payload=bytes(body[head + 2:]))
    if kind == 10:
        said["job"] = number(body)
    return said


def decode(frame):
    """The message that a whole frame spells."""
    version, kind, sender, receiver = frame[:4]
    need(version in (1, 2) and kind in NAMES and (HAS_PRIORITIES or kind != 11) and sender != receiver)
    said = body_of(kind, frame[6:])
    ids = [sender, receiver] + ([said["group"][0]] if "group" in said else []) + said.get("members", [])
    need(max(ids) < 128 and (max(ids) >= 64) == (version == 2))
    said.update(kind=kind, sender=sender, receiver=receiver, ids=ids)
    return said


def encode(kind, sender, receiver, body, ids=()):
    version = 2 if max([sender, receiver, *ids]) >= 64 else 1
    return bytes([version, kind, sender, receiver]) + len(body).to_bytes(2, "big") + body


def example(kind):
    """Some message of a kind of a fixed length, in hex."""
    group = bytes(8) + bytes([2])
    bodies = {0: b"", 1: b"\1", 8: bytes(8), 9: group, 10: group + b"\0"}
    return encode(kind, 1, 0, bodies[LENGTHS[kind]]).hex()


def stream(data):
    """The messages of a stream, and how it ends: `malformed`, or the number of bytes of its rest."""
    messages = []
    while len(data) >= 6 and len(data) >= 6 + number(data[4:6]):
        size = 6 + number(data[4:6])
        try:
            messages.append(decode(data[:size]))
        except Malformed:
            return messages, "malformed"
        data = data[size:]
    return messages, len(data)


def shown(message):
    def group():
        return "%d:%d" % message["group"]
    kind, words = message["kind"], ["%d>%d" % (message["sender"], message["receiver"]), NAMES[message["kind"]]]
    if "group" in message:
        words.append(group())
    if "truth" in message:
        words.append("yes" if message["truth"] else "no")
    if kind == 7:
        words += ["members", ",".join(map(str, message["members"]))]
    if kind in (9, 11):
        words += [str(message["job"]), str(message["queue"]), message["payload"].hex() or "-"]
        words += [str(message["priority"])] if message["priority"] else []
    if kind == 10:
        words.append(str(message["job"]))
    return " ".join(words) + "\n"


def show(data):
    """What `show` prints for these bytes, and its status."""
    messages, end = stream(data)
    text = "".join(map(shown, messages))
    if end == "malformed":
        return 1, (text + "malformed\n").encode()
    return 0, (text + (f"rest {end}\n" if end else "")).encode()


class Answering:
    """The node of `answer`: it coordinates its own group of count 1, with no timer, no disk and no job."""

    def __init__(self, own):
        self.own, self.coordinator, self.group = own, own, (own, 1)
        self.phase, self.members = "Normal", [own]

    def came(self, message):
        """The messages that it sends, where this one came."""
        kind, sender, group = message["kind"], message["sender"], message.get("group")
        spelled = bytes([group[0]]) + group[1].to_bytes(8, "big") if group else b""
        leads = self.coordinator == self.own
        if kind == 1:
            return [encode(2, self.own, sender, bytes([self.phase == "Normal" and leads]))]
        if kind == 3:
            # nobody ever joined a group of its own
            return [encode(4, self.own, sender, spelled + b"\0", [group[0]])]
        if kind == 5 and self.phase == "Normal" and group[0] != self.own and group != self.group:
            self.coordinator, self.group, self.phase, self.members = group[0], group, "Reorganization", []
            return [encode(6, self.own, group[0], spelled)]
        if kind == 7 and not leads and sender == self.coordinator and group == self.group and self.own in message["members"]:
            self.phase, self.members = "Normal", message["members"] if self.phase == "Reorganization" else self.members
            return [encode(8, self.own, sender, spelled, [group[0]])]
        return []


def answer(own, nodes, data):
    """What `answer` prints for these bytes, and its status."""
    messages, end = stream(data)
    node, text = Answering(own), ""
    for message in messages:
        if message["receiver"] != own or max(message["ids"]) >= nodes:
            return 1, (text + "refused Stranger\n").encode()
        text += "".join(sent.hex() + "\n" for sent in node.came(message))
    return (1, (text + "malformed\n").encode()) if end == "malformed" else (0, text.encode())
