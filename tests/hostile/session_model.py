"""What `invite node` answers, from docs/FORMATS.md: all but ticks and losses."""
from node_model import DOWN, Denied, Node


class Session:
    """A node over its file, whose device never fails."""

    def __init__(self, own, nodes, slots, first=0):
        self.node = Node(own, nodes, slots)
        self.node.count, self.node.phase = first, DOWN
        self.begin()

    def begin(self):
        """A process is started: the node is down, and what is in the file stays."""
        self.node.stop_work()
        self.node.phase, self.requests = DOWN, 0

    def seen(self):
        node = self.node
        if node.phase == DOWN:
            return "group Down", {}
        return f"group {node.phase} {node.coordinator} {node.group[0]}:{node.group[1]} {listed(node.members)}", dict(node.hand)

    def asked(self, words):
        if words[0] == "deliver":
            return (bytes.fromhex(words[1]),)
        if words[0] == "submit":
            return int(words[1]), b"" if words[2] == "-" else bytes.fromhex(words[2]), int(words[3]) if words[3:] else 0
        return tuple(map(int, words[1:]))

    def answer(self, line, is_read):
        """The lines that answer a request."""
        self.requests += 1
        if not is_read:
            return [f"bad {self.requests}"]
        words = line.split(" ")
        if words[0] in ("state", "jobs"):
            return [*(self.state() if words[0] == "state" else self.jobs()), f"ok {self.requests}"]
        node, (group, hand), pending = self.node, self.seen(), set(self.node.pending)
        try:
            sent = node.take(words[0], *self.asked(words))
        except Denied as denied:
            return [f"refused {self.requests} {denied}"]
        lines = [f"send {message[3]} {message.hex()}" for message in sent]
        now, held = self.seen()
        lines += [now] if now != group else []
        lines += [f"take {job(*key, *held[key])}" for key in sorted(held) if key not in hand]
        lines += [f"drop {key[0]} {key[1]}" for key in sorted(hand) if key not in held and words[0] != "finish"]
        lines += [f"gone {job}" for job in pending - set(node.pending)]
        if words[0] == "recover":
            lines.append(f"keeps {node.count} {node.next} {len(node.pending)}")
        return lines + [f"ok {self.requests}" + (f" id {node.next - 1}" if words[0] == "submit" else "")]

    def state(self):
        node = self.node
        if node.phase == DOWN:
            return ["state Down"]
        truth = lambda value: "yes" if value else "no"
        return [f"state {node.phase} coord {node.coordinator} group {node.group[0]}:{node.group[1]} members {listed(node.members)} found {listed(sorted(node.found))} "
                f"unready {listed(sorted(node.unready))} checking {truth(node.checking)} probing {truth(node.probing)} count {node.count} pending {len(node.pending)} hand {len(node.hand)}"]

    def jobs(self):
        if self.node.phase == DOWN:
            return []
        return [f"pending {job(one, *self.node.pending[one])}" for one in sorted(self.node.pending)] + [f"hand {job(*key, *self.node.hand[key])}" for key in sorted(self.node.hand)]


def listed(ids):
    return ",".join(map(str, ids)) or "-"


def job(*words):
    *numbers, queue, payload, priority = words
    return " ".join([*map(str, numbers), str(queue), payload.hex() or "-"] + ([str(priority)] if priority else []))
