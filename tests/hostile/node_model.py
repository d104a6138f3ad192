"""One node as docs/PROTOCOL.md has it, a cluster of them as docs/SIMULATION.md prints it, and the search of docs/SIMULATION.md for an order. No disk
ever fails here, but that a trace says so."""
from wire import decode, encode

DOWN, ELECTION, REORGANIZATION, NORMAL = "Down", "Election", "Reorganization", "Normal"
TIMERS = ("check", "merge", "accept", "ready", "coord", "dispatch")


class Denied(Exception):
    """The event is refused, with this word."""


class Impossible(Exception):
    """The entry of a trace can't come."""


def spell_group(group):
    return bytes([group[0]]) + group[1].to_bytes(8, "big")


class Node:
    def __init__(self, own, nodes, slots=None):
        self.own, self.nodes, self.slots = own, nodes, slots
        self.count, self.next, self.pending, self.doubt = 1, 0, {}, None
        self.phase, self.coordinator, self.group, self.up = NORMAL, own, (own, 1), set()
        self.stop_work()
        self.members = [own]

    def stop_work(self):
        self.hand, self.found, self.unready, self.members = {}, set(), set(), []
        self.checking = self.probing = False

    def leads(self):
        return self.coordinator == self.own

    def owner(self, queue):
        return self.members[queue % len(self.members)]

    def say(self, kind, receivers, body=b"", ids=()):
        return [encode(kind, self.own, one, body, ids) for one in sorted(receivers)]

    def durable(self, command):
        """The command is made durable, or it is in doubt where the device fails."""
        if self.fails:
            self.doubt, self.phase = command, DOWN
            raise Denied("Device")
        self.settle(command)

    def settle(self, command):
        if command[0] == "raise":
            self.count += 1
        elif command[0] == "put":
            self.pending[self.next] = command[1:]
            self.next += 1
        else:
            self.pending.pop(command[1], None)

    def new_group(self):
        self.durable(("raise",))
        self.coordinator, self.group = self.own, (self.own, self.count)

    def recovery(self):
        self.new_group()
        self.stop_work()
        self.up, self.members, self.phase = set(), [self.own], NORMAL
        return []

    def crash(self):
        self.phase = DOWN

    def take(self, event, *args, fails=False):
        """What the node sends. Where it is refused nothing is changed; where its device fails it is down, and this says whether one was wanted."""
        self.fails = fails
        return getattr(self, event)(*args)

    def recover(self):
        return self.recovery()

    def check(self):
        if self.phase != NORMAL or not self.leads():
            return []
        self.found, self.checking = set(), True
        return self.say(1, set(range(self.nodes)) - {self.own})

    def merge(self):
        if self.phase != NORMAL or not self.leads() or not self.checking:
            return []
        if not self.found:
            self.checking = False
            return []
        receivers = self.up | self.found
        self.new_group()
        self.stop_work()
        self.phase, self.up = ELECTION, set()
        return self.say(5, receivers, spell_group(self.group), [self.own])

    def accept(self):
        if self.phase != ELECTION or not self.leads():
            return []
        self.members, self.unready = sorted(self.up | {self.own}), set(self.up)
        self.phase = REORGANIZATION if self.up else NORMAL
        return self.say(7, self.up, spell_group(self.group) + bytes([len(self.members), *self.members]), self.members)

    def ready(self):
        return self.recovery() if self.phase == REORGANIZATION and self.leads() else []

    def coord(self):
        if self.phase not in (REORGANIZATION, NORMAL) or self.leads():
            return []
        if self.probing:
            return self.recovery()
        self.probing = True
        return self.say(3, [self.coordinator], spell_group(self.group), [self.group[0]])

    def work(self, job):
        """The job goes to the owner of its queue: into the own hand, or as a message."""
        queue, payload, priority = self.pending[job]
        owner = self.owner(queue)
        if owner == self.own:
            self.hand.setdefault((self.own, job), (queue, payload, priority))
            return []
        body = spell_group(self.group) + job.to_bytes(8, "big") + bytes([queue] + ([priority] if priority else [])) + len(payload).to_bytes(2, "big") + payload
        return self.say(11 if priority else 9, [owner], body, [self.group[0]])

    def dispatch(self):
        if self.phase != NORMAL:
            return []
        order = sorted(self.pending, key=lambda job: (-self.pending[job][2], job))
        return [message for job in order for message in self.work(job)]

    def submit(self, queue, payload, priority):
        for wrong, word in ((self.phase == DOWN, "Down"), (self.phase != NORMAL, "NotNormal"), (not self.leads(), f"NotCoordinator {self.coordinator}")):
            if wrong:
                raise Denied(word)
        if self.slots is not None and len(self.pending) + 3 > self.slots:
            raise Denied("Full")
        self.durable(("put", queue, payload, priority))
        return self.work(self.next - 1)

    def finish(self, origin, job):
        if self.phase == DOWN or (origin, job) not in self.hand:
            raise Denied("Down" if self.phase == DOWN else "UnknownJob")
        if origin == self.own and job in self.pending:
            self.durable(("done", job))
        del self.hand[origin, job]
        return [] if origin == self.own else self.say(10, [origin], job.to_bytes(8, "big"))

    def compact(self):
        if self.phase == DOWN:
            raise Denied("Down")
        return []

    def deliver(self, data):
        message = decode(data)
        if message["receiver"] != self.own or max(message["ids"]) >= self.nodes:
            raise Denied("Stranger")
        if self.phase == DOWN:
            return []
        return getattr(self, "on%d" % message["kind"], lambda *_: [])(message["sender"], message)

    def on1(self, sender, message):
        return self.say(2, [sender], bytes([self.phase == NORMAL and self.leads()]))

    def on2(self, sender, message):
        if message["truth"] and self.phase == NORMAL and self.leads() and self.checking:
            self.found.add(sender)
        return []

    def on3(self, sender, message):
        group = message["group"]
        return self.say(4, [sender], spell_group(group) + bytes([group == self.group and self.leads() and sender in self.up]), [group[0]])

    def on4(self, sender, message):
        if not self.probing or sender != self.coordinator or message["group"] != self.group:
            return []
        if message["truth"]:
            self.probing = False
            return []
        return self.recovery()

    def on5(self, sender, message):
        group = message["group"]
        if self.phase != NORMAL or group[0] == self.own or group == self.group:
            return []
        told = self.say(5, self.up - {group[0]}, spell_group(group), [group[0]]) if self.leads() else []
        self.stop_work()
        self.coordinator, self.group, self.up, self.phase = group[0], group, set(), REORGANIZATION
        return told + self.say(6, [group[0]], spell_group(group), [group[0]])

    def on6(self, sender, message):
        if self.phase == ELECTION and self.leads() and message["group"] == self.group:
            self.up.add(sender)
        return []

    def on7(self, sender, message):
        if self.phase not in (REORGANIZATION, NORMAL) or sender != self.coordinator or message["group"] != self.group or self.own not in message["members"]:
            return []
        if self.phase == REORGANIZATION:
            self.members, self.phase = message["members"], NORMAL
        return self.say(8, [sender], spell_group(self.group), [self.group[0]])

    def on8(self, sender, message):
        if self.phase == REORGANIZATION and self.leads() and message["group"] == self.group:
            self.unready.discard(sender)
            self.phase = REORGANIZATION if self.unready else NORMAL
        return []

    def on9(self, sender, message):
        if self.phase == NORMAL and message["group"] == self.group and sender in self.members and self.owner(message["queue"]) == self.own:
            self.hand.setdefault((sender, message["job"]), (message["queue"], message["payload"], message["priority"]))
        return []

    on11 = on9

    def on10(self, sender, message):
        if message["job"] in self.pending:
            self.durable(("done", message["job"]))
        return []

    def row(self):
        if self.phase == DOWN:
            return f"node {self.own} Down\n"
        listed = lambda ids: ",".join(map(str, ids)) or "-"
        hand = listed(f"{origin}:{job}" for origin, job in sorted(self.hand))
        return (f"node {self.own} {self.phase} coord {self.coordinator} group {self.group[0]}:{self.group[1]} up {listed(sorted(self.up))} members {listed(self.members)} "
                f"count {self.count} pending {listed(sorted(self.pending))} hand {hand}\n")


class Cluster:
    """A schedule that is run act by act. The disks never fail."""

    def __init__(self, nodes, slots):
        self.nodes = [Node(one, nodes, slots) for one in range(nodes)]
        self.sent, self.lost, self.cuts, self.done = [], set(), set(), 0
        # of each act the node, the event with its words, the messages and whether it was refused
        self.taken = []

    def act(self, line):
        """The line that is printed."""
        at, self.done = self.done, self.done + 1
        try:
            own, event, args, text = self.asked(line.split(" "))
            messages = self.nodes[own].take(event, *args) or [] if own is not None else []
        except Denied as denied:
            return f"{at} refused {denied}\n"
        text += f" id {self.nodes[own].next - 1}" if event == "submit" else ""
        first = len(self.sent)
        self.sent += messages
        if own is not None:
            self.taken.append((own, event, args, messages))
        return f"{at} ok{text}" + "".join(f" {k}:{message.hex()}" for k, message in enumerate(messages, first)) + "\n"

    def node(self, word):
        if int(word) >= len(self.nodes):
            raise Denied("Stranger")
        return int(word)

    def asked(self, words):
        """The node that takes the event, or None where it is the network."""
        verb = words[0]
        if verb in ("deliver", "lose"):
            number = int(words[1])
            if number >= len(self.sent) or number in self.lost:
                raise Denied("NoSuch" if number >= len(self.sent) else "Lost")
            if verb == "lose":
                self.lost.add(number)
                return None, verb, (), ""
            data = self.sent[number]
            if data[2] != data[3] and frozenset(data[2:4]) in self.cuts:
                raise Denied("Cut")
            return data[3], "deliver", (data,), ""
        if verb in ("cut", "mend"):
            pair = frozenset((self.node(words[1]), self.node(words[2])))
            (self.cuts.add if verb == "cut" else self.cuts.discard)(pair)
            return None, verb, (), ""
        own = self.node(words[1])
        if verb == "submit":
            payload = b"" if words[3] == "-" else bytes.fromhex(words[3])
            return own, verb, (int(words[2]), payload, int(words[4]) if words[4:] else 0), ""
        if verb == "finish":
            return own, verb, (int(words[2]), int(words[3])), ""
        return own, verb, (), ""

    def table(self):
        return "".join(node.row() for node in self.nodes)


class Search:
    """The order of a trace: at each turn the least node whose next entry is possible takes it."""

    def __init__(self, nodes, histories):
        self.nodes, self.histories = [Node(one, nodes) for one in range(nodes)], histories
        self.sent, self.places, self.order = set(), [0] * nodes, []

    def verdict(self):
        while True:
            for own, history in enumerate(self.histories):
                if self.places[own] < len(history) and self.takes(own, history[self.places[own]]):
                    self.places[own] += 1
                    self.order.append(own)
                    break
            else:
                break
        for own, history in enumerate(self.histories):
            if self.places[own] < len(history):
                return 1, f"NotARun {own} {self.places[own]}\n"
        return 0, "".join(["Run", *(f" {own}" for own in self.order)]) + "\n"

    def takes(self, own, entry):
        node = self.nodes[own]
        kept = {key: value.copy() if hasattr(value, "copy") else value for key, value in vars(node).items()}
        try:
            sent = self.taken(node, entry)
        except (Impossible, Denied):
            sent = None
        if sent != entry["sent"]:
            vars(node).update(kept)
            return False
        self.sent |= set(sent)
        return True

    def taken(self, node, entry):
        what, fault = entry["do"], entry["fault"]
        if what in ("none", "crash"):
            node.phase = DOWN if what == "crash" else node.phase
            return []
        if what == "recover":
            return self.recovered(node, entry)
        if what == "deliver" and (entry["spelled"] not in self.sent or entry["msg"]["receiver"] != node.own):
            raise Impossible
        args = {"deliver": ("spelled",), "submit": ("queue", "payload", "priority"), "finish": ("origin", "id")}.get(what, ())
        if node.phase == DOWN and (fault or what in ("submit", "finish")):
            raise Impossible
        if node.phase == DOWN:
            return []
        try:
            sent = node.take(what, *(entry[name] for name in args), fails=bool(fault))
        except Denied as denied:
            if str(denied) == "Device" and fault:
                return []
            raise
        if fault:
            raise Impossible
        return sent

    def recovered(self, node, entry):
        is_down, fault, kept = node.phase == DOWN, entry["fault"], entry["kept"]
        if kept and (not is_down or node.doubt is None or fault == "mount") or (fault == "mount" and not is_down):
            raise Impossible
        if fault == "mount":
            return []
        if kept:
            node.settle(node.doubt)
        node.doubt = None
        try:
            return node.take("recover", fails=bool(fault))
        except Denied:
            return []
