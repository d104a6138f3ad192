"""Inputs by chance: a corpus of vectors, schedules, sessions, traces and plans, what comes of spoiling it, and what random clusters did."""
import grammar, rows
from common import schedules
from node_model import Cluster
from spelling import HAS_PRIORITIES
from traces_tried import VALUES
from vectors import MESSAGES, OTHERS, stream_to

WORDS = [b"0", b"1", b"2", b"3", b"7", b"15", b"16", b"63", b"64", b"127", b"128", b"255", b"256", b"00", b"-1", b"-", b"", b"a5", b"ff", b"f", b"4", b"5", b"4096",
         b"18446744073709551615", b"18446744073709551616", b"a5" * 400, b"a5" * 401, b"6869"]
SESSIONS = ["recover;check;deliver 010101000000;deliver 01020100000101;merge;deliver 010601000009000000000000000002;accept;deliver 010801000009000000000000000002;submit 1 6869;submit 0 -;state;jobs;coord",
            "recover;submit 3 6869;dispatch;jobs;finish 0 0;submit 0 -;compact;recover;jobs;submit 1 61;finish 0 2;lost 1;lost 2;tick 0;tick 400;tick 900;tick 9000;state",
            "recover;deliver 010501000009010000000000000002;deliver 01070100000c010000000000000002020001;tick 5;deliver 010901000014010000000000000002000000000000000000000000;jobs;finish 1 0;coord;coord;state;lost 1;recover"]
STORES = ["format 4;mount;raise;put 1 6869;put 2 -;done 0;compact;put 3 61;list;mount;list", "raise;format 5;mount;put 0 61;put 0 62;put 0 63;put 0 64;done 1;done 1;raise;raise;mount;list;format 4;list;mount;list"]


def texts_of(folder):
    """What the program reads of the schedules, or plans."""
    return [schedules.acts(path).encode() for path in schedules.all_of(folder)]


class Inputs:
    """What is fed: a corpus, and what is made of it by chance."""

    def __init__(self, chance):
        self.chance = chance
        self.pieces = [bytes.fromhex(text + "0" * (len(text) % 2)) for text in (*MESSAGES, *OTHERS)] + [stream_to(0, 1), stream_to(2, 64), stream_to(64, 2)]
        self.schedules = [rows.lines(text) for text in rows.SCHEDULES.values()] + texts_of("schedules")
        self.plans = texts_of("plans")
        self.traces = [text.encode() for text in rows.TRACES.values()]

    def flipped(self, data):
        """Some bytes are others, are left out, come twice, or come from elsewhere in the data."""
        chance, data = self.chance, bytearray(data)
        for _ in range(chance.choice((1, 1, 1, 2, 4))):
            at = chance.randrange(len(data) + 1)
            kind = chance.randrange(6)
            if kind == 0 and at < len(data):
                data[at] = chance.choice((0, 0x40, 0x80, 0xFF, 10, 32, chance.randrange(256)))
            elif kind == 1 and at < len(data):
                data[at] ^= 1 << chance.randrange(8)
            elif kind == 2:
                del data[at:at + chance.choice((1, 1, 2, 9))]
            elif kind == 3:
                data[at:at] = data[at:at + chance.choice((1, 2, 9, 40))]
            elif kind == 4:
                begin = chance.randrange(len(data) + 1)
                data[at:at + chance.choice((0, 1, 9))] = data[begin:begin + chance.choice((1, 4, 30))]
            else:
                del data[at:]
        return bytes(data)

    def line_changed(self, line):
        chance, words = self.chance, line.split(b" ")
        at = chance.randrange(len(words))
        kind = chance.randrange(5)
        if kind < 3:
            words[at] = chance.choice(WORDS)
        elif kind == 3:
            words[at:at] = [chance.choice(WORDS)]
        else:
            del words[at]
        return b" ".join(words)

    def lines_changed(self, data, others):
        """Some lines are left out, come twice, change places, come from another input, or have another word."""
        chance, lines = self.chance, data.split(b"\n")
        for _ in range(chance.choice((0, 1, 1, 2, 5))):
            at = chance.randrange(len(lines))
            kind = chance.randrange(6)
            if kind == 0 and len(lines) > 1:
                del lines[at]
            elif kind == 1:
                lines[at:at] = [lines[at]] * chance.choice((1, 1, 3))
            elif kind == 2:
                other = chance.randrange(len(lines))
                lines[at], lines[other] = lines[other], lines[at]
            elif kind == 3:
                other = chance.choice(others).split(b"\n")
                begin = chance.randrange(len(other))
                lines[at:at] = other[begin:begin + chance.choice((1, 3, 9))]
            elif kind == 4 and lines[at]:
                # mostly a word that leaves the line readable
                for _ in range(chance.choice((1, 8, 8, 8))):
                    changed = self.line_changed(lines[at])
                    if grammar.is_read(changed, grammar.SIM) or grammar.is_read(changed, grammar.NODE) or grammar.is_read(changed, grammar.STORE) or grammar.is_turn(changed, 3):
                        break
                lines[at] = changed
        data = b"\n".join(lines)
        return self.flipped(data) if chance.random() < 0.15 else data

    def schedule(self, acts=None, with_faults=None):
        """A schedule whose acts come by chance, most of them where they do something; and its cluster, where no disk is armed."""
        chance = self.chance
        nodes, slots = chance.choice((1, 2, 2, 3, 3, 4, 5, 70, 128)), chance.choice((4, 4, 5, 8))
        few = [n for n in (0, 1, 2, 64, nodes - 1, nodes - 2) if 0 <= n < nodes]
        with_faults = chance.random() < 0.4 if with_faults is None else with_faults
        cluster, lines, text = Cluster(nodes, slots), [f"cluster {nodes} {slots}"], ""
        for _ in range(acts or chance.choice((5, 20, 60, 200))):
            line = self.act(cluster, few, with_faults)
            lines.append(line)
            text += cluster.act(line) if not line.startswith("arm") else ""
        return ("\n".join(lines) + "\n").encode(), cluster

    def act(self, cluster, few, with_faults):
        chance, node, sent = self.chance, str(self.chance.choice(few)), len(cluster.sent)
        kind = chance.random()
        if sent and kind < 0.55:
            # the newest messages come most often
            return f"deliver {max(0, sent - 1 - int(chance.expovariate(0.25)))}"
        if kind < 0.75:
            return chance.choice(grammar.TIMERS) + " " + node
        if kind < 0.85:
            return f"submit {node} {chance.randrange(16)} {chance.choice(('-', '61', '6869', 'ff' * 400))}" + (f" {chance.randrange(1, 256)}" if HAS_PRIORITIES and chance.random() < 0.4 else "")
        if kind < 0.91:
            return f"finish {node} {chance.choice(few)} {chance.randrange(4)}"
        if kind < 0.93:
            return f"lose {chance.randrange(sent + 1)}"
        if kind < 0.95:
            return f"{chance.choice(('cut', 'mend'))} {node} {chance.choice(few)}"
        if with_faults and kind < 0.98:
            return f"arm {node} {chance.randrange(30)}"
        fill = chance.choice(("", " -", " a5", " " + "37" * 512, " " + "ff" * 512, " " + "a5" * 1024, " 01" + "00" * 600))
        return chance.choice((f"crash {node}{fill}", f"recover {node}", f"recover {node}", f"compact {node}"))

    def some_plans(self):
        """Plans by chance: elections whose turns go side by side, with work, disks that fail, crashes and recoveries among them."""
        chance = self.chance
        nodes = chance.choice((1, 2, 2, 3, 3, 3, 4, 5, 8))
        lines = [f"cluster {nodes} {chance.choice((4, 4, 5, 8, 64))}", f"links {chance.choice((1, 1, 2, 8, 64))}"]
        for _ in range(chance.choice((1, 5, 20, 20, 60, 150))):
            lines += self.turns(nodes)
        return ("\n".join(lines) + "\n").encode()

    def turns(self, nodes):
        """A few turns that come together."""
        chance, node, kind = self.chance, self.chance.randrange(nodes), self.chance.random()
        others = [other for other in range(nodes) if other != node]
        if kind < 0.45 and others:
            return [f"{node} intake {other}" for other in chance.choice((others, [chance.choice(others)]))]
        if kind < 0.75:
            return [f"{node} clock {timer}" for timer in chance.choice((("check", "merge", "accept"), ("check",), ("merge",), ("accept",), ("ready",), ("coord",), ("dispatch",)))]
        if kind < 0.85:
            return [f"{node} operator submit {chance.randrange(16)} {chance.choice(('-', '61', '6869', 'fF' * 400))}" + (f" {chance.randrange(1, 256)}" if chance.random() < 0.4 else "")]
        if kind < 0.92:
            return [f"{node} operator finish {chance.randrange(nodes)} {chance.randrange(4)}"]
        return [f"{node} operator {chance.choice(('recover', 'recover', 'crash', 'crash a5', 'crash ' + 'ff' * 512, f'arm {chance.randrange(30)}'))}"]

    def session(self):
        """What node 0 of a random cluster was brought, and what its operator asked of it."""
        _, cluster = self.schedule(self.chance.choice((20, 60, 200)), False)
        lines = ["recover"]
        for own, event, args, _ in cluster.taken:
            if own == 0 and event != "crash":
                words = {"deliver": lambda data: [data.hex()], "submit": lambda queue, payload, priority: [str(queue), payload.hex() or "-"] + ([str(priority)] if priority else []),
                         "finish": lambda origin, job: [str(origin), str(job)]}.get(event, lambda: [])(*args)
                lines.append(" ".join([event, *words]))
        return "\n".join(lines).encode()

    def trace(self):
        """What a random run of a cluster did, with some of it spoiled."""
        chance = self.chance
        _, cluster = self.schedule(chance.choice((5, 20, 60)), False)
        histories = [[] for _ in cluster.nodes]
        is_down = [False] * len(histories)
        for own, event, args, sent in cluster.taken:
            entry = {"do": f'"{event}"', "sent": "[" + ",".join(f'"{message.hex()}"' for message in sent) + "]"}
            if event == "deliver":
                entry["msg"] = f'"{args[0].hex()}"'
            if event == "submit":
                entry.update(queue=str(args[0]), payload=f'"{args[1].hex()}"')
                entry.update({"priority": str(args[2])} if args[2] else {})
            if event == "finish":
                entry.update(origin=str(args[0]), id=str(args[1]))
            if event == "recover":
                entry["kept"] = "false"
            if event == "compact":
                entry["do"] = '"none"'
            histories[own].append(entry)
        for _ in range(chance.choice((0, 0, 1, 1, 3))):
            self.spoil(histories)
        text = ",".join("[" + ",".join("{" + ",".join(f'"{key}":{value}' for key, value in entry.items()) + "}" for entry in history) + "]" for history in histories)
        data = f'{{"nodes":{len(histories)},"histories":[{text}]}}'.encode()
        return self.flipped(data) if chance.random() < 0.2 else data

    def spoil(self, histories):
        chance = self.chance
        history = chance.choice([one for one in histories if one] or [[]])
        if not history:
            return
        at = chance.randrange(len(history))
        kind = chance.randrange(7)
        if kind == 0:
            del history[at]
        elif kind == 1:
            history.insert(at, dict(chance.choice(history)))
        elif kind == 2:
            other = chance.randrange(len(history))
            history[at], history[other] = history[other], history[at]
        elif kind == 3:
            history[at]["fault"] = chance.choice(('"device"', '"mount"', '"raise"'))
            history[at]["sent"] = "[]"
            history.insert(at + 1, {"do": '"recover"', "sent": "[]", "kept": chance.choice(("true", "false"))})
        elif kind == 4:
            history[at][chance.choice(list(history[at]))] = chance.choice(VALUES)
        elif kind == 5:
            history.insert(at, {"do": '"recover"', "sent": "[]", "kept": chance.choice(("true", "false")), **chance.choice(({}, {"fault": '"raise"'}, {"fault": '"mount"'}))})
        else:
            history.insert(at, {"do": '"crash"', "sent": "[]"})
