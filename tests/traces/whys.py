"""What `dumgerokctl why` says of a trace that is no run, against a model that goes from `invite trace`'s own words: of an entry that can't be what its node says beside what
it would have sent, and of those that wait where that ends, in a line for all that end alike."""
import json, re
import picture_orders as orders

LINE = re.compile(r"node (\d+): entry (\d+) (?:waits for (\w+)|\(\w+\) can't be: (.*))")
NOTHING = "nothing"


class Whys:
    """The entries that are left of a trace, of which `invite trace` said this."""

    def __init__(self, programs, trace, said):
        self.programs, self.histories = programs, trace["histories"]
        self.left = {int(node): (int(index), message, cannot) for node, index, message, cannot in map(lambda line: LINE.fullmatch(line).groups(), said.splitlines()[1:])}

    def words(self, messages):
        shown = self.programs.invite("show", "".join(f"{one}\n" for one in messages)).stdout.splitlines()
        return "; ".join(shown) or NOTHING

    def entry(self, node, index):
        entry = self.histories[node][index]
        brought = f" [{self.words([entry['msg']])}]" if entry["do"] == "deliver" else ""
        fields = ", ".join(f"{key} {json.dumps(value).strip(chr(34))}" for key, value in sorted(entry.items()) if key not in ("do", "msg", "sent", "at"))
        return f"node {node}, entry {index}: {entry['do']}{brought}" + (f" ({fields})" if fields else "")

    def cannot(self, node):
        index, _, why = self.left[node]
        yield self.entry(node, index)
        would = re.fullmatch("it would send (.*)", why)
        if would:
            wanted, said = [] if would[1] == NOTHING else would[1].split(), self.histories[node][index]["sent"]
            missing, more = [one for one in wanted if one not in said], [one for one in said if one not in wanted]
            yield f"    its node would send: {self.words(wanted)}"
            yield f"    it says:             {self.words(said)}"
            yield from [f"    missing:             {self.words(missing)}"] if missing else []
            yield from [f"    too much:            {self.words(more)}"] if more else []
            yield from [] if missing or more else ["    the same, in another order or number"]
        else:
            yield f"    {why}"
        back = [place for place in range(max(0, index - 4), index) if self.histories[node][place]["do"] in ("crash", "recover")]
        for place in range(max(back + [max(0, index - 4)]), index):
            yield f"    before it, {self.entry(node, place)}; it sends {self.words(self.histories[node][place]['sent'])}"

    def end(self, node, passed=()):
        """Where what a node waits for ends: the links to it, the node there, and how it ends."""
        index, message, cannot = self.left[node]
        if node in passed:
            return [], node, "one another: none of these can be the first"
        if cannot:
            return [], node, None
        sender, words = int(message[4:6], 16), f"[{self.words([message])}]"
        start = self.left[sender][0] if sender in self.left else len(self.histories[sender]) if sender < len(self.histories) else 0
        later = [place for place in range(start, len(self.histories[sender]) if sender in self.left else 0) if message in self.histories[sender][place]["sent"]]
        if later:
            links, last, end = self.end(sender, (*passed, node))
            return [f"{words}, which entry {later[0]} of node {sender} sends, and that stands at {start}", *links], last, end
        blamed = [one for one, (_, _, why) in self.left.items() if one != node and why and message in why.split()]
        if blamed:
            return [], node, f"{words}, which node {blamed[0]} would have sent at entry {self.left[blamed[0]][0]}, but it doesn't say so"
        left = len(self.histories[sender]) - start if sender < len(self.histories) else 0
        more = f", of the {left} that are left there neither" if left else f": its history was taken to its end ({start} entries)"
        return [], node, f"{words}, which no entry of node {sender} sends{more}"

    def lines(self):
        culprits = [node for node, (_, message, _) in self.left.items() if not message]
        said = "each next one waits" if not culprits else f"{'1 next one' if len(culprits) == 1 else f'{len(culprits)} next ones'} can't be, whatever others send"
        yield f"{'1 node has' if len(self.left) == 1 else f'{len(self.left)} nodes have'} entries left; {said}"
        for node in culprits:
            yield from self.cannot(node)
        ends = {}
        for node in self.left.keys() - set(culprits):
            links, last, end = self.end(node)
            ends.setdefault((last, end), []).append((node, links))
        for (_, end), nodes in sorted(ends.items(), key=lambda pair: min(node for node, _ in pair[1])):
            node, links = min(sorted(nodes), key=lambda pair: len(pair[1]))
            parts = links + [end] if end else links[:-1] + [links[-1] + ", which can't be (above)"]
            also = f" (so do {len(nodes) - 1} more)" if len(nodes) > 1 else ""
            yield f"node {node}, entry {self.left[node][0]} waits for {', for '.join(parts)}{also}"


def said_of(programs, trace):
    """What is wrong with what is said of a trace."""
    text = json.dumps(trace)
    verdict, why = programs.invite("trace", text), programs.why(text)
    wanted = [verdict.stdout.rstrip("\n"), *(Whys(programs, trace, verdict.stderr).lines() if verdict.stderr else [])]
    if (why.returncode, why.stderr) != (verdict.returncode, ""):
        return f"status {why.returncode}, {why.stderr!r}"
    other = next((pair for pair in zip(why.stdout.splitlines() + [""], wanted + [""]) if pair[0] != pair[1]), None)
    return f"{other[0]!r} in place of {other[1]!r}" if other else ""


def whys(programs, trace, nodes):
    """Of a schedule's trace and its spoiled ones what was tried, and what is wrong with what is said of it. In this order of nodes its entries came."""
    yield "why", said_of(programs, trace)
    for what, spoiled, _, _, _ in orders.spoiled(trace, nodes, [None] * len(nodes)):
        yield f"why, {what}", said_of(programs, spoiled)
