"""The turns of the entries that can be taken, in the order that `trace` prints where that is all of them: what docs/SIMULATION.md says that `trace --turns`
prints of them, and what is drawn of them."""
import re
from collections import Counter
from node_model import DOWN, ELECTION, NORMAL, REORGANIZATION, Search

FORMS = {ELECTION: "election", NORMAL: "normal", REORGANIZATION: "reorganization"}


class Watched(Search):
    """A search that keeps what is drawn: of each turn its node, index, name and look; where what it was brought was sent, and whether no other entry,
    taken or left, sent the same; how its node stands then, and how many jobs it has in hand; of each node its stays."""

    def __init__(self, nodes, histories):
        super().__init__(nodes, histories)
        self.turns, self.sendings, self.sources, self.stands, self.hands = [], [], [], [], []
        self.stays = [[(0, stand_of(node))] for node in self.nodes]
        self.said = Counter(message for history in histories for entry in history for message in entry["sent"])

    def takes(self, own, entry):
        if not super().takes(own, entry):
            return False
        came = [turn for message, turn, _ in self.sendings if entry["do"] == "deliver" and message == entry["spelled"]]
        self.sources.append((came[-1], self.said[entry["spelled"]] == 1) if came else None)
        if came:
            self.taken_back(entry["spelled"], came[-1])
        self.sendings += [(message, len(self.turns), [False]) for message in entry["sent"]]
        if stand_of(self.nodes[own]) != self.stays[own][-1][1]:
            self.stays[own].append((len(self.turns), stand_of(self.nodes[own])))
        self.stands.append(stand_of(self.nodes[own]))
        self.hands.append(len(self.nodes[own].hand))
        self.turns.append((own, self.places[own], entry["do"], look(entry)))
        return True

    def taken_back(self, message, turn):
        """The last sending of the message by this turn was brought to its receiver."""
        [taken for same, at, taken in self.sendings if same == message and at == turn][-1][0] = True

    def untaken(self, turn):
        """The receivers of what a turn sent and no turn was brought."""
        return sorted({message[3] for message, at, taken in self.sendings if at == turn and not taken[0]})

    def bands(self):
        """Node, turn from which and until which, and how the node stands; of spans in which it is up, and which aren't empty."""
        for own, stays in enumerate(self.stays):
            ends = [since for since, _ in stays[1:]] + [len(self.turns)]
            yield from ((own, since, end, *stand) for (since, stand), end in zip(stays, ends) if stand and since < end)


def stand_of(node):
    if node.phase == DOWN:
        return None
    return FORMS[node.phase], "%d:%d" % node.group, f"{node.coordinator} of {','.join(map(str, sorted(node.members))) or '-'}"


def look(entry):
    if entry["fault"] or entry["do"] == "crash":
        return "fail"
    return {"none": "rest", "recover": "rise"}.get(entry["do"], "done")


def first_other(what, found, wanted):
    """Where two lists differ first; an empty text if they don't."""
    pairs = [*zip(found, wanted), (f"{len(found)} of them", f"{len(wanted)}")]
    return "" if found == wanted else next(f"{what}: {one} in place of {other}" for one, other in pairs if one != other)


def lines_of(search):
    """The lines of the turns of a search, which came to its end, and the beginnings of those of what is left."""
    yield "possible"
    for (own, index, *_), stand, hand in zip(search.turns, search.stands, search.hands):
        phase, group, members = stand or ("down", "", "")
        yield " ".join(["turn", str(own), str(index), phase.capitalize(), *([group, *members.split(" of "), str(hand)] if stand else [])])
    for own, place in enumerate(search.places):
        if place < len(search.histories[own]):
            yield f"node {own}: entry {place} "


def problem_in_turns(out, search):
    """What is wrong with the lines of the turns of a search, which came to its end. Why an entry is left stands behind its place."""
    found = [re.sub(r"^(node \d+: entry \d+ ).+", r"\1", line) for line in out.decode().split("\n")]
    return first_other("lines", found, [*lines_of(search), ""])
