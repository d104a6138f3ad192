"""Runs of which the recorded order can be followed in part: of a record one entry is spoiled, or the end of a history is lost, and the order stays as it was."""
import json


def followed(trace, order, bad):
    """The nodes of the turns that can be taken in this order over those of nodes that are stuck, the places of these turns in it, and whether that is all of
    them: not where what a node waited for was sent later, so that it goes on behind its place. A bad entry can't be."""
    taken, sent, stuck, nodes, places = {}, set(), {}, [], []
    for place, node in enumerate(order):
        index = taken.get(node, 0)
        history = trace["histories"][node]
        entry = history[index] if index < len(history) and (node, index) != bad else None
        if node in stuck or entry is None or entry["do"] == "deliver" and entry["msg"] not in sent:
            stuck.setdefault(node, entry and entry["msg"])
            continue
        taken[node] = index + 1
        sent.update(entry["sent"])
        nodes.append(node)
        places.append(place)
        if any(message in sent for message in stuck.values()):
            return nodes, places, False
    return nodes, places, True


def numbered(numbers, places):
    """The numbers of the messages that still count: those before the first turn that is passed over."""
    return [numbers[place] if place == turn else None for turn, place in enumerate(places)]


def lost_end(trace, node):
    """The trace without the second half of a node's history."""
    histories = [history[:len(history) // 2] if own == node else history for own, history in enumerate(trace["histories"])]
    return dict(trace, histories=histories)


def with_more(trace, node, index):
    """The trace in which an entry says that it sent one message more, a Done of a job that there never was."""
    spoiled = json.loads(json.dumps(trace))
    spoiled["histories"][node][index]["sent"].append("010a%02x%02x0008ffffffffffffff00" % (node, (node + 1) % 64))
    return spoiled


def spoiled(trace, order, numbers):
    """Of each spoiled trace what was done to it, the nodes of its first turns as they are drawn, whether these are all, and the numbers that count. One entry is
    spoiled at each third of the run, and the longest history loses its end."""
    turns, taken = [], {}
    for node in order:
        turns.append((node, taken.get(node, 0)))
        taken[node] = taken.get(node, 0) + 1
    if not turns:
        return
    longest = max(range(len(trace["histories"])), key=lambda node: len(trace["histories"][node]))
    tried = [(f"without the end of node {longest}", lost_end(trace, longest), None)]
    for place in sorted({len(turns) // 3, 2 * len(turns) // 3, len(turns) - 1}):
        if len(trace["histories"]) < 64:
            tried.append((f"spoiled at turn {place}", with_more(trace, *turns[place]), turns[place]))
    for what, other, bad in tried:
        nodes, places, are_all = followed(other, order, bad)
        yield what, other, nodes, are_all, numbered(numbers, places)
