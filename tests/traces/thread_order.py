#!/usr/bin/env python3
"""Reads what `invite threads --order` printed from standard input, and says what is wrong with the order that stands beside the trace, or nothing.

Each turn takes its node's next entry and none is left; each message that was brought has a number, that of an equal message that was sent
before; and the messages of one link were brought in the order in which they were sent.
"""
import json
import sys


def fault(trace):
    if "order" not in trace:
        return "there is no order"
    words = trace["order"].split()
    if len(words) % 2:
        return "a turn has one word"
    histories = trace["histories"]
    taken = [0] * len(histories)
    sent = []
    last = {}
    for node, number in zip(map(int, words[::2]), words[1::2]):
        if taken[node] == len(histories[node]):
            return f"node {node} has no entry {taken[node]}"
        entry = histories[node][taken[node]]
        at = f"node {node}, entry {taken[node]}"
        taken[node] += 1
        if ("msg" in entry) != (number != "-"):
            return f"{at}: number {number}"
        if "msg" in entry:
            if int(number) >= len(sent) or sent[int(number)] != entry["msg"]:
                return f"{at}: message {number} is another one, or wasn't sent before"
            link = entry["msg"][4:8]
            if int(number) <= last.get(link, -1):
                return f"{at}: message {number} came behind {last[link]}"
            last[link] = int(number)
        sent.extend(entry["sent"])
    if taken != [len(history) for history in histories]:
        return "some entries are left"
    return None


if __name__ == "__main__":
    problem = fault(json.load(sys.stdin))
    if problem:
        print(problem)
