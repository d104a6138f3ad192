#!/usr/bin/env python3
"""Stops a node's disk at each device call of an act in turn, in schedules that the program runs, and looks whether what was acknowledged is kept.

    stops.py PROGRAM

So many calls pass, the next one fails, then the node crashes with some bytes left in the sectors that weren't synced, and recovers. Its count and its
pending jobs have to be what some choice of the commands that failed leaves; after a second crash they are the same, and the count is one more. Of each
act it is known how many calls it makes: with fewer the device fails in it, with as many it doesn't. The last line counts the checks."""
import os, re, sys

sys.path.append(os.path.join(os.path.dirname(os.path.abspath(__file__)), ".."))
from common import program
from common.tally import Tally

FILLS = ["", "a5", "37" * 512, "ff" * 512, "a5" * 4096]

FULL = ["submit 0 0 61", "submit 0 0 62", "finish 0 0 0", "submit 0 0 64"]

# Nodes, acts, and how many device calls the last one makes.
ROWS = [
    # a raise unseals the spare slot where it is sealed, fills and seals it
    (1, ["recover 0"], 6),
    (2, ["recover 1", "recover 1"], 6),
    # an append fills and seals the next slot
    (1, ["submit 0 0 61"], 4),
    (1, ["submit 0 0 61", "submit 0 1 62", "finish 0 0 0"], 4),
    # a compaction of four slots unseals four, fills and seals a Base and a Keep for each pending job, and raises the area cell over its unsealed slot,
    # or later over a sealed one; an append that finds no free slot compacts first
    (1, FULL + ["compact 0"], 24),
    (1, FULL + ["finish 0 0 1"], 28),
    (1, FULL + ["compact 0", "compact 0"], 26),
    # a recovery of a node that is down syncs, reads both slots of the counter, the area cell and the journal, and raises
    (1, ["crash 0", "recover 0"], 15),
    (1, ["submit 0 0 61", "crash 0", "recover 0"], 17),
    (1, ["compact 0", "crash 0", "recover 0"], 18),
] + [
    # a raise that failed behind its first calls leaves the spare slot sealed, or unsealed: then the next recovery reads one body less, and raises in
    # four calls; a torn gate seals it again
    (1, [f"arm 0 {passed}", "recover 0", f"crash 0{fill}", "recover 0"], calls)
    for passed, fill, calls in [(0, "", 15), (1, "", 15), (2, "", 12), (3, "", 12), (4, "", 12), (5, "", 12), (5, " a5", 15)]
]


class State:
    """What a disk may hold: the count, the next id, the pending jobs, and a command that may be there or not."""

    def __init__(self, count=1, next_id=0, pending=(), doubt=None):
        self.count, self.next_id, self.pending, self.doubt = count, next_id, pending, doubt

    def after(self, command):
        if command == "raise":
            return State(self.count + 1, self.next_id, self.pending)
        if command == "put":
            return State(self.count, self.next_id + 1, self.pending + (self.next_id,))
        return State(self.count, self.next_id, tuple(job for job in self.pending if job != command))

    def failed(self, command):
        return State(self.count, self.next_id, self.pending, command)

    def settled(self):
        """With the command in doubt, and without."""
        old = State(self.count, self.next_id, self.pending)
        return [old] if self.doubt is None else [old, old.after(self.doubt)]


def step(states, is_up, act, outcome):
    """What a disk may hold after an act with this outcome, and whether the node is up."""
    words = act.split()
    if outcome.startswith("refused") or words[0] == "arm":
        return states, is_up
    if words[0] == "crash":
        return states, False
    fails = outcome == "fault Device"
    if words[0] == "compact":
        return states, not fails
    if words[0] == "recover":
        found = states if is_up else [one for state in states for one in state.settled()]
        if fails:
            return [one.failed("raise") for one in found] + ([] if is_up else states), False
        return [one.after("raise") for one in found], True
    command = "put" if words[0] == "submit" else int(words[3])
    if fails:
        return [state.failed(command) for state in states], False
    if command == "put":
        states = [state for state in states if outcome == f"ok id {state.next_id}"]
    return [state.after(command) for state in states], True


def outcomes_of(invite, nodes, acts):
    """The outcome of each act, and the lines of the nodes behind them."""
    text = "\n".join([f"cluster {nodes} 4", *acts]) + "\n"
    lines = program.run(invite, ["sim"], text).stdout.splitlines()
    outcomes = [line.split(" ", 1)[1] for line in lines[: len(acts)]]
    # `ok` may be followed by the messages sent
    outcomes = [re.match(r"ok id \d+|ok|fault Device|refused \w+", outcome)[0] for outcome in outcomes]
    return outcomes, lines[len(acts):]


def shown(table, node):
    """The count and the pending jobs of a node."""
    found = re.search(r" count (\d+) pending (\S+) ", next(line for line in table if line.startswith(f"node {node} ")))
    return int(found[1]), () if found[2] == "-" else tuple(map(int, found[2].split(",")))


def problem_of(invite, nodes, acts, calls, fill):
    """What is wrong where the last act's disk stops at each of its calls; an empty text if nothing is."""
    node = int(acts[-1].split()[1])
    for passed in range(calls + 1):
        stopped = [*acts[:-1], f"arm {node} {passed}", acts[-1], f"crash {node} {fill}".rstrip(), f"recover {node}"]
        outcomes, table = outcomes_of(invite, nodes, stopped)
        if (outcomes[-3] == "fault Device") != (passed < calls):
            return f"{passed} calls: {outcomes[-3]}"
        states, is_up = [State()], True
        for act, outcome in zip(stopped, outcomes):
            states, is_up = step(states, is_up, act, outcome)
        found = shown(table, node)
        if outcomes[-1] != "ok" or found not in [(state.count, state.pending) for state in states]:
            return f"{passed} calls: {outcomes[-1]}, {found}"
        _, table = outcomes_of(invite, nodes, [*stopped, f"crash {node}", f"recover {node}"])
        if shown(table, node) != (found[0] + 1, found[1]):
            return f"{passed} calls: {found}, and then {shown(table, node)}"
    return ""


def main():
    invite, tally, stops = program.named(), Tally(), 0
    for nodes, acts, calls in ROWS:
        for fill in FILLS:
            tally.mark(problem_of(invite, nodes, acts, calls, fill), f"{', '.join(acts)}, {len(fill) // 2} bytes")
            stops += calls
    print(f"{stops} calls were failed")
    return tally.close()


if __name__ == "__main__":
    sys.exit(main())
