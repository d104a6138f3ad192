#!/usr/bin/env python3
"""A watcher in Python: follows the coordinator of this machine's group, and says who it is, each time that it changes.

    watcher.py [--socket PATH] [COMMAND [WORD..]]

It prints the coordinator's number and its address as the configuration has it, or `-` as long as there is none or it isn't known: while a group is made, where
the node hangs, where the agent ends. With COMMAND this is run each time, with the same behind its words; the next change waits for its end.
"""
import argparse, signal, subprocess, sys

import dumgerok


class Followed:
    """What is known of the coordinator by the events that came."""

    def __init__(self):
        self.state, self.is_known = None, False

    def take(self, event):
        kind = event["event"]
        if kind in ("state", "group"):
            self.state = event
        if kind == "lost":
            self.is_known = False
        elif kind == "beat":
            self.is_known = event["alive"]
        elif kind in ("state", "group", "back"):
            self.is_known = kind != "state" or event["alive"]

    def coordinator(self):
        """The node that coordinates, and its group; None where that isn't known."""
        is_at_work = self.is_known and self.state and self.state["phase"] == "Normal"
        return (self.state["coordinator"], self.state["group"]) if is_at_work else None


def told(agent, coordinator):
    """The words for a coordinator; none where its address isn't known."""
    if coordinator is None:
        return ["-"]
    try:
        names = {member["node"]: member["name"] for member in agent.members()}
    except dumgerok.Error:
        return []
    return [str(coordinator[0]), names[coordinator[0]]]


def main():
    words = argparse.ArgumentParser(description=__doc__, formatter_class=argparse.RawDescriptionHelpFormatter)
    words.add_argument("--socket")
    words.add_argument("command", nargs=argparse.REMAINDER, metavar="COMMAND")
    given = words.parse_args()
    signal.signal(signal.SIGTERM, lambda *_: sys.exit(0))
    agent, followed, last = dumgerok.Agent(given.socket, patience=0), Followed(), ()
    for event in agent.watch():
        followed.take(event)
        coordinator = followed.coordinator()
        said = told(agent, coordinator) if coordinator != last else []
        if not said:
            continue
        last = coordinator
        print(*said, flush=True)
        if given.command:
            subprocess.run(given.command + said)


if __name__ == "__main__":
    main()
