#!/usr/bin/env python3
"""Turns the logs of a cluster's nodes into a trace, which `invite trace` judges.

    trace_of_logs.py LOG..  > run.json

The log of a node has its requests, each behind "> ", each followed by the lines of its answer, and a line "killed" where its process ended.
A request is asked once the one before it is answered, and what an answer says to send is carried once its closing line was read. So at a
kill one request at most is in doubt: whether its command counted is known by what the next recovery keeps.
"""
import json, sys

TIMERS = ("check", "merge", "accept", "ready", "coord", "dispatch", "recover")
CLOSING = ("ok", "refused", "bad", "fault")


class Log:
    """The entries of one node. A trace begins behind the first recovery of a file that was made with no FIRST."""

    def __init__(self, own):
        self.own, self.entries = own, []
        self.count, self.next, self.pending = 1, 0, 0      # what the file keeps: the counter, the next id, how many jobs
        self.up, self.leads, self.phase, self.checking = False, True, "Normal", False
        self.doubt, self.recoveries = None, 0              # the request that a kill left open, and the recoveries that kills left open since

    def put(self, do, sent=(), **fields):
        self.entries.append({"do": do, "sent": list(sent), **fields})

    def killed(self, request):
        if self.up:
            self.up, self.doubt = False, request or "nothing"
        elif request == "recover":
            self.recoveries += 1

    def answered(self, request, answer):
        """The lines of an answer belong to the event of the request, or each to the event that was fired before it."""
        word, closing = request.split()[0], answer[-1].split()
        events = [(word, [])]
        for line in answer[:-1]:
            if line.startswith("fired "):
                events.append((line.split()[1], []))
            events[-1][1].append(line.split())
        if word in ("tick", "lost"):
            events = events[1:]                            # what stands before was sent before
        elif word not in (*TIMERS, "deliver", "submit", "finish"):
            return
        for place, (event, lines) in enumerate(events):
            if closing[0] == "ok" or place + 1 < len(events):
                self.event(event, request.split(), lines)
        if closing[2:3] == ["id"]:
            self.next, self.pending = int(closing[3]) + 1, self.pending + 1

    def event(self, event, words, lines):
        kept = [list(map(int, line[1:])) for line in lines if line[0] == "keeps"]
        if event == "recover" and not self.up:
            self.recovered(*kept[0])
        else:
            self.put(event, [line[2] for line in lines if line[0] == "send"], **fields_of(event, words))
        if event in ("check", "merge"):
            self.checking = event == "check"
        for line in lines:
            if line[0] == "group":
                self.phase, self.leads, self.checking = line[1], int(line[2]) == self.own, False
                creator, count = map(int, line[3].split(":"))
                self.count = count if creator == self.own else self.count
            elif line[0] == "gone":
                self.pending -= 1

    def recovered(self, count, following, pending):
        """The file was mounted: the command in doubt counted where something else was found than was known."""
        raised, counted = count - 1 - self.count, False
        if self.entries or self.doubt or count > 1:
            word = self.doubt and self.doubt.split()[0]
            if following > self.next or pending < self.pending:
                counted = True
                self.put(word, fault="device", **fields_of(word, self.doubt.split()))
            elif raised > self.recoveries:
                counted, event = True, self.raiser(word)
                raised -= 1
                self.put(event, fault="raise" if event == "recover" else "device", **fields_of(event, self.doubt.split()))
            else:
                self.put("crash")
            for _ in range(raised):
                self.put("recover", fault="raise", kept=counted)
                counted = True
            self.put("recover", kept=counted)
        self.count, self.next, self.pending = count, following, pending
        self.up, self.doubt, self.recoveries = True, None, 0

    def raiser(self, word):
        """The event that begins a group: the timer that runs there, or that of the request."""
        if word not in ("tick", "lost"):
            return word
        if not self.leads:
            return "coord"
        return "ready" if self.phase == "Reorganization" else "merge" if self.checking else "recover"


def fields_of(event, words):
    if event == "deliver":
        return {"msg": words[1]}
    if event == "submit":
        return {"queue": int(words[1]), "payload": words[2].strip("-"), **({"priority": int(words[3])} if words[3:] else {})}
    if event == "finish":
        return {"origin": int(words[1]), "id": int(words[2])}
    return {"kept": False} if event == "recover" else {}


def entries_of(own, lines):
    log, request, answer = Log(own), None, []
    for line in lines:
        if line.startswith("> "):
            request, answer = line[2:], []
        elif line == "killed":
            log.killed(request)
            request = None
        elif line.split()[0] in CLOSING:
            log.answered(request, [*answer, line])
            request = None
        else:
            answer.append(line)
    return log.entries


def trace_of(paths):
    return {"nodes": len(paths), "histories": [entries_of(own, open(path).read().splitlines()) for own, path in enumerate(paths)]}


if __name__ == "__main__":
    json.dump(trace_of(sys.argv[1:]), sys.stdout)
