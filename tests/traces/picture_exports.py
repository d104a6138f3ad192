"""What `dumgerokctl draw` writes of a run for tools of others: Chrome's trace events, and the log of ShiViz. Each is read here by its own grammar and compared
with the turns of a model: messages, jobs, and what happened before what."""
import json, re

# As https://github.com/DistributedClocks/shiviz reads a log that has no pattern of its own.
EVENT = re.compile(r"(?P<event>.*)\n(?P<host>\S*) (?P<clock>\{.*\})\n")


def happened_before(model):
    """Of each turn those that happened before it or are it, as bits."""
    before, last = [], {}
    for turn, (node, _, _) in enumerate(model.turns):
        source = model.sources[turn]
        before.append(1 << turn | (before[last[node]] if node in last else 0) | (before[source[0]] if source else 0))
        last[node] = turn
    return before


def problem_in_log(text, model):
    """What is wrong with a ShiViz log of these turns."""
    events, at = [], 0
    while at < len(text):
        found = EVENT.match(text, at)
        if not found:
            return f"no event at {text[at:at + 60]!r}"
        events.append((found["event"], found["host"], json.loads(found["clock"])))
        at = found.end()
    wanted = [(f"node{node}", index, entry["do"]) for node, index, entry in model.turns]
    if [(host, int(event.split()[1][:-1]), event.split()[2]) for event, host, _ in events] != wanted:
        return "other events"
    before = happened_before(model)
    for turn, (_, host, clock) in enumerate(events):
        for earlier, (_, other, its_clock) in enumerate(events):
            is_before = clock.get(other, 0) >= its_clock[other]
            if is_before != bool(before[turn] >> earlier & 1):
                return f"turn {earlier} before turn {turn}: {is_before} by the clocks {its_clock} and {clock}"
        if clock[host] != sum(1 for _, other, _ in events[:turn + 1] if other == host):
            return f"turn {turn}: {host} isn't counted one by one"
    return ""


def problem_in_events(text, model):
    """What is wrong with the trace events of these turns."""
    events = json.loads(text)["traceEvents"]
    entries = [event for event in events if event["ph"] == "X" and event["tid"] == 0]
    if [(event["pid"], event["args"]["entry"], event["args"]["turn"]) for event in entries] != [(node, index, turn) for turn, (node, index, _) in enumerate(model.turns)]:
        return "other entries"
    times = [event["ts"] for event in entries]
    if times != sorted(set(times)):
        return "turns at one time"
    at = {time: turn for turn, time in enumerate(times)}
    for tid in (0, 1):
        for node in {event["pid"] for event in entries}:
            spans = sorted((event["ts"], event["ts"] + event["dur"]) for event in events if event["ph"] == "X" and (event["pid"], event["tid"]) == (node, tid))
            if any(end > begin for (_, end), (begin, _) in zip(spans, spans[1:])):
                return f"slices of node {node} overlap"
    ends = {}
    for event in events:
        if event["ph"] in "sf":
            if event["pid"] != model.turns[at[event["ts"]]][0] or event["tid"] != 0:
                return f"a flow ends at no entry: {event}"
            ends.setdefault(event["id"], {})[event["ph"]] = at[event["ts"]], event["cat"] == "message"
    flows = sorted((pair["f"][0], *pair["s"]) for pair in ends.values())
    wanted = [(turn, source[0], source[2]) for turn, source in enumerate(model.sources) if source]
    if flows != wanted:
        return f"flows {[flow for flow in flows if flow not in wanted]} in place of {[flow for flow in wanted if flow not in flows]}"
    jobs = [event for event in events if event["ph"] in "be"]
    for event in jobs:
        turn = at.get(event["ts"])
        if event["ph"] == "b" and (turn is None or model.turns[turn][2]["do"] != "submit" or model.turns[turn][0] != event["pid"]):
            return f"a job that begins at no submission: {event}"
    begun = [event["id"] for event in jobs if event["ph"] == "b"]
    if sorted(begun) != sorted(set(begun)) or sorted(begun) != sorted(event["id"] for event in jobs if event["ph"] == "e"):
        return "jobs that don't begin once and end once"
    done = [entry for _, _, entry in model.turns if entry["do"] == "submit" and "fault" not in entry]
    if len(begun) < len(done):
        return f"{len(begun)} jobs of {len(done)}"
    for event in jobs:
        origin, job = map(int, event["id"].split()[1].split(":"))
        turns = [turn for turn, (node, _, entry) in enumerate(model.turns) if node == origin and "fault" not in entry and ends_job(entry, origin, job)]
        if event["ph"] == "e" and event["args"]["done"] and at.get(event["ts"]) not in turns:
            return f"{event['id']} ends at turn {at.get(event['ts'])} of {turns}"
    return ""


def ends_job(entry, origin, job):
    """Whether the entry of a job's origin says that it is done."""
    if entry["do"] == "finish":
        return (entry["origin"], entry["id"]) == (origin, job)
    return entry["do"] == "deliver" and entry["msg"][2:4] == "0a" and int(entry["msg"][12:28], 16) == job


def exports(programs, trace, model):
    """The problem with each export of a trace of these turns."""
    text = json.dumps(trace)
    yield "for ShiViz", problem_in_log(programs.draw(text, "--to", "shiviz").stdout, model)
    yield "for Perfetto", problem_in_events(programs.draw(text, "--to", "perfetto").stdout, model)
