"""The traces of schedules and of plans: what `record` has to print where `sim` said so much of the same schedule, and what a trace of threads has
to have."""
import json
import os
import sys
import traces
from node_model import Search

sys.path.append(os.path.join(os.path.dirname(os.path.abspath(__file__)), "../traces"))
import thread_order

OPEN = "?"


def compact(nodes, histories, **others):
    return json.dumps({"nodes": nodes, "histories": histories, **others}, sort_keys=True, separators=(",", ":")).encode() + b"\n"


def histories_of(nodes, acts, printed):
    """The entries of each node, of the acts that came to one, and their order. What `sim` doesn't tell of a recovery is left open."""
    histories, sent, order = [[] for _ in range(nodes)], [], []
    for act, answer in zip(acts, printed):
        words, said = act.split(" "), answer.split(" ")[1:]
        own = node_of(words, said, sent)
        new = [word.split(":")[1] for word in said if ":" in word]
        if own is not None and own < nodes:
            entry = entry_of(words, said[0], sent)
            histories[own].append({**entry, "sent": new})
            order += [str(own), words[1] if entry["do"] == "deliver" else "-"]
        sent += new
    return histories, " ".join(order)


def node_of(words, said, sent):
    if words[0] in ("lose", "cut", "mend") or said[1:] in (["NoSuch"], ["Lost"], ["Cut"]):
        return None
    return int(sent[int(words[1])][6:8], 16) if words[0] == "deliver" else int(words[1])


def entry_of(words, ended, sent):
    verb = words[0]
    if ended == "refused" or verb == "arm" or (verb, ended) == ("compact", "ok"):
        return {"do": "none"}
    if verb in ("crash", "compact"):
        return {"do": "crash"}
    if verb == "recover":
        return {"do": verb, "kept": OPEN, **({"fault": OPEN} if ended == "fault" else {})}
    entry = {"do": verb, **({"fault": "device"} if ended == "fault" else {})}
    if verb == "deliver":
        entry["msg"] = sent[int(words[1])]
    if verb == "submit":
        entry.update(queue=int(words[2]), payload=words[3].lower().replace("-", ""))
        entry.update({"priority": int(words[4])} if words[4:] else {})
    if verb == "finish":
        entry.update(origin=int(words[2]), id=int(words[3]))
    return entry


def opened(histories):
    """The same with that left open of each recovery which `sim` doesn't tell."""
    return [[{key: OPEN if entry["do"] == "recover" and key in ("kept", "fault") else value for key, value in entry.items()} for entry in history] for history in histories]


def recorded_text(nodes, acts, printed):
    """What is printed where no disk failed."""
    histories, order = histories_of(nodes, acts, printed)
    return compact(nodes, [[{**entry, "kept": False} if entry["do"] == "recover" else entry for entry in history] for history in histories], order=order)


def problem_in_recorded(out, nodes, acts, printed):
    """What is wrong with a recorded run in which disks failed."""
    found = json.loads(out)
    wanted, order = histories_of(nodes, acts, printed)
    if out != compact(found["nodes"], found["histories"], order=order):
        return "it isn't written as a compact text in the order of the keys, with the order of the acts"
    if opened(found["histories"]) != wanted:
        return next((f"node {n}, entry {k} is {a} in place of {b}" for n in range(nodes) for k, (a, b) in enumerate(zip(opened(found["histories"])[n], wanted[n])) if a != b), "it has other entries")
    return no_run(out)


def no_run(out):
    """The verdict on a trace, where it isn't Run."""
    status, text = Search(*traces.read(out)).verdict()
    return text if status else ""


def problem_in_threads(out, nodes, turns):
    """What is wrong with the trace of these plans: each node took the turns of its workers, each worker's in their order, and the whole is a run, with its order."""
    found = json.loads(out)
    wrong = thread_order.fault(found)
    if wrong:
        return wrong
    if out != compact(found["nodes"], found["histories"], order=found["order"]):
        return "it isn't written as a compact text in the order of the keys"
    many, histories = traces.read(out)
    if many != nodes:
        return f"it has {many} nodes"
    for own, history in enumerate(histories):
        plans = [[words for node, worker, *words in turns if (int(node), worker) == (own, name)] for name in ("intake", "clock", "operator")]
        if len(history) != sum(map(len, plans)):
            return f"node {own} has {len(history)} entries for {sum(map(len, plans))} turns"
        places = {(0, 0, 0)}
        for index, entry in enumerate(history):
            places = {(*at[:which], at[which] + 1, *at[which + 1:]) for at in places for which, plan in enumerate(plans) if at[which] < len(plan) and can_come(which, plan[at[which]], entry)}
            if not places:
                return f"node {own}, entry {index}: no plan has {entry}"
    return no_run(out)


def can_come(which, words, entry):
    """Whether the turn of a worker gives such an entry."""
    if entry["do"] == "none":
        # an empty poll, an armed disk, what is refused
        return which == 0 or which == 2 and words[0] in ("arm", "submit", "finish")
    if which == 0:
        return entry["do"] == "deliver" and entry["msg"]["sender"] == int(words[0])
    if entry["do"] != words[0]:
        return False
    if words[0] == "submit":
        return [entry["queue"], entry["payload"].hex(), entry["priority"]] == [int(words[1]), words[2].lower().replace("-", ""), int(words[3]) if words[3:] else 0]
    return words[0] != "finish" or [entry["origin"], entry["id"]] == [int(words[1]), int(words[2])]
