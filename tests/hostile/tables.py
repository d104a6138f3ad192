"""What `sim` prints, looked at from outside: one coordinator and one task for each group number, and counts and ids that rise."""
import re

ACT = re.compile(r"(\d+) (ok|fault Device|refused (?:NoSuch|Lost|Cut|Stranger|Down|NotNormal|NotCoordinator \d+|UnknownJob|Full|Exhausted))(?: id (\d+))?((?: \d+:[0-9a-f]+)*)")
LIST = r"(-|[0-9,:]+)"
NODE = re.compile(rf"node (\d+) (?:Down|(Election|Reorganization|Normal) coord (\d+) group (\d+):(\d+) up {LIST} members {LIST} count (\d+) pending {LIST} hand {LIST})")


def numbers(word):
    return [] if word == "-" else [int(one) for one in word.split(",")]


class Groups:
    """What was seen of each group number."""

    def __init__(self):
        self.coordinator, self.members = {}, {}

    def seen(self, number, coordinator, members=None):
        if self.coordinator.setdefault(number, coordinator) != coordinator:
            return f"{number} has coordinators {self.coordinator[number]} and {coordinator}"
        if members is not None and self.members.setdefault(number, members) != members:
            return f"{number} has tasks of {self.members[number]} and of {members}"
        return ""


def problem_in_messages(groups, counts, words, at):
    """Each new number is above those before it of its creator; a Ready tells a number's one task; only the creator invites."""
    for word in words:
        number, _, text = word.partition(":")
        data = bytes.fromhex(text)
        kind, sender = data[1], data[2]
        if kind not in (5, 7):
            continue
        group = (data[6], int.from_bytes(data[7:15], "big"))
        trouble = groups.seen(group, group[0], tuple(data[16:]) if kind == 7 else None)
        if trouble:
            return f"act {at}: {trouble}"
        # a forwarded invitation is sent by a member's old coordinator
        if sender == group[0]:
            if group[1] < counts.get(sender, 1):
                return f"act {at}: {sender} gives {group} after count {counts[sender]}"
            counts[sender] = group[1]
    return ""


def problem_in(text, acts=None):
    """What is wrong with the output of a schedule that could be read, or nothing."""
    lines = text.split("\n")
    if lines[-1] != "":
        return "no line feed at the end"
    groups, counts, sent, nodes, next_ids, done = Groups(), {}, 0, 0, {}, 0
    for line in lines[:-1]:
        act, node = ACT.fullmatch(line), NODE.fullmatch(line)
        if act and not nodes:
            words = act[4].split()
            if int(act[1]) != done or (act[2] != "ok" and (act[3] or words)):
                return f"act {done} prints {line[:100]}"
            if [word.split(":")[0] for word in words] != [str(k) for k in range(sent, sent + len(words))]:
                return f"act {done}: the messages aren't counted on from {sent}"
            trouble = problem_in_messages(groups, counts, words, done)
            if trouble:
                return trouble
            if act[3] and acts:
                who = acts[done].split()[1]
                if int(act[3]) != next_ids.get(who, int(act[3])) and int(act[3]) < next_ids[who]:
                    return f"act {done}: id {act[3]} of node {who} after {next_ids[who] - 1}"
                next_ids[who] = int(act[3]) + 1
            sent, done = sent + len(words), done + 1
        elif node:
            if int(node[1]) != nodes:
                return f"the table has {line[:100]} at {nodes}"
            nodes += 1
            trouble = problem_in_row(groups, counts, node)
            if trouble:
                return trouble
        else:
            return f"there is a line {line[:100]!r}"
    if acts is not None and done != len(acts):
        return f"{done} acts of {len(acts)} are printed"
    return "" if nodes else "there is no table"


def problem_in_row(groups, counts, node):
    if node[2] is None:
        return ""
    own, phase, coordinator, group = int(node[1]), node[2], int(node[3]), (int(node[4]), int(node[5]))
    members, count = numbers(node[7]), int(node[8])
    if coordinator != group[0]:
        return f"node {own} has the group {group} of {coordinator}"
    if phase != "Election":
        trouble = groups.seen(group, coordinator, tuple(members) if phase == "Normal" else None)
        if trouble:
            return trouble
    if count < counts.get(own, 1) or (group[0] == own and group[1] > count):
        return f"node {own} has count {count}, gave {counts.get(own, 1)} and is in {group}"
    if phase == "Normal" and (own not in members or coordinator not in members):
        return f"node {own} works on a task of {members}"
    pending = numbers(node[9])
    return "" if pending == sorted(set(pending)) else f"node {own} has {pending} pending"
