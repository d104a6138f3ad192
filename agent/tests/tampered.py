"""Records in which one line of an answer was altered, dropped or forged: what a node told its services. None of them is a run, and the line is named."""
import json, random, re, subprocess, time

from cluster import judged
from records import CLOSES
from recorded import Load, is_run, records, said_of, short


def words(line, place, new):
    """The line with another word at a place."""
    all_words = line.split(" ")
    all_words[place] = new(all_words[place])
    return " ".join(all_words)


def raised(number):
    """The number behind the last colon, one more."""
    front, colon, last = number.rpartition(":")
    return front + colon + str(int(last) + 1)


def another_member(members):
    return ",".join(members.split(",")[:-1])


# Each way: what it is called, the line that it takes, and what stands in its place; nothing for a line that is dropped.
WAYS = [
    ("a take dropped", r"take .*", lambda line: None),
    ("a drop dropped", r"drop .*", lambda line: None),
    ("an end dropped", r"gone .*", lambda line: None),
    ("a group dropped", r"group Normal .*,.*", lambda line: None),
    ("a take of another id", r"take .*", lambda line: words(line, 2, raised)),
    ("a take of another queue", r"take .*", lambda line: words(line, 3, lambda queue: str((int(queue) + 1) % 16))),
    ("a take of another payload", r"take .*", lambda line: words(line, 4, lambda payload: "ff" + payload.strip("-"))),
    ("a take said twice", r"take .*", lambda line: line + "\n" + line),
    ("a drop of another id", r"drop .*", lambda line: words(line, 2, raised)),
    ("an end of another job", r"gone .*", lambda line: words(line, 1, raised)),
    ("another group number", r"group Normal .*,.*", lambda line: words(line, 3, raised)),
    ("a member less", r"group Normal .*,.*", lambda line: words(line, 4, another_member)),
    ("another coordinator", r"group Normal .*,.*", lambda line: words(line, 2, lambda node: str((int(node) + 1) % 3))),
    ("another phase", r"group Normal .*,.*", lambda line: words(line, 1, lambda phase: "Reorganization")),
    ("another id", r"ok \d+ id \d+", lambda line: words(line, 3, raised)),
    ("another number of a request", r"ok \d+", lambda line: words(line, 1, raised)),
    ("an end that is forged", r"take .*", lambda line: line + "\ngone " + line.split(" ")[2]),
]


# What is said where a node's file keeps what its record doesn't account for.
KEPT = "its file said"


def altered(text, chance, pattern, new):
    """The text with one of the lines of its first process turned, and the number of that line; none where there is none."""
    found = list(re.finditer(r"^(?:%s)$" % pattern, first_process(text), re.M))
    if not found:
        return None
    line = chance.choice(found)
    turned = new(line[0])
    end = line.end() + (turned is None)
    return text[:line.start()] + (turned or "") + text[end:], text.count("\n", 0, line.start()) + 1


def first_process(text):
    """The text up to where the second process begins."""
    first = text.index("\nstart")
    return text[:text.find("\nstart", first + 1)]


def line_named(said):
    found = re.findall(r"line (\d+)", said)
    return int(found[0]) if found else None


def end_of_answer(text, line):
    """The number of the line that closes the answer in which a line stands."""
    return next(number for number, said in enumerate(text.splitlines(), 1) if number >= line and CLOSES.match(said))


def is_named(text, line, named, was):
    """The answer in which a line was altered, or of a `take` or a `drop` a later one that says the other of the same job."""
    word, *key = was.split(" ")[:3]
    other = {"take": "drop", "drop": "take"}.get(word)
    return named == end_of_answer(text, line) or (named is not None and other is not None and any(said.startswith(" ".join([other, *key])) for said in answer_to(text, named)))


def answer_to(text, end):
    """The lines of the answer that ends with a line."""
    lines = text.splitlines()[:end]
    begin = next((at for at in range(len(lines) - 2, -1, -1) if CLOSES.match(lines[at])), 0)
    return lines[begin:]


def under_load(agents):
    """Three machines at work, of which one is killed and comes back."""
    agents.start_all()
    agents.one_group()
    load = Load(agents)
    time.sleep(2)
    agents.kill(2)
    time.sleep(2)
    load.stop()
    agents.start(2)
    agents.one_group()
    return load.kept


def filled(histories):
    """The histories with all that can be told of each entry, where the trace leaves out what it knows to be nothing: jobs that came or went, ids, another group."""
    for history in histories:
        group, is_sure = None, True
        for entry in history:
            told, does = entry.get("told", {}), entry["do"]
            group = told.get("group", group)
            # a job that was finished unseen stands before the kill; all is sure again behind the entry that tells what the file keeps
            is_sure = is_sure and does != "crash"
            if is_sure and does != "recover" and not (does == "finish" and not told):
                entry["told"] = {"group": group, "took": "", "dropped": "", "gone": "", "id": "", **told}
            is_sure = is_sure or "kept" in told
    return histories


def said_all(bed, agents, files):
    """What an entry doesn't tell changed nothing: told all the same, it is a run."""
    trace = json.loads(agents.ctl(0, "judge", "--trace", *files).stdout)
    entries = [entry for history in trace["histories"] for entry in history]
    told = sum("told" in entry for entry in entries)
    text = json.dumps(dict(nodes=trace["nodes"], histories=filled(trace["histories"])))
    done = subprocess.run([bed.program, "trace"], input=text, capture_output=True, text=True)
    bed.tally.check("of an entry all is told that changed", is_run(done), short(done))
    bed.tally.note("of %d entries %d tell something; where each does %d" % (len(entries), told, sum("told" in entry for entry in entries)))


def tampered(bed):
    """Each way at each node's record."""
    chance, agents = random.Random(bed.seed), bed.agents("tampered", slots=2048)
    bed.tally.note("tampered: %d jobs" % under_load(agents))
    judged(bed, agents, "answers of three agents")
    texts = {path: text + "start\n" for path, text in records(agents).items()}
    said_all(bed, agents, list(texts))
    for name, pattern, new in WAYS:
        tried, taken, far = 0, [], []
        for path, text in texts.items():
            turned = altered(text, chance, pattern, new)
            if turned is None:
                continue
            tried += 1
            done = said_of(agents, {**texts, path: turned[0]})
            if is_run(done) or done.returncode not in (1, 2):
                taken.append(short(done))
            # a node's own number decides what its file keeps: that is named then
            elif KEPT not in done.stderr and not is_named(turned[0], turned[1], line_named(done.stderr), text.splitlines()[turned[1] - 1]):
                far.append((turned[1], short(done)))
        bed.tally.check("%s is no run, of %d nodes" % (name, tried), tried > 0 and not taken, taken[:2])
        bed.tally.check("%s: its line is named" % name, not far, far[:2])
