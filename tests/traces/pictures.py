#!/usr/bin/env python3
"""What `dumgerokctl draw` draws of the records of schedules, against a small model: which turn takes which entry, in which order, and from which turn each
message came; and of traces by chance, against that and a model of the nodes: how each stands, and what is left.

    pictures.py PROGRAM [SCHEDULE..]

The agent is built first (agent/build), unless $DUMGEROK_AGENT names the folder of its programs. Traces that are written here are drawn first, then those of
picture_rows.py, to the byte. Without schedules, of all that stand in the folder schedules. Each is recorded, and the record is drawn as it is, without the numbers
of its messages, without its order, with an order in which its entries can't be taken, and with an entry spoiled or an end lost (picture_orders.py). Last
come what is written for tools of others (picture_exports.py), what `dumgerokctl why` says of these runs (whys.py) and pages in a browser (picture_pages.py). The last
line counts the checks."""
import json, os, random, re, subprocess, sys
from xml.etree import ElementTree

HERE = os.path.dirname(os.path.abspath(__file__))
TOP = os.path.join(HERE, "../..")
sys.dont_write_bytecode = True
sys.path += [os.path.join(HERE, ".."), os.path.join(HERE, "../hostile")]
from common import program, schedules as stored
from common.tally import Tally, left_out
import picture_exports, picture_orders as orders, picture_pages, picture_rows, traces, whys
from inputs import Inputs
from turns import Watched, first_other

# So many traces by chance are drawn, those of this seed.
TRACES, SEED = 150, 1982

SVG = "{http://www.w3.org/2000/svg}"
POINT = r"(\d+) (\d+)"
RECORDED, NONE = "in the order that was recorded.", "in an order in which they can have come: no order was recorded."
MARK = re.compile(r'<g transform="translate\((\d+) (\d+)\)"><title>turn (\d+): node (\d+), entry (\d+): ([a-z]+)</title>')
ARROW = re.compile(r'<path class="(message|unsure)" d="M(\d+) (\d+)L(\d+) (\d+)">')
STUB = re.compile(r'<g class="untaken"><title>no turn was brought what it sent to ([0-9, and]+)</title>')


class Programs:
    """The program, and what draws by it."""

    def __init__(self, invite, folder):
        self.program, self.control = invite, os.path.join(folder, "dumgerokctl")

    def invite(self, command, text):
        return program.run(self.program, [command], text)

    def draw(self, text, *words):
        return program.run(self.control, ["draw", "--program", self.program, *words], text)

    def why(self, text):
        return program.run(self.control, ["why", "--program", self.program], text)


def agent():
    """The folder of the agent's programs. Where they can't be built here the script ends, and says so."""
    if os.environ.get("DUMGEROK_AGENT"):
        return os.environ["DUMGEROK_AGENT"]
    done = subprocess.run([os.path.join(TOP, "agent/build"), "build", "--release", "--bin", "dumgerokctl"], stderr=subprocess.PIPE, text=True)
    missing = [line for line in done.stderr.splitlines() if line.startswith("build: ")]
    if done.returncode != 0 and not missing:
        sys.exit(f"FAILED: the agent can't be built: {done.stderr[-2000:]}\n0 passed, 1 failed")
    if done.returncode != 0:
        left_out(f"no picture was drawn, which the agent does: {missing[0]}")
    return os.path.join(TOP, "agent/target/release")


def order_of(trace):
    """The nodes of the order beside a trace, and the numbers of the messages that they were brought."""
    words = trace["order"].split()
    return [int(word) for word in words[0::2]], [None if word == "-" else int(word) for word in words[1::2]]


def up_to(count):
    """What is said where so many turns, the first ones, are in the recorded order."""
    return f"in the order that was recorded up to turn {count - 1}, and behind that in one that can be." if count else NONE


class Model:
    """The turns of a trace in an order: of each its node, its index, what it was brought, and where that was sent."""

    def __init__(self, trace, nodes, numbers):
        self.said = [message for history in trace["histories"] for entry in history for message in entry["sent"]]
        self.turns, self.sources, posts, taken = [], [], [], {}
        for turn, node in enumerate(nodes):
            index = taken.get(node, 0)
            taken[node] = index + 1
            entry = trace["histories"][node][index]
            self.turns.append((node, index, entry))
            self.sources.append(self.source(posts, entry.get("msg") if entry["do"] == "deliver" else None, numbers[turn] if turn < len(numbers) else None))
            posts += [(message, turn, place) for place, message in enumerate(entry["sent"])]
        self.posts = posts

    def source(self, posts, message, number):
        """The turn and the place of the sending, and whether it is known to be this one: the record names it, or no other entry of the whole trace,
        be it drawn before, behind or not at all, sent an equal message."""
        if message is None:
            return None
        if number is not None and number < len(posts) and posts[number][0] == message:
            return posts[number][1:] + (True,)
        equal = [post for post in posts if post[0] == message]
        return equal[-1][1:] + (self.said.count(message) == 1,)

    def untaken(self, turn):
        """The receivers of what this turn sent and no turn was brought."""
        taken = {source[:2] for source in self.sources if source}
        return sorted({int(message[6:8], 16) for message, at, place in self.posts if at == turn and (at, place) not in taken})


def check_picture(text, model):
    """What is wrong with a picture of these turns, or nothing."""
    lines = text.split("\n")
    marks = [(match, line) for line in lines for match in [MARK.match(line)] if match]
    if [(int(match[3]), int(match[4]), int(match[5])) for match, _ in marks] != [(turn, node, index) for turn, (node, index, _) in enumerate(model.turns)]:
        return "other turns"
    stands = {(match[1], match[2]): int(match[3]) for match, _ in marks}
    if len(stands) != len(marks):
        return "two marks at one place"
    for match, line in marks:
        stub = STUB.search(line)
        told = sorted(int(word) for word in re.findall(r"\d+", stub[1])) if stub else []
        if told != model.untaken(int(match[3])):
            return f"turn {match[3]}: {told} for the receivers of what was never taken"
    arrows = sorted((stands.get((match[4], match[5]), -1), stands.get((match[2], match[3]), -1), match[1] == "message") for match in ARROW.finditer(text))
    wanted = sorted((turn, source[0], source[2]) for turn, source in enumerate(model.sources) if source)
    if arrows != wanted:
        return f"arrows {[arrow for arrow in arrows if arrow not in wanted]} in place of {[arrow for arrow in wanted if arrow not in arrows]}"
    if any(source >= turn for turn, source, _ in arrows):
        return "an arrow from a later turn"
    return ""


def check(programs, schedule):
    """The problems with the pictures of a schedule's record, each with what was drawn."""
    record = programs.invite("record", stored.acts(schedule))
    if record.returncode != 0:
        return
    trace = json.loads(record.stdout)
    bare = {key: value for key, value in trace.items() if key != "order"}
    verdict = programs.invite("trace", json.dumps(bare)).stdout.split()
    if "order" in trace:
        nodes, numbers = order_of(trace)
        drawn = programs.draw(record.stdout)
        yield "the record", drawn, Model(trace, nodes, numbers), 0, RECORDED
        yield "without its numbers", programs.draw(json.dumps(dict(trace, order=" ".join(f"{node} -" for node in nodes)))), Model(trace, nodes, []), 0, RECORDED
        other = programs.draw(json.dumps(dict(trace, order=trace["order"] + " 0 -")))
        yield "an order of too many", other, Model(trace, nodes, numbers), 0, up_to(len(nodes))
        for what, spoiled, first, are_all, counted in orders.spoiled(trace, nodes, numbers):
            drawn = programs.draw(json.dumps(spoiled))
            rest = [] if are_all else [int(match[4]) for line in drawn.stdout.split("\n") for match in [MARK.match(line)] if match][len(first):]
            left = any((first + rest).count(node) < len(history) for node, history in enumerate(spoiled["histories"]))
            yield what, drawn, Model(spoiled, first + rest, counted), int(left), up_to(len(first))
    yield "without its order", programs.draw(json.dumps(bare)), Model(trace, [int(word) for word in verdict[1:]], []), 0, NONE


QUESTION, ANSWER, OTHER = "010100010000", "01020100000101", "01020100000100"
ASKS, ASKED = {"do": "check", "sent": [QUESTION]}, {"do": "deliver", "msg": QUESTION, "sent": [ANSWER]}
WAITS = {"do": "deliver", "msg": OTHER, "sent": []}

# Traces with an order, the nodes that are drawn, the numbers of what they were brought, and the status. Node 0 asks twice what node 1 is asked once.
WRITTEN = [
    # the record's order may be wrong where clocks differ: the second question may have been the one that came
    ("asked again behind the answer, and no number", [[ASKS, ASKS], [ASKED]], "0 - 1 - 0 -", [0, 1, 0], [None] * 3, 0),
    ("asked again behind the answer, and a number", [[ASKS, ASKS], [ASKED]], "0 - 1 0 0 -", [0, 1, 0], [None, 0, None], 0),
    ("asked again before, and the number of the first", [[ASKS, ASKS], [ASKED]], "0 - 0 - 1 0", [0, 0, 1], [None, None, 0], 0),
    ("asked once, and no number", [[ASKS], [ASKED]], "0 - 1 -", [0, 1], [None] * 2, 0),
    ("a number of another message", [[ASKS, ASKS], [ASKED, ASKED]], "0 - 1 - 1 1 0 -", [0, 1, 1, 0], [None, None, 1, None], 0),
    # what is left was sent all the same
    ("asked again by an entry that is left", [[ASKS, WAITS, ASKS], [ASKED]], "", [0, 1], [None] * 2, 1),
]


def written(programs):
    """What is drawn of written traces."""
    for name, histories, order, nodes, numbers, status in WRITTEN:
        trace = {"nodes": len(histories), "histories": histories, **({"order": order} if order else {})}
        yield name, programs.draw(json.dumps(trace)), Model(trace, nodes, numbers), status, RECORDED if order else NONE


class Picture:
    """What stands in an SVG: names, bands, arrows, marks, and what is left."""

    def __init__(self, out):
        self.names, self.bands, self.arrows, self.marks, self.left = [], [], [], [], []
        root = ElementTree.fromstring(out)
        self.size = int(root.get("width")), int(root.get("height"))
        for part in root:
            kind = part.get("class")
            if kind == "name":
                self.names.append((part.text, int(part.get("y"))))
            elif kind in ("message", "unsure"):
                self.arrows.append((*points(f"M{POINT}L{POINT}", part.get("d")), kind == "message"))
            elif part.tag == SVG + "svg":
                self.bands.append(band(part))
            elif part.tag == SVG + "g" and part.get("transform"):
                (self.left if kind == "left" else self.marks).append((points(rf"translate\({POINT}\)", part.get("transform")), part))


def band(part):
    told = re.fullmatch(r"node (\d+), from turn (\d+) until turn (\d+): .*", part.find(SVG + "title").text)
    group, members = (text.text for text in part.findall(SVG + "text"))
    return (*map(int, told.groups()), part.find(SVG + "line").get("class"), group, members)


def mark(part):
    """Turn, node, index, name and look of a mark, and for whom it sent what came to none."""
    told = re.fullmatch(r"turn (\d+): node (\d+), entry (\d+): ([a-z]+)", part.find(SVG + "title").text)
    stub = part.find(f"{SVG}g/{SVG}title")
    untaken = [] if stub is None else [int(word) for word in stub.text.rpartition(" ")[2].split(",")]
    return (*map(int, told.groups()[:3]), told[4], part.find(SVG + "circle").get("class"), untaken)


def points(form, text):
    return tuple(map(int, re.fullmatch(form, text).groups()))


def problem_in_picture(out, nodes, search):
    """What is wrong with the picture of the turns of a search, which came to its end."""
    try:
        found = Picture(out)
        marks = [mark(part) for _, part in found.marks]
    except (ElementTree.ParseError, AttributeError, KeyError, TypeError, ValueError) as error:
        return f"it is no such picture: {error!r}"
    places = [at for at, _ in found.marks]
    lines = [down for _, down in found.names]
    rights = [right for right, _ in places]
    if rights != sorted(set(rights)) or any(right > found.size[0] or down > found.size[1] for right, down in places):
        return f"the marks stand at {places}"
    if [down for _, down in places] != [lines[own] for own, *_ in search.turns]:
        return "marks stand on other lines than their nodes"
    arrows = [(*places[came[0]], *places[turn], came[1]) for turn, came in enumerate(search.sources) if came]
    return (
        first_other("names", [name for name, _ in found.names], [f"node {node}" for node in range(nodes)])
        or first_other("marks", marks, [(turn, *told, search.untaken(turn)) for turn, told in enumerate(search.turns)])
        or first_other("arrows", found.arrows, arrows)
        or first_other("bands", sorted(found.bands), sorted(search.bands()))
        or first_other("left", sorted(at[1] for at, _ in found.left), [lines[own] for own, place in enumerate(search.places) if place < len(search.histories[own])])
    )


def by_chance(programs):
    """What is wrong with the pictures of traces by chance, of which some are runs, some none, and some no traces."""
    inputs = Inputs(random.Random(SEED))
    for number in range(TRACES):
        text = inputs.trace()
        drawn = programs.draw(text)
        try:
            nodes, histories = traces.read(text)
        except traces.Bad as bad:
            yield f"trace {number}", "" if (drawn.returncode, drawn.stdout) == (1, f"{bad}\n".encode()) else f"{drawn.stdout[:200]!r} in place of {bad}"
            continue
        search = Watched(nodes, histories)
        status, _ = search.verdict()
        yield f"trace {number}", f"status {drawn.returncode}" if drawn.returncode != status else problem_in_picture(drawn.stdout, nodes, search)


def to_the_byte(programs):
    """What is wrong with the pictures of rows, and with the one in docs/."""
    for name, trace, status, picture, said in picture_rows.all_rows():
        drawn = programs.draw(trace)
        found = (drawn.returncode, drawn.stderr, *drawn.stdout.split("\n"))
        yield name, first_other("lines", found, (status, said, *picture.split("\n")))
    drawn = programs.draw(programs.invite("record", stored.acts("schedules/partition_heals.txt")).stdout)
    yield "docs/partition_heals.svg", "" if drawn.stdout == open("docs/partition_heals.svg").read() else "another picture"


def of_schedules(programs, schedules):
    """What is wrong with each picture of written traces, and of the records of schedules."""
    for schedule in ["written here", *schedules]:
        for what, drawn, model, status, order in written(programs) if schedule == "written here" else check(programs, schedule):
            problem = check_picture(drawn.stdout, model)
            if drawn.returncode != status:
                problem = f"status {drawn.returncode}"
            if f">Time goes right, by turns, {order}</text>" not in drawn.stdout:
                problem = f"doesn't say of its order: {order}"
            yield f"{schedule}, {what}", problem


def exported(programs, schedules):
    """What is wrong with what is written of the records of schedules for tools of others."""
    for schedule in schedules:
        record = programs.invite("record", stored.acts(schedule))
        trace = json.loads(record.stdout) if record.returncode == 0 else {}
        if "order" in trace:
            yield from ((f"{schedule}, {what}", problem) for what, problem in picture_exports.exports(programs, trace, Model(trace, *order_of(trace))))


def explained(programs, schedules):
    """What is said of the records of schedules, whole and spoiled."""
    for schedule in schedules:
        record = programs.invite("record", stored.acts(schedule))
        trace = json.loads(record.stdout) if record.returncode == 0 else {}
        if "order" in trace:
            yield from ((f"{schedule}, {what}", problem) for what, problem in whys.whys(programs, trace, order_of(trace)[0]))


def main():
    schedules, tally = list(map(os.path.abspath, sys.argv[2:])), Tally()
    programs = Programs(program.named(), os.path.abspath(agent()))
    os.chdir(TOP)
    schedules = schedules or stored.all_of("schedules")
    parts = [of_schedules(programs, schedules), to_the_byte(programs), by_chance(programs), exported(programs, schedules), explained(programs, schedules), picture_pages.pages(programs)]
    for what, problem in (pair for part in parts for pair in part):
        tally.mark(problem, what)
    return tally.close()


if __name__ == "__main__":
    sys.exit(main())
