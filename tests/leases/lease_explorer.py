#!/usr/bin/env python3
"""Explores what processes `invite lease` may come to: every order in which messages come, are lost or come again, processes are killed and begin anew, users acquire
and release, and time passes, up to a bound on each, what is likelier first. Called with the program and, if wished, with how many states each part may have.

What a process does follows from its file and the lines that it was told, and from nothing else. So a state is the true time, of each machine the lines of its
process, and what was sent; two that have the same are one. Of each process and line the answer is asked for once, of a process that is told the same lines again.
Judged by the lines `held` and `lost` alone: (E1) of two leases the one that is held later has the greater epoch; (E2) at each moment one client at most relies, until its
machine's clock shows UNTIL. The clocks are at their bounds, 31/32 and 33/32 of true time. The last line counts the parts; a flaw is told with the way there."""
import collections, itertools, multiprocessing, os, random, shutil, sys, tempfile

sys.dont_write_bytecode = True
sys.path.append(os.path.join(os.path.dirname(os.path.abspath(__file__)), ".."))
from common.program import MEMORY, named
from common.tally import Tally
from lease_cluster import Process, file_of_leases

ROUND_TRIP = 20
KEEPS = 100 * ROUND_TRIP
SLOW, FAST = 31 * 2**15, 33 * 2**15
MOST_PROCESSES, AT_A_TIME, WALKS = 200, 40, 40


class Clock:
    """A clock in whole milliseconds over true time in microseconds."""

    def __init__(self, rate, offset):
        self.rate, self.offset = rate, offset

    def at(self, time):
        return (self.offset + (time * self.rate >> 20)) // 1000

    def shows(self, clock):
        return max(0, -(-((clock * 1000 - self.offset) << 20) // self.rate))


class Local:
    """A process over a file that was told these lines: what it answered to the last of them, and what that means for time."""

    def __init__(self, own, image, number, lines=(), had=frozenset(), ends=frozenset(), due=None, wants=False):
        self.own, self.image, self.number, self.lines, self.had, self.ends, self.due, self.wants = own, image, number, lines, had, ends, due, wants
        self.next, self.left = {}, image  # what comes of a line, where that was asked; the file that it leaves


class Flaw(Exception):
    pass


# What is left of each that the bound counts.
Left = collections.namedtuple("Left", "acquires releases kills repeats pauses")
State = collections.namedtuple("State", "time locals sent relying greatest left paused")


class Machines:
    """The processes, by what they were told."""

    def __init__(self, program, count):
        self.program, self.count, self.room = program, count, tempfile.mkdtemp(prefix="explored", dir=MEMORY)
        self.live, self.roots, self.paths, self.begun = collections.OrderedDict(), {}, itertools.count(), 0
        self.messages, self.names = {}, []  # of each message that was ever sent its number; and the message of a number

    def close(self):
        for process, _ in self.live.values():
            process.kill()
        shutil.rmtree(self.room)

    def begin(self, own, image):
        path = os.path.join(self.room, str(next(self.paths)))
        with open(path, "wb") as file:
            file.write(image)
        self.begun += 1
        return Process(self.program, path, own, self.count, ROUND_TRIP), path

    def root(self, own, image):
        """A process that begins over this file."""
        if (own, image) not in self.roots:
            process, path = self.begin(own, image)
            local = self.roots[own, image] = Local(own, image, process.begun())
            self.keep(local, process, path)
        return self.roots[own, image]

    def keep(self, local, process, path):
        self.live[local] = process, path
        if len(self.live) > MOST_PROCESSES:
            self.drop(*self.live.popitem(last=False)[1])

    def drop(self, process, path):
        process.kill()
        os.unlink(path)

    def process(self, local):
        """A process that was told its lines, to be told more."""
        if local in self.live:
            return self.live.pop(local)
        process, path = self.begin(local.own, local.image)
        if local.lines:
            process.tell(b"".join(line for line, _ in local.lines))
        return process, path

    def ask(self, wanted):
        """Asks what comes of lines, many at a time: (local, line, clock) of each."""
        wanted = [it for it in dict.fromkeys(wanted) if it[1] not in it[0].next]
        for at in range(0, len(wanted), AT_A_TIME):
            asked = []
            for local, line, clock in wanted[at : at + AT_A_TIME]:
                again = 0 if local in self.live else len(local.lines)
                process, path = self.process(local)
                process.tell(line)
                asked.append((local, line, clock, again, process, path))
            for local, line, clock, again, process, path in asked:
                answers = process.answers(again + 1)
                assert process.number == local.number
                assert answers[:-1] == [answer for _, answer in local.lines[-again or len(local.lines) :]], "a process that is told the same answers otherwise"
                local.next[line] = self.read(local, line, answers[-1], clock)
                after = local.next[line][0]
                with open(path, "rb") as file:
                    after.left = file.read()
                self.keep(after, process, path)

    def tell(self, local, line, clock):
        """What comes of a line: the process then, what is sent, what is held, what is lost."""
        self.ask([(local, line, clock)])
        return local.next[line]

    def read(self, local, line, answer, clock):
        sent, held, lost, ends, due = [], [], [], set(local.ends), None
        if not local.lines:
            ends.add(clock + KEEPS)
        for said in answer:
            kind, *words = said.split()
            if kind == b"send":
                message = (local.own, int(words[0]), words[1])
                if message not in self.messages:
                    self.messages[message] = len(self.names)
                    self.names.append(message)
                sent.append(self.messages[message])
                if words[1][2:4] in (b"01", b"02"):  # a request, on which it voted itself, and a grant: bound until then
                    ends.add(clock + KEEPS)
            elif kind == b"held":
                held.append(((local.own, local.number, int(words[1])), int(words[2]), int(words[3])))
            elif kind == b"lost":
                lost.append(int(words[1]))
            elif kind == b"next":
                due = int(words[0]) if words else None
            else:
                raise Flaw("machine %d answers %s" % (local.own, said.decode()))
        words = line.split()
        had = local.had | {words[2]} if words[0] == b"deliver" else local.had
        wants = words[0] == b"acquire" or local.wants and words[0] != b"release"
        after = Local(local.own, local.image, local.number, local.lines + ((line, answer),), had, frozenset(end for end in ends if end > clock), due, wants)
        return after, sent, held, lost


class Part:
    """One exploration: machines at these rates, a beginning, and bounds."""

    def __init__(self, program, images, name, rates, way, left):
        self.images, self.name, self.way, self.left = images, name, way, left
        self.machines = Machines(program, len(rates))
        self.clocks = [Clock(rate, 10**6 + 333 * own) for own, rate in enumerate(rates)]
        self.askers = range(min(2, len(rates)))

    def first(self):
        """The processes begin, and after the beginning that this part is given their state is where it is explored from."""
        locals_ = tuple(self.machines.root(own, image) for own, image in enumerate(self.images[: len(self.clocks)]))
        state = State(0, locals_, frozenset(), (), 0, None, False)
        for own in range(len(self.clocks)):
            state = self.move(state, ("tick", own))
        for what, *more in self.way:
            state = getattr(self, what)(state, *more) if hasattr(self, what) else self.move(state, (what, *more))
        return state._replace(left=Left(*self.left), paused=False)

    # What may happen.

    def line_of(self, state, move):
        """The process that a move tells a line, that line, and the clock in it. None where time passes."""
        what, of = move
        if what == "pause":
            return None
        own, local = of, state.locals[of] if what != "message" else None
        text = {"tick": b"tick %d\n", "acquire": b"acquire %d a 1\n", "release": b"release %d a 1\n", "kill": b"tick %d\n"}.get(what)
        if what == "message":
            _, own, message = self.machines.names[of]
            local, text = state.locals[own], b"deliver %d " + message + b"\n"
        elif what == "kill":
            local = self.machines.root(own, local.left)
        clock = self.clocks[own].at(state.time)
        return local, text % clock, clock

    def move(self, state, move):
        """The state behind it."""
        if move[0] == "pause":
            time = move[1]
            relying = tuple(it for it in state.relying if self.clocks[it[0][0]].at(time) < it[2])
            return state._replace(time=time, relying=relying, paused=True)
        after, sent, held, lost = self.machines.tell(*self.line_of(state, move))
        own, relying, greatest = after.own, state.relying, state.greatest
        if lost:
            relying = tuple(it for it in relying if not (it[0][:2] == (own, after.number) and it[1] in lost))
        for who, epoch, until in held:
            relying, greatest = self.judge(state.time, relying, greatest, who, epoch, until)
        locals_ = state.locals[:own] + (after,) + state.locals[own + 1 :]
        return State(state.time, locals_, state.sent.union(sent) if sent else state.sent, relying, greatest, state.left, False)

    def judge(self, time, relying, greatest, who, epoch, until):
        others = [it for it in relying if it[0] != who]
        if any(self.clocks[it[0][0]].at(time) < it[2] for it in others):
            raise Flaw("TWO RELY: %s under epoch %d, and %s under %d" % (who, epoch, others[0][0], others[0][1]))
        # a renewal, also under a greater epoch
        own = [it for it in relying if it[0] == who]
        if not any(it[1] == epoch for it in own) and epoch <= greatest:
            raise Flaw("EPOCHS DON'T RISE: %s is held by %s behind %d" % (epoch, who, greatest))
        if any(until < it[2] for it in own):
            raise Flaw("A LEASE IS CUT SHORT: %s under epoch %d" % (who, epoch))
        return (*others, (who, epoch, until)), max(greatest, epoch)

    # What a beginning is made of, beside moves.

    def deliver(self, state, of, to):
        """The last message of one machine to another comes."""
        number = max(number for number in state.sent if self.machines.names[number][:2] == (of, to))
        return self.move(state, ("message", number))

    def before_due(self, state, own):
        return self.move(state, ("pause", self.clocks[own].shows(state.locals[own].due) - 1))

    def until_due(self, state, own):
        return self.move(self.move(state, ("pause", self.clocks[own].shows(state.locals[own].due))), ("tick", own))

    def until_ended(self, state, *voters):
        """The last grants of these end."""
        return self.move(state, ("pause", max(self.clocks[own].shows(max(state.locals[own].ends)) for own in voters)))

    def settle(self, state):
        """All have waited behind their start."""
        return self.move(state, ("pause", max(clock.shows(clock.at(0) + KEEPS) for clock in self.clocks)))

    def moments(self, state):
        """The times at which something changes by a clock: one is due, and just before; a grant ends, or a wait; a reliance ends."""
        times = set()
        for clock, local in zip(self.clocks, state.locals):
            if local.due is not None:
                times |= {clock.shows(local.due), clock.shows(local.due) - 1}
            times |= {clock.shows(end) for end in local.ends}
        times |= {self.clocks[who[0]].shows(until) for who, _, until in state.relying}
        return sorted(time for time in times if time > state.time)

    def moves(self, state):
        """Each next state that the bound allows, as what to do for it, and what is left behind it."""
        left, names = state.left, self.machines.names
        for message in state.sent:
            of, to, _ = names[message]
            again = names[message][2] in state.locals[to].had
            if not again or left.repeats:
                yield ("message", message), left._replace(repeats=left.repeats - again)
        for own in self.askers:
            local = state.locals[own]
            if local.due is not None and local.due <= self.clocks[own].at(state.time):
                yield ("tick", own), left
            if local.wants and left.releases:
                yield ("release", own), left._replace(releases=left.releases - 1)
            elif not local.wants and left.acquires:
                yield ("acquire", own), left._replace(acquires=left.acquires - 1)
        if left.kills:
            for own in range(len(self.clocks)):
                yield ("kill", own), left._replace(kills=left.kills - 1)
        if left.pauses and not state.paused:
            for time in self.moments(state):
                yield ("pause", time), left._replace(pauses=left.pauses - 1)

    def say(self, move):
        what, of = move
        if what == "message":
            by, to, text = self.machines.names[of]
            kind = ("Request", "Grant", "Refusal", "Release")[int(text[2:4]) - 1]
            return "machine %d takes a %s of machine %d, epoch %d" % (to, kind, by, int(text[40:56], 16))
        return "%d µs of true time" % of if what == "pause" else "machine %d: %s" % (of, what)

    def weight(self, move):
        """How far a move goes from what mostly happens, which is that messages come."""
        if move[0] == "message":
            return 2 if self.machines.names[move[1]][2][2:4] == b"03" else 1
        return {"tick": 1, "pause": 3}.get(move[0], 2)

    def explore(self, most):
        """A half of so many states by the lightest ways, and a half by walks. Says how many, and how many have a holder. And the way to a flaw, if there is one."""
        flaw, first = None, self.first()
        came, said = {first: (0, None, None)}, ""
        try:
            said = self.lightest(first, came, most // 2)
            if len(came) >= most // 2:
                self.walk(first, came, most)
        except Flaw as found:
            flaw = str(found)
        self.machines.close()
        holders = sum(bool(state.relying) for state in came)
        return "%s: %d states, %s; %d with a holder; by %d processes" % (self.name, len(came), said, holders, self.machines.begun), flaw, holders

    def lightest(self, first, came, most):
        weight, weights = 0, collections.defaultdict(list, {0: [first]})
        while any(weights.values()):
            level = [state for state in weights.pop(weight, ()) if came[state][0] == weight]
            for at in range(0, len(level), AT_A_TIME):
                if len(came) >= most:
                    return "all up to weight %d" % weight
                moves = [(state, *move) for state in level[at : at + AT_A_TIME] for move in self.moves(state)]
                for state, move, left, after in self.after(moves, came):
                    way = came[state][0] + (3 if left.repeats < state.left.repeats else self.weight(move))
                    if after not in came or way < came[after][0]:
                        came[after] = way, state, move
                        weights[way].append(after)
            weight += 1
        return "all of them"

    def walk(self, first, came, most):
        """Walks from the beginning on, at random, but for that what is lighter is likelier."""
        draw, before = random.Random(self.name), 0
        while before + WALKS < len(came) < most:
            before, at = len(came), [first] * WALKS
            while at and len(came) < most:
                moves = []
                for state in at:
                    may = list(self.moves(state))
                    weights = [self.weight(move) ** -2 for move, _ in may]
                    moves += [(state, *draw.choices(may, weights)[0])] if may else []
                at = []
                for state, move, _, after in self.after(moves, came):
                    came.setdefault(after, (came[state][0] + self.weight(move), state, move))
                    at.append(after)

    def after(self, moves, came):
        """What comes of moves in states: all that processes have to be asked for that is asked for first."""
        self.machines.ask([line for line in (self.line_of(state, move) for state, move, _ in moves) if line])
        for state, move, left in moves:
            try:
                yield state, move, left, self.move(state, move)._replace(left=left)
            except Flaw as found:
                raise Flaw("\n    ".join([str(found)] + self.way_to(state, came) + [self.say(move)]))

    def way_to(self, state, came):
        way = []
        while came[state][1]:
            _, state, move = came[state]
            way.append(self.say(move))
        return way[::-1]


# Of each part the rates of its clocks, how it begins, and the bound: acquires, releases, kills, repeats, pauses.
BOUND = (2, 1, 1, 1, 3)
ASKED = [("settle",), ("acquire", 0), ("deliver", 0, 2)]
LATE = [*ASKED, ("deliver", 0, 1), ("before_due", 0)]
HELD = [("settle",), ("acquire", 0), ("deliver", 0, 1), ("deliver", 1, 0)]
RENEWED = [("until_due", 0), ("deliver", 0, 2), ("deliver", 2, 0)]
PARTS = [
    ("all begin", (SLOW, FAST, FAST), [], BOUND),
    ("all vote", (SLOW, FAST, FAST), [("settle",)], BOUND),
    ("all vote, by other clocks", (FAST, SLOW, FAST), [("settle",)], BOUND),
    ("one asked, and its answers are late", (SLOW, FAST, FAST), LATE, BOUND),
    ("one held by a late answer, and the grants ended", (SLOW, FAST, FAST), [*LATE, ("deliver", 2, 0), ("until_ended", 1, 2)], BOUND),
    ("one holds", (SLOW, FAST, FAST), HELD, BOUND),
    ("one holds, and who voted for it begins anew", (SLOW, FAST, FAST), [*HELD, ("kill", 1)], BOUND),
    ("one holds, and a voter that began anew refuses its epoch", (SLOW, FAST, FAST), [*HELD, ("kill", 1), *RENEWED * 4, ("until_due", 0), ("deliver", 0, 1), ("deliver", 1, 0)], BOUND),
    ("one asks for its renewal", (SLOW, FAST, FAST), [*HELD, ("until_due", 0)], BOUND),
    ("one released", (FAST, SLOW, FAST), [*ASKED, ("deliver", 2, 0), ("release", 0)], BOUND),
    ("one gave up, and asked anew", (SLOW, FAST, FAST), [*ASKED, ("until_due", 0), ("until_due", 0)], BOUND),
    ("two machines", (SLOW, FAST), [("settle",)], BOUND),
    ("four machines", (SLOW, FAST, FAST, FAST), [("settle",)], BOUND),
]


def explore(program, images, part, most):
    return Part(program, images, *part).explore(most)


def main():
    invite, tally = named(), Tally()
    most = int(sys.argv[2]) if len(sys.argv) > 2 else 4000
    images = [file_of_leases(invite, own) for own in range(4)]
    with multiprocessing.Pool(min(2, os.cpu_count()), maxtasksperchild=1) as pool:
        for said, flaw, holders in pool.starmap(explore, [(invite, images, part, most) for part in PARTS], 1):
            print(said)
            tally.mark(flaw or ("" if holders else "nobody ever holds a lease"), said.partition(":")[0])
    return tally.close()


if __name__ == "__main__":
    sys.exit(main())
