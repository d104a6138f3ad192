"""Traces, read as docs/SIMULATION.md says and not as the program does: a text is a trace, or a bad one, with or without a place."""
import re
from grammar import TIMERS
from spelling import HAS_PRIORITIES
from wire import Malformed, decode

DEEPEST = 127
TOKEN_NUMBER = re.compile(r"-?(?:0|[1-9][0-9]*)(?:\.[0-9]+)?(?:[eE][+-]?[0-9]+)?")
ESCAPES = {'"': '"', "\\": "\\", "/": "/", "b": "\b", "f": "\f", "n": "\n", "r": "\r", "t": "\t"}


class NoJson(Exception):
    pass


class Bad(Exception):
    """A bad trace, at a place or at none."""


class Number(str):
    """A number as it was written."""


class Reader:
    """The value of a JSON text, of which numbers are kept as they were written."""

    def __init__(self, data):
        try:
            self.text, self.at = data.decode("utf-8"), 0
        except UnicodeDecodeError:
            raise NoJson

    def need(self, truth):
        if not truth:
            raise NoJson

    def space(self):
        while self.text[self.at:self.at + 1] in (" ", "\t", "\n", "\r") and self.at < len(self.text):
            self.at += 1

    def take(self, word):
        self.need(self.text.startswith(word, self.at))
        self.at += len(word)

    def whole(self):
        value = self.value(0)
        self.space()
        self.need(self.at == len(self.text))
        return value

    def value(self, depth):
        self.space()
        first = self.text[self.at:self.at + 1]
        if first in ("{", "["):
            self.need(depth < DEEPEST)
            return self.object(depth + 1) if first == "{" else self.list(depth + 1)
        if first == '"':
            return self.string()
        for word, value in (("true", True), ("false", False), ("null", None)):
            if self.text.startswith(word, self.at):
                self.at += len(word)
                return value
        found = TOKEN_NUMBER.match(self.text, self.at)
        self.need(found and float(found[0]) not in (float("inf"), float("-inf")))
        self.at = found.end()
        return Number(found[0])

    def parts(self, end, one):
        """What stands between brackets, parted by commas."""
        self.at += 1
        self.space()
        if self.text.startswith(end, self.at):
            self.at += 1
            return
        while True:
            one()
            self.space()
            if self.text.startswith(end, self.at):
                self.at += 1
                return
            self.take(",")

    def list(self, depth):
        found = []
        self.parts("]", lambda: found.append(self.value(depth)))
        return found

    def object(self, depth):
        found = {}

        def pair():
            self.space()
            key = self.string()
            self.space()
            self.take(":")
            found[key] = self.value(depth)

        self.parts("}", pair)
        return found

    def string(self):
        self.take('"')
        found = ""
        while True:
            one = self.text[self.at:self.at + 1]
            self.need(one >= " ")
            self.at += 1
            if one == '"':
                return found
            found += self.escaped() if one == "\\" else one

    def escaped(self):
        one = self.text[self.at:self.at + 1]
        self.at += 1
        if one == "u":
            first = self.unit()
            if 0xD800 <= first < 0xDC00:
                self.take("\\u")
                second = self.unit()
                self.need(0xDC00 <= second < 0xE000)
                return chr(0x10000 + ((first - 0xD800) << 10) + second - 0xDC00)
            self.need(not 0xDC00 <= first < 0xE000)
            return chr(first)
        self.need(one in ESCAPES)
        return ESCAPES[one]

    def unit(self):
        digits = self.text[self.at:self.at + 4]
        self.need(re.fullmatch("[0-9a-fA-F]{4}", digits))
        self.at += 4
        return int(digits, 16)


def natural(value, most, least=0):
    if not isinstance(value, Number) or not re.fullmatch("[0-9]+", value) or not least <= int(value) <= most:
        raise ValueError
    return int(value)


def text(value):
    if not isinstance(value, str) or isinstance(value, Number):
        raise ValueError
    return value


def spelled(value):
    if not re.fullmatch("([0-9a-fA-F]{2})*", text(value)):
        raise ValueError
    return bytes.fromhex(value)


def message(value):
    data = spelled(value)
    if len(data) < 6 or len(data) != 6 + int.from_bytes(data[4:6], "big"):
        raise ValueError
    return decode(data)


def entry(value):
    """What an entry says, as a dictionary. A wrong one is a ValueError, KeyError or Malformed."""
    if not isinstance(value, dict) or not isinstance(value["sent"], list):
        raise ValueError
    what = text(value["do"])
    said = {"do": what, "sent": [bytes.fromhex(one) for one in value["sent"] if message(one)], "fault": None}
    faults = ("mount", "raise") if what == "recover" else ("device",)
    if what in (*TIMERS, "deliver", "submit", "finish", "recover") and "fault" in value:
        said["fault"] = text(value["fault"])
        if said["fault"] not in faults:
            raise ValueError
    if what == "deliver":
        said["msg"], said["spelled"] = message(value["msg"]), spelled(value["msg"])
    elif what == "submit":
        said["queue"], said["payload"] = natural(value["queue"], 15), spelled(value["payload"])
        said["priority"] = natural(value["priority"], 255, 1) if HAS_PRIORITIES and "priority" in value else 0
        if len(said["payload"]) > 400:
            raise ValueError
    elif what == "finish":
        said["origin"], said["id"] = natural(value["origin"], 127), natural(value["id"], 2**64 - 1)
    elif what == "recover":
        said["kept"] = value["kept"]
        if not isinstance(said["kept"], bool):
            raise ValueError
    elif what not in (*TIMERS, "none", "crash"):
        raise ValueError
    return said


def read(data):
    """The number of nodes and the histories."""
    try:
        whole = Reader(data).whole()
        nodes, histories = natural(whole["nodes"], 128, 1), whole["histories"]
        if len(histories) != nodes or not isinstance(histories, list) or not all(isinstance(one, list) for one in histories):
            raise ValueError
    except (NoJson, ValueError, KeyError, TypeError):
        raise Bad("bad trace")
    found = []
    for node, history in enumerate(histories):
        found.append([])
        for index, value in enumerate(history):
            try:
                found[-1].append(entry(value))
            except (ValueError, KeyError, Malformed):
                raise Bad(f"bad trace {node} {index}")
    return nodes, found
