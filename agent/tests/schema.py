"""Lines at the agent's socket against agent/protocol.json, by the part of JSON schema (draft 2020-12) that it uses; a keyword beside it is an error."""
import collections, functools, json, os, re, socket, threading

PATH = os.path.join(os.path.dirname(os.path.abspath(__file__)), "../protocol.json")

TYPES = {"object": dict, "array": list, "string": str, "boolean": bool, "null": type(None), "integer": int, "number": (int, float)}
# What each keyword asks of a value. Of a value of another type most ask nothing.
LIMITS = {
    "type": lambda value, names: any(is_of(value, name) for name in ([names] if isinstance(names, str) else names)),
    "const": lambda value, one: type(value) is type(one) and value == one,
    "enum": lambda value, some: any(type(value) is type(one) and value == one for one in some),
    "minimum": lambda value, least: not is_of(value, "number") or value >= least,
    "maximum": lambda value, most: not is_of(value, "number") or value <= most,
    "maxLength": lambda value, most: not is_of(value, "string") or len(value) <= most,
    "pattern": lambda value, pattern: not is_of(value, "string") or re.search(pattern, value) is not None,
    "maxItems": lambda value, most: not is_of(value, "array") or len(value) <= most,
    "uniqueItems": lambda value, is_so: not is_of(value, "array") or not is_so or all(one not in value[:at] for at, one in enumerate(value)),
    "required": lambda value, names: not is_of(value, "object") or all(name in value for name in names),
}
PARTS = {"$ref", "allOf", "anyOf", "oneOf", "properties", "items", "unevaluatedProperties"}
WORDS = {"$schema", "$defs", "title", "description"}


def is_of(value, name):
    return isinstance(value, TYPES[name]) and (name == "boolean" or not isinstance(value, bool))


class Schema:
    def __init__(self, path=PATH):
        with open(path) as file:
            self.whole = json.load(file)
        self.defs = self.whole["$defs"]
        for schema in [self.whole, *self.defs.values()]:
            self.look_at(schema)

    def look_at(self, schema):
        """That nothing stands in it which isn't looked at."""
        unknown = set(schema) - set(LIMITS) - PARTS - WORDS
        if unknown:
            raise ValueError("%s: nobody looks at these" % sorted(unknown))
        for part in [*self.parts(schema), *schema.get("properties", {}).values(), *([schema["items"]] if "items" in schema else [])]:
            self.look_at(part)

    def parts(self, schema, follow=False):
        """Those that say something of the same value."""
        if follow and "$ref" in schema:
            yield self.defs[schema["$ref"].replace("#/$defs/", "", 1)]
        for name in ("allOf", "anyOf", "oneOf"):
            yield from schema.get(name, [])

    def fields(self, schema):
        """The fields that it declares, and what is said of each."""
        fields = collections.defaultdict(list)
        for name, field in schema.get("properties", {}).items():
            fields[name].append(field)
        for part in self.parts(schema, follow=True):
            for name, some in self.fields(part).items():
                fields[name] += some
        return fields

    def faults(self, value, schema, at="it"):
        """Where and what of a value isn't as the schema says."""
        for name, limit in LIMITS.items():
            if name in schema and not limit(value, schema[name]):
                yield "%s: %s %s" % (at, name, json.dumps(schema[name]))
        if "$ref" in schema:
            yield from self.faults(value, self.defs[schema["$ref"].replace("#/$defs/", "", 1)], at)
        for part in schema.get("allOf", []):
            yield from self.faults(value, part, at)
        for name, is_right in (("anyOf", lambda count: count > 0), ("oneOf", lambda count: count == 1)):
            if name in schema and not is_right(sum(self.is_as(value, part) for part in schema[name])):
                yield "%s: %s" % (at, name)
        if isinstance(value, dict):
            for name in value.keys() & schema.get("properties", {}).keys():
                yield from self.faults(value[name], schema["properties"][name], "%s.%s" % (at, name))
            if schema.get("unevaluatedProperties") is False:
                yield from ("%s.%s: it isn't declared" % (at, name) for name in value.keys() - self.fields(schema).keys())
        if isinstance(value, list) and "items" in schema:
            for place, one in enumerate(value):
                yield from self.faults(one, schema["items"], "%s[%d]" % (at, place))

    def is_as(self, value, schema):
        return next(self.faults(value, schema), None) is None

    def undeclared(self, value, schema, at="it"):
        """Fields that the schema doesn't name: it allows them, since a later agent may have more; this one has none."""
        fields, items = self.fields(schema), [schema["items"]] if "items" in schema else []
        if isinstance(value, dict) and fields:
            for name, one in value.items():
                if name not in fields:
                    yield "%s.%s: it isn't declared" % (at, name)
                for field in fields[name]:
                    yield from self.undeclared(one, field, "%s.%s" % (at, name))
        for part in self.parts(schema, follow=True) if isinstance(value, list) else ():
            items += [part["items"]] if "items" in part else []
        for one in value if isinstance(value, list) else ():
            for item in items:
                yield from self.undeclared(one, item, at + "[]")

    def wrong(self, value, name):
        """What is wrong with a value as that of a definition; None where nothing is."""
        schema = self.defs.get(name)
        if schema is None:
            return "there is no %s" % name
        return next(self.faults(value, schema), None) or next(self.undeclared(value, schema), None)

    def names(self, kind):
        """The requests, answers, refusals or events that there are."""
        return [name[len(kind) + 1:] for name in self.defs if name.startswith(kind + ".")]


class Lines:
    """What is wrong with the lines that were sent and that came, how many they were, and which definitions came."""

    def __init__(self):
        self.schema, self.lock, self.wrong, self.count, self.seen = Schema(), threading.Lock(), [], 0, set()
        self.request_of = functools.lru_cache(4096)(self.request_of)

    def request_of(self, line):
        """The name of a request and what it is to be known by; no name where it is none."""
        try:
            value = json.loads(line)
        except ValueError:
            value = None
        if not isinstance(value, dict):
            return None, None
        name = value.get("do") if isinstance(value.get("do"), str) else None
        is_one = name in self.schema.names("request") and not self.schema.wrong(value, "request." + name)
        return name if is_one else None, value.get("request")

    def take(self, line, open_requests):
        """A line came on a connection where these requests have no answer yet."""
        with self.lock:
            self.count += 1
            why = self.why_wrong(line, open_requests)
            if why and len(self.wrong) < 20:
                self.wrong.append("%s (%s)" % (line.decode(errors="replace")[:300], why))

    def why_wrong(self, line, open_requests):
        try:
            value = json.loads(line)
        except ValueError:
            return "no JSON"
        if not isinstance(value, dict):
            return "no object"
        name = "event.%s" % value.get("event")
        if "event" in value and name != "event.state":
            self.seen.add(name)
            return self.schema.wrong(value, name)
        tags = [(at, kind) for at, (kind, tag) in enumerate(open_requests) if tag == value.get("request")]
        reasons = []
        for at, kind in tags:
            for answer in self.answers(value, kind):
                why = self.schema.wrong(value, answer)
                if why is None:
                    self.seen.add(answer)
                    del open_requests[at]
                    return None
                reasons.append("as %s %s" % (answer, why))
        if value.get("ok") is False and self.schema.wrong(value, "refusal.any") is None:
            return None
        return "; ".join(reasons[:3]) or "nothing was asked that it would answer"

    def answers(self, value, kind):
        """What may answer a request: one that is none is refused as such, and no other one is."""
        if "event" in value:
            return ["event.state"] if kind == "watch" else []
        if value.get("ok") is True:
            return ["answer.%s" % kind] if kind else []
        return [name for name in ("refusal.%s" % (kind or "unreadable"), "refusal.any") if name in self.schema.defs]


class Checked(socket.socket):
    """A connection to the agent whose lines are checked."""

    def __init__(self, lines):
        super().__init__(socket.AF_UNIX, socket.SOCK_STREAM)
        self.lines, self.sent, self.come, self.open, self.lock = lines, b"", b"", [], threading.Lock()

    def sendall(self, data, *flags):
        with self.lock:
            *whole, self.sent = (self.sent + bytes(data)).split(b"\n")
            self.open += [self.lines.request_of(line) for line in whole]
        super().sendall(data, *flags)

    def came(self, data):
        with self.lock:
            *whole, self.come = (self.come + data).split(b"\n")
            for line in whole:
                self.lines.take(line, self.open)

    def recv(self, *size_and_flags):
        data = super().recv(*size_and_flags)
        self.came(data)
        return data

    def recv_into(self, buffer, *size_and_flags):
        count = super().recv_into(buffer, *size_and_flags)
        self.came(bytes(memoryview(buffer)[:count]))
        return count
