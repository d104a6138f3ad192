"""Traces with each byte replaced, cut at each byte, with each field missing, of another type or out of its range, and nested too deep."""
import json
import rows, traces
from turns import Watched, problem_in_turns

VALUES = ["null", "true", "false", "0", "-0", "1", "-1", "00", "01", "1.0", "1e0", "1E2", "0.5", "15", "16", "63", "64", "127", "128", "255", "256", "65536",
          "18446744073709551615", "18446744073709551616", "1e400", "1e-400", '""', '"0"', '"-"', '"f"', '"zz"', '"FF"', '"device"', '"mount"', '"raise"', '"Device"', '"check"', '"none"',
          '"010101000000"', '"010100010000"', '"020102400000"', '"010100010000ff"', '"0101"', '"\\u0030\\u0031"', '"\\ud800"', '"\\ud83d\\ude00"', '"\\ude00"', '"\\x"', '"\\u12"', '"\t"', '"\x7f"', "[]", "[[]]", '[""]', '["010100010000"]', '["010100010000", 1]', "{}",
          '{"do":"none","sent":[]}', "nan", "Infinity", "'a'", "", "[1,]", "{,}", "tru", '"' + "a5" * 400 + '"', '"' + "a5" * 401 + '"']


# One of each type, and what no field has.
TYPES = ["null", "true", "0", '""', "[]", "{}", "18446744073709551616", '"zz"']


def searched(data):
    """The status and the text of a trace, and the search that found an order of it."""
    try:
        search = Watched(*traces.read(data))
    except traces.Bad as bad:
        return 1, f"{bad}\n", None
    return (*search.verdict(), search)


def verdict(data):
    return searched(data)[:2]


def judged(tried, data, note):
    status, text, search = searched(data)
    tried.count("bad traces" if text.startswith("bad") else "no runs" if status else "runs")
    tried.expect(["trace"], data, status, text.encode(), note)
    if tried.is_long or tried.passed % 5 == 0:
        told(tried, data, status, text, search, note)


def told(tried, data, status, text, search, note):
    """Of what is no trace `trace --turns` prints what `trace` does; else the turns of what can be taken, with the status of `trace`."""
    if search is None:
        tried.expect(["trace", "--turns"], data, status, text.encode(), ("turns", note))
        return
    got, out, trouble = tried.run(["trace", "--turns"], data)
    if not trouble:
        trouble = f"status {got}" if got != status else problem_in_turns(out, search)
    tried.mark(trouble, ("turns", note, data[:300]))


def try_each_byte(tried):
    for name, text in rows.TRACES.items():
        data = text.encode()
        for at in range(len(data)):
            if tried.is_long or name in ("run", "all kinds") and at % 3 == 0:
                judged(tried, data[:at], (name, "cut off"))
                judged(tried, data[:at] + data[at + 1:], (name, "a byte left out"))
            for byte in (0x00, 0x40, 0x80, 0xFF, 0x22, 0x5C, 0x31):
                if data[at] != byte and (tried.is_long or (at + byte) % 7 == 0):
                    judged(tried, data[:at] + bytes([byte]) + data[at + 1:], (name, "a byte replaced"))


def entries_of_all_kinds():
    entries = []
    for text in rows.TRACES.values():
        for history in json.loads(text)["histories"]:
            entries += history
    return list({json.dumps(one, sort_keys=True): one for one in entries}.values())


def written(pairs):
    return "{" + ",".join(f'"{key}":{value}' for key, value in pairs) + "}"


def try_fields(tried):
    """Behind an entry that is good, in the second history."""
    for one in entries_of_all_kinds():
        pairs = [(key, json.dumps(value)) for key, value in one.items()]
        named = [pairs[:at] + pairs[at + 1:] for at in range(len(pairs))]
        named += [pairs[:at] + [(pairs[at][0], value)] + pairs[at + 1:] for at in range(len(pairs)) for value in TYPES]
        others = [pairs[:at] + [(pairs[at][0], value)] + pairs[at + 1:] for at in range(len(pairs)) for value in VALUES]
        others += [pairs + [(pairs[at][0], value)] for at in range(len(pairs)) for value in VALUES[::9]]
        others += [pairs + [(key, value)] for key in ("fault", "priority", "kept", "strange") for value in VALUES[::1 if tried.is_long else 5]]
        for other in named + (others if tried.is_long else others[::3]):
            judged(tried, ('{"nodes":2,"histories":[[],[{"do":"none","sent":[]},' + written(other) + "]]}").encode(), "fields")


def try_whole(tried):
    entry = '{"do":"none","sent":[]}'
    for value in VALUES:
        judged(tried, value.encode(), "the whole")
        judged(tried, f'{{"nodes":{value},"histories":[[]]}}'.encode(), "nodes")
        judged(tried, f'{{"nodes":1,"histories":{value}}}'.encode(), "histories")
        judged(tried, f'{{"nodes":1,"histories":[{value}]}}'.encode(), "a history")
        judged(tried, f'{{"nodes":1,"histories":[[{entry},{value}]]}}'.encode(), "an entry")
        judged(tried, f'{{"nodes":1,"histories":[[{entry}]]}}{value}'.encode(), "behind the whole")
        judged(tried, f'{{"nodes":1,"histories":[[{entry}]],"more":{value}}}'.encode(), "more")
    for text in ('{"histories":[]}', '{"nodes":1}', '{"nodes":2,"histories":[[]]}', '{"nodes":1,"histories":[[],[]]}', '{"nodes":0,"histories":[]}', '{"nodes":128,"histories":[%s]}' % ",".join(["[]"] * 128),
                 '{"nodes":129,"histories":[%s]}' % ",".join(["[]"] * 129), '{"nodes":2,"histories":[[1],[2]]}', '{"nodes":2,"histories":[[],[1]],"nodes":1}', '{"nodes":2,"histories":[[1],{}]}',
                 ' \t\r\n{"nodes":1,"histories":[[]]} \t\r\n', '\ufeff{"nodes":1,"histories":[[]]}', '{"nodes":1,"histories":[[]]}\0', '{"nodes":1,"histories":[[]]}\f',
                 '{"n\\u006fdes":1,"histories":[[]]}', '{"nodes":1,"histories":[[]],}', '{"nodes":1 "histories":[[]]}', '{nodes:1,"histories":[[]]}'):
        judged(tried, text.encode(), "shapes")
    judged(tried, b'{"nodes":1,"histories":[[]],"a":"\xff"}', "not UTF-8")
    judged(tried, b'{"nodes":1,"histories":[[]],"\xc3\x28":1}', "not UTF-8")
    judged(tried, b'{"nodes":1,"histories":[[]],"a":"\xed\xa0\x80"}', "not UTF-8")
    judged(tried, b'{"nodes":1,"histories":[[]],"a":"\xc0\x80"}', "not UTF-8")
    judged(tried, b'{"nodes":1,"histories":[[]],"a":"\xf4\x90\x80\x80"}', "not UTF-8")


def try_depths(tried):
    """The outermost object is the first of 127 levels."""
    for depth in (1, 2, 125, 126, 127, 128, 129, 1000, 100_000):
        for begin, end in (("[", "]"), ('{"a":', "}"), ('[{"a":', "}]")):
            times = depth // (2 if begin == '[{"a":' else 1)
            nest = begin * times + "0" + end * times
            judged(tried, f'{{"nodes":1,"histories":[[]],"a":{nest}}}'.encode(), ("depth", depth))
            judged(tried, f'{{"nodes":1,"histories":[[{{"do":"none","sent":[],"a":{nest}}}]]}}'.encode(), ("depth in an entry", depth))
            judged(tried, f'{{"nodes":1,"histories":[[]],"a":{begin * times}'.encode(), ("depth that isn't closed", depth))


def try_many(tried):
    """More entries than a history of a node has."""
    one = '{"do":"none","sent":[]}'
    for many, text in ((65_537, one), (65_537, '{"do":"check","sent":[]}')):
        data = ('{"nodes":1,"histories":[[' + ",".join([text] * many) + "]]}").encode()
        tried.expect(["trace"], data, 0, b"Run" + b" 0" * many + b"\n", f"{many} entries")
    data = ('{"nodes":1,"histories":[[' + ",".join([one] * 65_536) + ",1]]}").encode()
    tried.expect(["trace"], data, 1, b"bad trace 0 65536\n", "the last of 65,537 is bad")
    sent = ",".join(['"010100010000"'] * 65_537)
    tried.expect(["trace"], f'{{"nodes":2,"histories":[[{{"do":"check","sent":[{sent}]}}],[]]}}'.encode(), 1, b"NotARun 0 0\n", "65,537 messages sent")


def try_traces(tried):
    for name, text in rows.TRACES.items():
        judged(tried, text.encode(), name)
    try_each_byte(tried)
    try_fields(tried)
    try_whole(tried)
    try_depths(tried)
    try_many(tried)
