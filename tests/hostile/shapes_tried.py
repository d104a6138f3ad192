"""Traces of a megabyte each, in shapes that are hard on a reader or on a checker: each is judged within a second of the processor, and rightly. What a
text that is no run must print was worked out by hand; a run's order is that of the least node that can."""
import os, random, resource, sys
from program import SECONDS

sys.path.append(os.path.join(os.path.dirname(os.path.abspath(__file__)), "../traces"))
from trace_growth import Cluster, backlog, drain, elections, last_first, once, outwards, redispatch

SIZE = 1_000_000
MOST = 1.0
NONE = '{"do":"none","sent":[]}'
EMPTY = '{"nodes":1,"histories":[[]],"x":%s}'
RUN = b"Run\n"


def filled(part, between=",", size=SIZE):
    """So many of this part that they take a megabyte."""
    return between.join([part] * (size // len(part + between)))


def one_node(entries):
    return f'{{"nodes":1,"histories":[[{entries}]]}}'


def many(part, size=SIZE):
    """The entries of one node, and the run of them."""
    count = size // (len(part) + 1)
    return one_node(",".join([part] * count)), b"Run" + b" 0" * count + b"\n"


def unnamed(value, printed=RUN):
    """A value under a key that isn't named."""
    return EMPTY % value, printed


def dispatched(put):
    """Jobs of all priorities, each taken in hand at once, and as many dispatches, which find all in hand."""
    dispatch = '{"do":"dispatch","sent":[]}'
    submits = [f'{{"do":"submit","payload":"","priority":{job % 255 + 1},"queue":0,"sent":[]}}' for job in range(SIZE // 95)]
    entries = put(submits, dispatch)
    return one_node(",".join(entries)), b"Run" + b" 0" * len(entries) + b"\n"


def texts():
    """What the JSON is written as: each with what it must print."""
    bad = b"bad trace\n"
    digits = "1" * (SIZE // 2)
    nest = "[" * 120 + "]" * 120
    keyed = ",".join(f'"{number:x}":{number}' for number in range(SIZE // 13))
    return {
        "levels of lists": unnamed("[" * (SIZE // 2) + "]" * (SIZE // 2), bad),
        "levels of objects": unnamed('{"a":' * (SIZE // 6) + "0" + "}" * (SIZE // 6), bad),
        "levels that aren't closed": ("[" * SIZE, bad),
        "many lists of the most levels": unnamed(f"[{filled(nest)}]"),
        "one string": unnamed('"' + "a" * SIZE + '"'),
        "one string of escapes": unnamed('"' + "\\u0061" * (SIZE // 6) + '"'),
        "one string of pairs of surrogates": unnamed('"' + "\\ud83d\\ude00" * (SIZE // 12) + '"'),
        "one string of backslashes": unnamed('"' + "\\\\" * (SIZE // 2) + '"'),
        "one string of long letters": unnamed('"' + "\U0001f600" * (SIZE // 4) + '"'),
        "a string that isn't closed": ('{"nodes":1,"histories":[[]],"x":"' + "\\\\" * (SIZE // 2), bad),
        "a half of a surrogate at the end": unnamed('"' + "a" * SIZE + '\\ud83d"', bad),
        "one number that is too great": unnamed(digits, bad),
        "one number of many places": unnamed("0." + digits),
        "one number of a small power": unnamed(f"1e-{digits}"),
        "many numbers": unnamed(f"[{filled('1')}]"),
        "many broken numbers": unnamed(f"[{filled('1.5e-300')}]"),
        "space": (" " * (SIZE // 2) + '{"nodes":1,' + "\n" * (SIZE // 2) + '"histories":[[]]}', RUN),
        "many empty strings": unnamed(f'[{filled(chr(34) * 2)}]'),
        "many empty objects": unnamed(f"[{filled('{}')}]"),
        "many keys": unnamed("{" + keyed + "}"),
        "one key again and again": unnamed("{" + filled('"a":0') + "}"),
        "nodes again and again": ("{" + filled('"nodes":1') + ',"histories":[[]]}', RUN),
        "histories again and again": ('{"nodes":1,' + filled('"histories":[[]]') + "}", RUN),
        "histories that are replaced": ('{"nodes":1,"histories":[[' + filled(NONE) + ']],"histories":[[]]}', RUN),
        "a key with an escape": ('{"n\\u006fdes":1,"histories":[[]],"x":[' + filled('"\\u0061"') + "]}", RUN),
        "more behind the whole": (EMPTY % 0 + " " * SIZE + "1", bad),
        "cut off": (many(NONE)[0][:SIZE - 100], bad),
        "an entry with many keys": (one_node(f'{{"do":"none","sent":[],{keyed}}}'), b"Run 0\n"),
        "an entry that is said again and again": (one_node("{" + filled('"do":"what"') + ',"do":"none","sent":[]}'), b"Run 0\n"),
        "sent again and again": (one_node('{"do":"none",' + filled('"sent":["010100010000"]') + ',"sent":[]}'), b"Run 0\n"),
        "the last entry is bad": (one_node(filled(NONE) + ",1"), f"bad trace 0 {SIZE // 24}\n".encode()),
        "each entry is bad": (one_node(filled("{}")), b"bad trace 0 0\n"),
        "entries with escapes": many('{"do":"ch\\u0065ck","sent":[]}'),
        "entries that are nothing": many(NONE),
        "dispatches of many jobs": dispatched(lambda submits, dispatch: submits + [dispatch] * len(submits)),
        "a dispatch after each job": dispatched(lambda submits, dispatch: [part for submit in submits for part in (submit, dispatch)]),
        "payloads": many('{"do":"submit","payload":"' + "5A" * 400 + '","queue":0,"sent":[]}'),
    }


def stuck():
    """Entries that can't come, or wait for ever."""
    question = '"010100010000"'
    waits = '{"do":"deliver","msg":"01020100000101","sent":[]}'
    circle = [f'[{{"do":"deliver","msg":"0102{(own + 1) % 64:02x}{own:02x}000101","sent":[]}},{filled(NONE, size=SIZE // 64)}]' for own in range(64)]
    return {
        "one entry sent all": (f'{{"nodes":2,"histories":[[{{"do":"check","sent":[{filled(question)}]}}],[]]}}', b"NotARun 0 0\n"),
        "the first entry waits": (f'{{"nodes":2,"histories":[[{waits},{filled(NONE)}],[]]}}', b"NotARun 0 0\n"),
        "all wait": (f'{{"nodes":64,"histories":[{",".join(circle)}]}}', b"NotARun 0 0\n"),
    }


def in_order(order):
    """Jobs that are finished in another order."""
    return drain(lambda jobs: order(list(jobs)))


def shuffled(jobs):
    random.Random(1).shuffle(jobs)
    return jobs


def sent_by_priority(entries):
    """Jobs of all priorities come to another node, the greatest first."""
    cluster = Cluster(2)
    cluster.gather(0)
    for job in range(entries // 2):
        cluster.submit(0, 1, job % 256)
    cluster.bring(cluster.do(0, "dispatch"))
    return cluster


def broken(entries):
    """A node crashes and recovers."""
    cluster = Cluster(1)
    while cluster.entries < entries:
        cluster.do(0, "crash")
        cluster.do(0, "recover", ',"kept":false')
    return cluster


# How many entries take some megabyte.
RUNS = {
    "jobs finished oldest first": (in_order(list), 18_000),
    "jobs finished newest first": (in_order(lambda jobs: jobs[::-1]), 18_000),
    "jobs finished from the middle": (in_order(outwards), 18_000),
    "jobs finished in any order": (in_order(shuffled), 18_000),
    "jobs taken in hand again and again": (redispatch, 20_000),
    "a backlog": (backlog, 16_000),
    "a job over elections": (elections, 15_000),
    "jobs sent by priority": (sent_by_priority, 9_000),
    "one message": (once, 14_000),
    "the last node first": (last_first, 14_000),
    "a node that crashes": (broken, 28_000),
}


def judged(tried, name, data, printed):
    """The least time of three runs counts, of those that are needed."""
    least = None
    for _ in range(3):
        before = resource.getrusage(resource.RUSAGE_CHILDREN)
        status, out, trouble = tried.run(["trace"], data, seconds=SECONDS)
        after = resource.getrusage(resource.RUSAGE_CHILDREN)
        took = after.ru_utime + after.ru_stime - before.ru_utime - before.ru_stime
        least = took if least is None else min(least, took)
        if trouble or least <= MOST:
            break
    is_run = printed.startswith(b"Run")
    if not trouble and (status == 0) != is_run:
        trouble = f"status {status}"
    if not trouble and not (out == printed or printed == b"Run .." and out.startswith(b"Run ")):
        trouble = f"it prints {out[-200:]!r} in place of {printed[-200:]!r}"
    if not trouble and least > MOST:
        trouble = f"it takes {least:.2f} s of the processor for {len(data)} bytes"
    if tried.is_long:
        print(f"{least:.3f} s, {len(data)} bytes: {name}")
    tried.mark(trouble, name)


def try_shapes(tried):
    for name, (text, printed) in {**texts(), **stuck()}.items():
        judged(tried, name, text.encode(), printed)
    for name, (made, entries) in RUNS.items():
        judged(tried, name, made(entries).text().encode(), b"Run ..")
