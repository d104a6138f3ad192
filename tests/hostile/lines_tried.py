"""Every line of the grammars of `sim`, `store`, `node` and `format`, spoiled word by word."""
import os, re, tempfile
from grammar import NODE, SIM, STORE, TIMERS, bad_in_pieces, bad_in_schedule, bad_in_store, is_number, is_read

OF_SIM = [f"{timer} 0" for timer in TIMERS] + """deliver 0;lose 0;cut 0 1;mend 0 1;submit 0 3 6869;submit 0 3 6869 7;finish 0 0 0
arm 0 5;crash 0;crash 0 a5;recover 0;compact 0""".replace("\n", ";").split(";")
OF_STORE = "format 4;mount;raise;put 1 6869;put 1 6869 7;done 0;compact;list".split(";")
OF_NODE = """recover;deliver 010101000000;tick 5;lost 1;submit 3 6869;submit 3 6869 7;finish 0 0;compact;state;jobs""".split(";") + list(TIMERS)
LONG = 1 << 20
WORDS = [b"", b"0", b"00", b"01", b"007", b"+1", b"-1", b"-0", b"1.0", b"1e0", b"0x1", b"127", b"128", b"255", b"256", b"15", b"16", b"4", b"4096", b"4097", b"3",
         b"18446744073709551615", b"18446744073709551616", b"99999999999999999999", b"340282366920938463463374607431768211457", b"-", b"--", b"f", b"FF", b"fF", b"zz",
         b"a5" * 400, b"a5" * 401, b"a", b"010101000000", b"010101000000" * 2, b"\xc3\xa9", b"\xff", b"\0", b"1\0", "\u0661".encode(), b"1_0", b"nan", b"true"]


def without_doubles(lines):
    return list(dict.fromkeys(lines))


def spoiled(text):
    """The line with each word spoiled, and with the whole spoiled."""
    line = text.encode()
    words = line.split(b" ")
    join = b" ".join
    for at, word in enumerate(words):
        yield join(words[:at] + words[at + 1:])
        yield join(words[:at] + [word, word] + words[at + 1:])
        for other in WORDS + [word.upper(), word.title(), word + b"s", word[:-1], b"0" + word, word + b"\t", b"\t" + word, word + b"\r"]:
            yield join(words[:at] + [other] + words[at + 1:])
    yield from (b" " + line, line + b" ", line.replace(b" ", b"  "), line.replace(b" ", b"\t"), line.replace(b" ", b"\xc2\xa0"), line + b"\r", line + b"\0")
    yield from (line + b" 0", line + b" -", line + b" 7", line + b" 7 7", line + b" #", b"\xef\xbb\xbf" + line, b"\0" + line, b" ", b"\t", b"\r", b"\0", b"\xff\xfe", b"#")


def long_lines(text):
    """Lines of a megabyte."""
    line = text.encode()
    yield from (line + b" " * LONG, line + b" " + b"a5" * (LONG // 2), line + b" " + b"9" * LONG, line * (LONG // len(line)), b"\0" * LONG)


def all_spoiled(texts, tried):
    every = [line for text in texts for line in spoiled(text)]
    longs = [line for text in (texts if tried.is_long else texts[-2:]) for line in long_lines(text)]
    return without_doubles(every), longs


def at_most(lines, tried, most):
    """All lines in the long form, else those that can be read and about so many of the others, spread over all."""
    if tried.is_long or len(lines) <= most:
        return lines
    return lines[::len(lines) // most]


def named(tried, words, fed, bad, ends=b"", note=""):
    """The line that can't be read is named; where there is none, all is done."""
    if bad is not None:
        return tried.expect(words, fed, 1, b"bad line %d\n" % bad, note)
    status, out, trouble = tried.run(words, fed)
    if not trouble and (status != 0 or out.startswith((b"bad", b"no memory")) or not out.endswith(ends)):
        trouble = f"status {status}, it prints {out[-200:]!r}"
    return tried.mark(trouble, (note, words, fed[:300]))


def try_sim(tried):
    every, longs = all_spoiled(OF_SIM, tried)
    good = [line for line in every if is_read(line, SIM)]
    bad = [line for line in every if line and not is_read(line, SIM)]
    # what can be read is read all at once, and each line that can't by itself
    named(tried, ["sim"], b"cluster 3 4\n" + b"\n".join(good), None, note="all lines that can be read")
    for line in at_most(bad, tried, 250) + longs:
        fed = b"\ncluster 3 4\ncheck 0\n\n" + line + b"\nzz\n"
        named(tried, ["sim"], fed, bad_in_schedule(fed), note="sim")
    for line in at_most(bad, tried, 50) if not tried.is_long else bad[::10]:
        fed = b"\ncluster 3 4\ncheck 0\n\n" + line + b"\nzz\n"
        named(tried, ["record"], fed, bad_in_schedule(fed), note="record")
    for line in at_most(without_doubles(list(spoiled("cluster 3 4"))), tried, 60):
        for fed in (line, b"\n" + line + b"\ncheck 0\n"):
            named(tried, ["sim"], fed, bad_in_schedule(fed), note="cluster")
    for fed in (b"", b"\n", b"\n\n", b"cluster 1 4\ncluster 1 4\n", b"cluster 128 4096", b"check 0\n", b"\xff", b"\0"):
        named(tried, ["sim"], fed, bad_in_schedule(fed), note="heads")
    for acts in (65_536, 65_537):
        fed = b"cluster 1 4\n\n" + b"check 0\n" * acts
        named(tried, ["sim"], fed, bad_in_schedule(fed), note=f"{acts} acts")


def try_strange(tried):
    """What names no node of the cluster and no message is refused, and nothing is changed by it."""
    lines = [f"{word} {node}" for word in (*TIMERS, "recover", "compact", "crash") for node in (2, 64, 127)]
    lines += ["submit 2 0 61", "finish 2 0 0", "arm 2 0", "crash 2 a5", "cut 0 2", "cut 2 0", "mend 0 127", "mend 127 0"]
    text = "".join(f"{at} refused Stranger\n" for at in range(len(lines)))
    more = ["deliver 0", "lose 0", "deliver 18446744073709551615", "lose 18446744073709551615", "finish 0 127 0", "finish 0 0 18446744073709551615", "cut 1 1", "mend 0 0"]
    answers = ["refused NoSuch"] * 4 + ["refused UnknownJob"] * 2 + ["ok", "ok"]
    text += "".join(f"{at} {answer}\n" for at, answer in enumerate(answers, len(lines)))
    text += "".join(f"node {n} Normal coord {n} group {n}:1 up - members {n} count 1 pending - hand -\n" for n in (0, 1))
    tried.expect(["sim"], "\n".join(["cluster 2 4", *lines, *more]).encode(), 0, text.encode(), "strangers")
    # a node cut from itself is cut from nobody
    text = "0 ok 0:010100010000\n1 ok\n2 ok 1:01020100000101\n"
    text += "".join(f"node {n} Normal coord {n} group {n}:1 up - members {n} count 1 pending - hand -\n" for n in (0, 1))
    tried.expect(["sim"], b"cluster 2 4\ncheck 0\ncut 1 1\ndeliver 0\n", 0, text.encode(), "cut from itself")


def try_pieces(tried):
    for command in (["show"], ["answer", "0", "3"]):
        for line in at_most(without_doubles(list(spoiled("010101000000"))), tried, 30) + list(long_lines("0101")):
            fed = b"-\n\n" + line + b"\nzz"
            tried.expect(command, fed, 1, b"bad line %d\n" % bad_in_pieces(fed), "pieces")


def try_store(tried, folder):
    every, longs = all_spoiled(OF_STORE, tried)
    path = os.path.join(folder, "store")
    good = [line for line in every if is_read(line, STORE)]
    named(tried, ["store", path], b"\n".join(good), None, note="all lines that can be read")
    os.remove(path)
    bad = [line for line in every if line and not is_read(line, STORE)]
    for line in at_most(bad, tried, 150) + longs:
        fed = b"format 4\n\n" + line + b"\nzz\n"
        if named(tried, ["store", path], fed, bad_in_store(fed), note="store"):
            tried.mark("the file was made" if os.path.exists(path) else "", ("store", line[:300]))


def try_node(tried, folder):
    """One node is fed all lines: each that can't be read is named, and it serves on."""
    every, longs = all_spoiled(OF_NODE, tried)
    lines = [line for line in every + longs if line and b"\n" not in line]
    path = os.path.join(folder, "node")
    for first in (b"state", b"recover"):
        if os.path.exists(path):
            os.remove(path)
        tried.run(["format", path, "64", "0", "3"], b"")
        fed = b"\n\n".join([first, *lines]) + b"\nstate\nrecover"
        status, out, trouble = tried.run(["node", path, "0", "3"], fed)
        closing = [line for line in out.split(b"\n") if re.match(rb"(ok|bad|refused|fault) ", line)]
        requests = [first, *lines, b"state"]
        if not trouble and (status != 0 or len(closing) != len(requests)):
            trouble = f"status {status}, {len(closing)} closing lines of {len(requests)}, the last {out[-100:]!r}"
        if tried.mark(trouble, "node"):
            for at, (line, close) in enumerate(zip(requests, closing), 1):
                read = is_read(line, NODE)
                word = close.split(b" ")[0]
                right = close.split(b" ")[1:2] == [b"%d" % at] and (word in (b"ok", b"refused") if read else close == b"bad %d" % at)
                tried.mark("" if right else f"it answers {close!r}, and the line can{'' if read else 'not'} be read", ("node", line[:300]))


def grows(tried, path, what, small, great, most):
    """A node takes at most so many times as long of a processor for an input four times as great. Where it takes longer it is measured again, twice."""
    children = lambda: sum(os.times()[2:4])
    for again in range(3):
        took = []
        for lines, text in (small, great):
            if os.path.exists(path):
                os.remove(path)
            tried.run(["format", path, "4096", "0", "3"], b"")
            begun = children()
            status, out, trouble = tried.run(["node", path, "0", "3"], lines, seconds=120)
            tried.mark(trouble or ("" if status == 0 and out.endswith(text) else f"status {status}, it ends with {out[-100:]!r}"), what)
            took.append(children() - begun)
        if took[1] <= most * took[0]:
            break
        if again < 2:
            print(f"played again: {what}")
    tried.mark("" if took[1] <= most * took[0] else f"{took[0]:.2f} s of a processor, and four times as much {took[1]:.2f} s", what)


def try_growth(tried, folder):
    """Lines without an end, and jobs in hand: the time grows as the line does, and for each request at most as the jobs do."""
    path = os.path.join(folder, "growth")
    line = lambda megabytes: (b"state\n" + b"a" * (megabytes << 20) + b"\nstate\n", b"bad 2\nstate Down\nok 3\n")
    grows(tried, path, "a line of 6 MB to a node", line(6), line(24), 8)
    jobs = lambda many: (b"recover\n" + b"submit 0 61\n" * many, b"ok %d id %d\n" % (many + 1, many - 1))
    grows(tried, path, "500 jobs that a node takes in hand", jobs(500), jobs(2000), 12)


def try_format(tried, folder):
    """The words of a command line: what isn't a number in its range ends with status 2, and makes no file."""
    path = os.path.join(folder, "made")
    right = ["8", "1", "3", "7"]
    # `--` by itself ends the options of a command line and is no word of it
    words = [word.decode() for word in WORDS if b"\0" not in word and b"\xff" not in word and len(word) < 100 and word != b"--"]
    most = [(4096, 4), None, None, (2**64 - 1, 0)]
    for at in range(4):
        for word in words:
            given = right[:at] + [word] + right[at + 1:]
            as_bytes = [text.encode() for text in given]
            fits = is_number(as_bytes[0], 4096, 4) and is_number(as_bytes[3]) and is_number(as_bytes[2], 128, 1) and is_number(as_bytes[1], 127) and int(given[1]) < int(given[2])
            status, out, trouble = tried.run(["format", path, *given], b"unread")
            if not trouble and status != (0 if fits else 2):
                trouble = f"status {status}"
            if not trouble and os.path.exists(path) != fits:
                trouble = "the file is made, or isn't"
            tried.mark(trouble, given)
            if os.path.exists(path):
                os.remove(path)
    for given in ([], right[:1], right[:2], right + ["0"]):
        status, out, trouble = tried.run(["format", path, *given], b"")
        tried.mark(trouble or ("" if status == 2 and not os.path.exists(path) else f"status {status}"), given)


def try_lines(tried):
    with tempfile.TemporaryDirectory() as folder:
        try_sim(tried)
        try_strange(tried)
        try_pieces(tried)
        try_store(tried, folder)
        try_node(tried, folder)
        if tried.is_long:
            try_growth(tried, folder)
        try_format(tried, folder)
