"""Plans: every line of their grammar, spoiled word by word; what can be read is run, and its trace judged."""
from grammar import bad_in_plans, is_turn
from lines_tried import at_most, long_lines, spoiled, without_doubles
from recorded import problem_in_threads

NODES = 3
TURNS = """0 intake 1;2 intake 0;1 clock check;0 clock merge;2 clock accept;1 clock ready;0 clock coord;2 clock dispatch;2 operator submit 3 6869;2 operator submit 3 6869 7
0 operator finish 0 0;1 operator arm 5;1 operator crash;1 operator crash a5;2 operator recover""".replace("\n", ";").split(";")
HEAD = b"cluster 3 4\nlinks 2\n"


def judged(tried, fed, note):
    """The plans are run: the trace has each worker's turns in their order, and is that of a run, also as the program judges it."""
    status, out, trouble = tried.run(["threads", "--order"], fed)
    if not trouble:
        turns = [line.decode().split(" ") for line in fed.split(b"\n")[2:] if line]
        trouble = f"status {status}, it prints {out[-200:]!r}" if status != 0 else problem_in_threads(out, NODES, turns)
    if tried.mark(trouble, (note, fed[:300])):
        _, verdict, trouble = tried.run(["trace"], out)
        tried.mark(trouble or ("" if verdict.startswith(b"Run ") else verdict[:100]), (note, fed[:300]))


def refused(tried, fed, note):
    """The line that can't be read is named."""
    tried.expect(["threads"], fed, 1, b"bad line %d\n" % bad_in_plans(fed), note)


def try_plans(tried):
    every = without_doubles([line for text in TURNS for line in spoiled(text)])
    good = [line for line in every if is_turn(line, NODES)]
    bad = [line for line in every if line and not is_turn(line, NODES)]
    for round in range(4 if tried.is_long else 1):
        judged(tried, HEAD + b"\n".join(good[round:] + good[:round]), "all lines that can be read")
    for line in at_most(bad, tried, 250) + [line for text in TURNS[-2:] for line in long_lines(text)]:
        refused(tried, b"\ncluster 3 4\n\nlinks 2\n0 clock check\n\n" + line + b"\nzz\n", "plans")
    # a node outside of the cluster, and an intake from itself or from outside of it
    for line in (b"3 clock check", b"127 operator recover", b"3 intake 0", b"0 intake 0", b"2 intake 2", b"0 intake 3", b"0 intake 127"):
        tried.expect(["threads"], HEAD + line, 1, b"bad line 3\n", "no worker")
    tried.expect(["threads"], b"cluster 3 4\nlinks 0\n0 clock check\n", 1, b"bad line 2\n", "links of no room")
    for text in ("cluster 3 4", "links 2"):
        for line in at_most(without_doubles(list(spoiled(text))), tried, 60):
            fed = line + b"\nlinks 2\n" if text != "links 2" else b"cluster 3 4\n" + line + b"\n"
            if bad_in_plans(fed) is not None:
                refused(tried, fed, text)
    for fed in (b"", b"\n", b"\n\n", b"cluster 1 4", b"cluster 1 4\n\n", b"links 1\n", b"cluster 1 4\ncluster 1 4\n", b"\xff", b"\0", b"cluster 1 4\nlinks 65537\n"):
        refused(tried, fed, "heads")
    tried.expect(["threads"], b"cluster 128 4\nlinks 1\n", 0, b'{"histories":[' + b",".join([b"[]"] * 128) + b'],"nodes":128}\n', "no turns")
    tried.expect(["threads"], b"cluster 2 4\nlinks 1\n" + b"1 clock accept\n" * 65_537, 1, b"unfinished 1 clock\n", "65,537 turns")
