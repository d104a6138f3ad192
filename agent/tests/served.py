"""Records that agents serve over HTTP, and `dumgerokctl judge --follow` of them: agents that go and come back, and nodes that go wrong."""
import concurrent.futures, os, re, shlex, sys, time

from cluster import page
from followed import ended, follow, number
from wrong_node import WAYS

HERE = os.path.dirname(os.path.abspath(__file__))


def urls(agents):
    return ["http://127.0.0.1:%d" % port for port in agents.http]


def gone_wrong(bed, agents, i, way):
    """The program of an agent whose node goes wrong so, once the file is there that is named behind it."""
    path, file = os.path.join(agents.folder, "%d.wrong" % i), os.path.join(agents.folder, "%d.now" % i)
    with open(path, "w") as script:
        script.write("#!/bin/sh\nexec %s \"$@\"\n" % shlex.join([sys.executable, os.path.join(HERE, "wrong_node.py"), bed.program, file, way]))
    os.chmod(path, 0o755)
    return path, file


def named_wrong(bed, way, late):
    """Three agents, of which each has a node that goes wrong in the same way; the first that does is named."""
    agents, check = bed.agents(re.sub(r"\W", "-", way), http_record=True), bed.tally.check
    files = []
    for i in range(3):
        program, file = gone_wrong(bed, agents, i, way)
        agents.write(i, program=program)
        files.append(file)
        agents.start(i)
    agents.one_group()
    following = follow(bed, urls(agents))
    time.sleep(5)
    check("%s: no alarm before" % way, following.poll() is None, following.poll() is not None and following.communicate())
    # the coordinator alone answers its members, and looks for others
    lead = agents.status(0)["coordinator"]
    own = lead if re.search("member|yes$|^another|looked", way) else (lead + 1) % 3
    open(files[own], "w").close()
    agents.until(lambda: not os.path.exists(files[own]))
    begin = time.monotonic()
    out, errors, end = ended(following)
    said = re.match(r"alarm: look first at node (\d), entry \d+, which ends in (http://127.0.0.1:\d+/record/1), line (\d+)\n", out)
    check("%s: an alarm, and status 1" % way, following.returncode == 1 and said, (following.returncode, out, errors[-300:]))
    check("%s: the node and its record are named" % way, said and (int(said[1]), said[2]) == (own, urls(agents)[own] + "/record/1"), (own, out, errors[-300:]))
    bed.tally.timed("%s: within %d s" % (way, late), end - begin < late, end - begin)
    bed.tally.note("%s: an alarm after %.2f s" % (way, end - begin))
    agents.stop()


def served(bed):
    agents, check, metrics = bed.agents("served", http_record=True, loss=0.02, delay=(0.001, 0.006)), bed.tally.check, os.path.join(bed.folder, "judge.prom")
    agents.write(2, http_record=False)
    agents.start_all()
    agents.one_group()
    check("a record isn't served where no setting says so", page(agents, 2, "/record")[0] == 404 and page(agents, 2, "/record/1/0")[0] == 404)
    refused = agents.ctl(0, "judge", "--follow", "--program", agents.program, *urls(agents))
    check("and who follows is told", refused.returncode == 2 and "http_record" in refused.stderr, refused)
    agents.kill(2)
    agents.write(2)
    agents.start(2)
    agents.one_group()
    text = page(agents, 0, "/record/1/0")[1]
    with open(agents.path(0, "record.1")) as file:
        check("a record is served as it stands in its file", len(text) > 1000 and file.read().startswith(text.rsplit("\n", 1)[0]), text[:100])
    right = follow(bed, urls(agents), "--metrics", metrics)
    agents.until(lambda: (number(metrics, "entries") or 0) > 50)
    lead = agents.status(0)["coordinator"]
    agents.kill(lead)
    others = [i for i in range(3) if i != lead]
    agents.one_group(others)
    check("an agent that is away is told of", agents.until(lambda: number(metrics, "unheard_agents") == 1) >= 0)
    time.sleep(3)
    check("and no alarm", right.poll() is None and number(metrics, "alarm") == 0, (right.poll(), open(metrics).read()))
    agents.start(lead)
    agents.one_group()
    agents.ask(lead, do="submit", queue=1, text="served")
    agents.until(lambda: number(metrics, "unheard_agents") == 0)
    entries = number(metrics, "entries")
    agents.until(lambda: number(metrics, "entries") > entries + 20)
    check("once it is back all goes on", right.poll() is None and number(metrics, "alarm") == 0, right.poll() is not None and right.communicate())
    check("and what repeats is forgotten", agents.until(lambda: number(metrics, "forgotten_entries") > 0) >= 0)
    right.kill()
    right.communicate()
    agents.stop()
    named_wrong(bed, "no for yes", 2)


def wrong_nodes(bed):
    with concurrent.futures.ThreadPoolExecutor(2) as pool:
        list(pool.map(lambda way: named_wrong(bed, way, 10), WAYS))
