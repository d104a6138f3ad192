"""The page of a trace in a browser: what is said of entries, what is found, what stands in the picture, and how long 100,000 entries take."""
import html, json, re, shutil, subprocess, tempfile

QUESTION, ANSWER = "010100010000", "01020100000101"
ASKS, ASKED = {"do": "check", "sent": [QUESTION]}, {"do": "deliver", "msg": QUESTION, "sent": [ANSWER]}

# 100,000 entries are painted in so many milliseconds, by the quickest of some paintings: others run on the same machine.
ENTRIES, MOST_MS = 100000, 100

# What is done on the page of a trace, and what has to stand in the text under it then. Where it begins with = it is what has the value behind it.
PAGED = {"nodes": 2, "histories": [[ASKS, {"do": "recover", "kept": False, "sent": []}], [ASKED, {"do": "crash", "sent": []}]], "order": "0 - 1 0 1 - 0 -"}
ON_PAGES = [
    ("find('turn 1')", "turn 1: node 1, entry 0: deliver"),
    ("find('node 0 entry 1')", "turn 3: node 0, entry 1: recover"),
    ("find('1,1')", "turn 2: node 1, entry 1: crash"),
    # from here on, so the delivery; it names its sender, and has its digits
    ("find('" + QUESTION.upper() + "')", "sent by turn 0, entry 0 of node 0"),
    ("find('areyou')", "0 to 1: AreYouCoordinator; its bytes: " + QUESTION),
    ("find('01')", "turn 1: "),
    # the number of a group is found where a node enters it
    ("find('0:2')", "then it is Normal in group 0:2, coordinator 0, members 0"),
    ("find('crash')", "then it is down"),
    ("find('0:22')", "nothing is found for 0:22"),
    ("find('turn 4')", "nothing is found for turn 4"),
    ("KEYS['n']()", "turn 3: "),
    ("KEYS['p']()", "turn 2: "),
    ("find('turn 1'); KEYS['n'](); KEYS['0']()", "turn 2: "),
    # what it sent, where that came, and what came of its own
    ("find('turn 0')", "sent 0 to 1: AreYouCoordinator: turn 1"),
    ("KEYS.d()", "turn 1: "),
    ("told.querySelector('button').click()", "turn 0: "),
    ("find('turn 1')", "sent 1 to 0: Coordinator yes: no turn was brought it"),
    ("find('turn 3')", "before it is Normal in group 0:1, coordinator 0, members 0\nthen it is Normal in group 0:2"),
    ("find('turn 2')", "before it is Normal in group 1:1, coordinator 1, members 1\nthen it is down"),
    ("find('turn 0'); KEYS.r()", "turn 2: node 1, entry 1: crash"),
    ("KEYS[',']()", "turn 1: node 1, entry 0"),
    ("KEYS['.']()", "turn 2: "),
    ("find('turn 1')", "1 entries are in its past, 1 in its future, and 1 in neither"),
    ("find('turn 0')", "0 entries are in its past, 3 in its future, and 0 in neither"), ("find('turn 1')", "turn 1: "),
    ("KEYS.c()", "="), ("cones", '={"past":[1,1],"future":[2,0]}'),
    ("KEYS.Escape()", ""), ("[chosen, cones]", "=[-1,null]"),
]

# A node asks all, all join it, one works on a job of it, and one crashes and comes back; the check and the crash have times.
NODES = 20
RUN = [
    "cluster 20 8", "check 0", *[f"deliver {number}" for number in range(38)], "merge 0", *[f"deliver {number}" for number in range(38, 76)], "accept 0",
    *[f"deliver {number}" for number in range(76, 114)], "submit 0 3 6869 7", "deliver 114", "finish 3 0 0", "deliver 115", "crash 5", "recover 5", "submit 0 4 -",
]
WRITTEN = "const written = []; const old = pen.fillText; pen.fillText = function (text, x, y) { written.push([String(text), parseInt(/(\\d+)px/.exec(pen.font)[1]), x, y]); old.call(pen, text, x, y); }"
ON_TWENTY = [
    (WRITTEN, "="),
    # each group's number can be read where all are in view, and each kind
    ("first = -1; step = 26; written.length = 0; draw(); [...Array(20).keys()].filter(node => !written.some(([text, size]) => text === `${node}:1` && size >= 9))", "=[]"),
    ("written.filter(([text, size, x, y]) => text === 'AreYouCoordinator' && size >= 9).length > 15", "=true"),
    ("first = 150; show(); written.length = 0; draw(); [/^(Work|W)\\b/, /^(Done|D)\\b/, /^(submit|sub)\\b/].filter(name => !written.some(([text]) => name.test(text))).map(String)", "=[]"),
    ("written.filter(([text]) => /^(ReadyAck|RdyAck|RA)$/.test(text)).length > 0", "=true"),
    # no two words of one row overlap
    ("const rows = {}; "
     "written.filter(([text, , x, y], place) => x > size.margin && written.findIndex(other => other[0] === text && other[2] === x && other[3] === y) === place)"
     ".forEach(([text, px, x, y]) => (rows[y] ??= []).push([x, x + width(text, `${px - 1}px sans-serif`), text])); "
     "Object.values(rows).flatMap(row => row.sort((a, b) => a[0] - b[0]).filter((word, place) => place && row[place - 1][1] > word[0] + 3))", "=[]"),
    # rows grow about their middle, and all are in view again with the whole run
    ("const before = size.row; KEYS[']'](); size.row > before", "=true"),
    ("KEYS['0'](); [size.row * nodes <= size.rows + 8, inView()[1] === turns.length]", "=[true,true]"),
    # a job, from its submission to its end
    ("find('job 0:0')", "job 0:0: submit at node 0 in turn 117, Work at node 3 in turn 118, finish at node 3 in turn 119, Done at node 0 in turn 120"),
    ("KEYS.j()", "about job 0:0"), ("KEYS.j(); chosen", "=119"),
    ("find('job 0:0'); find('6869')", 'payload 6869 "hi", priority 7, queue 3'),
    ("find('job 0:1')", "its origin keeps it at the end"),
    ("find('job 0:9')", "nothing is found for job 0:9"),
    ("jobs.get('0:0')", '={"name":"0:0","begin":117,"end":120,"turns":[117,118,119,120]}'),
    ("pen.getImageData(0, 0, 1, 1); KEYS.l(); const without = size.track; KEYS.l(); [without, size.track > 0]", "=[0,true]"),
    # the crash is red in the overview, and a node that is down in its row
    ("const shades = brush => [...brush.getImageData(size.margin + (121 + 1) * (strip.clientWidth - size.margin) / (turns.length + 1), 1, 1, 1).data.slice(0, 3)]; "
     "first = -1; show(); draw(); shades(strip.getContext('2d'))", "=[204,0,0]"),
    ("find('turn 121'); height = 24; down = 0; show(); draw(); "
     "[...pen.getImageData(across(121.45), band(5)[0] + 3, 1, 1).data.slice(0, 3)].join() !== "
     "[...pen.getImageData(across(121.45), band(6)[0] + 3, 1, 1).data.slice(0, 3)].join()", "=true"),
    ("find('turn 121')", "1970-01-01 00:00:05.250 UTC"), ("hasTime", "=true"), ("seconds(turns[121][AT])", '="4.250"'),
    # on paper all rows are there
    ("printed(true); [canvas.clientHeight >= nodes * 20 + RULER, ink.ground]", '=[true,"#fff"]'), ("printed(false); canvas.style.height", '=""'),
]
# Node 0 asks 300 times, all is answered far behind, and a few questions between: those are drawn, and of the others it is said that they pass.
PASSING = {"nodes": 2, "histories": [[ASKS] * 300 + [{"do": "none", "sent": []}] * 300, [ASKED] * 300],
           "order": "0 - " * 300 + "0 - " * 300 + " ".join(f"1 {number}" for number in range(300))}
ON_PASSING = [
    ("step = 26; first = 350; show(); draw(); snapshot.textContent", "=" + json.dumps("turns 349 to 401 of 900; 300 more pass")),
    ("first = 840; show(); draw(); snapshot.textContent", "=" + json.dumps("turns 839 to 891 of 900")),
    ("const [ending, passing] = arrowsIn(280, 700); [ending.length, passing.length]", "=[120,180]"),
]
DARK = [("document.documentElement.className", '="dark"'), ("[ink.ground, ink.ink]", '=["#14171a","#e8e8e8"]'), ("fills.slice(0, 24).every((fill, place) => fills.indexOf(fill) === place)", "=true")]


def timed(trace):
    """The trace with times at two of its entries, which were 4.25 s apart."""
    trace["histories"][0][0]["at"], next(entry for entry in trace["histories"][5] if entry["do"] == "crash")["at"] = 1000, 5250
    return trace


def many():
    """A trace of 100,000 entries: node 0 forms a group anew over and over, and nodes 1 and 2 hear of it."""
    head = lambda kind, sender, receiver, body="": "01%02x%02x%02x%04x%s" % (kind, sender, receiver, len(body) // 2, body)
    group = lambda count: "00%016x" % count
    entry = lambda do, *sent, **fields: {"do": do, "sent": list(sent), **fields}
    first, second, third = [], [], []
    for count in range(2, 2 + ENTRIES // 10):
        questions, invitations = [head(1, 0, 1), head(1, 0, 2)], [head(5, 0, 1, group(count)), head(5, 0, 2, group(count))]
        yes, joins, ready = head(2, 2, 0, "01"), head(6, 1, 0, group(count)), head(7, 0, 1, group(count) + "020001")
        acknowledges = head(8, 1, 0, group(count))
        first += [entry("check", *questions), entry("deliver", msg=yes), entry("merge", *invitations), entry("deliver", msg=joins), entry("accept", ready), entry("deliver", msg=acknowledges)]
        if count == 2:
            # node 1 is found first; from then on it is a member
            first.insert(1, entry("deliver", msg=head(2, 1, 0, "01")))
            second.append(entry("deliver", head(2, 1, 0, "01"), msg=questions[0]))
        if count > 3:
            first.append(entry("check", *questions))
        second += [entry("deliver", joins, msg=invitations[0]), entry("deliver", acknowledges, msg=ready)]
        third.append(entry("deliver", yes, msg=questions[1]))
    return {"nodes": 3, "histories": [first, second, third]}


def told_by_page(browser, page, acts, *flags):
    """What stands beside the buttons of a page, what came of each of these acts, and what went wrong in its script. Acts share their names."""
    catch = "<script>const wrong = []; addEventListener('error', event => wrong.push(event.message));</script>"
    one = "try { value = (0, eval)(act); draw(); } catch (error) { value = String(error); } return [told.textContent, JSON.stringify(value) ?? ''];"
    acts = [re.sub(r"\bconst (?=\[?\w)", "var ", act) for act in acts]
    ask = f"<script>const seen = {json.dumps(acts)}.map(act => {{ let value; {one} }}); document.title = JSON.stringify([snapshot.textContent, seen, wrong]);</script>"
    with tempfile.TemporaryDirectory() as folder:
        with open(f"{folder}/run.html", "w") as file:
            file.write(page.replace("<head>", "<head>" + catch).replace("</body>", ask + "</body>"))
        words = [browser, "--headless", "--no-sandbox", "--disable-gpu", f"--user-data-dir={folder}/kept", "--window-size=1400,900", *flags, "--dump-dom", f"file://{folder}/run.html"]
        dom = subprocess.run(words, capture_output=True, text=True, timeout=600).stdout
    title = re.search("<title>(.*?)</title>", dom, re.S)
    return json.loads(html.unescape(title[1])) if title else [None, [], ["no page"]]


def problem(act, wanted, told, value):
    if wanted.startswith("="):
        return "" if wanted in ("=", "=" + value) else f"{act}: {value} in place of {wanted[1:]}"
    return "" if wanted in told else f"{act}: {told!r} without {wanted!r}"


def check_page(browser, programs, trace, sight, acts, *flags):
    """What is wrong with the page of a trace in a browser, or nothing."""
    page = programs.draw(json.dumps(trace), "--to", "html").stdout
    try:
        seen, found, wrong = told_by_page(browser, page, [act for act, _ in acts], *flags)
    except (subprocess.SubprocessError, ValueError) as error:
        return repr(error)
    if wrong or sight not in (None, seen):
        return f"{wrong or seen}"
    return "; ".join(filter(None, (problem(*act, *came) for act, came in zip(acts, found))))


def colours(programs, trace):
    """What is wrong with the colours of groups: at no turn two groups have one."""
    page = programs.draw(json.dumps(trace), "--to", "html").stdout
    data = json.loads(re.search(r'<script type="application/json" id="data">\n(.*?)</script>', page, re.S)[1])
    for turn in range(len(data["turns"])):
        there = {(stay[4], stay[7]) for stay in data["stays"] if stay[1] <= turn < stay[2]}
        if len({colour for _, colour in there}) < len({group for group, _ in there}):
            return f"turn {turn}: {sorted(there)}"
    return ""


def pages(programs):
    """The problem with each page that is tried, if there is a browser to try them in."""
    twenty = timed(json.loads(programs.invite("record", "\n".join(RUN) + "\n").stdout))
    yield "colours of groups", colours(programs, twenty)
    browser = shutil.which("chromium") or shutil.which("chromium-browser") or shutil.which("google-chrome")
    if not browser:
        print("pictures.py: there is no chromium, so pages are not tried in it")
        return
    yield "a page", check_page(browser, programs, PAGED, None, ON_PAGES)
    nothing = [("find('0')", "nothing is found for 0"), ("KEYS['n']()", ""), ("KEYS['0']()", ""), ("KEYS.c(); KEYS.r(); KEYS.j(); KEYS.s(); KEYS['.']()", "=")]
    yield "a page of no turns", check_page(browser, programs, {"nodes": 2, "histories": [[], []]}, "no turns", nothing)
    yield "a page of twenty nodes", check_page(browser, programs, twenty, None, ON_TWENTY)
    yield "arrows that pass", check_page(browser, programs, PASSING, None, ON_PASSING)
    yield "a page in the dark", check_page(browser, programs, twenty, None, DARK, "--blink-settings=preferredColorScheme=0")
    clock = "const times = []; for (let time = 0; time < 9; time++) { const begun = performance.now(); draw(); times.push(performance.now() - begun); }"
    acts = [("turns.length", f"={ENTRIES}"), ("KEYS['0'](); inView()", f"=[0,{ENTRIES}]"), (f"{clock} Math.min(...times) < {MOST_MS} || times", "=true"),
            (f"first = 5e4; step = 8; show(); {clock} Math.min(...times) < {MOST_MS} || times", "=true")]
    yield f"a page of {ENTRIES} entries", check_page(browser, programs, many(), None, acts)
