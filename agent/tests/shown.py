"""The page of an agent in a browser, over what agents say of a cluster that is well, that lacks a node, that is cut, and whose node hangs; at the width of a
phone; and without a script."""
import html, json, os, re, shutil, signal, subprocess, tempfile

from bed import HERE
from cluster import page

PAGE = os.path.join(HERE, "../src/http/page.html")

# Draws each state as the page does, and tells what stands there then: what is said above all, each card, and of each node its place in the group and when it
# was heard, each with its class.
ASK = """<script>
(async () => {
  const seen = [], both = child => [child.textContent, child.className];
  for (const state of %s) {
    let isTimed = false;
    window.fetch = async (path, options) => { isTimed = options.signal instanceof AbortSignal; return { json: async () => state }; };
    await turn();
    const cards = Object.fromEntries([...at("cards").children].map(card => [card.children[0].textContent, both(card.children[1])]));
    const nodes = [...at("nodes").children].map(row => [row.children[2].textContent, ...both(row.children[3])]);
    const jobs = [...document.querySelectorAll("tfoot i")].map(cell => cell.textContent).join(" ");
    const wrong = [...at("wrong").children].map(item => [item.className, ...[...item.children].map(child => child.textContent)]);
    // what is wider than the page, or than the part of it that it stands in
    const wide = [...document.querySelectorAll("html, section, .card, li")].filter(part => part.scrollWidth > part.clientWidth + 1).map(part => part.outerHTML.slice(0, 99));
    const width = window.innerWidth;
    seen.push({ isTimed, lost: at("lost").textContent, cards, nodes, jobs, wrong, wide, width });
  }
  parent.document.getElementById("seen").textContent = JSON.stringify(seen);
})();
</script>"""
# In a frame, whose width the page takes for that of the screen.
FRAME = """<!doctype html><pre id="seen"></pre><iframe style="border:0;width:%dpx;height:4000px" srcdoc="%s"></iframe>"""
# In a frame without scripts, of which the page around tells what can be read there.
BARE = """<!doctype html><pre id="seen"></pre><iframe sandbox="allow-same-origin" style="width:390px;height:1500px" srcdoc="%s"
onload="document.getElementById('seen').textContent = JSON.stringify(this.contentDocument.body.innerText)"></iframe>"""
PHONE, DESK = 390, 1240


def dumped(browser, text):
    """What stands in a page once its script ran."""
    with tempfile.TemporaryDirectory() as folder:
        with open(os.path.join(folder, "page.html"), "w") as file:
            file.write(text)
        words = [browser, "--headless", "--no-sandbox", "--disable-gpu", "--user-data-dir=%s/kept" % folder, "--dump-dom", "file://%s/page.html" % folder]
        return subprocess.run(words, stdout=subprocess.PIPE, stderr=subprocess.PIPE, text=True, timeout=120)


def seen_in(browser, states, width=DESK):
    with open(PAGE) as file:
        text = file.read()
    inner = text.replace("</html>", ASK % json.dumps(states).replace("<", "\\u003c") + "</html>")
    return told(browser, FRAME % (width, html.escape(inner)))


def told(browser, text):
    """What a page says at `seen`."""
    done = dumped(browser, text)
    found = re.search('<pre id="seen">(.+?)</pre>', done.stdout, re.S)
    if not found:
        raise ValueError("no page: %s" % done.stderr[-500:])
    return json.loads(html.unescape(found[1]))


def in_a_browser(bed):
    browser = shutil.which("chromium") or shutil.which("chromium-browser") or shutil.which("google-chrome")
    if not browser:
        return bed.tally.left_out("the page in a browser", "there is no chromium")
    agents, check, states = bed.agents("shown", count=3, record=None), bed.tally.check, []

    def keep(is_so):
        """Waits until what the agent says of itself is so, and keeps that."""
        last = []

        def is_kept():
            last[:] = [json.loads(page(agents, 0, "/state")[1])]
            return is_so(last[0])

        agents.until(is_kept)
        states.append(last[0])

    is_group = lambda state, members: state["status"]["phase"] == "Normal" and state["status"]["members"] == members
    agents.start_all()
    # whoever was there before node 0 may still speak to it through the third one, for as long as it takes for a peer to be silent
    keep(lambda state: is_group(state, [0, 1, 2]) and state["status"]["majority"] and all(member["through"] is None for member in state["members"]))
    lead = states[0]["status"]["coordinator"]
    agents.kill(2)
    keep(lambda state: is_group(state, [0, 1]) and state["status"]["majority"] and state["members"][2]["heard_ms"] > 3000)
    agents.relay.cuts.add(frozenset((0, 1)))
    keep(lambda state: is_group(state, [0]) and not state["status"]["majority"])
    agents.relay.cuts.clear()
    agents.start(2)
    agents.one_group()
    node = agents.node(0)
    os.kill(node, signal.SIGSTOP)
    keep(lambda state: not state["status"]["alive"])
    agents.stop()
    # else it stays stopped, and doesn't see that its agent is gone
    os.kill(node, signal.SIGCONT)
    states.append(dict(states[0], pending=126, pending_max=126, pending_by_queue=[126] + [0] * 15))
    states.append(dict(states[0], unheld_ms=61_000, record_wanted=True, recorded=False, pending=64, pending_max=126, pending_by_queue=[0, 64] + [0] * 14))
    states.append(dict(states[0], status=dict(states[0]["status"], phase="Election", since_ms=11_000)))
    seen = seen_in(browser, states)
    in_words(check, seen)
    narrow = seen_in(browser, states, PHONE)
    check("at %d points the page is whole in each state" % PHONE, [(one["width"], one["wide"]) for one in narrow] == [(PHONE, [])] * len(states), [one["wide"] for one in narrow])
    check("and says the same", [one["wrong"] for one in narrow] == [one["wrong"] for one in seen])
    check("on a desk it is whole, too", all(one["width"] == DESK and not one["wide"] for one in seen), [one["wide"] for one in seen])
    with open(PAGE) as file:
        bare = told(browser, BARE % html.escape(file.read()))
    check("without a script it says why it is empty, and where the same stands", "none runs here, so it is empty" in bare and "/status" in bare, bare)
    well, killed, cut, hung, full = seen[:5]
    check("a page of a cluster that is well", (well["lost"], well["cards"]["Node"], well["cards"]["In it"]) == ("", ["answers", "good"], ["3 of 3", "good"]), well)
    heard = ["this node" if i == 0 else "by node %d" % lead if lead not in (0, i) else None for i in range(3)]
    check("members are heard by their coordinator", all(row[1] == one if one else row[1].endswith(" s") for row, one in zip(well["nodes"], heard)), (lead, well["nodes"]))
    check("a node that is gone shows", killed["cards"]["In it"] == ["2 of 3", "warn"] and killed["nodes"][2][0] == "no" and killed["nodes"][2][2] == "warn", killed)
    check("a node without a majority, too", cut["cards"]["In it"] == ["1 of 3", "bad"], cut)
    check("of a node that hangs nothing looks well", "node doesn't answer" in hung["lost"] and not any(kind == "good" for _, kind in hung["cards"].values()), hung)
    check("a full journal shows", full["cards"]["Jobs kept"] == ["126 of 126", "bad"] and full["jobs"].startswith("99+ 0 "), full)
    check("an agent that was stopped isn't waited for", well["isTimed"])


def in_words(check, seen):
    """What is wrong is told, each with what to do, and nothing else."""
    well, killed, cut, hung, full, idle, slow = ([(kind, what) for kind, what, remedy in one["wrong"] if len(remedy) > 20] for one in seen)
    check("of a cluster that is well nothing is told", well == [], well)
    check("a node that is gone is named", len(killed) == 1 and killed[0][0] == "warn" and killed[0][1].startswith("Node 2, ") and "isn't in the group" in killed[0][1], killed)
    check("a group without a majority is told, and who isn't in it", [kind for kind, _ in cut] == ["warn", "warn", "bad"] and cut[2][1] == "This group has no majority of the nodes.", cut)
    check("of a node that hangs nothing is told but that, and what to do", hung == [] and "Look at the disk" in seen[3]["lost"], seen[3]["lost"])
    check("a full journal is told", full == [("bad", "The journal is full: new jobs are refused.")], full)
    check("jobs that nobody works on, a journal that fills, a record that ended", [what.split()[0] for _, what in idle] == ["More", "A", "The"], idle)
    check("a group that is being made for long", slow == [("bad", "A group is being made for 11 s.")], slow)
