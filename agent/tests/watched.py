"""A Prometheus that asks three agents: the queries of the dashboard and the rules of the alarms, over what it has of them."""
import json, os, re, shutil, subprocess, time, urllib.error, urllib.parse, urllib.request

from bed import HERE, PATIENCE, free_port

ALARMS = os.path.join(HERE, "../../examples/alarms")
PAUSE = 2
CONFIG = """global: {scrape_interval: %ds, evaluation_interval: %ds}
rule_files: ['%s']
scrape_configs:
  - job_name: dumgerok
    static_configs: [{targets: %s}]
"""


class Prometheus:
    def __init__(self, folder, targets):
        os.mkdir(folder)
        self.port, path = free_port(), os.path.join(folder, "prometheus.yml")
        with open(path, "w") as file:
            file.write(CONFIG % (PAUSE, PAUSE, os.path.realpath(os.path.join(ALARMS, "dumgerok.rules.yml")), json.dumps(targets)))
        words = ["prometheus", "--config.file", path, "--storage.tsdb.path", os.path.join(folder, "data"), "--web.listen-address", "127.0.0.1:%d" % self.port]
        with open(os.path.join(folder, "log"), "wb") as log:
            self.process = subprocess.Popen(words, stdout=log, stderr=log)

    def get(self, path, **words):
        """What it answers, or None where it answers nothing yet."""
        try:
            with urllib.request.urlopen("http://127.0.0.1:%d/api/v1/%s?%s" % (self.port, path, urllib.parse.urlencode(words)), timeout=PATIENCE) as answer:
                return json.load(answer)["data"]
        except urllib.error.HTTPError as error:
            return dict(result=[], error=error.read().decode())
        except OSError:
            return None

    def query(self, expression):
        return (self.get("query", query=expression) or dict(result=[]))["result"]

    def rows(self, expression, least):
        """So many rows at least of an answer, if it comes to that: where an agent is too busy to be asked in time its samples are missing for a while."""
        end = time.monotonic() + PATIENCE / 4
        while True:
            rows = self.query(expression)
            if len(rows) >= least or time.monotonic() > end:
                return rows
            time.sleep(0.5)

    def stop(self):
        self.process.kill()
        self.process.wait()


def watched(bed):
    if not shutil.which("prometheus"):
        return bed.tally.left_out("the dashboard", "there is no prometheus (apt-get install prometheus)")
    agents = bed.agents("watched", record=None, key=bed.key("ab"))
    agents.start_all()
    agents.one_group()
    prometheus = Prometheus(os.path.join(agents.folder, "prometheus"), ["127.0.0.1:%d" % port for port in agents.http])
    try:
        # a rate takes two samples of each
        agents.until(lambda: [row["value"][1] for row in prometheus.query("count_over_time(up[1h]) > 2")] and len(prometheus.query("count_over_time(up[1h]) > 2")) == 3)
        dashboard(bed, agents, prometheus)
        alarms(bed, agents, prometheus)
    finally:
        prometheus.stop()
    agents.stop()


def dashboard(bed, agents, prometheus):
    """Each query has an answer, of each agent where it is one of agents; and what it says is so."""
    check = bed.tally.check
    with open(os.path.join(ALARMS, "dumgerok.dashboard.json")) as file:
        board = json.load(file)
    queries = {target["expr"]: panel["title"] for panel in board["panels"] for target in panel["targets"]}
    check("the dashboard has queries", len(queries) >= len(board["panels"]) > 20)
    for asked, title in queries.items():
        expression = asked.replace("$cluster", "bed").replace("$__rate_interval", "1h")
        least = 3 if "by (cluster" not in asked else 1
        rows = prometheus.rows(expression, least)
        check("%s: Prometheus answers of all (%s)" % (title, asked), "$" not in expression and len(rows) >= least, prometheus.get("query", query=expression))
    ids = [panel["id"] for panel in board["panels"]]
    check("panels have numbers of their own", len(ids) == len(set(ids)))
    names = [one for one in board["templating"]["list"] if one["name"] == "cluster"][0]["query"]
    label = re.fullmatch(r"label_values\((\w+), (\w+)\)", names)
    check("clusters are chosen by what agents tell", label and {row["metric"].get(label[2]) for row in prometheus.query(label[1])} == {"bed"}, names)
    value = lambda expression: [float(row["value"][1]) for row in prometheus.query(expression)]
    leads = 'sum by (cluster) (dumgerok_coordinator{cluster="bed"} * dumgerok_up)'
    check("it comes to tell that one of three leads", agents.until(lambda: value(leads) == [1] and value("dumgerok_members") == [3, 3, 3]) >= 0)


def alarms(bed, agents, prometheus):
    """The rules are taken, each is over what agents tell, and of an agent that is gone one fires."""
    check = bed.tally.check
    rules = lambda: [rule for group in (prometheus.get("rules") or dict(groups=[]))["groups"] for rule in group["rules"]]
    agents.until(lambda: rules() and all(rule["health"] != "unknown" for rule in rules()))
    check("each rule can be asked", all(rule["health"] == "ok" for rule in rules()), [rule for rule in rules() if rule["health"] != "ok"])
    known = set(prometheus.get("label/__name__/values"))
    wanted = set(re.findall(r"\bdumgerok_\w+", " ".join(rule["query"] for rule in rules())))
    check("what the rules ask is told by agents", len(wanted) > 10 and wanted <= known, wanted - known)
    firing = lambda: {rule["name"] for rule in rules() if rule["state"] == "firing"}
    agents.kill(2)
    agents.until(lambda: {"DumgerokAgentDown", "DumgerokMembersMissing"} <= firing())
    bed.tally.timed("of an agent that is gone it is told, and of nothing that is wrong elsewhere", firing() <= {"DumgerokAgentDown", "DumgerokMembersMissing", "DumgerokGroupsComeAndGo"}, firing())
