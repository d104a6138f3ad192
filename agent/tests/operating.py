"""The commands of docs/OPERATING.md, as they stand there."""
import os, re, subprocess

from bed import PATIENCE
from cluster import metric, page

TOP = os.path.join(os.path.dirname(os.path.abspath(__file__)), "../..")
PAGE = os.path.join(TOP, "docs/OPERATING.md")

# Commands beside the blocks that are run, and which script runs them.
ELSEWHERE = [
    (r"\./invite (show|--unproved)|\./invite$", "tests/repository/launcher.sh"),
    (r"rt( version)?$", ".ci/run"),
    (r"apt-get install cargo ", "check"),
    (r"agent/build", "agent/tests/run"),
    (r"packaging/build ", "packaging/test"),
    (r"apt install ", "packaging/test-systemd"),
    (r"cp /usr/share/doc/dumgerok/examples/node.toml ", "packaging/test-systemd"),
    (r"runuser -u dumgerok -- dumgerokctl format", "packaging/test-systemd"),
    (r"systemctl (enable|start|stop|restart|reload)", "packaging/test-systemd"),
    (r"chown dumgerok: ", "packaging/test-systemd"),
]

# What stands for a word of one's own in a command of dumgerokctl.
WORDS = {"COMMAND": "true", "ORIGIN": "0", "ID": "0", "QUEUE": "0", "TEXT": "x", "N": "0"}

# Commands over files, not asked of an agent: machine.py, messages.py, cluster.py and the blocks of the page run them with paths of their own.
OVER_FILES = ("format", "inspect", "export", "judge", "draw", "key")

# Commands that run another one until they are told to end, or where this machine has what that takes: services.py runs them.
RUNNERS = ("lead", "lock", "own", "on-change")


def beside_blocks(text):
    """Commands in the lines of indented blocks, and in the midst of text."""
    text = re.sub(r"^```.*?^```$", "", text, flags=re.S | re.M)
    lines = [line[4:] for line in text.splitlines() if line.startswith("    ")]
    spans = re.findall(r"`([^`\n]+)`", "\n".join(line for line in text.splitlines() if not line.startswith("    ")))
    is_command = re.compile(r"(dumgerokctl|dumgerokd|systemctl|runuser|apt|apt-get|cp|kill|openssl|chown|dd|\./invite|agent/build|packaging/build|rt)( |$)")
    return [re.sub(r"\s+#.*", "", one).strip() for one in lines + spans if is_command.match(one)]


def commands(bed, text):
    """Each command of the page is run: by a script that is named above, or here."""
    agents, check = bed.agents("commands", count=1, record=None), bed.tally.check
    agents.start(0)
    agents.one_group()
    agents.ask(0, do="submit", queue=0, text="x")
    for command in beside_blocks(text):
        scripts = [script for pattern, script in ELSEWHERE if re.match(pattern, command)]
        words = [WORDS.get(word, word) for word in command.split()]
        if scripts:
            check("%s runs %r" % (scripts[0], command), os.path.exists(os.path.join(TOP, scripts[0])))
        elif words[0] == "dumgerokd":
            check("%r is the program" % command, len(words) <= 2)
        elif words[0] == "dumgerokctl":
            check("%r is a command" % command, is_command(agents, words[1:] or ["--version"]))
        else:
            check("%r is run by a test" % command, False)
    told = page(agents, 0, "/metrics")[1]
    for name in sorted(set(re.findall(r"\bdumgerok_[a-z]\w*", text)) - {"dumgerok_agent"}):
        check("%s is a metric" % name, "# TYPE %s " % name in told)
    agents.stop()


def is_command(agents, words):
    """Whether dumgerokctl does this: `watch` prints the state and goes on, `take -- COMMAND` finishes the job that there is and waits for another."""
    if words[0] in OVER_FILES + RUNNERS:
        words = ["help", words[0]]
    elif words[-1] == "--json":
        words = words + ["status"]
    asked = subprocess.Popen([agents.ctl_path, "-s", agents.path(0, "sock"), *words], stdout=subprocess.PIPE, stderr=subprocess.DEVNULL)
    if words[0] == "watch":
        goes_on = bool(asked.stdout.readline())
    elif words[0] == "take" and "--" in words:
        goes_on = agents.until(lambda: asked.poll() is not None or metric(agents, 0, "clients_waiting") > 0) >= 0 and asked.poll() is None
    else:
        return asked.communicate(timeout=PATIENCE) is not None and asked.returncode == 0
    asked.kill()
    asked.communicate()
    return goes_on


def the_page(bed):
    with open(PAGE) as file:
        text = file.read()
    blocks = re.findall(r"^```sh\n(.*?)^```$", text, re.S | re.M)
    commands(bed, text)
    folder = os.path.join(bed.folder, "operating")
    os.makedirs(folder)
    environment = dict(os.environ, PROGRAM=bed.program, PATH=bed.programs + ":" + os.environ["PATH"])
    script = "set -eum\ntrap 'kill -9 $(jobs -p) 2> /dev/null || true' EXIT\n" + "echo :next:\n".join(blocks)
    done = subprocess.run(["bash", "-c", script], cwd=folder, env=environment, stdout=subprocess.PIPE, stderr=subprocess.PIPE, text=True, timeout=3 * PATIENCE)
    came = done.stdout.split(":next:\n")
    check = bed.tally.timed                  # they stand on groups that a busy machine may change
    check("the page's commands run", done.returncode == 0 and len(came) == len(blocks), (done.returncode, done.stdout[-300:], done.stderr[-300:]))
    for said in ("members       0,1,2", "this node", "keeps it as 1", "hello\n", "Run "):
        check("they print %r" % said, said in done.stdout, done.stdout[-500:])
