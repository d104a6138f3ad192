"""The examples of the client in Rust, over an agent that is killed and started again."""
import os, subprocess

from bed import PATIENCE


def examples(bed):
    folder = os.path.join(bed.programs, "examples")
    if not os.path.exists(os.path.join(folder, "worker")):
        return bed.tally.left_out("the client in Rust", "there is no %s/worker" % folder)
    agents, check = bed.agents("rust", count=1, record=None), bed.tally.check
    agents.start(0)
    agents.one_group()
    said, environment = os.path.join(agents.folder, "said"), dict(os.environ, DUMGEROK_SOCKET=agents.path(0, "sock"))
    run = lambda *words: subprocess.Popen([os.path.join(folder, words[0]), *words[1:]], stdout=subprocess.PIPE, stderr=subprocess.PIPE, text=True, env=environment)
    payloads = lambda: open(said).read().split("|")[:-1] if os.path.exists(said) else []
    wrong = [run("worker"), run("watcher", "16", "x", "k")]
    check("what they are to be called by is said: 2", [one.wait(PATIENCE) for one in wrong] == [2, 2])
    worker = run("worker", "--queue", "3", "--queue", "4", "sh", "-c", 'read -r job; [ "$job" != fails ] || exit 1; printf "%s|" "$job" >> ' + said)
    watcher = run("watcher", "3", "first\n", "key 1")
    told = watcher.communicate(timeout=PATIENCE)[0].split("\n")
    kept = next((line.split()[1] for line in told if line.startswith("kept ")), None)
    check("a watcher sees its job kept and gone", watcher.returncode == 0 and "gone %s" % kept in told and told[0].startswith("members [0]"), told)
    check("a worker has its payload", payloads() == ["first"], payloads())
    again = agents.ask(0, do="submit", queue=3, text="other", key="key 1")
    check("which was submitted under its key", "%d:%d" % (again["origin"], again["id"]) == kept, (again, kept))
    agents.kill(0)
    agents.start(0)
    agents.one_group()
    agents.ask(0, do="submit", queue=4, text="fails\n")
    agents.ask(0, do="submit", queue=4, text="second\n")
    agents.until(lambda: payloads() == ["first", "second"] or worker.poll() is not None)
    rows = lambda: [row for row in agents.ask(0, do="jobs")["jobs"] if not row["kept"]]
    agents.until(lambda: any(row["attempt"] >= 2 for row in rows()) or worker.poll() is not None)
    check("a worker goes on over a restart, and a job that fails is given again", worker.poll() is None and len(rows()) == 1, rows())
    worker.kill()
    worker.communicate()
    agents.until(lambda: run("worker", "--once", "true").wait(PATIENCE) == 0)
    check("by another one, too", not rows(), rows())
    agents.stop()
