#!/usr/bin/env python3
"""A worker in Python: takes jobs from the agent of this machine, and runs a command for each, with the payload on its standard input.

    worker.py [--socket PATH] [--queue N] COMMAND [WORD..]

Where the command ends with status 0 the job is finished. Else it is given back for a pause, twice as long each time up to half a minute, and then given again,
to this worker or another one. Where the job goes to another node, or the agent ends, the command is killed.
"""
import argparse, os, signal, subprocess, sys, time

import dumgerok


def run(job, words):
    """The status of the command; Stopped where the job went to another node meanwhile."""
    command = subprocess.Popen(words, stdin=subprocess.PIPE, start_new_session=True)
    try:
        try:
            with command.stdin:     # 400 bytes at most: that fits into a pipe
                command.stdin.write(job.payload)
        except BrokenPipeError:
            pass
        while command.poll() is None:
            if job.stopped():
                raise dumgerok.Stopped(job.name)
            time.sleep(0.05)
        return command.returncode
    finally:
        if command.poll() is None:
            os.killpg(command.pid, signal.SIGKILL)
            command.wait()


def work(job, words):
    said = "stopped"
    try:
        status = run(job, words)
        said = "failed" if status else "done"
    finally:
        print("job %d of node %d: %s" % (job.id, job.origin, said), flush=True)
    if status:
        raise RuntimeError("the command ended with status %d" % status)


def main():
    words = argparse.ArgumentParser(description=__doc__, formatter_class=argparse.RawDescriptionHelpFormatter)
    words.add_argument("--socket")
    words.add_argument("--queue", type=int)
    words.add_argument("command", nargs=argparse.REMAINDER, metavar="COMMAND")
    given = words.parse_args()
    if not given.command:
        words.error("a COMMAND is missing")
    signal.signal(signal.SIGTERM, lambda *_: sys.exit(0))
    dumgerok.Agent(given.socket).work(lambda job: work(job, given.command), given.queue)


if __name__ == "__main__":
    main()
