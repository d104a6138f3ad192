"""Runs the program, and counts what was tried. Whatever it is fed, it ends by itself, with a status that the texts allow, without a signal
and where it ends badly with one line on standard error that says why. What is wrong with a trace, and that a run is unfinished, is printed alone."""
import os, re, subprocess, time
from common.tally import Tally

# So many seconds of a processor a run may take. On a machine that is busy with other things it ends later, and it may wait for nothing for PATIENCE.
SECONDS, PATIENCE = 20, 300
# What may stand on standard error: a line, and behind that of a trace that is no run one for each node with entries left.
ERRORS = re.compile(rb"(invite: [ -~]+\n(node [0-9]+: entry [0-9]+ [ -~]+\n)*)?")
# what `store` says of the lines for which the file can't be had
REASONS = re.compile(rb"(invite: line [0-9]+: [A-Z][A-Za-z]+: [ -~]+\n)+")
# what a node says of a number that it skips before it is served
SKIPPED = re.compile(rb"invite: [ -~]+: group number [0-9]+:[0-9]+ may have been given before: it is skipped\n")
STATUSES = {"answer": {0, 1}, "show": {0, 1}, "sim": {0, 1}, "trace": {0, 1}, "record": {0, 1}, "threads": {0, 1}, "store": {0, 1}, "format": {0, 1, 2, 3, 4, 5, 7, 8}, "node": {0, 1, 3, 4, 5, 6, 7, 8}, "inspect": {0, 1, 3, 7, 8}, "export": {0, 1, 3, 7, 8}}


def processor_seconds(child):
    """What a process that wasn't waited for has taken of a processor."""
    with open(f"/proc/{child.pid}/stat", encoding="utf-8") as file:
        words = file.read().rsplit(")", 1)[1].split()
    return (int(words[11]) + int(words[12])) / os.sysconf("SC_CLK_TCK")


def ends(child, fed, seconds):
    """What a process puts out until it ends; TimeoutExpired where it has taken so many seconds of a processor, or waits for nothing."""
    begun = time.monotonic()
    while True:
        try:
            return child.communicate(fed, timeout=seconds)
        except subprocess.TimeoutExpired:
            fed = None
            if processor_seconds(child) >= seconds or time.monotonic() - begun > max(PATIENCE, 3 * seconds):
                child.kill()
                child.wait()
                raise


class Tried(Tally):
    """What was tried: how many runs, and how many of them were wrong. The first of a kind are shown."""

    shown = 20

    def __init__(self, program, name, is_long=False):
        super().__init__()
        self.program, self.name, self.is_long = os.path.abspath(program), name, is_long
        self.error = b""
        self.counts = {}

    def count(self, what, by=1):
        self.counts[what] = self.counts.get(what, 0) + by

    def mark(self, problem, *case):
        return super().mark(problem, self.name, *case)

    def run(self, words, fed, env=None, seconds=SECONDS, limit=None):
        """The status, the output and the trouble there was with how it ended."""
        pipes = dict(stdin=subprocess.PIPE, stdout=subprocess.PIPE, stderr=subprocess.PIPE)
        with subprocess.Popen([self.program, *words], env=env, preexec_fn=limit, **pipes) as child:
            try:
                out, self.error = ends(child, fed, seconds)
            except subprocess.TimeoutExpired:
                return None, b"", f"no end within {seconds} s of a processor"
        return child.returncode, out, self.trouble_in(words, child.returncode, out)

    def trouble_in(self, words, status, out):
        if status not in STATUSES[words[0]]:
            return f"status {status}"
        if words[0] == "store" and status == 0 and REASONS.fullmatch(self.error) and self.error.count(b"\n") <= out.splitlines().count(b"refused Device"):
            return ""
        error = SKIPPED.sub(b"", self.error, 1) if words[0] == "node" else self.error
        if not ERRORS.fullmatch(error):
            return f"standard error {self.error[:200]!r}"
        if status == 0 and error:
            return f"{words[0]} writes to standard error, and ends well"
        is_printed_alone = words[0] == "trace" or (words[0] == "threads" and out.startswith(b"unfinished "))
        if status == 1 and not self.error and not is_printed_alone:
            return f"{words[0]} ends badly and doesn't say why on standard error"
        return ""

    def talk(self, words, fed, env=None):
        """The same for a node that is fed line by line, each when the one before was answered."""
        out = b""
        with subprocess.Popen([self.program, *words], stdin=subprocess.PIPE, stdout=subprocess.PIPE, stderr=subprocess.PIPE, env=env, bufsize=0) as child:
            try:
                for at, line in enumerate(fed.splitlines(True), 1):
                    child.stdin.write(line)
                    closing = re.compile(rb"(ok|bad|refused|fault) %d\b" % at)
                    for answer in child.stdout:
                        out += answer
                        if closing.match(answer):
                            break
                child.stdin.close()
            except BrokenPipeError:
                pass
            out += child.stdout.read()
            self.error = child.stderr.read()
        return child.returncode, out, self.trouble_in(words, child.returncode, out)

    def expect(self, words, fed, status, text, note="", seconds=SECONDS):
        """The program prints this text and ends with this status."""
        got, out, trouble = self.run(words, fed, seconds=seconds)
        if not trouble and got != status:
            trouble = f"status {got} in place of {status}, it prints {out[-200:]!r}"
        if not trouble and out != text:
            trouble = f"it prints {out[-300:]!r} in place of {text[-300:]!r}"
        return self.mark(trouble, (note, words, fed if len(fed) < 400 else fed[:200] + b"..."))

    def told(self):
        """Prints how many runs there were, and counts them."""
        more = "".join(f", {count} {what}" for what, count in sorted(self.counts.items()))
        print(f"{self.name}: {self.passed + self.failed} runs, {self.failed} wrong{more}", flush=True)
        return self.passed, self.failed
