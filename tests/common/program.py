"""How a script of tests runs the program, `invite`."""
import os
import shutil
import subprocess
import sys

from common.tally import left_out

SHIM = os.path.join(os.path.dirname(os.path.dirname(os.path.abspath(__file__))), "shim")
# Where files lie that need no disk: in memory, where that can be.
MEMORY = "/dev/shm" if os.access("/dev/shm", os.W_OK) else None
# A run that takes so many seconds hangs.
PATIENCE = 600


def named(path=None):
    """The program that a script is called with: its first word, or this one. Where there is none the script ends as one that failed."""
    program = os.path.abspath(path or "".join(sys.argv[1:2]))
    if not os.access(program, os.X_OK):
        print(f"{os.path.basename(sys.argv[0])}: there is no program {program}\n0 passed, 1 failed")
        sys.exit(1)
    return program


def run(program, words, fed="", **more):
    """A run that is fed this, with its status and what it prints on standard output and standard error: bytes where bytes are fed, and texts where a text or lines."""
    fed = "".join(f"{line}\n" for line in fed) if isinstance(fed, list) else fed
    done = subprocess.run([program, *words], input=fed.encode() if isinstance(fed, str) else fed, capture_output=True, timeout=PATIENCE, **more)
    if isinstance(fed, str):
        done.stdout, done.stderr = (text.decode("utf-8", "replace") for text in (done.stdout, done.stderr))
    return done


def made(program, *words):
    """Makes a file by `format`."""
    subprocess.run([program, "format", *map(str, words)], check=True, timeout=PATIENCE, stdout=subprocess.DEVNULL)


def compiler(untried):
    """The C compiler. Where there is none the script ends, and what is untried is said."""
    found = shutil.which("cc")
    return found or left_out(f"there is no C compiler cc, so {untried}")


def library(name, folder):
    """What is loaded before the C library, built of tests/shim."""
    path = os.path.join(folder, name + ".so")
    subprocess.run(["cc", "-shared", "-fPIC", "-O1", "-o", path, os.path.join(SHIM, name + ".c"), "-ldl"], check=True)
    return path


class Talk:
    """A process that is asked a line at a time. The last line of an answer is known by its first word."""

    def __init__(self, words, closing, env=None):
        self.closing = closing
        self.process = subprocess.Popen(words, stdin=subprocess.PIPE, stdout=subprocess.PIPE, stderr=subprocess.DEVNULL, text=True, bufsize=1, env=env)

    def give(self, line):
        """Hands a line over, and waits for nothing."""
        self.process.stdin.write(line + "\n")
        self.process.stdin.flush()

    def line(self):
        """The next line, as words; none where the process has ended."""
        return self.process.stdout.readline().split()

    def ask(self, line):
        """The lines of the answer, as words, its last one among them; behind the end of the process `ended`."""
        self.give(line)
        answer = []
        while not answer or answer[-1][0] not in self.closing:
            answer.append(self.line() or ["ended"])
            if answer[-1] == ["ended"]:
                break
        return answer

    def end(self):
        """Ends its input. Its status."""
        self.process.stdin.close()
        status = self.process.wait(PATIENCE)
        self.process.stdout.close()
        return status

    def kill(self):
        self.process.kill()
        self.process.communicate()
