"""Standard input, output and error that are closed, that fail, or that nobody reads; and words of a command line that are strange."""
import os, signal, subprocess, tempfile
from files_tried import found_in, read
from program import PATIENCE

INPUTS = {
    ("answer", "0", "3"): b"010102000000\n", ("show",): b"010102000000\n", ("sim",): b"cluster 1 4\nrecover 0\n", ("trace",): b'{"nodes":1,"histories":[[]]}',
    ("trace", "--turns"): b'{"nodes":1,"histories":[[]]}', ("record",): b"cluster 1 4\nrecover 0\n", ("threads",): b"cluster 1 4\nlinks 1\n0 clock check\n",
    ("store", "FILE"): b"mount\nraise\nput 0 61\n", ("node", "FILE", "0", "3"): b"recover\nsubmit 0 61\n",
}
# What the file may hold then: as it was, and with the commands done.
ALLOWED = ("count 7 next 7\n", "count 8 next 7\n", "count 8 next 8\njob 7 0 61\n")


class Streams:
    def __init__(self, tried, folder):
        self.tried, self.path = tried, os.path.join(folder, "file")

    def start(self, words, fed, closed=(), **streams):
        """The program with some of its three streams closed. The file is made anew before."""
        if os.path.exists(self.path):
            os.remove(self.path)
        self.tried.run(["format", self.path, "4", "0", "3", "7"], b"")
        words = [self.path if word == "FILE" else word for word in words]
        streams = {"stdin": subprocess.PIPE, "stdout": subprocess.DEVNULL, "stderr": subprocess.DEVNULL, **streams}
        close = lambda: [os.close(one) for one in closed]
        with subprocess.Popen([self.tried.program, *words], preexec_fn=close, **streams) as child:
            try:
                child.communicate(fed if streams["stdin"] == subprocess.PIPE else None, timeout=PATIENCE)
            except subprocess.TimeoutExpired:
                child.kill()
                return "no end"
        return child.returncode

    def trouble(self, status, allowed):
        wrong = [] if status in allowed else [f"status {status}"]
        found, refused = found_in(read(self.path))
        if refused:
            wrong.append(f"then the file is refused {refused}")
        elif found.listed() not in ALLOWED:
            wrong.append(f"then the file holds {found.listed()!r}")
        return ", ".join(wrong)


def try_closed(streams):
    for words, fed in INPUTS.items():
        for closed in ((0,), (1,), (2,), (0, 1), (0, 1, 2)):
            status = streams.start(words, fed, closed)
            # nothing can be read, which may count as an input that has ended, or nothing written; a store has done then what it was asked
            trouble = streams.trouble(status, (0, 1) if 0 in closed else (1,) if 1 in closed else (0,))
            streams.tried.mark(trouble, (words, "closed", closed))


def try_own_file(streams):
    """A node with no input, whose file has a job with a line in its payload, does nothing."""
    def begun():
        streams.start(("node", "FILE", "0", "3"), b"recover\nsubmit 0 " + b"\nrecover\n".hex().encode() + b"\n")
        return read(streams.path)
    before = begun()
    with subprocess.Popen([streams.tried.program, "node", streams.path, "0", "3"], preexec_fn=lambda: os.close(0), stdout=subprocess.DEVNULL, stderr=subprocess.DEVNULL) as child:
        status = child.wait(PATIENCE)
    trouble = "" if status in (0, 1) and read(streams.path) == before else f"status {status}, and the file is another"
    streams.tried.mark(trouble, "a closed input and a line in a payload")


def try_failing(streams):
    for words, fed in INPUTS.items():
        with open("/dev/full", "wb") as full:
            streams.tried.mark(streams.trouble(streams.start(words, fed, stdout=full), (1,)), (words, "a full output"))
            streams.tried.mark(streams.trouble(streams.start(words, fed, stderr=full), (0,)), (words, "a full standard error"))
        folder = os.open("/", os.O_RDONLY)
        streams.tried.mark(streams.trouble(streams.start(words, None, stdin=folder), (1,)), (words, "a folder as input"))
        os.close(folder)
        # nobody reads: the signal is as a process is given it, and ignored
        for is_ignored in (False, True):
            reads, writes = os.pipe()
            os.close(reads)
            kept = signal.signal(signal.SIGPIPE, signal.SIG_IGN if is_ignored else signal.SIG_DFL)
            status = streams.start(words, fed, stdout=writes, restore_signals=not is_ignored)
            signal.signal(signal.SIGPIPE, kept)
            os.close(writes)
            streams.tried.mark(streams.trouble(status, (1,)), (words, "nobody reads", is_ignored))


def try_words(streams):
    """What is no command line ends with status 2, however strange its words are; a path may be anything."""
    tried, long = streams.tried, "1" * 100_000
    for words in (["answer", long, "3"], ["answer", "0", long], ["answer", "", "3"], ["answer", "0", "\u0663"], ["answer", "0", "3\n"], [""], ["show", ""], ["sim\n"], ["SHOW"], [long], ["--"], ["-"], ["answer", "-0", "3"],
                  ["node", "a", "0", "3", ""], ["format", "a", "4", "0", "3", "0", ""], ["node", "a", "3", "3"], ["store", "a", "b"], ["show", "--version"], ["-h"], ["help", "show"]):
        streams.tried.mark(strange(tried, words, (2,)), [word[:40] for word in words])
    streams.tried.mark(strange(tried, ["trace", long], (1,)), ["trace", long[:40]])
    streams.tried.mark(strange(tried, ["--version"], (0,)), ["--version"])
    for words in ([b"answer", b"\xff", b"3"], [b"\xff"], [b"show", b"\xff\xfe"]):
        streams.tried.mark(strange(tried, words, (2,)), words)
    for path in ("", "a" * 300, "/" * 5000, "a/" * 3000, "no\nfolder/none", "\u00e9/none"):
        for command, status in ((["store", path], 0), (["node", path, "0", "3"], 7), (["format", path, "4", "0", "3"], 7)):
            allowed = status if isinstance(status, tuple) else (status,)
            streams.tried.mark(strange(tried, command, allowed), (command[0], path[:40]))


def strange(tried, words, allowed):
    """What is wrong with how such a command line ends; its input is a line that no command reads well."""
    with subprocess.Popen([tried.program, *words], stdin=subprocess.DEVNULL, stdout=subprocess.DEVNULL, stderr=subprocess.DEVNULL, cwd=tempfile.gettempdir()) as child:
        status = child.wait(PATIENCE)
    return "" if status in allowed else f"status {status} in place of {allowed}"


def try_streams(tried):
    with tempfile.TemporaryDirectory() as folder:
        streams = Streams(tried, folder)
        try_closed(streams)
        try_own_file(streams)
        try_failing(streams)
        try_words(streams)
