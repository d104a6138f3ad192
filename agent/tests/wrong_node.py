#!/usr/bin/env python3
"""A node that goes wrong once: PROGRAM as it is, but that one line that it writes is another, once a file is there.

    wrong_node.py PROGRAM FILE WAY [WORD..]

The program is called with the words. The first line that WAY takes is turned, as WAYS has it, and then the file is removed."""
import os, re, subprocess, sys, threading


def other(group):
    return group[1] + "%016x" % (int(group[2], 16) + 1) + group[3]


# What is turned, and what the node says in its place. A message is VERSION KIND SENDER RECEIVER LENGTH, and then its group or its answer.
WAYS = {
    "no answer": (r"send \d 0102.*\n", ""),
    "yes for no": (r"(send \d 0102\w{4}0001)00(.*\n)", r"\g<1>01\2"),
    "no answer to a member": (r"send \d 0104.*\n", ""),
    "no for yes": (r"(send \d 0104\w{4}000a\w{18})01(.*\n)", r"\g<1>00\2"),
    "another group": (r"(send \d 0104\w{4}000a\w\w)(\w{16})(.*\n)", other),
    "an answer twice": (r"(send \d 010[24].*\n)", r"\1\1"),
    "a question that isn't asked": (r"send \d 0103.*\n", ""),
    "a question about another group": (r"(send \d 0103\w{4}0009\w\w)(\w{16})(.*\n)", other),
    "one that isn't looked for": (r"send \d 0101.*\n", ""),
    "an end that nobody asked for": (r"(send \d )(010[24])(\w\w)(\w\w)(.*\n)", r"\1\2\3\4\5\g<1>010a\3\g<4>0008ffffffffffffff00\n"),
}


def main():
    program, file, way, *words = sys.argv[1:]
    if words[:1] != ["node"]:
        os.execv(program, [program, *words])
    pattern, new = WAYS[way]
    node = subprocess.Popen([program, *words], stdin=subprocess.PIPE, stdout=subprocess.PIPE)

    def carry():
        while True:
            asked = sys.stdin.buffer.raw.read(1 << 16)
            if not asked:
                node.stdin.close()
                return
            node.stdin.write(asked)
            node.stdin.flush()

    threading.Thread(target=carry, daemon=True).start()
    is_there = lambda: os.path.exists(file)
    while True:
        lines = node.stdout.read1(1 << 16)
        if not lines:
            sys.exit(node.wait())
        while not lines.endswith(b"\n"):
            more = node.stdout.read1(1 << 16)
            if not more:
                break
            lines += more
        text = lines.decode()
        found = is_there() and re.search(pattern, text)
        if found:
            text = text[:found.start()] + (new(found) if callable(new) else found.expand(new)) + text[found.end():]
            os.remove(file)
        os.write(1, text.encode())


if __name__ == "__main__":
    main()
