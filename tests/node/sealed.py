#!/usr/bin/env python3
"""Nodes under a key: what they send is sealed byte for byte as Python's hmac seals it, which the vectors of RFC 4231 try first; what comes is taken where a member of
the cluster sealed it, once, and leaves the node as it was otherwise; a process with a life takes what was sealed for that life, and nothing recorded before it began; keys
are changed by three rolling restarts; key files are refused that are wrong or open to others.

    sealed.py PROGRAM

The last line counts the checks."""
import hashlib, hmac, os, shutil, subprocess, sys, tempfile

sys.path.append(os.path.join(os.path.dirname(os.path.abspath(__file__)), ".."))
from common import program
from common.tally import Tally

NODES, NAME = 3, b"prod"
SECRETS = [bytes.fromhex("ab" * 32), hashlib.sha256(b"another").digest()]
# RFC 4231: key, data, HMAC-SHA-256
VECTORS = [
    ("0b" * 20, b"Hi There", "b0344c61d8db38535ca8afceaf0bf12b881dc200c9833da726e9376c2e32cff7"),
    (b"Jefe".hex(), b"what do ya want for nothing?", "5bdcc146bf60754e6a042426089575c75a003f089d2739839dec58b964ec3843"),
    ("aa" * 20, b"\xdd" * 50, "773ea91e36800e46854db8ebd09181a72959098b3ef8c122d9635514ced565fe"),
    ("0102030405060708090a0b0c0d0e0f10111213141516171819", b"\xcd" * 50, "82558a389a443c0ea4cc819899f2083a85f0faa3e578f8077a2e3ff46729665b"),
    ("aa" * 131, b"Test Using Larger Than Block-Size Key - Hash Key First", "60e431591ee0b67f0d8a26aacbf5b77f8e0bc6213728c5140546040f0ee37f54"),
    ("aa" * 131, b"This is a test using a larger than block-size key and a larger than block-size data. The key needs to be hashed before being used by the "
     b"HMAC algorithm.", "9b09ffa71b942fcb27635fbcd5b0e944bfdc63644f0713938a7f51535c3a35e2"),
]


def tag(key, text):
    return hmac.new(key, text, hashlib.sha256).digest()


def key_of(secret, nodes=NODES, name=NAME):
    return tag(secret, b"dumgerok sealed 1" + bytes([nodes]) + name)


def key_for(key, life):
    """The key of what is sealed for a process of this life."""
    return tag(key, b"dumgerok life 1" + life) if life else key


def sealed(key, message, life, number):
    stamped = message + life.to_bytes(8, "big") + number.to_bytes(8, "big")
    return stamped + tag(key, stamped)


class Tried(Tally):
    def __init__(self, invite, folder):
        super().__init__()
        self.program, self.folder, self.made = invite, folder, 0

    def key_file(self, text, mode=0o600):
        self.made += 1
        path = f"{self.folder}/key{self.made}"
        with open(path, "w") as file:
            file.write(text)
        os.chmod(path, mode)
        return path

    def file(self, own, nodes=NODES):
        self.made += 1
        path = f"{self.folder}/node{self.made}"
        program.made(self.program, path, 64, own, nodes)
        return path


class Node(program.Talk):
    """A process of a node. Each line is answered by lines of which the last one closes it."""

    def __init__(self, tried, file, own, keys=None, name=NAME, nodes=NODES, life=b""):
        words = [tried.program, "node", file, str(own), str(nodes)]
        if keys is not None:
            words += ["--key", keys, "--cluster", name.decode()]
        if life:
            words += ["--life", life.hex()]
        super().__init__(words, ("ok", "refused", "bad", "fault"))
        self.own, self.sent, self.lines = own, [], 0
        self.recovered = self.ask("recover")
        self.life = int(next(line for line in self.recovered if line.startswith("keeps")).split()[1])

    def ask(self, line):
        """The answer, whose closing line has no number. What is sent is kept."""
        *answer, last = super().ask(line)
        self.lines += 1
        assert last[1] == str(self.lines), last
        self.sent += [(int(words[1]), bytes.fromhex(words[2])) for words in answer if words[0] == "send"]
        return [" ".join(words) for words in (*answer, last[:1] + last[2:])]

    def tell(self, node, life):
        """The life of a node's process. It is no request: nothing answers it, and it has no number."""
        self.give(f"life {node} {life.hex() or '-'}")

    def deliver(self, message):
        return self.ask("deliver " + message.hex())

    def taken(self):
        sent, self.sent = self.sent, []
        return sent


def try_vectors(tried):
    for key, data, wanted in VECTORS:
        tried.check(tag(bytes.fromhex(key), data).hex() == wanted, "a vector of RFC 4231")


def try_going(tried):
    """All that a node sends has the reference's bytes, with its life's count and the numbers from 1 on; a second life has another count."""
    file, keys = tried.file(0), tried.key_file(SECRETS[0].hex() + "\n")
    key, lives = key_of(SECRETS[0]), []
    for _life in range(2):
        node = Node(tried, file, 0, keys)
        for line in ("check", "submit 3 0a", "timeout", "check", *(f"tick {20 * n}" for n in range(1, 60))):
            node.ask(line)
        sent = node.taken()
        tried.check(len(sent) > 5, "a node sends", len(sent))
        for number, (_to, bytes_) in enumerate(sent, 1):
            message, life = bytes_[:-48], int.from_bytes(bytes_[-48:-40], "big")
            tried.check(bytes_ == sealed(key, message, life, number), "a sealed message is the reference's", (number, bytes_.hex()))
            tried.check(life >= node.life, "its life is a count of this life")
        tried.check(not lives or int.from_bytes(sent[0][1][-48:-40], "big") > lives[-1], "a life's counts are above the last one's")
        lives.append(int.from_bytes(sent[-1][1][-48:-40], "big"))
        tried.check(node.end() == 0, "a node ends well")


def try_coming(tried):
    """Each bit and each length of a sealed message, other keys and other clusters: refused, and nothing changes. Then it is taken, and once."""
    node = Node(tried, tried.file(0), 0, tried.key_file(SECRETS[0].hex()))
    key, message = key_of(SECRETS[0]), bytes.fromhex("010101000000")
    good = sealed(key, message, 7, 1)
    state = node.ask("state")
    forged = [good[:bit // 8] + bytes([good[bit // 8] ^ 1 << bit % 8]) + good[bit // 8 + 1:] for bit in range(8 * len(good))]
    forged += [good[:end] for end in range(1, len(good))] + [good[start:] for start in range(1, len(good))] + [good + b"\0", b"\0" + good, message, good + good]
    forged += [sealed(other, message, 7, 1) for other in (SECRETS[0], key_of(SECRETS[1]), key_of(SECRETS[0], 4), key_of(SECRETS[0], 2), key_of(SECRETS[0], NODES, b"test"),
                                                         key_of(SECRETS[0], NODES, b""), key_of(SECRETS[0], NODES, b"prod1"))]
    for bytes_ in forged:
        tried.check(node.deliver(bytes_) == ["refused Forged"], "a forged message", bytes_.hex())
    tried.check(node.ask("state") == state and not node.taken(), "forged messages leave the node as it was")
    for line in ("deliver", "deliver 0", "deliver zz", "deliver -- --", f"deliver {good.hex()} 1", "deliver  " + good.hex()):
        tried.check(node.ask(line) == ["bad"], "a line that can't be read", line)
    tried.check(node.deliver(sealed(key, b"\1\2\3", 7, 1)) == ["bad"], "what is sealed and no message")
    tried.check(node.ask("state") == state and not node.taken(), "nor does what can't be read")
    tried.check(node.deliver(good)[-1] == "ok" and len(node.taken()) == 1, "the message itself is taken")
    state = node.ask("state")
    for bytes_ in (good, sealed(key, message, 7, 0), sealed(key, message, 6, 1000), sealed(key, message, 0, 0), sealed(key, message, 6, 2**64 - 1)):
        tried.check(node.deliver(bytes_) == ["refused Stale"], "an old message", bytes_.hex())
    tried.check(node.ask("state") == state and not node.taken(), "old messages leave the node as it was")
    other = bytes.fromhex("010102000000")
    for own, bytes_ in ((message, sealed(key, message, 7, 2)), (other, sealed(key, other, 1, 1)), (message, sealed(key, message, 8, 0)), (message, sealed(key, message, 2**64 - 1, 2**64 - 1))):
        tried.check(node.deliver(bytes_)[-1] == "ok" and node.deliver(bytes_) == ["refused Stale"], "a later message, and one of another sender", bytes_.hex())
    tried.check(node.ask("deliver " + sealed(key, other, 2, 1).hex().upper())[-1] == "ok", "upper case is read too")
    node.end()


class Cluster:
    """Three nodes whose messages are carried at once. The time is this script's own."""

    def __init__(self, tried, texts, lives=(b"",) * NODES):
        self.tried, self.files, self.now, self.answers, self.recorded = tried, [tried.file(own) for own in range(NODES)], 0, [], []
        self.nodes = [Node(tried, self.files[own], own, tried.key_file(texts), life=lives[own]) for own in range(NODES)]

    def restart(self, own, text, life=b""):
        self.nodes[own].end()
        self.nodes[own] = Node(self.tried, self.files[own], own, self.tried.key_file(text), life=life)

    def tell(self, lives, of=range(NODES)):
        """Tells all nodes the lives of these."""
        for node in self.nodes:
            for own in of:
                node.tell(own, lives[own])

    def carry(self):
        waiting = [(to, bytes_) for node in self.nodes for to, bytes_ in node.taken()]
        while waiting:
            to, bytes_ = waiting.pop(0)
            self.recorded.append((to, bytes_))
            self.answers.append(self.nodes[to].deliver(bytes_)[-1])
            waiting += self.nodes[to].taken()

    def pass_time(self, ms):
        for _tick in range(ms // 10):
            self.now += 10
            for node in self.nodes:
                node.ask(f"tick {self.now}")
            self.carry()

    def is_one(self):
        groups = [node.ask("state")[0].split() for node in self.nodes]
        return all(words[1] == "Normal" and words[7] == "0,1,2" and words[5] == groups[0][5] for words in groups)

    def unite(self):
        for _second in range(60):
            if self.is_one():
                return True
            self.pass_time(1000)
        return self.is_one()

    def end(self):
        return [node.end() for node in self.nodes]


def try_cluster(tried):
    """Three nodes become one group; all that was sent is sent again, spoiled and as it was, to each: no group changes."""
    cluster = Cluster(tried, SECRETS[0].hex() + "\n")
    tried.check(cluster.unite(), "three nodes become one group")
    tried.check(not any("Forged" in answer or "Stale" in answer for answer in cluster.answers), "what members send is taken")
    before = [node.ask("state") for node in cluster.nodes]
    for own, node in enumerate(cluster.nodes):
        senders = {bytes_[1 + 1] for to, bytes_ in cluster.recorded if to == own}
        tried.check(len(senders - {own}) == NODES - 1, "each heard both others", senders)
        again = [node.deliver(bytes_) for to, bytes_ in cluster.recorded if to == own]
        tried.check(again and all(answer == ["refused Stale"] for answer in again), "what was recorded is refused")
        spoiled = [node.deliver(bytes_[:4] + bytes([bytes_[4] ^ 1]) + bytes_[5:]) for _to, bytes_ in cluster.recorded]
        tried.check(all(answer == ["refused Forged"] for answer in spoiled), "and so spoiled")
    tried.check([node.ask("state") for node in cluster.nodes] == before, "no group changed")
    own = 1
    recorded = [(to, bytes_) for to, bytes_ in cluster.recorded if bytes_[2] == own]
    cluster.restart(own, SECRETS[0].hex())
    tried.check(cluster.unite(), "a node that was started anew is taken back")
    states = [node.ask("state") for node in cluster.nodes]
    for to, bytes_ in recorded:
        tried.check(cluster.nodes[to].deliver(bytes_) == ["refused Stale"], "what its last life sent is refused", bytes_.hex())
    tried.check([node.ask("state") for node in cluster.nodes] == states, "nothing came of it")
    tried.check(cluster.end() == [0] * NODES, "all end well")


LIVES = [hashlib.sha256(bytes([n])).digest()[:16] for n in range(8)]


def try_told(tried):
    """What goes to a node is sealed for the life that was told last of it, and for none before; a line that can't be read tells nothing."""
    node, key, told, number = Node(tried, tried.file(0), 0, tried.key_file(SECRETS[0].hex()), life=LIVES[0]), key_of(SECRETS[0]), {1: b"", 2: b""}, 0

    def seals(what):
        nonlocal number
        node.ask("check")
        sent = node.taken()
        tried.check([to for to, _ in sent] == [1, 2], "a message goes to each", sent)
        for to, bytes_ in sent:
            number += 1
            count = int.from_bytes(bytes_[-48:-40], "big")
            tried.check(bytes_ == sealed(key_for(key, told[to]), bytes_[:-48], count, number), what, (to, told, bytes_.hex()))

    seals("before a life was told, a message is sealed for none")
    for to, life in ((1, LIVES[1]), (2, LIVES[2]), (1, LIVES[3]), (0, LIVES[4]), (2, b""), (127, LIVES[5]), (1, LIVES[1]), (2, LIVES[1]), (1, b"")):
        node.tell(to, life)
        told[to] = life
        seals("a message is sealed for the life that was told last")
    node.tell(1, LIVES[6])
    told[1] = LIVES[6]
    good = LIVES[7].hex()
    for line in ("life", "life 1", "life  " + good, f"life 1  {good}", f"life 1 {good} ", f" life 1 {good}", f"life 1 {good} 1", f"life 128 {good}", f"life 256 {good}", f"life -1 {good}",
                 f"life 01 {good}", f"life {good} 1", f"life - {good}", f"life 1 {good[:-1]}", f"life 1 {good[:-2]}", f"life 1 {good}0", f"life 1 {good}00", f"life 1 {good[:-1]}g",
                 "life 1 --", "life 1 0", "life 1 00", f"Life 1 {good}", f"lives 1 {good}"):
        tried.check(node.ask(line) == ["bad"], "a line that tells no life", line)
    seals("a line that can't be read tells nothing")
    node.ask(f"life 1 {good.upper()}\nstate")
    told[1] = LIVES[7]
    seals("upper case is read too")
    node.end()
    node = Node(tried, tried.file(0), 0)
    tried.check(node.ask(f"life 1 {good}") == ["bad"], "without a key no life is told")
    node.end()


def try_own_life(tried):
    """A process with a life takes what either key sealed for this life, and nothing that was sealed for another one or for none."""
    keys, message = [key_of(secret) for secret in SECRETS], bytes.fromhex("010101000000")
    node = Node(tried, tried.file(0), 0, tried.key_file("\n".join(secret.hex() for secret in SECRETS)), life=LIVES[0])
    state = node.ask("state")
    others = [b"", LIVES[1], LIVES[0][:-1], LIVES[0] + b"\0"] + [LIVES[0][:at] + bytes([LIVES[0][at] ^ 1]) + LIVES[0][at + 1:] for at in range(16)]
    forged = [sealed(key_for(key, life), message, 7, 1) for key in keys for life in others]
    forged += [sealed(tag(key, b"dumgerok life 2" + LIVES[0]), message, 7, 1) for key in keys] + [sealed(key, message, 7, 1)[:-32] + tag(key, message + LIVES[0]) for key in keys]
    forged += [sealed(key_for(key_of(SECRETS[0], *other), LIVES[0]), message, 7, 1) for other in ((4,), (NODES, b"test"))] + [sealed(key_for(SECRETS[0], LIVES[0]), message, 7, 1)]
    for bytes_ in forged:
        tried.check(node.deliver(bytes_) == ["refused Forged"], "what was sealed for another life, or for none", bytes_.hex())
    tried.check(node.ask("state") == state and not node.taken(), "it leaves the node as it was")
    for number, key in enumerate(keys, 1):
        good = sealed(key_for(key, LIVES[0]), message, 7, number)
        tried.check(node.deliver(good)[-1] == "ok" and node.deliver(good) == ["refused Stale"], "what either key sealed for the own life is taken, once")
    node.end()


def try_recorded(tried):
    """100 recorded messages of a node that is gone, to a process that began later: a process with a life takes none of them. One without takes them, so they are good."""
    text, state = SECRETS[0].hex(), "state"
    for life in (LIVES[1], b""):
        gone = Node(tried, tried.file(1), 1, tried.key_file(text))
        gone.tell(0, life)
        for _check in range(100):
            gone.ask("check")
        recorded = [bytes_ for to, bytes_ in gone.taken() if to == 0]
        gone.end()
        tried.check(len(recorded) == 100, "100 messages were recorded", len(recorded))
        file, taken = tried.file(0), []
        for own in (life, LIVES[2]):
            node = Node(tried, file, 0, tried.key_file(text), life=own)
            before = node.ask(state)
            taken.append([node.deliver(bytes_)[-1] for bytes_ in recorded])
            if own != life:
                tried.check(node.ask(state) == before and not node.taken(), "nothing came of them")
            node.end()
        tried.check(taken[0] == ["ok"] * 100, "the process that they were sealed for takes them", taken[0])
        tried.check(taken[1] == ["refused Forged"] * 100, "one that began later takes none", taken[1])


def try_lives(tried):
    """Three nodes with lives become one group once they are told; one that was started anew is heard again when its life is told, and what its last process got is worth nothing."""
    text, lives = SECRETS[0].hex(), LIVES[:NODES]
    cluster = Cluster(tried, text, lives)
    cluster.pass_time(1000)
    tried.check(cluster.answers and set(cluster.answers) == {"refused Forged"}, "nothing is taken before the lives are told", set(cluster.answers))
    cluster.tell(lives)
    cluster.answers.clear()
    tried.check(cluster.unite(), "three nodes become one group")
    tried.check(not any("refused" in answer for answer in cluster.answers), "no message was refused")
    recorded = [bytes_ for to, bytes_ in cluster.recorded if to == 1]
    lives[1] = LIVES[NODES]
    cluster.restart(1, text, lives[1])
    state = cluster.nodes[1].ask("state")
    tried.check(recorded and all(cluster.nodes[1].deliver(bytes_) == ["refused Forged"] for bytes_ in recorded), "what came to its last process is refused")
    tried.check(cluster.nodes[1].ask("state") == state, "nothing came of it")
    cluster.nodes[1].tell(0, lives[0])
    cluster.nodes[1].tell(2, lives[2])
    cluster.tell(lives, of=[1])
    tried.check(cluster.unite(), "one group, where its life is told")
    tried.check(cluster.end() == [0] * NODES, "all end well")


def try_rotation(tried):
    """The new key is added, comes first, and is alone, each by a rolling restart; all that is sent meanwhile is taken."""
    one, two = (secret.hex() for secret in SECRETS)
    cluster = Cluster(tried, one)
    tried.check(cluster.unite(), "three nodes become one group")
    for text in (f"{one}\n{two}\n", f"{two}\n{one}\n", f"{two}\n"):
        for own in range(NODES):
            cluster.answers.clear()
            cluster.restart(own, text)
            tried.check(cluster.unite(), "one group after a restart")
            tried.check(cluster.answers and not any("Forged" in answer for answer in cluster.answers), "no message was refused")
    cluster.restart(0, one)
    cluster.answers.clear()
    cluster.pass_time(1000)
    tried.check("refused Forged" in cluster.answers, "the old key is worth nothing then")
    cluster.end()


def status(tried, words, invite=None, user=None):
    done = program.run(invite or tried.program, ["node", *words], b"", user=user)
    return done.returncode, done.stderr.decode()


def try_files(tried):
    file, good = tried.file(0), SECRETS[0].hex()
    place = [file, "0", str(NODES)]
    for text in (good, good + "\n", good.upper() + "\n", good + "\n" + SECRETS[1].hex(), good + "\n" + SECRETS[1].hex() + "\n"):
        for mode in (0o600, 0o400):
            tried.check(status(tried, [*place, "--key", tried.key_file(text, mode), "--cluster", "c"]) == (0, ""), "a key file", (text, mode))
    wrong = ["", "\n", good[:-1], good[:-2], good + "0", good + "00", good + " ", " " + good, good + "\r\n", good + "\n\n", "\n" + good, good[:-1] + "g", "-", good + "\n" + good[:-1],
             good + "\n-\n", good + "\n" + good + "\n\n", (good + "\n") * 3, good + "\n" + "g" * 64, good * 100]
    for text in wrong:
        path = tried.key_file(text)
        done, said = status(tried, [*place, "--key", path, "--cluster", "c"])
        tried.check(done == 6 and said.startswith(f"invite: {path}: "), "a file that isn't one of keys", (text[:70], done, said))
    for bit in range(6):
        tried.check(status(tried, [*place, "--key", tried.key_file(good, 0o600 | 1 << bit), "--cluster", "c"])[0] == 6, "a key file that is open to others", bit)
    for path in (f"{tried.folder}/none", tried.folder, "/dev/null"):
        tried.check(status(tried, [*place, "--key", path, "--cluster", "c"])[0] == 6, "no file of keys", path)
    if os.getuid() == 0:
        invite = shutil.copy(tried.program, f"{tried.folder}/program")
        os.chmod(invite, 0o755)
        os.chmod(tried.folder, 0o711)
        try:
            tried.check(status(tried, [*place, "--key", tried.key_file(good), "--cluster", "c"], invite, 65534)[0] == 6, "a key file of another user")
        except (OSError, subprocess.SubprocessError):
            print("sealed.py: the program can't be run as another user, so no key file was denied")
    for words in (["--key", tried.key_file(good)], ["--cluster"], ["--key"], ["--key", "a", "--cluster"]):
        tried.check(status(tried, [*place, *words])[0] == 2, "a key is given with a cluster's name", words)
    given = [*place, "--key", tried.key_file(good), "--cluster", "c", "--life"]
    tried.check(status(tried, [*given, LIVES[0].hex()]) == (0, "") and status(tried, [*given, LIVES[0].hex().upper()]) == (0, ""), "a life")
    for life in ("", "-", "00", LIVES[0].hex()[:-1], LIVES[0].hex()[:-2], LIVES[0].hex() + "0", LIVES[0].hex() + "00", LIVES[0].hex()[:-1] + "g"):
        tried.check(status(tried, [*given, life])[0] == 2, "what is no life", life)
    for words in ([*given], [*place, "--life", LIVES[0].hex()], [*place, "--cluster", "c", "--life", LIVES[0].hex()]):
        tried.check(status(tried, words)[0] == 2, "a life is given with a key", words)
    tried.check(status(tried, [*place, "--cluster", "c"]) == (0, ""), "a cluster's name may stand alone")
    tried.check(status(tried, ["--cluster", "c", "--key", tried.key_file(good), *place]) == (0, ""), "options may stand in front")


def try_none(tried):
    """Without a key messages go as they are, and come so."""
    node = Node(tried, tried.file(0), 0)
    tried.check(node.ask("check") == ["send 1 010100010000", "send 2 010100020000", "ok"] or node.sent[0][1].hex(), "without a key a message is as it is")
    tried.check(node.ask("deliver 010101000000")[-1] == "ok" and node.ask("deliver 010101000000")[-1] == "ok", "and is taken as it is")
    tried.check(node.deliver(sealed(key_of(SECRETS[0]), bytes.fromhex("010101000000"), 1, 1)) == ["bad"], "a sealed one isn't")
    node.end()


def main():
    if len(sys.argv) != 2:
        sys.exit(__doc__)
    with tempfile.TemporaryDirectory() as folder:
        tried = Tried(program.named(), folder)
        for one in (try_vectors, try_going, try_coming, try_told, try_own_life, try_recorded, try_cluster, try_lives, try_rotation, try_files, try_none):
            one(tried)
    return tried.close()


sys.exit(main())
