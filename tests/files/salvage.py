#!/usr/bin/env python3
"""What `export --salvage` gives of files that are damaged.

    salvage.py PROGRAM [--long]

Of the files of nodes, with sectors packed and apart, one bit is flipped at a time. Of those that no mounting takes any more at least 98 of 100 have to give all
jobs and no other, by a model of docs/FORMATS.md; of some of them the program has to give the model's jobs, its status and what it says on standard error. So it does
of files of which whole sectors are lost. A file that is whole gives what `export` gives, and `format --jobs` takes what is salvaged. With --long there are ten
times as many. The last line counts the checks."""
import concurrent.futures, os, random, sys, tempfile

sys.path.append(os.path.join(os.path.dirname(os.path.abspath(__file__)), ".."))
from common import program
from file_model import LABEL, SECTOR, File, Refused, flipped, job_lines
from verify import Tried, node_file

# The slots of a file, its stride, and how long its payloads are.
FILES = [(8, 512, 60), (16, 4096, 100), (24, 512, 300), (64, 512, 40), (64, 512, 200)]


def salvaged(tried, image, name):
    """What is printed of a file, its status, and what is said of it."""
    path = os.path.join(tried.room, name)
    with open(path, "wb") as file:
        file.write(image)
    ended = program.run(tried.program, ["export", "--salvage", path])
    os.unlink(path)
    return ended.stdout, ended.returncode, ended.stderr


def wanted(image):
    jobs, said = File(image).salvaged()
    return job_lines(jobs), 1 if said else 0, "".join(f"invite: {line}\n" for line in said)


def judge(tried, images):
    """What the program gives of each of these, and of how many that isn't what the model gives."""
    with concurrent.futures.ThreadPoolExecutor(os.cpu_count()) as several:
        given = list(several.map(lambda pair: salvaged(tried, pair[1], f"image{pair[0]}"), enumerate(images)))
    return given, sum(1 for image, gives in zip(images, given) if gives != wanted(image))


def mounts(image):
    try:
        File(image).mounted()
        return True
    except Refused:
        return False


def refused(data, chance, count):
    """So many files that no mounting takes, each with one bit flipped."""
    while count:
        image = flipped(data, chance.randrange(len(data) - LABEL), chance.randrange(8))
        if not mounts(image):
            count -= 1
            yield image


def damaged(data, chance, count):
    """So many files of which one sector to three are lost, or the first one of the others in its place."""
    stride = File(data).stride
    for _ in range(count):
        image = bytearray(data)
        for _ in range(chance.randrange(1, 4)):
            at, other = (chance.randrange(File(data).sectors) * stride for _ in range(2))
            image[at:at + SECTOR] = chance.choice([bytes(SECTOR), b"\xff" * SECTOR, chance.randbytes(SECTOR), data[other:other + SECTOR], b"\xa5" + bytes(SECTOR - 1)])
        yield bytes(image)


def again(tried, text, slots, name):
    """What was salvaged begins another file."""
    path = os.path.join(tried.room, "again")
    made = program.run(tried.program, ["format", path, str(slots), "0", "3", "9000", "--jobs", "-"], text)
    exported = program.run(tried.program, ["export", path])
    tried.check(made.returncode == 0 and exported.stdout == text, f"{name}: what was salvaged isn't taken: {made}")
    if os.path.exists(path):
        os.unlink(path)


def main():
    many = 10 if sys.argv[2:] == ["--long"] else 1
    chance = random.Random(12)
    flips = whole = 0
    with tempfile.TemporaryDirectory(dir=program.MEMORY) as room:
        tried = Tried(program.named(), room)
        for slots, stride, longest in FILES:
            name = f"{slots} slots, stride {stride}"
            data = node_file(tried, slots, stride, longest, chance)
            jobs = job_lines(File(data).mounted().jobs)
            tried.check(jobs and salvaged(tried, data, "whole") == (jobs, 0, ""), f"{name}: a file that is whole gives something else than its jobs")
            images = list(refused(data, chance, 1_000 * many))
            flips, whole = flips + len(images), whole + sum(1 for image in images if wanted(image)[0] == jobs)
            given, wrong = judge(tried, images[:200 * many])
            tried.check(not wrong, f"{name}: {wrong} of {len(given)} flips give something else")
            again(tried, given[0][0], slots, name)
            images = list(damaged(data, chance, 80 * many))
            _, wrong = judge(tried, images)
            tried.check(not wrong, f"{name}: {wrong} of {len(images)} files with lost sectors give something else")
        print(f"salvage.py: of {flips} files with a flipped bit that aren't mounted {whole} give all jobs and no other")
        tried.check(100 * whole >= 98 * flips > 0, "fewer than 98 of 100 give all jobs and no other")
    return tried.close()


if __name__ == "__main__":
    sys.exit(main())
