#!/usr/bin/env python3
"""A leader by the Python client: who has the lease writes its epoch to a file, a line each time, and nobody else does meanwhile.

    leader.py lead NAME FILE           while it leads, again and again
    leader.py lock NAME FILE COUNT     so many lines, once, under a lock
    leader.py wait NAME FILE           as lead, by asyncio

A process that was stopped between its look at the lease and its step may come late: a resource that can refuses smaller epochs than it has seen, as that of
examples/lock/add.py does.
"""
import asyncio, sys, time

import dumgerok

STEP = 0.005


def write(lease, file):
    file.write("%d\n" % lease.epoch)


def lead(name, file):
    for lease in dumgerok.Agent().lead(name):
        while lease.lasts():
            write(lease, file)
            time.sleep(STEP)


async def wait(name, file):
    async for lease in dumgerok.AsyncAgent().lead(name):
        while lease.lasts():
            write(lease, file)
            await asyncio.sleep(STEP)


def lock(name, file, count):
    with dumgerok.Agent().lock(name) as lease:
        for _ in range(count):
            if not lease.lasts():
                break                       # with `Lost`
            write(lease, file)
            time.sleep(STEP)
    print("done under epoch %d" % lease.epoch)


def main():
    kind, name, path, *count = sys.argv[1:] if len(sys.argv) > 3 else sys.exit(__doc__)
    with open(path, "a", buffering=1) as file:
        if kind == "lock":
            lock(name, file, int(count[0]))
        elif kind == "wait":
            asyncio.run(wait(name, file))
        else:
            lead(name, file)


if __name__ == "__main__":
    main()
