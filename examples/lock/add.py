#!/usr/bin/env python3
"""Adds to a number in an SQLite file, under a lease, and is refused once a later one has added.

    dumgerokctl lock counter --wait -- add.py FILE [TIMES]

The row is (epoch, value). Whoever adds under $DUMGEROK_EPOCH leaves that epoch there, and where a greater one stands nothing is written: a writer that slept,
or whose clock stood still, has no effect.
"""
import os, sqlite3, sys

epoch, path, times = int(os.environ["DUMGEROK_EPOCH"]), sys.argv[1], int(sys.argv[2]) if len(sys.argv) > 2 else 1
# as text of 20 digits, which compare as the numbers do: an epoch may have 64 bits, and a number of SQLite has 63
token = "%020d" % epoch
base = sqlite3.connect(path, timeout=10, isolation_level=None)
base.execute("create table if not exists counter (id integer primary key check (id = 0), epoch text, value integer)")
base.execute("insert or ignore into counter values (0, '', 0)")
for _ in range(times):
    if base.execute("update counter set epoch = ?, value = value + 1 where epoch <= ?", (token, token)).rowcount == 0:
        sys.exit("add.py: refused: a later lease has added")
print(base.execute("select value from counter").fetchone()[0])
