"""beat.py FILE [stubborn]: a command that is led: writes the clock (CLOCK_MONOTONIC, which no test turns) to a file of its own each 5 ms, or $BEAT_MS, behind a
line of its environment. It passes SIGTERM over where it is stubborn."""
import os, signal, sys, time

pause = int(os.environ.get("BEAT_MS", "5")) / 1000
if "stubborn" in sys.argv[2:]:
    signal.signal(signal.SIGTERM, signal.SIG_IGN)
# the number of a process may be had again
with open("%s.%d.%d" % (sys.argv[1], os.getpid(), time.monotonic_ns()), "x", buffering=1) as out:
    out.write("# %s %s %s %s\n" % tuple(os.environ.get("DUMGEROK_" + name) for name in ("GROUP", "MEMBERS", "EPOCH", "SHARD")))
    while True:
        out.write("%.4f\n" % time.monotonic())
        time.sleep(pause)
