"""Calls that are refused for want of memory and made again: of the tests of CRATES each allocation is refused in turn, until a run has none that
is. Those tests ask again where they are refused, tell it by a line `refused`, and compare with a twin that never was."""
import os, subprocess, tempfile
import shim

TOP = os.path.abspath(os.path.join(os.path.dirname(os.path.abspath(__file__)), "..", ".."))
# Of each crate its test. `rt ci`, as `rt test` in its folder, leaves the program of its tests in out/.
CRATES = [("core_tests", "tests::refused::refused_feed"), ("thread_tests", "tests::refused::refused_step"), ("thread_tests", "tests::turns::refused_next")]
SECONDS = 600


def run(program, name, env):
    """The status of one test in a process of its own, and what it tells."""
    ended = subprocess.run([program, name], stdin=subprocess.DEVNULL, stdout=subprocess.PIPE, stderr=subprocess.STDOUT, timeout=SECONDS, env=env)
    return ended.returncode, ended.stdout


def try_test(tried, library, noted, program, name):
    refused, at = 0, 0
    while True:
        at += 1
        status, out = run(program, name, shim.environment(library, noted, REFUSE_AT=at))
        total = shim.read_noted(noted)[1]
        tried.mark("" if status == 0 and b"test result: ok" in out else f"status {status}, it tells {out[-300:]!r}", (name, "allocation", at))
        refused += b"refused" in out
        if total < at or at > 20_000:
            break
    tried.mark("" if total and total < at else f"{total} allocations were counted", name)
    tried.mark("" if refused else "no call was refused", name)
    tried.count("calls that were refused and made again", refused)


def try_refused(tried):
    with tempfile.TemporaryDirectory() as folder:
        library = shim.built(folder)
        if library is None:
            print("there is no C compiler cc, so no call was refused")
            return
        for crate, name in CRATES:
            program = os.path.join(TOP, "crates", crate, "out", crate + "_tests")
            if tried.mark("" if os.access(program, os.X_OK) else f"there is no {program}: `rt test` in its folder makes it", crate):
                try_test(tried, library, os.path.join(folder, "noted"), program, name)
