"""How a script of tests counts its checks, and what its last line says: 'N passed, M failed'. A script in shell has tally.sh."""
import os
import sys


class Tally:
    """What passed, and what failed, of which so many are printed."""

    shown = 200

    def __init__(self):
        self.passed = self.failed = 0

    def mark(self, problem, *what):
        """Counts a check of this. A problem that is no empty text is a failure."""
        if not problem:
            self.passed += 1
            return True
        self.failed += 1
        if self.failed <= self.shown:
            print(f"{' '.join(one if isinstance(one, str) else repr(one) for one in ('FAILED', *what)):.600}: {problem}", flush=True)
        return False

    def check(self, holds, *what):
        """Counts a check by whether it holds."""
        return self.mark("" if holds else "it isn't so", *what)

    def same(self, found, wanted, *what):
        """Counts a check of what was found."""
        return self.mark("" if found == wanted else f"there is {found!r:.500} in place of {wanted!r:.500}", *what)

    def fail(self, problems):
        """Counts these as failures."""
        for problem in problems:
            self.mark(problem)

    def add(self, passed, failed):
        """Counts what was counted elsewhere."""
        self.passed, self.failed = self.passed + passed, self.failed + failed

    def close(self):
        """Prints the last line. The status of the script: it fails where a check failed, or where none was made."""
        print(f"{self.passed} passed, {self.failed} failed")
        return 0 if self.passed and not self.failed else 1


def left_out(why):
    """Ends a script that can't try what it is for, as one that made no check and that didn't fail."""
    print(f"{os.path.basename(sys.argv[0])}: {why}\n0 passed, 0 failed")
    sys.exit(0)
