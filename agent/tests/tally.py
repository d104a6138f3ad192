"""Counts the checks of one playing of a scene. A check that fails is printed; what can't be tried here is named, and isn't counted as passed."""
import threading, time

BEGAN = time.monotonic()


class Tally:
    def __init__(self):
        self.passed, self.failed, self.late, self.seen, self.lock = 0, [], [], set(), threading.Lock()

    def check(self, name, is_so, said=""):
        """A check that no load of the machine makes fail."""
        return self.count(name, is_so, said, self.failed, "FAILED")

    def timed(self, name, is_so, said=""):
        """A check of a time, or of what a busy machine can bring about. Where such ones alone fail the scene is played again, alone."""
        return self.count(name, is_so, said, self.late, "late")

    def steady(self, agents):
        """A check of what holds as long as the group is the one of now: where it changed meanwhile, which a busy machine can bring about, it is timed."""
        groups = agents.groups()
        return lambda name, is_so, said="": (self.check if is_so or agents.groups() == groups else self.timed)(name, is_so, said)

    def count(self, name, is_so, said, failures, word):
        with self.lock:
            if is_so:
                self.passed += 1
            else:
                failures.append(name)
                print("%s: %s%s" % (word, name, ": %s" % (said,) if said != "" else ""), flush=True)
        return is_so

    def left_out(self, what, why):
        print("left out: %s: %s" % (what, why), flush=True)

    def note(self, text):
        print("%6.1f s  %s" % (time.monotonic() - BEGAN, text), flush=True)
