"""What the parts of tests/beside have in common: counting, running, and numbers at random that are the same on each machine."""

import os
import signal
import subprocess
import sys

TOP = os.path.realpath(os.path.join(os.path.dirname(os.path.abspath(__file__)), "..", ".."))
EXAMPLES = os.path.join(TOP, "examples")
CASES = os.path.join(TOP, "tests", "cases")


class Bench:
    """Counts what holds, and says what does not."""

    def __init__(self):
        self.passed = self.failed = 0
        # What a part has started is ended too if the part is stopped.
        signal.signal(signal.SIGTERM, lambda *_: sys.exit(143))

    def judge(self, holds, said):
        if holds:
            self.passed += 1
        else:
            self.failed += 1
            print(said, flush=True)
        return holds

    def same(self, title, want, got):
        """Two things have to be equal; it is said where they begin to differ, or of dictionaries what does."""
        if isinstance(want, dict) and isinstance(got, dict):
            keys = sorted(key for key in want.keys() | got.keys() if want.get(key) != got.get(key))
            want, got = ({key: one[key] for key in keys if key in one} for one in (want, got))
        begin = max(0, len(os.path.commonprefix([repr(want), repr(got)])) - 80)
        return self.judge(want == got, f"{title}: wanted\n{repr(want)[begin:begin + 400]}\ngot\n{repr(got)[begin:begin + 400]}")

    def end(self):
        print(f"{self.passed} passed, {self.failed} failed")
        sys.exit(0 if self.failed == 0 else 1)


def run(*words, folder=None, **more):
    """The status of a command and what it prints; what it says beside that is the third."""
    done = subprocess.run(words, cwd=folder, stdin=subprocess.DEVNULL, capture_output=True, timeout=900, check=False, **more)
    return done.returncode, done.stdout.decode("utf-8", "replace"), done.stderr.decode("utf-8", "replace")


def read(*path):
    with open(os.path.join(*path), encoding="utf-8", newline="") as file:
        return file.read()


def write(text, *path):
    with open(os.path.join(*path), "w", encoding="utf-8", newline="") as file:
        file.write(text)


class Dice:
    def __init__(self, seed):
        self.state = seed
        for _ in range(4):
            self.below(2)

    def below(self, most):
        self.state = (self.state * 6364136223846793005 + 1442695040888963407) % 2 ** 64
        return (self.state >> 33) % most

    def between(self, low, high):
        return low + self.below(high - low + 1)

    def one(self, things):
        return things[self.below(len(things))]

    def chance(self):
        return self.below(2) == 1
