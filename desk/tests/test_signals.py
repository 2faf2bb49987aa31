"""A command that a signal stops: it ends soon, with all that it has begun, and says nothing more."""

import os
import signal
import subprocess
import time
import unittest

from tests.support import DESK, Room
from tilugba.signals import SIGNALS, Signalled, signals_raised

VERDICTS = "".join(f"c{it} accepted start 0 scale 2 total 1.00 horizon 5\\n" for it in range(9))
QUESTION = "--at", "0", "--from", "A", "--to", "B", "--asset", "EUR"
HELLO = b'{"id": 1, "method": "initialize"}'
HELLO = b"Content-Length: %d\r\n\r\n%b" % (len(HELLO), HELLO)
LATE = 60.0


def as_usual() -> None:
    """No signal is ignored, as some are below `nohup` or behind `&`, where this test may run."""
    for it in SIGNALS:
        signal.signal(it, signal.SIG_DFL)


class Stopped(Room):
    def setUp(self) -> None:
        super().setUp()
        self.ids = self.folder / "ids"
        self.ids.mkdir()
        self.file("book.txt", "portfolio 1;")
        # Its verdicts are there at once, and anything else takes a minute.
        self.slow = self.script(
            "slow",
            f'#!/bin/sh\nif [ "$1" = check ]; then printf "{VERDICTS}"; exit; fi\n'
            f'touch {self.ids}/$$; exec sleep 60\n',
        )

    def stopped(self, number: int, *words: str, said: bytes = b"") -> None:
        """Starts a command, sends it a signal when the program runs, or when it has answered what
        it was said, and looks for what is left.
        """
        pipes = {it: subprocess.PIPE for it in ("stdin", "stdout", "stderr")}
        started = subprocess.Popen(
            [DESK / "tilugba-desk", words[0], "--program", self.slow, *words[1:]],
            cwd=self.folder,
            preexec_fn=as_usual,
            **pipes,
        )
        self.addCleanup(started.communicate)
        self.addCleanup(started.kill)
        if said:
            started.stdin.write(said)
            started.stdin.flush()
            self.assertTrue(started.stdout.readline())
            started.stdout.read1()
        until = time.monotonic() + LATE
        while not said and not list(self.ids.iterdir()):
            self.assertLess(time.monotonic(), until)
            time.sleep(0.01)
        started.send_signal(number)
        self.assertEqual(started.wait(LATE), 128 + number)
        self.assertEqual((started.stdout.read(), started.stderr.read()), (b"", b""))
        for it in self.ids.iterdir():
            with self.assertRaises(ProcessLookupError):
                os.kill(int(it.name), 0)
            it.unlink()

    def test_one_run(self) -> None:
        for number in SIGNALS:
            with self.subTest(number=number):
                self.stopped(number, "explain", "flows", "book.txt")

    def test_runs_in_threads(self) -> None:
        for number in (signal.SIGINT, signal.SIGTERM):
            with self.subTest(number=number):
                self.stopped(number, "value-book", *["book.txt"] * 3, *QUESTION)

    def test_the_language_server(self) -> None:
        for number in (signal.SIGINT, signal.SIGTERM):
            with self.subTest(number=number):
                self.stopped(number, "language-server", said=HELLO)


class Raised(unittest.TestCase):
    def test_handlers_are_put_back(self) -> None:
        before = [signal.getsignal(it) for it in SIGNALS]
        ended: list[str] = []
        with self.assertRaises(Signalled) as raised, signals_raised(lambda: ended.append("all")):
            signal.raise_signal(signal.SIGTERM)
        self.assertEqual((raised.exception.status, ended), (143, ["all"]))
        self.assertEqual([signal.getsignal(it) for it in SIGNALS], before)

    def test_one_that_is_ignored_stays_so(self) -> None:
        before = signal.signal(signal.SIGHUP, signal.SIG_IGN)
        try:
            with signals_raised(lambda: None):
                signal.raise_signal(signal.SIGHUP)
        finally:
            signal.signal(signal.SIGHUP, before)


if __name__ == "__main__":
    unittest.main()
