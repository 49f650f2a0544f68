"""Recording: strace's logs of real commands, and how a recording ends. These need strace; without it they are skipped."""
from __future__ import annotations

import os
import shutil
import signal
import subprocess
import sys
import tempfile
import time
import unittest
from pathlib import Path
from typing import Callable

from here import TOP
from checking.samples import traced_by
from reading.calls import read_log

LONGEST = 120


def wait_for(condition: Callable[[], bool]):
    """Waits until something is so; the answer is whether it came."""
    deadline = time.monotonic() + LONGEST
    while not condition() and time.monotonic() < deadline:
        time.sleep(0.05)
    return condition()


def take_signals():
    """What runs these tests may ignore signals, as nohup(1) does, and so would what they run."""
    for number in (signal.SIGTERM, signal.SIGHUP):
        signal.signal(number, signal.SIG_DFL)


@unittest.skipUnless(shutil.which("strace"), "there is no strace")
class Ending(unittest.TestCase):
    def record(self, folder: str, script: str):
        """A recording of a shell script that goes on, once the script has made the file `there`."""
        log, pid = Path(folder) / "log", Path(folder) / "pid"
        command = [sys.executable, TOP / "record", "--pid-file", pid, log, "--", "sh", "-c", script]
        process = subprocess.Popen(command, cwd=folder, stdin=subprocess.DEVNULL, stdout=subprocess.DEVNULL, stderr=subprocess.DEVNULL,
                                   preexec_fn=take_signals)
        self.assertTrue(wait_for((Path(folder) / "there").exists))
        self.assertTrue(wait_for(lambda: pid.exists() and pid.read_text("ascii") != ""))
        return process, log, int(pid.read_text("ascii"))

    def test_a_signal_ends_all_that_is_traced(self):
        for number in (signal.SIGTERM, signal.SIGHUP):
            with self.subTest(number), tempfile.TemporaryDirectory() as folder:
                process, log, tracer = self.record(folder, "sleep 1000 & > there; sleep 1000; echo no")
                process.send_signal(number)
                self.assertEqual(process.wait(LONGEST), 128 + number)
                self.assertEqual(traced_by(tracer), [])
                self.assertEqual({end.signal for end in read_log(log).ends}, {number.name})

    def test_what_ignores_the_signal_is_killed(self):
        with tempfile.TemporaryDirectory() as folder:
            process, log, tracer = self.record(folder, "trap '' TERM; > there; while :; do sleep 0.1; done")
            process.send_signal(signal.SIGTERM)
            self.assertEqual(process.wait(LONGEST), 128 + signal.SIGKILL)
            self.assertEqual(traced_by(tracer), [])
            self.assertIn("SIGKILL", {end.signal for end in read_log(log).ends})

    def test_the_status_is_the_commands(self):
        with tempfile.TemporaryDirectory() as folder:
            done = subprocess.run([sys.executable, TOP / "record", Path(folder) / "log", "--", "sh", "-c", "exit 7"], check=False,
                                  stderr=subprocess.DEVNULL, env=dict(os.environ))
            self.assertEqual(done.returncode, 7)


if __name__ == "__main__":
    unittest.main()
