"""Builds the replay, and runs it and uxrun so that a signal ends all that was begun."""
from __future__ import annotations

import os
import shutil
import signal
import subprocess
import sys
import tempfile
import threading
import time
from pathlib import Path
from typing import Callable

from reference.calls import BYTES_PLACE, FORMS

COMPARE = Path(__file__).resolve().parent.parent
TOP = COMPARE.parent
PATIENCE = int(os.environ.get("PATIENCE", "120"))
PATIENCE_AT_THE_END = 5
TURNS_AT_THE_END = 10
ENDING = (signal.SIGINT, signal.SIGTERM, signal.SIGHUP)


class Trouble(Exception):
    """Something without which nothing can be compared, said with what to do about it."""


class Stopped(Exception):
    """A signal asked the program to end."""


class Interrupted(BaseException):
    """A signal ends the program, with 128 and its number as the status."""

    def __init__(self, number: int):
        super().__init__()
        self.status = 128 + number


def call_shapes() -> str:
    """For parent.c of the replay: how many words each call has behind its process, and which of them are bytes."""
    rows = (f'{{"{word}", {len(form.kinds) + 1}, {BYTES_PLACE[word] + 1 if word in BYTES_PLACE else 0}}}' for word, form in FORMS.items())
    return f"-DCALL_SHAPES={', '.join(rows)}"


class Programs:
    """The programs that a run of the comparison has begun, in a folder that goes with it."""

    open_ones: list[Programs] = []

    def __init__(self) -> None:
        self.running: set[subprocess.Popen] = set()
        self.lock = threading.Lock()
        self.is_stopped = False
        signal.pthread_sigmask(signal.SIG_BLOCK, ENDING)
        self.folder = Path(tempfile.mkdtemp(prefix="compare."))
        self.open_ones.append(self)
        signal.pthread_sigmask(signal.SIG_UNBLOCK, ENDING)

    def run(self, words: list[str], patience: int = PATIENCE) -> tuple[int, str, str]:
        """Runs a program to its end, and answers its status, output and errors, a character for each byte."""
        with self.lock:
            if self.is_stopped:
                raise Stopped
            program = subprocess.Popen(words, stdin=subprocess.DEVNULL, stdout=subprocess.PIPE, stderr=subprocess.PIPE,
                                       env={**os.environ, "TMPDIR": str(self.folder), "LC_ALL": "C"}, start_new_session=True)
            self.running.add(program)
        try:
            output, errors = program.communicate(timeout=patience)
        except subprocess.TimeoutExpired:
            program.terminate()
            output, errors = program.communicate()
            errors += f"ended after {patience} seconds".encode()
        finally:
            with self.lock:
                self.running.discard(program)
        if self.is_stopped:
            raise Stopped
        return program.returncode, output.decode("latin-1"), errors.decode("latin-1")

    def build_replay(self) -> Path:
        """Compiles the replay, or takes the one that the variable REPLAY names."""
        if os.environ.get("REPLAY"):
            return Path(os.environ["REPLAY"]).resolve()
        path = self.folder / "linux_replay"
        flags = os.environ.get("CFLAGS", "-O2 -Wall -Wextra").split()
        sources = sorted(map(str, (COMPARE / "replay").glob("*.c")))
        status, _, errors = self.run([os.environ.get("CC", "cc"), "-std=gnu11", *flags, call_shapes(), "-o", str(path), *sources])
        if status != 0:
            raise Trouble(f"the replay can't be compiled: install a C compiler, or name one by the variable CC\n{errors}")
        path.chmod(0o755)
        return path

    def stop(self) -> None:
        """Ends all programs, and waits until they have tidied up."""
        with self.lock:
            self.is_stopped = True
            running = list(self.running)
        for program in running:
            send_group(program, signal.SIGTERM)
        for program in running:
            try:
                program.wait(timeout=PATIENCE_AT_THE_END)
            except subprocess.TimeoutExpired:
                program.kill()
            send_group(program, signal.SIGKILL)

    def close(self) -> list[str]:
        """Ends what runs, takes the folder away, and tells which files a replay left there."""
        self.stop()
        left = [path.name for path in self.folder.glob("linux_replay.*")]
        for _ in range(TURNS_AT_THE_END):
            shutil.rmtree(self.folder, ignore_errors=True)
            if not self.folder.exists():
                break
            time.sleep(0.02)
        return left


def send_group(program: subprocess.Popen, number: int) -> None:
    """Sends a program and what it has begun a signal."""
    try:
        os.killpg(program.pid, number)
    except (ProcessLookupError, PermissionError):
        return


def raise_interrupted(number: int, _frame: object) -> None:
    """What a signal does: the program ends once it has tidied up."""
    for caught in ENDING:
        signal.signal(caught, signal.SIG_IGN)
    raise Interrupted(number)


def catch_signals() -> None:
    """Has the signals that end a program end this one in order."""
    for number in ENDING:
        signal.signal(number, raise_interrupted)


def run_main(main: Callable[[], int]) -> None:
    """Runs a program's main function and ends with its status; who reads no more of the output ends it too.

    Where it is interrupted, nobody waits for a thread that reckons on.
    """
    catch_signals()
    try:
        status = main()
        sys.stdout.flush()
    except BrokenPipeError:
        os.dup2(os.open(os.devnull, os.O_WRONLY), sys.stdout.fileno())
        status = 1
    except Interrupted as interrupted:
        for programs in Programs.open_ones:
            programs.close()
        os._exit(interrupted.status)
    sys.exit(status)


def complain(text: str) -> None:
    """Says what is wrong on standard error."""
    print(f"compare: {text}", file=sys.stderr, flush=True)
