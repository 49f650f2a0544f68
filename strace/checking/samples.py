"""Records a program and reads /proc beside it: which process has which descriptor, some forty times a second."""
from __future__ import annotations

import json
import os
import signal
import subprocess
import sys
import tempfile
import time
from pathlib import Path
from typing import TYPE_CHECKING

if TYPE_CHECKING:
    from reading.programs import Program

PAUSE = 0.015
LONGEST_RUN = 60


def traced_by(tracer: int):
    """The processes that strace follows, by /proc: who left its parent is one of them still."""
    found = []
    for name in os.listdir("/proc"):
        if name.isdigit():
            try:
                status = Path(f"/proc/{name}/status").read_text("latin-1")
            except OSError:
                continue
            if f"TracerPid:\t{tracer}\n" in status and "State:\tZ" not in status:
                found.append(int(name))
    return found


def descriptors_of(process: int):
    """The descriptors of a process with what they lead to, or None where it ended meanwhile."""
    found = {}
    try:
        for name in os.listdir(f"/proc/{process}/fd"):
            try:
                found[int(name)] = os.readlink(f"/proc/{process}/fd/{name}")
            except FileNotFoundError:
                continue
    except OSError:
        return None
    return found


def sample(tracer: int):
    begin = time.time()
    tables = {process: descriptors_of(process) for process in traced_by(tracer)}
    return {"begin": begin, "end": time.time(), "tables": {key: value for key, value in tables.items() if value is not None}}


def record_with_samples(program: Program, folder: Path, record: Path):
    """The log of a program and what /proc said meanwhile; logs that are there already aren't made again."""
    log, kept = folder / f"{program.name}.log", folder / f"{program.name}.proc"
    if log.is_file() and kept.is_file():
        return log, load_samples(kept)
    with tempfile.TemporaryDirectory(prefix="d") as place:
        pid_file = Path(place) / "~pid"
        runs = Path(place) / "~run"
        runs.write_text(program.script(), "utf-8")
        work = Path(place) / "w"
        work.mkdir()
        command = [str(record), "--pid-file", str(pid_file), str(log.resolve()), "--", "sh", str(runs)]
        environment = {**os.environ, "PATH": "/usr/local/sbin:/usr/local/bin:/usr/sbin:/usr/bin:/sbin:/bin", "LC_ALL": "C"}
        process = subprocess.Popen([sys.executable, *command], cwd=work, env=environment, start_new_session=True,
                                   stdin=subprocess.DEVNULL, stdout=subprocess.DEVNULL, stderr=subprocess.DEVNULL)
        samples = watch(process, pid_file)
    kept.write_text(json.dumps(samples), "ascii")
    return log, load_samples(kept)


def watch(process: subprocess.Popen, pid_file: Path):
    samples, deadline = [], time.time() + LONGEST_RUN
    while process.poll() is None:
        if pid_file.is_file() and pid_file.read_text().strip():
            samples.append(sample(int(pid_file.read_text())))
            if time.time() > deadline:
                for traced in traced_by(int(pid_file.read_text())):
                    os.kill(traced, signal.SIGKILL)
        time.sleep(PAUSE)
    return samples


def load_samples(path: Path):
    samples = json.loads(path.read_text("ascii"))
    for one in samples:
        one["tables"] = {int(process): {int(number): target for number, target in table.items()}
                         for process, table in one["tables"].items()}
    return samples
