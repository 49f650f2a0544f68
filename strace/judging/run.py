"""Runs a script by uxrun: the trace, and the audit after a number of calls."""
from __future__ import annotations

import subprocess
import sys
import tempfile
from dataclasses import dataclass, field

import paths  # noqa: F401
from find_uxrun import find_uxrun


class Fault(Exception):
    """What is wrong, and what to do."""


@dataclass
class Held:
    """A descriptor in an audit: its process, its number, and the links of its chain as lists of words."""
    process: int
    number: int
    links: list


@dataclass
class Trace:
    """The replies of a script's calls in order; an audit, if one was asked for; and why the run ended, if it is a fault."""
    replies: list = field(default_factory=list)
    held: list = field(default_factory=list)
    fault: str = ""


class Runner:
    """Runs scripts by the program named, or by the one that is found without a name, and counts how often."""

    def __init__(self, uxrun: str | None = None) -> None:
        self.uxrun = str(find_uxrun(Fault, uxrun, "--uxrun PATH or the variable UXRUN"))
        self.runs = 0

    def run(self, text: str, audit: int | None = None):
        self.runs += 1
        with tempfile.NamedTemporaryFile("w", suffix=".ux", encoding="ascii") as file:
            file.write(text)
            file.flush()
            command = [self.uxrun, *(["--audit", str(audit)] if audit is not None else []), file.name]
            done = subprocess.run(command, capture_output=True, text=True, errors="replace", check=False)
        return read_trace(done.stdout, done.stderr if done.returncode else "")


def read_trace(out: str, errors: str):
    # The first line tells the fault; what follows explains it to who wrote the script by hand.
    trace = Trace(fault=errors.strip().partition("\n")[0])
    for line in out.splitlines():
        if line.startswith("held "):
            head, _, chain = line.partition(" = ")
            _, process, number = head.split()
            trace.held.append(Held(int(process), int(number), [link.split() for link in chain.split("; ")]))
        elif line[:1].isdigit() and " = " in line:
            trace.replies.append(sys.intern(line.split(" = ", 1)[1].split(" closed ")[0]))
    return trace
