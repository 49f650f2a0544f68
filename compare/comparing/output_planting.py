"""Plants wrong output into uxrun, and runs compare/run over a script as its user does: each must be told, with the status 1."""
from __future__ import annotations

import os
import sys
from dataclasses import dataclass
from pathlib import Path
from random import Random
from typing import Iterator

from .lines import Bench
from .programs import COMPARE

SEED = 54
WRAPPER = """#!/bin/sh
case "$1" in
{script}) cat {output}; {complaint} exit {status};;
*) exec {uxrun} "$@";;
esac
"""
# What is no end of a line, though some readers take it for one (str.splitlines of Python).
NO_ENDS = {"a carriage return": b"\r", "CR and LF": b"\r\n", "a vertical tab": b"\v", "a form feed": b"\f", "the byte 1c": b"\x1c",
           "the byte 1d": b"\x1d", "the byte 1e": b"\x1e", "the byte 85": b"\x85"}


@dataclass
class Output:
    """What uxrun prints in place of a trace, by what is wrong with it."""
    what: str
    script: Path
    printed: bytes
    status: int = 0
    complaint: str = ""


def wrongly_ended(script: Path, trace: bytes) -> Iterator[Output]:
    """Lines that end otherwise, or not at all."""
    for what, end in NO_ENDS.items():
        yield Output(f"{what} at the end of one line", script, trace.replace(b"\n", end, 1))
    yield Output("CR and LF at each end", script, trace.replace(b"\n", b"\r\n"))
    yield Output("no end of the last line", script, trace[:-1])
    yield Output("an empty line behind the last", script, trace + b"\n")
    yield Output("a NUL behind the last line", script, trace + b"\0")
    yield Output("a NUL at the end of a line", script, trace.replace(b"\n", b"\0\n", 1))


def wrongly_spelled(script: Path, trace: bytes) -> Iterator[Output]:
    """Lines that say the same by other bytes, or stand at another place."""
    lines = trace.splitlines(keepends=True)
    yield Output("a blank at the end of a line", script, trace.replace(b"\n", b" \n", 1))
    yield Output("two blanks for one", script, trace.replace(b" = ", b" =  ", 1))
    yield Output("a tabulator for a blank", script, trace.replace(b" = ", b" =\t", 1))
    yield Output("a number with a zero in front", script, b"0" + trace)
    yield Output("capital letters", script, trace.replace(b"ok", b"OK", 1))
    yield Output("a mark of the order of bytes", script, b"\xef\xbb\xbf" + trace)
    yield Output("the first line is missing", script, b"".join(lines[1:]))
    yield Output("the last line is missing", script, b"".join(lines[:-1]))
    yield Output("the last line twice", script, trace + lines[-1])
    yield Output("two lines in the other order", script, b"".join([lines[1], lines[0], *lines[2:]]))
    yield Output("nothing", script, b"")


def wrongly_ending(script: Path, trace: bytes) -> Iterator[Output]:
    """The right trace of a program that fails, or complains."""
    yield Output("the status 1", script, trace, status=1)
    yield Output("the status 139", script, trace, status=139)
    yield Output("a complaint", script, trace, complaint="echo something >&2;")


def is_told(bench: Bench, output: Output) -> bool:
    """Whether compare/run tells the script, and ends with the status 1."""
    altered, wrapper = bench.programs.folder / "altered", bench.programs.folder / "altered_uxrun"
    altered.write_bytes(output.printed)
    wrapper.write_text(WRAPPER.format(script=output.script, output=altered, complaint=output.complaint, status=output.status,
                                      uxrun=bench.uxrun))
    wrapper.chmod(0o755)
    words = ["env", f"UXRUN={wrapper}", f"REPLAY={bench.replay}", sys.executable, str(COMPARE / "run"), str(output.script)]
    status, told, _ = bench.programs.run(words)
    return status == 1 and told.startswith(f"{output.script}:")


def outputs_of(script: Path, trace: bytes) -> list[Output]:
    """All wrong outputs for a script, but for wrong answers."""
    return [*wrongly_ended(script, trace), *wrongly_spelled(script, trace), *wrongly_ending(script, trace)]


def count_wrong_outputs(bench: Bench, outputs: list[Output]) -> int:
    """Plants each, and prints those that compare/run doesn't tell; how many these are."""
    passed = 0
    for output in outputs:
        if not is_told(bench, output):
            passed += 1
            print(f"PASSES: {os.path.relpath(output.script, COMPARE.parent)}: {output.what}", flush=True)
    print(f"{len(outputs):8d} wrong outputs of uxrun in compare/run, {passed} pass", flush=True)
    return passed


def wrong_answer_of(script: Path, trace: list[str], at: int, wrong: list[str]) -> Output:
    """The trace with another answer in one of its lines, which the seed determines."""
    other = Random(f"{SEED}.{script.name}.{at}").choice(wrong)
    changed = [*trace[:at], other, *trace[at + 1:]]
    return Output(f"line {at + 1}: {other}", script, "".join(f"{line}\n" for line in changed).encode("latin-1"))
