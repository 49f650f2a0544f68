"""Joins the lines of a log to calls, each with the lines where it began and ended, and reads arguments and results."""
from __future__ import annotations

import os
import re
from collections import Counter
from dataclasses import dataclass, field
from typing import TYPE_CHECKING, Any

from . import words
from .effects import has_no_effect
from .head import Head
from .lines import Kind, read_line

if TYPE_CHECKING:
    from .lines import Line
    from pathlib import Path

RESULT = re.compile(r"\s*= (-?0x[0-9a-f]+|-?\d+|\?)(?:" + words.NOTE + r")?(?: (E[A-Z0-9_]+))?(?: (\(.*\)))?", re.S)
ANSWER = re.compile(r"\)\s+= (?:-?\d|0x|\?)")
MOST_BYTES = 200 << 20
LONGEST_LINE = 16 << 20
TOOK = re.compile(r" <(\d+\.\d+)>$")
ELSEWHERE = re.compile(r"\s*= \d+ /\* (\d+) in strace's PID NS \*/")
OUTER = re.compile(r"(\d+)[<,)]")


@dataclass(slots=True)
class Result:
    """What a call answered: a value or None, what a new descriptor leads to, an error's name, and what stands behind."""
    value: int | None = None
    note: str = ""
    error: str = ""
    detail: str = ""

    @property
    def number(self) -> int:
        """The value of a call that has to have one."""
        if self.value is None:
            raise words.OtherForm("no answer")
        return self.value


@dataclass(slots=True)
class Call:
    """A call: its thread, its name, its text behind the opening bracket, and the lines where it began and ended; when it began, when it
    ended if it began at once, and when it had ended at the latest, since its thread went on."""
    thread: int
    name: str
    text: str
    begin: int
    end: int
    time: float | None
    ended: float | None
    latest: float | None = None

    def read(self):
        """Arguments and result, or the fault Unreadable."""
        values, rest = words.arguments(self.text)
        return words.Arguments(after_name(value) for value in values), read_result(rest)


@dataclass(slots=True)
class End:
    """The end of a thread: the lines between which it came, and the signal that killed it, if one did."""
    thread: int
    begin: int
    line: int
    signal: str = ""
    time: float | None = None


@dataclass
class Log:
    """All that a log says: calls in the order in which they began, how many of them have an answer, ends, calls without effect by
    name, and faults."""
    head: Head
    calls: list = field(default_factory=list)
    ends: list = field(default_factory=list)
    quiet: Counter = field(default_factory=Counter)
    touched: dict = field(default_factory=dict)
    bad: list = field(default_factory=list)
    unfinished: int = 0
    answered: int = 0
    cut: bool = False
    lines: int = 0
    first_time: float | None = None
    last_time: float | None = None
    replaced: list = field(default_factory=list)

    def line_before(self, time: float):
        """The last line that was written before a time: where a call began or ended, or a process ended; 0 before the first."""
        lines = [call.begin for call in self.calls if call.time is not None and call.time <= time]
        lines += [call.end for call in self.calls if call.ended is not None and call.ended <= time]
        lines += [end.line for end in self.ends if end.time is not None and end.time <= time]
        return max(lines, default=0)


def after_name(value: Any):
    """An argument without its name, as of clone(flags=..)."""
    return value[1] if isinstance(value, tuple) else value


def read_result(text: str):
    """What a call answered; a process of another namespace by its number in strace's."""
    found = RESULT.match(text)
    if not found:
        return Result()
    elsewhere = ELSEWHERE.match(text)
    if elsewhere:
        return Result(int(elsewhere[1]))
    value = None if found[1] == "?" else int(found[1], 16 if "x" in found[1] else 10)
    return Result(value, words.without_device(found[2] or ""), found[3] or "", found[4] or "")


class Joiner:
    """Takes the lines of a log one after another."""

    def __init__(self) -> None:
        self.log = Log(Head())
        self.pending: dict[int, Line] = {}
        self.last_line: dict[int, int] = {}
        self.last_call: dict[int, Call] = {}

    def add(self, number: int, text: str) -> None:
        log = self.log
        log.lines = number
        if text.startswith("#"):
            log.head.add(text)
            return
        line = read_line(number, text)
        if line.time is not None:
            log.first_time = line.time if log.first_time is None else log.first_time
            log.last_time = line.time
        # strace notes the time before a call, and may be off the processor before it lets the call begin.
        last = self.last_call.pop(line.thread, None)
        if last is not None:
            last.latest = line.time
        self.take(line)
        self.last_line[line.thread] = number

    def take(self, line: Line) -> None:
        if line.kind is Kind.WHOLE:
            self.finish(line, line.name, line.rest, line.number, line.time)
        elif line.kind is Kind.BEGUN:
            self.pending[line.thread] = line
        elif line.kind is Kind.RESUMED:
            begun = self.pending.pop(line.thread, None)
            if begun and begun.name == line.name:
                self.finish(line, line.name, begun.rest + line.rest, begun.number, begun.time)
            else:
                self.log.bad.append((line.number, f"{line.name} ends, and the log doesn't have its beginning"))
        elif line.kind is Kind.ENDED:
            self.end(line)
        elif line.kind is Kind.REPLACED:
            self.replace(line)
        elif line.kind is Kind.BAD and line.rest.strip():
            self.log.bad.append((line.number, words.shown(line.rest[:60])))

    def finish(self, line: Line, name: str, text: str, begin: int, time: float | None) -> None:
        if has_no_effect(name, text):
            self.log.quiet[name] += 1
            found = OUTER.match(text)
            if found:
                self.log.touched.setdefault(line.thread, []).append((line.number, int(found[1])))
            return
        self.log.answered += ANSWER.search(text) is not None
        took = TOOK.search(text[-24:])
        ended = time + float(took[1]) if took and time is not None else line.time
        call = Call(line.thread, name, text, begin, line.number, time, ended, line.time if begin < line.number else None)
        self.log.calls.append(call)
        if begin == line.number:
            self.last_call[line.thread] = call

    def end(self, line: Line) -> None:
        killed = line.rest.split()[3] if line.name == "killed" else ""
        begin = self.last_line.get(line.thread, line.number)
        self.log.ends.append(End(line.thread, begin, line.number, killed, line.time))
        self.pending.pop(line.thread, None)

    def replace(self, line: Line) -> None:
        """Another thread of the process executes a program, and has the number of the first from now on."""
        other = int(line.name)
        self.log.replaced.append((line.number, line.thread, other))
        self.pending.pop(line.thread, None)
        if other in self.pending:
            self.pending[line.thread] = self.pending.pop(other)

    def close(self):
        """What had no end when the log ended."""
        for begun in self.pending.values():
            self.log.unfinished += 1
            if not has_no_effect(begun.name, begun.rest):
                self.log.calls.append(Call(begun.thread, begun.name, begun.rest + ") = ?", begun.number, self.log.lines + 1,
                                           begun.time, None))
        self.log.calls.sort(key=lambda call: call.begin)
        return self.log


class TooLarge(ValueError):
    """A log of more bytes than are read."""


def read_log(path: Path | str, most: int = MOST_BYTES):
    """The log of a file; a fault of the file itself is an OSError, one of more than so many bytes TooLarge."""
    joiner, number, total = Joiner(), 0, 0
    with open(path, encoding="latin-1", newline="\n") as file:
        # A pipe has no size, so what it gives is counted too.
        refuse_above(most, os.fstat(file.fileno()).st_size, path)
        while text := file.readline(LONGEST_LINE):
            number += 1
            total += len(text)
            refuse_above(most, total, path)
            joiner.log.cut = not text.endswith("\n")
            joiner.add(number, text.rstrip("\r\n"))
    return joiner.close()


def refuse_above(most: int, size: int, path: Path | str) -> None:
    if size > most:
        raise TooLarge(f"{path}: more than {most >> 20} MB: record a shorter run, or give --megabytes N and the memory for it, up to "
                       "twenty times the log's")
