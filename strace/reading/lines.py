"""Reads the lines of a log: who, when, and whether a call begins, ends or does both, or a process ends."""
from __future__ import annotations

import re
from dataclasses import dataclass
from enum import Enum


class Kind(Enum):
    """What a line of a log is."""
    WHOLE = "whole"
    BEGUN = "begun"
    RESUMED = "resumed"
    SIGNAL = "signal"
    ENDED = "ended"
    REPLACED = "replaced"
    BAD = "bad"


@dataclass(slots=True)
class Line:
    """A line: its number from 1, the thread, the time in seconds or None, its kind, the call's name and the rest."""
    number: int
    thread: int
    time: float | None
    kind: Kind
    name: str
    rest: str


HEAD = re.compile(r"(?:\[pid\s+(\d+)\]\s+|(\d+)\s+)?(?:(\d+\.\d+)\s+|(\d\d):(\d\d):(\d\d(?:\.\d+)?)\s+)?(?:\(\+?\s*\d+\.\d+\)\s+)?")
CALL = re.compile(r"([a-z_]\w*)\(", re.A)
RESUMED = re.compile(r"<\.\.\. ([a-z_]\w*) resumed>", re.A)
REPLACED = re.compile(r"\+\+\+ superseded by execve in pid (\d+) \+\+\+")
UNFINISHED = re.compile(r"\s*<unfinished \.\.\.>$")
NO_THREAD = 0


def read_line(number: int, text: str):
    """One line of a log, without its line feed."""
    head = HEAD.match(text)
    assert head is not None  # all of its parts may be missing
    thread = int(head[1] or head[2] or NO_THREAD)
    time = float(head[3]) if head[3] else None
    if head[4]:
        time = int(head[4]) * 3600 + int(head[5]) * 60 + float(head[6])
    rest = text[head.end():]
    kind, name, rest = _kind_of(rest)
    return Line(number, thread, time, kind, name, rest)


def _kind_of(rest: str):
    call = CALL.match(rest)
    if call:
        behind = rest[call.end():]
        begun = UNFINISHED.search(behind[-40:])
        if begun:
            return Kind.BEGUN, call[1], behind[:len(behind) - len(begun[0])]
        return Kind.WHOLE, call[1], behind
    resumed = RESUMED.match(rest)
    if resumed:
        return Kind.RESUMED, resumed[1], rest[resumed.end():]
    if rest.startswith("--- "):
        return Kind.SIGNAL, rest[4:].split(" ", 1)[0], rest
    replaced = REPLACED.match(rest)
    if replaced:
        return Kind.REPLACED, replaced[1], rest
    if rest.startswith("+++ exited with ") or rest.startswith("+++ killed by "):
        return Kind.ENDED, rest.split()[1], rest
    return Kind.BAD, "", rest
