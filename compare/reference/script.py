"""Reads a script of uxrun: its file objects, its processes, and the lines of calls."""
from __future__ import annotations

import re
from dataclasses import dataclass, field
from pathlib import Path

from .names import name_in

TEXT = re.compile(r'(?<= )(x:)?"((?:[^"\\]|\\x[0-9a-f]{2}|\\[abtnvfr"\\])*)"(?= |$)')
BYTE = re.compile(r"\\x(..)|\\(.)|(.)", re.S)
ESCAPES = dict(zip('abtnvfr"\\', b'\a\b\t\n\v\f\r"\\'))
RIGHTS = re.compile(r"(?<= )rights:(\d+)(?= )")


@dataclass
class ObjectLine:
    """A line `object p:NAME [fail N] KIND [HEX]`, with text as HEX."""
    path: bytes
    kind: str
    data: bytes
    fails_at: int


@dataclass
class ProcessLine:
    """A line `proc UID GID PRIV LIMIT`."""
    uid: int
    gid: int
    privileged: bool
    limit: int


@dataclass
class CallLine:
    """A call, with the number of its line from 1."""
    row: int
    pid: int
    words: list[str]


@dataclass
class Script:
    """A script that uxrun takes."""
    objects: list[ObjectLine] = field(default_factory=list)
    processes: list[ProcessLine] = field(default_factory=list)
    calls: list[CallLine] = field(default_factory=list)
    has_end: bool = False
    is_serial: bool = False


def bytes_of(hex_word: str) -> bytes:
    """The bytes of a word of pairs of digits, or `-` for none."""
    return b"" if hex_word == "-" else bytes.fromhex(hex_word)


def byte_of(spelled: re.Match[str]) -> int:
    """The byte of a text that is spelled so."""
    if spelled[1]:
        return int(spelled[1], 16)
    return ESCAPES[spelled[2]] if spelled[2] else ord(spelled[3])


def digits_of(text: re.Match[str]) -> str:
    """The plain word of a text."""
    return (text[1] or "") + (bytes(map(byte_of, BYTE.finditer(text[2]))).hex() or "-")


def plain_line(line: str) -> str:
    """The line without text, and with control space in bytes (CMSG_SPACE of cmsg(3))."""
    if line.startswith("#"):
        return line
    return RIGHTS.sub(lambda found: str(16 + 8 * ((int(found[1]) + 1) // 2)), TEXT.sub(digits_of, line))


def read_object(words: list[str]) -> ObjectLine:
    """The object of a header line's words."""
    fails_at = int(words[3]) if words[2] == "fail" else 0
    rest = words[4:] if fails_at else words[2:]
    return ObjectLine(name_in(words[1][2:]), rest[0], bytes_of(rest[1]) if len(rest) > 1 else b"", fails_at)


def read_process(words: list[str]) -> ProcessLine:
    """The process of a header line's words."""
    return ProcessLine(int(words[1]), int(words[2]), words[3] == "1", int(words[4]))


def parse(text: str) -> Script:
    """Reads a script's text; `wait` lines are no calls and are left out."""
    script = Script()
    for row, line in enumerate(map(plain_line, text.split("\n")), 1):
        words = line.split(" ")
        if not line or line.startswith("#"):
            continue
        if words[0] == "object":
            script.objects.append(read_object(words))
        elif words[0] == "proc":
            script.processes.append(read_process(words))
        elif words[0] == "serial":
            script.is_serial = True
        elif words[0] == "off":
            script.has_end = True
        elif words[1] != "wait":
            script.calls.append(CallLine(row, int(words[0]), words[1:]))
    return script


def read_script(path: str | Path) -> Script:
    """Reads a script's file."""
    return parse(Path(path).read_bytes().decode("latin-1"))
