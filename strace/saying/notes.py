"""Reads what strace's -yy notes of a descriptor: its kind, and what tells it from others; and finds descriptors in arguments."""
from __future__ import annotations

import re
from typing import Any

from reading.words import Change, Descriptor
from .model import Kind


UNIX_NOTE = re.compile(r"UNIX(-\w+)?:\[(\d+)(?:->(\d+))?")


def kind_of(note: str):
    """The kind of description that a note of strace's -yy tells."""
    found = UNIX_NOTE.match(note)
    if found:
        return {None: Kind.DATAGRAM, "-STREAM": Kind.STREAM, "-SEQPACKET": Kind.RECORDS}.get(found[1], Kind.DATAGRAM)
    if note.startswith("pipe:["):
        return Kind.PIPE
    return Kind.COUNTER if "[eventfd]" in note else Kind.OPAQUE


def inode_of(note: str):
    """What tells the file or socket behind a note from others: an inode's number, or a path."""
    found = UNIX_NOTE.match(note)
    if found:
        return f"socket:[{found[2]}]"
    found = re.match(r"(?:\w+:)?\[?(\d+)\]?$", note)
    return note if not found or note.startswith("pipe:") else f"socket:[{found[1]}]"


def descriptors_in(value: Any, plain: bool = False):
    """All descriptors in a call's arguments; of a log without notes a bare number that comes first."""
    found: list[Descriptor] = []
    _collect(value, plain, found)
    return found


def _collect(value: Any, plain: bool, found: list[Descriptor]) -> None:
    if isinstance(value, Descriptor):
        found.append(value)
    elif isinstance(value, (list, tuple)):
        if plain and value and isinstance(value[0], int):
            found.append(Descriptor(value[0]))
        for one in value:
            _collect(one, plain, found)
    elif isinstance(value, dict):
        for one in value.values():
            _collect(one, plain, found)
    elif isinstance(value, Change):
        _collect(value.before, plain, found)
