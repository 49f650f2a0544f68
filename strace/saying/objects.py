"""Keeps file objects and sockets: those of a script's header, those that its calls make, and those on their way in messages."""
from __future__ import annotations

from typing import TYPE_CHECKING

from .model import Kind, Thing

if TYPE_CHECKING:
    from reading.calls import Call
    from .model import Block, Description

MOST_OBJECTS = 4096
# The object that all that is opaque is opened of.
OUTSIDE = "p:~outside"
MAKERS = frozenset("pipe pipe2 eventfd eventfd2 memfd_create".split())


class Objects:
    """`things` are the header's, `made` says how many the script's calls make, and `may_make` whether they may."""

    def __init__(self) -> None:
        self.things: list[Thing] = []
        self.count = 1
        self.made = 0
        self.may_make = True
        self.by_inode: dict[str, Description] = {}
        self.in_flight: list[tuple[Description, Block]] = []

    def prepare(self, calls: list[Call]) -> None:
        """A log that makes more objects than a layer may have uses those of the header, again and again."""
        makers = sum(call.name in MAKERS or "O_EXCL" in call.text for call in calls)
        self.may_make = makers + self.count <= MOST_OBJECTS

    def make(self, kind: Kind):
        """A file object that a call of the script makes."""
        self.made += 1
        return Thing("", kind)

    def of_header(self, kind: Kind):
        """A file object of the header, of a log that makes more than a layer may have; None where there are as many."""
        if self.count >= MOST_OBJECTS:
            return None
        self.count += 1
        thing = Thing(f"p:~{kind.value}{len(self.things)}", kind)
        self.things.append(thing)
        return thing
