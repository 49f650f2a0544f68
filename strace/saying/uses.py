"""Keeps which calls used which number of which process, and which closed it: what found-open judges by."""
from __future__ import annotations

import re
from typing import TYPE_CHECKING

from reading.words import number_of
from .notes import descriptors_in

if TYPE_CHECKING:
    from reading.calls import Call
    from reading.words import Arguments
    from .model import Block, Process

NOTED = re.compile(r"\d<[^>]*>")
MOST_LOOKED_AT = 1000
NO_USE = ("close_range", "clone", "clone3", "vfork", "fork")


class Uses:
    """By process and number the calls on it, each with its line, and its closes; and the execs. A log is `plain` where strace's option -yy
    wasn't given, so that a bare number may be a descriptor's."""

    def __init__(self) -> None:
        self.calls: dict[tuple[int, int | None], list[tuple[int, str]]] = {}
        self.closes: dict[tuple[int, int | None], list[tuple[int, str]]] = {}
        self.executed: list[Block] = []
        self.plain = False

    def prepare(self, calls: list[Call]) -> None:
        self.plain = not any(NOTED.search(call.text) for call in calls[:MOST_LOOKED_AT])

    def note(self, process: Process, call: Call, args: Arguments) -> None:
        if call.name in NO_USE:
            return
        if call.name == "close":
            # A loop closes numbers that lead to nothing too, which strace tells without a note.
            self.close(process, number_of(args[0], None), call)
            return
        overwrites = call.name in ("dup2", "dup3")
        for place, descriptor in enumerate(descriptors_in(args, self.plain)):
            if overwrites and place == 1:
                self.close(process, descriptor.number, call)
            else:
                self.calls.setdefault((id(process), descriptor.number), []).append((call.begin, call.name))

    def close(self, process: Process, number: int | None, call: Call) -> None:
        self.closes.setdefault((id(process), number), []).append((call.begin, call.name))
