"""Finds the calls that overlap one in time, without a look at the whole log."""
from __future__ import annotations

from bisect import bisect_left, bisect_right
from operator import attrgetter
from typing import TYPE_CHECKING

if TYPE_CHECKING:
    from saying.model import Block

AT = attrgetter("at")
BEGIN = attrgetter("begin")
# How many calls to each side of a difference are looked at that stand within the lines of its call.
NEAREST = 500


class Overlaps:
    """The calls of a log by their threads, each in the order in which they began."""

    def __init__(self, blocks: list[Block]) -> None:
        self.threads: dict[int, list[Block]] = {}
        for block in blocks:
            if block.call is not None and block.steps:
                self.threads.setdefault(block.call.thread, []).append(block)
        for calls in self.threads.values():
            calls.sort(key=BEGIN)

    def of(self, block: Block, blocks: list[Block], place: int):
        """The calls that may stand before or behind one at this place: those that overlap it, and concern what it concerns."""
        if block.call is None:
            return []
        near = blocks[bisect_left(blocks, block.begin, key=AT):bisect_right(blocks, block.end, key=AT)]
        before = bisect_left(near, block.at, key=AT)
        found = dict.fromkeys(near[max(0, before - NEAREST):before + NEAREST])
        for calls in self.threads.values():
            for line in (block.begin, block.end):
                found.update(dict.fromkeys(in_flight(calls, line)))
        return [other for other in found if other is not block and other.call is not None and other.steps
                and other.overlaps(block) and other.is_related(block)]


def in_flight(calls: list[Block], line: float):
    """The call of a thread that runs at a line, with its parts, which begin where it does."""
    last = bisect_right(calls, line, key=BEGIN)
    first = last
    while first and calls[first - 1].begin == calls[last - 1].begin:
        first -= 1
    return calls[first:last]
