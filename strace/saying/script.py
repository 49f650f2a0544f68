"""Writes a script: the blocks in their order, the processes numbered, and the header that they need, `serial` first."""
from __future__ import annotations

import re
from dataclasses import dataclass
from sys import intern
from typing import TYPE_CHECKING

from .objects import MOST_OBJECTS, OUTSIDE

if TYPE_CHECKING:
    from .model import Block, Seat
    from .world import World

MARK = re.compile("\0(\\d+)\0")
LIMIT = 4096
LONGEST_LINE = 200000


@dataclass
class Script:
    """A script with the step behind each of its calls, in the order of the trace."""
    header: list
    lines: list
    steps: list
    seats: dict

    def text(self, count: int | None = None):
        lines = self.lines if count is None else self.lines[:count]
        return "\n".join([*self.header, *lines]) + "\n"

    def with_expectations(self):
        """The script with the kernel's replies as comments, which uxrun skips."""
        parts = list(self.header)
        for line, step in zip(self.lines, self.steps):
            if step.expect is not None:
                parts.append(f"# {numbered(step.expect, self.seats)}"[:LONGEST_LINE])
            parts.append(line)
        return "\n".join(parts) + "\n"


def header_of(world: World):
    objects = [f"object {OUTSIDE} mem -"]
    objects += [f"object {thing.name} {thing.kind.value}{' -' if thing.kind.value == 'mem' else ''}" for thing in world.objects.things]
    room = MOST_OBJECTS - len(objects) - world.objects.made
    objects += [f"object {word} mem -" for word in dict.fromkeys(world.names.files[:room])]
    lines = ["serial", *objects]
    seats = [seat for seat in world.people.seats if not seat.forked]
    for number, seat in enumerate(seats, 1):
        seat.number = number
        lines.append(f"proc {seat.user} {seat.group} {1 if seat.user == 0 or seat.privileged else 0} {LIMIT}")
    return lines, len(seats)


def write_script(world: World, blocks: list[Block]):
    """The script of blocks in this order."""
    header, count = header_of(world)
    by_key = {seat.key: seat for seat in world.people.seats}
    lines, steps = [], []
    for block in blocks:
        for step in block.steps:
            if step.words == "fork":
                count += 1
                child = by_key[int(step.expect.split("\0")[1])]
                child.number = count
            lines.append(intern(f"{step.seat.number} {numbered(step.words, by_key)}"))
            steps.append(step)
    return Script(header, lines, steps, by_key)


def numbered(text: str, by_key: dict[int, Seat]):
    """A text in which each process has its number in the script."""
    if "\0" not in text:
        return text
    return MARK.sub(lambda found: str(by_key[int(found[1])].number), text)
