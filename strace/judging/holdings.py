"""Tells uxrun's audit in the words of the log: who holds which descriptor, and through whom it came."""
from __future__ import annotations

from dataclasses import dataclass, field
from typing import TYPE_CHECKING, Any

from saying.model import Role
from saying.outside import LABEL

if TYPE_CHECKING:
    from .run import Runner
    from saying.model import Description, Step
    from saying.script import Script
    from saying.world import World


@dataclass
class Holding:
    """A descriptor that a process holds: number, where it leads, the chain in words, what says that it isn't known, and whether it was
    open from the log's start."""
    process: Any
    number: int
    description: Any
    chain: list = field(default_factory=list)
    unknown: str = ""
    from_start: bool = False

    def text(self) -> str:
        what = f" (not known: {self.unknown})" if self.unknown else ""
        return f"{self.process.label()} {self.number}: {', '.join(self.chain)}{what}"


def holdings(world: World, script: Script, runner: Runner, calls: int):
    """The audit after so many calls of a script, by rising process and number."""
    trace = runner.run(script.text(calls), audit=calls)
    seats = {seat.number: seat for seat in world.people.seats}
    found = []
    for held in trace.held:
        seat = seats.get(held.process)
        if seat is None or seat.process.program == LABEL:
            continue
        description, chain = tell_chain(script, held.links)
        from_start = script.steps[int(held.links[0][1])].role is Role.START
        found.append(Holding(seat.process, held.number, description, chain, description.unknown if description else "", from_start))
    return found, trace.fault


def tell_chain(script: Script, links: list[list[str]]):
    """The description that a chain begins with, and each link in words."""
    description, words = None, []
    for link in links:
        kind, place, number = link[0], int(link[1]), int(link[3])
        step = script.steps[place]
        if kind == "made":
            description = (step.makes or {}).get(number)
            words.append(tell_made(step, description))
        elif kind == "dup":
            words += tell_copy(step, number)
        elif kind == "got":
            words.append(tell_got(step, script.steps[int(link[-1])], number))
        elif kind == "fork":
            words.append(f"inherited at fork from {step.block.program}{at_line(step)}")
    return description, words


def at_line(step: Step) -> str:
    call = step.block.call
    return f" (line {call.begin})" if call is not None else ""


def tell_made(step: Step, description: Description | None) -> str:
    what = description.what if description else "made"
    if step.role is Role.START:
        return f"open from the start, {what}"
    return f"{what} by {step.block.program}{at_line(step)}"


def tell_copy(step: Step, number: int):
    if step.role is not Role.CALL:
        return []
    return [f"copied as {number} by {step.block.call.name}{at_line(step)}"]


def tell_got(step: Step, sent: Step, number: int) -> str:
    if step.role is Role.HAND_OVER:
        return f"kept over {step.block.call.name}{at_line(step)}" if step.block.call is not None else "kept"
    socket = sent.words.split(" ")[1]
    return (f"passed by {sent.block.program} over its {socket}{at_line(sent)} "
            f"and received by {step.block.program} as {number}{at_line(step)}")


def calls_up_to(script: Script, line: float):
    """How many calls of a script stand before this line of the log, or at it."""
    count = 0
    for place, step in enumerate(script.steps, 1):
        if step.block.at <= line:
            count = place
    return count
