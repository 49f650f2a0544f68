"""Makes a script's calls by the second reference of compare/, whose state can be kept and taken up again.

Which order of calls that overlap agrees longest is looked for so: what is tried costs as much as the calls that are tried, however long
the log is. What is told of the order that was found is uxrun's all the same."""
from __future__ import annotations

import pickle
import sys
from typing import TYPE_CHECKING, Any

from reference.kernel import Kernel
from reference.machine import Machine
from reference.script import parse
from reference.state import Refusal
from reference.trace import CALLS
from saying.script import header_of, numbered

if TYPE_CHECKING:
    from .compare import Judge
    from saying.model import Block, Step
    from saying.world import World

# A state is kept as what leads to what, through all sockets and messages: of a chain above this it isn't.
DEEPEST = 4000


class Scout:
    """A run of blocks, of which each step's reply is judged as it is made."""

    def __init__(self, world: World, judge: Judge) -> None:
        self.judge = judge
        self.seats = {seat.key: seat for seat in world.people.seats}
        for seat in world.people.seats:
            seat.number = 0
        header, _ = header_of(world)
        self.by_number = {seat.number: seat for seat in world.people.seats if seat.number}
        self.kernel = Kernel(parse("\n".join(header) + "\n"), frozenset(), Machine())
        self.made = 0
        sys.setrecursionlimit(max(DEEPEST, sys.getrecursionlimit()))

    def keep(self) -> bytes | None:
        """The state now, or None where it can't be kept."""
        try:
            return pickle.dumps((self.kernel, {number: seat.key for number, seat in self.by_number.items()}), pickle.HIGHEST_PROTOCOL)
        except RecursionError:
            return None

    def take_up(self, kept: bytes) -> None:
        """The state is again what it was then."""
        self.kernel, numbers = pickle.loads(kept)
        for seat in self.seats.values():
            seat.number = 0
        self.by_number = {number: self.seats[key] for number, key in numbers.items()}
        for number, seat in self.by_number.items():
            seat.number = number

    def differing(self, block: Block):
        """The steps of a block whose replies differ; all are made."""
        return [step for step in block.steps if not self.agrees(step)]

    def agrees(self, step: Step) -> bool:
        """Whether a step can be made, and its reply is one after which all goes on alike."""
        self.made += 1
        seat = step.seat
        if not seat.number or self.kernel.processes[seat.number - 1].has_exited:
            return False
        words = numbered(step.words, self.seats)
        reply = self.reply(self.kernel.processes[seat.number - 1], words.split(" "))
        if words == "fork" and reply.startswith("child "):
            child = self.seats[int((step.expect or "").split("\0")[1])]
            child.number = int(reply.split(" ")[1])
            self.by_number[child.number] = child
        return not self.judge.verdict(step, words, self.judge.by_first_seats(reply, self.by_number)).is_wrong()

    def reply(self, process: Any, words: list[str]):
        try:
            reply = CALLS[words[0]](self.kernel, process, words)
        except Refusal as refusal:
            reply = refusal.reply
        self.kernel.settle()
        self.kernel.closed = []
        return reply
