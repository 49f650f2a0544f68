"""Finds an order of calls that overlap in time in which the replies agree longest.

A call is moved within the lines where it began and ended, before or behind one that concerns the same description, object, table or
name: calls that share none of these stay as they are. The states along the way are kept, so that what is tried begins a few calls before
what differs; how many calls are made in all doesn't grow faster than the log."""
from __future__ import annotations

import time
from bisect import bisect_left, bisect_right
from dataclasses import dataclass, field
from operator import attrgetter
from typing import TYPE_CHECKING, Any

from saying.model import Block
from saying.script import write_script
from .compare import Judge, first_difference
from .overlaps import Overlaps
from .run import Fault
from .scout import Scout

if TYPE_CHECKING:
    from .compare import Verdict
    from .rules import Rule
    from .run import Runner
    from saying.model import Step
    from saying.world import World

# How many calls behind a difference an order is tried, how many orders, and how far apart two exchanged calls may stand.
AHEAD = 100
MOST_TRIED = 60
FARTHEST = 4096
# A state is kept before each so many calls, and the last ones of these.
BETWEEN = 64
MOST_KEPT = 64
STEP = 0.001
AT = attrgetter("at")
# Calls with their new places.
Moves = list[tuple[Block, float]]


@dataclass
class Order:
    """An order: the blocks, the script, the verdicts on its replies, which calls were moved, whether time ran out, and which differences
    no order mends, of all those that the log allows by one exchange."""
    blocks: list
    rules: list
    script: Any = None
    verdicts: list = field(default_factory=list)
    moved: set = field(default_factory=set)
    out_of_time: bool = False
    settled: set = field(default_factory=set)
    cut_short: set = field(default_factory=set)

    def is_decided(self, verdict: Verdict) -> bool:
        """Whether a difference stays in each order that could be tried: not where the search ended before it, or tried some alone."""
        return verdict.step not in self.cut_short and (not self.out_of_time or verdict.step in self.settled)


def by_place(blocks: list[Block]):
    return sorted(blocks, key=AT)


class Search:
    """Looks for an order; `seconds` is how long."""

    def __init__(self, world: World, runner: Runner, rules: list[Rule], seconds: float) -> None:
        self.world = world
        self.runner = runner
        self.judge = Judge(world, rules)
        self.deadline = time.monotonic() + seconds
        self.made = 0

    def verdicts(self, blocks: list[Block]):
        script = write_script(self.world, blocks)
        trace = self.runner.run(script.text())
        if trace.fault:
            raise Fault(f"uxrun ended with: {trace.fault}")
        return script, self.judge.judge(script, trace)

    def run(self):
        """The best order that was found, as uxrun answers it. Where all agrees at once none is looked for."""
        order = Order(by_place(self.world.blocks), self.judge.rules)
        order.script, order.verdicts = self.verdicts(order.blocks)
        if first_difference(order.verdicts) is None:
            return order
        walk = Walk(order, Scout(self.world, self.judge), self.deadline)
        walk.run()
        self.made = walk.scout.made
        order.script, order.verdicts = self.verdicts(order.blocks)
        return order


class Walk:
    """A walk through the blocks of an order, in which each difference is mended where another order does."""

    def __init__(self, order: Order, scout: Scout, deadline: float) -> None:
        self.order, self.scout, self.deadline = order, scout, deadline
        self.blocks = order.blocks
        self.overlaps = Overlaps(order.blocks)
        self.kept: list[tuple[int, bytes]] = []

    def is_over(self) -> bool:
        return time.monotonic() > self.deadline

    def run(self) -> None:
        place = 0
        while place < len(self.blocks):
            if place % BETWEEN == 0 and (not self.kept or self.kept[-1][0] < place):
                self.keep(place)
            differing = self.unsettled(self.blocks[place])
            if differing and self.is_over():
                self.order.out_of_time = True
                return
            place = self.mended(place, differing) if differing else place + 1

    def keep(self, place: int) -> None:
        """Keeps the state before a block, and lets the oldest go where there are as many as may be."""
        state = self.scout.keep()
        if state is not None:
            self.kept = [*self.kept[1 - MOST_KEPT:], (place, state)]

    def unsettled(self, block: Block):
        return [step for step in self.scout.differing(block) if step not in self.order.settled]

    def mended(self, place: int, differing: list[Step]):
        """The place to go on from: before an exchange that mends a difference, or behind the difference where none does."""
        block = self.blocks[place]
        moves = candidates(self.overlaps.of(block, self.blocks, place), block)
        best, is_whole = self.best_of(moves, place) if moves else (None, True)
        if best is not None:
            return self.exchange(best)
        if not self.is_over():
            self.order.settled.update(differing)
            self.order.cut_short.update(() if is_whole else differing)
        if moves:
            self.go_to(place + 1)
        return place + 1

    def go_to(self, place: int) -> None:
        """The state before this block."""
        start, kept = self.kept_before(place)
        self.scout.take_up(kept)
        for block in self.blocks[start:place]:
            self.scout.differing(block)

    def kept_before(self, place: int):
        """The last state that was kept before a block, with its place, or None where none is kept any more."""
        found = bisect_right(self.kept, place, key=lambda one: one[0])
        return self.kept[found - 1] if found else None

    def best_of(self, moves: list[Moves], place: int):
        """The exchange behind which the replies agree longest, or None; and whether all were tried that the log allows."""
        best, reach, is_whole = None, place, len(moves) <= MOST_TRIED
        for one in moves[:MOST_TRIED]:
            if self.is_over():
                break
            found = self.reach(one, place)
            is_whole = is_whole and found is not None
            if found is not None and found > reach:
                best, reach = one, found
            if found is not None and found > len(self.blocks):
                break
        return best, is_whole

    def span(self, moves: Moves, place: int):
        """The first and the last place that moves concern."""
        places = [at for block, new in moves for at in (block.at, new)]
        return bisect_left(self.blocks, min(places), key=AT), max(place, bisect_right(self.blocks, max(places), key=AT))

    def reach(self, moves: Moves, place: int):
        """How far the replies agree after these moves, above all places where no difference was met; None where they go too far.

        A difference in one of the calls that were exchanged is no further than before."""
        first, last = self.span(moves, place)
        kept = self.kept_before(first)
        if kept is None or last - first > FARTHEST:
            return None
        start, end = kept[0], min(len(self.blocks), last + AHEAD)
        self.scout.take_up(kept[1])
        concerned = {self.blocks[place], *(block for block, _ in moves)}
        for number, block in enumerate(moved(self.blocks[start:end], moves), start):
            if self.unsettled(block):
                return place if block in concerned else number
        return len(self.blocks) + 1

    def exchange(self, moves: Moves):
        """Makes moves; the answer is the place to go on from."""
        first, last = self.span(moves, 0)
        self.blocks[first:last] = moved(self.blocks[first:last], moves)
        for block, at in moves:
            block.at = at
            self.order.moved.add(block)
        self.kept = [one for one in self.kept if one[0] <= first]
        start, kept = self.kept[-1]
        self.scout.take_up(kept)
        return start


def moved(blocks: list[Block], moves: Moves):
    """Blocks in the order that moves give them."""
    new = dict(moves)
    return sorted(blocks, key=lambda block: new.get(block, block.at))


def candidates(others: list[Block], block: Block):
    """Ways to change the order of this call and one that overlaps it: each a list of calls with new places. Those that concern the same
    description or object come first, and of those the nearest."""
    found = []
    for other in others:
        first, second = (other, block) if block.at <= other.at else (block, other)
        found += [((not block.shares(other), abs(other.at - block.at)), moves) for moves in exchanges(first, second)]
    found.sort(key=lambda one: one[0])
    return [moves for _, moves in found]


def exchanges(first: Block, second: Block):
    """The ways to place the first call before the second, behind which it stands now."""
    if first.begin < second.at:
        yield [(first, second.at - STEP)]
    if second.end > first.at:
        yield with_following(second, first.at + STEP)
    if first.begin >= second.at and second.end <= first.at:
        place = max(first.begin, second.begin)
        yield [(first, place), *with_following(second, place + STEP)]


def with_following(block: Block, at: float):
    """A call's part at a new place, and the parts of the same call behind it."""
    later = [one for one in block.following if one.at <= at]
    return [(block, at), *((one, at + STEP * (place + 1) / (len(later) + 1)) for place, one in enumerate(later))]
