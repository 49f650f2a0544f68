"""What a log shows that can't be as it tells it, each with its lines: numbers that the kernel doesn't give, what was opened or closed
by nothing in the log, counts and flags that contradict one another. No reply of the script would show it."""
from __future__ import annotations

from collections import Counter
from typing import TYPE_CHECKING

if TYPE_CHECKING:
    from .model import Block, Process

PASSED_OVER = "a new number that isn't the lowest free one"
NOT_CLOSED = "a number given anew that the log doesn't show closed"
NO_ORIGIN = "a descriptor whose origin the log doesn't show"
CLOSE_OF_NO_ORIGIN = "a close of a descriptor whose origin the log doesn't show"
PATH_GONE = "a path that the log doesn't show taken away"
NO_PARENT = "a process that no call of the log made"
COUNT = "an answer that isn't the count of what the call lists"
ANSWER = "an answer that the call doesn't give"
FLAGS = "flags that the file was not opened with"
SEALS = "seals that the log doesn't show added"
SEALED = "a change that a seal forbids"
AMOUNT = "a number of waiting bytes that isn't what was sent and not received"
BUFFER = "a buffer's size that isn't the one that was set"
CREDENTIALS = "credentials of another than who made the pair, or listens"
OUT_OF_BAND = "out-of-band data that nobody sent"
MOST_COUNTED = 1000


class Doubts:
    """By their texts, the lines that they are about."""

    def __init__(self) -> None:
        self.lines: dict[str, list[int]] = {}
        self.passed: list[tuple[Block, Process, set[int]]] = []
        self.counted: list[Block] = []
        self.sizes: dict[tuple[str, bool], int] = {}

    def add(self, text: str, block: Block) -> None:
        self.lines.setdefault(text, []).append(block.call.begin if block.call is not None else 0)

    def pass_over(self, block: Block, process: Process, number: int, least: int = 0) -> None:
        """The kernel gave this number as the lowest free one from a minimum on, so those below it were open. Calls that overlap with this
        one may have given them, or closed them only later."""
        new = {one for one in range(least, number) if one not in process.table and one not in process.unseen}
        process.unseen |= new
        new = {one for one in new if process.freed.get(one, -1) < block.begin}
        if new:
            self.passed.append((block, process, new))

    def given(self, block: Block, process: Process, number: int) -> None:
        """A number that was passed over is given now: by a call that overlaps with that one it was given before."""
        process.unseen.discard(number)
        for passing, other, numbers in reversed(self.passed[-64:]):
            if other is process and number in numbers and block.begin <= passing.end:
                numbers.discard(number)

    def decide(self, blocks: list[Block]) -> None:
        """A number of waiting bytes is no doubt where a call that overlaps concerns the same queue: it may have come before or behind."""
        for counted in self.counted[:MOST_COUNTED]:
            if not any(one is not counted and one.overlaps(counted) and one.shares(counted) for one in blocks):
                self.add(AMOUNT, counted)

    def told(self):
        """All of them: texts with their lines."""
        passed = [block.call.begin for block, _, numbers in self.passed if numbers and block.call is not None]
        return {text: sorted(lines) for text, lines in {**self.lines, PASSED_OVER: passed}.items() if lines}


class Gaps:
    """What a log doesn't have: origins of descriptors, by process and number; calls that aren't known, by name; and bytes that strace
    cut, as how many strings."""

    def __init__(self) -> None:
        self.missing: dict[tuple[int, int], str] = {}
        self.unknown_names: Counter[str] = Counter()
        self.cut_texts = 0
