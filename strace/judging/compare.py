"""Lays the replies of a script beside the kernel's, reply by reply."""
from __future__ import annotations

import re
from dataclasses import dataclass
from enum import Enum
from sys import intern
from typing import TYPE_CHECKING, Any

from saying.script import numbered
from .polls import parted, rule_of_one, with_unasked
from .rules import Case, rule_of

if TYPE_CHECKING:
    from .rules import Rule
    from .run import Trace
    from saying.model import Seat, Step
    from saying.script import Script
    from saying.world import World

PERSON = re.compile(r"((?:^|\+| )c:|^cred )(\d+)(?=[, ])")
CONTENTS = {"bytes": 1, "got": 2}


class Outcome(Enum):
    """How a reply stands to the kernel's."""
    AGREES = "agrees"
    RULE = "falls under a rule"
    DIFFERS = "differs"
    NOT_COMPARED = "not compared"


@dataclass(slots=True)
class Verdict:
    """One reply of the script beside the kernel's."""
    step: Any
    call: str
    ours: str
    kernel: str
    outcome: Outcome
    rule: str = ""
    parts: bool = False

    def is_wrong(self):
        """Whether another order is looked for: it differs, or its rule says that the states part."""
        return self.outcome is Outcome.DIFFERS or self.parts


class Judge:
    """Compares replies. Where strace cut strings short, contents are compared by their length."""

    def __init__(self, world: World, rules: list[Rule]) -> None:
        self.rules = rules
        self.by_length = world.gaps.cut_texts > 0
        self.seats = {seat.key: seat for seat in world.people.seats}

    def judge(self, script: Script, trace: Trace):
        """The verdicts on a script's replies, as far as the trace has them."""
        by_number = {seat.number: seat for seat in self.seats.values()}
        return [self.verdict(step, intern(line.split(" ", 1)[1]), self.by_first_seats(reply, by_number))
                for step, line, reply in zip(script.steps, script.lines, trace.replies)]

    @staticmethod
    def by_first_seats(reply: str, by_number: dict[int, Seat]):
        """A reply in which a process is told by the first number that it had."""
        if "c:" not in reply and not reply.startswith("cred "):
            return reply

        def first(found: re.Match[str]):
            seat = by_number.get(int(found[2]))
            return found[1] + (str(seat.process.first_seat.number) if seat is not None else found[2])
        return PERSON.sub(first, reply)

    def verdict(self, step: Step, call: str, ours: str):
        if step.expect is None:
            return Verdict(step, call, ours, "", Outcome.NOT_COMPARED)
        kernel = numbered(step.expect, self.seats)
        if step.polled:
            return self.verdict_of_poll(step, call, ours, kernel)
        if step.asked is not None:
            kernel = with_unasked(kernel, ours, step.asked)
        if ours != kernel:
            kernel = filled(kernel, ours, self.by_length)
        if ours == kernel:
            return Verdict(step, call, ours, ours, Outcome.AGREES)
        rule = rule_of(self.rules, Case(step.state, call, ours, kernel, step.marks, step.other, step.other_name))
        if rule is None:
            return Verdict(step, call, ours, kernel, Outcome.DIFFERS)
        return Verdict(step, call, ours, kernel, Outcome.RULE, rule.name, rule.parts)

    def verdict_of_poll(self, step: Step, call: str, ours: str, kernel: str):
        """A poll of several: each descriptor of which something else is told falls under a rule of a poll of one, or it differs."""
        others = parted(step, ours, kernel)
        if others == []:
            return Verdict(step, call, ours, ours, Outcome.AGREES)
        rules = [rule_of_one(self.rules, *other) for other in others or []]
        named = [rule for rule in rules if rule is not None]
        if not named or len(named) < len(rules):
            return Verdict(step, call, ours, kernel, Outcome.DIFFERS)
        return Verdict(step, call, ours, kernel, Outcome.RULE, named[0].name, any(rule.parts for rule in named))


def filled(kernel: str, ours: str, by_length: bool):
    """The kernel's answer, in which what the log doesn't have is taken from ours: `?`, and of `*5` which five bytes."""
    mine, theirs = ours.split(" "), kernel.split(" ")
    if len(mine) != len(theirs):
        return kernel
    for place, word in enumerate(theirs):
        if word == "?" or "?" in word and like(word, mine[place]) or word == f"*{bytes_in(mine[place])}":
            theirs[place] = mine[place]
        elif by_length and place == CONTENTS.get(theirs[0]) and len(word) == len(mine[place]):
            theirs[place] = mine[place]
    return " ".join(theirs)


def bytes_in(word: str):
    """How many bytes a word of hexadecimal digits spells."""
    return 0 if word == "-" else len(word) // 2


def like(pattern: str, word: str) -> bool:
    return re.fullmatch(re.escape(pattern).replace(r"\?", r"[^,+ ]+"), word) is not None


def first_difference(verdicts: list[Verdict]):
    """The place of the first reply for which another order is looked for, or None."""
    return next((place for place, verdict in enumerate(verdicts) if verdict.is_wrong()), None)
