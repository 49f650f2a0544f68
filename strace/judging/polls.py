"""Lays what a poll of several descriptors told beside the kernel's, descriptor by descriptor."""
from __future__ import annotations

from itertools import combinations
from typing import TYPE_CHECKING, Iterator

from .rules import Case, rule_of

if TYPE_CHECKING:
    from .rules import Rule
    from saying.model import Polled, Step

READABLE = {"IN", "HUP", "ERR", "RDHUP"}
WRITABLE = {"OUT", "ERR"}
ORDER = ("IN", "OUT", "RDHUP", "HUP", "ERR", "NVAL")
ASKED_FOR = ("IN", "OUT", "RDHUP")


def conditions_in(answer: str) -> set[str]:
    """The conditions that a poll of one told."""
    return set(answer[5:].split("|")) - {"-"}


def told(conditions: set[str]):
    return "poll " + ("|".join(bit for bit in ORDER if bit in conditions) or "-")


def with_unasked(kernel: str, ours: str, asked: frozenset[str]):
    """The kernel's conditions of a poll, and of ours those that the program didn't ask for; a select's as a poll's."""
    if not ours.startswith("poll "):
        return kernel
    mine, theirs = conditions_in(ours), conditions_in(kernel)
    if "SELECT" not in asked:
        return told(theirs | (mine - asked))
    result = set(mine)
    for bit, group in (("IN", READABLE), ("OUT", WRITABLE)):
        if bit in asked and bool(mine & group) != (bit in theirs):
            result = result | {bit} if bit in theirs else result - group
    return told(result)


def answers_in(reply: str, count: int) -> list[str] | None:
    """What a reply tells of each of so many descriptors, as polls of one would; one that would wait has nothing to tell."""
    if reply == "err EAGAIN":
        return ["poll -"] * count
    word, *sets = reply.split(" ")
    return [f"poll {one}" for one in sets] if word == "polled" and len(sets) == count else None


def parted(step: Step, ours: str, kernel: str) -> list[tuple[Polled, str, str]] | None:
    """The descriptors of which both tell something else, with both answers; None where a reply isn't one of so many."""
    mine, theirs = answers_in(ours, len(step.polled)), answers_in(kernel, len(step.polled))
    if mine is None or theirs is None:
        return None
    beside = [(one, left, with_unasked(right, left, one.asked)) for one, left, right in zip(step.polled, mine, theirs)]
    return [(one, left, right) for one, left, right in beside if left != right]


def unasked_in(one: Polled) -> Iterator[set[str]]:
    """What may be so of a descriptor without being told, since nobody asked for it: each way that it may be."""
    unasked = [bit for bit in ASKED_FOR if bit not in one.asked]
    for count in range(len(unasked) + 1):
        yield from map(set, combinations(unasked, count))


def rule_of_one(rules: list[Rule], one: Polled, ours: str, kernel: str) -> Rule | None:
    """The rule by which a poll of this descriptor alone would answer so, whatever isn't asked for; or None."""
    for more in unasked_in(one):
        left, right = (told(conditions_in(answer) | more) for answer in (ours, kernel))
        rule = rule_of(rules, Case(one.state, f"poll {one.number}", left, right, one.marks))
        if rule is not None:
            return rule
    return None
