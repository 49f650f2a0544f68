"""Reads strace/rules.txt: how a log shows where this layer answers otherwise than Linux. Nothing else here knows its form."""
from __future__ import annotations

import re
from dataclasses import dataclass, field
from pathlib import Path

RULES = Path(__file__).resolve().parents[1] / "rules.txt"
PATTERNS = ("on", "call", "ours", "linux")
MARKS = ("is", "other")
NOTHING: frozenset = frozenset()
GIVEN_BY_AUTOBIND = re.compile(r"a:[0-9a-f]{5}")


@dataclass
class Rule:
    """A block of a rule: patterns of whole texts, marks that both sockets must have, and in what alone the answers differ."""
    name: str
    patterns: dict = field(default_factory=dict)
    marks: dict = field(default_factory=dict)
    differ: str = ""
    unlike: int = 0
    tells: int = 0
    parts: bool = False


def read_rules(path: Path | str = RULES):
    """The rules in their order; an OSError or ValueError where the file isn't one of rules."""
    rules = []
    for line in Path(path).read_text("utf-8").splitlines():
        key, _, value = line.partition(": ")
        if line.startswith("#") or not line.strip():
            continue
        if key == "rule":
            rules.append(Rule(value.strip()))
        elif not rules:
            raise ValueError(f"{path}: '{line[:40]}' stands before the first rule")
        elif key in PATTERNS:
            rules[-1].patterns[key] = re.compile(f"(?:{value})", re.S)
        elif key in MARKS:
            rules[-1].marks[key] = frozenset(value.split())
        elif key == "differ":
            rules[-1].differ = value
        elif key in ("unlike", "tells"):
            setattr(rules[-1], key, int(value))
        elif key == "state":
            rules[-1].parts = value == "parts"
        else:
            raise ValueError(f"{path}: '{line[:40]}' is no line of a rule")
    return rules


@dataclass
class Case:
    """A difference: what the descriptor leads to, the call, both answers; the marks of its socket and of the other one that it
    concerns, and that one's name."""
    on: str
    call: str
    ours: str
    linux: str
    marks: frozenset = frozenset()
    other: frozenset = frozenset()
    other_name: str | None = None


def rule_of(rules: list[Rule], case: Case):
    """The first rule that a difference meets, or None."""
    return next((rule for rule in rules if meets(rule, case)), None)


def meets(rule: Rule, case: Case) -> bool:
    texts = {"on": case.on, "call": case.call, "ours": case.ours, "linux": case.linux}
    if not all(pattern.fullmatch(texts[key]) for key, pattern in rule.patterns.items()):
        return False
    if not (rule.marks.get("is", NOTHING) <= case.marks and rule.marks.get("other", NOTHING) <= case.other):
        return False
    if rule.differ and not differ_in(rule.differ, case.ours, case.linux):
        return False
    if rule.tells and not is_name_of_other(word_at(case.linux, rule.tells), case):
        return False
    return not rule.unlike or word_at(case.ours, rule.unlike) != word_at(case.linux, rule.unlike)


def is_name_of_other(name: str, case: Case) -> bool:
    """Whether a name that Linux told is the one that the other socket has, by the log; one that autobind gave may be any."""
    return name == case.other_name or "autobound" in case.other and GIVEN_BY_AUTOBIND.fullmatch(name) is not None


def word_at(text: str, place: int):
    words = text.split(" ")
    return words[place - 1] if place <= len(words) else ""


def differ_in(places: str, ours: str, linux: str) -> bool:
    """Whether two answers differ in the words of these numbers alone, of flags in these alone, or in these conditions of a poll."""
    if places[:1].isupper():
        left, right = conditions(ours), conditions(linux)
        return left is not None and right is not None and (left ^ right) <= set(places.split())
    mine, theirs = ours.split(" "), linux.split(" ")
    allowed = {int(number): flags for number, _, flags in (place.partition(":") for place in places.split())}
    return len(mine) == len(theirs) and all(
        one == other or place in allowed and only_flags(allowed[place], one, other)
        for place, (one, other) in enumerate(zip(mine, theirs), 1))


def only_flags(flags: str, one: str, other: str) -> bool:
    """Whether two words of flags differ in these alone; where none are given in any."""
    return not flags or set(one.split("|")) ^ set(other.split("|")) <= {"-", *flags.split("|")}


def conditions(answer: str):
    return set(answer[5:].split("|")) - {"-"} if answer.startswith("poll ") else None
