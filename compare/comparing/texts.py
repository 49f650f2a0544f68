"""The texts of differences.txt: of each rule what is done here and there, why, and the script that needs it."""
from __future__ import annotations

from dataclasses import dataclass, field
from pathlib import Path

from reference.rules import Rule

from .programs import COMPARE, TOP

KEYS = ("call", "script", "what", "answers", "posix", "why")
PATH = COMPARE / "differences.txt"


@dataclass
class RuleText:
    """A rule as it is told."""
    rule: Rule
    texts: dict[str, str] = field(default_factory=dict)

    @property
    def script(self) -> Path:
        """The script that needs the rule."""
        return TOP / self.texts["script"]


def read_texts() -> list[RuleText]:
    """All rules in the order of the file; one that isn't in the reference, or lacks a text, is an error."""
    found: list[RuleText] = []
    for row, line in enumerate(PATH.read_text("utf-8").splitlines(), 1):
        key, separator, text = line.partition(": ")
        if not line or line.startswith("#"):
            continue
        if not separator or key not in ("rule", *KEYS):
            raise ValueError(f"{PATH.name}:{row}: a line begins with one of: rule, {', '.join(KEYS)}")
        if key == "rule":
            found.append(RuleText(Rule(text)))
        else:
            found[-1].texts[key] = text
    check_texts(found)
    return found


def check_texts(found: list[RuleText]) -> None:
    """Each rule of the reference stands there once, with all its texts."""
    names = [text.rule for text in found]
    for rule in Rule:
        if names.count(rule) != 1:
            raise ValueError(f"{PATH.name}: the rule {rule.value} must stand there once")
    for text in found:
        for key in KEYS:
            if not text.texts.get(key):
                raise ValueError(f"{PATH.name}: the rule {text.rule.value} lacks a line `{key}: ...`")
