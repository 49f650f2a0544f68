"""By which options of strace a log was taken, as far as these make it say less than is needed."""
from __future__ import annotations

import re
from typing import TYPE_CHECKING

from .lines import NO_THREAD

if TYPE_CHECKING:
    from .calls import Log
    from pathlib import Path

FORKS = frozenset(("fork", "vfork", "clone", "clone3"))
ONE_OF_MANY = re.compile(r"(.*)\.\d+")
MOST_LOOKED_AT = 5000


def has_numbers_for_names(log: Log) -> bool:
    """Whether flags and families are numbers (strace -X raw, -X verbose)."""
    return any(call.name in ("socket", "socketpair") and call.text[:1].isdigit() or call.name == "openat" and call.text.startswith("-100")
               for call in log.calls[:MOST_LOOKED_AT])


def lacks_children(log: Log) -> bool:
    """Whether a log of one process alone has it fork (no strace -f)."""
    return (all(call.thread == NO_THREAD for call in log.calls)
            and any(call.name in FORKS and re.search(r"\) = [1-9]", call.text) for call in log.calls))


def advice_on(log: Log, path: Path | str) -> str:
    """What to do about a log that doesn't have its program's children, or no text."""
    if not lacks_children(log):
        return ""
    one = ONE_OF_MANY.fullmatch(str(path))
    if one:
        return f"one process alone, of those that strace -ff wrote to a file each: try strace-log-merge {one[1]}"
    return "one process alone, though it forks: take the log by strace -f, as strace/record does"
