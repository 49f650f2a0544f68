"""Which kinds of call the scripts make at descriptors of which state, as a table."""
from __future__ import annotations

import tempfile
from collections import Counter
from pathlib import Path

from reference.machine import Machine
from reference.rules import NO_RULES
from reference.script import read_script
from reference.calls import WITHOUT_DESCRIPTOR
from reference.trace import CALLS, trace

from .generator import write_scripts
from .programs import COMPARE, TOP

STATES = ("closed", "mem", "counter", "pipe", "stream/idle", "stream/listening", "stream/connected", "stream/gone",
          "dgram/idle", "dgram/associated", "dgram/gone", "seq/idle", "seq/listening", "seq/connected", "seq/gone")


def count_calls(scripts: list[Path]) -> Counter[tuple[str, str]]:
    """How often each kind of call is made at a descriptor of each state."""
    found: Counter[tuple[str, str]] = Counter()
    for path in scripts:
        found.update((line.word, line.state) for line in trace(read_script(path), NO_RULES, Machine()))
    return found


def table(found: Counter[tuple[str, str]]) -> list[str]:
    """The table's lines, a call a row."""
    lines = ["| | " + " | ".join(STATES) + " |", "|---" * (len(STATES) + 1) + "|"]
    for word in CALLS:
        if word not in WITHOUT_DESCRIPTOR:
            lines.append(f"| {word} | " + " | ".join(str(found[word, state]) for state in STATES) + " |")
    return lines


def tell_reach(count: int, seed: int) -> int:
    """Prints the table over examples, further and random scripts. The status is 1 where a place is empty."""
    with tempfile.TemporaryDirectory(prefix="scripts.") as place:
        scripts = [*(TOP / "examples").glob("*.ux"), *(COMPARE / "further").glob("*.ux"),
                   *write_scripts(count, seed, Path(place))]
        found = count_calls(scripts)
    print("\n".join(table(found)))
    print("\n" + ", ".join(f"{word} {found[word, '-']}" for word in sorted(WITHOUT_DESCRIPTOR)))
    empty = [f"{word} at {state}" for word in CALLS if word not in WITHOUT_DESCRIPTOR for state in STATES
             if not found[word, state]]
    for text in empty:
        print(f"never: {text}")
    return 1 if empty else 0
