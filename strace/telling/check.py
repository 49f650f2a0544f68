"""The table of strace/check."""
from __future__ import annotations

from typing import Any

from saying.model import How


COLUMNS = ("program", "calls", "on AF_UNIX", "not said", "compared", "agree", "under a rule", "differ", "not decided", "moved",
           "moments", "same", "not told", "different")


def heading():
    return ["| " + " | ".join(COLUMNS) + " |", "|" + "---|" * len(COLUMNS)]


def cells_of(row: dict[str, Any]):
    calls, replies, audit = row["calls"], row["replies"], row["audit"]
    unix = calls["on AF_UNIX"]
    return [row["program"], calls["made"], sum(unix.values()), unix[How.NOT_AT_ALL.value], replies["compared"], replies["agree"],
            replies["under a rule"], replies["differ"], replies["not decided"], row["moved"], audit["moments"], audit["same"],
            audit["not told"], audit["different"]]


def row_of(row: dict[str, Any]):
    if "fault" in row:
        return f"| {row['program']} | {row['fault']} |"
    return "| " + " | ".join(str(cell) for cell in cells_of(row)) + " |"


def table_of(rows: list[dict[str, Any]]) -> str:
    """The sum, and the differences behind the table."""
    good = [row for row in rows if "fault" not in row]
    sums = [sum(column) for column in zip(*(cells_of(row)[1:] for row in good))]
    lines = ["| all | " + " | ".join(map(str, sums)) + " |", ""] if good else []
    for row in good:
        for one in row["differences"]:
            undecided = "" if one["is decided"] else "not decided: "
            what = f"{one['call']} | {one['reply']} | the kernel: {one['kernel']}"
            lines.append(f"{row['program']}: {undecided}line {one['line']}: {what}"[:240])
        lines += [f"{row['program']}: {example}" for example in row["audit"]["examples"]]
        unsaid = row["calls"]["reasons"][How.NOT_AT_ALL.value]
        lines += [f"{row['program']}: not said: {count} {reason}" for reason, count in unsaid.items()]
        if row["out of time"]:
            lines.append(f"{row['program']}: the search for an order ran out of time")
        lines += [f"{row['program']}: {len(places)} times {text}, first in line {places[0]}" for text, places in row["notes"].items()]
        if "mistakes" in row:
            found = row["mistakes"]
            lines.append(f"{row['program']}: of {found['planted']} mistakes a reply showed {found['by a reply']}, the audit "
                         f"{found['by the audit']}; nothing: {', '.join(found['not noticed']) or 'none'}"[:400])
    return "\n".join(lines)
