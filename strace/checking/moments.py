"""Compares the audit with /proc at quiet moments: the same processes, numbers, and files or sockets."""
from __future__ import annotations

import re
from bisect import bisect_right
from typing import TYPE_CHECKING, Any

from judging.holdings import calls_up_to, holdings
from saying.waiting import WAITS

if TYPE_CHECKING:
    from judging.order import Order
    from judging.run import Runner
    from reading.calls import Log
    from saying.model import Description
    from saying.world import World

# A line of a log, and by process and number what /proc said then.
Moment = tuple[int, dict[int, dict[int, str]]]
MARGIN = 0.001
# How long a call may begin behind the time that strace notes, on a busy machine.
LATEST = 0.1
MOST_TOLD = 5


def quiet_moments(log: Log, samples: list[dict[str, Any]], most: int):
    """Samples during which the log has no call, with the last line before them; spread over the run, each with
    other calls before it."""
    busy = busy_times(log)
    starts = [begin for begin, _ in busy]
    quiet, seen = [], set()
    for sample in samples:
        last = bisect_right(starts, sample["end"] + MARGIN) - 1
        if last >= 0 and busy[last][1] >= sample["begin"] - MARGIN or not sample["tables"]:
            continue
        line = log.line_before(sample["begin"])
        # Before the first call strace follows a process of its own, to find out what the kernel can.
        if line and line not in seen:
            seen.add(line)
            quiet.append((line, sample["tables"]))
    if len(quiet) <= most:
        return quiet
    return [quiet[place * (len(quiet) - 1) // (most - 1)] for place in range(most)]


def busy_times(log: Log):
    """The stretches of time in which a call that may change a table runs, joined where they overlap; each up to its thread's next line,
    or for so long as strace may be late."""
    times = [(call.ended if call.name in WAITS else call.time, max(call.ended, min(call.latest or 0, call.ended + LATEST)))
             for call in log.calls if call.time is not None and call.ended is not None]
    times += [(end.time, end.time) for end in log.ends if end.time is not None]
    joined: list[list[float]] = []
    for begin, end in sorted(times):
        if joined and begin <= joined[-1][1]:
            joined[-1][1] = max(joined[-1][1], end)
        else:
            joined.append([begin, end])
    return joined


def compare(world: World, order: Order, runner: Runner, moments: list[Moment]):
    """How many descriptors were the same, of how many the log doesn't tell where they lead, and which were others."""
    report: dict[str, Any] = {"moments": len(moments), "same": 0, "not told": 0, "different": 0, "examples": []}
    for line, tables in moments:
        held, _ = holdings(world, order.script, runner, calls_up_to(order.script, line))
        ours = {(one.process.pid, one.number): one.description for one in held}
        theirs = {(process, number): target for process, table in tables.items() for number, target in table.items()}
        for key in sorted(set(ours) | set(theirs)):
            verdict = same(ours[key], theirs[key]) if key in ours and key in theirs else "different"
            report[verdict] += 1
            if verdict == "different" and len(report["examples"]) < MOST_TOLD:
                mine = ours[key].inode if ours.get(key) else "held" if key in ours else "nothing"
                report["examples"].append(f"line {line}: process {key[0]}, {key[1]}: {mine}, /proc: {theirs.get(key, 'nothing')}")
    return report


def same(description: Description | None, target: str) -> str:
    """Whether a description is what /proc says: `same`, `different`, or `not told`."""
    if description is None or not description.inode:
        return "not told"
    mine, theirs = plain(description.inode), plain(target)
    if mine == theirs:
        return "same"
    if not re.match(r"(/|socket:|pipe:|anon_inode:)", mine):
        return "not told"
    return "different"


def plain(text: str):
    """A target without what strace and /proc add each in its own way."""
    text = re.sub(r"\\(x[0-9a-f]{2}|[0-7]{1,3})", lambda found: chr(int(found[1].lstrip("x"), 16 if found[1][0] == "x" else 8)), text)
    return text.removesuffix(" (deleted)")
