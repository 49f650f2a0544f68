"""The report of replay: how the calls were said, and how the replies stand to the kernel's."""
from __future__ import annotations

from collections import Counter
from typing import TYPE_CHECKING, Any

from judging.compare import Outcome
from saying.model import How

if TYPE_CHECKING:
    from judging.compare import Verdict
    from judging.order import Order
    from judging.run import Runner
    from reading.calls import Log
    from saying.world import World

MOST_TOLD = 12
MOST_PLACES = 5


def calls_of(world: World):
    """How the log's calls were said, all of them and those on AF_UNIX sockets."""
    blocks = [block for block in world.blocks if block.call is not None and hasattr(block.call, "name") and not block.is_part]
    return {
        "made": len(blocks) + sum(world.log.quiet.values()),
        **{how.value: sum(block.how is how for block in blocks) for how in How},
        "without effect": sum(world.log.quiet.values()),
        "on AF_UNIX": {how.value: sum(block.unix and block.how is how for block in blocks) for how in How},
        "reasons": {how.value: dict(Counter(f"{block.call.name}: {block.why}" for block in blocks if block.how is how).most_common())
                    for how in How if how is not How.AS_IT_IS},
        "without effect by name": dict(world.log.quiet.most_common()),
    }


def replies_of(order: Order):
    verdicts = order.verdicts
    rules = Counter(verdict.rule for verdict in verdicts if verdict.outcome is Outcome.RULE)
    compared = [verdict for verdict in verdicts if verdict.outcome is not Outcome.NOT_COMPARED]
    return {
        "compared": len(compared),
        "agree": sum(verdict.outcome is Outcome.AGREES for verdict in compared),
        "under a rule": sum(rules.values()),
        "rules": dict(rules.most_common()),
        "differ": sum(verdict.outcome is Outcome.DIFFERS and order.is_decided(verdict) for verdict in compared),
        "not decided": sum(verdict.outcome is Outcome.DIFFERS and not order.is_decided(verdict) for verdict in compared),
        "before the first difference": before_first(compared),
    }


def before_first(compared: list[Verdict]):
    return next((place for place, verdict in enumerate(compared) if verdict.outcome is Outcome.DIFFERS), len(compared))


def difference_of(order: Order, verdict: Verdict):
    block = verdict.step.block
    return {"is decided": order.is_decided(verdict), "line": block.call.begin if block.call is not None else None,
            "process": block.program, "call": verdict.call, "reply": verdict.ours, "kernel": verdict.kernel, "descriptor": verdict.step.state}


def report_of(log: Log, world: World, order: Order, runner: Runner):
    """All that replay says, as a value."""
    return {
        "log": {"lines": log.lines, "recorded": log.head.recorded, "threads": len(world.people.by_pid), "cut": log.cut,
                "unfinished": log.unfinished, "unreadable": len(log.bad), "first unreadable": log.bad[:3],
                "strings cut": world.gaps.cut_texts},
        "calls": calls_of(world),
        "unknown calls": dict(world.gaps.unknown_names),
        "notes": world.doubts.told(),
        "unknown": [{"line": block.call.begin, "process": block.program, "call": block.call.name, "why": block.unknown}
                    for block in world.blocks if block.unknown],
        "replies": replies_of(order),
        "moved": len(order.moved),
        "out of time": order.out_of_time,
        "runs": runner.runs,
        "differences": [difference_of(order, verdict) for verdict in order.verdicts if verdict.outcome is Outcome.DIFFERS],
    }


def reasons(counts: dict[str, int], heading: str):
    lines = [f"  {heading}:"] if counts else []
    for reason, count in list(counts.items())[:MOST_TOLD]:
        lines.append(f"    {count:6d} {reason}")
    if len(counts) > MOST_TOLD:
        lines.append(f"    {sum(list(counts.values())[MOST_TOLD:]):6d} for {len(counts) - MOST_TOLD} further reasons (--json has all)")
    return lines


def text_of(report: dict[str, Any], every: bool = False) -> str:
    """The report as lines."""
    log, calls, replies = report["log"], report["calls"], report["replies"]
    lines = [f"{log['lines']} lines, {log['threads']} processes, {calls['made']} calls"]
    lines += faults_of(log)
    said = ", ".join(f"{calls[how.value]} {how.value}" for how in How)
    unix = ", ".join(f"{calls['on AF_UNIX'][how.value]} {how.value}" for how in How)
    lines += [f"calls: {said}, {calls['without effect']} of names without effect", f"  on AF_UNIX sockets: {unix}"]
    for how in (How.OTHERWISE, How.LEFT_OUT, How.NOT_AT_ALL):
        lines += reasons(calls["reasons"][how.value], how.value)
    lines += reasons(report["unknown calls"], "calls that this program doesn't know")
    lines += doubts_of(report["notes"])
    lines.append(f"replies: {replies['compared']} compared, {replies['agree']} agree, {replies['under a rule']} under a rule, "
                 f"{replies['differ']} differ; {report['moved']} calls that overlap were moved")
    if report["out of time"] or replies["not decided"]:
        lines.append(f"  the search for an order of the calls that overlap ended early: {replies['not decided']} further replies aren't "
                     "decided (see --seconds)")
    lines += reasons(replies["rules"], "rules of compare/differences.txt")
    if report["unknown"]:
        lines.append(f"  {len(report['unknown'])} calls are of descriptors whose state isn't known: their replies are ? (--all lists them)")
    if every:
        lines += [f"  line {one['line']}: {one['process']}: {one['call']} = ?, {one['why']}" for one in report["unknown"]]
    for one in report["differences"][:None if every else 1]:
        lines.append(f"  line {one['line']}: {one['process']}: {one['call']} | {one['reply']} | the kernel: {one['kernel']}"[:400])
    return "\n".join(lines)


def doubts_of(notes: dict[str, list[int]]):
    """What can't be as the log tells it, with the first lines of each."""
    lines = ["  what can't be as the log tells it:"] if notes else []
    for text, places in notes.items():
        more = f" and {len(places) - MOST_PLACES} more" if len(places) > MOST_PLACES else ""
        lines.append(f"    {len(places):6d} {text}: {'lines' if len(places) > 1 else 'line'} "
                     f"{', '.join(map(str, places[:MOST_PLACES]))}{more}")
    return lines


def status_of(report: dict[str, Any]) -> int:
    """1 where a reply differs, 3 where something else of the log can't be so or replies aren't decided, else 0."""
    if report["replies"]["differ"]:
        return 1
    return 3 if report["notes"] or report["log"]["unreadable"] or report["replies"]["not decided"] else 0


def faults_of(log: dict[str, Any]):
    lines = []
    if not log["recorded"]:
        lines.append("  strace/record didn't write it: what was open at the start is guessed from what was used")
    if log["cut"] or log["unfinished"]:
        lines.append(f"  its last line is {'cut' if log['cut'] else 'whole'}; {log['unfinished']} calls have no end")
    if log["unreadable"]:
        number, text = log["first unreadable"][0]
        lines.append(f"  {log['unreadable']} lines can't be read; the first is line {number}: {text}")
    if log["strings cut"]:
        lines.append(f"  {log['strings cut']} strings were cut by strace: contents are compared by their length")
    return lines
