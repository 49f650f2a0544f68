"""The report of holds: descriptors with their chains, what was left at exits, and rights that were dropped."""
from __future__ import annotations

from typing import TYPE_CHECKING, Any

from judging.compare import Outcome
from judging.holdings import holdings
from saying.model import Role

if TYPE_CHECKING:
    from judging.holdings import Holding
    from judging.order import Order
    from judging.run import Runner
    from saying.script import Script
    from saying.world import World

MOST_EXITS = 64


def left_at_exit(world: World, script: Script, runner: Runner):
    """What each process still had open when it ended, by an audit before each exit."""
    found = []
    places = [place for place, step in enumerate(script.steps) if step.words == "exit" and step.role is Role.CALL]
    for place in places[:MOST_EXITS]:
        step = script.steps[place]
        held, fault = holdings(world, script, runner, place)
        if fault:
            break
        found += [one for one in held if one.process is step.block.process and one.number > 2]
    return found


def lost_rights(order: Order):
    """Receives that dropped rights, which their replies tell by CTRUNC."""
    return [{"line": verdict.step.block.call.begin, "process": verdict.step.block.program, "call": verdict.call, "reply": verdict.ours}
            for verdict in order.verdicts
            if verdict.outcome is not Outcome.NOT_COMPARED and verdict.call.startswith("recv ") and "CTRUNC" in verdict.ours]


def never_received(world: World):
    """Rights that were sent and that nobody got as a descriptor: they were read over, cut, or left unread."""
    return [{"line": block.call.begin, "process": block.program, "what": description.what, "leads to": description.inode}
            for description, block in world.objects.in_flight]


def value_of(one: Holding):
    return {"process": one.process.label(), "pid": one.process.pid, "number": one.number, "chain": one.chain,
            "what": one.description.what if one.description else "", "leads to": one.description.inode if one.description else "",
            "unknown": one.unknown}


def report_of(line: int, found: list[Holding], left: list[Holding], lost: list[dict[str, Any]], pid: int | None, world: World,
              order: Order, at_end: bool):
    """All that holds says, as a value."""
    def wanted(one: Holding) -> bool:
        return pid is None or one.process.pid == pid
    differing = next((verdict for verdict in order.verdicts if verdict.outcome is Outcome.DIFFERS), None)
    return {
        "line": line,
        "held": [value_of(one) for one in found if wanted(one)],
        "left at exit": [value_of(one) for one in left if wanted(one)],
        "rights dropped": lost,
        "rights never received": never_received(world) if at_end else [],
        "not said": [process.label() for process in world.people.processes if process.unsaid],
        "first difference": differing.step.block.call.begin if differing and differing.step.block.call else None,
    }


def line_of(one: dict[str, Any]) -> str:
    unknown = f" (not known: {one['unknown']})" if one["unknown"] else ""
    return f"{one['process']} {one['number']}: {', '.join(one['chain'])}{unknown}"


def text_of(report: dict[str, Any]) -> str:
    """The report as lines."""
    lines = [line_of(one) for one in report["held"]]
    if not lines:
        lines.append("nobody holds a descriptor then")
    if report["left at exit"]:
        lines += ["left open at an exit, standard streams aside:", *("  " + line_of(one) for one in report["left at exit"])]
    for one in report["rights dropped"]:
        lines.append(f"rights that arrived and were dropped: line {one['line']}, {one['process']}: {one['call']} = {one['reply']}"[:300])
    for one in report["rights never received"]:
        lines.append(f"a right that nobody got as a descriptor: line {one['line']}, {one['process']} sent {one['what']}")
    for name in report["not said"]:
        lines.append(f"{name}: its descriptors aren't known: more processes than a script has")
    if report["first difference"] is not None:
        lines.append(f"from line {report['first difference']} on replies differ from the kernel's: strace/replay tells how")
    return "\n".join(lines)
