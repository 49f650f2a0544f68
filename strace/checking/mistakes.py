"""Plants mistakes: takes one call that changes something out of a script, and sees whether a reply or the audit shows it."""
from __future__ import annotations

from dataclasses import replace
from typing import TYPE_CHECKING, Any

from judging.compare import Judge, Outcome
from saying.model import Role
from saying.script import Script
from .moments import compare

if TYPE_CHECKING:
    from .moments import Moment
    from judging.compare import Verdict
    from judging.order import Order
    from judging.run import Runner
    from saying.model import Step
    from saying.world import World

PLACES = 20
QUERIES = ("poll", "polls", "sockname", "peername", "getopt", "fork", "exit")
MOST_MOMENTS = 3


def plant(world: World, order: Order, runner: Runner, moments: list[Moment]):
    """Of so many places how many mistakes a reply showed, or /proc beside the audit; and the calls of the others."""
    script = order.script
    places = [place for place, step in enumerate(script.steps) if changes(step)]
    chosen = [places[place * len(places) // PLACES] for place in range(min(PLACES, len(places)))]
    before = outcomes(order.verdicts)
    report: dict[str, Any] = {"planted": len(chosen), "by a reply": 0, "by the audit": 0, "not noticed": []}
    for place in chosen:
        changed = without(script, place)
        trace = runner.run(changed.text())
        verdicts = Judge(world, order.rules).judge(changed, trace)
        if trace.fault or outcomes(verdicts) != before[:place] + before[place + 1:]:
            report["by a reply"] += 1
        elif is_audited(world, replace(order, script=changed), runner, moments, script.steps[place]):
            report["by the audit"] += 1
        else:
            report["not noticed"].append(script.steps[place].words.replace("\0", ""))
    return report


def changes(step: Step) -> bool:
    """Whether a call may be taken out: it went well, and isn't a query."""
    return (step.role is Role.CALL and step.expect is not None and not step.expect.startswith("err ")
            and step.words.split(" ")[0] not in QUERIES)


def without(script: Script, place: int):
    return Script(script.header, script.lines[:place] + script.lines[place + 1:], script.steps[:place] + script.steps[place + 1:],
                  script.seats)


def is_audited(world: World, order: Order, runner: Runner, moments: list[Moment], step: Step) -> bool:
    """Whether the audit of the changed script is other than /proc at one of the next moments."""
    later = [moment for moment in moments if moment[0] >= step.block.at][:MOST_MOMENTS]
    return any(compare(world, order, runner, [moment])["different"] for moment in later)


def outcomes(verdicts: list[Verdict]):
    return [(verdict.outcome is Outcome.DIFFERS, verdict.rule) for verdict in verdicts]
