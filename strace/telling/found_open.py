"""The report of found-open: what each program had open behind its exec, and what looks wrong."""
from __future__ import annotations

from collections import Counter
from typing import TYPE_CHECKING, Any

from judging.holdings import holdings
from judging.run import Fault
from saying.marks import TIED_KINDS
from saying.model import Kind

if TYPE_CHECKING:
    from judging.holdings import Holding
    from judging.order import Order
    from judging.run import Runner
    from saying.model import Block, Process
    from saying.world import World

STREAMS = 3
IN_WORDS: dict[tuple, str] = {("closed",): "closed before any use", ("closed with all others",): "closed with all others before any use"}
CLOSED, CLOSED_IN_A_LOOP = "closed", "closed with all others"
# How many lines of a log may lie between the closes of a loop over all numbers.
NEAR = 60


def report_of(world: World, order: Order, runner: Runner):
    """Each program that was executed with what it found open."""
    programs = []
    places = {step.block: place + 1 for place, step in enumerate(order.script.steps) if step.words == "exec"}
    for block in sorted(world.uses.executed, key=lambda block: block.call.begin):
        if block not in places:
            programs.append({"program": block.program, "line": block.call.begin, "found": [], "unknown": block.process.unsaid})
            continue
        held, fault = holdings(world, order.script, runner, places[block])
        if fault:
            raise Fault(f"uxrun ended with: {fault}")
        found = [tell(world, block, one) for one in held if one.process is block.process]
        programs.append({"program": block.program, "line": block.call.begin, "found": found, "unknown": ""})
    return {"programs": programs}


def tell(world: World, block: Block, one: Holding):
    used = uses_of(world, block, one.number)
    return {"number": one.number, "chain": one.chain, "leads to": one.description.inode if one.description else "",
            "used": used, "wrong": judge(one, used), "unknown": one.unknown, "from the start": one.from_start}


def uses_of(world: World, block: Block, number: int):
    """The names of calls on a number from a program's beginning until it is closed, by the program and its forks; `closed` where
    nothing comes before."""
    calls = calls_on(world, block.process, number, block.call.end, next_exec(world, block.process, block.call.begin))
    closed = [name for name in calls if name in (CLOSED, CLOSED_IN_A_LOOP)]
    return list(dict.fromkeys(name for name in calls if name not in closed))[:3] or closed[:1]


def next_exec(world: World, process: Process, line: float):
    """The line at which a process executes the next program behind a line."""
    return min((block.call.begin for block in world.uses.executed if block.process is process and block.call.begin > line),
               default=float("inf"))


def calls_on(world: World, process: Process, number: int, begin: float, until: float):
    """The calls of a process on a number behind a line and before another, or its close; and those of its forks before they execute
    a program of their own. A close of the process itself stands last, as `closed`."""
    closes = [close for close in world.uses.closes.get((id(process), number), ()) if begin < close[0] < until]
    until = min([until, *(line for line, _ in closes)])
    calls = [name for line, name in world.uses.calls.get((id(process), number), ()) if begin < line < until]
    if any(begin < line < until and touched == number for line, touched in touches(world, process)):
        calls.append("a query")
    for child in world.people.processes:
        if child.parent is process and child.birth is not None and begin < child.birth.call.begin < until:
            born = child.birth.call.begin
            calls += [name for name in calls_on(world, child, number, born, next_exec(world, child, born))
                      if name not in (CLOSED, CLOSED_IN_A_LOOP)]
    if not closes:
        return calls
    return [*calls, CLOSED_IN_A_LOOP if is_in_a_loop(world, process, number, min(closes)) else CLOSED]


def is_in_a_loop(world: World, process: Process, number: int, close: tuple[int, str]) -> bool:
    """Whether a close is one of all numbers from some on: by close_range(2), or beside those of two neighbours."""
    line, name = close
    near = [other for other in range(number - 2, number + 3)
            if any(abs(at - line) <= NEAR for at, _ in world.uses.closes.get((id(process), other), ()))]
    return name == "close_range" or len(near) >= 3


def touches(world: World, process: Process):
    return world.log.touched.get(process.pid, ())


def judge(one: Holding, used: list[str]):
    """What looks wrong about a descriptor that a program found open, or no text."""
    if one.number < STREAMS or one.from_start or used == [CLOSED_IN_A_LOOP] or used and used != [CLOSED]:
        return ""
    description = one.description
    closed = ", though the program closes it" if used else ""
    if description is not None and description.listens:
        return "a socket that listens, which the program never uses" + closed
    if description is not None and description.phase == "tied":
        end = ": its peer sees no end of input as long as this is open" if description.kind in TIED_KINDS else ""
        return "a connection that the program never uses" + end + closed
    if description is not None and description.kind is Kind.PIPE and description.mode == "w" and not used:
        return "a pipe's writing end that the program never uses: its readers see no end of input as long as this is open"
    return "" if used else "never used: not close-on-exec"


def text_of(report: dict[str, Any], every: bool = False) -> str:
    """The report as lines: what looks wrong, each once with how often, and then each program that found something."""
    wrong = [(program, one) for program in report["programs"] for one in program["found"] if one["wrong"]]
    lines = [f"{len(report['programs'])} programs were executed; {len(wrong)} descriptors look wrong"]
    counts = Counter((name_of(program), one["wrong"], one["chain"][0]) for program, one in wrong)
    for (name, why, origin), count in sorted(counts.items(), key=lambda item: weight(item[0][1])):
        lines.append(f"  {name}{f' ({count} times)' if count > 1 else ''}: {why}: {origin}")
    lines += from_the_start(report)
    told = set()
    for program in report["programs"]:
        rows = [one for one in program["found"] if every or one["number"] >= STREAMS and not one["from the start"]]
        key = (name_of(program), tuple((one["number"], one["wrong"]) for one in rows))
        if key in told and not every:
            continue
        told.add(key)
        if rows or every or program["unknown"]:
            lines.append(f"{program['program']}, line {program['line']}:")
        if program["unknown"]:
            lines.append(f"  not known: {program['unknown']}")
        lines += [row_of(one) for one in rows]
    return "\n".join(lines)


def from_the_start(report: dict[str, Any]):
    """What was open before the first call of the log, each number once, with how many programs found it so."""
    counts = Counter((one["number"], one["chain"][0]) for program in report["programs"] for one in program["found"]
                     if one["from the start"] and one["number"] >= STREAMS)
    return [f"  {number}: {origin}: {count} programs found it so" for (number, origin), count in sorted(counts.items())]


def name_of(program: dict[str, Any]):
    return program["program"].split(" (pid ")[0]


def weight(why: str) -> int:
    """Listeners first, then connections, then the rest."""
    return 0 if "listens" in why else 1 if "connection" in why else 2


def row_of(one: dict[str, Any]) -> str:
    mark = f"\n      LOOKS WRONG: {one['wrong']}" if one["wrong"] else ""
    used = IN_WORDS.get(tuple(one["used"]), f"used by {', '.join(one['used'])}")
    use = f"; {used}" if one["used"] and not one["wrong"] else ""
    return f"  {one['number']}: {', '.join(one['chain'])}{use}{mark}"
