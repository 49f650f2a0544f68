"""Compares runs in which processes go on by themselves and calls wait: of uxrun --threads, and on Linux."""
from __future__ import annotations

import re
import sys
from collections import Counter
from dataclasses import dataclass, field
from pathlib import Path

from reference.rules import NO_RULES
from reference.script import CallLine, Script, parse
from reference.trace import Run

from .linearization import Event, Search, make_waiting, may_wait
from .lines import Bench, compare_script, lines_of
from .programs import Stopped, Trouble, complain
from .session import Session
from .users import user_words

DEADLOCK = re.compile(r"process (\d+) waits in line (\d+)")
NAMED_BY_AUTOBIND = re.compile(r"^\d+ (bind \d+ u|setopt \d+ passcred .*)$", re.MULTILINE)
MADE_NONBLOCKING = re.compile(r"^\d+ (flags \d+|open \S+ \S+) \S*n\S*$", re.MULTILINE)
sys.setrecursionlimit(20000)


@dataclass
class ThreadsOutcome:
    """What was found of a script."""
    name: str
    calls: int = 0
    faults: list[str] = field(default_factory=list)
    left_out: str = ""
    deadlocks: int = 0


def calls_of(script: Script) -> dict[int, list[CallLine]]:
    """Each process's calls, with the exit behind them."""
    calls: dict[int, list[CallLine]] = {}
    for call in script.calls:
        calls.setdefault(call.pid, []).append(call)
    return calls


def call_at(calls: dict[int, list[CallLine]], pid: int, count: int) -> CallLine:
    """The process's call with this number from 0; behind its lines it exits."""
    own = calls.get(pid, [])
    return own[count] if count < len(own) else CallLine(0, pid, ["exit"])


def stuck_calls(script: Script, text: str) -> list[CallLine]:
    """The calls that a deadlock names; lines of `wait` are none."""
    rows = {int(row) for _, row in DEADLOCK.findall(text)}
    return [call for call in script.calls if call.row in rows]


# ---- uxrun

def check_here(bench: Bench, path: Path, script: Script, outcome: ThreadsOutcome) -> None:
    """The trace of uxrun --threads is the reference's in the order in which its lines stand."""
    status, output, errors = bench.programs.run([str(bench.uxrun), "--threads", str(path)])
    if status != 0 and "deadlock" not in errors:
        outcome.faults.append(f"uxrun --threads: {errors.strip()}")
        return
    run, calls = Run(script, NO_RULES, bench.machine), calls_of(script)
    for line in lines_of(output):
        words = line.split(" ")
        if words[3] == "off":
            run.end_layer()
        else:
            run.make(call_at(calls, int(words[1]), int(words[2])))
        if str(run.lines[-1]) != line:
            outcome.faults.append(f"uxrun --threads: {line} | reference: {run.lines[-1]}")
            return
    check_stuck_here(run, stuck_calls(script, errors), outcome)


def check_stuck_here(run: Run, stuck: list[CallLine], outcome: ThreadsOutcome) -> None:
    """Each call that a deadlock names would wait."""
    outcome.deadlocks += bool(stuck)
    for call in stuck:
        if not may_wait(run, call) or make_waiting(run, call) != "err EAGAIN":
            outcome.faults.append(f"uxrun --threads: a deadlock names line {call.row}, which needn't wait")


# ---- Linux

def events_in(script: Script, lines: list[str]) -> list[Event]:
    """The calls of a run on Linux, with their moments."""
    by_row = {call.row: call for call in script.calls}
    events = []
    for line in lines:
        head, _, reply = line.partition(" = ")
        begun, ended, pid, row = map(int, head.split(" ")[:4])
        events.append(Event(begun, ended, by_row.get(row) or CallLine(0, pid, ["exit"]), reply))
    return events


def check_there(bench: Bench, path: Path, user: int, script: Script, outcome: ThreadsOutcome) -> list[Event] | None:
    """Linux's answers are those of the reference with all rules, in some order that the moments allow."""
    status, output, errors = bench.programs.run([str(bench.replay), *user_words(user), "--threads", str(path)])
    if status != 0:
        outcome.faults.append(f"linux_replay --threads: {errors.strip()}")
        return None
    lines = lines_of(output)
    text = lines.pop() if lines and lines[-1].startswith("deadlock") else ""
    outcome.deadlocks += bool(text)
    search = Search(script, events_in(script, lines), stuck_calls(script, text), bench.machine)
    order = search.find()
    outcome.calls += len(lines)
    if order is None and search.collects:
        outcome.left_out = "what Linux collects goes at a moment that nobody knows"
    elif order is None:
        last = search.best[-1].call if search.best else None
        outcome.faults.append(f"Linux: no order of the calls is legal; {len(search.best)} of {len(lines)} can be made, the last "
                              f"in line {last.row if last else 0}. {text}")
    return order


def check_serially(bench: Bench, user: int, script_text: str, order: list[Event], outcome: ThreadsOutcome, stem: str) -> None:
    """The order that was found is given to uxrun as a serial script, and compared as any other."""
    head = [line for line in script_text.split("\n") if line.startswith(("object ", "proc "))]
    rows = [f"{event.call.pid} {' '.join(event.call.words)}" for event in order]
    path = bench.programs.folder / f"{stem}.{user}.serial.ux"
    path.write_text("\n".join(head + rows) + "\n", "latin-1")
    found = compare_script(bench, path, user)
    outcome.faults += [f"in the order of Linux: {difference}" for difference in found.differences]
    outcome.faults += [f"in the order of Linux: {found.trouble}"] if found.trouble else []


def reason_to_leave_out(text: str, script: Script) -> str:
    """Why runs on Linux can't be compared, or nothing."""
    if NAMED_BY_AUTOBIND.search(text):
        return "names that autobind gives have no order on Linux"
    if any(made.kind == "counter" for made in script.objects) and MADE_NONBLOCKING.search(text):
        return "all opens of a counter are one description on Linux"
    return ""


def compare_threads(bench: Bench, path: Path, user: int) -> ThreadsOutcome:
    """Compares a script's runs by threads. A call that waits reaches an object that fails more than once."""
    outcome = ThreadsOutcome(str(path))
    text = path.read_text("latin-1")
    script = parse(text)
    try:
        if script.is_serial:
            outcome.left_out = "a serial script has one order"
            return outcome
        if any(made.fails_at for made in script.objects):
            outcome.left_out = "objects that fail count each attempt"
            return outcome
        check_here(bench, path, script, outcome)
        outcome.left_out = reason_to_leave_out(text, script)
        order = None if outcome.left_out else check_there(bench, path, user, script, outcome)
        if order is not None:
            check_serially(bench, user, text, order, outcome, path.stem)
    except (ValueError, KeyError, IndexError) as error:
        outcome.faults.append(repr(error))
    return outcome


def run_threads(paths: list[Path], jobs: int | None) -> int:
    """Compares scripts, and prints what was found. It answers the status of the program."""
    counts: Counter[str] = Counter()
    try:
        with Session(jobs) as session:
            for outcome in session.each(paths, lambda path, user: compare_threads(session.bench, path, user)):
                for fault in outcome.faults:
                    print(f"{outcome.name}: {fault}", flush=True)
                counts["faults"] += len(outcome.faults)
                counts["calls"] += outcome.calls
                counts["deadlocks"] += outcome.deadlocks
                counts["left out"] += bool(outcome.left_out)
    except Trouble as trouble:
        complain(str(trouble))
        return 2
    except Stopped:
        return 1
    print(f"{len(paths):8d} scripts\n{counts['left out']:8d} of them left out, or by uxrun alone\n{counts['calls']:8d} calls on Linux")
    print(f"{counts['deadlocks']:8d} runs that end where all wait\n{counts['faults']:8d} faults")
    return 1 if counts["faults"] or session.left else 0
