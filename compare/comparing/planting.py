"""Plants defects into the reference, and wrong answers into traces, and counts which of them a comparison finds."""
from __future__ import annotations

import tempfile
from collections import Counter
from pathlib import Path
from typing import Iterator

from reference.machine import Machine
from reference.rules import ALL_RULES, NO_RULES
from reference.script import Script, read_script
from reference.trace import Line

from . import further_defects, half_defects, long_defects, making_defects, socket_defects, user_defects  # add their defects
from .defects import ALL, Defect
from .generator import write_scripts
from .lines import first_difference, reference_lines
from .output_planting import Output, count_wrong_outputs, outputs_of, wrong_answer_of
from .programs import COMPARE, TOP, Stopped, Trouble, complain
from .session import Session

RANDOM_SCRIPTS, SEED = 300, 54
ERRORS = ("EAGAIN", "EBADF", "EINVAL", "ENOTCONN", "EPIPE", "ECONNRESET", "ECONNREFUSED", "EMFILE")
assert further_defects and half_defects and long_defects and making_defects and socket_defects and user_defects


class Traces:
    """What a script is answered here and there, and by the reference without a defect."""

    def __init__(self, path: Path, here: list[str], there: list[str], machine: Machine):
        self.path = path
        self.script: Script = read_script(path)
        self.rows = path.read_text("latin-1").split("\n")
        self.here, self.there = here, there
        self.plain: list[Line] = reference_lines(self.script, NO_RULES, machine)[0]
        self.linux: list[Line] = reference_lines(self.script, ALL_RULES, machine)[0]


def told(lines: list[Line]) -> list[str]:
    """The lines as texts."""
    return [str(line) for line in lines]


def make_traces(session: Session, scripts: list[Path]) -> list[Traces]:
    """All traces of the scripts, each of which must agree."""
    bench = session.bench
    both = session.each(scripts, lambda path, user: (bench.trace_here(path), bench.trace_there(path, user)))
    made = [Traces(path, here, there, bench.machine) for path, (here, there) in zip(scripts, both)]
    for traces in made:
        if traces.here != told(traces.plain) or traces.there != told(traces.linux):
            raise Trouble(f"{traces.path} differs without a defect: see compare/run")
    return made


def try_defect(defect: Defect, all_traces: list[Traces], machine: Machine) -> tuple[bool, bool, bool]:
    """Whether scripts exercise a defect, whether it is found where uxrun alone has it, and where the reference has it too."""
    exercised = found_here = found_there = False
    with defect.planted():
        for traces in all_traces:
            wrong = reference_lines(traces.script, NO_RULES, machine)[0]
            shared = reference_lines(traces.script, ALL_RULES, machine)[0]
            exercised |= told(wrong) != traces.here or told(shared) != traces.there
            found_here |= first_difference("uxrun", told(wrong), traces.plain, traces.rows) is not None
            found_there |= first_difference("Linux", traces.there, shared, traces.rows) is not None
            if found_here and found_there:
                break
    return exercised, found_here, found_there


def wrong_answers(line: str) -> Iterator[str]:
    """The line with another answer: an error, a figure one off, bytes, flags, a name, or what was closed."""
    head, _, answer = line.partition(" = ")
    reply, _, closed = answer.partition(" closed ")
    words = reply.split(" ")
    behind = f" closed {closed}" if closed else ""
    made = {f"err {error}" for error in ERRORS} | {"ok"}
    for at, word in enumerate(words[1:], 1):
        changed = {"-", "u", "a:other", "00", f"{word}00", "IN", "CTRUNC", "c:1,1,1", "r:9"}
        changed |= {str(int(word) + 1), str(max(0, int(word) - 1))} if word.isdigit() and len(word) < 20 else set()
        changed |= {word[:-2] or "-", "|".join(word.split("|")[1:]) or "-"}
        made |= {" ".join([*words[:at], other, *words[at + 1:]]) for other in changed}
    for other in sorted(made - {reply}):
        yield f"{head} = {other}{behind}"
    yield f"{head} = {reply}{'' if closed else ' closed 0'}"


def count_wrong_answers(all_traces: list[Traces]) -> tuple[Counter[str], Counter[str]]:
    """By kind of call, how many single wrong answers were planted, and how many of them pass."""
    planted: Counter[str] = Counter()
    passed: Counter[str] = Counter()
    for traces in all_traces:
        for whose, lines, expected in (("uxrun", traces.here, traces.plain), ("Linux", traces.there, traces.linux)):
            for at, line in enumerate(lines):
                for wrong in wrong_answers(line):
                    planted[expected[at].word] += 1
                    passed[expected[at].word] += first_difference(whose, [wrong], expected[at:at + 1], traces.rows) is None
                passed["a line too few"] += first_difference(whose, lines[:at], expected, traces.rows) is None
                planted["a line too few"] += 1
    return planted, passed


def wrong_outputs(all_traces: list[Traces]) -> list[Output]:
    """Outputs of uxrun that are wrong in form, for the first script, and for each kind of call one with another answer."""
    made, known = outputs_of(all_traces[0].path, "".join(f"{line}\n" for line in all_traces[0].here).encode("latin-1")), set()
    for traces in all_traces:
        for at, line in enumerate(traces.plain):
            if line.word not in known:
                known.add(line.word)
                made.append(wrong_answer_of(traces.path, traces.here, at, list(wrong_answers(traces.here[at]))))
    return made


def all_scripts(folder: Path) -> list[Path]:
    """examples, further, and random scripts."""
    return [*sorted((TOP / "examples").glob("*.ux")), *sorted((COMPARE / "further").glob("*.ux")),
            *write_scripts(RANDOM_SCRIPTS, SEED, folder)]


def tell_defects(all_traces: list[Traces], machine: Machine) -> bool:
    """Tries all defects and prints what became of each; whether all that are exercised were found."""
    hidden, by_linux, unseen = 0, 0, 0
    for defect in ALL:
        exercised, here, there = try_defect(defect, all_traces, machine)
        unseen += not exercised
        hidden += exercised and not here and not there
        by_linux += there
        what = "not exercised" if not exercised else "found" if there else "found by the reference alone" if here else "HIDDEN"
        print(f"{what}: {defect.call}: {defect.name}", flush=True)
    print(f"{len(ALL):8d} defects planted\n{unseen:8d} not exercised\n{hidden:8d} hidden")
    print(f"{by_linux:8d} found by Linux, also where the reference has the defect too")
    return not hidden and not unseen


def plant_all() -> int:
    """Plants everything. It answers the status of the program."""
    try:
        with tempfile.TemporaryDirectory(prefix="scripts.") as place, Session() as session:
            all_traces = make_traces(session, all_scripts(Path(place)))
            is_good = tell_defects(all_traces, session.bench.machine)
            planted, passed = count_wrong_answers(all_traces)
            is_good &= count_wrong_outputs(session.bench, wrong_outputs(all_traces)) == 0
    except Trouble as trouble:
        complain(str(trouble))
        return 2
    except Stopped:
        return 1
    for word in sorted(planted):
        print(f"{planted[word]:8d} wrong answers of {word}, {passed[word]} pass")
    print(f"{planted.total():8d} wrong answers, {passed.total()} pass")
    return 0 if is_good and passed.total() == 0 and not session.left else 1
