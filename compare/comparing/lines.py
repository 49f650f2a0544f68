"""Compares a script: uxrun's trace with the reference's, Linux's with that of the reference that follows all rules."""
from __future__ import annotations

from dataclasses import dataclass, field
from pathlib import Path

from reference.machine import Machine
from reference.rules import ALL_RULES, NO_RULES, Rule
from reference.script import Script, parse
from reference.trace import Line, Run

from .programs import Programs
from .users import user_words

MOST_RESYNCS = 20
NO_LINE = "no line"
LONGEST_TOLD = 160


def shortened(text: str) -> str:
    """The text, with its middle left out where it is long."""
    return text if len(text) <= LONGEST_TOLD else f"{text[:LONGEST_TOLD // 2]}[..]{text[-LONGEST_TOLD // 2:]}"


@dataclass
class Difference:
    """A call that was answered otherwise than the reference says, by uxrun or by Linux."""
    whose: str
    row: int
    state: str
    text: str
    answer: str
    expected: str

    def __str__(self) -> str:
        text, answer, expected = map(shortened, (self.text, self.answer, self.expected))
        return f"{self.state}: {text} | {self.whose}: {answer} | reference: {expected}"


@dataclass
class Outcome:
    """What the comparison of a script found."""
    name: str
    calls: int = 0
    compared: int = 0
    alike: int = 0
    not_tried: int = 0
    differences: list[Difference] = field(default_factory=list)
    trouble: str = ""
    used: set[Rule] = field(default_factory=set)
    lines: list[Line] = field(default_factory=list)


def lines_of(output: str) -> list[str]:
    """The lines of a trace. Each ends with a line feed, and what else is in it is compared."""
    lines = output.split("\n")
    if lines.pop():
        raise ValueError("the last line of a trace has no end")
    return lines


@dataclass
class Bench:
    """What a comparison needs: the programs and the machine's figures."""
    programs: Programs
    uxrun: Path
    replay: Path
    machine: Machine

    def trace_here(self, path: Path) -> list[str]:
        """uxrun's trace."""
        return self.trace([str(self.uxrun), str(path)])

    def trace_there(self, path: Path, user: int) -> list[str]:
        """Linux's trace."""
        return self.trace([str(self.replay), *user_words(user), str(path)])

    def trace(self, words: list[str]) -> list[str]:
        """A program's lines, or what it complains of."""
        status, output, errors = self.programs.run(words)
        if status != 0 or errors:
            raise ValueError(errors.strip() or f"{Path(words[0]).name} ended with {status}")
        return lines_of(output)


def reference_lines(script: Script, rules: frozenset[Rule], machine: Machine) -> tuple[list[Line], set[Rule]]:
    """The reference's lines, and the rules that were asked for."""
    run = Run(script, rules, machine)
    return run.make_all(), run.kernel.used


def text_of(script_lines: list[str], line: Line) -> str:
    """A call as the script has it, or its word where it has no line."""
    return script_lines[line.row - 1] if line.row else f"{line.pid} {line.word}"


def answer_in(line: str) -> str:
    """The reply and what was closed, behind the equals sign."""
    return line.partition(" = ")[2] or line


def first_difference(whose: str, got: list[str], expected: list[Line], script_lines: list[str]) -> Difference | None:
    """The first line that isn't the reference's; a line too few or too many is one too."""
    for at in range(max(len(got), len(expected))):
        mine = str(expected[at]) if at < len(expected) else NO_LINE
        theirs = got[at] if at < len(got) else NO_LINE
        if mine != theirs:
            line = expected[at] if at < len(expected) else Line(at, 0, 0, "", NO_LINE)
            return Difference(whose, line.row, line.state, text_of(script_lines, line), answer_in(theirs), answer_in(mine))
    return None


def compare_once(bench: Bench, path: Path, text: str, user: int, outcome: Outcome) -> int:
    """Makes all traces of a script once. It answers the row of a call that parted them, or 0."""
    script, script_lines = parse(text), text.split("\n")
    here, there = bench.trace_here(path), bench.trace_there(path, user)
    plain, _ = reference_lines(script, NO_RULES, bench.machine)
    linux, used = reference_lines(script, ALL_RULES, bench.machine)
    found = [first_difference("uxrun", here, plain, script_lines), first_difference("Linux", there, linux, script_lines)]
    found = [difference for difference in found if difference]
    outcome.differences += found
    parted = [difference.row for difference in found]
    reach = [at for at, line in enumerate(linux) if line.row in parted]
    # A script that is made again without a call still has all the calls that it had.
    outcome.calls = outcome.calls or len(plain)
    outcome.compared = min(reach + [len(plain)])
    outcome.alike = sum(one == other for one, other in zip(here, there))
    outcome.not_tried = sum(line.reply.startswith("not tried") for line in linux)
    outcome.used |= used
    outcome.lines = plain
    return min(parted) if parted else 0


def compare_script(bench: Bench, path: Path, user: int) -> Outcome:
    """Compares a script; after a call that parts the traces again without it, so that what is behind it is compared."""
    outcome = Outcome(str(path))
    try:
        text = path.read_bytes().decode("latin-1")
        row = compare_once(bench, path, text, user, outcome)
        for turn in range(MOST_RESYNCS):
            if not row:
                break
            rows = text.split("\n")
            rows[row - 1] = "#"
            text = "\n".join(rows)
            shorter = bench.programs.folder / f"{path.stem}.{user}.ux"
            shorter.write_bytes(text.encode("latin-1"))
            row = compare_once(bench, shorter, text, user, outcome)
    except OSError as error:
        outcome.trouble = f"the script can't be read: {error.strerror}"
    except (ValueError, KeyError, IndexError) as error:
        outcome.trouble = f"the script can't be made: {error}"
    return outcome


def rules_needed(script: Script, machine: Machine, used: set[Rule]) -> set[Rule]:
    """The rules without which the reference's trace of a script is another than Linux's."""
    whole = [str(line) for line in reference_lines(script, ALL_RULES, machine)[0]]
    return {rule for rule in used
            if [str(line) for line in reference_lines(script, ALL_RULES - {rule}, machine)[0]] != whole}
