"""Which rules another kernel follows: those of this machine's, but for some that are told in kernels.txt."""
from __future__ import annotations

from dataclasses import dataclass
from pathlib import Path

from reference.rules import ALL_RULES, Rule
from reference.script import read_script

from .emulator import Emulated, emulate
from .lines import Difference, first_difference, reference_lines
from .programs import COMPARE, Programs, Stopped, Trouble, complain
from .texts import read_texts

PATH = COMPARE / "kernels.txt"


@dataclass
class Kernel:
    """A kernel that was compared, and the rules that it doesn't follow."""
    release: str
    without: frozenset[Rule]


def read_kernels() -> list[Kernel]:
    """The kernels of kernels.txt, a line each: the release, and behind a colon the rules that it doesn't follow."""
    found = []
    for line in PATH.read_text("utf-8").splitlines():
        if line and not line.startswith("#"):
            release, _, names = line.partition(":")
            found.append(Kernel(release, frozenset(Rule(name) for name in names.split())))
    return found


def difference_with(emulated: Emulated, path: Path, rules: frozenset[Rule]) -> Difference | None:
    """Where the kernel isn't as the reference with these rules."""
    expected, _ = reference_lines(read_script(path), rules, emulated.machine)
    return first_difference("Linux", emulated.traces[str(path)], expected, path.read_text("latin-1").split("\n"))


def rules_not_followed(emulated: Emulated, scripts: list[Path]) -> frozenset[Rule]:
    """The rules without which, one at a time, a script agrees that differs with all."""
    found: set[Rule] = set()
    for path in scripts:
        if difference_with(emulated, path, ALL_RULES - found):
            found |= {rule for rule in ALL_RULES - found
                      if not difference_with(emulated, path, ALL_RULES - found - {rule})}
    return frozenset(found)


def compare_kernel(image: Path, given: list[Path]) -> int:
    """Runs the scripts that rules need, and others, on a kernel. It answers the status of the program."""
    needed = sorted({text.script for text in read_texts()})
    scripts = needed + [path for path in given if path.resolve() not in needed]
    programs = Programs()
    try:
        emulated = emulate(programs, image, scripts)
    except (Trouble, OSError) as trouble:
        complain(str(trouble))
        return 2
    except Stopped:
        return 1
    finally:
        programs.close()
    without = rules_not_followed(emulated, needed)
    faults = [f"{path}: {text}" for path, text in emulated.troubles.items()]
    for path in scripts:
        found = difference_with(emulated, path, ALL_RULES - without) if str(path) not in emulated.troubles else None
        faults += [f"{path}:{found.row}: {found}"] if found else []
    for fault in faults:
        print(fault)
    print(f"{emulated.release}: {' '.join(sorted(rule.value for rule in without))}".rstrip())
    print(f"{len(scripts):8d} scripts\n{sum(map(len, emulated.traces.values())):8d} calls\n{len(faults):8d} faults")
    return 1 if faults else 0
