"""Prints DIFFERENCES.md: the rules of differences.txt, and how many scripts need each."""
from __future__ import annotations

import tempfile
from collections import Counter
from pathlib import Path
from textwrap import TextWrapper

from reference.machine import Machine
from reference.rules import ALL_RULES, ORDINARY_USERS, Rule
from reference.script import read_script

from .generator import write_scripts
from .kernels import read_kernels
from .lines import reference_lines, rules_needed
from .programs import COMPARE, TOP
from .texts import RuleText, read_texts

WIDTH = 120
HEAD = """# Where Linux answers otherwise

By call, a heading for each rule of [differences.txt](differences.txt): what this layer does, what Linux does, what POSIX.1-2017 or a
manual page says, and why it is so here. A rule is a switch of the reference in [reference/](reference), which with it on gives Linux's
answer and leaves Linux's state. Behind each stands how many scripts need it: of `examples/`, of `compare/further/`, and of {count:,} random
ones, `compare/scripts {count} {seed}`. {kernels}
follow all of them, but where it says so, as `compare/kernel` found ([kernels.txt](kernels.txt)).
`compare/table {count} {seed}` prints this page; [LINUX.md](../docs/LINUX.md) says how to compare."""


def count_needs(scripts: list[Path]) -> Counter[Rule]:
    """How many scripts need each rule, by the reference alone; of an ordinary user those that it alone needs."""
    found: Counter[Rule] = Counter()
    for script in map(read_script, scripts):
        machine, ordinary = Machine(), Machine(own_users=0)
        found.update(rules_needed(script, machine, reference_lines(script, ALL_RULES, machine)[1]))
        found.update(rules_needed(script, ordinary, set(ORDINARY_USERS)))
    return found


def fill(text: str, width: int, subsequent_indent: str = "") -> str:
    """The text in lines, whose words stay whole."""
    return TextWrapper(width, subsequent_indent=subsequent_indent, break_long_words=False, break_on_hyphens=False).fill(text)


def section(text: RuleText, needs: list[int], without: list[str]) -> str:
    """A rule under its heading."""
    told = text.texts
    counts = "needed by {} of examples, {} further, {} random".format(*needs)
    counts = f"of an ordinary user: {counts}" if text.rule in ORDINARY_USERS else counts
    elsewhere = "".join(f"; not on {release}" for release in without)
    says = ("Linux", "answers"), ("POSIX, manual pages", "posix"), ("Why", "why")
    rows = [fill(f"- {who}: {told[key]}", WIDTH, subsequent_indent="  ") for who, key in says]
    return "\n".join([f"### {text.rule.value}\n", fill(f"{told['what']}. ({counts}{elsewhere})", WIDTH) + "\n", *rows])


def print_page(count: int, seed: int) -> int:
    """Prints the page. It answers the status of the program."""
    with tempfile.TemporaryDirectory(prefix="scripts.") as place:
        kinds = (list((TOP / "examples").glob("*.ux")), list((COMPARE / "further").glob("*.ux")),
                 write_scripts(count, seed, Path(place)))
        needs = [count_needs(scripts) for scripts in kinds]
    kernels = read_kernels()
    print(HEAD.format(count=count, seed=seed, kernels=" and ".join(kernel.release for kernel in kernels)))
    call = ""
    for text in read_texts():
        if text.texts["call"] != call:
            call = text.texts["call"]
            print(f"\n## {call}")
        without = [kernel.release for kernel in kernels if text.rule in kernel.without]
        print("\n" + section(text, [need[text.rule] for need in needs], without))
    return 0
