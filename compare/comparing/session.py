"""A run of the comparison over many scripts: its users, its machine, its counts, and what it leaves behind."""
from __future__ import annotations

import os
import sys
from collections import Counter
from concurrent.futures import ThreadPoolExecutor
from pathlib import Path
from queue import Queue
from typing import Callable, Iterable, TypeVar

from reference import machine as machines
from reference.rules import Rule
from reference.script import read_script

from . import users
from .lines import Bench, Outcome, compare_script, rules_needed
from .programs import TOP, Interrupted, Programs, Stopped, Trouble, complain

sys.path.append(str(TOP / "shared"))
from find_uxrun import find_uxrun

JOBS_OF_THE_SUPERUSER = 4
Made = TypeVar("Made")


class Session:
    """Programs, users and figures for as long as a run lasts; leaving it takes all away."""

    def __init__(self, jobs: int | None = None):
        wanted = jobs or JOBS_OF_THE_SUPERUSER
        self.jobs = wanted if os.geteuid() == 0 else 1
        self.programs = Programs()
        self.left: list[str] = []

    def __enter__(self) -> Session:
        try:
            uxrun = find_uxrun(Trouble)
            replay = self.programs.build_replay()
            self.users = users.choose(self.jobs)
            self.had_some = users.look_before(self.programs, replay, self.users)
            status, output, errors = self.programs.run([str(replay), "--machine"])
            if status != 0:
                raise Trouble(f"the machine can't be measured: {errors.strip()}")
            self.bench = Bench(self.programs, uxrun, replay, machines.read(output))
        except BaseException:
            self.programs.close()
            raise
        return self

    def __exit__(self, kind: object, value: object, trace: object) -> None:
        try:
            if kind is None:
                self.left += users.look_after(self.programs, self.bench.replay, self.users, self.had_some)
        finally:
            self.left += [f"the folder {name} is left" for name in self.programs.close()]
        for text in self.left:
            complain(text)

    def each(self, paths: Iterable[Path], make: Callable[[Path, int], Made]) -> Iterable[Made]:
        """Does something with each script, as many at a time as there are users, in the order of the scripts."""
        free: Queue[int] = Queue()
        for user in self.users:
            free.put(user)

        def make_one(path: Path) -> Made:
            user = free.get()
            try:
                return make(path, user)
            finally:
                free.put(user)

        pool = ThreadPoolExecutor(self.jobs)
        try:
            yield from pool.map(make_one, paths)
        except (Exception, Interrupted):
            self.programs.stop()
            raise
        finally:
            pool.shutdown(wait=not self.programs.is_stopped, cancel_futures=True)

    def compare(self, paths: Iterable[Path]) -> Iterable[Outcome]:
        """Compares scripts."""
        return self.each(paths, lambda path, user: compare_script(self.bench, path, user))


class Counts:
    """What a run has found, added up."""

    def __init__(self) -> None:
        self.figures: Counter[str] = Counter()
        self.rules: Counter[Rule] = Counter()
        self.is_good = True

    def add(self, outcome: Outcome) -> None:
        """Counts a script, and prints its differences."""
        for difference in outcome.differences:
            print(f"{outcome.name}:{difference.row}: {difference}", flush=True)
        if outcome.trouble:
            print(f"{outcome.name}: {outcome.trouble}", flush=True)
        self.is_good &= not outcome.differences and not outcome.trouble
        for name in ("calls", "compared", "alike", "not_tried"):
            self.figures[name] += getattr(outcome, name)
        self.figures["scripts"] += 1
        self.figures["unplayed"] += bool(outcome.trouble)
        self.figures["differences"] += len(outcome.differences)

    def count_rules(self, outcome: Outcome, machine: machines.Machine) -> None:
        """Counts the rules that a script needs."""
        if not outcome.trouble:
            self.rules.update(rules_needed(read_script(outcome.name), machine, outcome.used))

    def tell(self) -> None:
        """Prints the counts."""
        figures = self.figures
        for count, what in (
                (figures["scripts"], "scripts"),
                (figures["unplayed"], "of them can't be made"),
                (figures["calls"], "calls"),
                (figures["calls"] - figures["compared"], "of them differ, or come behind one that does, and are not compared"),
                (figures["alike"], "are answered alike here and on Linux"),
                (figures["compared"] - figures["alike"] - figures["not_tried"], "otherwise, as the rules say"),
                (figures["not_tried"], "are not tried on Linux"),
                (figures["differences"], "differences that no rule explains")):
            print(f"{count:8d} {what}")
        for rule, count in sorted(self.rules.items(), key=lambda item: (-item[1], item[0].value)):
            print(f"{count:8d} {rule.value}")


def run_scripts(paths: list[Path], with_rules: bool, jobs: int | None) -> int:
    """Compares scripts and prints what was found. It answers the status of the program."""
    counts = Counts()
    try:
        with Session(jobs) as session:
            for outcome in session.compare(paths):
                counts.add(outcome)
                if with_rules:
                    counts.count_rules(outcome, session.bench.machine)
    except Trouble as trouble:
        complain(str(trouble))
        return 2
    except Stopped:
        return 1
    counts.tell()
    return 0 if counts.is_good and not session.left else 1
