"""Reads strace/programs: what strace/check runs."""
from __future__ import annotations

import shutil
from dataclasses import dataclass, field
from typing import TYPE_CHECKING

if TYPE_CHECKING:
    from pathlib import Path


PAUSE = "pause() { sleep 0.12; }"


@dataclass
class Program:
    """A program of the list: what it needs, where that comes from, whether the superuser has to run it, and its lines."""
    name: str
    needs: list = field(default_factory=list)
    packages: str = ""
    root: bool = False
    lines: list = field(default_factory=list)

    def script(self):
        return "\n".join([PAUSE, *self.lines]) + "\n"

    def lacks(self):
        """The commands that aren't installed."""
        path = "/usr/local/sbin:/usr/local/bin:/usr/sbin:/usr/bin:/sbin:/bin"
        return [command for command in self.needs if not shutil.which(command, path=path)]


def read_programs(path: Path | str):
    """The programs of a list, in its order; a ValueError says which line isn't one of such a list."""
    found: list[Program] = []
    with open(path, encoding="utf-8") as file:
        for number, line in enumerate(file, 1):
            line = line.rstrip("\n")
            key, _, value = line.partition(": ")
            if line.startswith("  ") and found:
                found[-1].lines.append(line[2:])
            elif key == "program":
                found.append(Program(value))
            elif key == "needs" and found:
                found[-1].needs = value.split()
            elif key == "packages" and found:
                found[-1].packages = value
            elif key == "root" and found:
                found[-1].root = value == "yes"
            elif line and not line.startswith("#"):
                raise ValueError(f"{path}:{number}: '{line}' isn't a line of a list of programs")
    return found
