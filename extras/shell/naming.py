"""Names of processes and of what calls gave."""

import re
from dataclasses import dataclass, field

from shell.serving import Lead, Made

NAME = re.compile(r"[A-Za-z_][A-Za-z0-9_]*")
USED = re.compile(r"(?<![^ ,:])\$([A-Za-z_][A-Za-z0-9_]*)")


class Unnamed(Exception):
    """A name that means nothing, or that is none."""


@dataclass
class Names:
    """What names mean: of processes, and of the descriptors of each process."""

    processes: dict[str, int] = field(default_factory=dict)
    given: dict[tuple[int, str], Lead] = field(default_factory=dict)

    def number(self, pid: int, name: str) -> str:
        """The number that a name means to a process."""
        lead = self.given.get((pid, name))
        if lead is not None:
            return str(lead.fd)
        if name in self.processes:
            return str(self.processes[name])
        raise Unnamed(f"nothing is named {name}")

    def without(self, pid: int, call: str) -> str:
        """A call in which numbers stand for names, but in its text."""
        parts = re.split(r'("(?:[^"\\]|\\.)*")', call)
        plain = [USED.sub(lambda found: self.number(pid, found[1]), part) for part in parts[::2]]
        parts[::2] = plain
        return "".join(parts)

    def give(self, made: Made, names: list[str]) -> None:
        """Names what a call gave, and takes names off numbers that it closed or gave anew."""
        for lead in made.leads:
            self.drop(lead.pid, lead.fd)
        if made.reply.startswith("child "):
            child = int(made.reply.split(" ")[1])
            self.inherit(made.pid, child)
            self.processes.update({name: child for name in names[:1]})
        for name, lead in zip(names, made.leads, strict=False):
            self.given[(made.pid, name)] = lead

    def inherit(self, parent: int, child: int) -> None:
        """A child has the names of its parent."""
        for (pid, name), lead in list(self.given.items()):
            if pid == parent:
                self.given[(child, name)] = lead

    def drop(self, pid: int, fd: int) -> None:
        """A number of this process is closed."""
        for (owner, name), lead in list(self.given.items()):
            if owner == pid and lead.fd == fd:
                del self.given[(owner, name)]

    def of_process(self, pid: int) -> list[str]:
        """The names of descriptors that this process may use."""
        return [name for owner, name in self.given if owner == pid]


def parted(line: str) -> tuple[str, list[str]]:
    """A call, and the names behind its arrow."""
    call, arrow, names = line.partition(" -> ")
    words = names.split()
    for word in words:
        if not NAME.fullmatch(word):
            raise Unnamed(f"{word} is no name: a letter or _, and behind it letters, digits and _")
    if arrow and not words:
        raise Unnamed("behind -> stands a name for what the call gives")
    return call.strip(), words
