"""Makes all calls of a script by the reference, and tells their trace in uxrun's words."""
from __future__ import annotations

import sys
from copy import copy
from dataclasses import dataclass, field
from typing import Callable

from . import connecting, files, lengths, making, readiness, receiving, sending, sockets, users
from .calls import ADDRESS_PLACE, FORMS, PATH_PLACE, WITHOUT_DESCRIPTOR
from .kernel import Kernel
from .machine import Machine
from .names import name_in
from .rules import Rule
from .script import CallLine, Script, bytes_of
from .state import Descriptor, FileObject, Process, Refusal, Socket

MADE_LIMIT = 1024
Call = Callable[[Kernel, Process, list[str]], str]


@dataclass
class Line:
    """A call's line of a trace. `state` says what its descriptor led to before it, `row` is 0 where it has no line."""
    number: int
    pid: int
    count: int
    word: str
    reply: str
    closed: list[int] = field(default_factory=list)
    row: int = 0
    state: str = "-"

    def __str__(self) -> str:
        closed = f" closed {' '.join(map(str, self.closed))}" if self.closed else ""
        return f"{self.number} {self.pid} {self.count} {self.word} = {self.reply}{closed}"


def call_read(kernel: Kernel, process: Process, words: list[str]) -> str:
    """read(2)."""
    description = kernel.descriptor(process, int(words[1])).description
    if isinstance(description.target, Socket):
        return receiving.read_socket(kernel, process, description, int(words[2]))
    wanted = min(int(words[2]), files.READ_LIMIT)
    return "bytes " + (files.read_object(kernel, description, description.target, wanted).hex() or "-")


def call_write(kernel: Kernel, process: Process, words: list[str]) -> str:
    """write(2)."""
    description = kernel.descriptor(process, int(words[1])).description
    if isinstance(description.target, Socket):
        return f"n {sending.write_socket(kernel, process, description.target, bytes_of(words[2]))}"
    return f"n {files.write_object(kernel, description, description.target, bytes_of(words[2]))}"


def call_fork(kernel: Kernel, process: Process, words: list[str]) -> str:
    """fork(2)."""
    if len(kernel.processes) >= MADE_LIMIT:
        raise Refusal("EAGAIN")
    child = copy(process)
    child.number = len(kernel.processes) + 1
    child.table = {number: Descriptor(found.description, found.cloexec) for number, found in process.table.items()}
    for found in child.table.values():
        kernel.hold(found.description)
    kernel.processes.append(child)
    return f"child {child.number}"


def call_exec(kernel: Kernel, process: Process, words: list[str]) -> str:
    """execve(2): what has close-on-exec is closed."""
    for number in [number for number, found in process.table.items() if found.cloexec]:
        kernel.take(process, number)
    return "ok"


def call_exit(kernel: Kernel, process: Process, words: list[str]) -> str:
    """_exit(2)."""
    for number in list(process.table):
        kernel.take(process, number)
    process.has_exited = True
    return "ok"


MODULES = (files, making, lengths, sockets, connecting, sending, receiving, readiness, users, sys.modules[__name__])


def call_of(word: str) -> Call:
    """The function that makes a call."""
    made: Call = next(vars(module)[f"call_{word}"] for module in MODULES if f"call_{word}" in vars(module))
    return made


CALLS: dict[str, Call] = {word: call_of(word) for word in FORMS}


def state_of(process: Process, words: list[str]) -> str:
    """What a call's descriptor leads to: a kind of file object, or a socket's type and phase."""
    if words[0] in WITHOUT_DESCRIPTOR:
        return "-"
    found = process.table.get(int(words[1]))
    if found is None:
        return "closed"
    target = found.description.target
    if isinstance(target, FileObject):
        return target.kind
    if target.listens:
        return f"{target.kind}/listening"
    if target.peer is None:
        return f"{target.kind}/idle"
    phase = "associated" if target.is_datagram else "connected"
    return f"{target.kind}/{'gone' if target.peer.is_gone else phase}"


# ---- what the replay doesn't try

def path_not_tried(words: list[str]) -> str:
    """Why the replay can't try a call by its path, or nothing."""
    place = ADDRESS_PLACE.get(words[0]) or PATH_PLACE.get(words[0])
    if place is None or not words[place].startswith("p:"):
        return ""
    path = name_in(words[place][2:])
    if 0 in path:
        return "a path with a NUL"
    if 1 in path or path[:1] == b"\2":
        return "a path that no file can have"
    return "an empty path" if not path and words[0] in ADDRESS_PLACE else ""


def changes_ids(process: Process, words: list[str]) -> bool:
    """Whether a call changes the ids of its process, which a replay without users of its own can't."""
    given = tuple(map(int, words[1:])) if words[0] == "setids" else ()
    return bool(given) and users.NO_ID not in given and given != (process.uid, process.gid) and process.privileged


def check_tried(kernel: Kernel, process: Process, words: list[str]) -> None:
    """What Linux has no call for, and the replay says so before it makes one; that there is no socket comes before."""
    why = path_not_tried(words)
    if why and words[0] in ADDRESS_PLACE:
        kernel.socket(process, int(words[1]))
    if why and kernel.follows(Rule.PATH_OF_NO_FILE):
        raise Refusal(f"not tried: {why}")
    if not kernel.machine.own_users and changes_ids(process, words) and kernel.follows(Rule.PRIVILEGE):
        raise Refusal("not tried: privilege")


# ---- a run

class Run:
    """A script's calls, made one by one."""

    def __init__(self, script: Script, rules: frozenset[Rule], machine: Machine):
        self.script = script
        self.kernel = Kernel(script, rules, machine)
        self.lines: list[Line] = []
        self.counts: dict[int, int] = {}

    def make(self, call: CallLine) -> Line:
        """Makes a call, and what goes at its end."""
        process = self.kernel.processes[call.pid - 1]
        state = state_of(process, call.words)
        try:
            check_tried(self.kernel, process, call.words)
            reply = CALLS[call.words[0]](self.kernel, process, call.words)
        except Refusal as refusal:
            reply = refusal.reply
        self.kernel.settle()
        if self.kernel.marks:
            self.kernel.marks, reply = False, f"{reply} (fails)"
        return self.add(call.pid, call.words[0], reply, call.row, state)

    def add(self, pid: int, word: str, reply: str, row: int = 0, state: str = "-") -> Line:
        """Adds a line, with the file objects that were closed."""
        count = self.counts.get(pid, 0)
        self.counts[pid] = count + 1
        line = Line(len(self.lines), pid, count, word, reply, sorted(self.kernel.closed), row, state)
        self.kernel.closed = []
        self.lines.append(line)
        return line

    def make_all(self) -> list[Line]:
        """All calls, the exits of those that haven't, and the end of the layer where the script has it."""
        for call in self.script.calls:
            self.make(call)
        for process in list(self.kernel.processes):
            if not process.has_exited:
                self.make(CallLine(0, process.number, ["exit"]))
        if self.script.has_end:
            self.end_layer()
        return self.lines

    def end_layer(self) -> None:
        """No path and no description is left."""
        for target in self.kernel.objects:
            if not target.is_closed:
                target.is_closed = True
                self.kernel.closed.append(target.number)
        self.counts[0] = 0
        self.add(0, "off", "ok")


def trace(script: Script, rules: frozenset[Rule], machine: Machine) -> list[Line]:
    """The trace of a script with these switches on."""
    return Run(script, rules, machine).make_all()
