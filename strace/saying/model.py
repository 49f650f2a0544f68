"""The types that a log is said in: descriptions, tables, processes, seats of the layer, and blocks of a script's lines."""
from __future__ import annotations

import posixpath
from dataclasses import dataclass, field
from enum import Enum
from sys import intern
from typing import Any


WHOLE = 65536
# Real, effective and saved ids.
Ids = tuple[int, int, int]


class Kind(Enum):
    """What a description is in the layer."""
    STREAM = "stream"
    DATAGRAM = "dgram"
    RECORDS = "seq"
    PIPE = "pipe"
    COUNTER = "counter"
    MEMORY = "mem"
    OPAQUE = "opaque"

    def __init__(self, word: str) -> None:
        self.is_socket = word in ("stream", "dgram", "seq")


class How(Enum):
    """How a call of the log was said."""
    AS_IT_IS = "as it is"
    OTHERWISE = "by other words"
    LEFT_OUT = "left out"
    NOT_AT_ALL = "not at all"


class Role(Enum):
    """What a line of the script is there for."""
    CALL = "call"
    START = "start"
    HAND_OVER = "hand over"
    MOVE = "move"


@dataclass(slots=True)
class Message:
    """A datagram or record that waits: the socket that sent it, how many bytes it has, and those that the layer has."""
    sender: Any
    size: int
    data: bytes = b""


@dataclass(slots=True, eq=False)
class Description:
    """An open file description as the log shows it. `unknown` says why its later replies aren't compared;
    `unread` has the lengths of what was sent and not yet received, and `blurred` how many of these bytes, up to the last one that the
    log doesn't show; `messages` has what waits to be received, but of a stream, and `reached` the sockets that a datagram socket has sent
    to; `offset` is a memory file's; `held` and `flying` are how
    many descriptors and rights on their way lead to it, `past` what marks.py keeps; `mode` is r, w or rw where that is known,
    `spelling` is the path that its bind gave, `buffers` has the sizes that SO_SNDBUF and SO_RCVBUF were set to, and `is_given` says that
    its flags were set by what the log doesn't show, `owner` who made a pair, or listens: process, user and group."""
    kind: Kind
    what: str
    nonblocking: bool = False
    append: bool = False
    phase: str = "idle"
    peer: Any = None
    waiting: list = field(default_factory=list)
    name: str = ""
    inode: str = ""
    unknown: str = ""
    thing: Any = None
    watched: dict | None = None
    unread: list = field(default_factory=list)
    family: str = ""
    listens: bool = False
    made_by: Any = None
    outer: Any = None
    pending: int = 0
    messages: list = field(default_factory=list)
    reached: dict = field(default_factory=dict)
    blurred: int = 0
    offset: int = 0
    is_split: bool = False
    held: int = 0
    was_held: bool = False
    flying: int = 0
    past: Any = None
    mode: str = ""
    buffers: dict = field(default_factory=dict)
    spelling: bytes | None = None
    is_given: bool = False
    owner: tuple | None = None

    def state(self):
        """What differences.txt calls the kind of a descriptor."""
        if not self.kind.is_socket:
            filled = "/filled" if self.kind is Kind.PIPE and self.thing is not None and self.thing.is_filled() else ""
            return self.kind.value + filled if self.kind is not Kind.OPAQUE else "mem"
        memory = sum(self.unread) + MESSAGE_COST * len(self.unread)
        is_filled = memory >= FILLED or "SO_SNDBUF" in self.buffers and memory > 0
        filled = "/filled" if self.kind is Kind.STREAM and self.phase == "tied" and is_filled else ""
        return f"{self.kind.value}/{self.phase}{filled}"


FILLED = 1 << 15
# Two pages of a pipe that follow one another hold more than one page can: of 16 the first alone may be nearly read.
PAGES_USED = 7 * 4096
MESSAGE_COST = 768


@dataclass(slots=True, eq=False)
class Thing:
    """A file object of the layer that a log makes at run time: its name if the header has it, and why its contents aren't known, if so.
    `level` is how many bytes wait in a pipe, and `blurred` how many of these, up to the last one that the log doesn't show, `room` its
    size where that was told, and `is_resized` says that the program set it; `size` and `seals` are a memory file's, and `is_hidden` says
    that the log doesn't show what was written to it."""
    name: str
    kind: Kind
    unknown: str = ""
    ends: int = 0
    sent: bool = False
    level: int = 0
    blurred: int = 0
    size: int = 0
    seals: int = 0
    is_hidden: bool = False
    room: int = 0
    is_resized: bool = False

    def is_filled(self) -> bool:
        """Whether a pipe's room on Linux may be used up."""
        return self.level >= PAGES_USED or self.is_resized and self.level > 0


@dataclass(slots=True)
class Slot:
    """A descriptor: where it leads, close-on-exec, and how it came into this table in the log's words."""
    description: Description
    on_exec: bool = False

    def __post_init__(self) -> None:
        self.description.held += 1
        self.description.was_held = True


@dataclass(slots=True, eq=False)
class Seat:
    """A process of the layer. `forked` says that a fork makes it; else the header has it."""
    key: int
    user: int
    group: int
    forked: bool = False
    number: int = 0
    process: Any = None
    privileged: bool = False


def mark(seat: Seat) -> str:
    """What stands for a seat's number in a script's words until all seats have theirs."""
    return f"\0{seat.key}\0"


@dataclass(eq=False)
class Process:
    """A process of the log, with all its threads. `user`, `group` and `privileged` are the layer's, `users` and `groups` the real,
    effective and saved ids of the log; `unseen` has numbers that are open, since the kernel passed them over, though the log doesn't
    show what opened them, `freed` by which line of the log each number was closed."""
    pid: int
    parent: Any
    table: dict
    folder: str
    program: str
    seat: Seat | None = None
    first_seat: Seat | None = None
    birth: Any = None
    threads: set = field(default_factory=set)
    shared: set = field(default_factory=set)
    user: int = 0
    group: int = 0
    privileged: bool | None = None
    users: Ids = (0, 0, 0)
    groups: Ids = (0, 0, 0)
    unsaid: str = ""
    root: bytes = b""
    unseen: set = field(default_factory=set)
    freed: dict = field(default_factory=dict)
    over: bool = False
    execs: int = 0
    last: int = 0

    def __post_init__(self) -> None:
        self.privileged = self.user == 0 if self.privileged is None else self.privileged
        if self.parent is None:
            self.users, self.groups = (self.user,) * 3, (self.group,) * 3

    def place(self, path: bytes, folder: str | None = None):
        """A path as it is outside of the folder that is this process's root (chroot(2)): `..` doesn't lead above it, but from a folder
        that isn't below it."""
        start = (folder or self.folder).encode("latin-1")
        if path.startswith(b"/"):
            inner = path
        elif self.root and (start + b"/").startswith(self.root + b"/"):
            inner = start[len(self.root):] + b"/" + path
        else:
            return path
        return self.root + posixpath.normpath(b"/" + inner.lstrip(b"/")) if self.root else path

    def lowest(self, least: int = 0):
        """The lowest number that is free, from this one on."""
        number = least
        while number in self.table:
            number += 1
        return number

    def next_number(self):
        """The number that the kernel gives next, as far as the log tells."""
        number = self.lowest()
        while number in self.unseen:
            number = self.lowest(number + 1)
        return number

    def lowest_numbers(self, count: int):
        """So many of the lowest numbers that are free."""
        found: list[int] = []
        while len(found) < count:
            found.append(self.lowest(found[-1] + 1 if found else 0))
        return found

    def person(self):
        """The process's number, and its effective user and group."""
        return self.pid, self.users[1], self.groups[1]

    def label(self) -> str:
        return f"{self.program} (pid {self.pid})"


@dataclass(slots=True, frozen=True)
class Polled:
    """A descriptor of a poll of several: its number, what is asked for, and its description's state and marks then."""
    number: int
    asked: frozenset
    state: str
    marks: frozenset = frozenset()


@dataclass(slots=True, eq=False)
class Step:
    """A line of the script: whose, its words, the kernel's reply (None where there is none to compare), and its place; the marks of
    its socket and of the other one that it concerns, with that one's name (marks.py); and of a poll of several its descriptors."""
    seat: Any
    words: str
    expect: str | None = None
    role: Role = Role.CALL
    state: str = "-"
    asked: frozenset | None = None
    block: Any = None
    makes: dict | None = None
    marks: frozenset = frozenset()
    other: frozenset = frozenset()
    other_name: str | None = None
    polled: tuple[Polled, ...] = ()

    def __post_init__(self) -> None:
        # A long log says the same words over and over: each text is kept once.
        self.words = intern(self.words)
        self.expect = self.expect and intern(self.expect)


@dataclass(slots=True, eq=False)
class Block:
    """The lines that one call is said by, and the lines of the log within which it may stand; what it concerns: descriptions and objects,
    and as `context` tables of processes and names."""
    call: Any
    process: Process
    begin: float
    end: float
    at: float
    how: How = How.AS_IT_IS
    why: str = ""
    steps: list = field(default_factory=list)
    unix: bool = False
    program: str = ""
    unknown: str = ""
    snapshot: dict | None = None
    is_part: bool = False
    concerns: tuple = ()
    context: tuple = ()
    following: tuple = ()

    def concern(self, description: Description) -> None:
        """Keeps what this call may depend on: a description, its peer and its object."""
        self.concerns += tuple(id(one) for one in (description, description.peer, description.thing) if one is not None)

    def overlaps(self, other: Block) -> bool:
        """Whether two calls ran at one time, so that the log allows either order."""
        return max(self.begin, other.begin) <= min(self.end, other.end)

    def shares(self, other: Block) -> bool:
        """Whether two calls concern one description or object."""
        return not set(self.concerns).isdisjoint(other.concerns)

    def is_related(self, other: Block):
        """Whether the order of two calls may count: they concern one description or object, one process's table, or one name."""
        return self.shares(other) or not set(self.context).isdisjoint(other.context)

    def otherwise(self, why: str) -> None:
        """The call is said by other words."""
        if self.how is How.AS_IT_IS:
            self.how, self.why = How.OTHERWISE, why

    def leave_out(self, why: str) -> None:
        """The call changes nothing that the layer has."""
        if not self.steps:
            self.how, self.why = How.LEFT_OUT, why

    def not_at_all(self, why: str) -> None:
        """The call has an effect that can't be said."""
        self.how, self.why = How.NOT_AT_ALL, why
