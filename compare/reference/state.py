"""What a layer is made of: file objects, sockets, open file descriptions, descriptors and processes."""
from __future__ import annotations

from dataclasses import dataclass, field

from .names import UNNAMED, Address

FIRST_QUEUE_LIMIT = 65536


@dataclass(eq=False)
class FileObject:
    """A memory file, a counter or a pipe. `pages` has a pipe's buffers on Linux, as [first byte, bytes]. `opens` counts how often
    it was opened, and `append` and `nonblocking` are what was set last at any of its descriptions, which of a counter are one
    behind the replay. `has_any_offset` says that its file system on Linux has no bound but the type's, as that of
    memfd_create(2)."""
    number: int
    kind: str
    data: bytearray
    fails_at: int
    value: int = 0
    reached: int = 0
    has_path: bool = True
    is_closed: bool = False
    opened: int = 0
    readers: int = 0
    writers: int = 0
    writers_ever: int = 0
    pages: list[list[int]] = field(default_factory=list)
    opens: int = 0
    append: bool = False
    nonblocking: bool = False
    has_any_offset: bool = False
    is_semaphore: bool = False


@dataclass(eq=False)
class Message:
    """What waits in a socket's queue. `is_signed` says that Linux keeps the sender's credentials with it, `was_named` that its
    sender had a name."""
    data: bytes
    rights: list[Description]
    credentials: tuple[int, int, int]
    uid: int
    name: Address
    sender: Socket
    is_signed: bool
    was_named: bool
    cost: int = 0


@dataclass(eq=False)
class Socket:
    """A socket. What its peer's shutdown imposes on it stands apart from what its own has shut."""
    kind: str
    peer: Socket | None = None
    listens: bool = False
    queue: list[Message] = field(default_factory=list)
    name: Address = UNNAMED
    passcred: bool = False
    shut: set[str] = field(default_factory=set)
    imposed: set[str] = field(default_factory=set)
    peer_credentials: tuple[int, int, int] | None = None
    own_credentials: tuple[int, int, int] | None = None
    is_reset: bool = False
    is_accepted: bool = True
    is_gone: bool = False
    queue_limit: int = FIRST_QUEUE_LIMIT
    backlog: int = 0
    pending: list[Description] = field(default_factory=list)
    charged: int = 0

    @property
    def is_datagram(self) -> bool:
        """Whether it has no connections."""
        return self.kind == "dgram"

    @property
    def has_name(self) -> bool:
        """Whether it was bound."""
        return self.name != UNNAMED

    def is_shut(self, direction: str) -> bool:
        """Whether it is shut for reading, `r`, or writing, `w`, by its own shutdown or its peer's."""
        return direction in self.shut or direction in self.imposed


@dataclass(eq=False)
class Description:
    """An open file description. `writers_seen` is how many writers a pipe had had when this was opened to read it."""
    target: Socket | FileObject
    mode: str = "rw"
    append: bool = False
    nonblocking: bool = False
    offset: int = 0
    references: int = 0
    is_gone: bool = False
    writers_seen: int = -1


@dataclass
class Descriptor:
    """A number's description, and its close-on-exec."""
    description: Description
    cloexec: bool = False


@dataclass
class Process:
    """A process of the script."""
    number: int
    uid: int
    gid: int
    privileged: bool
    limit: int
    table: dict[int, Descriptor] = field(default_factory=dict)
    has_exited: bool = False

    @property
    def credentials(self) -> tuple[int, int, int]:
        """Its number, user and group."""
        return self.number, self.uid, self.gid

    def free_numbers(self, count: int, minimum: int = 0) -> list[int]:
        """The lowest numbers that aren't open and not below a minimum, so many at most."""
        found: list[int] = []
        number = minimum
        while len(found) < count and number < self.limit:
            if number not in self.table:
                found.append(number)
            number += 1
        return found


class Refusal(Exception):
    """The error that a call answers, by its name; or what the replay says that it didn't try."""

    def __init__(self, reply: str):
        super().__init__(reply)
        self.reply = reply if " " in reply else f"err {reply}"
