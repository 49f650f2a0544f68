"""A layer's state, with what all calls share: descriptors, references, and what goes at the end of a call."""
from __future__ import annotations

from contextlib import contextmanager
from typing import Callable, Iterator, TypeVar

from . import cycles
from .machine import Machine
from .names import UNNAMED, Address, autobind_name
from .rules import Rule
from .script import Script
from .state import Description, Descriptor, FileObject, Message, Process, Refusal, Socket

TABLE_LIMIT = 4096
AUTOBIND_NAMES = 1 << 20
Figure = TypeVar("Figure")


def refusal_of(look: Callable[[], object]) -> Refusal | None:
    """How a look refuses, or nothing."""
    try:
        look()
    except Refusal as refusal:
        return refusal
    return None


class Kernel:
    """The state. `rules` are the switches that are on, `used` those that a call asked for. `waits` says that the call which
    is made now would wait on Linux: there some calls that wait end otherwise than those that don't. `marks` says that it reached
    an object that fails here."""

    def __init__(self, script: Script, rules: frozenset[Rule], machine: Machine):
        self.rules = rules
        self.machine = machine
        self.used: set[Rule] = set()
        self.objects = [FileObject(number, line.kind, bytearray(line.data), line.fails_at)
                        for number, line in enumerate(script.objects)]
        self.paths: dict[bytes, FileObject | Socket] = {
            line.path: made for line, made in zip(script.objects, self.objects)}
        self.abstract: dict[tuple[str, bytes], Socket] = {}
        self.processes = [Process(number, line.uid, line.gid, line.privileged, max(1, min(TABLE_LIMIT, line.limit)))
                          for number, line in enumerate(script.processes, 1)]
        self.descriptions: dict[Description, None] = {}
        self.unreferenced: list[Description] = []
        self.closed: list[int] = []
        self.waits = False
        self.marks = False

    # ---- rules

    def follows(self, rule: Rule) -> bool:
        """Whether this rule's switch is on, so that the answer is Linux's."""
        if rule in self.rules:
            self.used.add(rule)
            return True
        return False

    def either(self, rule: Rule, said: Figure, here: Callable[[], Figure], there: Callable[[], Figure]) -> Figure:
        """What is reckoned here, also with the rule's switch on where Linux reckons what the pages say, so that Linux judges it."""
        if rule not in self.rules or said == there():
            return here()
        self.used.add(rule)
        return there()

    @contextmanager
    def seen_later(self, rule: Rule, *earlier: Callable[[], object]) -> Iterator[None]:
        """What is looked at here before the earlier ones on Linux: by the rule those refuse first, where both refuse."""
        try:
            yield
        except Refusal:
            for look in earlier if rule in self.rules else ():
                refusal = refusal_of(look)
                if refusal and self.follows(rule):
                    raise refusal from None
            raise

    # ---- descriptors

    def descriptor(self, process: Process, number: int) -> Descriptor:
        """What the number leads to, or EBADF."""
        if number not in process.table:
            raise Refusal("EBADF")
        return process.table[number]

    def socket(self, process: Process, number: int) -> Socket:
        """The number's socket, or EBADF, ENOTSOCK."""
        target = self.descriptor(process, number).description.target
        if not isinstance(target, Socket):
            raise Refusal("ENOTSOCK")
        return target

    def free_number(self, process: Process, minimum: int = 0) -> int:
        """The lowest free number that isn't below a minimum, or EMFILE."""
        numbers = process.free_numbers(1, minimum)
        if not numbers:
            raise Refusal("EMFILE")
        return numbers[0]

    def put(self, process: Process, number: int, description: Description, cloexec: bool) -> None:
        """Has the number lead to the description, and to nothing else any more."""
        self.hold(description)
        if number in process.table:
            self.release(process.table[number].description)
        process.table[number] = Descriptor(description, cloexec)

    def take(self, process: Process, number: int) -> None:
        """Closes the number."""
        self.release(process.table.pop(number).description)

    # ---- references

    def hold(self, description: Description) -> None:
        """One more reference."""
        description.references += 1
        self.descriptions[description] = None

    def release(self, description: Description) -> None:
        """One reference less; what has none goes at the end of the call."""
        description.references -= 1
        if description.references == 0:
            self.unreferenced.append(description)

    def drop_message(self, message: Message) -> None:
        """A message is gone: its references, and what it was charged to its sender."""
        message.sender.charged -= message.cost
        for right in message.rights:
            self.release(right)
        message.rights = []

    def settle(self) -> None:
        """All that nothing refers to goes, and with a switch what only sockets in one another's queues refer to."""
        while True:
            while self.unreferenced:
                description = self.unreferenced.pop()
                if description.references == 0 and not description.is_gone:
                    self.drop(description)
            if not cycles.collect(self):
                return

    def drop(self, description: Description) -> None:
        """A description goes, with its socket, or as one that led to a file object."""
        description.is_gone = True
        del self.descriptions[description]
        if isinstance(description.target, Socket):
            self.drop_socket(description.target)
        else:
            self.drop_opening(description)

    def drop_opening(self, description: Description) -> None:
        """A file object is open once less."""
        target = description.target
        target.opened -= 1
        target.readers -= "r" in description.mode
        target.writers -= "w" in description.mode
        if target.opened == 0 and target.kind == "pipe":
            target.writers_ever = 0
            if target.data and self.follows(Rule.PIPE_KEEPS_ITS_BYTES):
                target.data.clear()
                target.pages.clear()
        self.close_object(target)

    def close_object(self, target: FileObject) -> None:
        """Closes a file object to which nothing leads."""
        if target.opened == 0 and not target.has_path and not target.is_closed:
            target.is_closed = True
            self.closed.append(target.number)

    def drop_socket(self, gone: Socket) -> None:
        """A socket goes: its peer is told, its abstract name is free, its queue and what waits at it go."""
        gone.is_gone = True
        if gone.peer is not None and not gone.is_datagram:
            gone.peer.is_reset |= self.resets_peer(gone)
        for key, owner in list(self.abstract.items()):
            if owner is gone:
                del self.abstract[key]
        for message in gone.queue:
            self.drop_message(message)
        gone.queue = []
        for end in gone.pending:
            self.release(end)
        gone.pending = []

    def resets_peer(self, gone: Socket) -> bool:
        """Whether the peer gets ECONNRESET: something was unread, or nobody has accepted this end."""
        if not gone.is_accepted:
            return True
        if len(gone.queue) == 1 and not gone.queue[0].data and self.follows(Rule.UNREAD_EMPTY_RECORD):
            return False
        return bool(gone.queue)

    def rights_in_flight(self, uid: int, together: bool = False) -> int:
        """How many rights this user's unread messages have, or all users' together."""
        return sum(len(message.rights) for description in self.descriptions if isinstance(description.target, Socket)
                   for message in description.target.queue if together or message.uid == uid)

    # ---- names

    def abstract_key(self, kind: str, name: bytes) -> tuple[str, bytes]:
        """Where an abstract name is looked up: among those of its type on Linux."""
        return (kind if self.follows(Rule.ABSTRACT_NAMES_BY_TYPE) else "", name)

    def give_abstract(self, socket: Socket, name: bytes) -> None:
        """The socket gets this abstract name."""
        self.abstract[self.abstract_key(socket.kind, name)] = socket
        socket.name = Address("a", name)

    def autobind(self, socket: Socket) -> None:
        """The lowest name of five digits that no socket has, or ENOSPC."""
        names = {name for _, name in self.abstract}
        for number in range(AUTOBIND_NAMES):
            if autobind_name(number) not in names:
                self.give_abstract(socket, autobind_name(number))
                return
        raise Refusal("ENOSPC")

    def name_if_asked(self, socket: Socket) -> None:
        """On Linux a socket with SO_PASSCRED gets its name where it connects or sends."""
        if socket.passcred and not socket.has_name and self.follows(Rule.PASSCRED_NAMES_A_SOCKET):
            self.autobind(socket)

    def look_up(self, kind: str, address: Address) -> Socket:
        """The socket of this type that an address leads to, or why there is none."""
        if address == UNNAMED:
            raise Refusal("EINVAL")
        if address.kind == "p" and address.name not in self.paths:
            raise Refusal("ENOENT")
        found = (self.paths[address.name] if address.kind == "p" else
                 self.abstract.get(self.abstract_key(kind, address.name)))
        if not isinstance(found, Socket) or found.is_gone:
            raise Refusal("ECONNREFUSED")
        if found.kind != kind:
            raise Refusal("EPROTOTYPE")
        return found
