"""Plays the peers that a log doesn't have: further processes of the script connect, send and close as the log shows their effect.

What such a peer sends is known once the program receives it, and a poll may tell it before. So a log with such peers is said
twice: the first pass keeps what was received of each, the second sends it where it was first seen."""
from __future__ import annotations

from dataclasses import dataclass, field
from typing import TYPE_CHECKING

from .model import WHOLE, Description, Kind, Process, Role

if TYPE_CHECKING:
    from .model import Block
    from .world import World

LABEL = "outside of the log"
MOST = 1048576


@dataclass(eq=False)
class Outer:
    """A peer outside of the log: which one it is in the order of their meeting, its process, its number there, its state."""
    ordinal: int
    process: Process
    number: int
    kind: Kind
    target: str = ""
    received: int = 0
    is_early: bool = False
    is_closed: bool = False


@dataclass
class Arrival:
    """What one receive of the program took: bytes and control words, or the end."""
    data: bytes = b""
    rights: int = 0
    credentials: tuple[int, int] | None = None
    is_end: bool = False


@dataclass
class Learnt:
    """What a pass over the log knows of the peers outside: what came of each, by the order of their meeting."""
    arrivals: dict = field(default_factory=dict)
    people: dict = field(default_factory=dict)
    clients: dict = field(default_factory=dict)
    datagrams: dict = field(default_factory=dict)


class Outside:
    """The processes that play peers. `before` is what an earlier pass learnt."""

    def __init__(self, world: World, before: Learnt | None) -> None:
        self.world = world
        self.before = before or Learnt()
        self.learnt = Learnt()
        self.processes: dict[tuple[int, int], Process] = {}
        self.count = 0
        self.clients: dict[int, list[Outer]] = {}
        self.senders: dict[tuple[int, str], Outer] = {}
        self.early: set[int] = set()

    def process(self, person: tuple[int, int]):
        """The process of a user and group outside, or None where the script can have no more."""
        if person not in self.processes:
            process = Process(0, None, {}, "/", LABEL, user=person[0], group=person[1])
            process.seat = self.world.people.new_seat(*person, process)
            if process.seat is None:
                return None
            process.seat.privileged = True
            self.processes[person] = process
        return self.processes[person]

    def line(self, block: Block, process: Process, words: str) -> None:
        self.world.step(block, process.seat, words, role=Role.HAND_OVER)

    def next_person(self):
        return self.before.people.get(self.count, (0, 0))

    def take(self, process: Process):
        """The lowest free number of a process outside, which is taken."""
        number = process.lowest()
        process.table[number] = True
        return number

    def new(self, process: Process, number: int, kind: Kind):
        outer = Outer(self.count, process, number, kind)
        self.count += 1
        return outer

    def meet(self, block: Block, kind: Kind, word: str):
        """A socket outside at a name, to which a socket of the log connects or sends; None where there can't be one."""
        process = self.process(self.next_person())
        if process is None:
            return None
        number = self.take(process)
        self.line(block, process, f"socket {kind.value} -")
        self.line(block, process, f"bind {number} {word}")
        if kind is not Kind.DATAGRAM:
            self.line(block, process, f"listen {number} 128")
        description = Description(kind, "a socket outside of the log", phase="listening", name=word)
        description.outer = self.new(process, number, kind)
        self.world.names.bound[word] = description
        return description

    def accept(self, block: Block, listener: Description, client: Description) -> None:
        """The end outside of a connection that the log's client just made."""
        process = listener.outer.process
        number = self.take(process)
        self.line(block, process, f"accept {listener.outer.number} -")
        client.outer = self.new(process, number, listener.kind)

    def connect(self, block: Block, listener: Description, word: str):
        """A client outside connects to a listener of the log; the answer is its end, or None."""
        process = self.process(self.next_person())
        if process is None or not listener.name:
            return None
        number = self.take(process)
        self.line(block, process, f"socket {listener.kind.value} -")
        if word not in ("u", "?"):
            self.line(block, process, f"bind {number} {word}")
        self.line(block, process, f"connect {number} {listener.name}")
        block.otherwise("a peer outside of the log, which another process of the script plays")
        return self.new(process, number, listener.kind)

    def client_of(self, block: Block, listener: Description, word: str):
        """The next client outside of a listener: one that a poll told already, or a new one."""
        waiting = self.clients.setdefault(id(listener), [])
        self.learnt.clients.setdefault(self.key(listener), []).append(word)
        return waiting.pop(0) if waiting else self.connect(block, listener, word)

    @staticmethod
    def key(listener: Description):
        return listener.inode or listener.name

    def told(self, block: Block, description: Description, hangs_up: bool = False) -> None:
        """A poll tells something to receive: what comes next is sent now, where an earlier pass knows it."""
        if hangs_up and description.outer is not None and description.kind is not Kind.DATAGRAM:
            self.close(block, description.outer)
        elif description.kind is Kind.DATAGRAM and description.outer is None:
            self.told_datagram(block, description)
        elif description.phase == "listening":
            self.told_client(block, description)
        elif description.outer is not None and description.outer.target == "":
            outer = description.outer
            arrivals = self.before.arrivals.get(outer.ordinal, [])
            if not outer.is_early and not outer.is_closed:
                arrival = arrivals[outer.received] if outer.received < len(arrivals) else Arrival(b"\0")
                self.send(block, outer, arrival)
                outer.is_early = True

    def told_client(self, block: Block, listener: Description) -> None:
        known = self.before.clients.get(self.key(listener), [])
        done = len(self.learnt.clients.get(self.key(listener), []))
        waiting = self.clients.setdefault(id(listener), [])
        if not listener.waiting and not waiting and done < len(known):
            outer = self.connect(block, listener, known[done])
            if outer:
                waiting.append(outer)

    def told_datagram(self, block: Block, description: Description) -> None:
        known = self.before.datagrams.get(self.key(description), [])
        done = len(self.learnt.datagrams.get(self.key(description), []))
        if not description.pending and id(description) not in self.early and done < len(known):
            self.send_datagram(block, description, *known[done])
            self.early.add(id(description))

    def datagram(self, block: Block, description: Description, sender: str, arrival: Arrival, peek: bool) -> None:
        """Before a receive of a datagram that nobody in the log sent."""
        if peek:
            self.told_datagram(block, description)
            return
        self.learnt.datagrams.setdefault(self.key(description), []).append((sender, arrival))
        if id(description) in self.early:
            self.early.discard(id(description))
        else:
            self.send_datagram(block, description, sender, arrival)

    def send_datagram(self, block: Block, description: Description, sender: str, arrival: Arrival) -> None:
        process = self.process(arrival.credentials or (0, 0))
        if process is None:
            return
        key = (id(description), sender)
        if key not in self.senders:
            number = self.take(process)
            self.line(block, process, "socket dgram -")
            if sender not in ("-", "u", "?"):
                self.line(block, process, f"bind {number} {sender}")
            self.senders[key] = self.new(process, number, Kind.DATAGRAM)
            self.senders[key].target = description.name
        self.send(block, self.senders[key], arrival)
        block.otherwise("a peer outside of the log, which another process of the script plays")

    def received(self, block: Block, description: Description, arrival: Arrival, peek: bool) -> None:
        """Before a receive of the program that took this: it is sent, where no poll told it already."""
        outer = description.outer
        if peek:
            self.told(block, description)
            return
        self.learnt.arrivals.setdefault(outer.ordinal, []).append(arrival)
        if arrival.credentials:
            self.learnt.people.setdefault(outer.ordinal, arrival.credentials[:2])
        if not outer.is_early:
            self.send(block, outer, arrival)
        outer.is_early = False
        outer.received += 1
        block.otherwise("a peer outside of the log, which another process of the script plays")

    def send(self, block: Block, outer: Outer, arrival: Arrival) -> None:
        if outer.is_closed:
            return
        if arrival.is_end:
            self.line(block, outer.process, f"shut {outer.number} w")
            return
        process, number = outer.process, outer.number
        parts = []
        if arrival.rights:
            right = process.lowest()
            self.line(block, process, "open p:~outside rw -")
            parts.append("r:" + ",".join([str(right)] * arrival.rights))
        if arrival.credentials and process.seat:
            parts.append(f"c:\0{process.seat.key}\0,{arrival.credentials[0]},{arrival.credentials[1]}")
        control = "+".join(parts) or "-"
        data = arrival.data
        size = WHOLE if outer.kind is Kind.STREAM else MOST
        for at in range(0, max(len(data), 1), size):
            self.line(block, process, f"send {number} {outer.target or '-'} {data[at:at + size].hex() or '-'} {control} -")
            control = "-"
        if arrival.rights:
            self.line(block, process, f"close {right}")

    def close(self, block: Block, outer: Outer) -> None:
        """The peer is gone."""
        if not outer.is_closed:
            outer.is_closed = True
            self.line(block, outer.process, f"close {outer.number}")
            outer.process.table.pop(outer.number, None)

    def drain(self, block: Block, outer: Outer, count: int) -> None:
        """What the program sent is received outside, so that there is room for more; rights are closed."""
        if not outer.is_closed:
            for _ in range(count):
                self.line(block, outer.process, f"recv {outer.number} {MOST} 0 d")
        block.otherwise("a peer outside of the log, which another process of the script plays")
