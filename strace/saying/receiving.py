"""Says receives and reads, of sockets, pipes, counters and memory files, and the rights that come with them."""
from __future__ import annotations

import re
from dataclasses import dataclass, field
from typing import TYPE_CHECKING, Any

from reading.calls import Result
from reading.words import after, fields_of, flags_of, list_of, number_of, room_of
from . import doubts, marks
from .contents import PIECE, sayable, shortened, taken, told_bytes, told_contents
from .descriptors import FORGETS, make_pidfd, note_of
from .model import WHOLE, Description, Kind, Slot
from .notes import inode_of, kind_of
from .outside import Arrival
from .sockets import outside, told_address
from .world import says

if TYPE_CHECKING:
    from reading.words import Arguments
    from .model import Block, Process
    from .world import World

SCM_PIDFD = 4
LEAST_SPACE, ENOUGH_SPACE, CREDENTIALS_SPACE = 16, 4096, 32
RECEIVE_LETTERS = (("MSG_DONTWAIT", "d"), ("MSG_PEEK", "p"), ("MSG_TRUNC", "t"), ("MSG_CMSG_CLOEXEC", "x"))
RECEIVE_SKIPS = {"MSG_NOSIGNAL", "MSG_WAITALL", "MSG_WAITFORONE"}
REPLY_FLAGS = (("MSG_TRUNC", "TRUNC"), ("MSG_CTRUNC", "CTRUNC"), ("MSG_EOR", "EOR"))


@dataclass
class Received:
    """One message, or what a read took: the descriptor, how much was asked for and with which flags, and what came: bytes, and as the
    reply tells them flags, items and sender, with the new descriptors and their notes."""
    number: int
    slot: Slot
    length: int
    result: Result
    data: bytes = b""
    flags: set = field(default_factory=set)
    space: int = 0
    told: str = "?"
    items: str = "?"
    sender: str = "?"
    came: list = field(default_factory=list)


@says("read", "readv")
def say_read(world: World, block: Block, process: Process, args: Arguments, result: Result) -> None:
    slot = sayable(world, block, process, args[0], block.call.name)
    if slot is None or outside(block, result):
        return
    description, number = slot.description, number_of(args[0])
    many = block.call.name == "readv"
    length = room_of(args[1]) if many else number_of(args[2], 0)
    if many:
        block.otherwise("readv as read")
    told, data = f"err {result.error}", b""
    if length == 0 and result.value == 0 and description.kind in (Kind.DATAGRAM, Kind.RECORDS):
        block.leave_out(f"{block.call.name} of no bytes, which looks at nothing")
        return
    if not result.error:
        whole = told_bytes(world, args[1], result.number)
        arrive(world, block, Received(number, slot, length, result, whole))
        data = shortened(description, whole)
        marks.compare(description, data, length, world.gaps.cut_texts > 0)
        told = f"bytes {told_contents(description, data)}"
    world.step(block, process.seat, f"read {number} {min(length, FORGETS)}", told, description)
    if length > 0 and not result.error:
        taken(description, len(data))


def arrive(world: World, block: Block, one: Received) -> None:
    """What a peer outside of the log sent comes before the receive that takes it."""
    description = one.slot.description
    if description.kind is Kind.DATAGRAM and description.outer is None:
        if description.pending or not description.name:
            return
    elif description.outer is None:
        return
    credentials = re.search(r"c:[^,]*,(\d+),(\d+)", one.items)
    person = (int(credentials[1]), int(credentials[2])) if credentials else None
    is_end = not one.data and one.length > 0 and description.kind is Kind.STREAM
    arrival = Arrival(shortened(description, one.data), len(one.came), person, is_end)
    if description.outer is None:
        world.outside.datagram(block, description, one.sender, arrival, "MSG_PEEK" in one.flags)
    else:
        world.outside.received(block, description, arrival, "MSG_PEEK" in one.flags)


@says("recvfrom", "recv")
def say_recvfrom(world: World, block: Block, process: Process, args: Arguments, result: Result) -> None:
    slot = sayable(world, block, process, args[0], "recvfrom")
    if slot is None or outside(block, result):
        return
    sender = sender_of(world, process, sender_at(slot.description), *(args[4:6] if len(args) > 5 else (None, None)))
    length, flags = number_of(args[2], 0), flags_of(args[3])
    data = received(world, args[1], length, flags, result)
    receive(world, block, process, Received(number_of(args[0]), slot, length, result, data, flags, sender=sender))


def sender_at(description: Description):
    """The socket that sent what waits first, where the log has it."""
    if description.kind is Kind.DATAGRAM:
        return description.messages[0].sender if description.messages else None
    return description.peer


def received(world: World, value: Any, length: int, flags: set[str], result: Result):
    """The bytes of a message: as many as the call answered, or where it tells the whole message's length as many as it asked for."""
    if result.error:
        return b""
    return told_bytes(world, value, min(result.number, length) if "MSG_TRUNC" in flags else result.number)


def sender_of(world: World, process: Process, whose: Description | None, value: Any, length: Any):
    """The sender's address as a reply tells it: - where it has no length, ? where the program didn't ask."""
    if isinstance(after(value), dict):
        return told_address(world, process, value, length, whose)
    changed = length[0] if isinstance(length, list) and length else length
    return "-" if after(changed) == 0 and str(after(value)) != "NULL" else "?"


@says("recvmsg")
def say_recvmsg(world: World, block: Block, process: Process, args: Arguments, result: Result) -> None:
    slot = sayable(world, block, process, args[0], "recvmsg")
    if slot is None:
        put_down(world, block, process, after(args[1]), flags_of(args[2]), result)
        return
    if outside(block, result):
        return
    receive_message(world, block, process, Received(number_of(args[0]), slot, WHOLE, result, flags=flags_of(args[2])), after(args[1]))


def receive_message(world: World, block: Block, process: Process, one: Received, message: Any) -> None:
    """One message, whose space for control data is guessed from what came: strace shows what is left of it alone."""
    if one.result.error:
        # strace shows no buffers then, and what a receive asks for doesn't count where it gets nothing.
        receive(world, block, process, one)
        return
    if not isinstance(message, dict):
        world.lose(block, one.slot.description, "a message that the log doesn't show")
        return
    before, behind = pidfds_of(message.get("msg_control"))
    make_pidfds(world, block, process, before)
    take_header(world, process, one, message)
    receive(world, block, process, one)
    make_pidfds(world, block, process, behind)


def take_header(world: World, process: Process, one: Received, message: dict[str, Any]) -> None:
    """What a msghdr tells of a message that came."""
    told = flags_of(message.get("msg_flags"))
    one.items, numbers, notes = items_of(world, message.get("msg_control"))
    one.came = list(zip(numbers, notes))
    one.space = ENOUGH_SPACE
    if "MSG_CTRUNC" in told:
        one.space = (CREDENTIALS_SPACE if "c:" in one.items else 0) + (LEAST_SPACE + 4 * len(numbers) if numbers else 0)
    one.told = "|".join(word for flag, word in REPLY_FLAGS if flag in told) or "-"
    one.sender = sender_of(world, process, sender_at(one.slot.description), message.get("msg_name"), message.get("msg_namelen"))
    one.length = room_of(message.get("msg_iov"))
    one.data = received(world, message.get("msg_iov"), one.length, one.flags, one.result)


def put_down(world: World, block: Block, process: Process, message: Any, flags: set[str], result: Result) -> None:
    """Descriptors that came with a message that isn't said: the numbers are taken, by opens of an opaque object."""
    if not isinstance(message, dict) or result.error:
        return
    _, numbers, notes = items_of(world, message.get("msg_control"))
    before, behind = pidfds_of(message.get("msg_control"))
    make_pidfds(world, block, process, before)
    for number, note in zip(numbers, notes):
        description = Description(kind_of(note), note or "a descriptor that came in a message", inode=inode_of(note))
        description.unknown = "it came in a message that isn't said"
        world.make(block, process, number, description, "MSG_CMSG_CLOEXEC" in flags)
    make_pidfds(world, block, process, behind)


def pidfds_of(value: Any):
    """The descriptors of processes that came with a message (SO_PASSPIDFD), those before its rights and those behind them; None of one
    whose number strace doesn't show."""
    found: tuple[list, list] = ([], [])
    behind = 0
    for item in map(fields_of, list_of(value)):
        kind, data = item.get("cmsg_type"), after(item.get("cmsg_data"))
        if kind == "SCM_RIGHTS":
            behind = 1
        elif kind in ("SCM_PIDFD", SCM_PIDFD):
            found[behind].append(number_of(data, None))
    return found


def make_pidfds(world: World, block: Block, process: Process, numbers: list[int | None]) -> None:
    """Opaque objects for the sender's descriptors; one that isn't shown is at the lowest free number, as all new ones."""
    for number in numbers:
        make_pidfd(world, block, process, process.next_number() if number is None else number)
        block.otherwise("a process's descriptor that came with a message: an opaque object")


def items_of(world: World, value: Any):
    """What came with a message: its words, and the new descriptors with their notes."""
    numbers, notes, credentials = [], [], ""
    for item in map(fields_of, list_of(value)):
        kind, data = str(item.get("cmsg_type")), after(item.get("cmsg_data"))
        if kind == "SCM_RIGHTS" and isinstance(data, list):
            numbers += [number_of(one) for one in data]
            notes += [note_of(one) for one in data]
        elif kind == "SCM_CREDENTIALS" and isinstance(data, dict):
            credentials = f"c:{world.people.word_of(data.get('pid'))},{data.get('uid')},{data.get('gid')}"
    words = ([credentials] if credentials else []) + ([f"r:{','.join(map(str, numbers))}"] if numbers else [])
    return "+".join(words) or "-", numbers, notes


def receive(world: World, block: Block, process: Process, one: Received) -> None:
    """One message received, whichever call did it."""
    description, flags = one.slot.description, one.flags
    if "MSG_OOB" in flags or "MSG_ERRQUEUE" in flags:
        aside(world, block, description, "MSG_OOB" if "MSG_OOB" in flags else "MSG_ERRQUEUE", one.result)
        return
    if flags & RECEIVE_SKIPS:
        block.otherwise(f"without {sorted(flags & RECEIVE_SKIPS)[0]}")
    letters = "".join(letter for flag, letter in RECEIVE_LETTERS if flag in flags) or "-"
    if one.result.error:
        world.step(block, process.seat, f"recv {one.number} {one.length} {one.space} {letters}", f"err {one.result.error}", description)
        return
    arrive(world, block, one)
    take_message(world, block, process, one, letters)


def take_message(world: World, block: Block, process: Process, one: Received, letters: str) -> None:
    """The receive of a message that came, in two where the layer was sent it so; and its descriptors."""
    description, came = one.slot.description, one.came
    data, rest, length = shortened(description, one.data), b"", one.length
    low = process.lowest_numbers(len(came))
    items = one.items.replace("r:" + ",".join(str(number) for number, _ in came), "r:" + ",".join(map(str, low))) if came else one.items
    if came and description.peer is not None and description.peer.is_split and len(data) > PIECE and "p" not in letters:
        data, rest, length = data[:PIECE], data[PIECE:], PIECE
    count = one.result.value if "MSG_TRUNC" in one.flags and not rest else len(data)
    marks.compare(description, data, one.length, world.gaps.cut_texts > 0)
    world.step(block, process.seat, f"recv {one.number} {length} {one.space} {letters}",
               f"got {count} {told_contents(description, data)} {one.told} {items} {one.sender}", description, other=sender_at(description))
    if rest:
        world.step(block, process.seat, f"recv {one.number} {len(rest)} 0 d", f"got {len(rest)} {told_contents(description, rest)} ? ? ?",
                   description)
        block.otherwise("in pieces: it was sent so")
    if "p" not in letters:
        taken(description, len(data) + len(rest))
    install(world, block, process, low, came, "x" in letters)


def aside(world: World, block: Block, description: Description, flag: str, result: Result) -> None:
    """A receive of what doesn't come in the queue, which nobody sent where the description's state is known still."""
    if result.error:
        block.leave_out(f"{flag} that found nothing")
        return
    if flag == "MSG_OOB" and description.outer is None:
        world.doubts.add(doubts.OUT_OF_BAND, block)
    world.lose(block, description, flag)


def install(world: World, block: Block, process: Process, low: list[int], came: list[tuple[int, str]], on_exec: bool) -> None:
    """The descriptors that came with a message."""
    block.context += (id(process),) if came else ()
    for place in range(len(came) - 1, -1, -1):
        number, note = came[place]
        description = landed(world, note)
        world.move(block, process, low[place], number, description, on_exec)
    for number, note in came:
        description = landed(world, note, True)
        if description.thing is not None:
            description.thing.ends += 1
        process.table[number] = Slot(description, on_exec)


def landed(world: World, note: str, take: bool = False):
    """The description that arrived, by what its note says; one that nobody is known to have sent is opaque."""
    inode = inode_of(note)
    for place, (description, _) in enumerate(world.objects.in_flight):
        if description.inode == inode:
            if take:
                world.objects.in_flight.pop(place)
                description.flying -= 1
            return description
    found = world.objects.by_inode.get(inode)
    if found is not None:
        return found
    description = Description(kind_of(note), note or "a descriptor that came in a message", inode=inode)
    description.unknown = "its origin isn't in the log"
    return description


@says("recvmmsg")
def say_recvmmsg(world: World, block: Block, process: Process, args: Arguments, result: Result) -> None:
    slot = sayable(world, block, process, args[0], "recvmmsg")
    if slot is None:
        for one in map(fields_of, list_of(args[1])):
            put_down(world, block, process, one.get("msg_hdr", one), flags_of(args[3]), result)
        return
    if outside(block, result):
        return
    flags = flags_of(args[3])
    if result.error:
        receive(world, block, process, Received(number_of(args[0]), slot, WHOLE, result, flags=flags))
        return
    messages = list_of(args[1])
    if result.number > len(messages):
        world.doubts.add(doubts.COUNT, block)
    for one in map(fields_of, messages[:result.value]):
        length = number_of(one.get("msg_len"), 0)
        taking = Received(number_of(args[0]), slot, WHOLE, type(result)(length), flags=flags)
        receive_message(world, block, process, taking, one.get("msg_hdr", one))
    block.otherwise("recvmmsg as several receives")
