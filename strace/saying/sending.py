"""Says sends and writes, of sockets, pipes, counters and memory files, and the rights that go with them."""
from __future__ import annotations

from dataclasses import dataclass
from typing import TYPE_CHECKING, Any, Callable

from reading.calls import Result
from reading.words import after, fields_of, flags_of, list_of, number_of
from . import doubts
from .contents import PIECE, data_of, hexadecimal, sayable
from .descriptors import FORGETS, note_of
from .limits import may_write
from .model import WHOLE, Kind, Message, Slot
from .sockets import address, outside
from .world import HIGHEST, says

if TYPE_CHECKING:
    from reading.words import Arguments
    from .model import Block, Description, Process
    from .world import World

KERNEL_PIECE = 32768
SEND_SKIPS = {"MSG_NOSIGNAL", "MSG_MORE", "MSG_CONFIRM", "MSG_BATCH"}


@says("write", "writev")
def say_write(world: World, block: Block, process: Process, args: Arguments, result: Result) -> None:
    slot = sayable(world, block, process, args[0], block.call.name)
    if slot is None or outside(block, result):
        return
    data = data_of(world, args[1], result.value if result.error == "" else number_of(args[-1], 0))
    if block.call.name == "writev":
        block.otherwise("writev as write")
    if slot.description.kind is Kind.MEMORY and not may_write(world, block, slot, end_of_write(slot.description, len(data)), result):
        return
    put(world, block, process, Put(slot.description, data, result, lambda piece: f"write {number_of(args[0])} {piece}"))


def end_of_write(description: Description, count: int):
    """The offset behind a write of so many bytes to a memory file."""
    return (description.thing.size if description.append else description.offset) + count


def fits(description: Description, count: int) -> bool:
    """Whether so many bytes find room at once, as far as the log tells what is unread."""
    if description.kind in (Kind.DATAGRAM, Kind.RECORDS):
        return True
    unread = description.thing.level if description.kind is Kind.PIPE and description.thing else sum(description.unread)
    return unread + count <= WHOLE


@dataclass
class Put:
    """What one call puts into a socket, a pipe, a counter or a memory file: its bytes, what it answered, the words of a piece, and the
    socket that an address leads to."""
    description: Description
    data: bytes
    result: Result
    words_of: Callable[[str], str]
    target: Description | None = None


def put(world: World, block: Block, process: Process, one: Put) -> bool:
    """Sends bytes, in pieces where the layer hasn't room for all; the answer is whether it did so."""
    description, data = one.description, one.data
    if one.result.error:
        if one.result.error == "EPIPE" and description.outer is not None:
            world.outside.close(block, description.outer)
        words = one.words_of(hexadecimal(data[:WHOLE]))
        world.step(block, process.seat, words, f"err {one.result.error}", description, other=one.target)
        return False
    told = one.result.number
    if data and not told:
        world.doubts.add(doubts.ANSWER, block)
    data = data[:told] if description.kind is Kind.STREAM or not description.kind.is_socket else data
    if description.kind in (Kind.DATAGRAM, Kind.RECORDS) and len(data) > WHOLE:
        told -= len(data) - WHOLE
        data = data[:WHOLE]
        block.otherwise("a message shortened: longer than the layer takes")
    pieces = pieces_of(description, data)
    if len(pieces) > 1:
        block.otherwise("in pieces: no room for all at once")
    parts = world.parts(block, len(pieces)) if block.call.begin < block.call.end else [block] * len(pieces)
    # Together they answer what the log's call did, also where that isn't what the log shows as sent.
    counts = [len(piece) for piece in pieces]
    counts[-1] += told - sum(counts)
    for place, (piece, count, part) in enumerate(zip(pieces, counts, parts)):
        world.step(part, process.seat, one.words_of(hexadecimal(piece)), f"n {count}", description, other=one.target)
        fill(description, len(piece), place > 0)
    arrives(description, one.target or description.peer, Message(description, one.result.number, data))
    if description.outer is not None:
        world.outside.drain(block, description.outer, len(pieces))
    return len(pieces) > 1


def pieces_of(description: Description, data: bytes) -> list[bytes]:
    """Bytes as many at a time as find room; no bytes are one piece too."""
    size = WHOLE if fits(description, len(data)) else PIECE
    return [data[at:at + size] for at in range(0, len(data), size)] or [b""]


def arrives(description: Description, reached: Description | None, message: Message) -> None:
    """Keeps what waits from now on at the socket that a message goes to."""
    if reached is None:
        return
    reached.pending += 1
    if description.kind is not Kind.STREAM:
        reached.messages.append(message)
    if description.kind is Kind.DATAGRAM:
        description.reached[id(reached)] = reached


def fill(description: Description, count: int, goes_on: bool) -> None:
    """Keeps how many bytes wait now: a further message of a socket or more of the same, more in a pipe, or a memory file that is longer."""
    thing = description.thing
    if description.kind is Kind.MEMORY:
        description.offset = end_of_write(description, count)
        thing.size = max(thing.size, description.offset)
    elif thing is not None:
        thing.level += count
    elif description.outer is None and (description.kind is Kind.RECORDS or description.kind is Kind.STREAM and count):
        if not goes_on:
            description.unread.append(0)
        description.unread[-1] += count


def control_of(world: World, block: Block, process: Process, items: Any):
    """The control word of a send: rights of all items as one, then credentials."""
    rights, credentials, count = [], None, 0
    for item in map(fields_of, list_of(items)):
        kind, data = str(item.get("cmsg_type")), after(item.get("cmsg_data"))
        if kind == "SCM_RIGHTS" and isinstance(data, list):
            count += 1
            rights += [right(world, block, process, value) for value in data]
        elif kind == "SCM_CREDENTIALS" and isinstance(data, dict):
            credentials = f"c:{world.people.word_of(data.get('pid'), True)},{data.get('uid')},{data.get('gid')}"
        else:
            block.otherwise(f"without the item {kind}")
    if count > 1:
        block.otherwise("several items of rights as one")
    words = ([f"r:{','.join(map(str, rights))}"] if rights else []) + ([credentials] if credentials else [])
    return "+".join(words) or "-", rights


def right(world: World, block: Block, process: Process, value: Any):
    number = number_of(value, -1)
    world.slot(block, process, number, note_of(value))
    return number if 0 <= number <= HIGHEST else FORGETS


def fly(world: World, block: Block, process: Process, rights: list[int], goes_outside: bool) -> None:
    """Keeps which descriptions are on their way in messages to processes of the log."""
    for number in rights:
        slot = process.table.get(number)
        if slot:
            block.concern(slot.description)
            if not goes_outside:
                world.objects.in_flight.append((slot.description, block))
                slot.description.flying += 1
            if slot.description.thing is not None:
                slot.description.thing.sent = True


@dataclass
class Sent:
    """One message: the descriptor, its bytes, the address that it is sent to and its control items as the log has them, and flags."""
    number: int
    slot: Slot
    data: bytes
    result: Result
    flags: set
    where: Any = None
    items: Any = None


def send_aside(world: World, block: Block, one: Sent) -> None:
    """Out-of-band data, which the layer doesn't have."""
    if one.result.error:
        block.leave_out("MSG_OOB that failed")
    else:
        world.make_unknown(one.slot.description, "out-of-band data was sent (MSG_OOB)")
        block.not_at_all("MSG_OOB")


def send(world: World, block: Block, process: Process, one: Sent) -> None:
    """One message, whichever call sends it."""
    slot, result = one.slot, one.result
    if "MSG_OOB" in one.flags:
        send_aside(world, block, one)
        return
    if one.flags & SEND_SKIPS:
        block.otherwise(f"without {sorted(one.flags & SEND_SKIPS)[0]}")
    control, rights = control_of(world, block, process, one.items)
    word = address(world, process, one.where) if isinstance(after(one.where), dict) else "-"
    if word is None:
        block.leave_out("a send to an address of another family")
        return
    if word not in ("-", "u") and not result.error and world.names.bound.get(word) is None:
        if world.outside.meet(block, slot.description.kind, word) is None:
            block.not_at_all("a peer outside of the log")
            return
    letters = "d" if "MSG_DONTWAIT" in one.flags else "-"
    first = [control]

    def words_of(piece: str) -> str:
        return f"send {one.number} {word} {piece} {first.pop() if first else '-'} {letters}"
    target = world.names.bound.get(word)
    in_pieces = put(world, block, process, Put(slot.description, one.data, result, words_of, target))
    if not result.error and target is not None and target.outer is not None:
        world.outside.drain(block, target.outer, 1)
    if not result.error:
        goes_outside = any(end is not None and end.outer is not None for end in (target, slot.description))
        fly(world, block, process, rights, goes_outside)
        slot.description.is_split = slot.description.is_split or bool(rights) and (in_pieces or len(one.data) > KERNEL_PIECE)


@says("sendto", "send")
def say_sendto(world: World, block: Block, process: Process, args: Arguments, result: Result) -> None:
    slot = sayable(world, block, process, args[0], "sendto")
    if slot is None or outside(block, result):
        return
    data = data_of(world, args[1], number_of(args[2], 0))
    send(world, block, process, Sent(number_of(args[0]), slot, data, result, flags_of(args[3]), args[4] if len(args) > 4 else None))


@says("sendmsg")
def say_sendmsg(world: World, block: Block, process: Process, args: Arguments, result: Result) -> None:
    slot = sayable(world, block, process, args[0], "sendmsg")
    if slot is None or outside(block, result):
        return
    send_message(world, block, process, Sent(number_of(args[0]), slot, b"", result, flags_of(args[2])), after(args[1]))


def send_message(world: World, block: Block, process: Process, one: Sent, message: Any) -> None:
    """A send of what a msghdr has."""
    if not isinstance(message, dict):
        world.lose(block, one.slot.description, "a message that the log doesn't show")
        return
    one.data = data_of(world, message.get("msg_iov"))
    one.where, one.items = message.get("msg_name"), message.get("msg_control")
    send(world, block, process, one)


@says("sendmmsg")
def say_sendmmsg(world: World, block: Block, process: Process, args: Arguments, result: Result) -> None:
    slot = sayable(world, block, process, args[0], "sendmmsg")
    if slot is None or outside(block, result):
        return
    messages = list_of(args[1])
    if not result.error and result.number > len(messages):
        world.doubts.add(doubts.COUNT, block)
    for one in map(fields_of, messages if result.error else messages[:result.value]):
        message = one.get("msg_hdr", one)
        length = number_of(one.get("msg_len"), 0)
        answer = result if result.error else type(result)(length)
        send_message(world, block, process, Sent(number_of(args[0]), slot, b"", answer, flags_of(args[3])), message)
        if result.error:
            break
    block.otherwise("sendmmsg as several sends")
