"""Says calls that move bytes from one descriptor to another: sendfile(2), splice(2), tee(2), copy_file_range(2), vmsplice(2).

The log doesn't show the bytes. So as many are read as the call moved, and zeros are written; what is received of these later is
compared by its length."""
from __future__ import annotations

from dataclasses import dataclass
from typing import TYPE_CHECKING, Any

from reading.words import Change, after, number_of
from . import doubts
from .contents import blur, data_of, sayable, taken
from .limits import may_write
from .memory import at_offset, writes
from .model import Kind
from .receiving import Received, arrive
from .sending import Put, end_of_write, put
from .waiting import waiting_bytes
from .world import says

if TYPE_CHECKING:
    from reading.calls import Result
    from reading.words import Arguments
    from .model import Block, Description, Process
    from .world import World

# The places of source, its offset, target, its offset and length among the arguments.
PLACES = {"splice": (0, 1, 2, 3, 4), "copy_file_range": (0, 1, 2, 3, 4), "tee": (0, None, 1, None, 2), "sendfile": (1, 2, 0, None, 3),
          "sendfile64": (1, 2, 0, None, 3)}
# Errors that only a source of the layer can have.
OF_A_SOURCE = ("EAGAIN", "ECONNRESET", "ENOTCONN")
SAID = "the bytes that were moved aren't in the log: zeros"


def offset_of(args: Arguments, place: int | None):
    """The offset that a call was given for one side, before it moved on; None where it is the descriptor's own."""
    value = args[place] if place is not None else None
    first = value.before if isinstance(value, Change) else value
    return number_of(first, None)


def is_of_the_layer(process: Process, value: Any) -> bool:
    slot = process.table.get(number_of(value, -1))
    return slot is not None and slot.description.kind is not Kind.OPAQUE


@says(*PLACES)
def say_move(world: World, block: Block, process: Process, args: Arguments, result: Result) -> None:
    name = block.call.name
    source_place, source_at, target_place, target_at, length = PLACES[name]
    source, target = args[source_place], args[target_place]
    if not is_of_the_layer(process, source) and not is_of_the_layer(process, target):
        block.leave_out(f"{name} of opaque objects")
    elif result.error or result.value is None:
        refused(world, block, process, source, target, result)
    else:
        side = Side(source, offset_of(args, source_at), number_of(args[length], 0), name == "tee")
        take(world, block, process, side, result)
        give(world, block, process, Side(target, offset_of(args, target_at)), bytes(result.number), result)
        block.otherwise(SAID)


def refused(world: World, block: Block, process: Process, source: Any, target: Any, result: Result) -> None:
    """A move that failed is said where one side alone can be what failed."""
    name = block.call.name
    if result.error == "EPIPE" and is_of_the_layer(process, target):
        give(world, block, process, Side(target), b"\0", result)
    elif result.error in OF_A_SOURCE and not is_of_the_layer(process, target):
        slot = sayable(world, block, process, source, name)
        if slot is not None:
            world.step(block, process.seat, f"read {number_of(source)} 1", f"err {result.error}", slot.description)
    else:
        block.leave_out(f"{name} that failed")


@dataclass
class Side:
    """One side of a move: its descriptor, the offset that it was given, None where it is the descriptor's own; of a source how much was
    asked for, and whether it keeps it."""
    value: Any
    offset: int | None = None
    length: int = 0
    keeps: bool = False


def take(world: World, block: Block, process: Process, side: Side, result: Result) -> None:
    """What a move took of its source; tee(2) leaves it there."""
    if not is_of_the_layer(process, side.value):
        return
    slot = sayable(world, block, process, side.value, block.call.name)
    if slot is None:
        return
    description, number, count = slot.description, number_of(side.value), result.number
    line = f"read {number} {count or side.length}", f"bytes *{count}"
    if side.keeps:
        if count > waiting_bytes(description):
            world.doubts.add(doubts.COUNT, block)
    elif side.offset is not None and description.kind is Kind.MEMORY:
        at_offset(world, block, process, number, description, side.offset, [line])
    else:
        arrive(world, block, Received(number, slot, side.length, result, bytes(count)))
        world.step(block, process.seat, *line, description)
        if side.length > 0:
            taken(description, count)


def give(world: World, block: Block, process: Process, side: Side, data: bytes, result: Result) -> None:
    """What a move gave its target."""
    if not is_of_the_layer(process, side.value) or not result.error and not data:
        return
    slot = sayable(world, block, process, side.value, block.call.name)
    if slot is None:
        return
    description, number, offset = slot.description, number_of(side.value), side.offset
    if description.kind in (Kind.DATAGRAM, Kind.RECORDS):
        world.lose(block, description, f"{block.call.name} to a socket of messages: the log doesn't show how many")
        return
    if description.kind is Kind.MEMORY and not may_write(world, block, slot, end_of_move(description, offset, data), result):
        return
    if offset is not None and description.kind is Kind.MEMORY:
        description.thing.size = max(description.thing.size, offset + len(data))
        at_offset(world, block, process, number, description, offset, writes(number, data, len(data)))
    else:
        put(world, block, process, Put(description, data, result, lambda piece: f"write {number} {piece}"))
    if not result.error:
        blur(description)


def end_of_move(description: Description, offset: int | None, data: bytes):
    return end_of_write(description, len(data)) if offset is None else offset + len(data)


@says("vmsplice")
def say_vmsplice(world: World, block: Block, process: Process, args: Arguments, result: Result) -> None:
    """Of a pipe's writing end a writev, of its reading end a readv whose bytes the log doesn't show."""
    slot = sayable(world, block, process, args[0], "vmsplice")
    if slot is None or result.error or result.value is None:
        block.leave_out("vmsplice that failed, or of what isn't a pipe")
    elif slot.description.mode == "r":
        take(world, block, process, Side(args[0], length=result.value), result)
        block.otherwise("vmsplice as a read")
    else:
        number = number_of(args[0])
        data = data_of(world, after(args[1]))[:result.value]
        put(world, block, process, Put(slot.description, data, result, lambda piece: f"write {number} {piece}"))
        block.otherwise("vmsplice as a write")
