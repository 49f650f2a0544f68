"""Says calls on memory files that have an offset of their own, or change the length: by writes and reads between two lseeks."""
from __future__ import annotations

from typing import TYPE_CHECKING, Any

from reading.effects import OUTSIDE_ERRORS
from reading.words import after, flags_of, number_of, room_of
from . import doubts
from .contents import data_of, hexadecimal, sayable, told_bytes, told_contents
from .limits import is_resize_sealed, is_too_long, may_write
from .model import WHOLE, Kind
from .world import says

if TYPE_CHECKING:
    from reading.calls import Result
    from reading.words import Arguments
    from .model import Block, Description, Process, Slot
    from .world import World

AT_THE_OFFSET = -1
ZEROING = {"FALLOC_FL_PUNCH_HOLE", "FALLOC_FL_ZERO_RANGE"}


def memory_of(world: World, block: Block, process: Process, value: Any, result: Result):
    """The slot of a memory file that such a call is said of, or None; the block knows why."""
    name = block.call.name
    slot = process.table.get(number_of(value, -1))
    if result.value is None or slot is None or slot.description.kind is not Kind.MEMORY:
        block.leave_out(f"{name} of what isn't a memory file")
        return None
    has_call = name.startswith(("pread", "pwrite"))
    if result.error in OUTSIDE_ERRORS or result.error and (not has_call or result.error == "EPERM" and slot.description.thing.seals):
        block.leave_out(f"{name} that failed: {result.error}")
        return None
    return sayable(world, block, process, value, name)


def refused(world: World, block: Block, process: Process, slot: Slot, words: str, offset: int, result: Result) -> None:
    """A call that failed, as a read or write where the file's offset is: but for what the offset itself is refused for."""
    if offset < 0:
        block.leave_out(f"{block.call.name} that failed: {result.error}")
    else:
        world.step(block, process.seat, words, f"err {result.error}", slot.description)
        block.otherwise(f"{block.call.name} that failed as a call without an offset")


def at_offset(world: World, block: Block, process: Process, number: int, description: Description, offset: int,
              lines: list[tuple[str, str]]) -> None:
    """Calls with the description's offset set to another and back; each as its words and what it answers."""
    former = description.offset
    for words, told in ((f"lseek {number} {offset} set", f"at {offset}"), *lines, (f"lseek {number} {former} set", f"at {former}")):
        world.step(block, process.seat, words, told, description)


def writes(number: int, data: bytes, count: int) -> list[tuple[str, str]]:
    """Writes of these bytes, as long as a line may be, and what each answers: in all so many."""
    return [(f"write {number} {hexadecimal(data[at:at + WHOLE])}", f"n {min(WHOLE, count - at)}") for at in range(0, max(1, len(data)), WHOLE)]


@says("pread64", "preadv", "preadv2")
def say_pread(world: World, block: Block, process: Process, args: Arguments, result: Result) -> None:
    slot = memory_of(world, block, process, args[0], result)
    if slot is None:
        return
    description, number, offset = slot.description, number_of(args[0]), number_of(args[3])
    length = number_of(args[2], 0) if block.call.name == "pread64" else room_of(args[1])
    if result.error:
        refused(world, block, process, slot, f"read {number} {max(1, length)}", offset, result)
        return
    line = f"read {number} {length}", f"bytes {told_contents(description, told_bytes(world, args[1], result.number))}"
    if offset == AT_THE_OFFSET:
        world.step(block, process.seat, *line, description)
        description.offset += result.value
    else:
        at_offset(world, block, process, number, description, offset, [line])
    block.otherwise(f"{block.call.name} as a read between two lseeks")


@says("pwrite64", "pwritev", "pwritev2")
def say_pwrite(world: World, block: Block, process: Process, args: Arguments, result: Result) -> None:
    """With O_APPEND it writes at the end all the same (pwrite(2))."""
    slot = memory_of(world, block, process, args[0], result)
    if slot is None:
        return
    description, thing, number, offset = slot.description, slot.description.thing, number_of(args[0]), number_of(args[3])
    if result.error:
        refused(world, block, process, slot, f"write {number} 00", offset, result)
        return
    data = data_of(world, args[1], number_of(args[2], 0))[:result.value]
    is_moved = offset == AT_THE_OFFSET
    start = thing.size if description.append else description.offset if is_moved else offset
    if not may_write(world, block, slot, start + len(data), result):
        return
    lines = writes(number, data, result.number)
    thing.size = max(thing.size, start + len(data)) if data else thing.size
    if is_moved:
        description.offset = start + len(data)
        for words, told in lines:
            world.step(block, process.seat, words, told, description)
    else:
        at_offset(world, block, process, number, description, offset, lines)
    block.otherwise(f"{block.call.name} as a write between two lseeks")


@says("ftruncate", "ftruncate64")
def say_ftruncate(world: World, block: Block, process: Process, args: Arguments, result: Result) -> None:
    slot = memory_of(world, block, process, args[0], result)
    if slot is None:
        return
    length = number_of(args[1], 0)
    if is_resize_sealed(slot.description.thing, length):
        world.doubts.add(doubts.SEALED, block)
    if length == slot.description.thing.size:
        block.leave_out("ftruncate to the length that the file has")
    elif length < slot.description.thing.size:
        world.lose(block, slot.description, "ftruncate of a memory file to fewer bytes, which the layer has no call for")
    else:
        lengthen(world, block, process, number_of(args[0]), slot, length)


def lengthen(world: World, block: Block, process: Process, number: int, slot: Slot, length: int) -> None:
    """A memory file is longer from here on, by zeros."""
    description, name = slot.description, block.call.name
    if description.append:
        world.lose(block, description, f"{name} of a memory file with O_APPEND, which the layer has no call for")
    elif not is_too_long(world, block, slot, length):
        at_offset(world, block, process, number, description, length - 1, [(f"write {number} 00", "n 1")])
        description.thing.size = length
        block.otherwise(f"{name} to more bytes as a write of the last one")


@says("fallocate")
def say_fallocate(world: World, block: Block, process: Process, args: Arguments, result: Result) -> None:
    """Of a memory file: to more bytes, or zeros in place of what was there (fallocate(2))."""
    slot = memory_of(world, block, process, args[0], result)
    if slot is None:
        return
    thing, number, flags = slot.description.thing, number_of(args[0]), flags_of(args[1])
    start, end = number_of(args[2]), number_of(args[2]) + number_of(args[3])
    if flags & ZEROING:
        wipe(world, block, process, number, slot, (start, min(end, thing.size)))
    elif flags - {"FALLOC_FL_KEEP_SIZE"}:
        world.lose(block, slot.description, "fallocate of another kind, which the layer has no call for")
    elif end > thing.size and not flags:
        if is_resize_sealed(thing, end):
            world.doubts.add(doubts.SEALED, block)
        lengthen(world, block, process, number, slot, end)
    else:
        block.leave_out("fallocate of bytes that are there")


def wipe(world: World, block: Block, process: Process, number: int, slot: Slot, span: tuple[int, int]) -> None:
    """Zeros from one offset of a memory file to another."""
    start, end = span
    if slot.description.append:
        world.lose(block, slot.description, "fallocate of a memory file with O_APPEND, which the layer has no call for")
    elif start < end:
        at_offset(world, block, process, number, slot.description, start, writes(number, bytes(end - start), end - start))
        block.otherwise("fallocate as a write of zeros")
    else:
        block.leave_out("fallocate of no bytes that are there")


@says("mmap", "mmap2")
def say_mmap(world: World, block: Block, process: Process, args: Arguments, result: Result) -> None:
    """A memory file that is mapped to be written to: the log doesn't show what is written so."""
    slot = process.table.get(number_of(args[4], -1)) if len(args) > 4 else None
    thing = slot.description.thing if slot is not None and slot.description.kind is Kind.MEMORY else None
    if thing is not None and not result.error and "PROT_WRITE" in flags_of(after(args[2])):
        thing.is_hidden = True
        block.leave_out("mmap of a memory file: what is read of it is compared by its length")
    else:
        block.leave_out("mmap")
