"""Says the calls on descriptor tables: close, close_range, dup, dup2, dup3 and fcntl."""
from __future__ import annotations

from typing import TYPE_CHECKING, Any

from reading.effects import OUTSIDE_ERRORS
from reading.words import Descriptor, flags_of, number_of
from . import doubts
from .amounts import say_room
from .limits import say_seals
from .model import Description, Kind, Slot
from .world import HIGHEST, says

if TYPE_CHECKING:
    from reading.calls import Result
    from reading.words import Arguments
    from .model import Block, Process
    from .world import World

O_APPEND, O_NONBLOCK, O_ASYNC = 0o2000, 0o4000, 0o20000
O_ACCMODE, O_WRONLY, O_RDWR = 3, 1, 2
MODES = {0: "r", O_WRONLY: "w", O_RDWR: "rw"}
FD_CLOEXEC = 1
DUPLICATES = {"F_DUPFD": False, "F_DUPFD_CLOEXEC": True}
FORGETS = 4294967295


def note_of(value: Any):
    return value.note if isinstance(value, Descriptor) else ""


def is_closed(process: Process, value: Any) -> bool:
    """Whether a number leads to nothing, for the log too, which has no note of it then."""
    number = number_of(value, -1)
    return 0 <= number <= HIGHEST and number not in process.table and not note_of(value)


def make_pidfd(world: World, block: Block, process: Process, number: int) -> None:
    """A descriptor of a process, which is close-on-exec always (pidfd_open(2))."""
    world.make(block, process, number, Description(Kind.OPAQUE, "a process's descriptor", inode="anon_inode:[pidfd]"), True)


def on_unix(block: Block, slot: Slot | None) -> None:
    """Marks the call as one on a socket of the layer."""
    block.unix = block.unix or bool(slot and slot.description.kind.is_socket)


@says("close")
def say_close(world: World, block: Block, process: Process, args: Arguments, result: Result) -> None:
    number = number_of(args[0])
    there = process.table.get(number)
    if result.error and (result.error == "EBADF" or there is None or there.description.kind is not Kind.OPAQUE):
        world.step(block, process.seat, f"close {clipped(number)}", f"err {result.error}", state="closed")
        return
    slot = world.slot(block, process, number, note_of(args[0]))
    if slot is None:
        process.unseen.discard(number)
        world.doubts.add(doubts.CLOSE_OF_NO_ORIGIN, block)
        block.leave_out("close of a descriptor that the log doesn't show opened")
        return
    close(world, block, process, number, slot, None if result.error else "ok")
    if result.error:
        block.otherwise("a close of an opaque object that failed: the number is free all the same")


def close(world: World, block: Block, process: Process, number: int, slot: Slot, told: str | None = "ok") -> None:
    on_unix(block, slot)
    if number <= HIGHEST:
        world.step(block, process.seat, f"close {number}", told, slot.description)
    world.drop(process, number)


@says("close_range")
def say_close_range(world: World, block: Block, process: Process, args: Arguments, result: Result) -> None:
    if result.error:
        block.leave_out("close_range that failed")
        return
    first, last = number_of(args[0], 0), number_of(args[1], 1 << 32)
    marks = "CLOSE_RANGE_CLOEXEC" in flags_of(args[2])
    for number in sorted(process.table):
        if first <= number <= last:
            slot = process.table[number]
            if marks:
                slot.on_exec = True
                set_flags(world, block, process, number, slot)
            else:
                world.uses.close(process, number, block.call)
                close(world, block, process, number, slot)
    if block.steps:
        block.otherwise("close_range as several closes")
    else:
        block.leave_out("close_range of no open descriptor")


def set_flags(world: World, block: Block, process: Process, number: int, slot: Slot) -> None:
    letters = world.letters(slot.description, slot.on_exec)
    world.step(block, process.seat, f"flags {number} {letters}", "ok", slot.description)


@says("dup")
def say_dup(world: World, block: Block, process: Process, args: Arguments, result: Result) -> None:
    duplicate(world, block, process, args[0], result, 0, False)


@says("dup2", "dup3")
def say_dup2(world: World, block: Block, process: Process, args: Arguments, result: Result) -> None:
    source, target = number_of(args[0]), number_of(args[1])
    if result.error or result.value is None:
        refuse(world, block, process, f"dup2 {clipped(source)} {clipped(target)}", result)
        return
    slot = world.slot(block, process, source, note_of(args[0]) or result.note)
    if slot is None or max(source, target) > HIGHEST:
        block.not_at_all("a descriptor that isn't known")
        return
    on_unix(block, slot)
    if result.value != target:
        world.doubts.add(doubts.COUNT, block)
    put_at(world, block, process, source, target, slot, "O_CLOEXEC" in flags_of(args[2]) if len(args) > 2 else False)
    if block.call.name == "dup3":
        block.otherwise("dup3 as dup2 and flags")


def clipped(number: int) -> int:
    """A number as a script may have it: what can't be a descriptor's is one that the layer hasn't either."""
    return number if 0 <= number <= HIGHEST else FORGETS


def refuse(world: World, block: Block, process: Process, words: str, result: Result) -> None:
    """A call that failed: said but where it failed for what the layer doesn't have (dup(2), fcntl(2))."""
    name = block.call.name
    has_limits = name == "dup3" or name.startswith("fcntl")
    if not result.error:
        block.leave_out(f"{name} without an answer")
    elif result.error in OUTSIDE_ERRORS or result.error == "EBUSY" or result.error == "EINVAL" and has_limits:
        block.leave_out(f"{name} that failed: {result.error}")
    else:
        world.step(block, process.seat, words, f"err {result.error}")


def put_at(world: World, block: Block, process: Process, source: int, target: int, slot: Slot, on_exec: bool) -> None:
    """dup2, and the flag where it is wanted."""
    world.step(block, process.seat, f"dup2 {source} {target}", f"fd {target}", slot.description)
    if source == target:
        return
    if target in process.table:
        block.concern(process.table[target].description)
        world.drop(process, target)
    copy = Slot(slot.description, on_exec)
    process.table[target] = copy
    if slot.description.thing is not None:
        slot.description.thing.ends += 1
    if on_exec:
        set_flags(world, block, process, target, copy)


def duplicate(world: World, block: Block, process: Process, value: Any, result: Result, least: int, on_exec: bool) -> None:
    """dup and F_DUPFD where the lowest free number from the minimum on is the one given, else dup2."""
    source = number_of(value)
    words = f"dupfd {clipped(source)} {clipped(least)}" if least else f"dup {clipped(source)}"
    if result.error or result.value is None:
        refuse(world, block, process, words, result)
        return
    slot = world.slot(block, process, source, note_of(value) or result.note)
    if slot is None or max(source, result.value) > HIGHEST:
        block.not_at_all("a descriptor that isn't known")
        return
    on_unix(block, slot)
    world.doubts.given(block, process, result.value)
    if result.value in process.table:
        world.gone(block, process, result.value)
    if result.value <= process.lowest(least):
        world.step(block, process.seat, words, f"fd {result.value}", slot.description)
        copy_to(world, block, process, slot, result.value, on_exec)
    else:
        world.doubts.pass_over(block, process, result.value, least)
        put_at(world, block, process, source, result.value, slot, on_exec)
        block.otherwise("dup to a number that isn't the lowest: dup2")


def copy_to(world: World, block: Block, process: Process, slot: Slot, number: int, on_exec: bool) -> None:
    """A further descriptor of the same description."""
    process.table[number] = copy = Slot(slot.description, on_exec)
    if slot.description.thing is not None:
        slot.description.thing.ends += 1
    if on_exec:
        set_flags(world, block, process, number, copy)


@says("fcntl", "fcntl64")
def say_fcntl(world: World, block: Block, process: Process, args: Arguments, result: Result) -> None:
    number, request = number_of(args[0]), str(args[1])
    if request in DUPLICATES:
        duplicate(world, block, process, args[0], result, number_of(args[2], 0), DUPLICATES[request])
        if DUPLICATES[request]:
            block.otherwise(f"{request} as dupfd and flags")
    elif request in ("F_GETFD", "F_GETFL") and tells_flags(block, process, number, request, result):
        slot = process.table[number]
        if not may_be(slot.description, request, result):
            world.doubts.add(doubts.FLAGS, block)
        world.step(block, process.seat, f"getfl {number}", f"flags {flag_names(slot, request, result.value)}", slot.description)
        block.otherwise(f"{request} as getfl, which tells the other's flags too")
    elif request in ("F_SETFD", "F_SETFL") and not result.error:
        slot = world.slot(block, process, number, note_of(args[0]))
        if slot is None or number > HIGHEST:
            block.not_at_all("a descriptor that isn't known")
            return
        on_unix(block, slot)
        take_flags(slot, request, args[2])
        set_flags(world, block, process, number, slot)
        block.otherwise("fcntl as flags")
    elif request in ("F_SETPIPE_SZ", "F_GETPIPE_SZ") and not result.error and result.value is not None:
        say_room(world, block, process.table.get(number), number_of(args[2]) if request == "F_SETPIPE_SZ" else None, result.value)
        block.leave_out(f"fcntl {request}")
    elif request in ("F_ADD_SEALS", "F_GET_SEALS"):
        say_seals(world, block, process, number, request, args[-1], result)
    else:
        on_unix(block, process.table.get(number))
        block.leave_out(f"fcntl {request}")


def tells_flags(block: Block, process: Process, number: int, request: str, result: Result):
    """Whether flags are told of a description that the log shows whole."""
    slot = process.table.get(number)
    on_unix(block, slot)
    is_known = slot is not None and not slot.description.unknown and (request == "F_GETFD" or not slot.description.is_given)
    return is_known and not result.error and result.value is not None and number <= HIGHEST


def may_be(description: Description, request: str, result: Result):
    """Whether flags are such as the description can have, by how it was opened and by the names that strace tells beside them."""
    if request == "F_GETFD":
        return result.value in (0, FD_CLOEXEC)
    names = flags_of(result.detail.removeprefix("(flags ").rstrip(")"))
    mode = MODES.get(result.number & O_ACCMODE)
    bits = {"O_APPEND": O_APPEND, "O_NONBLOCK": O_NONBLOCK, "O_RDWR": O_RDWR, "O_WRONLY": O_WRONLY}
    is_told = not names or all((name in names) == (result.number & bit == bit) for name, bit in bits.items())
    is_plain = not description.kind.is_socket or not result.number & ~(O_ACCMODE | O_APPEND | O_NONBLOCK | O_ASYNC)
    return mode is not None and description.mode in ("", mode) and is_told and is_plain


def flag_names(slot: Slot, request: str, value: Any) -> str:
    """The flags as the log tells them, and those that this request doesn't tell as they were set."""
    description = slot.description
    append, nonblocking, on_exec = description.append, description.nonblocking, slot.on_exec
    if request == "F_GETFL":
        append, nonblocking = bool(value & O_APPEND), bool(value & O_NONBLOCK)
    else:
        on_exec = bool(value & FD_CLOEXEC)
    names = {"APPEND": append, "NONBLOCK": nonblocking, "CLOEXEC": on_exec}
    return "|".join(name for name, is_set in names.items() if is_set) or "-"


def take_flags(slot: Slot, request: str, value: Any) -> None:
    flags = flags_of(value)
    if request == "F_SETFD":
        slot.on_exec = "FD_CLOEXEC" in flags or value == 1
    else:
        slot.description.nonblocking = bool(flags & {"O_NONBLOCK", "O_NDELAY"})
        slot.description.append = "O_APPEND" in flags
        slot.description.is_given = False
