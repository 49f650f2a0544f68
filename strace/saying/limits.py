"""What bounds a memory file: the layer's greatest length, and the seals of memfd_create(2), of which the layer has none."""
from __future__ import annotations

from typing import TYPE_CHECKING, Any

from reading.words import flags_of
from . import doubts
from .model import Kind

if TYPE_CHECKING:
    from reading.calls import Result
    from .model import Block, Process, Slot, Thing
    from .world import World

# The longest memory file of the layer (write in docs/calls.md).
LONGEST = 1 << 20
# fcntl(2), include/uapi/linux/fcntl.h.
SEALS = {"F_SEAL_SEAL": 1, "F_SEAL_SHRINK": 2, "F_SEAL_GROW": 4, "F_SEAL_WRITE": 8, "F_SEAL_FUTURE_WRITE": 16, "F_SEAL_EXEC": 32}
NO_WRITES = SEALS["F_SEAL_WRITE"] | SEALS["F_SEAL_FUTURE_WRITE"]
# A setting of the machine gives it too.
UNTOLD = SEALS["F_SEAL_EXEC"]


def first_seals(flags: set[str]):
    """The seals of a new memory file by the flags of memfd_create(2)."""
    return 0 if flags & {"MFD_ALLOW_SEALING", "MFD_NOEXEC_SEAL"} else SEALS["F_SEAL_SEAL"]


def may_write(world: World, block: Block, slot: Slot, end: int, result: Result) -> bool:
    """Whether a write that ends at this offset of a memory file can be said: one that grows above what the layer's may leaves contents
    that aren't known, and one that a seal refuses leaves nothing."""
    thing = slot.description.thing
    seal = thing.seals & (NO_WRITES | (SEALS["F_SEAL_GROW"] if end > thing.size else 0))
    if seal and result.error == "EPERM":
        block.leave_out(f"{block.call.name} that a seal refuses, which the layer doesn't have")
        return False
    if seal and not result.error:
        world.doubts.add(doubts.SEALED, block)
    return not is_too_long(world, block, slot, end)


def is_too_long(world: World, block: Block, slot: Slot, end: int) -> bool:
    """Whether a memory file grows above what the layer's may."""
    if end > LONGEST:
        world.lose(block, slot.description, "a memory file of more than 1,048,576 bytes")
    return end > LONGEST


def is_resize_sealed(thing: Thing, length: int) -> bool:
    """Whether a seal forbids this length."""
    return bool(thing.seals & (SEALS["F_SEAL_SHRINK"] if length < thing.size else SEALS["F_SEAL_GROW"] if length > thing.size else 0))


def say_seals(world: World, block: Block, process: Process, number: int, request: str, value: Any, result: Result) -> None:
    """F_ADD_SEALS and F_GET_SEALS: seals are kept, and what they refuse is left out."""
    slot = process.table.get(number)
    thing = slot.description.thing if slot is not None and slot.description.kind is Kind.MEMORY else None
    if thing is not None and not result.error and result.value is not None:
        if request == "F_GET_SEALS" and (result.value ^ thing.seals) & ~UNTOLD:
            world.doubts.add(doubts.SEALS, block)
        elif request == "F_ADD_SEALS":
            if thing.seals & SEALS["F_SEAL_SEAL"]:
                world.doubts.add(doubts.SEALED, block)
            thing.seals |= sum(bit for name, bit in SEALS.items() if name in flags_of(value))
    block.leave_out(f"fcntl {request}")
