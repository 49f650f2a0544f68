"""What reads and writes have in common: their bytes, and whether a descriptor is one that they are said of."""
from __future__ import annotations

from typing import TYPE_CHECKING, Any

from reading.words import Text, after, number_of
from . import doubts
from .descriptors import note_of, on_unix
from .model import WHOLE, Kind
from .sockets import skipped

if TYPE_CHECKING:
    from .model import Block, Description, Process
    from .world import World

PIECE = 1900


def hexadecimal(data: bytes):
    return data.hex() or "-"


def data_of(world: World, value: Any, length: int | None = None):
    """The bytes of a buffer or of a list of buffers; what strace cut is zeros, and counted."""
    value = after(value)
    if isinstance(value, list):
        return b"".join(data_of(world, one.get("iov_base"), number_of(one.get("iov_len"), 0)) for one in value if isinstance(one, dict))
    if not isinstance(value, Text):
        length = max(length or 0, 0)
        world.gaps.cut_texts += length > 0
        return bytes(length)
    if value.cut:
        world.gaps.cut_texts += 1
        return value.data + bytes(max(0, (length or 0) - len(value.data)))
    return value.data


def told_bytes(world: World, value: Any, count: int):
    """The bytes that a receive got, as many as it answered: a log that shows fewer has zeros for the rest, which differ."""
    whole = whole_texts(after(value))
    if whole is not None and sum(map(len, whole)) != count and world.current is not None:
        world.doubts.add(doubts.COUNT, world.current)
    return data_of(world, value, count)[:count].ljust(count, b"\0")


def whole_texts(value: Any):
    """The strings of a buffer or of a list of buffers, or None where the log has one of them only in part, or not at all."""
    texts = [after(one.get("iov_base")) for one in value if isinstance(one, dict)] if isinstance(value, list) else [value]
    return [one.data for one in texts] if all(isinstance(one, Text) and not one.cut for one in texts) else None


def sayable(world: World, block: Block, process: Process, value: Any, name: str):
    """The slot of a descriptor that reads and writes are said of, or None; the block knows why."""
    number = number_of(value, -1)
    slot = world.slot(block, process, number, note_of(value))
    on_unix(block, slot)
    if slot is None or slot.description.kind is Kind.OPAQUE:
        block.leave_out(f"{name} of an opaque object" if slot else f"{name} of a descriptor that isn't open")
        return None
    description = slot.description
    thing = description.thing
    if thing is not None and thing.unknown and not description.unknown:
        description.unknown = thing.unknown
    return None if skipped(block, description, number) else slot


def shortened(description: Description, data: bytes):
    """What the layer takes of a message, which is no more than its queue of a stream holds."""
    return data[:WHOLE] if description.kind in (Kind.DATAGRAM, Kind.RECORDS) else data


def told_contents(description: Description, data: bytes):
    """What was received as a reply tells it: the bytes, or how many where the log doesn't show what was sent."""
    source = source_of(description)
    is_hidden = source is not None and source.blurred > 0 or description.thing is not None and description.thing.is_hidden
    return f"*{len(data)}" if is_hidden else hexadecimal(data)


def source_of(description: Description):
    """What keeps how many bytes wait for a receive: a pipe, or the socket that sent them."""
    return description.thing if description.thing is not None else description.peer


def blur(description: Description) -> None:
    """What was just sent or written the log doesn't show: nor does it what is received, up to there, or of a memory file any more."""
    thing = description.thing
    if thing is None:
        description.blurred = sum(description.unread)
    elif thing.kind is Kind.MEMORY:
        thing.is_hidden = True
    else:
        thing.blurred = thing.level


def taken(description: Description, count: int) -> None:
    """Keeps which messages of a peer, how many bytes of a pipe, are unread, and how far a memory file is read."""
    thing, source = description.thing, source_of(description)
    if description.kind is Kind.MEMORY:
        description.offset += count
    elif thing is not None:
        thing.level = max(0, thing.level - count)
    description.pending = max(0, description.pending - 1)
    unread = description.peer.unread if description.peer is not None else []
    if source is not None:
        source.blurred = max(0, source.blurred - count)
    if description.kind is not Kind.STREAM:
        del description.messages[:1], unread[:1]
        return
    while unread and count >= unread[0]:
        count -= unread.pop(0)
    if unread:
        unread[0] -= count
