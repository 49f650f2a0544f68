"""Compares numbers that calls tell of queues and buffers with what the log's other calls left, where no reply of the layer has them.

A number that can't be so is told with its line, as other doubts are."""
from __future__ import annotations

from typing import TYPE_CHECKING, Any

from reading.words import number_of
from . import doubts
from .marks import is_gone
from .model import WHOLE, Kind

if TYPE_CHECKING:
    from .model import Block, Description, Slot
    from .world import World

BUFFERS = {"SO_SNDBUF": "SO_SNDBUF", "SO_SNDBUFFORCE": "SO_SNDBUF", "SO_RCVBUF": "SO_RCVBUF", "SO_RCVBUFFORCE": "SO_RCVBUF"}
# The least that Linux sets on x86-64 (SOCK_MIN_SNDBUF, SOCK_MIN_RCVBUF of include/net/sock.h).
LEAST = {"SO_SNDBUF": 4608, "SO_RCVBUF": 2304}
# A message's memory is a multiple of a processor's line (SKB_DATA_ALIGN of include/linux/skbuff.h).
PROCESSOR_LINE = 64
PAGE = 4096


def unreceived(description: Description) -> list[int]:
    """How long the messages are that a socket sent and nobody has received, as far as these are there still."""
    if description.kind is Kind.DATAGRAM:
        there = [target for target in description.reached.values() if not is_gone(target)]
        return [one.size for target in there for one in target.messages if one.sender is description]
    return [] if description.peer is not None and is_gone(description.peer) else description.unread


def may_be_length(description: Description, word: str, told: int) -> bool:
    """Whether a number can be so of which the layer has another by a rule: memory in place of bytes (memory-of-what-was-sent,
    outq-of-datagrams), or what lacks to a file's end in place of nothing (bytes-behind-the-end)."""
    if word == "inq":
        return told >= 0 or description.kind is Kind.MEMORY and told == description.thing.size - description.offset
    waiting = unreceived(description)
    return told % PROCESSOR_LINE == 0 and told >= max(1, sum(waiting)) if waiting else told == 0


def cut_off(description: Description) -> int:
    """How many of the bytes that wait at a socket the layer hasn't, as it shortens messages."""
    longer = [max(0, one.size - WHOLE) for one in description.messages]
    return sum(longer[:1] if description.kind is Kind.DATAGRAM else longer)


def is_from_outside(description: Description) -> bool:
    """Whether peers outside of the log count for a queue's length, of whom it doesn't show when they send and receive."""
    return description.outer is not None or any(target.outer is not None for target in description.reached.values())


def say_buffer(world: World, block: Block, description: Description, option: str, value: Any) -> None:
    """A size that is told is twice the one that was set and at least the least, or the machine's greatest or first, which are the same
    for all sockets."""
    told, asked = number_of(value, None), description.buffers.get(option)
    if told is None:
        return
    expected = max(2 * asked, LEAST[option]) if asked is not None else told + 1
    if asked is None or asked < 0 or told < expected:
        expected = world.doubts.sizes.setdefault((option, asked is None), told)
    if told != expected:
        world.doubts.add(doubts.BUFFER, block)


def say_room(world: World, block: Block, slot: Slot | None, asked: int | None, told: int) -> None:
    """A pipe's room is a power of two of pages and at least what was asked for, and is told as it was set (fcntl(2), F_SETPIPE_SZ)."""
    thing = slot.description.thing if slot is not None and slot.description.kind is Kind.PIPE else None
    if thing is None:
        return
    is_possible = told % PAGE == 0 and told & (told - 1) == 0 and told >= (asked or 0)
    if not is_possible or asked is None and thing.room not in (0, told):
        world.doubts.add(doubts.BUFFER, block)
    thing.room, thing.is_resized = told, thing.is_resized or asked is not None
