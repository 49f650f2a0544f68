"""Tells whether a call that may wait has to: a call that needs not stands where it began, another where it ended."""
from __future__ import annotations

from typing import TYPE_CHECKING

from reading.words import after, number_of, room_of
from .model import Kind

if TYPE_CHECKING:
    from reading.calls import Call, Result
    from reading.words import Arguments
    from .model import Description, Process

POLLS = frozenset("poll ppoll select pselect6 epoll_wait epoll_pwait epoll_pwait2".split())
RECEIVES = frozenset("recv recvfrom recvmsg recvmmsg read readv".split())
ACCEPTS = frozenset("accept accept4".split())
# Calls that move bytes, with the place of what they move them from among their arguments.
MOVES = {"splice": 0, "tee": 0, "sendfile": 1, "sendfile64": 1}
WAITS = POLLS | RECEIVES | ACCEPTS | frozenset(MOVES)


def must_wait(process: Process, call: Call, args: Arguments, result: Result):
    """Whether a receive or an accept has what it answers only later, as far as is known where it began."""
    if call.name in MOVES:
        return moves_later(process, call, args, result)
    if call.name not in RECEIVES and call.name not in ACCEPTS:
        return False
    slot = process.table.get(number_of(args[0], -1))
    if slot is None or slot.description.kind is Kind.OPAQUE:
        return True
    description = slot.description
    if result.error == "EAGAIN":
        # Nothing was there: it stands where nothing is, so that a send which overlaps with it comes behind it.
        return is_something_there(call, description)
    if call.name in ACCEPTS:
        return not description.waiting
    if result.error or not result.value:
        return True
    if description.kind in (Kind.DATAGRAM, Kind.RECORDS):
        return not description.pending
    there = waiting_bytes(description)
    return not (result.value == there or result.value == asked(call, args) < there)


def moves_later(process: Process, call: Call, args: Arguments, result: Result) -> bool:
    """Whether a pipe or stream doesn't have yet what a call moves from it."""
    slot = process.table.get(number_of(args[MOVES[call.name]], -1))
    if slot is None or slot.description.kind not in (Kind.PIPE, Kind.STREAM):
        return False
    return not result.error and result.value is not None and waiting_bytes(slot.description) < max(1, result.value)


def is_something_there(call: Call, description: Description) -> bool:
    """Whether an accept or a receive finds something, as far as is known where it began."""
    if call.name in ACCEPTS:
        return bool(description.waiting)
    return bool(description.pending if description.kind in (Kind.DATAGRAM, Kind.RECORDS) else waiting_bytes(description))


def waiting_bytes(description: Description):
    """How many bytes wait to be received by a stream or a pipe."""
    if description.thing is not None:
        return description.thing.level
    return sum(description.peer.unread) if description.peer is not None else 0


def asked(call: Call, args: Arguments):
    """How many bytes a receive asks for."""
    if call.name == "readv":
        return room_of(args[1])
    if call.name == "recvmsg":
        message = after(args[1])
        return room_of(message.get("msg_iov")) if isinstance(message, dict) else 0
    return number_of(args[2], 0) if len(args) > 2 else 0
