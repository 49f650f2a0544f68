"""Room of queues: this layer's counts of bytes and messages, and on Linux the memory that senders are charged for (socket(7))."""
from __future__ import annotations

from . import agreed
from .kernel import Kernel
from .rules import Rule
from .state import Socket

RECORD_LIMIT = 16
RECORD_BYTES = 65536
LEFT_OF_A_BUFFER = 32  # what a message's length must leave of SO_SNDBUF (unix_dgram_sendmsg)


def rule_of(socket: Socket) -> Rule:
    """The rule by which Linux counts memory."""
    return Rule.ROOM_OF_A_STREAM if socket.kind == "stream" else Rule.MESSAGES_IN_A_QUEUE


# ---- this layer

def has_room(target: Socket) -> bool:
    """Whether a queue takes one more message, of a stream one more byte."""
    if target.kind == "stream":
        return sum(len(message.data) for message in target.queue) < target.queue_limit
    return len(target.queue) < RECORD_LIMIT


def taken_here(target: Socket, count: int) -> int | None:
    """How many bytes of a send a queue takes, or None where there is no room."""
    if target.kind != "stream":
        return count if len(target.queue) < RECORD_LIMIT else None
    room = target.queue_limit - sum(len(message.data) for message in target.queue)
    return min(count, room) if room > 0 else None


# ---- Linux

def is_used_up(kernel: Kernel, socket: Socket) -> bool:
    """Whether a sender has no memory for a message (sock_alloc_send_pskb)."""
    return rule_of(socket) in kernel.rules and socket.charged >= kernel.machine.send_buffer


def has_memory(kernel: Kernel, socket: Socket) -> bool:
    """Whether Linux tells a socket as writable (unix_writable): what it is charged is a quarter at most."""
    return (socket.charged + 1) * 4 <= kernel.machine.send_buffer


def is_queue_full(kernel: Kernel, sender: Socket, target: Socket) -> bool:
    """Whether a datagram must wait for the target's queue, which isn't tied to the sender."""
    return target is not sender and target.peer is not sender and len(target.queue) > kernel.machine.datagrams


def message_sizes(kernel: Kernel, socket: Socket, count: int) -> list[int]:
    """The messages that a send of so many bytes makes: one, of a long one of a stream several on Linux (unix_stream_sendmsg)."""
    size = kernel.machine.message
    if socket.kind != "stream" or count <= size or not kernel.follows(Rule.LONG_SEND_OF_A_STREAM):
        return [count]
    return [min(size, count - at) for at in range(0, count, size)]


def taken_there(kernel: Kernel, sender: Socket, target: Socket, count: int) -> int | None:
    """How many bytes of a send are taken on Linux: messages as long as the sender has memory."""
    if target.is_datagram and is_queue_full(kernel, sender, target):
        return None
    charged, taken = sender.charged, None
    for size in message_sizes(kernel, sender, count):
        if charged >= kernel.machine.send_buffer:
            break
        charged += kernel.machine.cost(sender.kind, size)
        taken = (taken or 0) + size
    return taken


# ---- both

def taken(kernel: Kernel, sender: Socket, target: Socket, count: int) -> int | None:
    """How many bytes of a send are taken, or None where there is no room."""
    return kernel.either(rule_of(sender), agreed.takes(target, count), lambda: taken_here(target, count),
                         lambda: taken_there(kernel, sender, target, count))


def is_too_long(kernel: Kernel, count: int) -> bool:
    """Whether a datagram or record has too many bytes; on Linux whether the sender's buffer hasn't room for it."""
    return kernel.either(Rule.MESSAGES_IN_A_QUEUE, count > agreed.RECORD_BYTES, lambda: count > RECORD_BYTES,
                         lambda: count > kernel.machine.send_buffer - LEFT_OF_A_BUFFER)
