"""What docs/calls.md says of room, and of how many a poll takes, written once more: where Linux's own count says the same, a rule isn't
asked, and Linux judges this layer's half. A fault of that half so doesn't move where it is judged."""
from __future__ import annotations

from .state import FileObject, Socket

QUEUE_BYTES, RECORD_BYTES, PIPE_BYTES, PIPE_WHOLE = 65536, 65536, 65536, 4096
RECORDS, BACKLOG, POLLED = 16, 128, 64


def waiting(target: Socket) -> int:
    """The bytes that wait in a queue."""
    return sum(len(message.data) for message in target.queue)


def has_room(target: Socket) -> bool:
    """Whether a queue takes a message: a byte of a stream, or one of at most 16."""
    return waiting(target) < QUEUE_BYTES if target.kind == "stream" else len(target.queue) < RECORDS


def takes(target: Socket, count: int) -> int | None:
    """How many bytes of a send a queue takes, or None where it takes no message."""
    if not has_room(target):
        return None
    return min(count, QUEUE_BYTES - waiting(target)) if target.kind == "stream" else count


def pipe_takes(target: FileObject, count: int) -> int:
    """How many bytes of a write a pipe takes."""
    room = PIPE_BYTES - len(target.data)
    return count if count <= room else room if count > PIPE_WHOLE else 0


def pipe_has_room(target: FileObject) -> bool:
    """OUT of a pipe."""
    return len(target.data) + PIPE_WHOLE <= PIPE_BYTES


def unreceived(socket: Socket) -> int:
    """The bytes that a socket's peer hasn't received."""
    return 0 if socket.peer is None or socket.peer.is_gone else waiting(socket.peer)


def is_full(listener: Socket) -> bool:
    """Whether as many connections wait as the backlog says."""
    return len(listener.pending) >= max(1, min(BACKLOG, listener.backlog))


def polls_too_many(count: int) -> bool:
    """Whether these are more descriptors than one poll takes."""
    return count > POLLED
