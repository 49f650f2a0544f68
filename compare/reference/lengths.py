"""inq and outq: how many bytes wait to be read, and how many the peer hasn't received (ioctl(2): FIONREAD, SIOCOUTQ; unix_inq_len and
unix_outq_len of Linux)."""
from __future__ import annotations

from . import agreed
from .kernel import Kernel
from .rules import Rule
from .state import Description, FileObject, Process, Refusal, Socket


def as_int(number: int) -> int:
    """The low 32 bits of a number, as Linux tells them."""
    return (number + (1 << 31)) % (1 << 32) - (1 << 31)


def bytes_ahead(kernel: Kernel, description: Description, target: FileObject) -> int:
    """What a read of a file object finds; on Linux of a file its size without the offset, also behind the end."""
    if target.kind == "counter":
        raise Refusal("ENOTTY")
    if target.kind == "pipe":
        return len(target.data)
    ahead = len(target.data) - description.offset
    return kernel.either(Rule.BYTES_BEHIND_THE_END, max(0, ahead), lambda: max(0, ahead), lambda: as_int(ahead))


def unread(socket: Socket) -> int:
    """What waits at a socket: all bytes, or those of the oldest datagram."""
    if socket.listens:
        raise Refusal("EINVAL")
    lengths = [len(message.data) for message in socket.queue]
    return sum(lengths[:1] if socket.is_datagram else lengths)


def unreceived(socket: Socket) -> int:
    """What a socket's peer hasn't received."""
    if socket.peer is None or socket.peer.is_gone:
        return 0
    return sum(len(message.data) for message in socket.peer.queue)


def call_inq(kernel: Kernel, process: Process, words: list[str]) -> str:
    """ioctl(2), FIONREAD."""
    description = kernel.descriptor(process, int(words[1])).description
    target = description.target
    return f"n {unread(target) if isinstance(target, Socket) else bytes_ahead(kernel, description, target)}"


def call_outq(kernel: Kernel, process: Process, words: list[str]) -> str:
    """ioctl(2), SIOCOUTQ: on Linux the memory that the socket is charged for."""
    target = kernel.descriptor(process, int(words[1])).description.target
    if isinstance(target, FileObject):
        raise Refusal("ENOTTY")
    if not target.is_datagram:
        length = kernel.either(Rule.MEMORY_OF_WHAT_WAS_SENT, agreed.unreceived(target), lambda: unreceived(target), lambda: target.charged)
        return f"n {length}"
    if kernel.follows(Rule.OUTQ_OF_DATAGRAMS):
        return f"n {target.charged}"
    raise Refusal("EOPNOTSUPP")
