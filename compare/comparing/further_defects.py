"""More planted defects, each invented once the rules were as narrow as they are."""
from __future__ import annotations

from copy import copy
from typing import Callable
from unittest import mock

from reference import connecting, files, receiving, sending, sockets, trace
from reference.kernel import Kernel
from reference.names import Address
from reference.state import Description, FileObject, Message, Process, Refusal, Socket

from .defects import Patches, answered, defect, instead, socket_at


@defect("accept", "an accepted socket is non-blocking where its listener is")
def _() -> Patches:
    def change(kernel: Kernel, process: Process, words: list[str], reply: str) -> str:
        made = process.table[int(reply.split(" ")[1])].description
        made.nonblocking |= process.table[int(words[1])].description.nonblocking
        return reply
    return answered("accept", change)


@defect("pair", "the first end alone is non-blocking")
def _() -> Patches:
    def change(kernel: Kernel, process: Process, words: list[str], reply: str) -> str:
        process.table[int(reply.split(" ")[2])].description.nonblocking = False
        return reply
    return answered("pair", change)


@defect("recv", "a peek takes the rights of its message")
def _() -> Patches:
    def change(kernel: Kernel, process: Process, words: list[str], reply: str) -> str:
        socket = socket_at(process, words)
        if "p" in words[4] and "r:" in reply and socket.queue:
            for message in socket.queue:
                for right in message.rights:
                    kernel.release(right)
                message.rights = []
        return reply
    return answered("recv", change)


@defect("recv", "rights stay with the rest of a message")
def _() -> Patches:
    def make(real: Callable) -> Callable:
        def take(kernel: Kernel, socket: Socket, count: int) -> None:
            first = socket.queue[0]
            kept = list(first.rights)
            for right in kept:
                kernel.hold(right)
            real(kernel, socket, count)
            if socket.queue and socket.queue[0] is first:
                first.rights = kept
            else:
                for right in kept:
                    kernel.release(right)
        return take
    return [instead(receiving, "take_stream", make)]


@defect("connect", "a datagram socket isn't associated with itself")
def _() -> Patches:
    def make(real: Callable) -> Callable:
        def connect(kernel: Kernel, socket: Socket, address: Address) -> None:
            if address == socket.name and socket.has_name:
                raise Refusal("EINVAL")
            real(kernel, socket, address)
        return connect
    return [instead(connecting, "connect_datagram", make)]


@defect("shut", "a shutdown both ways leaves the peer's writing open")
def _() -> Patches:
    def change(kernel: Kernel, process: Process, words: list[str], reply: str) -> str:
        socket = socket_at(process, words)
        if words[2] == "rw" and socket.peer and not socket.is_datagram:
            socket.peer.imposed.discard("w")
        return reply
    return answered("shut", change)


@defect("poll", "RDHUP comes once the queue is empty")
def _() -> Patches:
    def change(kernel: Kernel, process: Process, words: list[str], reply: str) -> str:
        socket = socket_at(process, words)
        held = [name for name in reply[5:].split("|") if name != "RDHUP" or not (socket and socket.queue)]
        return "poll " + ("|".join(held) or "-")
    return answered("poll", change)


@defect("read", "a read of a pipe wants all the bytes that it asks for")
def _() -> Patches:
    def make(real: Callable) -> Callable:
        def read(kernel: Kernel, description: Description, target: FileObject, wanted: int) -> bytes:
            if target.kind == "pipe" and target.writers and 0 < len(target.data) < wanted and "r" in description.mode:
                raise Refusal("EAGAIN")
            return real(kernel, description, target, wanted)
        return read
    return [instead(files, "read_object", make)]


@defect("lseek", "an offset below 0 is 0")
def _() -> Patches:
    real = trace.CALLS["lseek"]

    def call(kernel: Kernel, process: Process, words: list[str]) -> str:
        try:
            return real(kernel, process, words)
        except Refusal as refusal:
            if refusal.reply != "err EINVAL" or not words[2].startswith("-"):
                raise
            kernel.descriptor(process, int(words[1])).description.offset = 0
            return "at 0"
    return [mock.patch.dict(trace.CALLS, {"lseek": call})]


@defect("dup2", "dup2 onto itself clears close-on-exec")
def _() -> Patches:
    def change(kernel: Kernel, process: Process, words: list[str], reply: str) -> str:
        if words[1] == words[2]:
            process.table[int(words[1])].cloexec = False
        return reply
    return answered("dup2", change)


@defect("close", "a listener that goes leaves those that wait connected")
def _() -> Patches:
    def make(real: Callable) -> Callable:
        def drop(self: Kernel, gone: Socket) -> None:
            if gone.listens:
                for end in gone.pending:
                    self.hold(end)
            real(self, gone)
        return drop
    return [instead(Kernel, "drop_socket", make)]


@defect("bind", "a file object's path is bound over")
def _() -> Patches:
    def make(real: Callable) -> Callable:
        def check(kernel: Kernel, address: Address) -> None:
            if not isinstance(kernel.paths.get(address.name), FileObject):
                real(kernel, address)
        return check
    return [instead(sockets, "check_path_is_free", make)]


@defect("unlink", "a socket's path leads to it still")
def _() -> Patches:
    real = trace.CALLS["unlink"]

    def call(kernel: Kernel, process: Process, words: list[str]) -> str:
        former = dict(kernel.paths)
        reply = real(kernel, process, words)
        kernel.paths.update({path: target for path, target in former.items() if isinstance(target, Socket)})
        return reply
    return [mock.patch.dict(trace.CALLS, {"unlink": call})]


@defect("send", "a socket sends itself no datagram")
def _() -> Patches:
    def make(real: Callable) -> Callable:
        def target(kernel: Kernel, giving: sending.Sending) -> Socket:
            found = real(kernel, giving)
            if found is giving.socket:
                raise Refusal("ECONNREFUSED")
            return found
        return target
    return [instead(sending, "target_of", make)]


@defect("exec", "the number 0 is closed too")
def _() -> Patches:
    real = trace.CALLS["exec"]

    def call(kernel: Kernel, process: Process, words: list[str]) -> str:
        if 0 in process.table:
            process.table[0].cloexec = True
        return real(kernel, process, words)
    return [mock.patch.dict(trace.CALLS, {"exec": call})]


@defect("write", "a write that appends leaves the offset")
def _() -> Patches:
    def make(real: Callable) -> Callable:
        def write(kernel: Kernel, description: Description, target: FileObject, data: bytes) -> int:
            offset = description.offset
            count = real(kernel, description, target, data)
            description.offset = offset if description.append else description.offset
            return count
        return write
    return [instead(files, "write_memory", make)]


@defect("recv", "MSG_TRUNC counts all that waits in a stream")
def _() -> Patches:
    def make(real: Callable) -> Callable:
        def front(kernel: Kernel, socket: Socket, asked: receiving.Asked) -> receiving.Front:
            found = real(kernel, socket, asked)
            if "t" in asked.flags and "p" not in asked.flags:
                found.whole = max(found.whole, len(socket.queue[0].data))
            return found
        return front
    return [instead(receiving, "stream_front", make)]


@defect("fork", "a child's offsets are its own")
def _() -> Patches:
    def change(kernel: Kernel, process: Process, words: list[str], reply: str) -> str:
        child = kernel.processes[-1]
        for number, found in list(child.table.items()):
            if isinstance(found.description.target, FileObject) and found.description.target.kind == "mem":
                own = copy(found.description)
                own.references, own.target.opened = 0, own.target.opened + 1
                own.target.readers += "r" in own.mode
                own.target.writers += "w" in own.mode
                kernel.put(child, number, own, found.cloexec)
        return reply
    return answered("fork", change)


@defect("close", "a datagram socket that goes ends the associations with it")
def _() -> Patches:
    def make(real: Callable) -> Callable:
        def drop(self: Kernel, gone: Socket) -> None:
            for other in (found.target for found in self.descriptions if isinstance(found.target, Socket)):
                if gone.is_datagram and other.peer is gone:
                    other.peer = None
            real(self, gone)
        return drop
    return [instead(Kernel, "drop_socket", make)]


@defect("send", "rights in flight are of the user that their message tells")
def _() -> Patches:
    def make(real: Callable) -> Callable:
        def put(kernel: Kernel, giving: sending.Sending, target: Socket, data: bytes) -> None:
            real(kernel, giving, target, data)
            message: Message = target.queue[-1]
            message.uid = message.credentials[1]
        return put
    return [instead(sending, "put_message", make)]
