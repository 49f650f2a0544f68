"""Defects that somebody is likely to write, planted into the reference: each changes answers or a state, and nothing else."""
from __future__ import annotations

from contextlib import contextmanager
from dataclasses import dataclass
from typing import Any, Callable, Iterator
from unittest import mock

from reference import connecting, files, sending, sockets, trace
from reference.kernel import Kernel
from reference.names import UNNAMED
from reference.state import FileObject, Process, Refusal, Socket

Patches = list[Any]


@dataclass
class Defect:
    """A defect, by the kind of call at which it is seen."""
    call: str
    name: str
    make: Callable[[], Patches]

    @contextmanager
    def planted(self) -> Iterator[None]:
        """The reference has the defect for as long as this lasts."""
        patches = self.make()
        for patch in patches:
            patch.start()
        try:
            yield
        finally:
            for patch in reversed(patches):
                patch.stop()


ALL: list[Defect] = []


def defect(call: str, name: str) -> Callable[[Callable[[], Patches]], Callable[[], Patches]]:
    """Adds a defect to the list."""
    def add(make: Callable[[], Patches]) -> Callable[[], Patches]:
        ALL.append(Defect(call, name, make))
        return make
    return add


def instead(place: Any, name: str, make: Callable[[Callable], Callable]) -> Any:
    """A patch that puts another function in place of one, made of that one."""
    return mock.patch.object(place, name, make(getattr(place, name)))


def answered(word: str, change: Callable[[Kernel, Process, list[str], str], str]) -> Patches:
    """Patches that change a call's answer, and no state."""
    real = trace.CALLS[word]

    def call(kernel: Kernel, process: Process, words: list[str]) -> str:
        return change(kernel, process, words, real(kernel, process, words))
    return [mock.patch.dict(trace.CALLS, {word: call})]


def refused(word: str, error: str, other: str, test: Callable[[Kernel, Process, list[str]], bool] = lambda *_: True) -> Patches:
    """Patches that refuse by another error in place of one."""
    real = trace.CALLS[word]

    def call(kernel: Kernel, process: Process, words: list[str]) -> str:
        try:
            return real(kernel, process, words)
        except Refusal as refusal:
            if refusal.reply == f"err {error}" and test(kernel, process, words):
                raise Refusal(other) from None
            raise
    return [mock.patch.dict(trace.CALLS, {word: call})]


def socket_at(process: Process, words: list[str]) -> Socket | None:
    """The socket that a call's descriptor leads to."""
    found = process.table.get(int(words[1]))
    return found.description.target if found and isinstance(found.description.target, Socket) else None


# ---- those that patterns once hid

@defect("close", "a passed file is never closed")
def _() -> Patches:
    def make(real: Callable) -> Callable:
        def drop(self: Kernel, message: Any) -> None:
            message.rights = [right for right in message.rights if isinstance(right.target, Socket)]
            real(self, message)
        return drop
    return [instead(Kernel, "drop_message", make)]


@defect("bind", "an abstract name isn't freed")
def _() -> Patches:
    def make(real: Callable) -> Callable:
        def drop(self: Kernel, gone: Socket) -> None:
            kept = dict(self.abstract)
            real(self, gone)
            self.abstract.update(kept)
        return drop
    return [instead(Kernel, "drop_socket", make)]


@defect("connect", "a backlog is one too small")
def _() -> Patches:
    return [instead(sockets, "backlog_here", lambda real: lambda wanted: real(wanted) - 1)]


@defect("send", "a queue is full at three messages, and has no OUT")
def _() -> Patches:
    def make(real: Callable) -> Callable:
        def part(kernel: Kernel, giving: sending.Sending, target: Socket) -> bytes:
            if target.kind != "stream" and len(target.queue) >= 3:
                raise Refusal("EAGAIN")
            return real(kernel, giving, target)
        return part

    def shown(kernel: Kernel, process: Process, words: list[str], reply: str) -> str:
        socket = socket_at(process, words)
        full = socket and socket.peer and socket.kind != "stream" and len(socket.peer.queue) >= 3
        return reply.replace("|OUT", "").replace("OUT|", "").replace("OUT", "-") if full else reply
    return [instead(sending, "part_that_fits", make), *answered("poll", shown)]


@defect("accept", "accept is always without a name")
def _() -> Patches:
    return [instead(sockets, "client_name", lambda real: lambda kernel, client: UNNAMED)]


@defect("peername", "a peer without a name is ENOTCONN")
def _() -> Patches:
    def make(kernel: Kernel, process: Process, words: list[str], reply: str) -> str:
        return "err ENOTCONN" if reply == "addr u" else reply
    return answered("peername", make)


@defect("recv", "a datagram's sender is always unnamed")
def _() -> Patches:
    def make(kernel: Kernel, process: Process, words: list[str], reply: str) -> str:
        is_datagram = reply.startswith("got") and socket_at(process, words).is_datagram
        return f"{reply.rpartition(' ')[0]} u" if is_datagram and reply[-1] != "-" else reply
    return answered("recv", make)


@defect("recv", "no ECONNRESET for records")
def _() -> Patches:
    return [instead(Kernel, "resets_peer", lambda real: lambda self, gone: gone.kind != "seq" and real(self, gone))]


@defect("bind", "EINVAL of a bind to a taken path")
def _() -> Patches:
    return refused("bind", "EADDRINUSE", "EINVAL", lambda kernel, process, words: words[2].startswith("p:"))


@defect("getopt", "a server's end has lost its peer's credentials")
def _() -> Patches:
    def make(real: Callable) -> Callable:
        def connect(kernel: Kernel, process: Process, client: Socket, listener: Socket) -> None:
            real(kernel, process, client, listener)
            listener.pending[-1].target.peer_credentials = None
        return connect
    return [instead(connecting, "make_connection", make)]


@defect("listen", "EDESTADDRREQ of a listen of one that is connected")
def _() -> Patches:
    def is_tied(kernel: Kernel, process: Process, words: list[str]) -> bool:
        return socket_at(process, words).peer is not None
    return refused("listen", "EINVAL", "EDESTADDRREQ", is_tied)


@defect("send", "EISCONN for EOPNOTSUPP")
def _() -> Patches:
    return refused("send", "EOPNOTSUPP", "EISCONN")


# ---- files

@defect("open", "append is forgotten")
def _() -> Patches:
    real = trace.CALLS["open"]
    return [mock.patch.dict(trace.CALLS, {"open": lambda k, p, w: real(k, p, [*w[:3], w[3].replace("a", "") or "-"])})]


@defect("open", "EOPNOTSUPP of a path that isn't there")
def _() -> Patches:
    return refused("open", "ENOENT", "EOPNOTSUPP")


@defect("read", "a read of a file stops one byte short")
def _() -> Patches:
    def make(real: Callable) -> Callable:
        def taken(description: Any, target: FileObject, wanted: int) -> bytes:
            return real(description, target, max(1, wanted - 1) if target.kind == "mem" else wanted)
        return taken
    return [instead(files, "taken_from", make)]


@defect("read", "a counter isn't taken away by a read")
def _() -> Patches:
    def make(real: Callable) -> Callable:
        def taken(description: Any, target: FileObject, wanted: int) -> bytes:
            value = target.value
            data = real(description, target, wanted)
            target.value = value
            return data
        return taken
    return [instead(files, "taken_from", make)]


@defect("read", "the end of a pipe without writers is EAGAIN")
def _() -> Patches:
    def make(real: Callable) -> Callable:
        def read(kernel: Kernel, description: Any, target: FileObject, wanted: int) -> bytes:
            data = real(kernel, description, target, wanted)
            if target.kind == "pipe" and wanted and not data:
                raise Refusal("EAGAIN")
            return data
        return read
    return [instead(files, "read_object", make)]


@defect("write", "a write to a pipe without readers is taken")
def _() -> Patches:
    def make(real: Callable) -> Callable:
        def write(kernel: Kernel, description: Any, target: FileObject, data: bytes) -> int:
            target.readers += 1
            try:
                return real(kernel, description, target, data)
            finally:
                target.readers -= 1
        return write
    return [instead(files, "write_object", make)]


@defect("write", "a counter takes one less than it can")
def _() -> Patches:
    return [mock.patch.object(files, "COUNTER_LIMIT", files.COUNTER_LIMIT - 1)]


@defect("lseek", "an offset from the end counts from the start")
def _() -> Patches:
    real = trace.CALLS["lseek"]
    return [mock.patch.dict(trace.CALLS, {"lseek": lambda k, p, w: real(k, p, [*w[:3], w[3].replace("end", "set")])})]


@defect("unlink", "a file object without a path is closed though it is open")
def _() -> Patches:
    def make(real: Callable) -> Callable:
        def close(self: Kernel, target: FileObject) -> None:
            opened, target.opened = target.opened, 0
            real(self, target)
            target.opened = opened
        return close
    return [instead(Kernel, "close_object", make)]


# ---- descriptors and processes

@defect("dup", "dup keeps close-on-exec")
def _() -> Patches:
    def make(kernel: Kernel, process: Process, words: list[str], reply: str) -> str:
        process.table[int(reply.split(" ")[1])].cloexec = process.table[int(words[1])].cloexec
        return reply
    return answered("dup", make)


@defect("dup2", "dup2 leaves the description that it replaces")
def _() -> Patches:
    real = trace.CALLS["dup2"]

    def call(kernel: Kernel, process: Process, words: list[str]) -> str:
        replaced = process.table.get(int(words[2]))
        if replaced:
            kernel.hold(replaced.description)
        return real(kernel, process, words)
    return [mock.patch.dict(trace.CALLS, {"dup2": call})]


@defect("flags", "close-on-exec stays as it was")
def _() -> Patches:
    real = trace.CALLS["flags"]

    def call(kernel: Kernel, process: Process, words: list[str]) -> str:
        found = kernel.descriptor(process, int(words[1]))
        cloexec = found.cloexec
        reply = real(kernel, process, words)
        found.cloexec = cloexec
        return reply
    return [mock.patch.dict(trace.CALLS, {"flags": call})]


@defect("exec", "exec closes nothing")
def _() -> Patches:
    return [mock.patch.dict(trace.CALLS, {"exec": lambda kernel, process, words: "ok"})]


@defect("fork", "a child's descriptors have lost close-on-exec")
def _() -> Patches:
    def make(kernel: Kernel, process: Process, words: list[str], reply: str) -> str:
        for found in kernel.processes[-1].table.values():
            found.cloexec = False
        return reply
    return answered("fork", make)


@defect("fork", "a child has one descriptor less")
def _() -> Patches:
    def make(kernel: Kernel, process: Process, words: list[str], reply: str) -> str:
        child = kernel.processes[-1]
        if child.table:
            kernel.take(child, max(child.table))
        return reply
    return answered("fork", make)


@defect("exit", "an exit leaves the lowest descriptor")
def _() -> Patches:
    def make(real: Callable) -> Callable:
        def call(kernel: Kernel, process: Process, words: list[str]) -> str:
            if process.table:
                kernel.hold(process.table[min(process.table)].description)
            return real(kernel, process, words)
        return call
    return [mock.patch.dict(trace.CALLS, {"exit": make(trace.CALLS["exit"])})]


@defect("socket", "the table takes one descriptor more than its limit")
def _() -> Patches:
    def make(real: Callable) -> Callable:
        def free(self: Process, count: int, minimum: int = 0) -> list[int]:
            self.limit += 1
            try:
                return real(self, count, minimum)
            finally:
                self.limit -= 1
        return free
    return [instead(Process, "free_numbers", make)]


@defect("dupfd", "a copy from a minimum on takes the lowest number of all")
def _() -> Patches:
    def call(kernel: Kernel, process: Process, words: list[str]) -> str:
        return trace.CALLS["dup"](kernel, process, words[:2])
    return [mock.patch.dict(trace.CALLS, {"dupfd": call})]


@defect("getfl", "close-on-exec isn't told")
def _() -> Patches:
    def make(real: Callable) -> Callable:
        def call(kernel: Kernel, process: Process, words: list[str]) -> str:
            return real(kernel, process, words).replace("|CLOEXEC", "").replace("CLOEXEC", "-")
        return call
    return [mock.patch.dict(trace.CALLS, {"getfl": make(trace.CALLS["getfl"])})]
