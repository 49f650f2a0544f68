"""More planted defects: of what this layer does itself where a rule has Linux do otherwise. Linux judges it outside of the rule alone."""
from __future__ import annotations

from typing import Callable
from unittest import mock

from reference import agreed, control, files, lengths, making, names, readiness, receiving, rooms, sending, sockets, trace
from reference.control import Item
from reference.kernel import Kernel
from reference.names import name_in
from reference.state import Description, FileObject, Process, Refusal, Socket

from .defects import Patches, answered, defect, instead, refused


def gives_others(process: Process, words: list[str]) -> bool:
    """Whether a send gives credentials that aren't its process's."""
    items = control.items_by_linux(control.buffer_in(words[4]))
    return any(item.credentials not in (None, process.credentials) for item in items)


# ---- the order of a send, and its buffer

@defect("send", "252 rights are the most, in this layer's order alone")
def _() -> Patches:
    def make(real: Callable) -> Callable:
        def judge(kernel: Kernel, giving: sending.Sending, items: list[Item] | None) -> None:
            if items and sum(len(item.rights) for item in items) > 252:
                raise Refusal("EINVAL")
            real(kernel, giving, items)
        return judge
    return [instead(sending, "judge_in_order", make)]


@defect("send", "EPERM comes before EBADF")
def _() -> Patches:
    def make(real: Callable) -> Callable:
        def judge(kernel: Kernel, giving: sending.Sending, items: list[Item] | None) -> None:
            for item in items or []:
                if item.credentials is not None:
                    sending.give_credentials(kernel, giving, item.credentials)
            real(kernel, giving, items)
        return judge
    return [instead(sending, "judge_in_order", make)]


@defect("send", "a buffer that is padded behind its last item is refused")
def _() -> Patches:
    def make(real: Callable) -> Callable:
        def items(buffer: bytes) -> list[Item] | None:
            found = real(buffer)
            is_odd = bool(found) and (found[-1].credentials is not None or len(found[-1].rights) % 2 == 1)
            return None if is_odd and len(buffer) % 8 == 0 else found
        return items
    return [instead(sending, "items_by_grammar", make)]


@defect("send", "an item whose length is beyond the buffer is cut to it")
def _() -> Patches:
    def make(real: Callable) -> Callable:
        def items(buffer: bytes) -> list[Item] | None:
            length = int.from_bytes(buffer[:8], "little")
            return real(len(buffer).to_bytes(8, "little") + buffer[8:]) if length > len(buffer) >= 16 else real(buffer)
        return items
    return [instead(sending, "items_by_grammar", make)]


@defect("send", "a datagram's rights in flight aren't bounded")
def _() -> Patches:
    def make(real: Callable) -> Callable:
        return lambda kernel, giving: None if giving.socket.is_datagram else real(kernel, giving)
    return [instead(sending, "check_rights_in_flight", make)]


# ---- what waits

@defect("inq", "a datagram socket tells all that waits")
def _() -> Patches:
    def make(real: Callable) -> Callable:
        return lambda socket: agreed.waiting(socket) if socket.is_datagram else real(socket)
    return [instead(lengths, "unread", make)]


@defect("inq", "a listening socket tells that nothing waits")
def _() -> Patches:
    def make(real: Callable) -> Callable:
        return lambda socket: 0 if socket.listens else real(socket)
    return [instead(lengths, "unread", make)]


@defect("inq", "a file tells all its bytes")
def _() -> Patches:
    def make(real: Callable) -> Callable:
        return lambda kernel, description, target: len(target.data) if target.kind == "mem" else real(kernel, description, target)
    return [instead(lengths, "bytes_ahead", make)]


@defect("outq", "a socket without a peer is refused")
def _() -> Patches:
    def change(kernel: Kernel, process: Process, words: list[str], reply: str) -> str:
        socket = kernel.socket(process, int(words[1]))
        return reply if socket.is_datagram or socket.peer else "err ENOTCONN"
    return answered("outq", change)


# ---- flags of a description

@defect("getfl", "O_NONBLOCK is never told")
def _() -> Patches:
    def change(kernel: Kernel, process: Process, words: list[str], reply: str) -> str:
        return "flags " + ("|".join(name for name in reply[6:].split("|") if name != "NONBLOCK") or "-")
    return answered("getfl", change)


@defect("flags", "O_NONBLOCK is kept by descriptor")
def _() -> Patches:
    own: dict[int, bool] = {}
    real_flags, real_getfl = trace.CALLS["flags"], trace.CALLS["getfl"]

    def flags(kernel: Kernel, process: Process, words: list[str]) -> str:
        found = kernel.descriptor(process, int(words[1]))
        was = found.description.nonblocking
        reply = real_flags(kernel, process, words)
        own[id(found)], found.description.nonblocking = found.description.nonblocking, was
        return reply

    def getfl(kernel: Kernel, process: Process, words: list[str]) -> str:
        found = kernel.descriptor(process, int(words[1]))
        was, found.description.nonblocking = found.description.nonblocking, own.get(id(found), found.description.nonblocking)
        try:
            return real_getfl(kernel, process, words)
        finally:
            found.description.nonblocking = was
    return [mock.patch.dict(trace.CALLS, {"flags": flags, "getfl": getfl})]


@defect("socket", "O_NONBLOCK of a new socket is lost")
def _() -> Patches:
    real = trace.CALLS["socket"]
    return [mock.patch.dict(trace.CALLS, {"socket": lambda k, p, w: real(k, p, [*w[:2], w[2].replace("n", "") or "-"])})]


# ---- room

@defect("send", "a stream's queue takes 65,535 bytes")
def _() -> Patches:
    def make(real: Callable) -> Callable:
        def taken(target: Socket, count: int) -> int | None:
            found = real(target, count)
            full = target.kind == "stream" and found and sum(len(message.data) for message in target.queue) + found == target.queue_limit
            return found if not full else found - 1 or None
        return taken
    return [instead(rooms, "taken_here", make)]


@defect("poll", "a stream has OUT with a quarter of its queue free alone")
def _() -> Patches:
    def make(real: Callable) -> Callable:
        def room(target: Socket) -> bool:
            waiting = sum(len(message.data) for message in target.queue)
            return real(target) if target.kind != "stream" else 4 * waiting <= 3 * target.queue_limit
        return room
    return [instead(readiness, "has_room", make)]


@defect("send", "15 messages wait in a queue")
def _() -> Patches:
    return [mock.patch.object(rooms, "RECORD_LIMIT", 15)]


@defect("send", "a datagram or record has 65,535 bytes at most")
def _() -> Patches:
    return [mock.patch.object(rooms, "RECORD_BYTES", 65535)]


@defect("connect", "four connections wait at most")
def _() -> Patches:
    return [mock.patch.object(sockets, "BACKLOG_LIMIT", 4)]


@defect("write", "a pipe takes 61,440 bytes")
def _() -> Patches:
    return [mock.patch.object(files, "PIPE_LIMIT", 61440)]


@defect("poll", "a pipe has OUT with 8,192 bytes free alone")
def _() -> Patches:
    return [mock.patch.object(readiness, "PIPE_WHOLE", 8192)]


# ---- file objects and paths

@defect("read", "an object fails one call late")
def _() -> Patches:
    def make(real: Callable) -> Callable:
        def fails(kernel: Kernel, target: FileObject) -> bool:
            is_later = target.fails_at > 0
            target.fails_at += is_later
            try:
                return real(kernel, target)
            finally:
                target.fails_at -= is_later
        return fails
    return [instead(files, "fails_now", make)]


@defect("read", "a read that finds a pipe empty counts as one that fails")
def _() -> Patches:
    def make(real: Callable) -> Callable:
        def read(kernel: Kernel, description: Description, target: FileObject, wanted: int) -> bytes:
            target.reached += target.kind == "pipe" and not target.data and "r" in description.mode
            return real(kernel, description, target, wanted)
        return read
    return [instead(files, "read_object", make)]


@defect("open", "EMFILE of a counter of one direction is EINVAL")
def _() -> Patches:
    def is_one_way(kernel: Kernel, process: Process, words: list[str]) -> bool:
        found = kernel.paths.get(name_in(words[1][2:]))
        return isinstance(found, FileObject) and found.kind == "counter" and words[2] != "rw"
    return refused("open", "EMFILE", "EINVAL", is_one_way)


@defect("open", "a path of 256 bytes leads somewhere")
def _() -> Patches:
    def make(real: Callable) -> Callable:
        def path(kernel: Kernel, word: str) -> bytes:
            found = name_in(word[2:])
            return found if len(found) == 256 else real(kernel, word)
        return path
    return [instead(place, "path_in", make) for place in (files, making)]


@defect("bind", "a name of 107 bytes is too long")
def _() -> Patches:
    return [mock.patch.object(names, "NAME_LIMIT", 106)]


@defect("connect", "ENOTSOCK comes behind what a long name is")
def _() -> Patches:
    return refused("connect", "ENOTSOCK", "EINVAL", lambda kernel, process, words: 100 < len(words[2]) < 120)


@defect("open", "EMFILE comes behind nothing")
def _() -> Patches:
    real = trace.CALLS["open"]

    def call(kernel: Kernel, process: Process, words: list[str]) -> str:
        limit, process.limit = process.limit, process.limit + 1
        try:
            return real(kernel, process, words)
        finally:
            process.limit = limit
    return [mock.patch.dict(trace.CALLS, {"open": call})]


# ---- who may give which credentials

@defect("send", "credentials of a process that has exited are taken")
def _() -> Patches:
    def make(real: Callable) -> Callable:
        def give(kernel: Kernel, giving: sending.Sending, given: tuple[int, int, int]) -> None:
            try:
                real(kernel, giving, given)
            except Refusal as refusal:
                if refusal.reply != "err ESRCH":
                    raise
                giving.credentials = given
        return give
    return [instead(sending, "give_credentials", make)]


@defect("send", "a privileged process's message tells its own credentials")
def _() -> Patches:
    def make(real: Callable) -> Callable:
        def give(kernel: Kernel, giving: sending.Sending, given: tuple[int, int, int]) -> None:
            real(kernel, giving, given)
            giving.credentials = giving.process.credentials
        return give
    return [instead(sending, "give_credentials", make)]


@defect("send", "a privileged process gives its own user alone")
def _() -> Patches:
    def make(real: Callable) -> Callable:
        def give(kernel: Kernel, giving: sending.Sending, given: tuple[int, int, int]) -> None:
            real(kernel, giving, given)
            if given[1] != giving.process.uid:
                raise Refusal("EPERM")
        return give
    return [instead(sending, "give_credentials", make)]


@defect("send", "EBADF of a send with another's credentials is EPERM")
def _() -> Patches:
    return refused("send", "EBADF", "EPERM", lambda kernel, process, words: process.privileged and gives_others(process, words))


@defect("send", "ENOTSOCK of a send with another's credentials is EPERM")
def _() -> Patches:
    return refused("send", "ENOTSOCK", "EPERM", lambda kernel, process, words: process.privileged and gives_others(process, words))


@defect("send", "EPIPE of a send with another's credentials is EPERM")
def _() -> Patches:
    return refused("send", "EPIPE", "EPERM", lambda kernel, process, words: process.privileged and gives_others(process, words))


# ---- options, and datagram sockets that are shut

@defect("getopt", "EBADF of this layer's own option is EINVAL")
def _() -> Patches:
    return refused("getopt", "EBADF", "EINVAL", lambda kernel, process, words: words[2] == "qlimit")


@defect("getopt", "ENOTSOCK of this layer's own option is EOPNOTSUPP")
def _() -> Patches:
    return refused("getopt", "ENOTSOCK", "EOPNOTSUPP", lambda kernel, process, words: words[2] == "qlimit")


@defect("setopt", "EBADF of this layer's own option is EINVAL")
def _() -> Patches:
    return refused("setopt", "EBADF", "EINVAL", lambda kernel, process, words: words[2] == "qlimit")


@defect("setopt", "ENOTSOCK of this layer's own option is EOPNOTSUPP")
def _() -> Patches:
    return refused("setopt", "ENOTSOCK", "EOPNOTSUPP", lambda kernel, process, words: words[2] == "qlimit")


@defect("recv", "a datagram socket that is shut for reading is EAGAIN")
def _() -> Patches:
    def make(real: Callable) -> Callable:
        def receive(kernel: Kernel, process: Process, socket: Socket, asked: receiving.Asked) -> str:
            if not socket.queue and not socket.is_reset:
                raise Refusal("EAGAIN")
            return real(kernel, process, socket, asked)
        return receive
    return [instead(receiving, "receive_datagram", make)]


@defect("recv", "a datagram tells the name of its receiver")
def _() -> Patches:
    def make(real: Callable) -> Callable:
        def put(kernel: Kernel, giving: sending.Sending, target: Socket, data: bytes) -> None:
            real(kernel, giving, target, data)
            target.queue[-1].name = target.name
        return put
    return [instead(sending, "put_message", make)]
