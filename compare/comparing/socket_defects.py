"""More planted defects: of sockets, messages and poll."""
from __future__ import annotations

from typing import Any, Callable
from unittest import mock

from reference import connecting, readiness, receiving, sending, sockets, trace
from reference.kernel import Kernel
from reference.names import UNNAMED, Address
from reference.state import Process, Refusal, Socket

from .defects import Patches, answered, defect, instead, refused, socket_at


@defect("pair", "the higher number comes first")
def _() -> Patches:
    return answered("pair", lambda kernel, process, words, reply: " ".join([reply.split(" ")[0], *reply.split(" ")[:0:-1]]))


@defect("connect", "ECONNREFUSED for a path that isn't there")
def _() -> Patches:
    return refused("connect", "ENOENT", "ECONNREFUSED")


@defect("connect", "a client gets its own credentials as its peer's")
def _() -> Patches:
    def make(real: Callable) -> Callable:
        def connect(kernel: Kernel, process: Process, client: Socket, listener: Socket) -> None:
            real(kernel, process, client, listener)
            client.peer_credentials = process.credentials
        return connect
    return [instead(connecting, "make_connection", make)]


@defect("connect", "a datagram socket is associated with one that is with another")
def _() -> Patches:
    def make(real: Callable) -> Callable:
        def connect(kernel: Kernel, socket: Socket, address: Address) -> None:
            try:
                real(kernel, socket, address)
            except Refusal as refusal:
                if refusal.reply != "err EPERM":
                    raise
                socket.peer = kernel.look_up(socket.kind, address)
        return connect
    return [instead(connecting, "connect_datagram", make)]


@defect("accept", "accept takes the connection that came last")
def _() -> Patches:
    real = trace.CALLS["accept"]

    def call(kernel: Kernel, process: Process, words: list[str]) -> str:
        listener = socket_at(process, words)
        if listener and len(listener.pending) > 1:
            listener.pending.insert(0, listener.pending.pop())
        return real(kernel, process, words)
    return [mock.patch.dict(trace.CALLS, {"accept": call})]


@defect("shut", "a shutdown for reading shuts for writing too")
def _() -> Patches:
    real = trace.CALLS["shut"]
    return [mock.patch.dict(trace.CALLS, {"shut": lambda k, p, w: real(k, p, [w[0], w[1], "rw" if w[2] == "r" else w[2]])})]


@defect("getopt", "an error that was asked for stays pending")
def _() -> Patches:
    def make(kernel: Kernel, process: Process, words: list[str], reply: str) -> str:
        if words[2] == "error" and reply == "opt 20":
            socket_at(process, words).is_reset = True
        return reply
    return answered("getopt", make)


@defect("setopt", "SO_PASSCRED is on for 1 alone")
def _() -> Patches:
    def make(real: Callable) -> Callable:
        def set_passcred(kernel: Kernel, socket: Socket, value: int) -> None:
            real(kernel, socket, int(value == 1))
        return set_passcred
    return [instead(sockets, "set_passcred", make)]


@defect("sockname", "a server's end has no name")
def _() -> Patches:
    def make(real: Callable) -> Callable:
        def connect(kernel: Kernel, process: Process, client: Socket, listener: Socket) -> None:
            real(kernel, process, client, listener)
            listener.pending[-1].target.name = UNNAMED
        return connect
    return [instead(connecting, "make_connection", make)]


@defect("bind", "a name of autobind is counted from 1")
def _() -> Patches:
    from reference import kernel as kernels
    return [instead(kernels, "autobind_name", lambda real: lambda number: real(number + 1))]


# ---- messages

@defect("send", "252 rights are the most")
def _() -> Patches:
    return [mock.patch.object(sending, "RIGHTS_LIMIT", 252)]


@defect("send", "the limit of rights in flight is one lower")
def _() -> Patches:
    def make(real: Callable) -> Callable:
        def limit(kernel: Kernel, process: Process) -> int | None:
            found = real(kernel, process)
            return None if found is None else found - 1
        return limit
    return [instead(sending, "limit_of", make)]


@defect("send", "credentials that aren't one's own are taken")
def _() -> Patches:
    def make(real: Callable) -> Callable:
        def give(kernel: Kernel, giving: sending.Sending, given: tuple[int, int, int]) -> None:
            try:
                real(kernel, giving, given)
            except Refusal as refusal:
                if refusal.reply != "err EPERM":
                    raise
                giving.credentials = given
        return give
    return [instead(sending, "give_credentials", make)]


@defect("send", "a send to one that is shut for reading is taken")
def _() -> Patches:
    def make(real: Callable) -> Callable:
        def send(kernel: Kernel, giving: sending.Sending) -> int:
            try:
                return real(kernel, giving)
            except Refusal as refusal:
                if refusal.reply != "err EPIPE" or giving.socket.is_datagram:
                    raise
                return len(giving.data)
        return send
    return [instead(sending, "send_tied", make)]


@defect("send", "rights are sent in the other order")
def _() -> Patches:
    def make(real: Callable) -> Callable:
        return lambda giving, numbers: real(giving, numbers)[::-1]
    return [instead(sending, "descriptions_behind", make)]


@defect("send", "a target that is gone keeps the association")
def _() -> Patches:
    return [instead(sending, "end_association", lambda real: lambda kernel, socket: None)]


@defect("recv", "a receive joins messages behind rights")
def _() -> Patches:
    def make(real: Callable) -> Callable:
        def front(kernel: Kernel, socket: Socket, asked: receiving.Asked) -> receiving.Front:
            found = real(kernel, socket, asked)
            if not found.rights or asked.wanted <= len(found.data):
                return found
            whole = b"".join(message.data for message in socket.queue)[:asked.wanted]
            return receiving.Front(found.first, whole, len(whole), found.rights)
        return front
    return [instead(receiving, "stream_front", make)]


@defect("recv", "a receive joins messages with other credentials")
def _() -> Patches:
    def make(real: Callable) -> Callable:
        def front(kernel: Kernel, socket: Socket, asked: receiving.Asked) -> receiving.Front:
            passcred, socket.passcred = socket.passcred, False
            try:
                return real(kernel, socket, asked)
            finally:
                socket.passcred = passcred
        return front
    return [instead(receiving, "stream_front", make)]


@defect("recv", "CTRUNC isn't told")
def _() -> Patches:
    return answered("recv", lambda kernel, process, words, reply: reply.replace("CTRUNC|", "").replace(" CTRUNC", " -"))


@defect("recv", "TRUNC isn't told")
def _() -> Patches:
    return answered("recv", lambda kernel, process, words, reply: reply.replace(" TRUNC|", " ").replace(" TRUNC", " -"))


@defect("recv", "MSG_TRUNC counts what was taken")
def _() -> Patches:
    real = trace.CALLS["recv"]
    return [mock.patch.dict(trace.CALLS, {"recv": lambda k, p, w: real(k, p, [*w[:4], w[4].replace("t", "") or "-"])})]


@defect("recv", "MSG_CMSG_CLOEXEC is ignored")
def _() -> Patches:
    real = trace.CALLS["recv"]
    return [mock.patch.dict(trace.CALLS, {"recv": lambda k, p, w: real(k, p, [*w[:4], w[4].replace("x", "") or "-"])})]


@defect("recv", "a peek takes the message")
def _() -> Patches:
    real = trace.CALLS["recv"]
    return [mock.patch.dict(trace.CALLS, {"recv": lambda k, p, w: real(k, p, [*w[:4], w[4].replace("p", "") or "-"])})]


@defect("recv", "rights need four bytes more of space")
def _() -> Patches:
    def make(real: Callable) -> Callable:
        def deliver(kernel: Kernel, process: Process, socket: Socket, asked: receiving.Asked, front: Any) -> Any:
            less = asked.space - 4 if front.rights and not socket.passcred and asked.space >= 4 else asked.space
            return real(kernel, process, socket, receiving.Asked(asked.wanted, less, asked.flags), front)
        return deliver
    return [instead(receiving, "deliver", make)]


@defect("recv", "credentials need one byte more of space")
def _() -> Patches:
    return [mock.patch.object(receiving, "CREDENTIALS_LENGTH", receiving.CREDENTIALS_LENGTH + 1)]


@defect("recv", "rights that have no room stay open")
def _() -> Patches:
    def make(real: Callable) -> Callable:
        def receive(kernel: Kernel, process: Process, socket: Socket, asked: receiving.Asked) -> str:
            lost = receiving.front_of(kernel, socket, asked).rights
            reply = real(kernel, process, socket, asked)
            if "CTRUNC" in reply and "r:" not in reply:
                for right in lost:
                    kernel.hold(right)
            return reply
        return receive
    return [instead(receiving, "receive_front", make)]


@defect("recv", "the end of input is EAGAIN where the peer is shut for writing")
def _() -> Patches:
    def make(kernel: Kernel, process: Process, words: list[str], reply: str) -> str:
        socket = socket_at(process, words)
        return "err EAGAIN" if reply.startswith("got 0 - ") and socket.peer and not socket.peer.is_gone and not socket.queue \
            and int(words[2]) > 0 and not socket.is_datagram else reply
    return answered("recv", make)


@defect("recv", "the credentials are the receiver's")
def _() -> Patches:
    def make(real: Callable) -> Callable:
        def deliver(kernel: Kernel, process: Process, socket: Socket, asked: receiving.Asked, front: Any) -> Any:
            made = real(kernel, process, socket, asked, front)
            own = "c:{},{},{}".format(*process.credentials)
            made.parts = [own if part.startswith("c:") else part for part in made.parts]
            return made
        return deliver
    return [instead(receiving, "deliver", make)]


# ---- poll

def without(condition: str, test: Callable[[Socket], bool]) -> Patches:
    """Patches that leave a condition out of poll's answer."""
    def make(kernel: Kernel, process: Process, words: list[str], reply: str) -> str:
        socket = socket_at(process, words)
        if socket is None or not test(socket):
            return reply
        return "poll " + ("|".join(name for name in reply[5:].split("|") if name != condition) or "-")
    return answered("poll", make)


@defect("poll", "IN isn't told of a listener")
def _() -> Patches:
    return without("IN", lambda socket: socket.listens)


@defect("poll", "HUP isn't told of one whose peer is gone")
def _() -> Patches:
    return without("HUP", lambda socket: bool(socket.peer and socket.peer.is_gone))


@defect("poll", "RDHUP isn't told")
def _() -> Patches:
    return without("RDHUP", lambda socket: True)


@defect("poll", "ERR isn't told")
def _() -> Patches:
    return without("ERR", lambda socket: True)


@defect("poll", "a pipe without readers has no ERR")
def _() -> Patches:
    return [instead(readiness, "pipe_conditions", lambda real: lambda *given: real(*given) - {"ERR"})]


# ---- poll of several descriptors

def told_instead(tell: Callable[[set[str], set[str]], set[str]]) -> Patches:
    """Patches by which a poll of several tells this of a descriptor, by what is asked of it and what is so."""
    return [instead(readiness, "reported", lambda real: tell)]


@defect("polls", "HUP and ERR, which nobody asks for, aren't told")
def _() -> Patches:
    return told_instead(lambda asked, found: found & (asked | {"NVAL"}))


@defect("polls", "a number that isn't open has no NVAL")
def _() -> Patches:
    return told_instead(lambda asked, found: found & (asked | {"HUP", "ERR"}))


@defect("polls", "what isn't asked for is told")
def _() -> Patches:
    return told_instead(lambda asked, found: found)


@defect("polls", "RDHUP is told where IN is asked for")
def _() -> Patches:
    return told_instead(lambda asked, found: found & (asked | readiness.ALWAYS | ({"RDHUP"} if "IN" in asked else set())))


@defect("polls", "one that waits answers though there is nothing to tell")
def _() -> Patches:
    real = trace.CALLS["polls"]
    return [mock.patch.dict(trace.CALLS, {"polls": lambda kernel, process, words: real(kernel, process, [*words[:2], "now"])})]


@defect("polls", "64 descriptors are too many")
def _() -> Patches:
    return [mock.patch.object(readiness, "POLL_LIMIT", 63)]


@defect("polls", "what is told stands in the order of the numbers")
def _() -> Patches:
    return [instead(readiness, "asked_in", lambda real: lambda word: sorted(real(word), key=lambda one: one[0]))]
