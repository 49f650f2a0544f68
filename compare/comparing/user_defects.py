"""More planted defects: of setids, and of what is recorded of a process's ids."""
from __future__ import annotations

from typing import Callable
from unittest import mock

from reference import trace, users
from reference.kernel import Kernel
from reference.state import Process, Refusal, Socket

from .defects import Patches, defect


def when_changed(change: Callable[[Kernel, Process, tuple[int, int, int]], None]) -> Patches:
    """Patches that do something more behind a change of ids, told the process's former credentials."""
    real = trace.CALLS["setids"]

    def call(kernel: Kernel, process: Process, words: list[str]) -> str:
        former = process.credentials
        reply = real(kernel, process, words)
        change(kernel, process, former)
        return reply
    return [mock.patch.dict(trace.CALLS, {"setids": call})]


def sockets_in(kernel: Kernel) -> list[Socket]:
    """All sockets."""
    return [description.target for description in kernel.descriptions if isinstance(description.target, Socket)]


@defect("setids", "privileges are kept where user 0 becomes another")
def _() -> Patches:
    return [mock.patch.object(users, "drops_privileges", lambda process, uid: False)]


@defect("setids", "privileges go with any change of user")
def _() -> Patches:
    return [mock.patch.object(users, "drops_privileges", lambda process, uid: uid != process.uid)]


@defect("setids", "who isn't privileged may become anybody")
def _() -> Patches:
    return [mock.patch.object(users, "may_become", lambda process, uid, gid: True)]


@defect("setids", "who isn't privileged may take any group")
def _() -> Patches:
    return [mock.patch.object(users, "may_become", lambda process, uid, gid: process.privileged or uid == process.uid)]


@defect("setids", "user 0 may become anybody without privileges")
def _() -> Patches:
    real = users.may_become
    return [mock.patch.object(users, "may_become", lambda process, uid, gid: process.uid == 0 or real(process, uid, gid))]


@defect("setids", "EPERM comes before EINVAL")
def _() -> Patches:
    real = trace.CALLS["setids"]

    def call(kernel: Kernel, process: Process, words: list[str]) -> str:
        if not users.may_become(process, int(words[1]), int(words[2])):
            raise Refusal("EPERM")
        return real(kernel, process, words)
    return [mock.patch.dict(trace.CALLS, {"setids": call})]


@defect("setids", "the group stays")
def _() -> Patches:
    def change(kernel: Kernel, process: Process, former: tuple[int, int, int]) -> None:
        process.gid = former[2]
    return when_changed(change)


@defect("setids", "a refused one has changed the group")
def _() -> Patches:
    real = trace.CALLS["setids"]

    def call(kernel: Kernel, process: Process, words: list[str]) -> str:
        try:
            return real(kernel, process, words)
        except Refusal:
            if int(words[2]) != users.NO_ID:
                process.gid = int(words[2])
            raise
    return [mock.patch.dict(trace.CALLS, {"setids": call})]


@defect("setids", "peers are told the new ids by sockets from before")
def _() -> Patches:
    def change(kernel: Kernel, process: Process, former: tuple[int, int, int]) -> None:
        for socket in sockets_in(kernel):
            if socket.peer_credentials == former:
                socket.peer_credentials = process.credentials
            if socket.own_credentials == former:
                socket.own_credentials = process.credentials
    return when_changed(change)


@defect("setids", "messages that wait tell the new ids")
def _() -> Patches:
    def change(kernel: Kernel, process: Process, former: tuple[int, int, int]) -> None:
        for message in (message for socket in sockets_in(kernel) for message in socket.queue):
            if message.credentials == former:
                message.credentials = process.credentials
    return when_changed(change)


@defect("setids", "rights in flight go over to the new user")
def _() -> Patches:
    def change(kernel: Kernel, process: Process, former: tuple[int, int, int]) -> None:
        for message in (message for socket in sockets_in(kernel) for message in socket.queue):
            if message.credentials[0] == process.number and message.uid == former[1]:
                message.uid = process.uid
    return when_changed(change)


@defect("exec", "exec gives user 0 its privileges again")
def _() -> Patches:
    real = trace.CALLS["exec"]

    def call(kernel: Kernel, process: Process, words: list[str]) -> str:
        process.privileged |= process.uid == 0
        return real(kernel, process, words)
    return [mock.patch.dict(trace.CALLS, {"exec": call})]


@defect("fork", "a child isn't privileged")
def _() -> Patches:
    real = trace.CALLS["fork"]

    def call(kernel: Kernel, process: Process, words: list[str]) -> str:
        reply = real(kernel, process, words)
        kernel.processes[-1].privileged = False
        return reply
    return [mock.patch.dict(trace.CALLS, {"fork": call})]
