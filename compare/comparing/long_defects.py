"""More planted defects: of long data, gaps, ends in lost messages and ids of children."""
from __future__ import annotations

from typing import Callable
from unittest import mock

from reference import files, sending, trace
from reference.kernel import Kernel
from reference.state import Description, FileObject, Message, Process, Socket

from .defects import Patches, answered, defect, instead

FIRST_PAGE = 1800


@defect("send", "bytes of a record beyond 1,800 are zeros")
def _() -> Patches:
    def make(real: Callable) -> Callable:
        def put(kernel: Kernel, giving: sending.Sending, target: Socket, data: bytes) -> None:
            real(kernel, giving, target, data if target.kind != "seq" else data[:FIRST_PAGE].ljust(len(data), b"\0"))
        return put
    return [instead(sending, "put_message", make)]


@defect("write", "a gap isn't filled with zeros")
def _() -> Patches:
    def make(real: Callable) -> Callable:
        def write(kernel: Kernel, description: Description, target: FileObject, data: bytes) -> int:
            former = len(target.data)
            count = real(kernel, description, target, data)
            gap = description.offset - count - former
            if gap > 0:
                target.data[former:former + gap] = b"\1" * gap
            return count
        return write
    return [instead(files, "write_memory", make)]


@defect("write", "a write of more than 4,096 bytes is taken whole or not at all")
def _() -> Patches:
    return [instead(files, "bytes_that_fit", lambda real: lambda target, count: count if real(target, count) == count else 0)]


@defect("poll", "a pipe's end in a lost message has it open for writing still")
def _() -> Patches:
    def make(real: Callable) -> Callable:
        def drop(self: Kernel, message: Message) -> None:
            for right in message.rights:
                if isinstance(right.target, FileObject) and right.target.kind == "pipe" and right.mode == "w":
                    right.target.writers += 1
            real(self, message)
        return drop
    return [instead(Kernel, "drop_message", make)]


@defect("fork", "a child has the ids that its process began with")
def _() -> Patches:
    first: dict[int, tuple[int, int]] = {}
    real = trace.CALLS["setids"]

    def setids(kernel: Kernel, process: Process, words: list[str]) -> str:
        first.setdefault(id(process), (process.uid, process.gid))
        return real(kernel, process, words)

    def change(kernel: Kernel, process: Process, words: list[str], reply: str) -> str:
        child = kernel.processes[-1]
        child.uid, child.gid = first.get(id(process), (process.uid, process.gid))
        return reply
    return [mock.patch.dict(trace.CALLS, {"setids": setids}), *answered("fork", change)]
