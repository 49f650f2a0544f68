"""More planted defects: of pipe, eventfd, memfd and create, and of the file objects that they make."""
from __future__ import annotations

from typing import Callable
from unittest import mock

from reference import making, trace
from reference.kernel import Kernel
from reference.state import FileObject, Process

from .defects import Patches, defect, instead

Change = Callable[[Kernel, Process, list[str], FileObject], None]


def when_made(word: str, change: Change) -> Patches:
    """Patches that do something more to what a call has made."""
    real = trace.CALLS[word]

    def call(kernel: Kernel, process: Process, words: list[str]) -> str:
        reply = real(kernel, process, words)
        change(kernel, process, words, kernel.objects[-1])
        return reply
    return [mock.patch.dict(trace.CALLS, {word: call})]


def ends_of(process: Process, made: FileObject) -> list[int]:
    """The descriptors of what was made."""
    return [number for number, found in process.table.items() if found.description.target is made]


@defect("pipe", "both ends go both ways")
def _() -> Patches:
    def change(kernel: Kernel, process: Process, words: list[str], made: FileObject) -> None:
        for number in ends_of(process, made):
            process.table[number].description.mode = "rw"
        made.readers = made.writers = 2
    return when_made("pipe", change)


@defect("pipe", "the writing end comes first")
def _() -> Patches:
    def change(kernel: Kernel, process: Process, words: list[str], made: FileObject) -> None:
        first, second = ends_of(process, made)
        process.table[first], process.table[second] = process.table[second], process.table[first]
    return when_made("pipe", change)


@defect("pipe", "one end alone has close-on-exec")
def _() -> Patches:
    def change(kernel: Kernel, process: Process, words: list[str], made: FileObject) -> None:
        process.table[ends_of(process, made)[1]].cloexec = False
    return when_made("pipe", change)


@defect("pipe", "a pipe is made with one number free")
def _() -> Patches:
    real = trace.CALLS["pipe"]

    def call(kernel: Kernel, process: Process, words: list[str]) -> str:
        numbers = process.free_numbers(2)
        return f"fd {numbers[0]}" if len(numbers) == 1 else real(kernel, process, words)
    return [mock.patch.dict(trace.CALLS, {"pipe": call})]


@defect("eventfd", "a counter begins with 0")
def _() -> Patches:
    def change(kernel: Kernel, process: Process, words: list[str], made: FileObject) -> None:
        made.value = 0
    return when_made("eventfd", change)


@defect("eventfd", "a semaphore is read whole")
def _() -> Patches:
    def change(kernel: Kernel, process: Process, words: list[str], made: FileObject) -> None:
        made.is_semaphore = False
    return when_made("eventfd", change)


@defect("memfd", "a file in memory has no close-on-exec")
def _() -> Patches:
    def change(kernel: Kernel, process: Process, words: list[str], made: FileObject) -> None:
        process.table[ends_of(process, made)[0]].cloexec = False
    return when_made("memfd", change)


@defect("create", "a path that is there is opened")
def _() -> Patches:
    real = trace.CALLS["create"]

    def call(kernel: Kernel, process: Process, words: list[str]) -> str:
        there = isinstance(kernel.paths.get(making.path_in(kernel, words[1])), FileObject)
        return (trace.CALLS["open"] if there else real)(kernel, process, words)
    return [mock.patch.dict(trace.CALLS, {"create": call})]


@defect("create", "no path leads to a file that was created")
def _() -> Patches:
    def change(kernel: Kernel, process: Process, words: list[str], made: FileObject) -> None:
        made.has_path = False
        kernel.paths = {path: target for path, target in kernel.paths.items() if target is not made}
    return when_made("create", change)


@defect("create", "a file that was created is closed with its last descriptor")
def _() -> Patches:
    def change(kernel: Kernel, process: Process, words: list[str], made: FileObject) -> None:
        made.has_path = False
    return when_made("create", change)


@defect("close", "the number of a file object that is gone is given again")
def _() -> Patches:
    def make(real: Callable) -> Callable:
        def new(kernel: Kernel, kind: str) -> FileObject:
            made = real(kernel, kind)
            gone = [other.number for other in kernel.objects[:-1] if other.is_closed]
            made.number = gone[0] if gone else made.number
            return made
        return new
    return [instead(making, "new_object", make)]


@defect("close", "a made file object isn't closed behind a message")
def _() -> Patches:
    def make(real: Callable) -> Callable:
        def drop(self: Kernel, message: object) -> None:
            for right in message.rights:
                if isinstance(right.target, FileObject) and not right.target.has_path:
                    right.target.opened += 1
            real(self, message)
        return drop
    return [instead(Kernel, "drop_message", make)]
