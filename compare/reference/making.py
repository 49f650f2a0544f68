"""pipe, eventfd, memfd and create: the calls by which a process makes a file object (pipe(2), eventfd(2), memfd_create(2), open(2))."""
from __future__ import annotations

from .files import check_name, open_target, path_in
from .kernel import Kernel
from .rules import Rule
from .state import FileObject, Process, Refusal

OBJECT_LIMIT = 4096


def check_flags(flags: str, taken: str) -> None:
    """EINVAL, before all else, of a flag that the call doesn't take (pipe2(2), eventfd(2), memfd_create(2))."""
    if set(flags) - set(taken) - {"-"}:
        raise Refusal("EINVAL")


def new_object(kernel: Kernel, kind: str) -> FileObject:
    """A file object with the next number and without a path, or ENFILE: those that were closed count."""
    if len(kernel.objects) >= OBJECT_LIMIT:
        raise Refusal("ENFILE")
    made = FileObject(len(kernel.objects), kind, bytearray(), 0, has_path=False)
    kernel.objects.append(made)
    return made


def call_create(kernel: Kernel, process: Process, words: list[str]) -> str:
    """open(2) with O_CREAT and O_EXCL."""
    path = path_in(kernel, words[1])
    with kernel.seen_later(Rule.ORDER_OF_OPEN, lambda: kernel.free_number(process)):
        check_name(path)
        if path in kernel.paths:
            raise Refusal("EEXIST")
    number = kernel.free_number(process)
    made = new_object(kernel, "mem")
    made.has_path = True
    kernel.paths[path] = made
    open_target(kernel, process, number, made, words[2], words[3])
    return f"fd {number}"


def call_memfd(kernel: Kernel, process: Process, words: list[str]) -> str:
    """memfd_create(2)."""
    check_flags(words[1], "x")
    number = kernel.free_number(process)
    made = new_object(kernel, "mem")
    made.has_any_offset = True
    open_target(kernel, process, number, made, "rw", words[1])
    return f"fd {number}"


def call_eventfd(kernel: Kernel, process: Process, words: list[str]) -> str:
    """eventfd(2)."""
    check_flags(words[2], "nxs")
    number = kernel.free_number(process)
    made = new_object(kernel, "counter")
    made.value, made.is_semaphore = int(words[1]), "s" in words[2]
    open_target(kernel, process, number, made, "rw", words[2])
    return f"fd {number}"


def call_pipe(kernel: Kernel, process: Process, words: list[str]) -> str:
    """pipe2(2)."""
    check_flags(words[1], "nx")
    numbers = process.free_numbers(2)
    if len(numbers) < 2:
        raise Refusal("EMFILE")
    made = new_object(kernel, "pipe")
    for number, mode in zip(numbers, "rw"):
        open_target(kernel, process, number, made, mode, words[1])
    return f"fds {numbers[0]} {numbers[1]}"
