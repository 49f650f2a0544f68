"""open, read, write, lseek and unlink of file objects, dup, dup2, dupfd, getfl, flags and close (pipe(7), eventfd(2))."""
from __future__ import annotations

from . import agreed
from .kernel import Kernel
from .names import is_valid_path, name_in
from .rules import Rule
from .state import Description, FileObject, Process, Refusal, Socket

FILE_LIMIT = 1 << 20
READ_LIMIT = 1 << 20
PIPE_LIMIT = 65536
PIPE_WHOLE = 4096
COUNTER_LIMIT = (1 << 64) - 2
OFFSET_LIMIT = (1 << 63) - 1
FILE_NAME_LIMIT = 255


class LinuxPath(bytes):
    """A path that this layer refuses, and Linux looks up."""


def path_in(kernel: Kernel, word: str) -> bytes:
    """The path of an open, a create or an unlink, or why it is none."""
    path = name_in(word[2:])
    if kernel.follows(Rule.PATH_OF_NO_FILE) and not path:
        raise Refusal("ENOENT")
    if is_valid_path(path):
        return path
    if path and 0 not in path and kernel.follows(Rule.LONG_PATH):
        return LinuxPath(path)
    raise Refusal("EINVAL")


def check_name(path: bytes) -> None:
    """No file on Linux has a longer name."""
    if isinstance(path, LinuxPath) and len(path) > FILE_NAME_LIMIT:
        raise Refusal("ENAMETOOLONG")


def opened_at(kernel: Kernel, path: bytes) -> FileObject:
    """The file object of a path, or why it can't be opened."""
    check_name(path)
    if path not in kernel.paths:
        raise Refusal("ENOENT")
    target = kernel.paths[path]
    if isinstance(target, Socket):
        raise Refusal("ENXIO" if kernel.follows(Rule.OPEN_OF_A_SOCKET) else "EOPNOTSUPP")
    return target


def open_target(kernel: Kernel, process: Process, number: int, target: FileObject, mode: str, flags: str) -> None:
    """Has the number lead to a new description of the file object; on Linux one of a counter goes both ways."""
    if target.kind == "counter" and mode != "rw" and kernel.follows(Rule.COUNTER_OF_ONE_DIRECTION):
        mode = "rw"
    description = Description(target, mode, "a" in flags, "n" in flags)
    target.append, target.nonblocking = description.append, description.nonblocking
    target.opens += 1
    target.opened += 1
    if mode == "r" and target.writers == 0:
        description.writers_seen = target.writers_ever
    target.readers += "r" in mode
    target.writers += "w" in mode
    target.writers_ever += "w" in mode
    kernel.put(process, number, description, "x" in flags)


def call_open(kernel: Kernel, process: Process, words: list[str]) -> str:
    """open(2)."""
    path = path_in(kernel, words[1])
    with kernel.seen_later(Rule.ORDER_OF_OPEN, lambda: kernel.free_number(process)):
        target = opened_at(kernel, path)
    number = kernel.free_number(process)
    open_target(kernel, process, number, target, words[2], words[3])
    return f"fd {number}"


def fails_now(kernel: Kernel, target: FileObject) -> bool:
    """Counts a read or write that reaches the object, and says whether it is the one that fails, which on Linux is marked."""
    target.reached += 1
    if target.reached != target.fails_at:
        return False
    kernel.marks = kernel.follows(Rule.FAILING_OBJECT)
    return not kernel.marks


def read_object(kernel: Kernel, description: Description, target: FileObject, wanted: int) -> bytes:
    """What a read of a file object gives."""
    if "r" not in description.mode:
        raise Refusal("EBADF")
    if target.kind == "counter" and wanted < 8:
        raise Refusal("EINVAL")
    if target.kind != "counter" and wanted == 0:
        return b""
    if target.kind == "mem":
        check_place(kernel, description, wanted)
    if target.kind == "counter" and target.value == 0:
        raise Refusal("EAGAIN")
    if target.kind == "pipe" and not target.data:
        if target.writers:
            raise Refusal("EAGAIN")
        return b""
    if fails_now(kernel, target):
        raise Refusal("EIO")
    return taken_from(description, target, wanted)


def taken_from(description: Description, target: FileObject, wanted: int) -> bytes:
    """Takes what a read gives: at the offset, or what waits."""
    if target.kind == "mem":
        data = bytes(target.data[description.offset:description.offset + wanted])
        description.offset += len(data)
        return data
    if target.kind == "counter":
        taken = 1 if target.is_semaphore else target.value
        target.value -= taken
        return taken.to_bytes(8, "little")
    data = bytes(target.data[:wanted])
    del target.data[:wanted]
    left = len(data)
    while left and target.pages:
        taken = min(left, target.pages[0][1])
        target.pages[0][0] += taken
        target.pages[0][1] -= taken
        left -= taken
        if target.pages[0][1] == 0:
            target.pages.pop(0)
    return data


def check_place(kernel: Kernel, description: Description, count: int) -> None:
    """On Linux no read or write goes beyond the greatest offset (rw_verify_area)."""
    if description.offset + count > OFFSET_LIMIT and kernel.follows(Rule.FAR_OFFSET):
        raise Refusal("EINVAL")


def write_memory(kernel: Kernel, description: Description, target: FileObject, data: bytes) -> int:
    """Writes at the offset, or at the end; a gap is filled with zeros."""
    at = len(target.data) if description.append else description.offset
    check_place(kernel, description, len(data))
    if at >= FILE_LIMIT:
        raise Refusal("EFBIG")
    count = min(len(data), FILE_LIMIT - at)
    target.data.extend(bytes(max(0, at - len(target.data))))
    target.data[at:at + count] = data[:count]
    description.offset = at + count
    return count


def write_counter(kernel: Kernel, target: FileObject, data: bytes) -> int:
    """Adds the first eight bytes."""
    added = int.from_bytes(data[:8], "little")
    if len(data) < 8 or added > COUNTER_LIMIT or (len(data) > 8 and kernel.follows(Rule.LONG_WRITE_OF_A_COUNTER)):
        raise Refusal("EINVAL")
    if target.value + added > COUNTER_LIMIT:
        raise Refusal("EAGAIN")
    target.value += added
    return 8


def bytes_that_fit(target: FileObject, count: int) -> int:
    """How many bytes of a write the layer's pipe takes."""
    room = PIPE_LIMIT - len(target.data)
    return count if count <= room else room if count > PIPE_WHOLE else 0


def pages_filled(kernel: Kernel, target: FileObject, count: int) -> list[list[int]]:
    """Linux's pages behind a write (pipe_write): what is beyond whole pages goes into the last one, where it fits there and something
    waits, and the rest into new ones."""
    pages, page = [list(found) for found in target.pages], kernel.machine.page
    left, odd = count, count % page
    if odd and pages and sum(pages[-1]) + odd <= page:
        pages[-1][1] += odd
        left -= odd
    while left and len(pages) < kernel.machine.pipe_pages:
        pages.append([0, min(page, left)])
        left -= pages[-1][1]
    return pages


def bytes_in_pages(pages: list[list[int]]) -> int:
    """How many bytes wait in pages."""
    return sum(count for _, count in pages)


def write_pipe(kernel: Kernel, target: FileObject, data: bytes) -> int:
    """Puts bytes behind those that wait."""
    filled = pages_filled(kernel, target, len(data))
    count = kernel.either(Rule.ROOM_OF_A_PIPE, agreed.pipe_takes(target, len(data)), lambda: bytes_that_fit(target, len(data)),
                          lambda: bytes_in_pages(filled) - bytes_in_pages(target.pages))
    target.pages = filled
    if count == 0:
        raise Refusal("EAGAIN")
    target.data.extend(data[:count])
    return count


def write_object(kernel: Kernel, description: Description, target: FileObject, data: bytes) -> int:
    """How many bytes a file object takes."""
    if "w" not in description.mode:
        raise Refusal("EBADF")
    if target.kind != "counter" and not data:
        return 0
    if target.kind == "pipe" and not target.readers:
        raise Refusal("EPIPE")
    if fails_now(kernel, target):
        raise Refusal("EIO")
    if target.kind == "mem":
        return write_memory(kernel, description, target, data)
    return write_counter(kernel, target, data) if target.kind == "counter" else write_pipe(kernel, target, data)


def call_lseek(kernel: Kernel, process: Process, words: list[str]) -> str:
    """lseek(2)."""
    description = kernel.descriptor(process, int(words[1])).description
    target = description.target
    if isinstance(target, FileObject) and target.kind == "counter" and kernel.follows(Rule.OFFSET_OF_A_COUNTER):
        return "at 0"
    if isinstance(target, Socket) or target.kind != "mem":
        raise Refusal("ESPIPE")
    base = {"set": 0, "cur": description.offset, "end": len(target.data)}[words[3]]
    place = base + int(words[2])
    if not 0 <= place <= OFFSET_LIMIT:
        raise Refusal("EINVAL")
    if not target.has_any_offset and place > kernel.machine.greatest_offset and kernel.follows(Rule.FAR_OFFSET):
        raise Refusal("EINVAL")
    description.offset = place
    return f"at {place}"


def call_unlink(kernel: Kernel, process: Process, words: list[str]) -> str:
    """unlink(2)."""
    path = path_in(kernel, words[1])
    check_name(path)
    if path not in kernel.paths:
        raise Refusal("ENOENT")
    target = kernel.paths.pop(path)
    if isinstance(target, FileObject):
        target.has_path = False
        kernel.close_object(target)
    return "ok"


def call_dup(kernel: Kernel, process: Process, words: list[str]) -> str:
    """dup(2)."""
    found = kernel.descriptor(process, int(words[1]))
    number = kernel.free_number(process)
    kernel.put(process, number, found.description, False)
    return f"fd {number}"


def call_dup2(kernel: Kernel, process: Process, words: list[str]) -> str:
    """dup2(2)."""
    source, number = int(words[1]), int(words[2])
    found = kernel.descriptor(process, source)
    if number >= process.limit:
        raise Refusal("EBADF")
    if number != source:
        kernel.put(process, number, found.description, False)
    return f"fd {number}"


def call_dupfd(kernel: Kernel, process: Process, words: list[str]) -> str:
    """fcntl(2), F_DUPFD."""
    found = kernel.descriptor(process, int(words[1]))
    if int(words[2]) >= process.limit:
        raise Refusal("EINVAL")
    number = kernel.free_number(process, int(words[2]))
    kernel.put(process, number, found.description, False)
    return f"fd {number}"


def call_getfl(kernel: Kernel, process: Process, words: list[str]) -> str:
    """fcntl(2), F_GETFL and F_GETFD."""
    found = kernel.descriptor(process, int(words[1]))
    told: Description | FileObject = found.description
    target = found.description.target
    if isinstance(target, FileObject) and target.kind == "counter" and target.opens > 1 and kernel.follows(Rule.FLAGS_OF_THE_REPLAY):
        told = target
    held = {"APPEND": told.append, "NONBLOCK": told.nonblocking, "CLOEXEC": found.cloexec}
    return "flags " + ("|".join(name for name, is_set in held.items() if is_set) or "-")


def call_flags(kernel: Kernel, process: Process, words: list[str]) -> str:
    """fcntl(2), F_SETFL and F_SETFD."""
    found = kernel.descriptor(process, int(words[1]))
    description = found.description
    description.append, description.nonblocking = "a" in words[2], "n" in words[2]
    if isinstance(description.target, FileObject):
        description.target.append, description.target.nonblocking = description.append, description.nonblocking
    found.cloexec = "x" in words[2]
    return "ok"


def call_close(kernel: Kernel, process: Process, words: list[str]) -> str:
    """close(2)."""
    kernel.descriptor(process, int(words[1]))
    kernel.take(process, int(words[1]))
    return "ok"
