"""Says opens of files, pipes, counters and memory files, and calls on paths."""
from __future__ import annotations

import struct
from typing import TYPE_CHECKING, Any

from reading.words import Text, after, flags_of, number_of, shown
from . import doubts
from .descriptors import note_of
from .limits import first_seals
from .contents import hexadecimal, sayable
from .model import Description, Kind, Role
from .notes import inode_of
from .sockets import make_two, two_numbers
from .world import HIGHEST, says

if TYPE_CHECKING:
    from reading.calls import Result
    from reading.words import Arguments
    from .model import Block, Process
    from .world import World

ACCESS = {"O_RDONLY": "r", "O_WRONLY": "w", "O_RDWR": "rw"}
WHENCES = {"SEEK_SET": "set", "SEEK_CUR": "cur", "SEEK_END": "end"}


def path_of(value: Any):
    value = after(value)
    return value.data if isinstance(value, Text) else b""


def place_of(process: Process, value: Any, folder: str | None = None):
    """The path of an argument, below the root that the process has."""
    return process.place(path_of(value), folder)


def folder_of(process: Process, value: Any):
    """The folder that a path of a call with a folder's descriptor is looked up in."""
    note = note_of(value)
    return note if note.startswith("/") else process.folder


@says("open", "openat", "openat2", "creat")
def say_open(world: World, block: Block, process: Process, args: Arguments, result: Result) -> None:
    at = block.call.name in ("openat", "openat2")
    folder = folder_of(process, args[0]) if at else process.folder
    path = place_of(process, args[1] if at else args[0], folder)
    how = args[2] if at else args[1] if block.call.name == "open" else "O_WRONLY"
    flags = flags_of(how.get("flags")) if isinstance(how, dict) else flags_of(how)
    if result.error:
        say_refused_open(world, block, process, world.names.known(folder, path), flags, result.error)
        return
    if result.value is None:
        block.leave_out("open without an answer")
        return
    name = shown(path) or result.note or "a file that the log doesn't name"
    description = Description(Kind.OPAQUE, f"opened {name}", "O_NONBLOCK" in flags, "O_APPEND" in flags)
    description.inode = result.note or name
    description.mode = "" if "O_PATH" in flags else access_of(flags)
    is_said = process.seat is not None and result.value <= HIGHEST
    words = opening(world, block, process, (folder, path), flags) if is_said else None
    if words:
        words += " " + world.letters(description, "O_CLOEXEC" in flags)
    else:
        block.otherwise("a file as an opaque object")
    world.make(block, process, result.value, description, "O_CLOEXEC" in flags, words)


def say_refused_open(world: World, block: Block, process: Process, word: str | None, flags: set[str], error: str) -> None:
    """An open that failed is said where the layer knows why: a socket's path, or one that is there already."""
    if word and error == "ENXIO" and (word in world.names.created or world.names.bound[word] is not None):
        world.step(block, process.seat, f"open {word} r -", f"err {error}")
    elif word and error == "EEXIST":
        world.step(block, process.seat, f"create {word} {access_of(flags)} -", f"err {error}")
    else:
        block.leave_out("open that failed")


def access_of(flags: set[str]):
    """The mode of an open as a script writes it; O_RDONLY is 0, and needn't be told."""
    return next((ACCESS[flag] for flag in flags if flag in ACCESS), "r")


def opening(world: World, block: Block, process: Process, place: tuple[str, bytes], flags: set[str]):
    """The call of an open that creates a file, or of a file that was created so, up to its flags; None of another."""
    word = world.names.known(*place)
    if world.objects.may_make and {"O_CREAT", "O_EXCL"} <= flags and place[1]:
        if word:
            forget_path(world, block, process, place)
        world.objects.made += 1
        return f"create {world.names.create(*place)} {access_of(flags)}"
    return f"open {word} {access_of(flags)}" if word in world.names.created and "O_PATH" not in flags else None


def forget_path(world: World, block: Block, process: Process, place: tuple[str, bytes]) -> None:
    """A path at which the log creates a file anew was taken away by what it doesn't show."""
    word = world.names.unlink(*place)
    if word:
        world.step(block, process.seat, f"unlink {word}", None, role=Role.MOVE)
    world.doubts.add(doubts.PATH_GONE, block)


@says("pipe", "pipe2")
def say_pipe(world: World, block: Block, process: Process, args: Arguments, result: Result) -> None:
    if result.error:
        block.leave_out("pipe that failed")
        return
    ends = two_numbers(process, args[0])
    flags = flags_of(args[1]) if len(args) > 1 else set()
    on_exec = "O_CLOEXEC" in flags
    numbers = [number_of(end) for end in ends]
    if world.objects.may_make and "O_DIRECT" not in flags:
        thing = world.objects.make(Kind.PIPE)
        made = [Description(Kind.PIPE, f"the {word} end of a pipe", "O_NONBLOCK" in flags, inode=inode_of(note_of(end)), thing=thing)
                for end, word in zip(ends, ("reading", "writing"))]
        made[0].mode, made[1].mode = "r", "w"
        make_two(world, block, process, "pipe", made, numbers, on_exec)
        return
    thing = None if "O_DIRECT" in flags else pipe_thing(world, block, process)
    block.otherwise("two opens of an object")
    made = []
    for end, word in zip(ends, ("reading", "writing")):
        description = Description(Kind.PIPE if thing else Kind.OPAQUE, f"the {word} end of a pipe", "O_NONBLOCK" in flags,
                                  inode=inode_of(note_of(end)), thing=thing)
        made.append(description)
    if thing is None:
        block.otherwise("a pipe as an opaque object: more than 4,096 objects, or O_DIRECT")
    else:
        thing.ends = 2
    for number, description, mode in zip(numbers, made, ("r", "w")):
        words = f"open {thing.name} {mode} {world.letters(description, on_exec)}" if thing else None
        world.make(block, process, number, description, on_exec, words)


def pipe_thing(world: World, block: Block, process: Process):
    """A file object for a pipe: a new one, or one that nobody has open any more, which is emptied."""
    for thing in world.objects.things:
        if thing.kind is Kind.PIPE and thing.ends == 0 and not thing.sent:
            number = process.lowest()
            for words in (f"open {thing.name} r n", f"read {number} 1048576", f"close {number}"):
                world.step(block, process.seat, words)
            thing.unknown, thing.level = "", 0
            return thing
    return world.objects.of_header(Kind.PIPE)


@says("eventfd", "eventfd2")
def say_eventfd(world: World, block: Block, process: Process, args: Arguments, result: Result) -> None:
    if result.error or result.value is None:
        block.leave_out("eventfd that failed or has no answer")
        return
    flags = flags_of(args[1]) if len(args) > 1 else set()
    start = number_of(args[0], 0)
    on_exec = "EFD_CLOEXEC" in flags
    makes, is_semaphore = world.objects.may_make, "EFD_SEMAPHORE" in flags
    thing = world.objects.make(Kind.COUNTER) if makes else None if is_semaphore else world.objects.of_header(Kind.COUNTER)
    description = Description(Kind.COUNTER if thing else Kind.OPAQUE, "a counter", "EFD_NONBLOCK" in flags,
                              inode=result.note or "anon_inode:[eventfd]", thing=thing)
    letters = world.letters(description, on_exec)
    if makes:
        letters = f"{letters.strip('-')}s" if is_semaphore else letters
        world.make(block, process, result.value, description, on_exec, f"eventfd {start} {letters}")
        return
    world.make(block, process, result.value, description, on_exec, f"open {thing.name} rw {letters}" if thing else None)
    if thing and start:
        world.step(block, process.seat, f"write {result.value} {hexadecimal(struct.pack('<Q', start))}")
    block.otherwise("an open of an object" if thing else "an opaque object")
    if thing:
        thing.ends = 1


@says("memfd_create")
def say_memfd(world: World, block: Block, process: Process, args: Arguments, result: Result) -> None:
    if result.error or result.value is None:
        block.leave_out("memfd_create that failed or has no answer")
        return
    thing = world.objects.make(Kind.MEMORY) if world.objects.may_make else world.objects.of_header(Kind.MEMORY)
    flags = flags_of(args[1])
    on_exec = "MFD_CLOEXEC" in flags
    if thing is not None:
        thing.seals = first_seals(flags)
    description = Description(Kind.MEMORY if thing else Kind.OPAQUE, f"memory {shown(path_of(args[0]))}",
                              inode=result.note, thing=thing)
    if world.objects.may_make:
        world.make(block, process, result.value, description, on_exec, f"memfd {'x' if on_exec else '-'}")
        return
    words = f"open {thing.name} rw {'x' if on_exec else '-'}" if thing else None
    world.make(block, process, result.value, description, on_exec, words)
    block.otherwise("an open of an object" if thing else "an opaque object")
    if thing:
        thing.ends = 1


@says("lseek")
def say_lseek(world: World, block: Block, process: Process, args: Arguments, result: Result) -> None:
    slot = sayable(world, block, process, args[0], "lseek")
    if slot is None:
        return
    whence, number = WHENCES.get(str(args[2])), number_of(args[0])
    if result.value is None or whence is None and result.error:
        block.leave_out("lseek of another kind that failed")
        return
    words = f"lseek {number} {number_of(args[1])} {whence}" if whence else f"lseek {number} {result.value} set"
    told = f"err {result.error}" if result.error else f"at {result.value}"
    world.step(block, process.seat, words, told, slot.description)
    slot.description.offset = slot.description.offset if result.error else result.value
    if not whence:
        block.otherwise(f"lseek by {args[2]} as one to what it answers")


@says("unlink", "unlinkat")
def say_unlink(world: World, block: Block, process: Process, args: Arguments, result: Result) -> None:
    at = block.call.name == "unlinkat"
    folder = folder_of(process, args[0]) if at else process.folder
    path = place_of(process, args[1] if at else args[0], folder)
    word = world.names.known(folder, path)
    if result.error or word is None:
        block.leave_out("unlink of another file, or that failed")
        return
    block.unix = word not in world.names.created
    word = world.names.unlink(folder, path)
    if word:
        world.step(block, process.seat, f"unlink {word}", "ok")
    else:
        block.otherwise("one of two paths of a socket or a file")


@says("rename", "renameat", "renameat2")
def say_rename(world: World, block: Block, process: Process, args: Arguments, result: Result) -> None:
    short = block.call.name == "rename"
    old_folder, new_folder = (process.folder, process.folder) if short else (folder_of(process, args[0]), folder_of(process, args[2]))
    old, new = place_of(process, args[0 if short else 1], old_folder), place_of(process, args[1 if short else 3], new_folder)
    word = world.names.known(old_folder, old)
    if not result.error:
        follow_rename(world, *(world.names.canonical(folder, path).decode("latin-1") for folder, path in
                               ((old_folder, old), (new_folder, new))))
    if result.error or word is None and world.names.known(new_folder, new) is None:
        block.leave_out("rename of another file, or that failed")
        return
    block.unix = not {word, world.names.known(new_folder, new)} <= {None, *world.names.created}
    over = world.names.rename(old_folder, old, new_folder, new)
    if over:
        world.step(block, process.seat, f"unlink {over}", "ok")
    block.otherwise("what is renamed keeps its name in the script")


def follow_rename(world: World, old: str, new: str) -> None:
    """What is open of a file, or in a folder, that is renamed leads to its new path."""
    for process in world.people.processes:
        for slot in process.table.values() if not process.over else ():
            inode = slot.description.inode
            if inode == old or inode.startswith(old + "/"):
                slot.description.inode = new + inode[len(old):]


@says("link", "linkat")
def say_link(world: World, block: Block, process: Process, args: Arguments, result: Result) -> None:
    short = block.call.name == "link"
    old_folder, new_folder = (process.folder, process.folder) if short else (folder_of(process, args[0]), folder_of(process, args[2]))
    old, new = place_of(process, args[0 if short else 1], old_folder), place_of(process, args[1 if short else 3], new_folder)
    if not result.error and world.names.link(old_folder, old, new_folder, new):
        block.otherwise("a second path of a socket or a file is another name of it")
    else:
        block.leave_out("link of another file, or that failed")


@says("chdir")
def say_chdir(world: World, block: Block, process: Process, args: Arguments, result: Result) -> None:
    if not result.error:
        process.folder = world.names.canonical(process.folder, place_of(process, args[0])).decode("latin-1")
    block.leave_out("chdir")


@says("fchdir")
def say_fchdir(world: World, block: Block, process: Process, args: Arguments, result: Result) -> None:
    if not result.error:
        process.folder = folder_of(process, args[0])
    block.leave_out("fchdir")


@says("chroot")
def say_chroot(world: World, block: Block, process: Process, args: Arguments, result: Result) -> None:
    if result.error:
        block.leave_out("chroot that failed")
    else:
        process.root = world.names.canonical(process.folder, place_of(process, args[0])).rstrip(b"/")
        block.leave_out("chroot: later paths are looked up below it")
