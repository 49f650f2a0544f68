"""Says the calls that make and end processes, and have them execute programs."""
from __future__ import annotations

import posixpath
import re
from typing import TYPE_CHECKING

from reading.words import number_of, shown
from . import handover
from .descriptors import make_pidfd
from .files import path_of
from .model import Description, Kind
from .notes import inode_of
from .world import HIGHEST, says

if TYPE_CHECKING:
    from reading.calls import Result
    from reading.words import Arguments
    from .model import Block, Ids, Process
    from .world import World

PIDFD = re.compile(r"(?:pidfd|parent_tid)=(?:0x[0-9a-f]+ => )?\{?\[(\d+)[<\]]")


@says("fork", "vfork", "clone", "clone3")
def say_fork(world: World, block: Block, process: Process, args: Arguments, result: Result) -> None:
    name = block.call.name
    if result.error:
        block.leave_out(f"{name} that failed")
        return
    text = block.call.text
    thread = "CLONE_THREAD" in text
    if result.value is None:
        if not thread:
            world.people.orphans.append((block, process))
        block.leave_out(f"{name} without an answer")
        return
    if thread or "CLONE_FILES" in text:
        process.threads.add(result.value)
        world.people.threads[result.value] = process
        if thread:
            block.otherwise("a thread is the same process")
        else:
            process.shared.add(result.value)
            block.otherwise("a process that shares its table is the same until it executes a program")
    else:
        handover.fork(world, block, process, result.value)
    pidfd = PIDFD.search(text) if "CLONE_PIDFD" in text else None
    if pidfd:
        make_pidfd(world, block, process, int(pidfd[1]))


@says("pidfd_getfd")
def say_pidfd_getfd(world: World, block: Block, process: Process, args: Arguments, result: Result) -> None:
    """A descriptor of another process: the same description, where the log has it there."""
    if result.error or result.value is None:
        block.leave_out("pidfd_getfd that failed")
        return
    number = number_of(args[1])
    giver = next((one for one in world.people.processes if not one.over and one.seat is not None and number in one.table
                  and one.table[number].description.inode == inode_of(result.note)), None)
    if giver is None or (giver is process and number == result.value) or process.seat is None or max(number, result.value) > HIGHEST:
        world.make(block, process, result.value, Description(Kind.OPAQUE, result.note or "pidfd_getfd", inode=result.note), True)
        block.otherwise("a descriptor of another process, which the log doesn't show there: an opaque object")
        return
    if result.value in process.table:
        world.gone(block, process, result.value)
    block.unix = giver.table[number].description.kind.is_socket
    handover.take_from(world, block, giver, number, process, result.value, True)
    block.otherwise("a descriptor of another process, which passes it")


@says("execve", "execveat")
def say_exec(world: World, block: Block, process: Process, args: Arguments, result: Result) -> None:
    if result.error or result.value is None:
        block.leave_out("an exec that failed")
        return
    if block.call.thread in process.shared:
        process = part(world, block, process)
    path = path_of(args[1] if block.call.name == "execveat" else args[0])
    process.program = shown(posixpath.basename(path)) or process.program
    process.execs += 1
    process.users, process.groups = saved_anew(process.users), saved_anew(process.groups)
    block.program = process.label()
    for number, slot in list(process.table.items()):
        if slot.on_exec:
            block.concern(slot.description)
            world.drop(process, number)
    world.step(block, process.seat, "exec", "ok")
    block.snapshot = dict(process.table)
    world.uses.executed.append(block)


def saved_anew(ids: Ids):
    """Real, effective and saved ids behind an exec, which saves the effective one (execve(2))."""
    return ids[0], ids[1], ids[1]


def part(world: World, block: Block, process: Process):
    """A process that shared its table executes a program, and has a copy from now on."""
    thread = block.call.thread
    process.threads.discard(thread)
    process.shared.discard(thread)
    child = handover.fork(world, block, process, thread)
    block.process = child
    return child


@says("exit_group", "exit")
def say_exit(world: World, block: Block, process: Process, args: Arguments, result: Result) -> None:
    """The process ends behind its last thread's last call, which the log's line of its end tells."""
    if block.call.name == "exit" and len(process.threads) > 1:
        block.leave_out("the end of a thread")


@says("unshare", "setns")
def say_unshare(world: World, block: Block, process: Process, args: Arguments, result: Result) -> None:
    if result.error:
        block.leave_out(f"{block.call.name} that failed")
    elif "CLONE_FILES" in block.call.text and len(process.threads) > 1:
        part(world, block, process)
        block.otherwise("a table that was shared is copied")
    elif block.call.text.startswith("CLONE_FILES)"):
        block.leave_out("unshare of a table that nobody shares")
    else:
        block.not_at_all(f"{block.call.name}: namespaces")
