"""Says changes of users and groups: setids has real, effective and saved ids as one, so what sets them apart is said by the effective ones."""
from __future__ import annotations

from typing import TYPE_CHECKING

from reading.words import Arguments, number_of
from . import handover
from .world import says

if TYPE_CHECKING:
    from reading.calls import Result
    from .model import Block, Ids, Process
    from .world import World

NO_ID = 4294967295
APART = "real, effective and saved ids that differ: the effective ones"


def kept(asked: int, former: int):
    """The id that is asked for, or the former one where none is (setresuid(2))."""
    return former if asked == NO_ID else asked


def changed(process: Process, name: str, asked: Arguments, ids: Ids):
    """Real, effective and saved ids behind a call that succeeds (setuid(2), setreuid(2), setresuid(2))."""
    real, effective, saved = ids
    if name in ("setuid", "setgid"):
        alone = process.users[1] != 0 and asked[0] in (real, saved)
        return (real, asked[0], saved) if alone else (asked[0],) * 3
    if name.startswith("setres"):
        return kept(asked[0], real), kept(asked[1], effective), kept(asked[2], saved)
    new = kept(asked[1], effective)
    leaves_saved = asked[0] == NO_ID and (asked[1] == NO_ID or new == real)
    return kept(asked[0], real), new, saved if leaves_saved else new


def answer(process: Process, user: int, group: int) -> str:
    """What the layer answers a setids of the process."""
    if NO_ID in (user, group):
        return "err EINVAL"
    return "ok" if process.privileged or (user, group) == (process.user, process.group) else "err EPERM"


@says("setuid", "setgid", "setreuid", "setregid", "setresuid", "setresgid")
def say_ids(world: World, block: Block, process: Process, args: Arguments, result: Result) -> None:
    name = block.call.name
    asked = Arguments(number_of(one) & NO_ID for one in args)
    if len(asked) > 1 and all(one == NO_ID for one in asked):
        block.leave_out("a change of ids that asks for none")
        return
    users, groups = process.users, process.groups
    if "uid" in name:
        users = changed(process, name, asked, users)
    else:
        groups = changed(process, name, asked, groups)
    if result.error:
        say_refused(world, block, process, (users[1], groups[1]), result.error)
    elif result.value is None:
        block.leave_out(f"{name} without an answer")
    else:
        process.users, process.groups = users, groups
        become(world, block, process, users[1], groups[1])
        if len(set(users)) > 1 or len(set(groups)) > 1:
            block.otherwise(APART)


def say_refused(world: World, block: Block, process: Process, ids: tuple[int, int], error: str) -> None:
    """A refused change is said where the layer refuses it alike."""
    if answer(process, *ids) == f"err {error}":
        world.step(block, process.seat, "setids {} {}".format(*ids), f"err {error}")
    else:
        block.leave_out(f"{block.call.name} that failed, with {error}")


def become(world: World, block: Block, process: Process, user: int, group: int) -> None:
    """The process has these ids, by setids, or where the layer refuses that as another process of the header."""
    if answer(process, user, group) != "ok":
        handover.go_on_as(world, block, process, user, group)
        return
    world.step(block, process.seat, f"setids {user} {group}", "ok")
    if process.user == 0 and user != 0:
        process.privileged = False
    process.user, process.group = user, group


@says("setfsuid", "setfsgid")
def say_file_ids(world: World, block: Block, process: Process, args: Arguments, result: Result) -> None:
    block.leave_out(f"{block.call.name}, of ids that count for files alone")


@says("setgroups")
def say_groups(world: World, block: Block, process: Process, args: Arguments, result: Result) -> None:
    block.leave_out("setgroups that failed" if result.error else "setgroups")
