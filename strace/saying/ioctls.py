"""Says ioctl(2): flags of descriptors, how many bytes wait in queues, and new numbers."""
from __future__ import annotations

from typing import TYPE_CHECKING, Any

from reading.words import number_of
from .amounts import cut_off, is_from_outside, may_be_length
from .contents import sayable
from .descriptors import is_closed, note_of, on_unix, set_flags
from .model import Description, Kind
from .sockets import outside
from .world import HIGHEST, says

if TYPE_CHECKING:
    from reading.calls import Result
    from reading.words import Arguments
    from .model import Block, Process
    from .world import World

FLAG_REQUESTS = {"FIONBIO", "FIOCLEX", "FIONCLEX"}
QUERY_REQUESTS = {"FIOASYNC", "SIOCATMARK"}
MAKES_NUMBER = {"TIOCGPTPEER", "SIOCUNIXFILE", "NS_GET_USERNS", "NS_GET_PARENT", "SECCOMP_IOCTL_NOTIF_ADDFD"}
# ioctl_tty(2), unix(7), tcp(7): one request has several names, of which strace tells the first.
LENGTHS = {"FIONREAD": "inq", "SIOCINQ": "inq", "TIOCINQ": "inq", "TIOCOUTQ": "outq", "SIOCOUTQ": "outq"}
O_CLOEXEC = 0o2000000


@says("ioctl")
def say_ioctl(world: World, block: Block, process: Process, args: Arguments, result: Result) -> None:
    request = str(args[1])
    slot = process.table.get(number_of(args[0]))
    on_unix(block, slot)
    if request in LENGTHS:
        say_length(world, block, process, args, result)
    elif result.error:
        block.leave_out(f"ioctl {request} that failed" if block.unix else "ioctl that failed")
    elif request in FLAG_REQUESTS:
        say_flags(world, block, process, args)
    elif result.note or request in MAKES_NUMBER:
        description = Description(Kind.OPAQUE, result.note or request, inode=result.note)
        world.make(block, process, result.number, description, "O_CLOEXEC" in block.call.text or bool(number_of(args[2], 0) & O_CLOEXEC))
        block.otherwise(f"a new number by ioctl {request}: an opaque object")
    elif block.unix and request not in QUERY_REQUESTS:
        world.unknown_effect(block, process, args)
    else:
        block.leave_out(f"ioctl {request}" if block.unix else "ioctl of an opaque object")


def say_flags(world: World, block: Block, process: Process, args: Arguments) -> None:
    """A flag of a description, or close-on-exec of a descriptor."""
    number, request = number_of(args[0]), str(args[1])
    slot = world.slot(block, process, number, note_of(args[0]))
    if slot is None or number > HIGHEST:
        block.not_at_all("a descriptor that isn't known")
        return
    if request == "FIONBIO":
        slot.description.nonblocking = bool(number_of(args[2], 0))
    else:
        slot.on_exec = request == "FIOCLEX"
    set_flags(world, block, process, number, slot)
    block.otherwise(f"{request} as flags")


def say_length(world: World, block: Block, process: Process, args: Arguments, result: Result) -> None:
    """How many bytes wait to be read, or to be received by the peer."""
    number, request = number_of(args[0]), str(args[1])
    words = f"{LENGTHS[request]} {number}"
    if result.error and is_closed(process, args[0]):
        world.step(block, process.seat, words, f"err {result.error}", state="closed")
        return
    slot = sayable(world, block, process, args[0], f"ioctl {request}")
    if slot is None or outside(block, result):
        return
    description = slot.description
    if is_from_outside(description):
        block.leave_out(f"ioctl {request} of a connection with a peer outside of the log")
        return
    told = f"err {result.error}" if result.error else f"n {told_length(world, block, description, LENGTHS[request], args[2])}"
    world.step(block, process.seat, words, told, description)


def told_length(world: World, block: Block, description: Description, word: str, value: Any):
    """The number that a call told, less what the layer shortened; it is a doubt where no reply can show that it is wrong."""
    told = number_of(value)
    if not may_be_length(description, word, told):
        for one in (description, *description.reached.values()):
            block.concern(one)
        world.doubts.counted.append(block)
    if word == "inq" and told and description.kind is Kind.DATAGRAM:
        world.outside.told(block, description)
    return told - cut_off(description) if word == "inq" else told
