"""Says the calls that make, name and connect sockets, and their options."""
from __future__ import annotations

from typing import TYPE_CHECKING, Any, Sequence

from reading.effects import OUTSIDE_ERRORS
from reading.words import Change, Descriptor, Text, after, fields_of, flags_of, number_of
from . import doubts
from .amounts import BUFFERS, say_buffer
from .descriptors import make_pidfd, note_of, on_unix
from .marks import inherit
from .model import Description, Kind, Slot
from .names import spell
from .notes import inode_of
from .world import HIGHEST, says

if TYPE_CHECKING:
    from reading.calls import Result
    from reading.words import Arguments
    from .model import Block, Process
    from .world import World

TYPES = {"SOCK_STREAM": Kind.STREAM, "SOCK_DGRAM": Kind.DATAGRAM, "SOCK_RAW": Kind.DATAGRAM, "SOCK_SEQPACKET": Kind.RECORDS}
WAYS = {"SHUT_RD": "r", "SHUT_WR": "w", "SHUT_RDWR": "rw"}
OPTIONS = {"SO_TYPE": "type", "SO_ERROR": "error", "SO_PASSCRED": "passcred", "SO_PEERCRED": "peercred", "SO_ACCEPTCONN": "accept"}
PEEK_OFFSET = ("SO_PEEK_OFF", 42)
PEER_PIDFD = ("SO_PEERPIDFD", 77)
PLAYED = "a peer outside of the log, which another process of the script plays"
NUMBERS = {"SOCK_STREAM": 1, "SOCK_DGRAM": 2, "SOCK_SEQPACKET": 5, "ECONNRESET": 20, "104": 20}


def socket_of(world: World, block: Block, process: Process, value: Any):
    """The slot of a descriptor where it is a socket of the layer; marks the call as one on AF_UNIX."""
    slot = world.slot(block, process, number_of(value, -1), note_of(value))
    on_unix(block, slot)
    return slot if slot and slot.description.kind.is_socket else None


def address(world: World, process: Process, value: Any):
    """An address as a script writes it, or None where it is of another family."""
    value = after(value)
    if not isinstance(value, dict) or value.get("sa_family") not in ("AF_UNIX", "AF_LOCAL"):
        return None
    path = value.get("sun_path")
    if not isinstance(path, Text):
        return "u"
    if path.abstract:
        return "a:" + spell(path.data)
    return world.names.word_of_path(process.folder, process.place(path.data))


def told_address(world: World, process: Process, value: Any, length: Any = None, whose: Description | None = None):
    """An address as a reply tells it; ? where the log doesn't have it. `length` is what the call was given for it, `whose` the socket
    that it should be the address of: two may have been bound by the same spelling, in two folders or below two roots."""
    value = after(value)
    if not isinstance(value, dict):
        return "?"
    path = value.get("sun_path")
    if whose is not None and isinstance(path, Text) and not path.abstract and is_spelled(whose, path.data, is_cut(length)):
        return whose.name
    if is_cut(length):
        return world.names.beginning_with(path.data, path.abstract) if isinstance(path, Text) else "?"
    if isinstance(path, Text) and not path.abstract:
        return world.names.told(process.folder, path.data)
    return address(world, process, value) or "?"


def is_spelled(whose: Description, data: bytes, cut: bool):
    """Whether a socket's bind gave a path that is told, or that begins with what is told of it."""
    if whose.spelling is None:
        return False
    return whose.spelling.startswith(data) if cut else whose.spelling == data


def is_cut(length: Any) -> bool:
    """Whether an address has more bytes than the buffer that it came in, as strace tells by `[11 => 19]`."""
    length = length[0] if isinstance(length, list) and length else length
    if not isinstance(length, Change):
        return False
    room, whole = number_of(length.before, None), number_of(length.after, None)
    return room is not None and whole is not None and room < whole


def skipped(block: Block, description: Description, number: int) -> bool:
    """Whether a call on a description can't be said, which its block then knows."""
    if number > HIGHEST:
        block.not_at_all("a descriptor above 4,095")
    elif description.unknown:
        block.not_at_all(description.unknown)
        block.unknown = description.unknown
    else:
        return False
    return True


def outside(block: Block, result: Result) -> bool:
    """Whether a call failed for what the layer doesn't have."""
    if result.value is None or result.error in OUTSIDE_ERRORS:
        block.leave_out("ended by a signal" if result.value is None or result.error == "EINTR" or "RESTART" in result.error
                        else f"{block.call.name} that failed: {result.error}")
        return True
    return False


@says("socket")
def say_socket(world: World, block: Block, process: Process, args: Arguments, result: Result) -> None:
    flags = flags_of(args[1])
    kind = next((TYPES[flag] for flag in flags if flag in TYPES), None)
    if result.error or result.value is None:
        block.leave_out(f"socket that failed: {result.error}")
        return
    on_exec = "SOCK_CLOEXEC" in flags
    if args[0] not in ("AF_UNIX", "AF_LOCAL") or kind is None:
        description = Description(Kind.OPAQUE, str(args[0]), nonblocking="SOCK_NONBLOCK" in flags, inode=inode_of(result.note))
        description.family = str(args[0])
        world.make(block, process, result.value, description, on_exec)
        block.otherwise("a socket of another family: an opaque object")
        return
    block.unix = True
    description = new_socket(world, kind, flags, result.note)
    words = f"socket {kind.value} {world.letters(description, on_exec)}"
    world.make(block, process, result.value, description, on_exec, words)


def new_socket(world: World, kind: Kind, flags: set[str], note: str):
    description = Description(kind, "a socket", nonblocking="SOCK_NONBLOCK" in flags, inode=inode_of(note) if note else "", mode="rw")
    if description.inode:
        world.objects.by_inode[description.inode] = description
    return description


@says("socketpair")
def say_pair(world: World, block: Block, process: Process, args: Arguments, result: Result) -> None:
    flags = flags_of(args[1])
    kind = next((TYPES[flag] for flag in flags if flag in TYPES), None)
    if result.error or kind is None:
        block.leave_out(f"socketpair that failed: {result.error}")
        return
    ends = two_numbers(process, args[3])
    if args[0] not in ("AF_UNIX", "AF_LOCAL"):
        for end in ends:
            description = Description(Kind.OPAQUE, str(args[0]), "SOCK_NONBLOCK" in flags, inode=inode_of(note_of(end)))
            world.make(block, process, number_of(end), description, "SOCK_CLOEXEC" in flags)
        block.otherwise("a socket of another family: an opaque object")
        return
    block.unix = True
    first, second = (new_socket(world, kind, flags, note_of(end)) for end in ends)
    first.peer, second.peer = second, first
    first.phase = second.phase = "tied"
    first.owner = second.owner = process.person()
    first.what = second.what = "an end of a socketpair"
    make_two(world, block, process, f"pair {kind.value}", (first, second), [number_of(end) for end in ends], "SOCK_CLOEXEC" in flags)


def two_numbers(process: Process, value: Any):
    """Both descriptors that a call made; where strace couldn't read them, the two lowest free numbers."""
    value = after(value)
    if isinstance(value, list) and len(value) == 2:
        return value
    return [Descriptor(number) for number in process.lowest_numbers(2)]


def make_two(world: World, block: Block, process: Process, words: str, made: Sequence[Description], numbers: list[int],
             on_exec: bool) -> None:
    """A call that gives two numbers at once."""
    for number in numbers:
        if number in process.table:
            world.gone(block, process, number)
    lower = process.lowest_numbers(2)
    letters = world.letters(made[0], on_exec)
    if max(numbers) > HIGHEST:
        block.not_at_all("a descriptor above 4,095")
        return
    world.step(block, process.seat, f"{words} {letters}", f"fds {lower[0]} {lower[1]}", makes=dict(zip(lower, made)))
    for place in (1, 0):
        world.move(block, process, lower[place], numbers[place], made[place], on_exec)
        process.table[numbers[place]] = Slot(made[place], on_exec)
        made[place].made_by = block


@says("bind")
def say_bind(world: World, block: Block, process: Process, args: Arguments, result: Result) -> None:
    slot = socket_of(world, block, process, args[0])
    if slot is None:
        block.leave_out("bind of another family")
        return
    description, number = slot.description, number_of(args[0])
    if outside(block, result) or result.error == "ENOENT" or skipped(block, description, number):
        if result.error == "ENOENT":
            block.leave_out("bind in a folder that isn't there")
        return
    holder = world.names.bound.get(address(world, process, args[1]))
    word = bind_word(world, block, process, args[1], description, result)
    if word is None:
        unseen_address(world, block, description, result)
        return
    if result.error == "EADDRINUSE" and word.startswith("p:") and word not in world.names.bound:
        world.names.files.append(word)
        world.names.bound[word] = None
    world.step(block, process.seat, f"bind {number} {word}", f"err {result.error}" if result.error else "ok", description, other=holder)
    if not result.error and not (word == "u" and description.name):
        description.name, description.spelling = word, spelling_of(args[1])


def spelling_of(value: Any):
    """The path of an address as a call spells it, or None."""
    path = fields_of(value).get("sun_path")
    return path.data if isinstance(path, Text) and not path.abstract else None


def unseen_address(world: World, block: Block, description: Description, result: Result) -> None:
    """An address of another family, or one that strace couldn't read: where the call went well, its effect isn't known."""
    if result.error:
        block.leave_out(f"{block.call.name} that failed, to an address that the log doesn't show")
        return
    why = f"{block.call.name} to an address that the log doesn't show"
    world.make_unknown(description, why)
    block.not_at_all(why)


def bind_word(world: World, block: Block, process: Process, value: Any, description: Description, result: Result):
    """The name to bind to: for autobind the one that the kernel gave, where the log shows it."""
    word = address(world, process, value)
    if word == "u" and not result.error and not description.name:
        given = world.names.automatic.get(description.inode[8:-1])
        if given:
            block.otherwise("autobind by the name that the kernel gave")
            return f"a:{given}"
    if word and word.startswith("p:") and not result.error:
        path = spelling_of(value)
        return world.names.bind(process.folder, process.place(path), description, path)
    if word and word.startswith("a:") and not result.error:
        world.names.bound[word] = description
    return word


@says("listen")
def say_listen(world: World, block: Block, process: Process, args: Arguments, result: Result) -> None:
    slot = socket_of(world, block, process, args[0])
    if slot is None:
        inet = process.table.get(number_of(args[0], -1))
        if inet and not result.error:
            inet.description.listens = True
        block.leave_out("listen of another family")
        return
    if skipped(block, slot.description, number_of(args[0])):
        return
    backlog = number_of(args[1], 0)
    world.step(block, process.seat, f"listen {number_of(args[0])} {backlog}",
               f"err {result.error}" if result.error else "ok", slot.description)
    if not result.error:
        slot.description.phase, slot.description.listens = "listening", True
        slot.description.owner = process.person()
        slot.description.what = "a listening socket"


@says("connect")
def say_connect(world: World, block: Block, process: Process, args: Arguments, result: Result) -> None:
    slot = socket_of(world, block, process, args[0])
    if slot is None:
        block.leave_out("connect of another family")
        return
    description, number = slot.description, number_of(args[0])
    if outside(block, result) or result.error == "EINPROGRESS" or skipped(block, description, number):
        return
    value = after(args[1])
    ends = isinstance(value, dict) and value.get("sa_family") == "AF_UNSPEC"
    word = "u" if ends else address(world, process, args[1])
    if word is None:
        unseen_address(world, block, description, result)
        return
    target = world.names.bound.get(word)
    if not result.error and not ends and target is None:
        target = world.outside.meet(block, description.kind, word)
        block.otherwise(PLAYED)
    if not result.error and not ends and target is None:
        description.unknown = "its peer is outside of the log"
        description.phase = "tied"
        block.not_at_all(description.unknown)
        return
    if result.error == "ECONNREFUSED" and word.startswith("p:") and word not in world.names.bound:
        world.names.files.append(word)
        world.names.bound[word] = None
    world.step(block, process.seat, f"connect {number} {word}", f"err {result.error}" if result.error else "ok", description,
               other=None if ends else target)
    if target is not None:
        block.concern(target)
    if not result.error:
        tie(description, target, ends)
        if target is not None and target.outer is not None:
            connect_outside(world, block, description, target)


def connect_outside(world: World, block: Block, description: Description, target: Description) -> None:
    """The peer outside of a socket that was just connected."""
    description.what += ", outside of the log"
    if description.kind is Kind.DATAGRAM:
        description.outer = target.outer
    else:
        target.waiting.clear()
        world.outside.accept(block, target, description)
    block.otherwise(PLAYED)


def tie(description: Description, target: Description, ends: bool) -> None:
    """What a connect leaves: a connection that waits, or an association."""
    if description.kind is Kind.DATAGRAM:
        description.peer, description.phase = (None, "idle") if ends else (target, "tied")
    else:
        description.phase = "tied"
        description.what = f"a connection to {target.name[2:]}" if target.name else "a connection"
        target.waiting.append(description)


@says("accept", "accept4")
def say_accept(world: World, block: Block, process: Process, args: Arguments, result: Result) -> None:
    slot = socket_of(world, block, process, args[0])
    if slot is None:
        say_accept_elsewhere(world, block, process, args, result)
        return
    listener, number = slot.description, number_of(args[0])
    flags = flags_of(args[3]) if len(args) > 3 else set()
    if outside(block, result) or result.error and skipped(block, listener, number):
        return
    if result.error:
        world.step(block, process.seat, f"accept {number} -", f"err {result.error}", listener)
        return
    made = new_socket(world, listener.kind, flags, result.note)
    made.phase, made.name, made.what = "tied", listener.name, f"a connection accepted at {listener.name[2:] or 'a listener'}"
    on_exec = "SOCK_CLOEXEC" in flags
    made.spelling = listener.spelling
    told = told_address(world, process, args[1], args[2], listener.waiting[0] if listener.waiting else None)
    if not listener.unknown and not listener.waiting:
        made.outer = world.outside.client_of(block, listener, told)
        made.what += ", its client outside of the log"
    if listener.unknown or not listener.waiting and made.outer is None:
        made.unknown = listener.unknown or "its peer is outside of the log"
        world.make(block, process, result.number, made, on_exec)
        block.not_at_all(made.unknown)
        return
    if made.outer is None:
        made.peer = listener.waiting.pop(0)
        made.peer.peer = made
    inherit(made, listener)
    block.concern(listener)
    form = "accepted {} " + told
    world.make(block, process, result.number, made, on_exec, f"accept {number} {world.letters(made, on_exec)}", form, other=made.peer)


def say_accept_elsewhere(world: World, block: Block, process: Process, args: Arguments, result: Result) -> None:
    if result.error or result.value is None:
        block.leave_out("accept of another family")
        return
    flags = flags_of(args[3]) if len(args) > 3 else set()
    description = Description(Kind.OPAQUE, "a connection of another family", inode=inode_of(result.note))
    description.nonblocking, description.family = "SOCK_NONBLOCK" in flags, "accepted"
    world.make(block, process, result.value, description, "SOCK_CLOEXEC" in flags)
    block.otherwise("a socket of another family: an opaque object")


@says("shutdown")
def say_shutdown(world: World, block: Block, process: Process, args: Arguments, result: Result) -> None:
    slot = socket_of(world, block, process, args[0])
    if slot is None:
        block.leave_out("shutdown of another family")
        return
    if skipped(block, slot.description, number_of(args[0])):
        return
    way = WAYS.get(str(args[1]))
    if way is None:
        block.leave_out("shutdown of no direction")
        return
    world.step(block, process.seat, f"shut {number_of(args[0])} {way}",
               f"err {result.error}" if result.error else "ok", slot.description)


@says("getsockname", "getpeername")
def say_name(world: World, block: Block, process: Process, args: Arguments, result: Result) -> None:
    slot = socket_of(world, block, process, args[0])
    if slot is None:
        block.leave_out(f"{block.call.name} of another family")
        return
    if outside(block, result) or skipped(block, slot.description, number_of(args[0])):
        return
    word = "sockname" if block.call.name == "getsockname" else "peername"
    other = slot.description.peer if word == "peername" else None
    whose = other if word == "peername" else slot.description
    told = f"err {result.error}" if result.error else f"addr {told_address(world, process, args[1], args[2], whose)}"
    world.step(block, process.seat, f"{word} {number_of(args[0])}", told, slot.description, other=other)


@says("getsockopt")
def say_getsockopt(world: World, block: Block, process: Process, args: Arguments, result: Result) -> None:
    slot = socket_of(world, block, process, args[0])
    if args[2] in PEER_PIDFD and slot is not None and not result.error and number_of(args[3], None) is not None:
        make_pidfd(world, block, process, number_of(args[3]))
        block.otherwise("the peer's descriptor of a process: an opaque object")
        return
    if slot is not None and str(args[2]) in BUFFERS and not result.error:
        say_buffer(world, block, slot.description, str(args[2]), args[3])
    option = OPTIONS.get(str(args[2])) if str(args[1]) == "SOL_SOCKET" else None
    if slot is None or option is None:
        block.leave_out(f"getsockopt {args[2]}" if slot else "getsockopt of another family")
        return
    if outside(block, result) or skipped(block, slot.description, number_of(args[0])):
        return
    value = after(args[3])
    if result.error:
        told = f"err {result.error}"
    elif option == "peercred":
        value = fields_of(value)
        told = f"cred {world.people.word_of(value.get('pid'))} {value.get('uid')} {value.get('gid')}"
        if not may_be_peer(world, slot.description, value):
            world.doubts.add(doubts.CREDENTIALS, block)
        if slot.description.outer is not None:
            world.outside.learnt.people[slot.description.outer.ordinal] = (value.get("uid"), value.get("gid"))
    else:
        answer = value[0] if isinstance(value, list) and value else value
        told = f"opt {NUMBERS.get(str(answer), answer)}"
    world.step(block, process.seat, f"getopt {number_of(args[0])} {option}", told, slot.description)


def may_be_peer(world: World, description: Description, value: dict[str, Any]) -> bool:
    """Whether SO_PEERCRED may tell these of a socket without a peer: who made the pair, or listens, or nobody (unix(7)). A process that
    the log doesn't have may be any."""
    if description.kind is not Kind.DATAGRAM and description.phase == "tied":
        return True
    process, *ids = description.owner or (0, -1, -1)
    told = value.get("pid")
    return [value.get("uid"), value.get("gid")] == ids and (told == process or told != 0 and told not in world.people.by_pid)


@says("setsockopt")
def say_setsockopt(world: World, block: Block, process: Process, args: Arguments, result: Result) -> None:
    slot = socket_of(world, block, process, args[0])
    if slot is not None and args[2] in PEEK_OFFSET and not result.error and number_of(args[3], -1) >= 0:
        world.make_unknown(slot.description, "SO_PEEK_OFF was set: what a peek shows depends on the peeks before it")
        block.not_at_all("SO_PEEK_OFF")
        return
    if slot is not None and str(args[2]) in BUFFERS and not result.error:
        slot.description.buffers[BUFFERS[str(args[2])]] = number_of(args[3], 0)
    if slot is None or str(args[1]) != "SOL_SOCKET" or str(args[2]) != "SO_PASSCRED" or result.error:
        block.leave_out(f"setsockopt {args[2]}" if slot else "setsockopt of another family")
        return
    if skipped(block, slot.description, number_of(args[0])):
        return
    value = number_of(args[3], 0)
    world.step(block, process.seat, f"setopt {number_of(args[0])} passcred {value if value >= 0 else 1}", "ok", slot.description)
