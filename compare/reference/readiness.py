"""poll of one descriptor, and of several (poll(2); do_sys_poll, unix_poll and unix_dgram_poll, pipe_poll of Linux)."""
from __future__ import annotations

from . import agreed
from .files import COUNTER_LIMIT, PIPE_LIMIT, PIPE_WHOLE
from .kernel import Kernel
from .rooms import has_memory, has_room, is_queue_full, rule_of
from .rules import Rule
from .state import Description, FileObject, Process, Refusal, Socket

POLL_LIMIT = 64
CONDITIONS = ("IN", "OUT", "RDHUP", "HUP", "ERR", "NVAL")
ASKED = {"i": "IN", "o": "OUT", "h": "RDHUP"}
ALWAYS = frozenset(("HUP", "ERR", "NVAL"))


def can_send(kernel: Kernel, socket: Socket) -> bool:
    """OUT of a connected socket."""
    is_refused = socket.peer.is_gone or socket.is_shut("w")
    return kernel.either(rule_of(socket), is_refused or agreed.has_room(socket.peer), lambda: is_refused or has_room(socket.peer),
                         lambda: has_memory(kernel, socket))


def tied_conditions(kernel: Kernel, socket: Socket) -> set[str]:
    """Of a stream or seqpacket socket that is connected."""
    found: set[str] = set()
    is_lost = socket.peer.is_gone
    over = socket.is_shut("r") or is_lost
    if socket.queue or socket.is_reset or over:
        found.add("IN")
    if can_send(kernel, socket):
        found.add("OUT")
    if over:
        found.add("RDHUP")
    if is_lost or {"r", "w"} <= socket.shut:
        found.add("HUP")
    elif socket.is_shut("r") and socket.is_shut("w") and kernel.follows(Rule.POLL_OF_TWO_HALF_CLOSES):
        found.add("HUP")
    if socket.is_reset:
        found.add("ERR")
    return found


def untied_conditions(kernel: Kernel, socket: Socket) -> set[str]:
    """Of a stream or seqpacket socket that isn't connected; only Linux has such ones that are shut down."""
    found: set[str] = set()
    if "r" in socket.shut:
        found |= {"IN", "RDHUP"}
    if {"r", "w"} <= socket.shut:
        found.add("HUP")
    if socket.listens:
        return found | ({"IN"} if socket.pending else set())
    if kernel.follows(Rule.POLL_OF_AN_IDLE_SOCKET):
        found.add("OUT")
    return found | {"HUP"}


def sends_there(kernel: Kernel, socket: Socket) -> bool:
    """OUT of a datagram socket on Linux."""
    target = socket.peer
    return has_memory(kernel, socket) and (target is None or target.is_gone or not is_queue_full(kernel, socket, target))


def sends_at_once(kernel: Kernel, socket: Socket) -> bool:
    """OUT of a datagram socket."""
    target = socket.peer
    is_refused = target is None or target.is_gone or "w" in socket.shut or target.peer not in (None, socket) or "r" in target.shut
    return kernel.either(rule_of(socket), is_refused or agreed.has_room(target), lambda: is_refused or has_room(target),
                         lambda: sends_there(kernel, socket))


def datagram_conditions(kernel: Kernel, socket: Socket) -> set[str]:
    """Of a datagram socket."""
    found: set[str] = set()
    if socket.queue or "r" in socket.shut:
        found.add("IN")
    if sends_at_once(kernel, socket):
        found.add("OUT")
    if socket.is_reset:
        found.add("ERR")
    if "r" in socket.shut and kernel.follows(Rule.POLL_OF_A_DATAGRAM_SOCKET):
        found.add("RDHUP")
        if "w" in socket.shut:
            found.add("HUP")
    return found


def pipe_conditions(kernel: Kernel, description: Description, target: FileObject) -> set[str]:
    """Of a pipe: without a writer it hangs up its readers, without a reader it fails its writers."""
    found: set[str] = set()
    if "r" in description.mode:
        if target.data:
            found.add("IN")
        not_yet = description.writers_seen == target.writers_ever
        if not target.writers and not (not_yet and kernel.follows(Rule.PIPE_NOT_YET_WRITTEN)):
            found.add("HUP")
    if "w" in description.mode:
        has_space = kernel.either(Rule.ROOM_OF_A_PIPE, agreed.pipe_has_room(target), lambda: len(target.data) + PIPE_WHOLE <= PIPE_LIMIT,
                                  lambda: len(target.pages) < kernel.machine.pipe_pages)
        found |= {"OUT"} if has_space else set()
        found |= set() if target.readers else {"ERR"}
    return found


def file_conditions(kernel: Kernel, description: Description, target: FileObject) -> set[str]:
    """Of a file object."""
    if target.kind == "pipe":
        return pipe_conditions(kernel, description, target)
    if target.kind == "mem" and kernel.follows(Rule.POLL_OF_A_FILE):
        return {"IN", "OUT"}
    found: set[str] = set()
    if "r" in description.mode and (target.kind == "mem" or target.value > 0):
        found.add("IN")
    if "w" in description.mode and (target.kind == "mem" or target.value < COUNTER_LIMIT):
        found.add("OUT")
    return found


def conditions_of(kernel: Kernel, process: Process, number: int) -> set[str]:
    """All that is so at a number, NVAL alone where it isn't open."""
    if number not in process.table:
        return {"NVAL"}
    description = process.table[number].description
    target = description.target
    if isinstance(target, FileObject):
        return file_conditions(kernel, description, target)
    if target.is_datagram:
        return datagram_conditions(kernel, target)
    return tied_conditions(kernel, target) if target.peer is not None else untied_conditions(kernel, target)


def told(found: set[str]) -> str:
    """A set of conditions as a trace has it."""
    return "|".join(name for name in CONDITIONS if name in found) or "-"


def call_poll(kernel: Kernel, process: Process, words: list[str]) -> str:
    """poll(2) of one descriptor, without waiting."""
    return f"poll {told(conditions_of(kernel, process, int(words[1])))}"


# ---- several descriptors

def asked_in(word: str) -> list[tuple[int, set[str]]]:
    """The numbers of FDS, each with what is asked of it."""
    pairs = [one.split(":") for one in word.split(",")] if word != "-" else []
    return [(int(number), {ASKED[letter] for letter in letters if letter in ASKED}) for number, letters in pairs]


def asks_too_many(kernel: Kernel, process: Process, count: int) -> bool:
    """Whether these are more than one poll takes; Linux takes as many as the process may have open (RLIMIT_NOFILE)."""
    return kernel.either(Rule.POLL_OF_MANY, agreed.polls_too_many(count), lambda: count > POLL_LIMIT, lambda: count > process.limit)


def reported(asked: set[str], found: set[str]) -> set[str]:
    """What a poll tells: IN, OUT and RDHUP where they are asked for, the others in any case."""
    return found & (asked | ALWAYS)


def call_polls(kernel: Kernel, process: Process, words: list[str]) -> str:
    """poll(2) of several descriptors: one that waits would wait where it has nothing to tell."""
    asked = asked_in(words[1])
    if asks_too_many(kernel, process, len(asked)):
        raise Refusal("EINVAL")
    found = [reported(events, conditions_of(kernel, process, number)) for number, events in asked]
    if words[2] == "wait" and not any(found):
        raise Refusal("EAGAIN")
    return " ".join(["polled", *map(told, found)])
