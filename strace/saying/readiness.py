"""Says poll and select of several descriptors as a poll of those that the layer has; of one, and epoll, as polls of one each."""
from __future__ import annotations

import re
from collections import Counter
from dataclasses import dataclass
from typing import TYPE_CHECKING, Any

from reading.words import Change, after, arguments, flags_of, number_of
from . import doubts, marks
from .descriptors import on_unix
from .model import Kind, Polled, Role, Step
from .world import HIGHEST, says

if TYPE_CHECKING:
    from reading.calls import Result
    from reading.words import Arguments
    from .model import Block, Description, Process
    from .world import World

BITS = {"POLLIN": "IN", "POLLOUT": "OUT", "POLLRDHUP": "RDHUP", "POLLHUP": "HUP", "POLLERR": "ERR", "POLLNVAL": "NVAL",
        "EPOLLIN": "IN", "EPOLLOUT": "OUT", "EPOLLRDHUP": "RDHUP", "EPOLLHUP": "HUP", "EPOLLERR": "ERR",
        "POLLRDNORM": "IN", "EPOLLRDNORM": "IN", "POLLWRNORM": "OUT", "EPOLLWRNORM": "OUT"}
ORDER = ("IN", "OUT", "RDHUP", "HUP", "ERR", "NVAL")
LETTERS = {"IN": "i", "OUT": "o", "RDHUP": "h"}
GIVES = {"IN", "HUP", "RDHUP"}
ALWAYS = {"HUP", "ERR", "NVAL"}
MOST_POLLED = 64
# The place of a call's timeout among its arguments.
TIMEOUTS = {"poll": 2, "ppoll": 2, "select": 4, "_newselect": 4, "pselect6": 4}


@dataclass(slots=True)
class Asked:
    """A descriptor that a call asks of: what it asks for, and what the log tells of it."""
    number: int
    asked: set[str]
    found: set[str]

    def letters(self) -> str:
        """What is asked for as a script has it."""
        return "".join(letter for bit, letter in LETTERS.items() if bit in self.asked) or "-"


def conditions(flags: set[str]):
    return {BITS[flag] for flag in flags if flag in BITS}


def tell(found: set[str]):
    return "|".join(bit for bit in ORDER if bit in found) or "-"


def description_of(block: Block, process: Process, number: int) -> Description | None:
    """The description of a descriptor that the layer has, of which it is known how it is."""
    slot = process.table.get(number)
    if slot is None or slot.description.kind is Kind.OPAQUE or number > HIGHEST:
        return None
    on_unix(block, slot)
    description = slot.description
    if description.unknown or description.thing is not None and description.thing.unknown:
        block.unknown = description.unknown or description.thing.unknown
        return None
    return description


def hear_outside(world: World, block: Block, description: Description, found: set[str]) -> None:
    """What a peer outside of the log did that a poll tells."""
    if found & GIVES and (description.outer is not None or description.phase == "listening" or description.kind is Kind.DATAGRAM):
        world.outside.told(block, description, "HUP" in found)


def ask(world: World, block: Block, process: Process, one: Asked) -> bool:
    """One poll of a descriptor that the layer has; the answer is whether it was said."""
    description = description_of(block, process, one.number)
    if description is None:
        return False
    hear_outside(world, block, description, one.found)
    asked = frozenset(one.asked | ALWAYS)
    world.step(block, process.seat, f"poll {one.number}", f"poll {tell(one.found)}", description, asked=asked)
    return True


def ask_all(world: World, block: Block, process: Process, ours: list[tuple[Asked, Description]], waits: bool) -> None:
    """One poll of several descriptors that the layer has. Where none of them ended the wait, there is nothing to wait for."""
    for one, description in ours:
        hear_outside(world, block, description, one.found)
    polled = []
    for one, description in ours:
        block.concern(description)
        own = marks.marks_of(description) if description.kind.is_socket else marks.NO_MARKS
        polled.append(Polled(one.number, frozenset(one.asked | ALWAYS), description.state(), own))
    listed = ",".join(f"{one.number}:{one.letters()}" for one, _ in ours)
    word = "wait" if waits and any(one.found for one, _ in ours) else "now"
    step = Step(process.seat, f"polls {listed} {word}", " ".join(["polled", *(tell(one.found) for one, _ in ours)]), Role.CALL, block=block,
                polled=tuple(polled))
    if process.seat is not None:
        block.steps.append(step)


def conclude(block: Block, said: bool, name: str, how: str = "polls of one descriptor each") -> None:
    if said:
        block.otherwise(how)
    elif block.unknown:
        block.not_at_all(block.unknown)
    else:
        block.leave_out(f"{name} of opaque objects")


def say_asked(world: World, block: Block, process: Process, wanted: list[Asked], args: Arguments, result: Result, name: str) -> None:
    """Says what a call asks of several descriptors by one line, of one or too many by a line each."""
    if len(wanted) < 2 and ended_early(block, result):
        return
    ours = [(one, description) for one in wanted if (description := description_of(block, process, one.number)) is not None]
    if len(wanted) > 1 and 0 < len(ours) <= MOST_POLLED:
        ask_all(world, block, process, ours, may_wait(block.call.name, args))
        if name != "poll" or len(ours) < len(wanted):
            conclude(block, True, name, "a poll of those that the layer has")
        return
    said = False
    for one in wanted:
        said |= ask(world, block, process, one)
    conclude(block, said, name)


def found_nothing(result: Result) -> bool:
    """Whether a signal ended the call: until then it had found nothing, which can be said of several descriptors."""
    return result.error == "EINTR" or result.error.startswith("ERESTART")


def ended_early(block: Block, result: Result) -> bool:
    if result.error or result.value is None:
        block.leave_out(f"{block.call.name} ended by a signal" if result.value is None or result.error == "EINTR"
                        else f"{block.call.name} that failed")
        return True
    return False


def may_wait(name: str, args: Arguments) -> bool:
    """Whether a call's timeout is more than nothing, or none."""
    value = args[TIMEOUTS[name]] if len(args) > TIMEOUTS[name] else None
    value = value.before if isinstance(value, Change) else value
    parts = list(value.values()) if isinstance(value, dict) else [value]
    return any(number_of(part, 1) != 0 for part in parts)


@says("poll", "ppoll")
def say_poll(world: World, block: Block, process: Process, args: Arguments, result: Result) -> None:
    if not found_nothing(result) and ended_early(block, result):
        return
    listed = [one for one in (after(args[0]) if isinstance(after(args[0]), list) else [])
              if isinstance(one, dict) and number_of(one.get("fd"), -1) >= 0]
    ready = reported(result.detail)
    if result.value != len(ready) and not result.error:
        world.doubts.add(doubts.COUNT, block)
    found: dict[int, set] = {}
    for one in ready:
        found.setdefault(number_of(one.get("fd")), set()).update(conditions(flags_of(one.get("revents"))))
    say_asked(world, block, process, asked_of(listed, found), args, result, "poll")


def asked_of(listed: list[dict[str, Any]], found: dict[int, set[str]]) -> list[Asked]:
    """The descriptors of a poll in their order. One that stands there several times is told each time what is asked for then."""
    wanted = [Asked(number_of(one["fd"]), conditions(flags_of(one.get("events"))), set()) for one in listed]
    times = Counter(one.number for one in wanted)
    for one in wanted:
        there = found.get(one.number, set())
        one.found = there if times[one.number] == 1 else there & (one.asked | ALWAYS)
    return wanted


def reported(detail: str):
    """The list that strace writes behind a result, in round brackets."""
    if not detail.startswith("(["):
        return []
    values, _ = arguments(detail[1:])
    return [one for one in values[0] if isinstance(one, dict)]


@says("select", "pselect6", "_newselect")
def say_select(world: World, block: Block, process: Process, args: Arguments, result: Result) -> None:
    if not found_nothing(result) and ended_early(block, result):
        return
    sets = [{number_of(one) for one in after(value)} if isinstance(after(value), list) else set() for value in (args[1], args[2], args[3])]
    ready = [told_set(result.detail, word) for word in ("in", "out")]
    if result.value != sum(map(len, [*ready, told_set(result.detail, "except")])) and not result.error:
        world.doubts.add(doubts.COUNT, block)
    wanted = []
    for number in sorted(sets[0] | sets[1]):
        asked = {bit for bit, there in zip(("IN", "OUT"), sets) if number in there}
        found = {bit for bit, there in zip(("IN", "OUT"), ready) if number in there}
        wanted.append(Asked(number, asked | {"SELECT"}, asked & found))
    say_asked(world, block, process, wanted, args, result, "select")


def told_set(detail: str, word: str):
    found = re.search(rf"\b{word} \[([^\]]*)\]", detail)
    return {int(number) for number in re.findall(r"(?<![\w<\[])(\d+)", found[1])} if found else set()


@says("epoll_ctl")
def say_epoll_ctl(world: World, block: Block, process: Process, args: Arguments, result: Result) -> None:
    slot = process.table.get(number_of(args[0], -1))
    number = number_of(args[2], -1)
    on_unix(block, process.table.get(number))
    if slot and not result.error and result.value is not None:
        watched = slot.description.watched = slot.description.watched or {}
        event = after(args[3]) if len(args) > 3 else None
        if args[1] == "EPOLL_CTL_DEL" or not isinstance(event, dict):
            for key in [key for key, value in watched.items() if value[0] == number]:
                del watched[key]
        else:
            watched[data_key(event)] = (number, flags_of(event.get("events")), process.table.get(number))
    block.leave_out("epoll_ctl")


def data_key(event: Any):
    data = after(event.get("data"))
    return data.get("u64") if isinstance(data, dict) else data


@says("epoll_wait", "epoll_pwait", "epoll_pwait2")
def say_epoll_wait(world: World, block: Block, process: Process, args: Arguments, result: Result) -> None:
    if ended_early(block, result):
        return
    slot = process.table.get(number_of(args[0], -1))
    watched = (slot.description.watched if slot else None) or {}
    events = after(args[1]) if isinstance(after(args[1]), list) else []
    if result.value != len(events) and (events or not result.value):
        world.doubts.add(doubts.COUNT, block)
    said = False
    for event in events:
        known = watched.get(data_key(event)) if isinstance(event, dict) else None
        if known is None:
            continue
        number, asked, registered = known
        there = process.table.get(number)
        if there is None or registered is None or there.description is not registered.description:
            continue
        said |= ask(world, block, process, Asked(number, conditions(asked), conditions(flags_of(event.get("events")))))
    conclude(block, said, "epoll_wait")
