"""Makes processes: any process of the script forks, as it is serial; one that becomes who it can't be hands its table over.

A process of the layer that gave its privileges up has no way back, as a program has that saved them. So it goes on as another
of the header, which gets its descriptors by a datagram with rights."""
from __future__ import annotations

from typing import TYPE_CHECKING

from .model import Process, Role, Slot, mark

if TYPE_CHECKING:
    from .model import Block, Seat
    from .world import World

MOST_RIGHTS = 253


def chunks(values: list, size: int):
    return [values[at:at + size] for at in range(0, len(values), size)]


def fork(world: World, block: Block, parent: Process, thread: int):
    """The child of a process, with a copy of its table."""
    table = {number: Slot(slot.description, slot.on_exec) for number, slot in parent.table.items()}
    child = Process(thread, parent, table, parent.folder, parent.program, user=parent.user, group=parent.group,
                    privileged=parent.privileged, users=parent.users, groups=parent.groups)
    child.unseen, child.root = set(parent.unseen), parent.root
    world.people.enter(child, thread)
    child.birth = block
    for slot in table.values():
        if slot.description.thing is not None:
            slot.description.thing.ends += 1
    if parent.unsaid or parent.seat is None:
        child.unsaid = parent.unsaid
        return child
    child.seat = world.people.new_seat(parent.user, parent.group, child, forked=True)
    if child.seat:
        world.step(block, parent.seat, "fork", f"child {mark(child.seat)}")
    else:
        child.unsaid = "more processes than a script has"
        block.not_at_all(child.unsaid)
    return child


def go_on_as(world: World, block: Block, process: Process, user: int, group: int) -> None:
    """The process goes on as another one of the header, with other ids."""
    process.user, process.group, process.privileged = user, group, user == 0
    seat = world.people.new_seat(user, group, process) if process.seat else None
    if seat is None or process.seat is None:
        block.not_at_all("a change of user that the layer refuses")
        return
    hand_over(world, block, process.seat, seat, process.table)
    world.step(block, process.seat, "exit", role=Role.HAND_OVER)
    process.seat = seat
    block.otherwise("a change of user that the layer refuses: another process of the script gets the table")


def hand_over(world: World, block: Block, giver: Seat, taker: Seat, table: dict[int, Slot]) -> None:
    """The lines by which one process gets the descriptors of another under the same numbers."""
    numbers = sorted(table)

    def line(seat: Seat, words: str) -> None:
        world.step(block, seat, words, role=Role.HAND_OVER)

    if not numbers:
        return
    free = next(number for number in range(len(numbers) + 1) if number not in table)
    line(taker, "socket dgram -")
    line(taker, f"bind 0 a:~{taker.key}")
    line(giver, "socket dgram -")
    for part in chunks(numbers, MOST_RIGHTS):
        line(giver, f"send {free} a:~{taker.key} - r:{','.join(map(str, part))} -")
        line(taker, "recv 0 0 2048 -")
    line(giver, f"close {free}")
    for words in placing(numbers):
        line(taker, words)
    for number in numbers:
        if table[number].on_exec:
            line(taker, f"flags {number} {world.letters(table[number].description, True)}")


def take_from(world: World, block: Block, giver: Process, number: int, taker: Process, wanted: int, on_exec: bool) -> None:
    """The lines by which a process gets one descriptor of another, as pidfd_getfd(2) does: a copy, under the lowest free number."""
    description = giver.table[number].description
    name = f"a:~taken{len(world.blocks)}"
    lowest, free = taker.lowest_numbers(2), giver.lowest()
    for seat, words in ((taker.seat, "socket dgram -"), (taker.seat, f"bind {lowest[0]} {name}"), (giver.seat, "socket dgram -"),
                        (giver.seat, f"send {free} {name} - r:{number} -"), (giver.seat, f"close {free}"),
                        (taker.seat, f"recv {lowest[0]} 0 64 -"), (taker.seat, f"dup2 {lowest[1]} {lowest[0]}"),
                        (taker.seat, f"close {lowest[1]}")):
        world.step(block, seat, words, role=Role.HAND_OVER)
    world.move(block, taker, lowest[0], wanted, description, on_exec)
    if lowest[0] == wanted and on_exec:
        world.step(block, taker.seat, f"flags {wanted} {world.letters(description, True)}", role=Role.HAND_OVER)
    taker.table[wanted] = Slot(description, on_exec)
    if description.thing is not None:
        description.thing.ends += 1


def placing(numbers: list[int]):
    """Moves descriptors that came as 1, 2, .. to the numbers wanted, which rise; 0 is the socket that they came over."""
    lines = []
    count = len(numbers)
    kept = sum(number == place for place, number in enumerate(numbers))
    for place in range(count - 1, kept - 1, -1):
        if numbers[place] != place + 1:
            lines += [f"dup2 {place + 1} {numbers[place]}", f"close {place + 1}"]
    for place in range(kept):
        lines.append(f"dup2 {place + 1} {place}")
    last = kept if kept else 0
    if last not in numbers:
        lines.append(f"close {last}")
    return lines
