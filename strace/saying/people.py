"""Keeps who is who: threads, the processes of the log that they are of, and the processes of the layer that play these."""
from __future__ import annotations

from typing import TYPE_CHECKING

from .model import Process, Seat, mark

if TYPE_CHECKING:
    from .model import Block

# How many processes a script's header may have, and how many there may be in all.
MOST_HEADER = 64
MOST_SEATS = 1000


class People:
    """All threads and processes that the log has shown so far. `orphans` are forks whose child isn't known yet."""

    def __init__(self) -> None:
        self.threads: dict[int, Process] = {}
        self.processes: list[Process] = []
        self.by_pid: dict[int, Process] = {}
        self.seats: list[Seat] = []
        self.orphans: list[tuple[Block, Process]] = []

    def enter(self, process: Process, thread: int) -> None:
        self.processes.append(process)
        self.by_pid[process.pid] = process
        process.threads.add(thread)
        self.threads[thread] = process

    def new_seat(self, user: int, group: int, process: Process, forked: bool = False):
        """A process of the layer, or None where there can be no more."""
        if not forked and sum(not seat.forked for seat in self.seats) >= MOST_HEADER or len(self.seats) >= MOST_SEATS:
            return None
        seat = Seat(len(self.seats), user, group, forked, process=process)
        self.seats.append(seat)
        process.first_seat = process.first_seat or seat
        return seat

    def replace(self, first: int, other: int) -> None:
        """A thread that executed a program has the number of its process's first from now on."""
        process = self.threads.pop(other, None)
        if process:
            process.threads = {first}
            self.threads[first] = process

    def word_of(self, pid: int | None, strictly: bool = False):
        """A process of the log as a script's words and replies tell it: ? where the log doesn't have it, 0 for none."""
        process = self.by_pid.get(pid) if pid is not None else None
        if pid == 0:
            return "0"
        if process is None or process.seat is None or process.first_seat is None:
            return "0" if strictly else "?"
        return mark(process.seat if strictly else process.first_seat)
