"""Finds an order of calls, made by processes at the same time, in which the reference gives all their answers."""
from __future__ import annotations

from copy import deepcopy
from dataclasses import dataclass

from reference.machine import Machine
from reference.rules import ALL_RULES, Rule
from reference.script import CallLine, Script
from reference.state import Socket
from reference.trace import Run

WAITING_CALLS = {"read", "write", "connect", "accept", "send", "recv"}
MOST_STEPS = 20000


@dataclass
class Event:
    """A call that was begun and answered at these moments."""
    begun: int
    ended: int
    call: CallLine
    reply: str


def may_wait(run: Run, call: CallLine) -> bool:
    """Whether the call waits where it can't be done yet (O_NONBLOCK, MSG_DONTWAIT, the timeout of a poll)."""
    if call.words[0] == "polls":
        return call.words[2] == "wait"
    if call.words[0] not in WAITING_CALLS:
        return False
    found = run.kernel.processes[call.pid - 1].table.get(int(call.words[1]))
    asks = call.words[0] in ("send", "recv") and "d" in call.words[-1]
    return found is not None and not found.description.nonblocking and not asks


def make_waiting(run: Run, call: CallLine) -> str:
    """Makes a call as one that waits, and answers its reply; one that would wait is EAGAIN, and has changed nothing."""
    run.kernel.waits = may_wait(run, call)
    try:
        return run.make(call).reply
    finally:
        run.kernel.waits = False


def socket_is_reset(run: Run, call: CallLine) -> bool:
    """Whether the call's socket has a pending ECONNRESET."""
    found = run.kernel.processes[call.pid - 1].table.get(int(call.words[1]))
    return found is not None and isinstance(found.description.target, Socket) and found.description.target.is_reset


def is_woken_by_reset(run: Run, event: Event, reply: str) -> bool:
    """A sender that waits for memory is told the reset before the broken pipe (sock_alloc_send_pskb of Linux)."""
    if event.call.words[0] not in ("send", "write") or (event.reply, reply) != ("err ECONNRESET", "err EPIPE"):
        return False
    if not may_wait(run, event.call) or not socket_is_reset(run, event.call):
        return False
    run.kernel.processes[event.call.pid - 1].table[int(event.call.words[1])].description.target.is_reset = False
    return True


def is_answered_so(run: Run, event: Event) -> bool:
    """Makes the event's call, and says whether its reply is the event's."""
    waits = may_wait(run, event.call)
    reply = make_waiting(run, event.call)
    if waits and reply == "err EAGAIN":
        return False
    return reply == event.reply or is_woken_by_reset(run, event, reply)


class Search:
    """A search for an order. Calls of a process keep theirs, and a call that ended before another began stands before it."""

    def __init__(self, script: Script, events: list[Event], stuck: list[CallLine], machine: Machine):
        self.start = Run(script, ALL_RULES, machine)
        self.stuck = stuck
        self.queues: dict[int, list[Event]] = {}
        for event in sorted(events, key=lambda event: event.begun):
            self.queues.setdefault(event.call.pid, []).append(event)
        self.steps = 0
        self.collects = False
        self.best: list[Event] = []

    def candidates(self, at: dict[int, int]) -> list[Event]:
        """The events that may come next, those that ended first before the others."""
        heads = [queue[at[pid]] for pid, queue in self.queues.items() if at[pid] < len(queue)]
        earliest = min((event.ended for event in heads), default=0)
        return sorted((event for event in heads if event.begun <= earliest), key=lambda event: event.ended)

    def is_stuck(self, run: Run) -> bool:
        """Whether each call that wasn't answered would wait."""
        for call in self.stuck:
            if not may_wait(run, call) or make_waiting(deepcopy(run), call) != "err EAGAIN":
                return False
        return True

    def find(self) -> list[Event] | None:
        """Such an order, or None."""
        return self.go_on(self.start, dict.fromkeys(self.queues, 0), [])

    def go_on(self, run: Run, at: dict[int, int], order: list[Event]) -> list[Event] | None:
        """An order that begins so."""
        if len(order) > len(self.best):
            self.best = order
        candidates = self.candidates(at)
        if not candidates:
            return order if self.is_stuck(run) else None
        for event in candidates:
            self.steps += 1
            if self.steps > MOST_STEPS:
                return None
            tried = deepcopy(run)
            is_right = is_answered_so(tried, event)
            self.collects |= Rule.SOCKETS_IN_EACH_OTHERS_QUEUES in tried.kernel.used
            if not is_right:
                continue
            found = self.go_on(tried, {**at, event.call.pid: at[event.call.pid] + 1}, [*order, event])
            if found is not None:
                return found
        return None
