"""Sockets in one another's queues, which Linux collects (unix_gc, unix_scc_dead and unix_collect_queue of garbage.c)."""
from __future__ import annotations

from typing import TYPE_CHECKING

from .rules import Rule
from .state import Description, Message, Socket

if TYPE_CHECKING:
    from .kernel import Kernel


def queues_of(kernel: Kernel, description: Description) -> list[list[Message]]:
    """The queues that go with a socket: its own, and of a listener those of the ends that wait at it."""
    target = description.target
    if not isinstance(target, Socket):
        return []
    return [target.queue] + [end.target.queue for end in target.pending]


def edges_from_queues(kernel: Kernel) -> dict[Description, list[Description]]:
    """For each socket in flight the sockets in whose queues it lies, once for each right."""
    edges: dict[Description, list[Description]] = {}
    for holder in kernel.descriptions:
        if isinstance(holder.target, Socket) and holder.target.is_accepted:
            for queue in queues_of(kernel, holder):
                for message in queue:
                    for right in message.rights:
                        if isinstance(right.target, Socket):
                            edges.setdefault(right, []).append(holder)
    return edges


def reached(start: Description, edges: dict[Description, list[Description]]) -> set[Description]:
    """What can be reached from a socket by at least one edge."""
    found: set[Description] = set()
    waiting = list(edges.get(start, []))
    while waiting:
        description = waiting.pop()
        if description not in found:
            found.add(description)
            waiting.extend(edges.get(description, []))
    return found


def dead_sockets(edges: dict[Description, list[Description]]) -> list[Description]:
    """Those that lie in cycles which nothing else refers to, and that lead out of no such cycle."""
    ways = {description: reached(description, edges) for description in edges}
    dead = []
    for description in edges:
        if description not in ways[description]:
            continue
        together = {other for other in ways[description] if description in ways.get(other, set())}
        lies_alone = all(holder in together for member in together for holder in edges[member])
        in_flight = all(member.references == len(edges[member]) for member in together)
        if lies_alone and in_flight:
            dead.append(description)
    return dead


def collect(kernel: Kernel) -> bool:
    """Empties the queues of all dead sockets, without a reset of their peers; whether there were any."""
    if Rule.SOCKETS_IN_EACH_OTHERS_QUEUES not in kernel.rules:
        return False
    edges = edges_from_queues(kernel)
    if not edges:
        return False
    dead = dead_sockets(edges)
    if not dead:
        return False
    kernel.follows(Rule.SOCKETS_IN_EACH_OTHERS_QUEUES)
    for description in dead:
        for queue in queues_of(kernel, description):
            for message in queue:
                kernel.drop_message(message)
            queue.clear()
    return True
