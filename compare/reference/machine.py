"""What the answers of a Linux machine depend on: its limits, and what a message costs its sender (socket(7))."""
from __future__ import annotations

from dataclasses import dataclass, field


FIRST_PAGE = [(0, 768), (193, 1280), (705, 2304), (1729, 4352)]


def datagram_costs() -> list[tuple[int, int]]:
    """Where what a datagram costs on x86-64 changes: what is beyond 16,064 bytes of it lies in pages."""
    return [*FIRST_PAGE, (3777, 8448), (7873, 16640), *((16065 + 4096 * page, 20736 + 4096 * page) for page in range(13))]


def stream_costs() -> list[tuple[int, int]]:
    """The same of a stream's message: what is beyond 3,776 bytes of it."""
    return FIRST_PAGE + [(3777 + 4096 * (page - 1) if least == 0 else 4096 * page + least, 4096 * page + cost)
                         for page in range(1, 9) for least, cost in FIRST_PAGE]


@dataclass
class Machine:
    """Figures of a machine, as `linux_replay --machine` measures and prints them; those given here are of x86-64 and ext4.

    `peer_first` says that a datagram without an address finds no peer before all else is looked at, as before Linux 6.14; `users_apart`
    that the replay's processes are of as many users as the script's, which it can have of the superuser alone; `own_users` that these are
    the run's own, in a name space of users (user_namespaces(7)), so that processes can change their ids there; `message` of how many
    bytes of a send a stream makes a message.
    """
    send_buffer: int = 212992
    datagrams: int = 10
    backlog: int = 4096
    greatest_offset: int = 17592186040320
    page: int = 4096
    pipe_pages: int = 16
    peer_first: int = 0
    users_apart: int = 1
    own_users: int = 1
    message: int = 36544
    costs: list[tuple[int, int]] = field(default_factory=datagram_costs)
    stream_costs: list[tuple[int, int]] = field(default_factory=stream_costs)

    def cost(self, kind: str, length: int) -> int:
        """The memory that a message of so many bytes is charged to its sender; of a stream's send all of its messages."""
        if kind != "stream":
            return figure_at(self.costs, length)
        whole, rest = divmod(length, self.message)
        costs = whole * figure_at(self.stream_costs, self.message)
        return costs + (figure_at(self.stream_costs, rest) if rest or not whole else 0)


def figure_at(figures: list[tuple[int, int]], length: int) -> int:
    """The last figure that begins at or before a length."""
    return next((cost for least, cost in reversed(figures) if least <= length), 0)


def read(text: str) -> Machine:
    """The machine that lines of names and figures tell."""
    machine = Machine(costs=[], stream_costs=[])
    lists = {"cost": machine.costs, "stream_cost": machine.stream_costs}
    for line in text.splitlines():
        name, *figures = line.split()
        if name in lists:
            lists[name].append((int(figures[0]), int(figures[1])))
        else:
            setattr(machine, name, int(figures[0]))
    return machine
