"""connect(2): of a stream or seqpacket socket to a listener, of a datagram socket with a target."""
from __future__ import annotations

from .kernel import Kernel
from .names import UNNAMED, Address, address_in
from .rules import Rule
from .sockets import is_backlog_full, takes_address
from .state import Description, Process, Refusal, Socket

LONGEST_COPIED = 125  # of a name whose address has 128 bytes, which is what move_addr_to_kernel copies


def check_own_state(socket: Socket) -> None:
    """A socket that listens or is connected connects no more."""
    if socket.listens:
        raise Refusal("EINVAL")
    if socket.peer is not None:
        raise Refusal("EISCONN")


def find_listener(kernel: Kernel, socket: Socket, address: Address) -> Socket:
    """The listener that an address leads to, or why no connection can wait there."""
    listener = kernel.look_up(socket.kind, address)
    if not listener.listens or "r" in listener.shut:
        raise Refusal("ECONNREFUSED")
    if is_backlog_full(kernel, listener):
        raise Refusal("EAGAIN")
    return listener


def connect_stream(kernel: Kernel, process: Process, socket: Socket, address: Address) -> None:
    """Connects to the listener that the address leads to."""
    if address == UNNAMED or not takes_address(kernel, address):
        raise Refusal("EINVAL")
    kernel.name_if_asked(socket)
    with kernel.seen_later(Rule.ORDER_OF_CONNECT, lambda: find_listener(kernel, socket, address)):
        check_own_state(socket)
    make_connection(kernel, process, socket, find_listener(kernel, socket, address))


def make_connection(kernel: Kernel, process: Process, client: Socket, listener: Socket) -> None:
    """Makes the server's end, which waits for accept."""
    end = Socket(client.kind, peer=client, name=listener.name, peer_credentials=process.credentials, is_accepted=False)
    if listener.passcred and kernel.follows(Rule.OPTIONS_OF_A_SERVERS_END):
        end.passcred = True
    end.charged += kernel.machine.cost("dgram", 1)
    client.peer = end
    client.peer_credentials = listener.own_credentials
    description = Description(end)
    kernel.hold(description)
    listener.pending.append(description)


def connect_datagram(kernel: Kernel, socket: Socket, address: Address) -> None:
    """Associates a datagram socket with a target, or by the unnamed address with none."""
    if not takes_address(kernel, address):
        raise Refusal("EINVAL")
    target = None
    if address != UNNAMED:
        kernel.name_if_asked(socket)
        target = kernel.look_up(socket.kind, address)
        if target.peer not in (None, socket):
            raise Refusal("EPERM")
    former, socket.peer = socket.peer, target
    if former is not None and former is not target:
        leave_target(kernel, socket, former)


def leave_target(kernel: Kernel, socket: Socket, former: Socket) -> None:
    """On Linux what is queued goes with the association, and a former target in turn is told."""
    if not socket.queue or not kernel.follows(Rule.ASSOCIATION_DROPS_THE_QUEUE):
        return
    for message in socket.queue:
        kernel.drop_message(message)
    socket.queue = []
    if not former.is_gone and former.peer is socket:
        former.is_reset = True


def check_copied(address: Address) -> None:
    """Linux copies an address before it looks at what the descriptor is."""
    if len(address.name) > LONGEST_COPIED:
        raise Refusal("EINVAL")


def call_connect(kernel: Kernel, process: Process, words: list[str]) -> str:
    """connect(2)."""
    address = address_in(words[2])
    kernel.descriptor(process, int(words[1]))
    with kernel.seen_later(Rule.LONG_PATH, lambda: check_copied(address)):
        socket = kernel.socket(process, int(words[1]))
    if socket.is_datagram:
        connect_datagram(kernel, socket, address)
    else:
        connect_stream(kernel, process, socket, address)
    return "ok"
