"""recv, and read on sockets (recvmsg(2), cmsg(3); unix_stream_read_generic, __unix_dgram_recvmsg and scm.c of Linux)."""
from __future__ import annotations

import struct
from dataclasses import dataclass, field

from .control import CREDENTIALS_LENGTH, CREDENTIALS_SPACE, HEAD, SCM_CREDENTIALS, SOL_SOCKET
from .files import READ_LIMIT
from .kernel import Kernel
from .rules import Rule
from .state import Description, Message, Process, Refusal, Socket

UNSIGNED = (0, 65534, 65534)
NO_PROCESS = (0, 0, 0)
NO_PROCESS_AMONG_OWN_USERS = (0, 65534, 65534)  # user 0 isn't there (user_namespaces(7))


@dataclass
class Front:
    """What a receive takes from the front of a queue."""
    first: Message | None
    data: bytes
    whole: int
    rights: list[Description] = field(default_factory=list)


@dataclass
class Asked:
    """What a receive asks for: bytes, control space, and flags by their letters; and whether it doesn't wait for them."""
    wanted: int
    space: int
    flags: str
    at_once: bool = False

    @property
    def peeks(self) -> bool:
        """MSG_PEEK."""
        return "p" in self.flags


def told_credentials(message: Message) -> tuple[int, int, int]:
    """The credentials that a message tells: nobody's, where Linux kept none."""
    return message.credentials if message.is_signed else UNSIGNED


# ---- fronts

def stream_front(kernel: Kernel, socket: Socket, asked: Asked) -> Front:
    """The first bytes of a stream, up to and with the first message with rights, and of one sender's credentials."""
    first, taken = socket.queue[0], bytearray()
    goes_on = asked.peeks and kernel.follows(Rule.RIGHTS_BEHIND_A_PEEK)
    rights: list[Description] = []
    for message in socket.queue:
        if socket.passcred and told_credentials(message) != told_credentials(first):
            break
        if message is not first and len(taken) == asked.wanted and not goes_on:
            break
        taken += message.data[:asked.wanted - len(taken)]
        if message.rights:
            rights = message.rights
            break
    return Front(first, bytes(taken), len(taken), rights)


def take_stream(kernel: Kernel, socket: Socket, count: int) -> None:
    """Takes the first bytes off; a message of which one was taken, or nothing was asked, keeps no rights."""
    while socket.queue:
        message = socket.queue[0]
        if count >= len(message.data):
            count -= len(message.data)
            socket.queue.pop(0)
            kernel.drop_message(message)
            if count == 0:
                return
            continue
        message.data = message.data[count:]
        for right in message.rights:
            kernel.release(right)
        message.rights = []
        return


def front_of(kernel: Kernel, socket: Socket, asked: Asked) -> Front:
    """What a receive takes, by the socket's type."""
    if socket.kind == "stream":
        return stream_front(kernel, socket, asked)
    first = socket.queue[0]
    return Front(first, first.data[:asked.wanted], len(first.data), first.rights)


# ---- what comes along

@dataclass
class Delivery:
    """What the control space tells, the numbers that rights got, and whether something was left out."""
    parts: list[str]
    numbers: list[int]
    cut: bool


def nobodys_credentials(kernel: Kernel) -> tuple[int, int, int]:
    """What Linux tells where nobody has sent anything."""
    return NO_PROCESS_AMONG_OWN_USERS if kernel.machine.own_users else NO_PROCESS


def cut_credentials(space: int, credentials: tuple[int, int, int]) -> str:
    """An item of credentials that Linux cuts to the space (put_cmsg)."""
    item = struct.pack("<QII", space, SOL_SOCKET, SCM_CREDENTIALS) + struct.pack("<III", *credentials)
    return "x:" + item[:space].hex()


def deliver(kernel: Kernel, process: Process, socket: Socket, asked: Asked, front: Front) -> Delivery:
    """Credentials where they are wanted, then rights at the lowest free numbers."""
    parts, cut, space = [], False, asked.space
    if socket.passcred:
        credentials = told_credentials(front.first) if front.first else nobodys_credentials(kernel)
        if space >= CREDENTIALS_LENGTH:
            parts.append("c:{},{},{}".format(*credentials))
            space = max(0, space - CREDENTIALS_SPACE)
        else:
            cut = True
            if space >= HEAD and kernel.follows(Rule.CREDENTIALS_CUT):
                parts.append(cut_credentials(space, credentials))
                space = 0
    fit = max(0, space - HEAD) // 4
    numbers = process.free_numbers(min(len(front.rights), fit))
    if numbers:
        parts.append("r:" + ",".join(map(str, numbers)))
    return Delivery(parts, numbers, cut or len(numbers) < len(front.rights))


def sender_name(kernel: Kernel, socket: Socket, front: Front) -> str:
    """The name that a receive tells: here a datagram's alone, as it was when it was sent."""
    sender = front.first.sender
    if socket.is_datagram:
        is_newly_named = sender.has_name and not front.first.was_named
        name = sender.name if is_newly_named and kernel.follows(Rule.SENDER_NAMED_LATER) else front.first.name
        return "-" if name.kind == "u" and kernel.follows(Rule.UNNAMED_SENDER) else str(name)
    rule = Rule.SENDER_OF_A_STREAM if socket.kind == "stream" else Rule.RECORD_END
    return str(sender.name) if sender.has_name and kernel.follows(rule) else "-"


def flags_told(kernel: Kernel, socket: Socket, was_cut: bool, control_cut: bool) -> str:
    """TRUNC, CTRUNC, and of a record EOR."""
    ends = socket.kind == "seq" and not kernel.follows(Rule.RECORD_END)
    return "|".join(name for name, told in (("TRUNC", was_cut), ("CTRUNC", control_cut), ("EOR", ends)) if told) or "-"


def receive_front(kernel: Kernel, process: Process, socket: Socket, asked: Asked) -> str:
    """Something waits: takes or shows it, and installs its rights."""
    front = front_of(kernel, socket, asked)
    made = deliver(kernel, process, socket, asked, front)
    name = sender_name(kernel, socket, front)
    for number, right in zip(made.numbers, front.rights):
        kernel.put(process, number, right, "x" in asked.flags)
    if not asked.peeks:
        if socket.kind == "stream":
            take_stream(kernel, socket, len(front.data))
        else:
            kernel.drop_message(socket.queue.pop(0))
    count = front.whole if "t" in asked.flags else len(front.data)
    flags = flags_told(kernel, socket, len(front.data) < front.whole, made.cut)
    return f"got {count} {front.data.hex() or '-'} {flags} {'+'.join(made.parts) or '-'} {name}"


# ---- nothing waits

def receive_end(kernel: Kernel, process: Process, socket: Socket, asked: Asked) -> str:
    """The end of input; on Linux a stream socket with SO_PASSCRED tells credentials of nobody."""
    if socket.kind != "stream" or not socket.passcred or not kernel.follows(Rule.CREDENTIALS_OF_NOTHING):
        return "got 0 - - - -"
    made = deliver(kernel, process, socket, asked, Front(None, b"", 0))
    return f"got 0 - {'CTRUNC' if made.cut else '-'} {'+'.join(made.parts) or '-'} -"


def check_error(socket: Socket) -> None:
    """A pending ECONNRESET is answered, and cleared."""
    if socket.is_reset:
        socket.is_reset = False
        raise Refusal("ECONNRESET")


def receive_datagram(kernel: Kernel, process: Process, socket: Socket, asked: Asked) -> str:
    """At a datagram socket."""
    if socket.is_reset and kernel.follows(Rule.ASSOCIATION_DROPS_THE_QUEUE):
        check_error(socket)
    if socket.queue:
        return receive_front(kernel, process, socket, asked)
    if "r" in socket.shut and (not asked.at_once or not kernel.follows(Rule.DATAGRAM_SOCKET_SHUT_FOR_READING)):
        return "got 0 - - - -"
    raise Refusal("EAGAIN")


def receive_tied(kernel: Kernel, process: Process, socket: Socket, asked: Asked) -> str:
    """At a stream or seqpacket socket."""
    is_stream = socket.kind == "stream"
    if socket.peer is None:
        is_invalid = is_stream and kernel.follows(Rule.RECEIVE_OF_AN_UNCONNECTED_STREAM)
        raise Refusal("EINVAL" if is_invalid else "ENOTCONN")
    if is_stream and asked.wanted == 0 and not kernel.follows(Rule.RECEIVE_OF_NOTHING):
        return "got 0 - - - -"
    if not is_stream and socket.is_reset and kernel.follows(Rule.RESET_BEFORE_RECORDS):
        check_error(socket)
    if socket.queue:
        return receive_front(kernel, process, socket, asked)
    check_error(socket)
    if socket.is_shut("r") or socket.peer.is_gone:
        return receive_end(kernel, process, socket, asked)
    raise Refusal("EAGAIN")


def receive(kernel: Kernel, process: Process, socket: Socket, asked: Asked) -> str:
    """recvmsg(2) by what the socket is."""
    how = receive_datagram if socket.is_datagram else receive_tied
    return how(kernel, process, socket, asked)


def call_recv(kernel: Kernel, process: Process, words: list[str]) -> str:
    """recvmsg(2)."""
    socket = kernel.socket(process, int(words[1]))
    at_once = "d" in words[4] or process.table[int(words[1])].description.nonblocking
    return receive(kernel, process, socket, Asked(int(words[2]), int(words[3]), words[4], at_once))


def read_socket(kernel: Kernel, process: Process, description: Description, wanted: int) -> str:
    """read(2) on a socket: a receive without flags and control space, which answers the bytes alone."""
    if wanted == 0 and kernel.follows(Rule.READ_OF_NO_BYTES):
        return "bytes -"
    asked = Asked(min(wanted, READ_LIMIT), 0, "-", description.nonblocking)
    return "bytes " + receive(kernel, process, description.target, asked).split(" ")[2]
