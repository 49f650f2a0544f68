"""send and write on sockets (sendmsg(2); unix_stream_sendmsg, unix_dgram_sendmsg and __scm_send of Linux)."""
from __future__ import annotations

from dataclasses import dataclass, field, replace

from .control import RIGHTS_LIMIT, Item, buffer_in, is_read_alike, items_by_grammar, items_by_linux
from .kernel import Kernel, refusal_of
from .names import UNNAMED, Address, address_in
from .rooms import is_too_long, is_used_up, message_sizes, taken
from .rules import Rule
from .script import bytes_of
from .sockets import takes_address
from .state import Description, Message, Process, Refusal, Socket

@dataclass
class Sending:
    """A send of a process from a socket: what it gives, as far as that was judged."""
    process: Process
    socket: Socket
    address: Address | None
    data: bytes
    rights: list[Description] = field(default_factory=list)
    credentials: tuple[int, int, int] | None = None


# ---- what the caller gives

def descriptions_behind(sending: Sending, numbers: list[int]) -> list[Description]:
    """What the numbers lead to, or EBADF."""
    table = sending.process.table
    if any(number not in table for number in numbers):
        raise Refusal("EBADF")
    return [table[number].description for number in numbers]


def give_credentials(kernel: Kernel, sending: Sending, given: tuple[int, int, int]) -> None:
    """Has the message tell these credentials, where the sender may give them. An ordinary user's replay gives its own instead."""
    is_other = given != sending.process.credentials
    if sending.process.privileged and is_other and not kernel.machine.own_users and kernel.follows(Rule.PRIVILEGE):
        given = sending.process.credentials
    if sending.process.privileged:
        pid = given[0]
        if not 1 <= pid <= len(kernel.processes) or kernel.processes[pid - 1].has_exited:
            raise Refusal("ESRCH")
    elif given != sending.process.credentials:
        raise Refusal("EPERM")
    sending.credentials = given


def judge_as_they_come(kernel: Kernel, sending: Sending, items: list[Item]) -> None:
    """Linux judges each item as it comes, with its rights."""
    for item in items:
        if item.error:
            raise Refusal(item.error)
        if item.credentials is not None:
            give_credentials(kernel, sending, item.credentials)
        elif len(item.rights) > RIGHTS_LIMIT or (item.rights and len(sending.rights) + len(item.rights) > RIGHTS_LIMIT):
            raise Refusal("EINVAL")
        else:
            sending.rights += descriptions_behind(sending, item.rights)


def check_rights_have_data(kernel: Kernel, sending: Sending, count: int) -> None:
    """Rights go with a byte of a stream at least; on Linux they are lost instead."""
    if sending.socket.kind == "stream" and count and not sending.data and not kernel.follows(Rule.RIGHTS_WITHOUT_DATA):
        raise Refusal("EINVAL")


def judge_in_order(kernel: Kernel, sending: Sending, items: list[Item] | None) -> None:
    """The layer judges the buffer, then all rights, then credentials; on Linux credentials that stand first come first."""
    if items is None:
        raise Refusal("EINVAL")

    def look_at_credentials() -> None:
        for item in items:
            if item.credentials is not None:
                give_credentials(kernel, sending, item.credentials)
    stand_first = bool(items) and items[0].credentials is not None
    with kernel.seen_later(Rule.ORDER_OF_SEND, *([look_at_credentials] if stand_first else [])):
        numbers = [number for item in items for number in item.rights]
        if len(numbers) > RIGHTS_LIMIT:
            raise Refusal("EINVAL")
        check_rights_have_data(kernel, sending, len(numbers))
        sending.rights = descriptions_behind(sending, numbers)
    look_at_credentials()


def is_none_to_linux(kernel: Kernel, sending: Sending, items: list[Item]) -> bool:
    """Whether Linux refuses a buffer as one that isn't understood."""
    refusal = refusal_of(lambda: judge_as_they_come(kernel, replace(sending, rights=[]), items))
    return refusal is not None and refusal.reply == "err EINVAL"


def judge_buffer(kernel: Kernel, sending: Sending, buffer: bytes) -> None:
    """What a control buffer gives. Linux takes some that are no lists of items."""
    found = items_by_linux(buffer)
    is_alike = is_read_alike(buffer) or is_none_to_linux(kernel, sending, found)
    if not is_alike and kernel.follows(Rule.CONTROL_THAT_IS_NONE):
        judge_as_they_come(kernel, sending, found)
        check_rights_have_data(kernel, sending, len(sending.rights))
    else:
        judge_in_order(kernel, sending, items_by_grammar(buffer))


def judge_address(kernel: Kernel, sending: Sending) -> None:
    """EINVAL of an address that is none. Linux doesn't look at one that is given to a stream, which refuses any."""
    ignored = sending.socket.kind == "seq" and kernel.follows(Rule.ADDRESS_AT_A_SEQPACKET_SOCKET)
    if sending.address is None or ignored:
        return
    with kernel.seen_later(Rule.ORDER_OF_SEND, *([lambda: check_tied(kernel, sending)] if sending.socket.kind == "stream" else [])):
        if sending.address == UNNAMED or not takes_address(kernel, sending.address):
            raise Refusal("EINVAL")


# ---- room

def check_memory(kernel: Kernel, sending: Sending) -> None:
    """EAGAIN where a sender's memory is used up, which Linux finds before other things that refuse."""
    if is_used_up(kernel, sending.socket):
        raise Refusal("EAGAIN")


def limit_of(kernel: Kernel, process: Process) -> int | None:
    """How many rights its user may have in flight; a privileged process has no limit."""
    return None if process.privileged else process.limit


def check_rights_in_flight(kernel: Kernel, sending: Sending) -> None:
    """ETOOMANYREFS: here where those of this send would be too many, on Linux where those before it are, also of others."""
    process, limit, ours = sending.process, limit_of(kernel, sending.process), len(sending.rights)
    if not ours:
        return
    own = kernel.rights_in_flight(process.uid)
    there = kernel.rights_in_flight(process.uid, not kernel.machine.users_apart)
    if kernel.either(Rule.LIMIT_OF_RIGHTS_IN_FLIGHT, not process.privileged and own + ours > process.limit,
                     lambda: limit is not None and own + ours > limit, lambda: there > process.limit):
        raise Refusal("ETOOMANYREFS")


def part_that_fits(kernel: Kernel, sending: Sending, target: Socket) -> bytes:
    """What the target's queue takes of the bytes, or EAGAIN."""
    count = taken(kernel, sending.socket, target, len(sending.data))
    if count is None:
        raise Refusal("EAGAIN")
    return sending.data[:count]


def check_length(kernel: Kernel, sending: Sending) -> None:
    """EMSGSIZE of a datagram or record that is too long."""
    if sending.socket.kind != "stream" and is_too_long(kernel, len(sending.data)):
        raise Refusal("EMSGSIZE")


def enqueue(kernel: Kernel, sending: Sending, target: Socket, data: bytes) -> int:
    """Puts what fits into the target's queue, on Linux as several messages where it is long."""
    at = 0
    for size in message_sizes(kernel, sending.socket, len(data)):
        put_message(kernel, sending, target, data[at:at + size])
        sending.rights = []
        at += size
    return len(data)


def put_message(kernel: Kernel, sending: Sending, target: Socket, data: bytes) -> None:
    """One message, with the rights of the send."""
    sender, process = sending.socket, sending.process
    is_signed = bool(sending.credentials) or sender.passcred or target.passcred or not target.is_accepted or \
        not kernel.follows(Rule.CREDENTIALS_ASKED_FOR_LATER)
    message = Message(data, sending.rights, sending.credentials or process.credentials, process.uid, sender.name, sender,
                      is_signed, sender.has_name, kernel.machine.cost(sender.kind, len(data)))
    for right in message.rights:
        kernel.hold(right)
    sender.charged += message.cost
    target.queue.append(message)


# ---- in the layer's order

def check_tied(kernel: Kernel, sending: Sending) -> Socket:
    """The peer of a stream or seqpacket socket that sends, or why it can't."""
    socket = sending.socket
    ignored = socket.kind == "seq" and kernel.follows(Rule.ADDRESS_AT_A_SEQPACKET_SOCKET)
    if sending.address is not None and not ignored:
        raise Refusal("EISCONN" if socket.peer is not None else "EOPNOTSUPP")
    if socket.peer is None:
        raise Refusal("ENOTCONN")
    return socket.peer


def check_record_error(kernel: Kernel, socket: Socket) -> None:
    """On Linux a pending error of a seqpacket or datagram socket comes before all else, once."""
    rule = Rule.RESET_BEFORE_RECORDS if socket.kind == "seq" else Rule.ASSOCIATION_DROPS_THE_QUEUE
    if socket.kind != "stream" and socket.is_reset and kernel.follows(rule):
        socket.is_reset = False
        raise Refusal("ECONNRESET")


def send_tied(kernel: Kernel, sending: Sending) -> int:
    """To the peer of a stream or seqpacket socket."""
    peer = check_tied(kernel, sending)
    if sending.socket.kind == "seq":
        kernel.name_if_asked(sending.socket)
    if sending.socket.is_shut("w") or peer.is_gone:
        raise Refusal("EPIPE")
    if sending.socket.kind == "stream" and not sending.data:
        return 0
    check_length(kernel, sending)
    with kernel.seen_later(Rule.ORDER_OF_SEND, lambda: check_memory(kernel, sending)):
        check_rights_in_flight(kernel, sending)
    data = part_that_fits(kernel, sending, peer)
    if "r" in peer.shut:
        raise Refusal("EPIPE")
    return enqueue(kernel, sending, peer, data)


def check_destination(kernel: Kernel, sending: Sending) -> None:
    """Without an address there must be a target."""
    if sending.address is None and sending.socket.peer is None:
        raise Refusal("ENOTCONN" if kernel.follows(Rule.DESTINATION_REQUIRED) else "EDESTADDRREQ")


class LostTarget(Refusal):
    """The target of an association is gone."""


def target_of(kernel: Kernel, sending: Sending) -> Socket:
    """Where a datagram goes, or why it can't."""
    if sending.address is None:
        check_destination(kernel, sending)
        if sending.socket.peer.is_gone:
            raise LostTarget("ECONNREFUSED")
    target = sending.socket.peer if sending.address is None else kernel.look_up("dgram", sending.address)
    if target.peer not in (None, sending.socket):
        raise Refusal("EPERM")
    if "r" in target.shut:
        raise Refusal("EPIPE")
    return target


def end_association(kernel: Kernel, socket: Socket) -> None:
    """The target is gone: nobody is associated any more, and on Linux what is queued goes too."""
    socket.peer = None
    if socket.queue and kernel.follows(Rule.ASSOCIATION_DROPS_THE_QUEUE):
        for message in socket.queue:
            kernel.drop_message(message)
        socket.queue = []


def send_datagram(kernel: Kernel, sending: Sending) -> int:
    """To the address that was given, or to the target, which ends the association where it is gone."""
    if kernel.machine.peer_first and kernel.follows(Rule.ORDER_OF_SEND):
        check_destination(kernel, sending)
    kernel.name_if_asked(sending.socket)
    check_length(kernel, sending)
    check_record_error(kernel, sending.socket)
    if "w" in sending.socket.shut:
        raise Refusal("EPIPE")
    looks = [lambda: check_memory(kernel, sending), lambda: check_rights_in_flight(kernel, sending)]
    try:
        with kernel.seen_later(Rule.ORDER_OF_SEND, *looks):
            target = target_of(kernel, sending)
    except LostTarget:
        end_association(kernel, sending.socket)
        raise
    with kernel.seen_later(Rule.ORDER_OF_SEND, looks[0]):
        check_rights_in_flight(kernel, sending)
    return enqueue(kernel, sending, target, part_that_fits(kernel, sending, target))


# ---- the calls

def check_linux_seqpacket(kernel: Kernel, sending: Sending) -> None:
    """What Linux looks at before it reads the items (unix_seqpacket_sendmsg)."""
    check_record_error(kernel, sending.socket)
    if sending.socket.peer is None:
        raise Refusal("ENOTCONN")


def send_message(kernel: Kernel, sending: Sending, control: str) -> int:
    """sendmsg(2) by what the socket is, in the layer's order of errors or Linux's."""
    is_seq = sending.socket.kind == "seq"
    with kernel.seen_later(Rule.ORDER_OF_SEND, *([lambda: check_linux_seqpacket(kernel, sending)] if is_seq else [])):
        judge_buffer(kernel, sending, buffer_in(control))
        judge_address(kernel, sending)
    if is_seq:
        check_record_error(kernel, sending.socket)
    return send_datagram(kernel, sending) if sending.socket.is_datagram else send_tied(kernel, sending)


def is_refused_flag(kernel: Kernel, flags: str) -> bool:
    """Whether there is a flag that a send has no use for, which Linux ignores."""
    return bool(set(flags) & set("ptx")) and not kernel.follows(Rule.SEND_FLAGS)


def call_send(kernel: Kernel, process: Process, words: list[str]) -> str:
    """sendmsg(2)."""
    socket = kernel.socket(process, int(words[1]))
    if is_refused_flag(kernel, words[5]):
        raise Refusal("EINVAL")
    address = None if words[2] == "-" else address_in(words[2])
    return f"n {send_message(kernel, Sending(process, socket, address, bytes_of(words[3])), words[4])}"


def write_socket(kernel: Kernel, process: Process, socket: Socket, data: bytes) -> int:
    """write(2) on a socket: a send without address, control and flags."""
    return send_message(kernel, Sending(process, socket, None, data), "-")
