"""socket, pair, bind, listen, accept, shut, options and names (bind(2), listen(2), accept(2), unix(7))."""
from __future__ import annotations

from . import agreed
from .kernel import Kernel
from .names import UNNAMED, Address, address_in, is_valid
from .rules import Rule
from .state import Description, Process, Refusal, Socket

TYPE_NUMBERS = {"stream": 1, "dgram": 2, "seq": 5}
BACKLOG_LIMIT = 128
GREATEST_QUEUE_LIMIT = 1 << 20
ECONNRESET_NUMBER = 20
NOBODYS_CREDENTIALS = (0, 4294967295, 4294967295)
LONGEST_LINUX_PATH = 108


def takes_address(kernel: Kernel, address: Address) -> bool:
    """Whether bind, connect and send take the address; the unnamed one is judged by each."""
    if address.kind == "p" and len(address.name) == LONGEST_LINUX_PATH and kernel.follows(Rule.LONG_PATH):
        return True
    return is_valid(address)


def call_socket(kernel: Kernel, process: Process, words: list[str]) -> str:
    """socket(2)."""
    number = kernel.free_number(process)
    kernel.put(process, number, Description(Socket(words[1]), "rw", "a" in words[2], "n" in words[2]), "x" in words[2])
    return f"fd {number}"


def call_pair(kernel: Kernel, process: Process, words: list[str]) -> str:
    """socketpair(2)."""
    numbers = process.free_numbers(2)
    if len(numbers) < 2:
        raise Refusal("EMFILE")
    ends = [Socket(words[1], peer_credentials=process.credentials) for _ in numbers]
    ends[0].peer, ends[1].peer = ends[1], ends[0]
    for number, end in zip(numbers, ends):
        kernel.put(process, number, Description(end, "rw", "a" in words[2], "n" in words[2]), "x" in words[2])
    return f"fds {numbers[0]} {numbers[1]}"


def check_path_is_free(kernel: Kernel, address: Address) -> None:
    """No path can be had twice."""
    if address.kind == "p" and address.name in kernel.paths:
        raise Refusal("EADDRINUSE")


def call_bind(kernel: Kernel, process: Process, words: list[str]) -> str:
    """bind(2)."""
    socket = kernel.socket(process, int(words[1]))
    address = address_in(words[2])
    if address == UNNAMED and socket.has_name and kernel.follows(Rule.BIND_AGAIN):
        return "ok"
    if not takes_address(kernel, address):
        raise Refusal("EINVAL")
    with kernel.seen_later(Rule.ORDER_OF_BIND, lambda: check_path_is_free(kernel, address)):
        if socket.has_name:
            raise Refusal("EINVAL")
    if address == UNNAMED:
        kernel.autobind(socket)
    elif address.kind == "p":
        check_path_is_free(kernel, address)
        kernel.paths[address.name] = socket
        socket.name = address
    else:
        if kernel.abstract_key(socket.kind, address.name) in kernel.abstract:
            raise Refusal("EADDRINUSE")
        kernel.give_abstract(socket, address.name)
    return "ok"


def backlog_here(wanted: int) -> int:
    """How many may wait: 1 to 128."""
    return max(1, min(BACKLOG_LIMIT, wanted))


def backlog_there(kernel: Kernel, wanted: int) -> int:
    """The same on Linux: one more than was asked for, and the most for a negative one."""
    return (kernel.machine.backlog if wanted < 0 else min(wanted, kernel.machine.backlog)) + 1


def is_backlog_full(kernel: Kernel, listener: Socket) -> bool:
    """Whether no more connections may wait."""
    waiting = len(listener.pending)
    return kernel.either(Rule.BACKLOG, agreed.is_full(listener), lambda: waiting >= backlog_here(listener.backlog),
                         lambda: waiting >= backlog_there(kernel, listener.backlog))


def call_listen(kernel: Kernel, process: Process, words: list[str]) -> str:
    """listen(2)."""
    socket = kernel.socket(process, int(words[1]))
    if socket.is_datagram:
        raise Refusal("EOPNOTSUPP")
    if socket.peer is not None:
        raise Refusal("EINVAL")
    if not socket.has_name:
        raise Refusal("EINVAL" if kernel.follows(Rule.LISTEN_WITHOUT_A_NAME) else "EDESTADDRREQ")
    socket.listens = True
    socket.backlog = int(words[2])
    socket.own_credentials = process.credentials
    return "ok"


def call_accept(kernel: Kernel, process: Process, words: list[str]) -> str:
    """accept4(2)."""
    kernel.descriptor(process, int(words[1]))
    with kernel.seen_later(Rule.ORDER_OF_ACCEPT, lambda: kernel.free_number(process)):
        listener = kernel.socket(process, int(words[1]))
        if listener.is_datagram:
            raise Refusal("EOPNOTSUPP")
        if not listener.listens:
            raise Refusal("EINVAL")
    number = kernel.free_number(process)
    if not listener.pending:
        raise Refusal("EINVAL" if kernel.waits and "r" in listener.shut else "EAGAIN")
    end = listener.pending.pop(0)
    kernel.put(process, number, end, "x" in words[2])
    kernel.release(end)
    end.append, end.nonblocking = "a" in words[2], "n" in words[2]
    end.target.is_accepted = True
    end.target.charged -= kernel.machine.cost("dgram", 1)
    return f"accepted {number} {client_name(kernel, end.target.peer)}"


def client_name(kernel: Kernel, client: Socket) -> Address:
    """The name that a client has now; of one that is gone none, or on Linux the one that it had."""
    if client.is_gone and client.has_name and not kernel.follows(Rule.NAME_OF_ONE_THAT_IS_GONE):
        return UNNAMED
    return client.name


def call_shut(kernel: Kernel, process: Process, words: list[str]) -> str:
    """shutdown(2)."""
    socket = kernel.socket(process, int(words[1]))
    if socket.peer is None and not kernel.follows(Rule.SHUTDOWN_OF_AN_IDLE_SOCKET):
        raise Refusal("ENOTCONN")
    socket.shut |= set(words[2])
    if socket.peer is not None and not socket.is_datagram:
        socket.peer.imposed |= {"w" if direction == "r" else "r" for direction in words[2]}
    return "ok"


def peer_credentials(kernel: Kernel, socket: Socket) -> tuple[int, int, int]:
    """SO_PEERCRED."""
    if socket.peer_credentials is not None:
        return socket.peer_credentials
    if kernel.follows(Rule.PEER_WITHOUT_CREDENTIALS):
        return socket.own_credentials or NOBODYS_CREDENTIALS
    raise Refusal("ENOTCONN")


def check_option(kernel: Kernel, option: str) -> None:
    """Linux has all of them but this layer's own."""
    if option == "qlimit" and kernel.follows(Rule.QUEUE_LIMIT):
        raise Refusal("ENOPROTOOPT")


def call_getopt(kernel: Kernel, process: Process, words: list[str]) -> str:
    """getsockopt(2)."""
    option, socket = words[2], kernel.socket(process, int(words[1]))
    check_option(kernel, option)
    if option == "type":
        return f"opt {TYPE_NUMBERS[socket.kind]}"
    if option == "error":
        was_reset, socket.is_reset = socket.is_reset, False
        return f"opt {ECONNRESET_NUMBER if was_reset else 0}"
    if option == "peercred":
        return "cred {} {} {}".format(*peer_credentials(kernel, socket))
    if option == "qlimit":
        if socket.kind != "stream":
            raise Refusal("EOPNOTSUPP")
        return f"opt {socket.queue_limit}"
    return f"opt {int(socket.passcred if option == 'passcred' else socket.listens)}"


def set_passcred(kernel: Kernel, socket: Socket, value: int) -> None:
    """SO_PASSCRED; set on here, a socket without a name and a peer gets a name at once."""
    if value and not socket.has_name and socket.peer is None and not kernel.follows(Rule.PASSCRED_NAMES_A_SOCKET):
        kernel.autobind(socket)
    socket.passcred = value != 0


def call_setopt(kernel: Kernel, process: Process, words: list[str]) -> str:
    """setsockopt(2)."""
    option, value = words[2], int(words[3])
    socket = kernel.socket(process, int(words[1]))
    check_option(kernel, option)
    if option == "passcred":
        set_passcred(kernel, socket, value)
    elif option != "qlimit":
        raise Refusal("ENOPROTOOPT" if kernel.follows(Rule.UNKNOWN_OPTION) else "EINVAL")
    elif socket.kind != "stream":
        raise Refusal("EOPNOTSUPP")
    elif not 1 <= value <= GREATEST_QUEUE_LIMIT:
        raise Refusal("EINVAL")
    else:
        socket.queue_limit = value
    return "ok"


def call_sockname(kernel: Kernel, process: Process, words: list[str]) -> str:
    """getsockname(2)."""
    return f"addr {kernel.socket(process, int(words[1])).name}"


def call_peername(kernel: Kernel, process: Process, words: list[str]) -> str:
    """getpeername(2)."""
    peer = kernel.socket(process, int(words[1])).peer
    if peer is None or (peer.is_gone and not kernel.follows(Rule.NAME_OF_ONE_THAT_IS_GONE)):
        raise Refusal("ENOTCONN")
    return f"addr {peer.name}"
