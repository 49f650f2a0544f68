"""Rules of logs: each has a log in which it holds, and one in which it must not.

These need uxrun, as test_replay.py says."""
from __future__ import annotations

import unittest

import here  # noqa: F401
from test_replay import HEAD, RULES, UXRUN, replayed

PASSCRED = "setsockopt({}, SOL_SOCKET, SO_PASSCRED, [1], 4) = 0"
PIPE = "pipe([0, 1]) = 0"
RIGHT = "msg_control=[{cmsg_len=20, cmsg_level=SOL_SOCKET, cmsg_type=SCM_RIGHTS, cmsg_data=[%d]}], msg_controllen=24"
NOBODY = ("msg_control=[{cmsg_len=28, cmsg_level=SOL_SOCKET, cmsg_type=SCM_CREDENTIALS, cmsg_data={pid=0, uid=65534, gid=65534}}], "
          "msg_controllen=32")


def pair(kind: str, first: int = 0):
    return f"socketpair(AF_UNIX, SOCK_{kind}, 0, [{first}, {first + 1}]) = 0"


def message(call: str, number: int, text: str, control: str = "msg_controllen=0", flags: str = "0", told: str = "0", room: int = 9):
    """A sendmsg or recvmsg of a text."""
    return (f'{call}({number}, {{msg_name=NULL, msg_namelen=0, msg_iov=[{{iov_base="{text}", iov_len={room}}}], msg_iovlen=1, '
            f"{control}, msg_flags={told}}}, {flags}) = {len(text)}")


def poll(number: int, told: str):
    return (f"poll([{{fd={number}, events=POLLIN|POLLOUT|POLLRDHUP}}], 1, 0) = 1 "
            f"([{{fd={number}, revents={'|'.join('POLL' + word for word in told.split())}}}])")


def socket(kind: str, number: int, name: str | None = None):
    """A socket, and its bind where it has a name."""
    bind = [f'bind({number}, {{sa_family=AF_UNIX, sun_path={name}}}, 9) = 0'] if name else []
    return [f"socket(AF_UNIX, SOCK_{kind}, 0) = {number}", *bind]


def connect(number: int, name: str):
    return f"connect({number}, {{sa_family=AF_UNIX, sun_path={name}}}, 9) = 0"


def sockname(number: int, name: str | None):
    path = f", sun_path={name}" if name else ""
    return f"getsockname({number}, {{sa_family=AF_UNIX{path}}}, [110 => 9]) = 0"


def refused(call: str, error: str):
    """A call with an error for its answer."""
    return f"{call.rpartition(' = ')[0]} = -1 {error} (Why)"


def receive(number: int, text: str):
    return f'recvfrom({number}, "{text}", 99, 0, NULL, NULL) = {len(text)}'


WRITES_MUCH = 'write({}, "' + "a" * 2000 + '", 2000) = 2000'
WAITED = "recvfrom({}, 0x7ffc, 99, MSG_DONTWAIT, NULL, NULL) = -1 EAGAIN (Try again)"
LISTENER = [*socket("STREAM", 0, '"/s"'), "listen(0, 5) = 0"]
DROPPED = [pair("DGRAM"), *socket("DGRAM", 2, '"/d"'), 'bind(0, {sa_family=AF_UNIX, sun_path="/z"}, 5) = 0', 'write(1, "old", 3) = 3',
           connect(0, '"/d"')]
TO_Z = 'sendto(2, "new", 3, 0, {sa_family=AF_UNIX, sun_path="/z"}, 5) = 3'

TO_D = 'sendto({}, "a", 1, 0, {{sa_family=AF_UNIX, sun_path="/d"}}, 5) = 1'

# The rule's name, what it holds of, and what it must not hold of, each behind lines that hold of none.
CASES = [
    ("association-drops-the-queue", DROPPED, [WAITED.format(0)],
     [[TO_Z, WAITED.format(0), receive(0, "new"), WAITED.format(0), TO_Z, receive(0, "evil")],
      [pair("DGRAM", 3), 'write(3, "good", 4) = 4', receive(4, "evil")]]),
    ("association-drops-the-queue", DROPPED, ['write(1, "x", 1) = -1 ECONNRESET (Connection reset by peer)'],
     [['write(2, "x", 1) = -1 ECONNRESET (Connection reset by peer)'],
      ['write(1, "x", 1) = -1 ECONNRESET (Connection reset by peer)', 'write(1, "x", 1) = -1 ECONNRESET (Connection reset by peer)']]),
    ("passcred-names-a-socket", [*socket("DGRAM", 0), PASSCRED.format(0)], [sockname(0, None)],
     [[*socket("DGRAM", 1, '@"x"'), sockname(1, None)]]),
    ("autobind-number", [*socket("DGRAM", 0), "bind(0, {sa_family=AF_UNIX}, 2) = 0"], [sockname(0, '@"0000b"')],
     [[*socket("DGRAM", 1, '@"0000c"'), sockname(1, '@"0000d"')]]),
    # Of what was sent since the queue was dropped each byte is compared.
    ("association-drops-the-queue", DROPPED, [TO_Z, receive(0, "new")],
     [[TO_Z, receive(0, "evil")], [TO_Z, receive(0, "ne")], [receive(0, "evil")], [TO_Z, 'read(0, "nea", 99) = 3']]),
    ("read-of-no-bytes", socket("STREAM", 0), ['read(0, "", 0) = 0'], [[pair("STREAM", 1), "read(1, 0x7ffc, 0) = -1 ENOTCONN (Why)"]]),
    ("credentials-of-nothing", [pair("STREAM"), PASSCRED.format(1), "close(0) = 0"], [message("recvmsg", 1, "", NOBODY)],
     [["socketpair(AF_UNIX, SOCK_STREAM, 0, [0, 2]) = 0", "close(0) = 0", message("recvmsg", 2, "", NOBODY)]]),
    ("credentials-asked-for-later", [pair("STREAM"), 'write(0, "a", 1) = 1', PASSCRED.format(1)], [message("recvmsg", 1, "a", NOBODY)],
     [[pair("STREAM", 2), PASSCRED.format(3), 'write(2, "a", 1) = 1', message("recvmsg", 3, "a", NOBODY)]]),
    ("unread-empty-record", [pair("SEQPACKET"), 'write(0, "", 0) = 0', "close(1) = 0"], ['read(0, "", 9) = 0'],
     [["socketpair(AF_UNIX, SOCK_SEQPACKET, 0, [1, 2]) = 0", 'write(1, "a", 1) = 1', "close(2) = 0", 'read(1, "", 9) = 0']]),
    ("options-of-a-servers-end", [*LISTENER, PASSCRED.format(0), *socket("STREAM", 1), connect(1, '"/s"'), "accept(0, NULL, NULL) = 2"],
     ["getsockopt(2, SOL_SOCKET, SO_PASSCRED, [1], [4]) = 0"], [["getsockopt(1, SOL_SOCKET, SO_PASSCRED, [1], [4]) = 0"]]),
    ("rights-behind-a-peek", [pair("STREAM"), 'write(0, "a", 1) = 1', message("sendmsg", 0, "b", RIGHT % 0, room=1)],
     [message("recvmsg", 1, "a", RIGHT % 2, "MSG_PEEK", room=1)],
     [[pair("STREAM", 2), 'write(2, "a", 1) = 1', message("recvmsg", 3, "a", RIGHT % 4, "MSG_PEEK", room=1)]]),
    ("poll-of-a-datagram-socket", [pair("DGRAM"), "shutdown(0, SHUT_RD) = 0"], [poll(0, "IN OUT RDHUP")],
     [['write(0, "a", 1) = 1', poll(1, "IN OUT RDHUP")]]),
    ("poll-of-two-half-closes", [pair("STREAM"), "shutdown(0, SHUT_WR) = 0", "shutdown(1, SHUT_WR) = 0"], [poll(0, "IN OUT RDHUP HUP")],
     [[pair("STREAM", 2), "shutdown(3, SHUT_WR) = 0", poll(2, "IN OUT RDHUP HUP")]]),
    ("name-of-one-that-is-gone", [*LISTENER, *socket("STREAM", 1, '"/c"'), connect(1, '"/s"')],
     ["close(1) = 0", 'accept(0, {sa_family=AF_UNIX, sun_path="/c"}, [110 => 5]) = 1'],
     [["close(1) = 0", 'accept(0, {sa_family=AF_UNIX, sun_path="/x"}, [110 => 5]) = 1'],
      ["accept(0, {sa_family=AF_UNIX}, [110 => 2]) = 2"]]),
    # Of two clients that wait the first is accepted first.
    ("name-of-one-that-is-gone", [*LISTENER, *socket("STREAM", 1, '"/c"'), connect(1, '"/s"'), *socket("STREAM", 2, '"/d"'), connect(2, '"/s"')],
     ["close(1) = 0", 'accept(0, {sa_family=AF_UNIX, sun_path="/c"}, [110 => 5]) = 1'],
     [["close(2) = 0", "accept(0, {sa_family=AF_UNIX}, [110 => 2]) = 2"]]),
    ("sender-of-a-stream", [*LISTENER, *socket("STREAM", 1), connect(1, '"/s"'), "accept(0, NULL, NULL) = 2", 'write(2, "a", 1) = 1'],
     ['recvfrom(1, "a", 9, 0, {sa_family=AF_UNIX, sun_path="/s"}, [110 => 5]) = 1'],
     [['recvfrom(1, "a", 9, 0, {sa_family=AF_UNIX, sun_path="/t"}, [110 => 5]) = 1']]),
    ("sender-named-later", [*socket("DGRAM", 0, '"/s"'), *socket("DGRAM", 1), connect(1, '"/s"'), 'write(1, "a", 1) = 1',
                            'bind(1, {sa_family=AF_UNIX, sun_path="/c"}, 5) = 0'],
     ['recvfrom(0, "a", 9, 0, {sa_family=AF_UNIX, sun_path="/c"}, [110 => 5]) = 1'],
     [['recvfrom(0, "a", 9, 0, {sa_family=AF_UNIX, sun_path="/d"}, [110 => 5]) = 1']]),
    ("record-end", [pair("SEQPACKET"), 'write(0, "a", 1) = 1'], [message("recvmsg", 1, "a")],
     [[message("recvmsg", 1, "a", told="MSG_CTRUNC")], [message("recvmsg", 1, "a", told="MSG_TRUNC")]]),
    ("room-of-a-pipe", [PIPE, *[f'write(1, "{"a" * 3000}", 3000) = 3000'] * 16], ['write(1, "a", 1) = 1', f'write(1, "{"a" * 3000}", 3000) = '
                                                                                 "-1 EAGAIN (Try again)"],
     [["pipe([2, 3]) = 0", 'write(3, "a", 1) = -1 EAGAIN (Try again)'], ["pipe([2, 3]) = 0", poll(3, "").replace(" = 1 ([{fd=3, revents=POLL}])",
                                                                                                            " = 0 (Timeout)")]]),
    ("room-of-a-stream", [pair("STREAM"), "setsockopt(0, SOL_SOCKET, SO_SNDBUF, [2304], 4) = 0", WRITES_MUCH.format(0)],
     ['write(0, "b", 1) = -1 EAGAIN (Try again)'],
     [[pair("STREAM", 2), WRITES_MUCH.format(2), 'write(2, "b", 1) = -1 EAGAIN (Try again)']]),
    ("reset-before-records", [pair("SEQPACKET"), 'write(0, "x", 1) = 1', 'write(1, "y", 1) = 1'],
     ["close(1) = 0", 'read(0, 0x7ffc, 9) = -1 ECONNRESET (Connection reset by peer)'],
     [['read(0, 0x7ffc, 9) = -1 ECONNRESET (Connection reset by peer)']]),
    ("backlog", [*socket("STREAM", 0, '"/s"'), "listen(0, 1) = 0", *socket("STREAM", 1), *socket("STREAM", 2), connect(1, '"/s"')],
     [connect(2, '"/s"')], [["accept(0, NULL, NULL) = 3", refused(connect(2, '"/s"'), "EAGAIN")]]),
    ("bind-again", socket("DGRAM", 0, '"/s"'), ["bind(0, {sa_family=AF_UNIX}, 2) = 0"],
     [['bind(0, {sa_family=AF_UNIX, sun_path="/t"}, 5) = 0']]),
    ("order-of-bind", [*socket("DGRAM", 0, '"/s"'), *socket("DGRAM", 1, '"/t"')],
     [refused('bind(0, {sa_family=AF_UNIX, sun_path="/t"}, 5) = 0', "EADDRINUSE")],
     [[refused('bind(0, {sa_family=AF_UNIX, sun_path=@"t"}, 4) = 0', "EADDRINUSE")]]),
    ("unnamed-sender", [pair("DGRAM"), 'write(0, "a", 1) = 1'], ['recvfrom(1, "a", 9, 0, 0x7ffc, [110 => 0]) = 1'],
     [[*socket("DGRAM", 2, '"/c"'), *socket("DGRAM", 3, '"/d"'), TO_D.format(2), 'recvfrom(3, "a", 9, 0, 0x7ffc, [110 => 0]) = 1']]),
    ("listen-without-a-name", socket("STREAM", 0), [refused("listen(0, 5) = 0", "EINVAL")],
     [[*socket("STREAM", 1, '"/s"'), refused("listen(1, 5) = 0", "EINVAL")]]),
    ("order-of-connect", [pair("STREAM")], [refused(connect(0, '"/none"'), "ENOENT"), refused(connect(0, '"/none"'), "ECONNREFUSED")],
     [[*socket("STREAM", 2, '"/s"'), "listen(2, 5) = 0", refused(connect(0, '"/s"'), error)] for error in
      ("ENOENT", "ECONNREFUSED", "EPROTOTYPE", "EAGAIN")]),
    ("order-of-connect", [pair("STREAM"), *socket("DGRAM", 2, '"/d"'), *socket("STREAM", 3, '"/s"')],
     [refused(connect(0, '"/d"'), "EPROTOTYPE"), refused(connect(0, '"/s"'), "ECONNREFUSED")],
     [[refused(connect(0, '"/s"'), "EPROTOTYPE")], [refused(connect(0, '"/d"'), "EAGAIN")]]),
    ("open-of-a-socket", socket("STREAM", 0, '"/s"'), ['open("/s", O_RDONLY) = -1 ENXIO (No such device or address)'],
     [['open("/f", O_RDWR|O_CREAT|O_EXCL, 0600) = 1', 'open("/f", O_RDONLY) = -1 ENXIO (No such device or address)']]),
    ("shutdown-of-an-idle-socket", socket("STREAM", 0), ["shutdown(0, SHUT_RD) = 0"],
     [[pair("STREAM", 1), refused("shutdown(1, SHUT_RD) = 0", "ENOTCONN")]]),
    ("peer-without-credentials", socket("STREAM", 0), ["getsockopt(0, SOL_SOCKET, SO_PEERCRED, {pid=0, uid=-1, gid=-1}, [12]) = 0"],
     [[pair("STREAM", 1), "getsockopt(1, SOL_SOCKET, SO_PEERCRED, {pid=0, uid=-1, gid=-1}, [12]) = 0"]]),
    ("poll-of-an-idle-socket", socket("STREAM", 0), [poll(0, "OUT HUP")], [[pair("STREAM", 1), poll(1, "OUT HUP")]]),
    ("destination-required", socket("DGRAM", 0), [refused('write(0, "a", 1) = 1', "ENOTCONN")],
     [[pair("DGRAM", 1), refused('write(1, "a", 1) = 1', "ENOTCONN")]]),
    ("receive-of-an-unconnected-stream", socket("STREAM", 0), ["read(0, 0x7ffc, 9) = -1 EINVAL (Invalid argument)"],
     [[pair("STREAM", 1), "read(1, 0x7ffc, 9) = -1 EINVAL (Invalid argument)"]]),
    ("datagram-socket-shut-for-reading", [pair("DGRAM"), "shutdown(0, SHUT_RD) = 0"], [WAITED.format(0)],
     [[pair("DGRAM", 2), 'write(2, "a", 1) = 1', WAITED.format(3)]]),
    ("limit-of-rights-in-flight", [pair("STREAM"), message("sendmsg", 0, "a", RIGHT % 0, room=1)],
     [refused(message("sendmsg", 0, "a", RIGHT % 0, room=1), "ETOOMANYREFS")],
     [[message("recvmsg", 1, "a", RIGHT % 2), refused(message("sendmsg", 0, "a", RIGHT % 0, room=1), "ETOOMANYREFS")]]),
    ("rights-without-data", [pair("STREAM")], [message("sendmsg", 0, "", RIGHT % 0, room=0)],
     [[refused(message("sendmsg", 0, "a", RIGHT % 0, room=1), "EINVAL")]]),
    ("order-of-send", [pair("STREAM")], [refused('sendto(0, "a", 1, 0, {sa_family=AF_UNIX, sun_path="/none"}, 8) = 1', "EPIPE")],
     [[refused('write(0, "a", 1) = 1', "EISCONN")]]),
    ("address-at-a-seqpacket-socket", [pair("SEQPACKET")], ['sendto(0, "a", 1, 0, {sa_family=AF_UNIX, sun_path="/d"}, 5) = 1'],
     [[pair("STREAM", 2), 'sendto(2, "a", 1, 0, {sa_family=AF_UNIX, sun_path="/d"}, 5) = 1']]),
    ("receive-of-nothing", [pair("STREAM")], ["recvfrom(1, 0x7ffc, 0, MSG_DONTWAIT, NULL, NULL) = -1 EAGAIN (Try again)"],
     [['write(0, "a", 1) = 1', "recvfrom(1, 0x7ffc, 0, MSG_DONTWAIT, NULL, NULL) = -1 EAGAIN (Try again)"]]),
    ("offset-of-a-counter", ["eventfd2(0, 0) = 0"], ["lseek(0, 0, SEEK_SET) = 0"], [["lseek(0, 5, SEEK_SET) = 5"]]),
    ("long-write-of-a-counter", ["eventfd2(0, 0) = 0"], [refused('write(0, "aaaaaaaaa", 9) = 9', "EINVAL")],
     [[refused('write(0, "\\1\\0\\0\\0\\0\\0\\0\\0", 8) = 8', "EINVAL")]]),
    # Until they are received, and of the one socket that they wait at.
    ("messages-in-a-queue", [pair("DGRAM"), *['write(0, "a", 1) = 1'] * 10], ['write(0, "b", 1) = -1 EAGAIN (Try again)'],
     [['read(1, "a", 9) = 1', 'write(0, "b", 1) = -1 EAGAIN (Try again)'],
      [pair("DGRAM", 2), 'write(2, "b", 1) = -1 EAGAIN (Try again)']]),
    ("messages-in-a-queue", [pair("SEQPACKET"), *['write(0, "a", 1) = 1'] * 16], ['write(0, "b", 1) = 1'],
     [[pair("SEQPACKET", 2), 'write(2, "b", 1) = -1 EAGAIN (Try again)']]),
    ("messages-in-a-queue", [*socket("DGRAM", 0, '"/d"'), *socket("DGRAM", 1), *[TO_D.format(1)] * 10],
     [TO_D.format(1).replace("= 1", "= -1 EAGAIN (Try again)")],
     [[*socket("DGRAM", 2, '"/e"'), TO_D.format(1).replace("/d", "/e").replace("= 1", "= -1 EAGAIN (Try again)")]]),
    ("far-offset", ['memfd_create("m", 0) = 0'], ["lseek(0, 9000000000000000, SEEK_SET) = -1 EINVAL (Invalid argument)"],
     [["lseek(0, 9000, SEEK_SET) = -1 EINVAL (Invalid argument)"]]),
    ("abstract-names-by-type", socket("DGRAM", 0, '@"s"'), socket("STREAM", 1, '@"s"'), [socket("DGRAM", 1, '@"s"')]),
    ("bytes-behind-the-end", ['memfd_create("m", 0) = 0', "lseek(0, 9, SEEK_SET) = 9"], ["ioctl(0, FIONREAD, [-9]) = 0"],
     [["lseek(0, 0, SEEK_SET) = 0", "ioctl(0, FIONREAD, [9]) = 0"]]),
    ("memory-of-what-was-sent", [pair("STREAM"), 'write(0, "a", 1) = 1'], ["ioctl(0, TIOCOUTQ, [768]) = 0"],
     [["ioctl(0, TIOCOUTQ, [0]) = 0"]]),
    ("outq-of-datagrams", [pair("DGRAM"), 'write(0, "a", 1) = 1'], ["ioctl(0, TIOCOUTQ, [768]) = 0"],
     [["ioctl(0, TIOCOUTQ, 0x7ffc) = -1 ENOTTY (Inappropriate ioctl for device)"]]),
]


def replay(lines: list[str]):
    return replayed(HEAD + "".join(f"9 1.{place:03} {line}\n" for place, line in enumerate(lines)))


class Coverage(unittest.TestCase):
    def test_each_rule_has_a_log_in_which_it_holds_and_one_in_which_it_does_not(self):
        self.assertEqual({name for name, _, holds, others in CASES if holds and others}, {rule.name for rule in RULES})


@unittest.skipUnless(UXRUN, "there is no uxrun: build it, or name it by the variable UXRUN")
class Rules(unittest.TestCase):
    def test_each_holds_in_its_state(self):
        for name, before, holds, _ in CASES:
            with self.subTest(name):
                status, report = replay([*before, *holds])
                self.assertEqual((status, list(report["replies"]["rules"]), report["differences"]), (0, [name], []))

    def test_each_holds_in_no_other(self):
        for name, before, _, others in CASES:
            for lines in others:
                with self.subTest(f"{name}: {lines[-1]}"):
                    status, report = replay([*before, *lines])
                    self.assertEqual((status, [one["line"] for one in report["differences"]]), (1, [len(before) + len(lines) + 3]))


if __name__ == "__main__":
    unittest.main()
