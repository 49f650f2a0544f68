"""Numbers of queues, and those of buffers and seals, which no call of a script tells: what can't be so is told with its line.

These need uxrun, as test_replay.py says."""
from __future__ import annotations

import unittest

import here  # noqa: F401
from test_replay import HEAD, UXRUN, replayed

PAIRS = {"STREAM": "UNIX-STREAM", "SEQPACKET": "UNIX-SEQPACKET", "DGRAM": "UNIX"}
AMOUNT = "a number of waiting bytes that isn't what was sent and not received"
BUFFER = "a buffer's size that isn't the one that was set"
SEALED = "a change that a seal forbids"


def lines(*calls: str):
    return HEAD + "".join(f"9 1.{place:03} {call}\n" for place, call in enumerate(calls))


def pair(kind: str):
    return f"socketpair(AF_UNIX, SOCK_{kind}, 0, [0<{PAIRS[kind]}:[7->8]>, 1<{PAIRS[kind]}:[8->7]>]) = 0"


def write(number: int, text: str):
    return f'write({number}, "{text}", {len(text)}) = {len(text)}'


def waits(number: int, count: int, name: str = "FIONREAD"):
    return f"ioctl({number}, {name}, [{count}]) = 0"


def size(call: str, number: int, option: str, value: int):
    return f"{call}({number}, SOL_SOCKET, {option}, [{value}], {'4' if call == 'setsockopt' else '[4]'}) = 0"


@unittest.skipUnless(UXRUN, "there is no uxrun: build it, or name it by the variable UXRUN")
class Amounts(unittest.TestCase):
    def doubts(self, *calls: str):
        """The doubts that a log of these calls leaves, by line, and whether the status is theirs."""
        status, report = replayed(lines(*calls))
        self.assertEqual((status, report["differences"]), (3 if report["notes"] else 0, []))
        return report["notes"]

    def differing(self, *calls: str):
        """The lines of a log of these calls whose replies differ."""
        report = replayed(lines(*calls))[1]
        self.assertEqual(report["notes"], {})
        return [one["line"] for one in report["differences"]]

    def test_what_waits_is_what_was_sent_and_not_received(self):
        for kind, known in (("STREAM", 3), ("SEQPACKET", 3), ("DGRAM", 2)):
            sent = pair(kind), write(0, "a"), write(0, "bc"), 'read(1, "a", 1) = 1', write(0, "d")
            for name in ("FIONREAD", "SIOCINQ", "TIOCINQ"):
                with self.subTest(f"{kind} {name}"):
                    self.assertEqual(self.differing(*sent, waits(1, known, name)), [])
                    self.assertEqual(self.differing(*sent, waits(1, known + 1, name)), [9])

    def test_what_waits_in_a_pipe_or_a_file(self):
        piped = "pipe([0, 1]) = 0", write(1, "abc")
        memory = 'memfd_create("m", 0) = 0', write(0, "abcde"), "lseek(0, 1, SEEK_SET) = 1"
        for calls, number, known in ((piped, 0, 3), (piped, 1, 3), (memory, 0, 4)):
            self.assertEqual(self.differing(*calls, waits(number, known)), [])
            self.assertEqual(self.differing(*calls, waits(number, 0)), [len(calls) + 4])

    def test_what_has_no_length_is_refused(self):
        listener = "socket(AF_UNIX, SOCK_STREAM, 0) = 0", "bind(0, {sa_family=AF_UNIX}, 2) = 0", "listen(0, 5) = 0"
        for calls, call, error in ((listener, "ioctl(0, FIONREAD, {})", "EINVAL"), (("eventfd2(3, 0) = 0",), "ioctl(0, FIONREAD, {})", "ENOTTY"),
                                   (("pipe([0, 1]) = 0",), "ioctl(0, TIOCOUTQ, {})", "ENOTTY"), ((), "ioctl(7, FIONREAD, {})", "EBADF")):
            with self.subTest(call):
                self.assertEqual(self.differing(*calls, f"{call.format('0x7ffc')} = -1 {error} (Why)"), [])
                self.assertEqual(self.differing(*calls, f"{call.format('0x7ffc')} = -1 EPIPE (Why)"), [len(calls) + 4])

    def test_what_lacks_to_the_end_of_a_file(self):
        memory = 'memfd_create("m", 0) = 0', write(0, "abc"), "lseek(0, 10, SEEK_SET) = 10"
        self.assertEqual(self.ruled(*memory, waits(0, -7)), {"bytes-behind-the-end": 1})
        self.assertEqual(self.doubts(*memory, waits(0, -8)), {AMOUNT: [7]})

    def ruled(self, *calls: str):
        """The rules under which replies of a log of these calls fall, which agree otherwise."""
        status, report = replayed(lines(*calls))
        self.assertEqual((status, report["differences"]), (0, []))
        return report["replies"]["rules"]

    def test_what_the_peer_has_not_received_is_told_as_its_memory(self):
        rule = {"memory-of-what-was-sent": 1}
        for kind, sent, known in (("STREAM", "abc", True), ("SEQPACKET", "abc", True), ("SEQPACKET", "", True), ("STREAM", None, False)):
            calls = [pair(kind), *([write(0, sent)] if sent is not None else [])]
            line = len(calls) + 4
            with self.subTest(f"{kind} {sent}"):
                self.assertEqual(self.ruled(*calls, waits(0, 768 if known else 0, "TIOCOUTQ")), rule if known else {})
                self.assertEqual(self.doubts(*calls, waits(0, 777, "SIOCOUTQ")) if known else {AMOUNT: [line]}, {AMOUNT: [line]})
                status, report = replayed(lines(*calls, waits(0, 0 if known else 768, "TIOCOUTQ")))
                self.assertEqual(status, 1 if sent != "" else 3)
        # What it has received takes no memory, and nor does what a socket that is gone had.
        for call in ('read(1, "abc", 9) = 3', "close(1) = 0"):
            self.assertEqual(self.ruled(pair("STREAM"), write(0, "abc"), call, waits(0, 0, "TIOCOUTQ")), {})
            self.assertEqual(replayed(lines(pair("STREAM"), write(0, "abc"), call, waits(0, 768, "TIOCOUTQ")))[1]["notes"], {AMOUNT: [7]})

    def test_of_datagrams_wherever_they_wait(self):
        rule = {"outq-of-datagrams": 1}
        other = "socket(AF_UNIX, SOCK_DGRAM, 0) = 2", 'bind(2, {sa_family=AF_UNIX, sun_path=@"x"}, 4) = 0'
        calls = pair("DGRAM"), *other, 'sendto(0, "abc", 3, 0, {sa_family=AF_UNIX, sun_path=@"x"}, 4) = 3', write(1, "d")
        received = 'read(2, "abc", 9) = 3'
        self.assertEqual(self.ruled(*calls, waits(0, 768, "TIOCOUTQ")), rule)
        self.assertEqual(self.ruled(*calls, received, waits(0, 0, "TIOCOUTQ")), rule)
        self.assertEqual(self.ruled(*calls, "close(2) = 0", waits(0, 0, "TIOCOUTQ")), rule)
        self.assertEqual(self.doubts(*calls, waits(0, 0, "TIOCOUTQ")), {AMOUNT: [9]})
        self.assertEqual(self.doubts(*calls, waits(0, 770, "TIOCOUTQ")), {AMOUNT: [9]})
        self.assertEqual(self.doubts(*calls, received, waits(0, 768, "TIOCOUTQ")), {AMOUNT: [10]})

    def test_what_waits_while_another_sends_may_be_either(self):
        begun = lines(pair("STREAM"), "fork() = 10") + '10 2.0 write(0, "a", 1 <unfinished ...>\n'
        ended = "10 2.2 <... write resumed>) = 1\n"
        for count, differ in ((1, 0), (0, 0), (9, 1)):
            self.assertEqual(replayed(f"{begun}9 2.1 {waits(1, count)}\n{ended}")[1]["replies"]["differ"], differ)
        datagrams = begun.replace("STREAM", "DGRAM").replace("UNIX-DGRAM", "UNIX")
        for memory in (0, 768):
            self.assertEqual(replayed(f"{datagrams}9 2.1 {waits(0, memory, 'TIOCOUTQ')}\n{ended}")[1]["notes"], {})

    def test_a_message_that_the_layer_shortens_waits_whole(self):
        for kind in ("DGRAM", "SEQPACKET"):
            sent = pair(kind), write(0, "a" * 70000), write(0, "b" * 70000)
            self.assertEqual(self.differing(*sent, waits(1, 70000 if kind == "DGRAM" else 140000)), [])
            self.assertEqual(self.differing(*sent, waits(1, 65536)), [7])

    def test_what_comes_from_outside_of_the_log_is_not_compared(self):
        connection = "socket(AF_UNIX, SOCK_STREAM, 0) = 0", 'connect(0, {sa_family=AF_UNIX, sun_path="/s"}, 5) = 0'
        status, report = replayed(lines(*connection, waits(0, 5), 'read(0, "hello", 9) = 5'))
        self.assertEqual((status, list(report["calls"]["reasons"]["left out"])),
                         (0, ["ioctl: ioctl FIONREAD of a connection with a peer outside of the log"]))
        datagrams = "socket(AF_UNIX, SOCK_DGRAM, 0) = 0", 'bind(0, {sa_family=AF_UNIX, sun_path="/s"}, 5) = 0'
        self.assertEqual(self.differing(*datagrams, waits(0, 5), 'read(0, "hello", 9) = 5'), [])
        self.assertEqual(self.differing(*datagrams, waits(0, 4), 'read(0, "hello", 9) = 5'), [6])

    def test_a_buffer_has_twice_the_size_that_was_set(self):
        for option, least in (("SO_SNDBUF", 4608), ("SO_RCVBUF", 2304)):
            told = [size("getsockopt", 0, option, 212992), size("setsockopt", 0, option, 5000), size("getsockopt", 0, option, 10000),
                    size("getsockopt", 1, option, 212992), size("setsockopt", 0, option, 1), size("getsockopt", 0, option, least),
                    size("setsockopt", 0, option, 9000000), size("getsockopt", 0, option, 425984), size("setsockopt", 1, option, 8000000),
                    size("getsockopt", 1, option, 425984)]
            with self.subTest(option):
                self.assertEqual(self.doubts(pair("STREAM"), *told), {})
                for place in (2, 3, 5, 9):
                    other = [*told[:place], told[place].replace("], [4]", "1], [4]"), *told[place + 1:]]
                    self.assertEqual(self.doubts(pair("STREAM"), *other), {BUFFER: [5 + place]})

    def test_seals_are_those_that_were_added(self):
        made = 'memfd_create("m", MFD_ALLOW_SEALING) = 0', write(0, "abc"), "fcntl(0, F_ADD_SEALS, F_SEAL_SHRINK|F_SEAL_GROW) = 0"
        self.assertEqual(self.doubts(*made, "fcntl(0, F_GET_SEALS) = 0x6 (seals F_SEAL_SHRINK|F_SEAL_GROW)"), {})
        self.assertEqual(self.doubts(*made, "fcntl(0, F_GET_SEALS) = 0x2 (seals F_SEAL_SHRINK)"),
                         {"seals that the log doesn't show added": [7]})
        for call in (write(0, "d"), 'pwrite64(0, "d", 1, 3) = 1', "ftruncate(0, 1) = 0", "ftruncate(0, 9) = 0"):
            with self.subTest(call):
                self.assertEqual(self.doubts(*made, call), {SEALED: [7]})
        self.assertEqual(self.doubts(*made, 'pwrite64(0, "d", 1, 2) = 1'), {})
        self.assertEqual(self.doubts(*made, "fcntl(0, F_ADD_SEALS, F_SEAL_SEAL) = 0", "fcntl(0, F_ADD_SEALS, F_SEAL_WRITE) = 0"), {SEALED: [8]})

    def test_a_write_that_no_seal_refuses_differs(self):
        status, report = replayed(lines('memfd_create("m", MFD_ALLOW_SEALING) = 0', 'write(0, "d", 1) = -1 EPERM (Operation not permitted)'))
        self.assertEqual((status, report["replies"]["differ"]), (1, 1))

    def test_out_of_band_data_was_sent_by_somebody(self):
        received = 'recvfrom(1, "a", 1, MSG_OOB, NULL, NULL) = 1'
        self.assertEqual(self.doubts(pair("STREAM"), 'sendto(0, "a", 1, MSG_OOB, NULL, 0) = 1', received), {})
        self.assertEqual(self.doubts(pair("STREAM"), received), {"out-of-band data that nobody sent": [5]})

    def test_as_many_bytes_are_received_as_were_moved(self):
        moved = 'openat(AT_FDCWD</>, "/f", O_RDONLY) = 0</f>', "pipe([1, 2]) = 0", "splice(0</f>, NULL, 2, NULL, 99, 0) = 3"
        for count, differ in ((3, 0), (2, 0), (4, 1)):
            status, report = replayed(lines(*moved, f'read(1, "{"a" * count}", {count}) = {count}'))
            self.assertEqual(report["replies"]["differ"], differ)
        # More of them than a line may have go in pieces.
        copied = "copy_file_range(0</f>, [0], 1</memfd:m>, [7], 99999, 0) = 99999"
        status, report = replayed(lines(moved[0], 'memfd_create("m", 0) = 1</memfd:m>', copied, "lseek(1, 0, SEEK_END) = 100006"))
        self.assertEqual((status, report["replies"]["differ"]), (0, 0))
        # What comes behind them is compared by its bytes.
        for text, differ in (("abcd", 0), ("abce", 0)):
            status, report = replayed(lines(*moved, write(2, "d"), f'read(1, "{text}", 4) = 4'))
            self.assertEqual(report["replies"]["differ"], differ)
        for text, differ in (("d", 0), ("e", 1)):
            status, report = replayed(lines(*moved, write(2, "d"), 'read(1, "abc", 3) = 3', f'read(1, "{text}", 1) = 1'))
            self.assertEqual(report["replies"]["differ"], differ)


if __name__ == "__main__":
    unittest.main()
