"""Numbers, counts and errors that can't be as the log tells them: each differs, or is told with its line.

These need uxrun, as test_replay.py says."""
from __future__ import annotations

import unittest

import here  # noqa: F401
from test_replay import HEAD, UXRUN, replayed

NOT_LOWEST = "a new number that isn't the lowest free one"
NOT_CLOSED = "a number given anew that the log doesn't show closed"
NO_ORIGIN = "a descriptor whose origin the log doesn't show"
NO_PARENT = "a process that no call of the log made"
COUNT = "an answer that isn't the count of what the call lists"
PAIR = "socketpair(AF_UNIX, SOCK_STREAM, 0, [0, 1]) = 0"
SENT = 'write(0, "hello", 5) = 5'


def told(*calls: str):
    """What a log of these calls leaves: its notes by line, and the lines that differ. A call may begin with its process's number."""
    lines = [call if call[:1].isdigit() else f"9 1.{place:03} {call}" for place, call in enumerate(calls)]
    report = replayed(HEAD + "\n".join(lines) + "\n")[1]
    return report["notes"], sorted({one["line"] for one in report["differences"]})


@unittest.skipUnless(UXRUN, "there is no uxrun: build it, or name it by the variable UXRUN")
class Numbers(unittest.TestCase):
    def test_a_copy_has_the_lowest_free_number_from_its_minimum_on(self):
        for call, least in (("dup(0)", 0), ("fcntl(0, F_DUPFD, 0)", 0), ("fcntl(0, F_DUPFD, 7)", 7), ("fcntl(0, F_DUPFD_CLOEXEC, 7)", 7)):
            lowest = max(2, least)
            with self.subTest(call):
                self.assertEqual(told(PAIR, f"{call} = {lowest}"), ({}, []))
                self.assertEqual(told(PAIR, f"{call} = {lowest + 2}"), ({NOT_LOWEST: [5]}, []))
                self.assertEqual(told(PAIR, f"{call} = 1"), ({NOT_CLOSED: [5]}, []) if least == 0 else ({NOT_CLOSED: [5]}, [5]))

    def test_a_minimum_leaves_the_numbers_below_it_free(self):
        self.assertEqual(told(PAIR, "fcntl(0, F_DUPFD, 7) = 9", "socket(AF_UNIX, SOCK_STREAM, 0) = 2"), ({NOT_LOWEST: [5]}, []))

    def test_a_call_that_goes_well_has_an_open_descriptor(self):
        for call in ('read(7, "a", 9) = 1', "listen(7, 5) = 0", "dup2(7, 8) = 8", "ioctl(7, FIONREAD, [0]) = 0", "lseek(7, 0, SEEK_SET) = 0"):
            with self.subTest(call):
                self.assertEqual(told(PAIR, call)[0], {NO_ORIGIN: [5]})
                self.assertEqual(told(PAIR, call.partition(" = ")[0] + " = -1 EBADF (Bad file descriptor)")[0], {})

    def test_a_process_was_made_by_another(self):
        self.assertEqual(told(PAIR, "fork() = 10", "10 2.0 close(0) = 0"), ({}, []))
        self.assertEqual(told(PAIR, "fork() = 11", "10 2.0 close(0) = -1 EBADF (Bad file descriptor)"), ({NO_PARENT: [6]}, []))


@unittest.skipUnless(UXRUN, "there is no uxrun: build it, or name it by the variable UXRUN")
class Counts(unittest.TestCase):
    def test_as_many_bytes_came_as_the_log_shows(self):
        """Also of a peer outside of the log, and of what isn't known: no reply shows it there."""
        outside = "socket(AF_UNIX, SOCK_STREAM, 0) = 0", 'connect(0, {sa_family=AF_UNIX, sun_path="/s"}, 5) = 0'
        message = 'recvmsg(0, {{msg_name=NULL, msg_namelen=0, msg_iov=[{{iov_base="he", iov_len=2}}, {{iov_base="y", iov_len=9}}], ' \
                  "msg_iovlen=2, msg_controllen=0, msg_flags=0}}, 0) = {}"
        for call, count in (('read(0, "hey", 9) = {}', 3), ('recvfrom(0, "hey", 9, 0, NULL, NULL) = {}', 3), (message, 3),
                            ('readv(0, [{{iov_base="he", iov_len=2}}, {{iov_base="y", iov_len=9}}], 2) = {}', 3)):
            for answer in (count, count - 1, count + 1):
                with self.subTest(call.format(answer)):
                    self.assertEqual(told(*outside, call.format(answer))[0], {} if answer == count else {COUNT: [6]})
        # What strace cut, or didn't show, is as long as the call says.
        for call in ('read(0, "he"..., 9) = 3', "read(0, 0x7ffc, 9) = 3"):
            self.assertEqual(told(*outside, call)[0], {})

    def test_an_answer_that_the_call_does_not_give(self):
        text = "an answer that the call doesn't give"
        for call in ("listen(0, 5)", "close(0)", "close_range(0, 1, 0)", 'unlink("/a")', "setsockopt(0, SOL_SOCKET, SO_SNDBUF, [9999], 4)"):
            self.assertNotIn(text, told(PAIR, f"{call} = 0")[0], call)
            self.assertEqual(told(PAIR, f"{call} = 1")[0].get(text), [5], call)
        for call in ('write(0, "a", 1)', 'sendto(0, "a", 1, 0, NULL, 0)'):
            self.assertEqual(told(PAIR, f"{call} = 0")[0], {text: [5]}, call)
            self.assertEqual(told(PAIR, f"{call.replace('a', '').replace(', 1', ', 0')} = 0")[0], {}, call)

    def test_as_many_messages_as_are_listed(self):
        one = '{{msg_hdr={{msg_name=NULL, msg_namelen=0, msg_iov=[{{iov_base="{}", iov_len=1}}], msg_iovlen=1, msg_controllen=0, ' \
              "msg_flags=0}}, msg_len=1}}"
        both = ", ".join(one.format(letter) for letter in "ab")
        pair = PAIR.replace("STREAM", "DGRAM")
        sent, received = f"sendmmsg(0, [{both}], 2, 0) = ", f"recvmmsg(1, [{both}], 2, 0, NULL) = "
        self.assertEqual(told(pair, sent + "2", received + "2"), ({}, []))
        self.assertEqual(told(pair, sent + "3")[0], {COUNT: [5]})
        self.assertEqual(told(pair, sent + "2", received + "3")[0], {COUNT: [6]})
        self.assertEqual(told(pair, sent + "1", received + "2")[1], [6])

    def test_nobody_is_the_peer_of_a_socket_that_has_none(self):
        """Of a pair of datagram sockets it is who made them, of a listener who listens (unix(7), SO_PEERCRED)."""
        text = "credentials of another than who made the pair, or listens"
        nobody, maker, other = "{pid=0, uid=-1, gid=-1}", "{pid=9, uid=1000, gid=100}", "{pid=9, uid=0, gid=100}"
        listener = "socket(AF_UNIX, SOCK_STREAM, 0) = 0", 'bind(0, {sa_family=AF_UNIX, sun_path="/s"}, 5) = 0', "listen(0, 5) = 0"
        for calls, right in ((listener[:2], nobody), (listener, maker), ((PAIR.replace("STREAM", "DGRAM"),), maker)):
            for one in (nobody, maker, other):
                with self.subTest(f"{calls[-1]} {one}"):
                    notes, _ = told(*calls, f"getsockopt(0, SOL_SOCKET, SO_PEERCRED, {one}, [12]) = 0")
                    self.assertEqual(notes, {} if one == right else {text: [len(calls) + 4]})

    def test_a_pipes_room_is_told_as_it_was_set(self):
        resized = "pipe([0, 1]) = 0", "fcntl(1, F_SETPIPE_SZ, 5000) = 8192"
        self.assertEqual(told(*resized, "fcntl(0, F_GETPIPE_SZ) = 8192"), ({}, []))
        for second, third in ((resized[1], "fcntl(0, F_GETPIPE_SZ) = 4096"),
                              ("fcntl(0, F_GETPIPE_SZ) = 65536", "fcntl(1, F_GETPIPE_SZ) = 4096"),
                              ("getpid() = 9", "fcntl(1, F_SETPIPE_SZ, 5000) = 4096"), ("getpid() = 9", "fcntl(1, F_SETPIPE_SZ, 5000) = 8193")):
            with self.subTest(third):
                self.assertEqual(told(resized[0], second, third)[0], {"a buffer's size that isn't the one that was set": [6]})


@unittest.skipUnless(UXRUN, "there is no uxrun: build it, or name it by the variable UXRUN")
class Errors(unittest.TestCase):
    def test_an_error_that_a_number_cannot_have(self):
        """close(2), dup(2), fcntl(2): what isn't open is EBADF, and what is open is closed or copied."""
        for call in ("close({})", "dup({})", "dup2({}, 5)", "fcntl({}, F_DUPFD, 0)", "dup3({}, 5, 0)"):
            for number, error, differs in ((7, "EBADF", False), (7, "EPIPE", True), (0, "EPIPE", True), (0, "EBADF", True)):
                with self.subTest(f"{call.format(number)} {error}"):
                    self.assertEqual(told(PAIR, f"{call.format(number)} = -1 {error} (Why)"), ({}, [5] if differs else []))

    def test_what_limits_refuse_is_left_out(self):
        for call in ("dup(0) = -1 EMFILE (Too many open files)", "dup2(0, 5) = -1 EBUSY (Busy)", "dup3(0, 0, 0) = -1 EINVAL (Invalid argument)",
                     "fcntl(0, F_DUPFD, 9) = -1 EINVAL (Invalid argument)"):
            self.assertEqual(told(PAIR, call), ({}, []), call)

    def test_a_close_of_a_file_that_fails_frees_the_number(self):
        opened = 'openat(AT_FDCWD, "/a", O_WRONLY) = 0', "close(0) = -1 EIO (Input/output error)"
        self.assertEqual(told(*opened, "socket(AF_UNIX, SOCK_STREAM, 0) = 0", "close(0) = 0"), ({}, []))


if __name__ == "__main__":
    unittest.main()
