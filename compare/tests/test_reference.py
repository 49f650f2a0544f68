"""The reference's reading of scripts, and its rules' switches: what a call is answered with one off and on."""
import sys
import unittest
from pathlib import Path

sys.dont_write_bytecode = True
sys.path.insert(0, str(Path(__file__).resolve().parents[1]))
from comparing.lines import Difference, Line, first_difference
from reference.machine import Machine, read
from reference.rules import ALL_RULES, NO_RULES, Rule
from reference.script import parse
from reference.trace import Run, trace

PROC = "serial\nproc 1000 1000 0 16\n"
# A rule, the calls of process 1 before, the call, the layer's answer by docs/calls.md, and Linux's by its manual pages and sources.
SWITCHES = [
    (Rule.OPEN_OF_A_SOCKET, ["socket dgram -", "bind 0 p:s"], "open p:s r -", "err EOPNOTSUPP", "err ENXIO"),
    (Rule.READ_OF_NO_BYTES, ["pair dgram -", "write 0 61"], "read 1 0", "bytes -", "bytes -"),
    (Rule.READ_OF_NO_BYTES, ["pair dgram -", "write 0 61", "read 1 0"], "read 1 9", "err EAGAIN", "bytes 61"),
    (Rule.ROOM_OF_A_PIPE, ["pipe -", f"write 1 {'61' * 60000}"], f"write 1 {'62' * 10000}", "n 5536", "n 4096"),
    (Rule.ROOM_OF_A_PIPE, ["pipe -", *[f"write 1 {'61' * 3000}"] * 16], "write 1 " + "62" * 3000, "n 3000", "err EAGAIN"),
    (Rule.ROOM_OF_A_STREAM, ["pair stream -", f"send 0 - {'61' * 65536} - -"], "send 0 - 62 - -", "err EAGAIN", "n 1"),
    (Rule.ROOM_OF_A_STREAM, ["pair stream -", *[f"send 0 - {'61' * 30000} - -"] * 2], "poll 0", "poll OUT", "poll -"),
    (Rule.LONG_SEND_OF_A_STREAM, ["pair stream -", "memfd -", f"send 0 - {'61' * 40000} r:2 -"], "recv 1 50000 0 -",
     f"got 40000 {'61' * 40000} CTRUNC - -", f"got 36544 {'61' * 36544} CTRUNC - -"),
    (Rule.MESSAGES_IN_A_QUEUE, ["pair dgram -"], f"send 0 - {'61' * 65537} - -", "err EMSGSIZE", "n 65537"),
    (Rule.MESSAGES_IN_A_QUEUE, ["pair dgram -", *["send 0 - 61 - -"] * 16], "send 0 - 61 - -", "err EAGAIN", "n 1"),
    (Rule.ORDER_OF_SEND, ["pair stream -"], "send 0 - 61 c:1,0,0+r:9 -", "err EBADF", "err EPERM"),
    (Rule.ORDER_OF_SEND, ["socket seq -"], "send 0 - 61 r:9 -", "err EBADF", "err ENOTCONN"),
    (Rule.CONTROL_THAT_IS_NONE, ["pair stream -"], "send 0 - 61 x:00 -", "err EINVAL", "n 1"),
    (Rule.QUEUE_LIMIT, ["pair stream -"], "getopt 0 qlimit", "opt 65536", "err ENOPROTOOPT"),
    (Rule.DATAGRAM_SOCKET_SHUT_FOR_READING, ["pair dgram -", "shut 0 r"], "recv 0 9 0 d", "got 0 - - - -", "err EAGAIN"),
    (Rule.DATAGRAM_SOCKET_SHUT_FOR_READING, ["pair dgram n", "shut 0 r"], "recv 0 9 0 -", "got 0 - - - -", "err EAGAIN"),
    (Rule.LONG_PATH, [], "open p:" + "l" * 256 + " r -", "err EINVAL", "err ENAMETOOLONG"),
    (Rule.SENDER_NAMED_LATER, ["pair dgram -", "write 0 61", "bind 0 a:x"], "recv 1 9 0 -", "got 1 61 - - u", "got 1 61 - - a:x"),
    (Rule.LONG_WRITE_OF_A_COUNTER, ["eventfd 0 -"], "write 0 010000000000000000", "n 8", "err EINVAL"),
    (Rule.OFFSET_OF_A_COUNTER, ["eventfd 0 -"], "lseek 0 0 set", "err ESPIPE", "at 0"),
    (Rule.BIND_AGAIN, ["socket dgram -", "bind 0 a:x"], "bind 0 u", "err EINVAL", "ok"),
    (Rule.LISTEN_WITHOUT_A_NAME, ["socket stream -"], "listen 0 5", "err EDESTADDRREQ", "err EINVAL"),
    (Rule.ABSTRACT_NAMES_BY_TYPE, ["socket dgram -", "bind 0 a:x", "socket stream -"], "connect 1 a:x", "err EPROTOTYPE", "err ECONNREFUSED"),
    (Rule.ASSOCIATION_DROPS_THE_QUEUE, ["pair dgram -", "write 1 61", "connect 0 u"], "read 0 9", "bytes 61", "err EAGAIN"),
    (Rule.SHUTDOWN_OF_AN_IDLE_SOCKET, ["socket stream -"], "shut 0 r", "err ENOTCONN", "ok"),
    (Rule.POLL_OF_AN_IDLE_SOCKET, ["socket stream -"], "poll 0", "poll HUP", "poll OUT|HUP"),
    (Rule.UNNAMED_SENDER, ["pair dgram -", "write 0 61"], "recv 1 9 0 -", "got 1 61 - - u", "got 1 61 - - -"),
    (Rule.RECORD_END, ["pair seq -", "write 0 61"], "recv 1 9 0 -", "got 1 61 EOR - -", "got 1 61 - - -"),
    (Rule.RIGHTS_WITHOUT_DATA, ["pair stream -"], "send 0 - - r:0 -", "err EINVAL", "n 0"),
    (Rule.SEND_FLAGS, ["pair stream -"], "send 0 - 61 - p", "err EINVAL", "n 1"),
    (Rule.BYTES_BEHIND_THE_END, ["memfd -", "write 0 616263", "lseek 0 10 set"], "inq 0", "n 0", "n -7"),
    (Rule.BYTES_BEHIND_THE_END, ["memfd -", "write 0 616263", "lseek 0 4294967290 set"], "inq 0", "n 0", "n 9"),
    (Rule.MEMORY_OF_WHAT_WAS_SENT, ["pair stream -", "send 0 - 616263 - -"], "outq 0", "n 3", "n 768"),
    (Rule.MEMORY_OF_WHAT_WAS_SENT, ["pair seq -", "send 0 - - - -"], "outq 0", "n 0", "n 768"),
    (Rule.OUTQ_OF_DATAGRAMS, ["pair dgram -"], "outq 0", "err EOPNOTSUPP", "n 0"),
    (Rule.OUTQ_OF_DATAGRAMS, ["pair dgram -", "send 0 - 616263 - -"], "outq 0", "err EOPNOTSUPP", "n 768"),
    (Rule.POLL_OF_AN_IDLE_SOCKET, ["socket stream -"], "polls 0:io,0:- wait", "polled HUP HUP", "polled OUT|HUP HUP"),
    (Rule.POLL_OF_TWO_HALF_CLOSES, ["pair stream -", "shut 0 w", "shut 1 w"], "polls 0:o,1:- wait", "polled OUT -", "polled OUT|HUP HUP"),
    (Rule.POLL_OF_TWO_HALF_CLOSES, ["pair stream -", "shut 0 w", "shut 1 w"], "polls 1:- wait", "err EAGAIN", "polled HUP"),
    (Rule.POLL_OF_A_DATAGRAM_SOCKET, ["pair dgram -", "shut 0 rw"], "polls 0:ih,0:h,0:- now",
     "polled IN - -", "polled IN|RDHUP|HUP RDHUP|HUP HUP"),
    (Rule.POLL_OF_MANY, ["pipe -"], "polls " + ",".join(["0:i"] * 17) + " now", "polled" + " -" * 17, "err EINVAL"),
]
PADDED = "x:" + "1400000000000000" + "01000000" + "01000000" + "00000000" + "00000000"  # a right, and padding behind it (cmsg(3))
TOO_LONG = "x:" + "ff00000000000000" + "01000000" + "01000000" + "00000000"
# A rule that a call is about, the calls before, the call, and what both answer, so that the rule isn't asked.
ALIKE = [
    (Rule.ORDER_OF_SEND, ["pair stream -"], "send 0 - 61 r:9+c:1,0,0 -", "err EBADF"),
    (Rule.ORDER_OF_SEND, ["pair stream -"], "send 0 - 61 r:0+c:1,0,0 -", "err EPERM"),
    (Rule.ORDER_OF_SEND, ["socket seq -"], "send 0 - 61 - -", "err ENOTCONN"),
    (Rule.CONTROL_THAT_IS_NONE, ["pair stream -"], f"send 0 - 61 {PADDED} -", "n 1"),
    (Rule.CONTROL_THAT_IS_NONE, ["pair stream -"], f"send 0 - 61 {TOO_LONG} -", "err EINVAL"),
    (Rule.ROOM_OF_A_STREAM, ["pair stream -"], f"send 0 - {'61' * 65536} - -", "n 65536"),
    (Rule.ROOM_OF_A_STREAM, ["pair stream -", f"send 0 - {'61' * 49153} - -"], "poll 0", "poll OUT"),
    (Rule.MESSAGES_IN_A_QUEUE, ["pair seq -", *["send 0 - 61 - -"] * 15], "send 0 - 61 - -", "n 1"),
    (Rule.MESSAGES_IN_A_QUEUE, ["pair seq -"], f"send 0 - {'61' * 65536} - -", "n 65536"),
    (Rule.ROOM_OF_A_PIPE, ["pipe -", f"write 1 {'61' * 57344}"], "poll 1", "poll OUT"),
    (Rule.ROOM_OF_A_PIPE, ["pipe -", f"write 1 {'61' * 65536}"], "write 1 61", "err EAGAIN"),
    (Rule.FLAGS_OF_THE_REPLAY, ["eventfd 0 n", "dup 0", "flags 1 an"], "getfl 0", "flags APPEND|NONBLOCK"),
    (Rule.DATAGRAM_SOCKET_SHUT_FOR_READING, ["pair dgram -", "shut 0 r"], "recv 0 9 0 -", "got 0 - - - -"),
    (Rule.QUEUE_LIMIT, [], "getopt 0 qlimit", "err EBADF"),
    (Rule.QUEUE_LIMIT, ["memfd -"], "setopt 0 qlimit 5", "err ENOTSOCK"),
    (Rule.LONG_PATH, [], "open p:" + "l" * 107 + " r -", "err ENOENT"),
    (Rule.ORDER_OF_OPEN, [], "open p:none r -", "err ENOENT"),
    (Rule.LIMIT_OF_RIGHTS_IN_FLIGHT, ["pair dgram -"], "send 0 - 61 r:0 -", "n 1"),
    (Rule.PRIVILEGE, ["pair dgram -"], "send 0 - 61 c:1,0,0 -", "err EPERM"),
    (Rule.PATH_OF_NO_FILE, ["memfd -"], "bind 0 p:", "err ENOTSOCK"),
    (Rule.BYTES_BEHIND_THE_END, ["memfd -", "write 0 616263", "lseek 0 1 set"], "inq 0", "n 2"),
    (Rule.BYTES_BEHIND_THE_END, ["memfd -", "write 0 616263"], "inq 0", "n 0"),
    (Rule.MEMORY_OF_WHAT_WAS_SENT, ["pair stream -", "send 0 - 616263 - -", "recv 1 9 0 -"], "outq 0", "n 0"),
    (Rule.MEMORY_OF_WHAT_WAS_SENT, ["pair stream -", "send 0 - 616263 - -", "close 1"], "outq 0", "n 0"),
    (Rule.MEMORY_OF_WHAT_WAS_SENT, ["memfd -"], "outq 0", "err ENOTTY"),
    (Rule.POLL_OF_MANY, ["pipe -"], "polls " + ",".join(["1:o"] * 16) + " wait", "polled" + " OUT" * 16),
    (Rule.POLL_OF_MANY, ["pipe -"], "polls " + ",".join(["1:o"] * 65) + " wait", "err EINVAL"),
]
# What both refuse alike, before all else (pipe2(2), eventfd(2), memfd_create(2)).
REFUSED = ["pipe a", "pipe anx", "eventfd 0 a", "eventfd 5 ax", "eventfd 5 anxs", "memfd n", "memfd a", "memfd anx"]
TAKEN = ["pipe nx", "eventfd 0 nx", "eventfd 0 nxs", "memfd x"]


def answers(calls, rules):
    """The replies to the calls of process 1."""
    script = parse(PROC + "".join(f"1 {call}\n" for call in calls))
    return [line.reply for line in trace(script, rules, Machine())[:len(calls)]]


class Switches(unittest.TestCase):
    def test_a_rule_alone_changes_its_answer(self):
        for rule, before, call, ours, linux in SWITCHES:
            with self.subTest(f"{rule.value}: {call[:40]}"):
                self.assertEqual(answers([*before, call], NO_RULES)[-1], ours)
                self.assertEqual(answers([*before, call], frozenset({rule}))[-1], linux)

    def test_a_rule_is_not_asked_where_both_agree(self):
        for rule, before, call, reply in ALIKE:
            with self.subTest(f"{rule.value}: {call[:40]}"):
                run = Run(parse(PROC + "".join(f"1 {line}\n" for line in [*before, call])), ALL_RULES, Machine())
                run.make_all()
                self.assertEqual(run.lines[len(before)].reply, reply)
                self.assertEqual(answers([*before, call], NO_RULES)[-1], reply)
                self.assertNotIn(rule, run.kernel.used)

    def test_the_call_at_which_an_object_fails_is_marked_on_linux(self):
        text = "object p:f fail 2 mem 6162\nproc 1 1 0 9\n1 open p:f r -\n1 read 0 0\n1 read 0 1\n1 read 0 1\n1 read 0 1\n"
        self.assertEqual([line.reply for line in trace(parse(text), NO_RULES, Machine())[1:5]], ["bytes -", "bytes 61", "err EIO", "bytes 62"])
        self.assertEqual([line.reply for line in trace(parse(text), ALL_RULES, Machine())[1:5]],
                         ["bytes -", "bytes 61", "bytes 62 (fails)", "bytes -"])

    def test_an_ordinary_users_replay_gives_its_own_credentials(self):
        text = "proc 5 6 1 9\n1 pair seq -\n1 setopt 1 passcred 1\n1 send 0 - 61 c:9,7,8 -\n1 recv 1 9 64 -\n"
        replies = [trace(parse(text), ALL_RULES, Machine(own_users=own))[2:4] for own in (0, 1)]
        self.assertEqual([line.reply for line in replies[0]], ["n 1", "got 1 61 - c:1,5,6 -"])
        self.assertEqual([line.reply for line in replies[1]], ["err ESRCH", "err EAGAIN"])

    def test_flags_that_a_call_does_not_take_are_refused_before_all_else(self):
        full = [f"dup2 0 {number}" for number in range(1, 16)]
        for rules in (NO_RULES, ALL_RULES):
            for call in REFUSED:
                self.assertEqual(answers([call], rules), ["err EINVAL"], call)
                self.assertEqual(answers(["memfd -", *full, call], rules)[-1], "err EINVAL", call)
            for call in TAKEN:
                self.assertRegex(answers([call], rules)[-1], "^fds? 0", call)
                self.assertEqual(answers(["memfd -", *full, call], rules)[-1], "err EMFILE", call)

    def test_a_semaphore_is_taken_one_by_one(self):
        one, two = ("bytes " + value.to_bytes(8, "little").hex() for value in (1, 2))
        for rules in (NO_RULES, ALL_RULES):
            self.assertEqual(answers(["eventfd 2 s", "read 0 8", "read 0 8", "read 0 8"], rules)[1:], [one, one, "err EAGAIN"])
            self.assertEqual(answers(["eventfd 2 -", "read 0 8", "read 0 8"], rules)[1:], [two, "err EAGAIN"])

    def test_what_waits_is_counted_by_kind(self):
        sent = ["send 0 - 616263 - -", "send 0 - - - -", "send 0 - 6465 - -"]
        for rules in (NO_RULES, ALL_RULES):
            self.assertEqual([answers([f"pair {kind} -", *sent, "inq 1"], rules)[-1] for kind in ("stream", "seq", "dgram")],
                             ["n 5", "n 5", "n 3"])
            self.assertEqual([answers(["pair dgram -", *sent[1:], "inq 1"], rules)[-1], answers(["pair dgram -", "inq 1"], rules)[-1]],
                             ["n 0", "n 0"])
            self.assertEqual([answers(["pipe -", "write 1 616263", f"inq {end}"], rules)[-1] for end in (0, 1)], ["n 3", "n 3"])
            self.assertEqual(answers(["eventfd 1 -", "inq 0"], rules)[-1], "err ENOTTY")
            self.assertEqual(answers(["socket stream -", "bind 0 a:x", "listen 0 1", "inq 0", "outq 0"], rules)[-2:], ["err EINVAL", "n 0"])
            self.assertEqual(answers(["inq 0", "outq 0"], rules), ["err EBADF", "err EBADF"])

    def test_a_poll_of_several_tells_what_is_asked_for_and_what_hangs_up_or_fails(self):
        """poll(2): revents has what events asks for, and POLLHUP, POLLERR and POLLNVAL in any case."""
        lost = ["pair stream -", "send 0 - 6162 - -", "close 0"]
        reset = ["pair stream -", "send 1 - 6162 - -", "close 0"]
        rows = [(["pair stream -"], "0:ioh,1:i,0:- now", "OUT - -"), (["pair stream -"], "0:i,1:i now", "- -"),
                (["pair stream -"], "1:i,0:o wait", "- OUT"),
                (["pair stream -", "send 0 - 61 - -"], "0:i,1:i,1:o,1:io wait", "- IN OUT IN|OUT"),
                (["pair stream -", "shut 0 w"], "1:h,1:i,1:-,1:ioh,0:ioh now", "RDHUP IN - IN|OUT|RDHUP OUT"),
                (lost, "1:-,1:i,1:ioh,0:- wait", "HUP IN|HUP IN|OUT|RDHUP|HUP NVAL"), (reset, "1:- wait", "HUP|ERR"),
                (["pipe -", "close 1"], "0:-,0:ioh wait", "HUP HUP"), (["pipe -", "close 0"], "1:-,1:o,1:i wait", "ERR OUT|ERR ERR"),
                (["eventfd 3 -"], "0:i,0:o,0:h now", "IN OUT -"), ([], "0:ioh,4294967295:-,16:i wait", "NVAL NVAL NVAL")]
        for rules in (NO_RULES, ALL_RULES):
            for before, given, told in rows:
                with self.subTest(f"{before} {given}"):
                    self.assertEqual(answers([*before, f"polls {given}"], rules)[-1], f"polled {told}")

    def test_a_poll_of_several_that_finds_nothing_waits_or_tells_so(self):
        for rules in (NO_RULES, ALL_RULES):
            self.assertEqual(answers(["pair stream -", "polls 0:i,1:h,0:- wait", "polls 0:i,1:h,0:- now"], rules)[1:],
                             ["err EAGAIN", "polled - - -"])
            self.assertEqual(answers(["polls - wait", "polls - now"], rules), ["err EAGAIN", "polled"])

    def test_64_descriptors_are_the_most_that_are_polled(self):
        calls = ["memfd -", *[f"polls {','.join(['0:o'] * count)} now" for count in (64, 65)]]
        script = parse("proc 1000 1000 0 64\n" + "".join(f"1 {call}\n" for call in calls))
        for rules in (NO_RULES, ALL_RULES):
            self.assertEqual([line.reply for line in trace(script, rules, Machine())][1:3], ["polled" + " OUT" * 64, "err EINVAL"])

    def test_a_poll_of_several_changes_nothing(self):
        calls = ["pair stream -", "send 0 - 6162 - -", "polls 0:ioh,1:ioh wait", "recv 1 9 0 -", "polls 0:i,1:i wait", "getfl 0"]
        for rules in (NO_RULES, ALL_RULES):
            self.assertEqual(answers(calls, rules)[2:], ["polled OUT IN|OUT", "got 2 6162 - - -", "err EAGAIN", "flags -"])

    def test_a_pipes_pages_are_read_as_they_were_written(self):
        calls = ["pipe -", f"write 1 {'61' * 5000}", f"write 1 {'62' * 3000}", "read 0 4500", "read 0 100000"]
        self.assertEqual(answers(calls, ALL_RULES)[-1], "bytes " + "61" * 500 + "62" * 3000)


class Scripts(unittest.TestCase):
    def test_header_and_calls(self):
        script = parse("# a comment\nserial\nobject p:f fail 2 mem 6162\nobject p:%67 pipe\nproc 1 2 1 16\n\n1 wait 1 1\n1 poll 0\noff\n")
        self.assertEqual([(line.path, line.fails_at, line.kind, line.data) for line in script.objects],
                         [(b"f", 2, "mem", b"ab"), (b"g", 0, "pipe", b"")])
        self.assertEqual([(line.row, line.pid, line.words) for line in script.calls], [(8, 1, ["poll", "0"])])
        self.assertTrue(script.is_serial and script.has_end and script.processes[0].privileged)

    def test_text_is_bytes_and_rights_are_space(self):
        script = parse(PROC + '1 write 0 "a\\n\\x00\\""\n1 recv 0 9 rights:3 -\n1 write 0 ""\n')
        self.assertEqual([call.words for call in script.calls],
                         [["write", "0", "610a0022"], ["recv", "0", "9", "32", "-"], ["write", "0", "-"]])


class Machines(unittest.TestCase):
    def test_figures_are_read(self):
        machine = read("send_buffer 100\nmessage 50\ncost 0 7\ncost 10 9\nstream_cost 0 5\nstream_cost 40 8\n")
        self.assertEqual([machine.cost("dgram", length) for length in (0, 9, 10, 99)], [7, 7, 9, 9])
        self.assertEqual([machine.cost("stream", length) for length in (0, 39, 40, 50, 90, 100)], [5, 5, 8, 8, 16, 16])


class Differences(unittest.TestCase):
    def test_the_first_line_that_is_another(self):
        expected = [Line(0, 1, 0, "poll", "poll -", row=3), Line(1, 1, 1, "exit", "ok")]
        rows = ["", "", "1 poll 0"]
        self.assertIsNone(first_difference("Linux", ["0 1 0 poll = poll -", "1 1 1 exit = ok"], expected, rows))
        found = first_difference("Linux", ["0 1 0 poll = poll IN", "1 1 1 exit = ok"], expected, rows)
        self.assertEqual((type(found), found.row, found.answer, found.expected), (Difference, 3, "poll IN", "poll -"))
        self.assertEqual(first_difference("Linux", ["0 1 0 poll = poll -"], expected, rows).answer, "no line")
        self.assertEqual(first_difference("Linux", ["0 1 0 poll = poll -", "1 1 1 exit = ok", "2 1 2 x = ok"], expected, rows).expected, "no line")


if __name__ == "__main__":
    unittest.main()
