"""The list of programs, the quiet moments at which /proc is compared, and what counts as the same file or socket."""
from __future__ import annotations

import tempfile
import unittest

from here import TOP
from checking.mistakes import changes
from checking.moments import busy_times, quiet_moments, same
from reading.calls import read_log
from reading.programs import read_programs
from saying.model import Description, Kind, Role, Step

LOG = """7 100.0 socket(AF_UNIX, SOCK_STREAM, 0) = 3<UNIX-STREAM:[5]> <0.010000>
7 100.5 accept(3<UNIX-STREAM:[5]>, NULL, NULL <unfinished ...>
8 101.0 openat(AT_FDCWD</>, "/a", O_RDONLY) = 3</a> <0.100000>
7 102.0 <... accept resumed>) = 4<UNIX-STREAM:[6->7]> <1.500000>
"""


def log(text: str = LOG):
    with tempfile.NamedTemporaryFile("w", suffix=".log") as file:
        file.write(text)
        file.flush()
        return read_log(file.name)


def sample(begin: float, end: float, **tables: dict[int, str]):
    return {"begin": begin, "end": end, "tables": {7: {3: "socket:[5]"}, **tables}}


class Moments(unittest.TestCase):
    def test_a_call_that_waits_is_busy_at_its_end_alone(self):
        spans = [(round(begin, 3), round(end, 3)) for begin, end in busy_times(log())]
        self.assertEqual(spans, [(100.0, 100.11), (101.0, 101.1), (102.0, 102.0)])

    def test_a_call_may_be_made_up_to_its_threads_next_line(self):
        """strace notes the time before it lets a call begin: how long that takes isn't in how long the call took."""
        lines = ('7 100.0 openat(AT_FDCWD</>, "/a", O_RDONLY) = 3</a> <0.000050>', "7 100.2 getpid() = 7 <0.000010>",
                 '7 101.0 read(3</a>, ""..., 9) = 9 <1.000000>', "7 104.0 close(3</a>) = 0 <0.000010>")
        found = [line for line, _ in quiet_moments(log("\n".join(lines) + "\n"), [sample(begin, begin + 0.01) for begin in
                                                                                  (100.1, 100.5, 101.5, 103.0, 105.0)], 10)]
        self.assertEqual(found, [1, 3, 4])

    def test_samples_beside_a_call_are_not_quiet(self):
        samples = [sample(100.005, 100.2), sample(100.6, 100.7), sample(101.05, 101.06), sample(101.2, 102.5), sample(103.0, 103.1)]
        self.assertEqual([line for line, _ in quiet_moments(log(), samples, 10)], [2, 4])

    def test_before_the_first_call_is_no_moment(self):
        self.assertEqual([line for line, _ in quiet_moments(log(), [sample(99.0, 99.1), sample(103.0, 103.1)], 10)], [4])

    def test_one_moment_of_those_with_the_same_calls_before_them(self):
        self.assertEqual(len(quiet_moments(log(), [sample(100.6, 100.61), sample(100.7, 100.71)], 10)), 1)

    def test_what_is_the_same(self):
        for inode, target, verdict in (("socket:[5]", "socket:[5]", "same"), ("socket:[5]", "socket:[6]", "different"),
                                       ("/a\\74b", "/a<b", "same"), ("/m (deleted)", "/m", "same"), ("/a", "/b", "different"),
                                       ("", "socket:[5]", "not told"), ("TCP:[1.2.3.4:5]", "socket:[5]", "not told")):
            self.assertEqual(same(Description(Kind.OPAQUE, "", inode=inode), target), verdict, inode)


class Programs(unittest.TestCase):
    def test_each_program_has_what_it_needs_and_lines(self):
        programs = read_programs(TOP / "programs")
        self.assertGreaterEqual(len(programs), 16)
        self.assertEqual(len({program.name for program in programs}), len(programs))
        for program in programs:
            self.assertTrue(program.needs and program.packages and program.lines, program.name)

    def test_a_line_of_something_else_is_told(self):
        with tempfile.NamedTemporaryFile("w") as file:
            file.write("program: x\nhello\n")
            file.flush()
            with self.assertRaisesRegex(ValueError, ":2: 'hello'"):
                read_programs(file.name)

    def test_what_is_not_there_is_lacking(self):
        with tempfile.NamedTemporaryFile("w") as file:
            file.write("program: x\nneeds: sh no-such-command\n  true\n")
            file.flush()
            self.assertEqual(read_programs(file.name)[0].lacks(), ["no-such-command"])


class Mistakes(unittest.TestCase):
    def test_queries_and_refused_calls_are_not_taken_out(self):
        for words, expect, wanted in (("close 3", "ok", True), ("poll 3", "poll IN", False), ("read 3 9", "err EAGAIN", False),
                                      ("read 3 9", "bytes 61", True), ("fork", "child 2", False), ("recv 0 0 9 -", None, False)):
            self.assertEqual(changes(Step(None, words, expect, Role.CALL)), wanted, words)


if __name__ == "__main__":
    unittest.main()
