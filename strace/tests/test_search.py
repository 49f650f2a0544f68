"""The search for an order of calls that overlap: what it costs in a log of so many, which calls it moves, and what it leaves undecided.

These need uxrun, as test_replay.py says."""
from __future__ import annotations

import tempfile
import unittest
from unittest import mock

import here  # noqa: F401
import common
from judging.order import Search
from judging.run import Runner
from telling.replay import text_of
from test_replay import HEAD, RULES, UXRUN, replayed

PAIR = "9 1.0 socketpair(AF_UNIX, SOCK_STREAM, 0, [{0}<UNIX-STREAM:[7{0}->8{0}]>, {1}<UNIX-STREAM:[8{0}->7{0}]>]) = 0\n"
# A write that began before a read ended, of which that didn't see anything: it stands where it began, and has to stand behind the read.
ROUND = """9 2.0 write(0, "a", 1) = 1
9 2.1 write(0, "b", 1 <unfinished ...>
10 2.2 read(1,  <unfinished ...>
9 2.3 <... write resumed>) = 1
10 2.4 <... read resumed>"a", 9) = 1
10 2.5 read(1, "b", 9) = 1
9 2.6 getsockopt(0, SOL_SOCKET, SO_TYPE, [SOCK_STREAM], [4]) = 0
10 2.7 getsockopt(1, SOL_SOCKET, SO_TYPE, [SOCK_STREAM], [4]) = 0
"""


def overlapping(rounds: int):
    """A log of so many times calls in an order that isn't that of their lines."""
    return HEAD + PAIR.format(0, 1) + "9 1.1 fork() = 10\n" + ROUND * rounds


def searched(text: str, seconds: float = 120):
    with tempfile.NamedTemporaryFile("w", encoding="latin-1", suffix=".log") as file:
        file.write(text)
        file.flush()
        log = common.load(file.name)
    search = Search(common.say(log), Runner(UXRUN), RULES, seconds)
    return search, search.run()


@unittest.skipUnless(UXRUN, "there is no uxrun: build it, or name it by the variable UXRUN")
class Cost(unittest.TestCase):
    def test_it_does_not_grow_with_the_log(self):
        """Of a log that is eight times as long eight times as many calls are made, and uxrun runs twice."""
        made = {}
        for rounds in (20, 160):
            search, order = searched(overlapping(rounds))
            self.assertEqual((len(order.moved), order.out_of_time, search.runner.runs), (2 * rounds, False, 2))
            self.assertFalse(any(verdict.is_wrong() for verdict in order.verdicts))
            made[rounds] = search.made / rounds
        self.assertLess(made[160], 1.5 * made[20])

    def test_what_was_kept_of_another_order_is_not_taken_up(self):
        with mock.patch("judging.order.BETWEEN", 1):
            _, order = searched(overlapping(6))
        self.assertEqual((len(order.moved), order.settled), (12, set()))

    def test_where_nothing_differs_nothing_is_looked_for(self):
        search, order = searched(HEAD + PAIR.format(0, 1))
        self.assertEqual((search.made, search.runner.runs), (0, 1))


@unittest.skipUnless(UXRUN, "there is no uxrun: build it, or name it by the variable UXRUN")
class Reordered(unittest.TestCase):
    # A read that can't be, beside a call that overlaps it.
    WRONG = HEAD + PAIR.format(0, 1) + PAIR.format(2, 3) + ('9 1.1 fork() = 10\n9 1.2 write({0}, "x", 1 <unfinished ...>\n'
                                                           '10 1.3 read(1, "a", 9) = 1\n9 1.4 <... write resumed>) = 1\n')

    def tried(self, text: str):
        """How many orders were tried."""
        with mock.patch("judging.order.Walk.reach", autospec=True, side_effect=lambda *rest: None) as reach:
            searched(text)
        return reach.call_count

    def test_calls_that_share_no_description_are_never_reordered(self):
        self.assertGreater(self.tried(self.WRONG.format(0)), 0)
        self.assertEqual(self.tried(self.WRONG.format(2)), 0)

    def test_calls_of_one_table_or_name_may_be(self):
        log = HEAD + ('9 1.0 clone(child_stack=0x1, flags=CLONE_VM|CLONE_THREAD) = 10\n9 1.1 {} <unfinished ...>\n10 1.2 {}\n'
                      '9 1.3 <... {} resumed>) = {}\n')
        threads = log.format("close(5", "socket(AF_UNIX, SOCK_STREAM, 0) = 1", "close", "-1 EBADF (Bad file descriptor)")
        self.assertEqual(replayed(threads)[1]["replies"]["differ"], 0)
        named = HEAD + ('9 1.0 socket(AF_UNIX, SOCK_DGRAM, 0) = 0\n9 1.1 fork() = 10\n10 1.2 socket(AF_UNIX, SOCK_DGRAM, 0) = 1\n'
                        '9 1.3 bind(0, {sa_family=AF_UNIX, sun_path=@"x"}, 4 <unfinished ...>\n'
                        '10 1.4 connect(1, {sa_family=AF_UNIX, sun_path=@"x"}, 4) = -1 ECONNREFUSED (Connection refused)\n'
                        '9 1.5 <... bind resumed>) = 0\n')
        self.assertEqual([replayed(named)[1][key] for key in ("moved", "differences")], [1, []])

    def test_what_was_not_tried_is_not_decided(self):
        """An exchange of calls that stand too far apart, or one more than are tried."""
        log = overlapping(1).replace('"a", 9', '"c", 9')
        status, report = replayed(log)
        self.assertEqual((status, report["replies"]["differ"]), (1, 2))
        for limit in ("MOST_TRIED", "FARTHEST"):
            with self.subTest(limit), mock.patch(f"judging.order.{limit}", 0):
                status, report = replayed(log)
                self.assertEqual((status, report["replies"]["differ"], report["replies"]["not decided"], report["out of time"]),
                                 (1, 1, 1, False))
                self.assertIn("ended early: 1 further replies aren't decided", text_of(report))


if __name__ == "__main__":
    unittest.main()
