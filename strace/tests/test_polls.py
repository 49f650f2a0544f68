"""Polls of several descriptors: how they are said, and how what they told stands to the kernel's.

The second reference of compare/ stands in for uxrun, so that these need no program."""
from __future__ import annotations

import tempfile
import unittest

import here  # noqa: F401
import common
from judging.order import Search
from judging.polls import parted, rule_of_one
from judging.rules import read_rules
from judging.run import Trace
from reference.machine import Machine
from reference.rules import NO_RULES
from reference.script import parse
from reference.trace import trace
from saying.model import Polled, Step
from telling.replay import report_of, status_of

HEAD = "# recorded 1\n# folder /\n# user 1000 100\n"
PAIR = "socketpair(AF_UNIX, SOCK_STREAM, 0, [0, 1]) = 0"
SECOND = "socketpair(AF_UNIX, SOCK_STREAM, 0, [2, 3]) = 0"
TIMER = "timerfd_create(CLOCK_MONOTONIC, 0) = 2"
RULES = read_rules()


class StandIn:
    """What runs scripts where there is no uxrun."""

    def __init__(self) -> None:
        self.runs = 0

    def run(self, text: str, audit: int | None = None):
        self.runs += 1
        return Trace([line.reply for line in trace(parse(text), NO_RULES, Machine())])


def replay(*lines: str):
    """The last line of a log's script, its status and its report."""
    with tempfile.NamedTemporaryFile("w", encoding="latin-1", suffix=".log") as file:
        file.write(HEAD + "".join(f"9 1.{place:03} {line}\n" for place, line in enumerate(lines)))
        file.flush()
        log = common.load(file.name)
    world, runner = common.say(log), StandIn()
    order = Search(world, runner, RULES, 60).run()
    report = report_of(log, world, order, runner)
    return order.script.lines[-1], status_of(report), report


def poll(asked: dict[int, str], told: dict[int, str], timeout: str = "-1", name: str = "poll", answer: str = ""):
    """A poll of several as strace tells it, where it isn't told otherwise with its count."""
    listed = ", ".join(f"{{fd={number}, events={events}}}" for number, events in asked.items())
    ready = ", ".join(f"{{fd={number}, revents={events}}}" for number, events in told.items())
    answer = answer or (f"{len(told)} ([{ready}])" if told else "0 (Timeout)")
    return f"{name}([{listed}], {len(asked)}, {timeout}) = {answer}"


# What stands before, a poll or select, and how it is said. In each the replies agree.
SAID = [
    ([PAIR], poll({0: "POLLIN|POLLOUT", 1: "POLLIN"}, {0: "POLLOUT"}), "polls 0:io,1:i wait"),
    ([PAIR], poll({1: "POLLIN|POLLRDHUP", 0: "0"}, {}, "0"), "polls 1:ih,0:- now"),
    ([PAIR], poll({0: "POLLOUT", 1: "POLLOUT"}, {0: "POLLOUT", 1: "POLLOUT"}, "0"), "polls 0:o,1:o now"),
    # One that nothing ended but time or a signal found nothing.
    ([PAIR], poll({0: "POLLIN", 1: "POLLIN"}, {}, "500"), "polls 0:i,1:i now"),
    ([PAIR], poll({0: "POLLIN", 1: "POLLIN"}, {}, answer="-1 EINTR (Interrupted system call)"), "polls 0:i,1:i now"),
    ([PAIR], poll({0: "POLLIN", 1: "POLLIN"}, {}, answer="? ERESTART_RESTARTBLOCK (Interrupted by signal)"), "polls 0:i,1:i now"),
    # What isn't the layer's ended the wait, or the layer's own did.
    ([PAIR, TIMER], poll({0: "POLLIN", 2: "POLLIN", 1: "POLLIN"}, {2: "POLLIN"}), "polls 0:i,1:i now"),
    ([PAIR, TIMER], poll({0: "POLLOUT", 2: "POLLIN"}, {0: "POLLOUT"}), "polls 0:o wait"),
    ([PAIR, TIMER], poll({2: "POLLIN", 0: "POLLIN", 1: "POLLOUT"}, {2: "POLLIN", 1: "POLLOUT"}), "polls 0:i,1:o wait"),
    # Conditions that nobody asks for.
    ([PAIR, SECOND, "close(0) = 0"], poll({1: "0", 3: "POLLIN"}, {1: "POLLHUP"}), "polls 1:-,3:i wait"),
    ([PAIR, 'write(0, "a", 1) = 1'], poll({0: "POLLRDNORM", 1: "POLLRDNORM|POLLPRI"}, {1: "POLLRDNORM"}), "polls 0:i,1:i wait"),
    # A timeout is a number, a structure or none.
    ([PAIR], poll({0: "POLLOUT", 1: "POLLIN"}, {0: "POLLOUT"}, "NULL, NULL, 8", "ppoll"), "polls 0:o,1:i wait"),
    ([PAIR], poll({0: "POLLOUT", 1: "POLLIN"}, {0: "POLLOUT"}, "{tv_sec=0, tv_nsec=0}, NULL, 8", "ppoll"), "polls 0:o,1:i now"),
    ([PAIR], poll({0: "POLLOUT", 1: "POLLIN"}, {0: "POLLOUT"}, "{tv_sec=0, tv_nsec=9}, NULL, 8", "ppoll"), "polls 0:o,1:i wait"),
    ([PAIR], "select(2, [0], [1], NULL, NULL) = 1 (out [1])", "polls 0:i,1:o wait"),
    ([PAIR], "select(2, [0 1], [1], [0], {tv_sec=0, tv_usec=0}) = 1 (out [1], left {tv_sec=0, tv_usec=0})", "polls 0:i,1:io now"),
    ([PAIR], "select(2, [0 1], NULL, NULL, {tv_sec=1, tv_usec=0}) = 0 (Timeout)", "polls 0:i,1:i now"),
    ([PAIR], "pselect6(2, [0 1], [0], NULL, NULL, NULL) = 1 (out [0])", "polls 0:io,1:i wait"),
    ([PAIR, TIMER], "pselect6(3, [0 1 2], NULL, NULL, NULL, NULL) = 1 (in [2])", "polls 0:i,1:i now"),
    # A select reads the end of input, and no hang-up of one that is asked for room alone.
    ([PAIR, SECOND, "close(0) = 0"], "select(4, [1 3], NULL, NULL, NULL) = 1 (in [1])", "polls 1:i,3:i wait"),
    # Several times the same: each is told what is asked for there.
    ([PAIR, 'write(0, "a", 1) = 1'], "poll([{fd=1, events=POLLIN}, {fd=1, events=POLLOUT}, {fd=1, events=POLLIN|POLLOUT}], 3, -1) = 3 "
                                     "([{fd=1, revents=POLLIN}, {fd=1, revents=POLLOUT}, {fd=1, revents=POLLIN|POLLOUT}])",
     "polls 1:i,1:o,1:io wait"),
    # Of one descriptor as before, and one of opaque objects isn't said.
    ([PAIR], poll({0: "POLLOUT"}, {0: "POLLOUT"}), "poll 0"),
    ([PAIR], "poll([{fd=0, events=POLLOUT}, {fd=-1}], 2, -1) = 1 ([{fd=0, revents=POLLOUT}])", "poll 0"),
    ([PAIR, "timerfd_create(CLOCK_MONOTONIC, 0) = 2", "timerfd_create(CLOCK_MONOTONIC, 0) = 3", "close(0) = 0"],
     poll({2: "POLLIN", 3: "POLLIN"}, {2: "POLLIN"}), "close 0"),
]

# What stands before, a poll of several that the kernel can't have answered so, and what the layer answers.
UNLIKE = [
    ([PAIR], poll({0: "POLLIN", 1: "POLLIN"}, {1: "POLLIN"}), "err EAGAIN"),
    ([PAIR], poll({0: "POLLIN", 1: "POLLIN"}, {1: "POLLIN"}, "0"), "polled - -"),
    ([PAIR], poll({0: "POLLOUT", 1: "POLLOUT"}, {0: "POLLOUT"}), "polled OUT OUT"),
    ([PAIR], poll({0: "POLLOUT", 1: "POLLIN"}, {}, "0"), "polled OUT -"),
    ([PAIR], poll({0: "POLLOUT", 1: "POLLIN"}, {}, answer="-1 EINTR (Interrupted system call)"), "polled OUT -"),
    ([PAIR], poll({0: "POLLIN", 1: "POLLOUT"}, {1: "POLLOUT|POLLHUP"}), "polled - OUT"),
    ([PAIR, TIMER, 'write(0, "a", 1) = 1'], poll({1: "POLLIN", 2: "POLLIN"}, {2: "POLLIN"}), "polled IN"),
    ([PAIR, SECOND, "close(0) = 0"], poll({1: "POLLIN", 3: "POLLIN"}, {1: "POLLIN"}), "polled IN|HUP -"),
    ([PAIR], "select(2, [0], [1], NULL, NULL) = 1 (in [0])", "polled - OUT"),
    ([PAIR], "select(2, [0 1], NULL, NULL, NULL) = 1 (in [0])", "err EAGAIN"),
    # A rule covers the descriptor that it is about, and not another one beside it.
    (["socket(AF_UNIX, SOCK_STREAM, 0) = 0", "socketpair(AF_UNIX, SOCK_STREAM, 0, [1, 2]) = 0"],
     poll({0: "POLLOUT", 1: "POLLOUT"}, {0: "POLLOUT|POLLHUP", 1: "POLLOUT|POLLHUP"}), "polled HUP OUT"),
]
HALF_CLOSED = [PAIR, "shutdown(0, SHUT_WR) = 0", "shutdown(1, SHUT_WR) = 0"]
# A rule, what stands before, and a poll of several of which one descriptor or more fall under it.
UNDER_A_RULE = [
    ("poll-of-an-idle-socket", ["socket(AF_UNIX, SOCK_STREAM, 0) = 0", "socketpair(AF_UNIX, SOCK_STREAM, 0, [1, 2]) = 0"],
     poll({0: "POLLIN|POLLOUT", 1: "POLLOUT"}, {0: "POLLOUT|POLLHUP", 1: "POLLOUT"})),
    ("poll-of-two-half-closes", HALF_CLOSED, poll({0: "POLLIN", 1: "POLLOUT"}, {0: "POLLIN|POLLHUP", 1: "POLLOUT|POLLHUP"})),
    ("poll-of-two-half-closes", HALF_CLOSED, poll({0: "0", 1: "0"}, {0: "POLLHUP", 1: "POLLHUP"})),
    ("poll-of-a-datagram-socket", ["socketpair(AF_UNIX, SOCK_DGRAM, 0, [0, 1]) = 0", "shutdown(0, SHUT_RD) = 0"],
     poll({0: "POLLIN|POLLRDHUP", 1: "POLLIN"}, {0: "POLLIN|POLLRDHUP"})),
    ("poll-of-a-datagram-socket", ["socketpair(AF_UNIX, SOCK_DGRAM, 0, [0, 1]) = 0", "shutdown(0, SHUT_RD) = 0"],
     poll({0: "POLLRDHUP", 1: "POLLIN"}, {0: "POLLRDHUP"})),
]


class Said(unittest.TestCase):
    def test_how_each_is_said_and_that_it_agrees(self):
        for before, call, wanted in SAID:
            with self.subTest(call):
                line, status, report = replay(*before, call)
                self.assertEqual((line, status, report["differences"]), (f"1 {wanted}", 0, []))

    def test_what_the_kernel_cannot_have_told_differs(self):
        for before, call, ours in UNLIKE:
            with self.subTest(call):
                _, status, report = replay(*before, call)
                self.assertEqual((status, [one["reply"] for one in report["differences"]]), (1, [ours]))

    def test_each_descriptor_may_fall_under_a_rule_of_its_own(self):
        for name, before, call in UNDER_A_RULE:
            with self.subTest(call):
                _, status, report = replay(*before, call)
                self.assertEqual((status, report["replies"]["rules"], report["differences"]), (0, {name: 1}, []))

    def test_at_most_64_are_one_line(self):
        pairs = [f"socketpair(AF_UNIX, SOCK_STREAM, 0, [{2 * at}, {2 * at + 1}]) = 0" for at in range(33)]
        for count, lines in ((64, 1), (65, 65)):
            asked = dict.fromkeys(range(count), "POLLOUT")
            last, status, report = replay(*pairs, poll(asked, asked))
            self.assertEqual((status, report["replies"]["agree"]), (0, 33 + lines))
            self.assertEqual(last, "1 poll 64" if count == 65 else "1 polls " + ",".join(f"{at}:o" for at in range(64)) + " wait")

    def test_a_count_that_is_not_that_of_the_list_is_told(self):
        _, status, report = replay(PAIR, poll({0: "POLLOUT", 1: "POLLIN"}, {0: "POLLOUT"}).replace("= 1", "= 2"))
        self.assertEqual((status, list(report["notes"])), (3, ["an answer that isn't the count of what the call lists"]))

    def test_how_calls_are_counted(self):
        """As it is where all are the layer's, by other words where others were among them, and left out where none is."""
        for before, call, how in (([PAIR], SAID[0][1], "as it is"),
                                  ([PAIR, TIMER], poll({0: "POLLOUT", 2: "0"}, {0: "POLLOUT"}), "by other words"),
                                  ([PAIR], "select(2, [0], [1], NULL, NULL) = 1 (out [1])", "by other words"),
                                  (["timerfd_create(CLOCK_MONOTONIC, 0) = 0", "timerfd_create(CLOCK_MONOTONIC, 0) = 1"],
                                   poll({0: "POLLIN", 1: "POLLIN"}, {}), "left out")):
            with self.subTest(call):
                calls = [replay(*lines)[2]["calls"][how] for lines in (before, [*before, call])]
                self.assertEqual(calls[1] - calls[0], 1)

    def test_one_that_waits_stands_behind_what_overlaps_it(self):
        """The poll began first; the write that it tells of began and ended while it ran."""
        log = [PAIR, "fork() = 10", "poll([{fd=0, events=POLLIN}, {fd=1, events=POLLIN}], 2, -1 <unfinished ...>",
               'write(0, "a", 1) = 1', "<... poll resumed>) = 1 ([{fd=1, revents=POLLIN}])"]
        text = HEAD + "".join(f"{10 if place == 3 else 9} 1.{place:03} {line}\n" for place, line in enumerate(log))
        with tempfile.NamedTemporaryFile("w", encoding="latin-1", suffix=".log") as file:
            file.write(text)
            file.flush()
            world = common.say(common.load(file.name))
        order = Search(world, StandIn(), RULES, 60).run()
        self.assertEqual(order.script.lines, ["1 pair stream -", "1 fork", "2 write 0 61", "1 polls 0:i,1:i wait"])
        self.assertEqual({verdict.outcome.value for verdict in order.verdicts}, {"agrees"})


class Sets(unittest.TestCase):
    def step(self, *polled: Polled):
        return Step(None, "polls 0:i now", "", polled=polled)

    def test_a_reply_of_another_form_is_laid_beside_nothing(self):
        one = Polled(0, frozenset({"IN"}), "stream/tied")
        for ours, wanted in (("polled IN", []), ("polled -", [(one, "poll -", "poll IN")]), ("err EAGAIN", [(one, "poll -", "poll IN")]),
                             ("err EINVAL", None), ("polled IN -", None), ("polled", None), ("poll IN", None)):
            self.assertEqual(parted(self.step(one), ours, "polled IN"), wanted, ours)

    def test_what_is_not_asked_for_may_be_so_or_not(self):
        idle = Polled(0, frozenset({"OUT", "HUP"}), "stream/idle")
        self.assertEqual(rule_of_one(RULES, idle, "poll HUP", "poll OUT|HUP").name, "poll-of-an-idle-socket")
        self.assertIsNone(rule_of_one(RULES, Polled(0, frozenset({"OUT", "HUP"}), "stream/tied"), "poll HUP", "poll OUT|HUP"))
        self.assertIsNone(rule_of_one(RULES, idle, "poll HUP", "poll IN|HUP"))


if __name__ == "__main__":
    unittest.main()
