"""Rules, replies side by side, and the order of calls that overlap."""
from __future__ import annotations

import tempfile
import unittest

from here import TOP
from judging.compare import filled
from judging.holdings import calls_up_to
from judging.order import exchanges
from judging.overlaps import Overlaps, in_flight
from judging.polls import with_unasked
from judging.rules import RULES, Case, read_rules, rule_of
from reading.calls import Call
from saying.handover import placing
from saying.model import Block, Step
from saying.names import Names, spell
from saying.script import Script

SMALL = """# a comment
rule: words
on: stream/.*
call: recv .*
ours: got .*
linux: got .*
differ: 6
state: same

rule: bits
call: poll .*
differ: OUT HUP
state: same

rule: mine
is: dropped late
call: send .*
state: parts

rule: other
call: x .*
unlike: 2
state: same

rule: flags
call: recv .*
differ: 4:EOR
state: same

rule: name
other: gone
call: peername .*
tells: 2
state: same
"""


def rule_for(on: str, call: str, ours: str, linux: str, marks: str = "", other: str = "", other_name: str | None = None):
    with tempfile.NamedTemporaryFile("w", suffix=".txt") as file:
        file.write(SMALL)
        file.flush()
        case = Case(on, call, ours, linux, frozenset(marks.split()), frozenset(other.split()), other_name)
        rule = rule_of(read_rules(file.name), case)
    return rule.name if rule else None


class Rules(unittest.TestCase):
    def test_all_blocks_of_the_repository_are_read(self):
        blocks = sum(line.startswith("rule: ") for line in RULES.read_text("utf-8").splitlines())
        self.assertEqual(len(read_rules()), blocks)

    def test_rules_have_their_texts_where_all_rules_have_them(self):
        lines = (TOP.parent / "compare/differences.txt").read_text("utf-8").splitlines()
        there = {line.removeprefix("rule: ") for line in lines if line.startswith("rule: ")}
        self.assertEqual({rule.name for rule in read_rules()} - there, {"autobind-number"})

    def test_answers_that_differ_in_one_word_alone(self):
        self.assertEqual(rule_for("stream/tied", "recv 1 9 0 -", "got 1 61 - - -", "got 1 61 - - a:x"), "words")
        self.assertIsNone(rule_for("stream/tied", "recv 1 9 0 -", "got 1 61 - - -", "got 1 62 - - a:x"))
        self.assertIsNone(rule_for("dgram/tied", "recv 1 9 0 -", "got 1 61 - - -", "got 1 61 - - a:x"))

    def test_conditions(self):
        self.assertEqual(rule_for("-", "poll 1", "poll IN|OUT", "poll IN|HUP"), "bits")
        self.assertIsNone(rule_for("-", "poll 1", "poll IN", "poll OUT"))

    def test_the_marks_of_the_socket_alone(self):
        self.assertEqual(rule_for("-", "send 1", "n 1", "n 2", "late dropped more"), "mine")
        self.assertIsNone(rule_for("-", "send 1", "n 1", "n 2", "dropped", "late"))

    def test_a_word_that_must_differ(self):
        self.assertEqual(rule_for("-", "x 1", "n 1", "n 2"), "other")
        self.assertIsNone(rule_for("-", "x 1", "n 1 a", "n 1 b"))

    def test_one_flag_alone_differs(self):
        self.assertEqual(rule_for("seq/tied", "recv 1 9 0 -", "got 1 61 TRUNC|EOR - -", "got 1 61 TRUNC - -"), "flags")
        self.assertEqual(rule_for("seq/tied", "recv 1 9 0 -", "got 1 61 EOR - -", "got 1 61 - - -"), "flags")
        self.assertIsNone(rule_for("seq/tied", "recv 1 9 0 -", "got 1 61 EOR - -", "got 1 61 CTRUNC - -"))

    def test_the_name_of_the_other_socket(self):
        self.assertEqual(rule_for("-", "peername 1", "err ENOTCONN", "addr p:/a", "", "gone", "p:/a"), "name")
        self.assertIsNone(rule_for("-", "peername 1", "err ENOTCONN", "addr p:/b", "", "gone", "p:/a"))
        self.assertEqual(rule_for("-", "peername 1", "err ENOTCONN", "addr a:0000b", "", "gone autobound", "a:00001"), "name")

    def test_a_file_of_something_else(self):
        for text in ("hello: world\n", "rule: x\nafter: close .*\n"):
            with tempfile.NamedTemporaryFile("w") as file:
                file.write(text)
                file.flush()
                with self.assertRaises(ValueError):
                    read_rules(file.name)


class Replies(unittest.TestCase):
    def test_what_was_not_asked_is_not_compared(self):
        asked = frozenset({"IN", "HUP", "ERR", "NVAL"})
        self.assertEqual(with_unasked("poll IN", "poll IN|OUT", asked), "poll IN|OUT")
        self.assertEqual(with_unasked("poll -", "poll IN|OUT", asked), "poll OUT")

    def test_a_select_is_told_readable_and_writable(self):
        asked = frozenset({"IN", "OUT", "SELECT"})
        self.assertEqual(with_unasked("poll IN", "poll HUP", asked), "poll HUP")
        self.assertEqual(with_unasked("poll IN|OUT", "poll HUP", asked), "poll OUT|HUP")
        self.assertEqual(with_unasked("poll -", "poll IN|HUP", asked), "poll -")

    def test_what_the_log_does_not_have_is_ours(self):
        self.assertEqual(filled("got 1 61 ? ? ?", "got 1 61 EOR r:3 a:x", False), "got 1 61 EOR r:3 a:x")
        self.assertEqual(filled("got 1 61 - c:?,0,0+r:4 -", "got 1 61 - c:7,0,0+r:4 -", False), "got 1 61 - c:7,0,0+r:4 -")
        self.assertEqual(filled("got 1 61 - c:?,0,0 -", "got 1 61 - c:7,0,5 -", False), "got 1 61 - c:?,0,0 -")

    def test_contents_by_length_where_strings_were_cut(self):
        self.assertEqual(filled("bytes 0000", "bytes 6162", True), "bytes 6162")
        self.assertEqual(filled("bytes 0000", "bytes 61", True), "bytes 0000")
        self.assertEqual(filled("bytes 0000", "bytes 6162", False), "bytes 0000")


def block(begin: float, end: float, at: float, thread: int = 1):
    return Block(Call(thread, "read", "", begin, end, None, None), None, begin, end, at, steps=[1], concerns=(7,))


def in_order(moves: list[tuple[Block, float]], first: Block, second: Block):
    places = {id(first): first.at, id(second): second.at}
    places.update({id(one): at for one, at in moves})
    self_begin = all(one.begin <= at <= one.end + 0.01 for one, at in moves)
    return places[id(first)] < places[id(second)] and self_begin


class Order(unittest.TestCase):
    def test_calls_that_do_not_overlap_stay(self):
        blocks = [block(1, 2, 1), block(3, 4, 4), block(5, 5, 5)]
        self.assertEqual(Overlaps(blocks).of(blocks[2], blocks, 2), [])

    def test_calls_that_overlap_are_found_on_both_sides(self):
        """By their lines, wherever they stand: one that began long before, one that stands at its end, and one within."""
        blocks = [block(1, 9, 1, 2), block(2, 2, 2, 3), block(3, 3, 3, 3), block(3, 6, 5, 1), block(5, 5, 5.5, 3), block(4, 20, 20, 4),
                  block(21, 21, 21, 2)]
        found = Overlaps(blocks).of(blocks[3], blocks, 3)
        self.assertEqual({one.at for one in found}, {1, 3, 5.5, 20})
        other = block(4, 4, 4, 5)
        other.concerns = (8,)
        self.assertNotIn(other, Overlaps([*blocks, other]).of(blocks[3], sorted([*blocks, other], key=lambda one: one.at), 4))

    def test_all_parts_of_a_call_are_in_flight_with_it(self):
        calls = [block(1, 1, 1), block(2, 9, 2), block(2, 9, 2.5), block(10, 12, 10)]
        self.assertEqual([in_flight(calls, line) for line in (0, 1, 5, 10)], [[], calls[:1], calls[1:3], calls[3:]])

    def test_an_exchange_keeps_both_within_their_lines(self):
        for first, second in ((block(2, 9, 9), block(5, 5, 5)), (block(7, 7, 7), block(2, 9, 2)), (block(3, 9, 9), block(1, 5, 1))):
            found = list(exchanges(first, second))
            self.assertTrue(found)
            for moves in found:
                self.assertTrue(in_order(moves, first, second))


class Moments(unittest.TestCase):
    def test_a_call_at_a_line_stands_at_that_line(self):
        steps = [Step(None, "close 0", block=block(place, place, place)) for place in (1, 2, 2.5, 4)]
        script = Script([], [step.words for step in steps], steps, {})
        self.assertEqual([calls_up_to(script, line) for line in (0, 1, 2, 3, 4, 5)], [0, 1, 2, 3, 4, 4])


class HandOver(unittest.TestCase):
    def end(self, numbers: list[int]):
        """Where the descriptors are after the lines that place them: each as the number it had in the other table."""
        table = {0: "socket", **{place + 1: number for place, number in enumerate(numbers)}}
        for line in placing(numbers):
            words = line.split()
            if words[0] == "dup2":
                table[int(words[2])] = table[int(words[1])]
            else:
                del table[int(words[1])]
        return table

    def test_each_descriptor_has_its_number_and_nothing_is_left(self):
        for numbers in ([0], [1], [5], [0, 1, 2], [0, 2], [1, 2, 3], [0, 1, 3, 4, 9], [2, 3, 7], list(range(40)), [0, 300]):
            self.assertEqual(self.end(numbers), {number: number for number in numbers}, numbers)


class NamesOfSockets(unittest.TestCase):
    def test_spelling(self):
        self.assertEqual(spell(b"a b%\0~\xff"), "a%20b%25%00~%ff")

    def test_a_name_used_again_after_a_rename_is_another(self):
        names = Names()
        first = names.bind("/", b"/s", "one", b"/s")
        names.rename("/", b"/s", "/", b"/t")
        self.assertNotEqual(names.bind("/", b"/s", "two", b"/s"), first)
        self.assertEqual(names.known("/", b"/t"), first)

    def test_a_socket_with_two_paths_goes_with_the_last(self):
        names = Names()
        word = names.bind("/", b"/s", "one", b"/s")
        self.assertTrue(names.link("/", b"/s", "/", b"/t"))
        self.assertIsNone(names.unlink("/", b"/s"))
        self.assertEqual(names.unlink("/", b"/t"), word)

    def test_a_path_too_long_for_a_script_gets_another_name(self):
        word = Names().word_of_path("/" + "d" * 200, b"socket")
        self.assertLessEqual(len(word), 109)
        self.assertTrue(word.endswith("socket"))


if __name__ == "__main__":
    unittest.main()
