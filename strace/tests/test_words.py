"""The words of a call's arguments: strings, descriptors with what they lead to, structures, lists, flags, changes."""
from __future__ import annotations

import unittest

import here  # noqa: F401
from reading.words import (Arguments, Change, Descriptor, OtherForm, Text, Unreadable, after, arguments, fields_of, flags_of, list_of,
                           number_of)


def values(text: str):
    return arguments(text)[0]


class Strings(unittest.TestCase):
    def test_escapes_are_those_of_c(self):
        self.assertEqual(values(r'"a\n\t\"\\\0\3774\x41")'), [Text(b'a\n\t"\\\0\xff4A')])

    def test_three_octal_digits_at_most(self):
        self.assertEqual(values(r'"\0001")'), [Text(b"\x001")])

    def test_a_cut_string_is_known_to_be_cut(self):
        self.assertEqual(values('"abc"..., 9)'), [Text(b"abc", cut=True), 9])

    def test_an_abstract_name_stands_behind_an_at(self):
        self.assertEqual(values('{sun_path=@"x"})'), [{"sun_path": Text(b"x", abstract=True)}])

    def test_brackets_and_commas_in_a_string_are_part_of_it(self):
        self.assertEqual(values('"a, b) = 3 <x>", 1) = 1'), [Text(b"a, b) = 3 <x>"), 1])


class Descriptors(unittest.TestCase):
    def test_notes(self):
        for note in ("/etc/passwd", "UNIX-STREAM:[1->2,\"/run/a>b\"]", "pipe:[7]", "/srv/a->"):
            self.assertEqual(values(f"3<{note}>, 1)"), [Descriptor(3, note), 1])

    def test_a_device_is_its_path(self):
        self.assertEqual(values("3</dev/pts/0<char 136:0>>, 1)"), [Descriptor(3, "/dev/pts/0"), 1])

    def test_a_deleted_file(self):
        self.assertEqual(values("3</srv/x>(deleted), 1)"), [Descriptor(3, "/srv/x (deleted)"), 1])

    def test_the_current_folder(self):
        self.assertEqual(values("AT_FDCWD</home>, 1)"), [Descriptor(-100, "/home"), 1])

    def test_a_set_has_no_commas(self):
        self.assertEqual(values("[3<pipe:[1]> 4<pipe:[2]>], NULL)"), [[Descriptor(3, "pipe:[1]"), Descriptor(4, "pipe:[2]")], "NULL"])


class Structures(unittest.TestCase):
    def test_nested(self):
        self.assertEqual(values("{a=[{b=1}, {b=-2}], c=NULL})"), [{"a": [{"b": 1}, {"b": -2}], "c": "NULL"}])

    def test_a_field_may_be_empty(self):
        self.assertEqual(values("{a=, b=2, c=})"), [{"a": None, "b": 2, "c": None}])

    def test_changes(self):
        self.assertEqual(values("[110 => 0], {n=4 => 5})"), [[Change(110, 0)], {"n": Change(4, 5)}])
        self.assertEqual(after(Change(1, Change(2, 3))), 3)

    def test_macros_and_comments(self):
        self.assertEqual(values('{p=htons(80), a=inet_addr("1.2.3.4"), t=3 /* a comment */})')[0]["t"], 3)

    def test_flags(self):
        self.assertEqual(flags_of(values("O_RDWR|O_CLOEXEC|0x4, 0)")[0]), {"O_RDWR", "O_CLOEXEC", "0x4"})

    def test_numbers(self):
        self.assertEqual([number_of(value) for value in values("[5], 7<x>, 0x10)")], [5, 7, 16])

    def test_what_is_of_another_form_is_told_as_such(self):
        self.assertEqual((number_of("NULL", None), list_of("NULL"), list_of([1])), (None, [], [1]))
        for read, value in ((number_of, "NULL"), (number_of, None), (fields_of, "NULL"), (fields_of, [])):
            with self.assertRaises(OtherForm):
                read(value)
        with self.assertRaises(OtherForm):
            Arguments([1])[1]

    def test_what_is_cut_is_unreadable(self):
        for text in ('"abc', "{a=1", "[1, 2", "3<pipe:[", ""):
            with self.assertRaises(Unreadable):
                arguments(text)

    def test_brackets_in_too_many_others(self):
        with self.assertRaises(Unreadable):
            arguments("[" * 1000)


if __name__ == "__main__":
    unittest.main()
