"""Arguments of another form than their call's are told as such; a mistake of the program itself is none of the log's."""
from __future__ import annotations

import contextlib
import io
import re
import tempfile
import unittest
from random import Random
from unittest import mock

from here import HERE
import common
from saying.world import SAYS, Defect

HEAD = "# recorded 1\n# folder /\n# user 0 0\n"
OTHERS = ("NULL", "0x7ffc0000", "...", "{}", "[]", '"text"', "-1", "[{}]", "{msg_iov=[NULL]}", "")
ARGUMENT = re.compile(r"(?<=[(,])\s*(?:[\w.|]+(?:<[^>]*>)?|\"[^\"]*\"|\{[^{}]*\}|\[[^][]*\])(?=[,)])")


def say(text: str):
    with tempfile.NamedTemporaryFile("w", encoding="latin-1", suffix=".log") as file:
        file.write(text)
        file.flush()
        return common.say(common.load(file.name))


def logs():
    return [path.read_text("latin-1").partition("--- log\n")[2].partition("--- script\n")[0] for path in sorted((HERE / "logs").glob("*.txt"))
            if path.stat().st_size < 9000]


class Forms(unittest.TestCase):
    def test_any_argument_may_be_of_another_form(self):
        """Of each small log some calls, each time with one argument that is another or none, as a seed determines."""
        random = Random(7)
        for text in logs():
            lines = text.splitlines()
            for number in random.sample(range(len(lines)), 3):
                places = list(ARGUMENT.finditer(lines[number]))
                if places:
                    place = random.choice(places)
                    changed = lines[number][:place.start()] + random.choice(OTHERS) + lines[number][place.end():]
                    # A number for a family is refused in one line.
                    with self.subTest(changed[:200]), contextlib.suppress(common.Fault):
                        say("\n".join([*lines[:number], changed, *lines[number + 1:]]) + "\n")

    def test_each_call_without_arguments(self):
        forms = ("", "0", "0, 0, 0, 0, 0, 0", "NULL, NULL, NULL, NULL, NULL", "0, {}, [], [{}], [NULL]")
        for name in sorted(set(SAYS) - {"socket", "socketpair"}):
            calls = [f"9 1.1 {name}({form}) = {result}\n" for form in forms for result in ("0", "5", "-1 EAGAIN (Try again)", "?")]
            with self.subTest(name):
                say(HEAD + "9 1.0 socket(AF_UNIX, SOCK_STREAM, 0) = 0\n" + "".join(calls))

    def test_they_are_counted_as_such(self):
        world = say(HEAD + "9 1.0 socket(AF_UNIX, SOCK_STREAM, 0) = 0\n9 1.1 dup2(0) = 1\n")
        self.assertEqual(world.log.bad, [(5, "dup2: arguments of another form (no argument 2)")])
        self.assertEqual([block.why for block in world.blocks if block.call is not None], ["", "arguments of another form"])


class Mistakes(unittest.TestCase):
    """What a handler itself does wrong isn't passed over as an argument of another form."""

    def test_a_handlers_own_error_is_none_of_the_logs(self):
        def wrong(world: object, block: object, process: object, args: object, result: object):
            return None + 1
        with mock.patch.dict(SAYS, {"socket": wrong}), self.assertRaisesRegex(Defect, "^line 4, socket: TypeError: "):
            say(HEAD + "9 1.0 socket(AF_UNIX, SOCK_STREAM, 0) = 0\n")

    def test_it_is_told_in_one_line(self):
        def run(arguments: object):
            raise Defect("line 4, socket: TypeError: x")
        errors = io.StringIO()
        with contextlib.redirect_stderr(errors):
            self.assertEqual(common.main("replay", run, None), 2)
        self.assertEqual(errors.getvalue(), "replay: a mistake of this program, please tell it: line 4, socket: TypeError: x\n")


if __name__ == "__main__":
    unittest.main()
