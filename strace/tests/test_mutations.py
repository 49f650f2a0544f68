"""Changes of the small logs, one at a time: how many of each kind a replay notices, which strace/mutate prints as a table.

It needs uxrun, as test_replay.py says."""
import unittest

from here import HERE
from checking.mutations import KINDS, places, table_of, tally
from judging.run import Runner
from test_replay import UXRUN, log_in

LOGS = [path.read_text("latin-1") for path in sorted((HERE / "logs").glob("*.txt"))]
# Those that nothing can show: of opaque objects, of peers that the log doesn't have, of refusals for what the layer doesn't have, and of
# logs that record didn't write, whose first descriptors are guessed.
MOST_MISSED = {"a new descriptor's number": 1, "the numbers of two new ones": 0, "a count of bytes": 2, "flags told": 0, "bytes received": 2,
               "an error for another": 5, "an error for an answer": 1, "a condition of a poll": 0, "how many are ready": 0, "a name told": 0,
               "an option's value": 0, "whose credentials": 1, "a right's number": 0, "flags of a message": 0, "an offset told": 0,
               "how many bytes wait": 0, "a size or seals": 0, "an answer for an error": 6, "an answer of nothing": 0,
               "a process's number": 1, "which descriptor": 0, "a call left out": 5}


class Places(unittest.TestCase):
    def test_each_kind_changes_one_word(self):
        text = ("9 1.0 socket(AF_UNIX, SOCK_STREAM, 0) = 3\n9 1.1 fcntl(3, F_GETFL) = 0x802 (flags O_RDWR|O_NONBLOCK)\n"
                '9 1.2 read(3<UNIX-STREAM:[7->8,"/run/s"]>, "hi", 9) = 2')
        found = {name: line for name, _, line in places(text, 1)}
        self.assertEqual(found["a new descriptor's number"], "9 1.0 socket(AF_UNIX, SOCK_STREAM, 0) = 4")
        self.assertEqual(found["flags told"], "9 1.1 fcntl(3, F_GETFL) = 0x2 (flags O_RDWR|O_NONBLOCK)")
        self.assertEqual(found["bytes received"], '9 1.2 read(3<UNIX-STREAM:[7->8,"/run/s"]>, "Zi", 9) = 2')
        self.assertEqual(found["a count of bytes"], '9 1.2 read(3<UNIX-STREAM:[7->8,"/run/s"]>, "hi", 9) = 3')

    def test_each_kind_has_its_bound(self):
        self.assertEqual([name for name, *_ in KINDS], list(MOST_MISSED))


@unittest.skipUnless(UXRUN, "there is no uxrun: build it, or name it by the variable UXRUN")
class Noticed(unittest.TestCase):
    def test_what_a_replay_notices(self):
        found = {}
        for text in LOGS:
            tally(log_in(text), Runner(UXRUN), 1, 5, found)
        for name, one in found.items():
            with self.subTest(name):
                self.assertLessEqual(len(one.missed), MOST_MISSED[name], one.missed)
        made, missed = sum(one.made for one in found.values()), sum(len(one.missed) for one in found.values())
        self.assertGreaterEqual((made - missed) / made, 250 / 313, "\n".join(table_of(found)))


if __name__ == "__main__":
    unittest.main()
