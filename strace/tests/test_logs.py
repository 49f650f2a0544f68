"""Small logs written by hand, one for each difficulty, and the script that each is said by."""
from __future__ import annotations

import tempfile
import unittest
from unittest import mock

from here import HERE
import common
from judging.order import by_place
from saying.contents import taken
from saying.marks import marks_of, past_of
from saying.model import Description, Kind
from saying.script import Script, write_script


HEAD = "# recorded 1\n# folder /\n# user 1000 100\n"
PAIR = "9 1.1 socketpair(AF_UNIX, SOCK_STREAM, 0, [0<UNIX-STREAM:[7->8]>, 1<UNIX-STREAM:[8->7]>]) = 0\n"


def said(text: str):
    """What a log is said by, with the kernel's replies as comments, and the world that is known then."""
    with tempfile.NamedTemporaryFile("w", encoding="latin-1", suffix=".log") as file:
        file.write(text)
        file.flush()
        world = common.say(common.load(file.name))
    return write_script(world, by_place(world.blocks)), world


def shown(script: Script):
    """A script with the replies, processes numbered."""
    return script.with_expectations()


class Logs(unittest.TestCase):
    """Each file of logs/ has a sentence, a log and its script."""

    def test_each(self):
        files = sorted((HERE / "logs").glob("*.txt"))
        self.assertGreaterEqual(len(files), 20)
        for path in files:
            with self.subTest(path.stem):
                _, _, rest = path.read_text("latin-1").partition("--- log\n")
                log, _, script = rest.partition("--- script\n")
                got, world = said(log)
                self.assertEqual(world.log.bad, [])
                self.assertEqual(shown(got), script)


class Renames(unittest.TestCase):
    def test_what_is_open_of_a_renamed_file_or_folder_leads_to_its_new_path(self):
        log = HEAD + ('9 1.1 openat(AT_FDCWD</>, "/d/a", O_RDONLY) = 0</d/a>\n9 1.2 openat(AT_FDCWD</>, "/da", O_RDONLY) = 1</da>\n'
                      '9 1.3 rename("/d/a", "/d/b") = 0\n9 1.4 renameat2(AT_FDCWD</>, "d", AT_FDCWD</>, "e", 0) = 0\n'
                      '9 1.5 rename("/da", "/db") = -1 EPERM (Operation not permitted)\n9 1.6 pause() = ?\n')
        table = said(log)[1].people.processes[0].table
        self.assertEqual([table[number].description.inode for number in (0, 1)], ["/e/b", "/da"])


RIGHTS = 'msg_control=[{cmsg_len=20, cmsg_level=SOL_SOCKET, cmsg_type=SCM_RIGHTS, cmsg_data=[%d<UNIX-STREAM:[7->8]>]}], msg_controllen=24'


class Processes(unittest.TestCase):
    def test_what_a_parent_had_open_unseen_its_child_has_too(self):
        """The kernel passed 0 to 2 over: that is told of the parent's call, and of no call of the child."""
        log = HEAD + PAIR.replace("[0<", "[3<").replace(" 1<", " 4<") + "9 1.2 fork() = 10\n10 1.3 socket(AF_UNIX, SOCK_STREAM, 0) = 5\n"
        self.assertEqual(said(log)[1].doubts.told(), {"a new number that isn't the lowest free one": [4]})

    def test_a_thread_that_executed_a_program_is_all_of_its_process(self):
        """It has the first one's number, and with its end the process ends."""
        log = HEAD + ("9 1.0 socket(AF_UNIX, SOCK_STREAM, 0) = 0\n9 1.1 clone(flags=CLONE_VM|CLONE_THREAD) = 10\n"
                      '10 1.2 execve("/a", ["a"], 0x7f <unfinished ...>\n9 1.3 +++ superseded by execve in pid 10 +++\n'
                      "9 1.4 <... execve resumed>) = 0\n9 1.5 exit_group(0) = ?\n9 1.6 +++ exited with 0 +++\n")
        self.assertEqual(shown(said(log)[0]).splitlines()[-4:], ["# ok", "1 exec", "# ok", "1 exit"])


class Origins(unittest.TestCase):
    def test_a_descriptor_of_any_kind_may_have_no_origin_in_the_log(self):
        for note in ("pipe:[9]", "anon_inode:[eventfd]", "UNIX-STREAM:[9->8]", "UNIX:[9]", "/memfd:m", "/a"):
            log = HEAD + f"9 1.1 write(5<{note}>, \"a\", 1) = 1\n9 1.2 dup(5<{note}>) = 6<{note}>\n9 1.3 close(5<{note}>) = 0\n"
            script, world = said(log)
            self.assertEqual((world.log.bad, [line for line in script.lines if line.startswith("1 close ")][-1]), ([], "1 close 5"), note)


class Unread(unittest.TestCase):
    def test_a_message_that_was_received_whole_is_none_that_waits(self):
        sender, receiver = Description(Kind.STREAM, "one"), Description(Kind.STREAM, "other")
        sender.unread, receiver.peer = [3, 2, 4], sender
        for count, left in ((1, [2, 2, 4]), (2, [2, 4]), (3, [3]), (3, [])):
            taken(receiver, count)
            self.assertEqual(sender.unread, left)

    def test_a_listener_whose_backlog_is_none_is_full_with_one_client(self):
        listener = Description(Kind.STREAM, "a listener", phase="listening")
        past_of(listener).backlog = 0
        self.assertNotIn("full", marks_of(listener))
        listener.waiting.append(Description(Kind.STREAM, "a client"))
        self.assertIn("full", marks_of(listener))


def message(number: int, count: int, right: int):
    """What strace says of sendmsg or recvmsg of so many bytes and a descriptor."""
    return (f'({number}<UNIX-STREAM:[{number + 7}->{8 - number}]>, {{msg_name=NULL, msg_namelen=0, '
            f'msg_iov=[{{iov_base="{"a" * count}", iov_len={count}}}], msg_iovlen=1, {RIGHTS % right}, msg_flags=0}}, 0) = {count}\n')


def counted(word: str):
    """A word, of many bytes alone how many they are."""
    return f"*{len(word) // 2}" if word.startswith("6161") else word


class LargeSends(unittest.TestCase):
    def calls(self, log: str):
        """The lines behind the first call with the replies that are expected, their bytes counted."""
        lines = shown(said(HEAD + log)[0]).splitlines()
        start = next(place for place, line in enumerate(lines) if " pair " in line)
        return [" ".join(map(counted, line.split(" "))) for line in lines[start + 1:]]

    def test_what_finds_room_goes_at_once(self):
        log = PAIR + f'9 1.2 write(0<UNIX-STREAM:[7->8]>, "{"a" * 65536}", 65536) = 65536\n'
        self.assertEqual(self.calls(log), ["# n 65536", "1 write 0 *65536"])

    def test_what_finds_no_room_goes_in_pieces(self):
        log = PAIR + (f'9 1.2 write(0<UNIX-STREAM:[7->8]>, "{"a" * 62000}", 62000) = 62000\n'
                      f'9 1.3 write(0<UNIX-STREAM:[7->8]>, "{"a" * 3900}", 3900) = 3900\n')
        self.assertEqual(self.calls(log), ["# n 62000", "1 write 0 *62000", "# n 1900", "1 write 0 *1900", "# n 1900", "1 write 0 *1900",
                                           "# n 100", "1 write 0 *100"])

    def test_what_was_read_makes_room(self):
        log = PAIR + (f'9 1.2 write(0<UNIX-STREAM:[7->8]>, "{"a" * 62000}", 62000) = 62000\n'
                      f'9 1.3 read(1<UNIX-STREAM:[8->7]>, "{"a" * 2000}", 2000) = 2000\n'
                      f'9 1.4 write(0<UNIX-STREAM:[7->8]>, "{"a" * 3900}", 3900) = 3900\n')
        self.assertEqual(self.calls(log)[-2:], ["# n 3900", "1 write 0 *3900"])

    def test_a_datagram_of_more_than_the_layer_takes_is_shortened(self):
        log = ('9 1.1 socketpair(AF_UNIX, SOCK_DGRAM, 0, [0<UNIX:[7]>, 1<UNIX:[8]>]) = 0\n'
               f'9 1.2 write(0<UNIX:[7]>, "{"a" * 65537}", 65537) = 65537\n')
        self.assertEqual(self.calls(log), ["# n 65536", "1 write 0 *65536"])

    def test_rights_go_with_all_bytes_of_their_send(self):
        log = PAIR + "9 1.2 sendmsg" + message(0, 5000, 0) + "9 1.3 recvmsg" + message(1, 5000, 2)
        self.assertEqual(self.calls(log), ["# n 5000", "1 send 0 - *5000 r:0 -", "# got 5000 *5000 - r:2 ?", "1 recv 1 5000 4096 -"])

    def test_rights_of_a_send_that_the_kernel_makes_in_pieces_come_with_the_first(self):
        log = PAIR + "9 1.2 sendmsg" + message(0, 40000, 0) + "9 1.3 recvmsg" + message(1, 36544, 2)
        self.assertEqual(self.calls(log), ["# n 40000", "1 send 0 - *40000 r:0 -", "# got 1900 *1900 - r:2 ?", "1 recv 1 1900 4096 -",
                                           "# got 34644 *34644 ? ? ?", "1 recv 1 34644 0 d"])


class ManyObjects(unittest.TestCase):
    """A log that makes more file objects than a layer may have, with one for what is opaque, has pipes from the start, which are
    used again."""

    def lines(self, count: int, closes: bool = False):
        """The script of a log that makes so many pipes, each of which it may close."""
        ends = [(0, 1) if closes else (2 * number, 2 * number + 1) for number in range(count)]
        log = "".join(f"9 1.{3 * number:04} pipe([{first}<pipe:[{number}]>, {second}<pipe:[{number}]>]) = 0\n"
                      + (f"9 1.{3 * number + 1:04} close({first}<pipe:[{number}]>) = 0\n"
                         f"9 1.{3 * number + 2:04} close({second}<pipe:[{number}]>) = 0\n" if closes else "")
                      for number, (first, second) in enumerate(ends))
        return shown(said(HEAD + log)[0]).splitlines()

    def pipes(self, count: int):
        """The pipes of the header of a log that makes so many, and the lines that open something opaque."""
        lines = self.lines(count)
        return [line for line in lines if line.startswith("object p:~pipe")], [line for line in lines if " open p:~outside " in line]

    def test_more_than_64_pipes(self):
        lines = self.lines(100)
        self.assertEqual((self.pipes(100), lines.count("1 pipe -"), lines[-2]), (([], []), 100, "# fds 198 199"))

    def test_as_many_as_there_may_be_are_made(self):
        with mock.patch("saying.objects.MOST_OBJECTS", 4):
            self.assertEqual(self.lines(3).count("1 pipe -"), 3)

    def test_a_pipe_that_nobody_has_open_is_emptied_and_used_again(self):
        with mock.patch("saying.objects.MOST_OBJECTS", 2):
            lines = self.lines(2, closes=True)
        self.assertEqual([line for line in lines if not line.startswith("#")],
                         ["serial", "object p:~outside mem -", "object p:~pipe0 pipe", "proc 1000 100 0 4096", "1 open p:~pipe0 r -",
                          "1 open p:~pipe0 w -", "1 close 0", "1 close 1", "1 open p:~pipe0 r n", "1 read 0 1048576", "1 close 0",
                          "1 open p:~pipe0 r -", "1 open p:~pipe0 w -", "1 close 0", "1 close 1"])

    def test_what_is_more_than_there_may_be_is_opaque(self):
        with mock.patch("saying.objects.MOST_OBJECTS", 3):
            made, opaque = self.pipes(3)
        self.assertEqual((made, len(opaque)), (["object p:~pipe0 pipe", "object p:~pipe1 pipe"], 2))


if __name__ == "__main__":
    unittest.main()
