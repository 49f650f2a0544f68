"""Lines and calls of a log, and logs that aren't what strace writes."""
from __future__ import annotations

import os
import subprocess
import sys
import tempfile
import unittest
from pathlib import Path
from random import Random

from here import TOP
from common import load
from judging.run import Fault
from reading.blanking import Blanker
from reading.calls import TooLarge, read_log
from reading.head import Head, Inherited
from reading.lines import Kind, read_line


def log_of(data: bytes | str, **options: int):
    with tempfile.NamedTemporaryFile(suffix=".log") as file:
        file.write(data if isinstance(data, bytes) else data.encode("latin-1"))
        file.flush()
        return read_log(file.name, **options)


class Lines(unittest.TestCase):
    def test_heads_of_several_options(self):
        for head, thread, time in (("17 1.5 ", 17, 1.5), ("[pid    17] ", 17, None), ("17 01:00:02 ", 17, 3602.0), ("", 0, None),
                                   ("[pid 17] 01:00:02.5 ", 17, 3602.5)):
            line = read_line(1, head + "close(3) = 0")
            self.assertEqual((line.thread, line.time, line.kind, line.name), (thread, time, Kind.WHOLE, "close"))

    def test_kinds(self):
        for text, kind in (("close(3 <unfinished ...>", Kind.BEGUN), ("<... close resumed>) = 0", Kind.RESUMED),
                           ("--- SIGCHLD {} ---", Kind.SIGNAL), ("+++ exited with 0 +++", Kind.ENDED),
                           ("+++ killed by SIGKILL +++", Kind.ENDED), ("+++ superseded by execve in pid 9 +++", Kind.REPLACED),
                           ("strace: Process 4 attached", Kind.BAD)):
            self.assertEqual(read_line(1, "7 " + text).kind, kind, text)


class Calls(unittest.TestCase):
    def test_a_call_in_two_lines_is_joined(self):
        log = log_of("7 1.0 read(3,  <unfinished ...>\n8 1.1 close(3) = 0\n7 1.2 <... read resumed>\"x\", 9) = 1\n")
        read, close = log.calls
        self.assertEqual((read.begin, read.end, close.begin), (1, 3, 2))
        self.assertEqual(read.read()[1].value, 1)

    def test_a_thread_that_executes_takes_the_first_ones_number(self):
        log = log_of("7 clone(flags=CLONE_THREAD) = 8\n7 pause( <unfinished ...>\n8 execve(\"/a\", [], 0 <unfinished ...>\n"
                     "7 +++ superseded by execve in pid 8 +++\n7 <... execve resumed>) = 0\n")
        self.assertEqual([(call.thread, call.name) for call in log.calls][-1], (7, "execve"))

    def test_how_long_a_call_took(self):
        self.assertEqual(log_of("7 5.0 close(3) = 0 <0.250000>\n").calls[0].ended, 5.25)

    def test_the_last_line_before_a_time_may_be_the_end_of_a_process(self):
        log = log_of("7 5.0 close(3) = 0 <0.250000>\n8 5.1 exit_group(0) = ?\n8 5.2 +++ exited with 0 +++\n7 9.0 close(4) = 0 <0.000100>\n")
        self.assertEqual([log.line_before(time) for time in (4.9, 5.05, 5.15, 5.2, 8.9, 9.0)], [0, 1, 2, 3, 3, 4])


class Malformed(unittest.TestCase):
    GOOD = "7 1.0 socket(AF_UNIX, SOCK_STREAM, 0) = 3\n7 1.1 close(3) = 0\n"

    def test_cut_in_the_middle_of_a_line(self):
        log = log_of(self.GOOD + '7 1.2 write(3, "ab')
        self.assertTrue(log.cut)
        self.assertEqual(len(log.calls), 3)

    def test_a_call_without_an_end(self):
        log = log_of(self.GOOD + "7 1.2 accept(3, <unfinished ...>\n")
        self.assertEqual((log.unfinished, len(log.calls)), (1, 3))

    def test_an_end_without_a_beginning(self):
        log = log_of("7 1.0 <... read resumed>) = 0\n" + self.GOOD)
        self.assertEqual((len(log.bad), len(log.calls)), (1, 2))

    def test_bytes_that_are_no_text(self):
        log = log_of(self.GOOD.encode() + bytes(range(256)) * 3 + b"\n" + self.GOOD.encode())
        self.assertEqual(len(log.calls), 4)
        self.assertGreater(len(log.bad), 0)

    def test_more_than_is_read(self):
        with self.assertRaises(TooLarge):
            log_of(self.GOOD * 100, most=1000)

    def test_more_than_is_read_of_a_pipe_that_has_no_size(self):
        reading, writing = os.pipe()
        with os.fdopen(writing, "w", encoding="ascii") as pipe:
            pipe.write(self.GOOD * 100)
        with os.fdopen(reading), self.assertRaises(TooLarge):
            read_log(f"/dev/fd/{reading}", most=1000)

    def test_programs_tell_faults_in_one_line(self):
        with tempfile.TemporaryDirectory() as folder:
            files = {"empty": b"", "binary": bytes(range(256)) * 20, "random": Random(1).randbytes(5000), "other": b"hello\nworld\n",
                     "source": b"int main(void) {\n    puts(\"hello\");\nclose(3)\nread(0, buffer, 9);\n}\n"}
            for name, data in files.items():
                path = Path(folder) / name
                path.write_bytes(data)
                for program in ("replay", "holds", "found-open"):
                    done = subprocess.run([sys.executable, TOP / program, path], capture_output=True, text=True, check=False)
                    self.assertEqual(done.returncode, 2, (program, name))
                    self.assertEqual(len(done.stderr.splitlines()), 1, done.stderr)
                    self.assertNotIn("Traceback", done.stderr)

    def test_random_bytes_are_never_a_log(self):
        """Of 400 files, each of which a seed determines; and of such whose first line begins as a call does."""
        with tempfile.TemporaryDirectory() as folder:
            path = Path(folder) / "log"
            for seed in range(400):
                data = Random(seed).randbytes(5000 if seed % 2 else 300)
                path.write_bytes((b"", b"close(", b"\n7 1.5 read(3, ", b"<... close resumed>")[seed % 4] + data)
                with self.assertRaisesRegex(Fault, r"^[^\n]*no call of a socket, file or process with its answer[^\n]*$"):
                    load(path)

    def test_no_such_file(self):
        done = subprocess.run([sys.executable, TOP / "replay", "/nowhere/log"], capture_output=True, text=True, check=False)
        self.assertEqual((done.returncode, done.stderr), (2, "replay: /nowhere/log: No such file or directory\n"))


class Options(unittest.TestCase):
    """Logs of strace's other options are told as such."""

    def replay(self, name: str, text: str):
        with tempfile.TemporaryDirectory() as folder:
            path = Path(folder) / name
            path.write_text(text, "latin-1")
            done = subprocess.run([sys.executable, TOP / "replay", path], capture_output=True, text=True, check=False)
            return done.returncode, done.stderr.replace(folder, "").splitlines()[:1]

    def test_numbers_for_names(self):
        for text in ("7 1.0 socket(0x1, 0x80001, 0) = 3\n", "7 1.0 socket(0x1 /* AF_UNIX */, 0x1 /* SOCK_STREAM */, 0) = 3\n",
                     '7 1.0 openat(-100, "/a", 0) = 3\n'):
            self.assertEqual(self.replay("log", text), (2, ["replay: /log: numbers stand for names in it: take the log without strace's "
                                                           "options -X raw and -X verbose"]))

    def test_a_process_without_its_children(self):
        text = "1.0 socket(AF_UNIX, SOCK_STREAM, 0) = 3\n1.1 clone(child_stack=NULL, flags=SIGCHLD) = 8\n"
        told = "/log: one process alone, though it forks: take the log by strace -f, as strace/record does"
        self.assertEqual(self.replay("log", text)[1], [told])
        told = "/log.17: one process alone, of those that strace -ff wrote to a file each: try strace-log-merge /log"
        self.assertEqual(self.replay("log.17", text)[1], [told])
        for other in (text.replace("= 8", "= -1 EAGAIN (Try again)"), text.replace("1.0 ", "7 1.0 ").replace("1.1", "7 1.1")):
            self.assertNotIn("one process alone", " ".join(self.replay("log.17", other)[1]))


class Heads(unittest.TestCase):
    def test_what_is_written_is_read(self):
        head = Head(True, "/a b", 5, 6, [Inherited(0, True, "/dev/p t"), Inherited(3, False, "socket:[1]")])
        again = Head()
        for line in head.lines():
            again.add(line)
        self.assertEqual(again, head)

    def test_a_line_of_something_else_is_skipped(self):
        head = Head()
        for line in ("# inherited x", "#", "# user", "# hello"):
            head.add(line)
        self.assertEqual(head, Head())


class Blanking(unittest.TestCase):
    def blank(self, *lines: str):
        blanker = Blanker()
        return [blanker.blank(line) for line in lines]

    def test_a_files_contents_go(self):
        self.assertEqual(self.blank('7 1.0 read(3</etc/shadow>, "root:x\\"y", 99) = 8'), ['7 1.0 read(3</etc/shadow>, ""..., 99) = 8'])

    def test_a_terminal_and_another_familys_socket(self):
        lines = '7 write(1</dev/pts/0<char 136:0>>, "pw", 2) = 2', '7 sendto(4<TCP:[5]>, "pw", 2, 0, NULL, 0) = 2'
        self.assertEqual(self.blank(*lines),
                         ['7 write(1</dev/pts/0<char 136:0>>, ""..., 2) = 2', '7 sendto(4<TCP:[5]>, ""..., 2, 0, NULL, 0) = 2'])

    def test_sockets_and_pipes_stay(self):
        for note in ("UNIX-STREAM:[1->2]", "UNIX:[1]", "pipe:[1]", "/memfd:x", "anon_inode:[eventfd]"):
            line = f'7 1.0 read(3<{note}>, "abc", 3) = 3'
            self.assertEqual(self.blank(line), [line])

    def test_a_call_in_two_lines(self):
        kept, gone = '8 <... read resumed>"abc", 3) = 3', '7 <... read resumed>"abc", 3) = 3'
        got = self.blank("7 read(3</etc/shadow>,  <unfinished ...>", "8 read(3<pipe:[1]>,  <unfinished ...>", kept, gone)
        self.assertEqual(got[2:], [kept, '7 <... read resumed>""..., 3) = 3'])

    def test_a_path_stays(self):
        line = '7 openat(AT_FDCWD</>, "/etc/shadow", O_RDONLY) = 3</etc/shadow>'
        self.assertEqual(self.blank(line), [line])


if __name__ == "__main__":
    unittest.main()
