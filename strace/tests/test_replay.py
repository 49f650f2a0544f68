"""Replays by uxrun: the small logs agree, calls out of order are moved, mistakes are noticed, and holders are told.

These need uxrun, built in this repository or named by the variable UXRUN; without it they are skipped, which is told."""
from __future__ import annotations

import json
import os
import subprocess
import sys
import tempfile
import unittest

from here import HERE, TOP
import common
from judging.order import Search
from judging.rules import read_rules
from judging.run import Fault, Runner
from telling.replay import report_of, status_of

RULES = read_rules()
try:
    UXRUN = Runner().uxrun
except Fault:
    UXRUN = None
HEAD = "# recorded 1\n# folder /\n# user 1000 100\n"
# Small logs in which something is left out, which a replay tells.
WITH_DOUBTS = {"created_files", "numbers_that_threads_took", "pipes"}
PAIR_LINE = "9 1.1 socketpair(AF_UNIX, SOCK_STREAM, 0, [0<UNIX-STREAM:[7->8]>, 1<UNIX-STREAM:[8->7]>]) = 0\n"


def log_in(text: str):
    """The log of a file of logs/."""
    return text.partition("--- log\n")[2].partition("--- script\n")[0]


def run(program: str, log: str, *options: str):
    """A program's status and its report."""
    with tempfile.NamedTemporaryFile("w", encoding="latin-1", suffix=".log") as file:
        file.write(log)
        file.flush()
        done = subprocess.run([sys.executable, TOP / program, "--json", file.name, *options], capture_output=True, text=True,
                              env={**os.environ, "UXRUN": UXRUN}, check=False)
    return done.returncode, json.loads(done.stdout) if done.stdout else done.stderr


def replayed(text: str, seconds: float = 60):
    """The status and report of strace/replay, made here: to start a program takes longer than most of these logs."""
    with tempfile.NamedTemporaryFile("w", encoding="latin-1", suffix=".log") as file:
        file.write(text)
        file.flush()
        log = common.load(file.name)
    world, runner = common.say(log), Runner(UXRUN)
    report = report_of(log, world, Search(world, runner, RULES, seconds).run(), runner)
    return status_of(report), report


@unittest.skipUnless(UXRUN, "there is no uxrun: build it, or name it by the variable UXRUN")
class Replay(unittest.TestCase):
    def test_the_small_logs_agree(self):
        for path in sorted((HERE / "logs").glob("*.txt")):
            with self.subTest(path.stem):
                status, report = replayed(log_in(path.read_text("latin-1")))
                self.assertEqual(report["differences"], [])
                self.assertEqual(status, 3 if path.stem in WITH_DOUBTS else 0, report["notes"])

    def test_a_reply_that_is_not_the_kernels_is_told_with_its_line(self):
        log = HEAD + ('9 1.1 socketpair(AF_UNIX, SOCK_STREAM, 0, [0<UNIX-STREAM:[7->8]>, 1<UNIX-STREAM:[8->7]>]) = 0\n'
                      '9 1.2 write(0<UNIX-STREAM:[7->8]>, "hi", 2) = 2\n9 1.3 read(1<UNIX-STREAM:[8->7]>, "ho", 9) = 2\n')
        status, report = replayed(log)
        self.assertEqual(status, 1)
        self.assertEqual(report["replies"]["differ"], 1)
        self.assertEqual(report["differences"][0]["line"], 6)
        self.assertEqual((report["differences"][0]["reply"], report["differences"][0]["kernel"]), ("bytes 6869", "bytes 686f"))

    def test_calls_that_overlap_are_exchanged(self):
        """The write began first, and the read, which began while it ran, didn't see it."""
        log = HEAD + ('9 1.1 socketpair(AF_UNIX, SOCK_STREAM, 0, [0<UNIX-STREAM:[7->8]>, 1<UNIX-STREAM:[8->7]>]) = 0\n'
                      '9 1.2 fork() = 10\n9 1.3 write(0<UNIX-STREAM:[7->8]>, "a", 1) = 1\n'
                      '9 1.4 write(0<UNIX-STREAM:[7->8]>, "b", 1 <unfinished ...>\n10 1.5 read(1<UNIX-STREAM:[8->7]>,  <unfinished ...>\n'
                      '9 1.6 <... write resumed>) = 1\n10 1.7 <... read resumed>"a", 9) = 1\n'
                      '10 1.8 read(1<UNIX-STREAM:[8->7]>, "b", 9) = 1\n')
        status, report = run("replay", log)
        self.assertEqual((status, report["replies"]["differ"]), (0, 0))
        self.assertEqual(report["moved"], 2)

    def test_what_no_time_was_left_for_is_not_decided(self):
        log = HEAD + PAIR_LINE + '9 1.2 write(0<UNIX-STREAM:[7->8]>, "hi", 2) = 2\n9 1.3 read(1<UNIX-STREAM:[8->7]>, "ho", 9) = 2\n'
        status, report = replayed(log, 0)
        self.assertEqual((status, report["replies"]["differ"], report["replies"]["not decided"], report["differences"][0]["is decided"]),
                         (3, 0, 1, False))
        status, report = replayed(log)
        self.assertEqual((status, report["replies"]["differ"], report["replies"]["not decided"]), (1, 1, 0))

    def test_no_order_helps_where_calls_do_not_overlap(self):
        log = HEAD + ('9 1.1 socketpair(AF_UNIX, SOCK_STREAM, 0, [0<UNIX-STREAM:[7->8]>, 1<UNIX-STREAM:[8->7]>]) = 0\n'
                      '9 1.2 fork() = 10\n10 1.3 read(1<UNIX-STREAM:[8->7]>, "a", 9) = 1\n9 1.4 write(0<UNIX-STREAM:[7->8]>, "a", 1) = 1\n')
        status, report = replayed(log)
        self.assertEqual((status, report["moved"], report["replies"]["differ"]), (1, 0, 1))

    def test_a_known_difference_falls_under_its_rule(self):
        log = HEAD + ('9 1.1 socketpair(AF_UNIX, SOCK_SEQPACKET, 0, [0<UNIX-SEQPACKET:[7->8]>, 1<UNIX-SEQPACKET:[8->7]>]) = 0\n'
                      '9 1.2 write(0<UNIX-SEQPACKET:[7->8]>, "a", 1) = 1\n'
                      '9 1.3 recvmsg(1<UNIX-SEQPACKET:[8->7]>, {msg_name=NULL, msg_namelen=0, msg_iov=[{iov_base="a", iov_len=9}], '
                      'msg_iovlen=1, msg_controllen=0, msg_flags=0}, 0) = 1\n')
        status, report = replayed(log)
        self.assertEqual((status, report["replies"]["rules"]), (0, {"record-end": 1}))

    def test_an_address_that_a_short_buffer_cut_agrees_as_far_as_it_goes(self):
        log = HEAD + ('9 1.1 socket(AF_UNIX, SOCK_STREAM, 0) = 0<UNIX-STREAM:[7]>\n'
                      '9 1.2 bind(0<UNIX-STREAM:[7]>, {sa_family=AF_UNIX, sun_path="/a/long/path"}, 15) = 0\n'
                      '9 1.3 getsockname(0<UNIX-STREAM:[7]>, {sa_family=AF_UNIX, sun_path="/a/lo"}, [7 => 15]) = 0\n'
                      '9 1.4 socket(AF_UNIX, SOCK_STREAM, 0) = 1<UNIX-STREAM:[8]>\n'
                      '9 1.5 bind(1<UNIX-STREAM:[8]>, {sa_family=AF_UNIX, sun_path=@"a name"}, 9) = 0\n'
                      '9 1.6 getsockname(1<UNIX-STREAM:[8]>, {sa_family=AF_UNIX, sun_path=@"a n"}, [6 => 9]) = 0\n')
        self.assertEqual(replayed(log)[0], 0)
        self.assertEqual(replayed(log.replace('"/a/lo"', '"/b/lo"'))[1]["replies"]["differ"], 1)
        self.assertEqual(replayed(log.replace('@"a n"', '@"a m"'))[1]["replies"]["differ"], 1)
        # An address that wasn't cut has to be whole.
        self.assertEqual(replayed(log.replace("[7 => 15]", "[110 => 8]"))[1]["replies"]["differ"], 1)

    def test_a_count_that_is_not_what_came_or_went_differs(self):
        message = '{msg_name=NULL, msg_namelen=0, msg_iov=[{iov_base="hello", iov_len=99}], msg_iovlen=1, msg_controllen=0, msg_flags=0}, 0)'
        calls = ('9 1.2 write(0<N>, "hello", 5) = 5', '9 1.2 sendto(0<N>, "hello", 5, 0, NULL, 0) = 5', '9 1.3 read(1<M>, "hello", 99) = 5',
                 '9 1.3 recvfrom(1<M>, "hello", 99, 0, NULL, NULL) = 5', f"9 1.3 recvmsg(1<M>, {message} = 5")
        for kind, first, second in (("STREAM", "UNIX-STREAM:[7->8]", "UNIX-STREAM:[8->7]"), ("DGRAM", "UNIX:[7]", "UNIX:[8]")):
            pair = f"9 1.1 socketpair(AF_UNIX, SOCK_{kind}, 0, [0<N>, 1<M>]) = 0"
            for call in calls:
                lines = [pair, *([calls[0]] if " 1.3 " in call else []), call]
                for line, differ in ((call, 0), (call[:-1] + "9", 1), (call[:-1] + "104", 1)):
                    log = "\n".join([*lines[:-1], line]).replace("<N>", f"<{first}>").replace("<M>", f"<{second}>") + "\n"
                    with self.subTest(f"{kind} {line}"):
                        self.assertEqual(replayed(HEAD + log)[1]["replies"]["differ"], differ)

    def test_a_failed_receive_asks_for_something(self):
        """strace shows no buffers then. A receive of 0 bytes of a stream wouldn't wait here, by a rule."""
        log = HEAD + PAIR_LINE + '9 1.2 recvmsg(1<UNIX-STREAM:[8->7]>, {msg_namelen=0}, MSG_DONTWAIT) = -1 EAGAIN (Try again)\n'
        status, report = replayed(log)
        self.assertEqual((status, report["replies"]["agree"], report["replies"]["under a rule"]), (0, 2, 0))

    def test_what_no_reply_shows_is_told_with_its_line_and_a_status_of_its_own(self):
        event = "epoll_wait(0, [{events=EPOLLIN, data={u32=1, u64=1}}], 9, -1) = %s"
        ready = "poll([{fd=1, events=POLLOUT}], 1, 0) = %s ([{fd=1, revents=POLLOUT}])"
        flags = "fcntl(0, F_GETFL) = 0x%x (flags %s)"
        lines = {
            "a new number that isn't the lowest free one": ("socket(AF_UNIX, SOCK_STREAM, 0) = %s", "0", "1"),
            "a number given anew that the log doesn't show closed": (PAIR_LINE[6:-1] + "\n9 2.0 socket(AF_UNIX, SOCK_STREAM, 0) = %s", "2", "1"),
            "a close of a descriptor whose origin the log doesn't show": (PAIR_LINE[6:-1] + "\n9 2.0 close(%s) = 0", "1", "7"),
            "an answer that isn't the count of what the call lists": (PAIR_LINE[6:-1] + "\n9 2.0 " + ready, "1", "2"),
            "flags that the file was not opened with": ("pipe([0, 1]) = 0\n9 2.0 fcntl(0, F_GETFL) = %s", "0", "0x1"),
        }
        for text, (line, right, wrong) in lines.items():
            with self.subTest(text):
                self.assertEqual(replayed(HEAD + f"9 1.0 {line % right}\n")[0], 0)
                status, report = replayed(HEAD + f"9 1.0 {line % wrong}\n")
                self.assertEqual((status, report["notes"]), (3, {text: [4 + line.count("\n")]}))
        for line, status in ((flags % (0x2, "O_RDWR"), 0), (flags % (0x2, "O_RDWR|O_NONBLOCK"), 3), (flags % (0x802, "O_RDWR|O_NONBLOCK"), 1)):
            self.assertEqual(replayed(HEAD + PAIR_LINE + f"9 2.0 {line}\n")[0], status, line)
        signals = "9 1.0 signalfd4(-1, [], 8, SFD_NONBLOCK) = 0\n9 1.1 signalfd4(0<anon_inode:[signalfd]>, [HUP], 8, SFD_NONBLOCK) = 0\n"
        self.assertEqual(replayed(HEAD + signals)[0], 0)
        watched = "9 1.0 epoll_create1(0) = 0\n9 1.1 socket(AF_UNIX, SOCK_STREAM, 0) = 1\n" \
                  "9 1.2 epoll_ctl(0, EPOLL_CTL_ADD, 1, {events=EPOLLIN, data={u32=1, u64=1}}) = 0\n"
        for count, wanted in (("1", 1), ("2", 1)):
            self.assertEqual(replayed(HEAD + watched + f"9 2.0 {event % count}\n")[0], wanted)

    def test_a_number_that_calls_which_overlap_were_given_in_another_order_is_no_doubt(self):
        log = HEAD + ("9 1.0 clone(child_stack=0x1, flags=CLONE_VM|CLONE_THREAD) = 10\n9 1.1 socket(AF_UNIX, SOCK_STREAM, 0 <unfinished ...>\n"
                      "10 1.2 socket(AF_UNIX, SOCK_STREAM, 0) = 0\n9 1.3 <... socket resumed>) = 1\n9 1.4 close(0 <unfinished ...>\n"
                      "10 1.5 socket(AF_UNIX, SOCK_STREAM, 0) = 2\n9 1.6 <... close resumed>) = 0\n")
        status, report = replayed(log)
        self.assertEqual((status, report["notes"]), (0, {}))
        # A number that was closed before the call began would have been given.
        status, report = replayed(HEAD + PAIR_LINE + "9 1.2 close(0) = 0\n9 1.3 socket(AF_UNIX, SOCK_STREAM, 0) = 2\n")
        self.assertEqual((status, report["notes"]), (3, {"a new number that isn't the lowest free one": [6]}))

    def test_unknown_calls_are_counted_by_name(self):
        _, report = replayed(log_in((HERE / "logs/unknown_calls.txt").read_text("latin-1")))
        self.assertEqual(report["unknown calls"], {"newcall": 1, "takecall": 1})
        self.assertEqual([one["line"] for one in report["unknown"]], [9, 10])
        self.assertIn("opencall: a new number by opencall: an opaque object", report["calls"]["reasons"]["by other words"])


LEAK = HEAD + """9 1.01 socket(AF_UNIX, SOCK_STREAM, 0) = 0<UNIX-STREAM:[7]>
9 1.02 dup2(0<UNIX-STREAM:[7]>, 5) = 5<UNIX-STREAM:[7]>
9 1.03 bind(5<UNIX-STREAM:[7]>, {sa_family=AF_UNIX, sun_path="s"}, 4) = 0
9 1.04 listen(5<UNIX-STREAM:[7,"s"]>, 5) = 0
9 1.05 openat(AT_FDCWD</>, "/etc/shadow", O_RDONLY) = 1</etc/shadow>
9 1.06 socketpair(AF_UNIX, SOCK_DGRAM, 0, [2<UNIX:[8]>, 3<UNIX:[9]>]) = 0
9 1.07 fork() = 10
9 1.08 sendmsg(2<UNIX:[8]>, MESSAGE cmsg_data=[1</etc/shadow>]}], msg_controllen=24, msg_flags=0}, 0) = 1
10 1.09 recvmsg(3<UNIX:[9]>, MESSAGE cmsg_data=[4</etc/shadow>]}], msg_controllen=24, msg_flags=0}, 0) = 1
10 1.10 fork() = 11
11 1.11 execve("/bin/helper", ["helper"], 0x7f /* 1 var */) = 0
11 1.12 read(4</etc/shadow>, ""..., 9) = 9
11 1.13 close(2<UNIX:[8]>) = 0
11 1.14 exit_group(0) = ?
11 1.15 +++ exited with 0 +++
""".replace("MESSAGE", '{msg_name=NULL, msg_namelen=0, msg_iov=[{iov_base="x", iov_len=1}], msg_iovlen=1, '
            'msg_control=[{cmsg_len=20, cmsg_level=SOL_SOCKET, cmsg_type=SCM_RIGHTS,')


@unittest.skipUnless(UXRUN, "there is no uxrun: build it, or name it by the variable UXRUN")
class Holders(unittest.TestCase):
    def test_who_holds_what_through_whom(self):
        status, report = run("holds", LEAK, "15")
        self.assertEqual(status, 0)
        chains = {(one["pid"], one["number"]): one["chain"] for one in report["held"]}
        self.assertEqual(chains[11, 4], [
            "opened /etc/shadow by ? (pid 9) (line 8)",
            "passed by ? (pid 9) over its 2 (line 11) and received by ? (pid 10) as 4 (line 12)",
            "inherited at fork from ? (pid 10) (line 13)"])
        self.assertEqual(set(number for pid, number in chains if pid == 9), {0, 1, 2, 3, 5})

    def test_a_process_that_has_ended_holds_nothing_at_a_later_time(self):
        log = HEAD + ('9 1.1 socketpair(AF_UNIX, SOCK_STREAM, 0, [3<UNIX-STREAM:[7->8]>, 4<UNIX-STREAM:[8->7]>]) = 0 <0.000010>\n'
                      '9 1.2 fork() = 10 <0.000010>\n10 1.3 exit_group(0) = ?\n10 1.4 +++ exited with 0 +++\n'
                      '9 1.5 wait4(-1, NULL, 0, NULL) = 10 <0.000100>\n9 9.0 close(3<UNIX-STREAM:[7->8]>) = 0 <0.000010>\n')
        for when, pids in (("+0.15", [9, 9, 10, 10]), ("+5", [9, 9]), ("6.1", [9, 9]), ("+7.95", [9])):
            with self.subTest(when):
                self.assertEqual([one["pid"] for one in run("holds", log, when)[1]["held"]], pids)

    def test_a_descriptor_of_a_process_that_came_with_a_message_is_held(self):
        """Neither its number nor what opened 0 to 2 is in the log; the kernel passed those over."""
        log = HEAD + ('9 1.1 socketpair(AF_UNIX, SOCK_STREAM, 0, [3<UNIX-STREAM:[7->8]>, 4<UNIX-STREAM:[8->7]>]) = 0\n'
                      '9 1.2 write(3<UNIX-STREAM:[7->8]>, "hi", 2) = 2\n9 1.3 recvmsg(4<UNIX-STREAM:[8->7]>, {msg_name=NULL, msg_namelen=0, '
                      'msg_iov=[{iov_base="hi", iov_len=9}], msg_iovlen=1, msg_control=[{cmsg_len=20, cmsg_level=SOL_SOCKET, '
                      'cmsg_type=0x4 /* SCM_??? */}], msg_controllen=24, msg_flags=0}, 0) = 2\n9 1.4 pause() = ?\n')
        held = {one["number"]: one["what"] for one in run("holds", log)[1]["held"]}
        self.assertEqual((sorted(held), held[5]), ([3, 4, 5], "a process's descriptor"))

    def test_what_is_left_at_an_exit(self):
        _, report = run("holds", LEAK)
        self.assertEqual([(one["pid"], one["number"]) for one in report["left at exit"]], [(11, 3), (11, 4), (11, 5)])

    def test_rights_that_nobody_got(self):
        lost = LEAK.replace("10 1.09 recvmsg(3<UNIX:[9]>, ", "10 1.09 read(3<UNIX:[9]>, \"x\", 9) = 1\n10 1.095 getpid(").replace(
            "read(4</etc/shadow>", "read(9</etc/shadow>")
        _, report = run("holds", lost)
        self.assertEqual([(one["line"], one["what"]) for one in report["rights never received"]], [(11, "opened /etc/shadow")])
        _, report = run("holds", LEAK)
        self.assertEqual(report["rights never received"], [])

    def test_a_helper_that_holds_a_listener_looks_wrong(self):
        status, report = run("found-open", LEAK)
        self.assertEqual(status, 1)
        program, = report["programs"]
        self.assertEqual(program["program"], "helper (pid 11)")
        wrong = {one["number"]: one["wrong"] for one in program["found"] if one["wrong"]}
        self.assertEqual(wrong, {3: "a connection that the program never uses", 5: "a socket that listens, which the program never uses"})

    def test_a_listener_that_forks_of_the_program_accept_on_is_used(self):
        log = HEAD + ('9 1.01 socket(AF_UNIX, SOCK_STREAM, 0) = 3<UNIX-STREAM:[7]>\n'
                      '9 1.02 bind(3<UNIX-STREAM:[7]>, {sa_family=AF_UNIX, sun_path="/run/s"}, 9) = 0\n'
                      '9 1.03 listen(3<UNIX-STREAM:[7,"/run/s"]>, 5) = 0\n9 1.04 execve("/usr/sbin/master", ["master"], 0x7f) = 0\n'
                      '9 1.05 fork() = 10\n10 1.06 fork() = 11\n11 1.07 accept(3<UNIX-STREAM:[7,"/run/s"]>, NULL, NULL) = -1 EAGAIN\n')
        status, report = run("found-open", log)
        self.assertEqual((status, report["programs"][0]["found"][0]["used"]), (0, ["accept"]))
        # A fork that executes another program is judged by itself, and what it uses isn't the master's use.
        status, report = run("found-open", log.replace("11 1.07 ", '11 1.065 execve("/usr/sbin/worker", ["worker"], 0x7f) = 0\n11 1.07 '))
        self.assertEqual((status, [program["found"][0]["used"] for program in report["programs"]]), (1, [[], ["accept"]]))

    def test_a_helper_that_holds_an_end_of_a_connection_keeps_its_peer_from_the_end_of_input(self):
        log = HEAD + PAIR_LINE.replace("[0<", "[3<").replace(" 1<", " 4<") + ('9 1.2 pipe([5<pipe:[9]>, 6<pipe:[9]>]) = 0\n'
            '9 1.3 fork() = 10\n10 1.4 execve("/bin/helper", ["helper"], 0x7f) = 0\n10 1.5 pause() = ?\n')
        status, report = run("found-open", log)
        wrong = {one["number"]: one["wrong"].partition(":")[0] for one in report["programs"][0]["found"]}
        self.assertEqual((status, wrong), (1, {3: "a connection that the program never uses", 4: "a connection that the program never uses",
                                               5: "never used", 6: "a pipe's writing end that the program never uses"}))
        for number in (3, 4):
            self.assertIn("sees no end of input", next(one["wrong"] for one in report["programs"][0]["found"] if one["number"] == number))

    def test_a_loop_that_closes_all_numbers_raises_no_alarm(self):
        log = HEAD + PAIR_LINE.replace("[0<", "[3<").replace(" 1<", " 4<") + ('9 1.2 openat(AT_FDCWD</>, "/a", O_RDONLY) = 5</a>\n'
            '9 1.3 fork() = 10\n10 1.4 execve("/bin/helper", ["helper"], 0x7f) = 0\n')
        loop = "".join(f"10 1.5{number} close({number}) = {'0' if number < 6 else '-1 EBADF (Bad file descriptor)'}\n" for number in range(3, 9))
        for closes in (loop, "10 1.5 close_range(3, 4294967295, 0) = 0\n"):
            status, report = run("found-open", log + closes)
            self.assertEqual((status, {tuple(one["used"]) for one in report["programs"][0]["found"]}), (0, {("closed with all others",)}))
        status, report = run("found-open", log + "10 1.5 close(4<UNIX-STREAM:[8->7]>) = 0\n")
        self.assertEqual([one["used"] for one in report["programs"][0]["found"]], [[], ["closed"], []])
        self.assertTrue(report["programs"][0]["found"][1]["wrong"].endswith(", though the program closes it"))

    def test_what_was_open_at_the_start_is_told_apart_and_once(self):
        log = ("# recorded 1\n# folder /\n# user 0 0\n# inherited 0 - /dev/null\n# inherited 7 - /var/log/x\n"
               '9 1.1 execve("/bin/sh", ["sh"], 0x7f) = 0\n9 1.2 fork() = 10\n10 1.3 execve("/bin/helper", ["helper"], 0x7f) = 0\n')
        status, report = run("found-open", log)
        self.assertEqual((status, [[one["from the start"] for one in program["found"]] for program in report["programs"]]),
                         (0, [[True, True], [True, True]]))
        with tempfile.NamedTemporaryFile("w", suffix=".log") as file:
            file.write(log)
            file.flush()
            text = subprocess.run([sys.executable, TOP / "found-open", file.name], capture_output=True, text=True, check=False).stdout
        self.assertEqual(text.splitlines(), ["2 programs were executed; 0 descriptors look wrong",
                                             "  7: open from the start, /var/log/x: 2 programs found it so"])

    def test_close_on_exec_is_not_found_open(self):
        status, report = run("found-open", LEAK.replace("dup2(0<UNIX-STREAM:[7]>, 5)", "dup3(0<UNIX-STREAM:[7]>, 5, O_CLOEXEC)")
                             .replace("SOCK_DGRAM, 0, [2", "SOCK_DGRAM|SOCK_CLOEXEC, 0, [2"))
        self.assertEqual(status, 0)
        self.assertEqual([one["number"] for one in report["programs"][0]["found"]], [0, 1, 4])

    def test_a_moment_that_is_none(self):
        status, text = run("holds", LEAK, "yesterday")
        self.assertEqual(status, 2)


if __name__ == "__main__":
    unittest.main()
