"""Changes one thing in a log at a time, as a kernel or a tracer that is wrong would, and sees whether a replay notices it."""
from __future__ import annotations

import re
import tempfile
from dataclasses import dataclass, field
from typing import TYPE_CHECKING

import common
from judging.order import Search
from judging.rules import read_rules
from telling.replay import report_of

if TYPE_CHECKING:
    from judging.run import Runner

RESULT = r"\) = "
NEW = (r"(?:socket|accept4?|open|openat|creat|dup|eventfd2?|epoll_create1?|memfd_create|timerfd_create|signalfd4|inotify_init1?)\(.*\) = |"
       r"fcntl\(.*F_DUPFD.*\) = ")
MOVED = r"(?:read|readv|write|writev|recv|recvfrom|recvmsg|send|sendto|sendmsg)\(.*\) = "
NOTE = r'(?:<(?:"[^"]*"|->|[^">])*>)?'
TAKEN = rf'(?:(?:read|recvfrom)\(\d+{NOTE}, |recvmsg\(.*iov_base=)'
CHANGES_SOMETHING = (r"(?:close|dup2|dup3|bind|listen|connect|write|sendto|sendmsg|read|recvfrom|recvmsg|shutdown|socket|socketpair|"
                     r"accept4?)\(")
NOTHING = "close|bind|listen|connect|shutdown|getsockname|getsockopt|setsockopt|socketpair|pipe2?|ftruncate|setuid|execve"
ERRORS = {"EAGAIN": "ECONNRESET", "ENOENT": "ECONNREFUSED", "ECONNREFUSED": "ENOENT", "EPIPE": "ENOTCONN", "EBADF": "EINVAL"}


def plus(step: int):
    return lambda found: str(max(0, int(found[0]) + step))


def bits(mask: int):
    return lambda found: hex(int(found[0], 0) ^ mask)


# Each kind of change: what it is called, where it is made (of a line the last group), and what by: a text or a function of the match.
KINDS = [
    ("a new descriptor's number", rf"({NEW})(?P<x>\d+)", (plus(1), plus(3))),
    ("the numbers of two new ones", r"(?:pipe2?\(|socketpair\([^\[]*)\[\d+[^,]*?, (?P<x>\d+)", (plus(1), plus(4))),
    ("a count of bytes", rf"({MOVED})(?P<x>[1-9]\d*)", (plus(1), plus(-1), plus(7))),
    ("flags told", r"F_GETF[LD]\) = (?P<x>0x[0-9a-f]+|\d+)", (bits(0o4000), bits(0o2000), bits(1))),
    ("bytes received", rf'{TAKEN}"(?P<x>[A-Za-z0-9])', (lambda found: "Z" if found[0] != "Z" else "Y",)),
    ("an error for another", rf"{RESULT}-1 (?P<x>{'|'.join(ERRORS)})", (lambda found: ERRORS[found[0]],)),
    ("an error for an answer", rf"({MOVED}|(?:bind|listen|connect|shutdown|getsockname)\(.*\) = )(?P<x>\d+)", ("-1 EINVAL",)),
    ("a condition of a poll", r"revents=(?P<x>POLL[A-Z|]+)", (lambda found: found[0] + "|POLLHUP", "POLLERR", "POLLOUT")),
    ("how many are ready", r"(?:poll|select|epoll_p?wait)\(.*\) = (?P<x>[1-9]\d*)", (plus(1),)),
    ("a name told", r'(?:getsockname|getpeername|accept4?)\(.*sun_path=@?"(?P<x>[^"\\]+)"', (lambda found: found[0] + "x",)),
    ("an option's value", r"getsockopt\(.*(?:SO_TYPE|SO_ACCEPTCONN|SO_PASSCRED|SO_ERROR), \[(?P<x>\w+)\]", ("5",)),
    ("whose credentials", r"(?:SO_PEERCRED|SCM_CREDENTIALS).*uid=(?P<x>\d+)", (plus(1),)),
    ("a right's number", r"recvmsg\(.*SCM_RIGHTS, cmsg_data=\[(?P<x>\d+)", (plus(1),)),
    ("flags of a message", r"recvmsg\(.*msg_flags=(?P<x>0|MSG_[A-Z_|]+)", ("MSG_CTRUNC", "MSG_TRUNC")),
    ("an offset told", r"lseek\(.*\) = (?P<x>\d+)", (plus(1),)),
    ("how many bytes wait", r"ioctl\(.*(?:FIONREAD|TIOCOUTQ), \[(?P<x>\d+)\]", (plus(1), plus(7))),
    ("a size or seals", r"(?:F_GET_SEALS\) = |getsockopt\(.*SO_(?:SND|RCV)BUF, \[)(?P<x>0x[0-9a-f]+|\d+)", (bits(1),)),
    ("an answer for an error", rf"{RESULT}(?P<x>-1 (?:EAGAIN|EBADF|EPIPE|ENOTCONN|EINVAL|ESPIPE|ENOTTY)\b.*)", ("0", "1")),
    ("an answer of nothing", rf"(?:{NOTHING})\(.*\) = (?P<x>0)(?:$| <)", ("1",)),
    ("a process's number", r"\b(?:v?fork|clone3?)\(.*\) = (?P<x>[1-9]\d*)", (plus(100),)),
    ("which descriptor", r"(?:read|write|recvmsg|sendmsg|recvfrom|sendto|listen|shutdown)\((?P<x>\d+)", (plus(5),)),
    ("a call left out", rf"(?P<x>^.*{CHANGES_SOMETHING}.*\) = (?!-1 ).*$)", ("",)),
]


@dataclass
class Tally:
    """Of one kind of change how many were made, how many a reply shows, how many something else of the report; and the others."""
    made: int = 0
    differ: int = 0
    noted: int = 0
    missed: list = field(default_factory=list)


def places(text: str, most: int):
    """Changes of a log: for each kind some, spread over it, each as the kind's name, the line's number and the new line."""
    lines = text.split("\n")
    for name, pattern, changes in KINDS:
        found = [(number, match) for number, line in enumerate(lines) if not line.startswith("#")
                 for match in [re.search(pattern, line)] if match]
        for place in range(min(most, len(found))):
            number, match = found[place * len(found) // min(most, len(found))]
            change = changes[place % len(changes)]
            new = change if isinstance(change, str) else change([match["x"]])
            yield name, number, lines[number][:match.start("x")] + new + lines[number][match.end("x"):]


def judged(text: str, runner: Runner, seconds: float):
    """What a replay tells of a log: its differences, and what else can't be so. None where it isn't read as a log."""
    with tempfile.NamedTemporaryFile("w", encoding="latin-1", suffix=".log") as file:
        file.write(text)
        file.flush()
        try:
            log = common.load(file.name)
            world = common.say(log)
            report = report_of(log, world, Search(world, runner, read_rules(), seconds).run(), runner)
        except (common.Fault, ValueError):
            return None
    replies = report["replies"]
    return ((replies["differ"] + replies["not decided"], sum(replies["rules"].values())),
            (report["notes"], report["log"]["unreadable"], report["unknown calls"]))


def tally(text: str, runner: Runner, most: int, seconds: float, found: dict[str, Tally]) -> None:
    """Makes so many changes of each kind in a log, one at a time, and adds to the tallies what became of them."""
    base = judged(text, runner, seconds)
    lines = text.split("\n")
    for name, number, new in places(text, most):
        changed = judged("\n".join([*lines[:number], *([new] if new else []), *lines[number + 1:]]), runner, seconds)
        one = found.setdefault(name, Tally())
        one.made += 1
        if changed is None or changed[0] != base[0]:
            one.differ += 1
        elif changed[1] != base[1]:
            one.noted += 1
        else:
            one.missed.append(new or f"without: {lines[number]}")


def table_of(found: dict[str, Tally]):
    """The tallies as lines."""
    lines = [f"{'':30s} made  differ  noted  nothing"]
    order = [name for name, *_ in KINDS if name in found]
    for name in order:
        one = found[name]
        lines.append(f"{name:30s} {one.made:4d}  {one.differ:6d}  {one.noted:5d}  {len(one.missed):7d}")
    made, differ, noted = (sum(getattr(one, key) for one in found.values()) for key in ("made", "differ", "noted"))
    return [*lines, f"{'all':30s} {made:4d}  {differ:6d}  {noted:5d}  {made - differ - noted:7d}"]
