"""Follows a log call by call: which process has which descriptor, and what the script says of each call."""
from __future__ import annotations

import heapq
import re
from typing import TYPE_CHECKING, Callable

from reading.calls import End
from reading.effects import MAKES_OPAQUE
from reading.words import OtherForm, Unreadable, after, number_of
from . import doubts, handover, marks
from .model import Block, Description, How, Kind, Process, Role, Slot, Step
from .names import Names
from .notes import descriptors_in, inode_of, kind_of
from .objects import OUTSIDE, Objects
from .outside import Outside
from .people import People
from .uses import Uses
from .waiting import POLLS, must_wait

if TYPE_CHECKING:
    from reading.calls import Call, Log, Result
    from reading.head import Inherited
    from reading.words import Arguments
    from .model import Seat
    from .outside import Learnt

HIGHEST = 4095
AUTOMATIC = re.compile(r'\[(\d+)(?:->\d+)?,@"([0-9a-f]{5})"\]')
ONE_NUMBER = """socket accept accept4 open openat openat2 creat dup fcntl ioctl eventfd eventfd2 memfd_create epoll_create epoll_create1
timerfd_create signalfd4 inotify_init inotify_init1 pidfd_open""".split()
GIVES_NUMBERS: dict[str, int | None] = {**dict.fromkeys(ONE_NUMBER), "pipe": 0, "pipe2": 0, "socketpair": 3}
OPAQUE_NAMES = {"timerfd_create": "a timer", "signalfd4": "a descriptor of signals", "signalfd": "a descriptor of signals",
                "inotify_init1": "an inotify", "inotify_init": "an inotify", "io_uring_setup": "an io_uring",
                "userfaultfd": "a userfaultfd", "epoll_create1": "an epoll", "epoll_create": "an epoll",
                "pidfd_open": "a process's descriptor"}
# Calls whose first argument is a descriptor, but close.
ON_A_DESCRIPTOR = frozenset("""read readv pread64 preadv preadv2 write writev pwrite64 pwritev pwritev2 recv recvfrom recvmsg recvmmsg send
sendto sendmsg sendmmsg bind listen connect accept accept4 shutdown getsockname getpeername getsockopt setsockopt dup dup2 dup3 fcntl
fcntl64 ioctl lseek ftruncate ftruncate64 fallocate splice tee vmsplice copy_file_range sendfile sendfile64 epoll_ctl epoll_wait epoll_pwait
epoll_pwait2 fchdir""".split())
# Calls that answer 0 where they go well.
ANSWERS_NOTHING = frozenset("""close close_range bind listen connect shutdown getsockname getpeername getsockopt setsockopt socketpair pipe
pipe2 ftruncate ftruncate64 fallocate unlink unlinkat rename renameat renameat2 link linkat chdir fchdir chroot epoll_ctl execve
execveat setuid setgid setreuid setregid setresuid setresgid setgroups""".split())
# Calls that give numbers, or take them, or tell who the process is.
OF_THE_TABLE = frozenset("""socket pair pipe open create memfd eventfd accept dup dup2 dupfd close fork exec exit setids""".split())
Handler = Callable[..., None]
SAYS: dict[str, Handler] = {}


class Defect(Exception):
    """A mistake of this program, with the line and the call of a log at which it came to light."""


def context_of(seat: Seat, words: str):
    """What a line concerns beside its description: its process's table, and a name."""
    name, *rest = words.split(" ", 3)
    named = tuple(word for word in rest[:2] if word[:2] in ("p:", "a:") or name == "bind" and word == "u")
    return (id(seat.process), *named) if name in OF_THE_TABLE else named


def says(*names: str):
    """Marks what says the calls of these names."""
    def mark(handler: Handler):
        for name in names:
            SAYS[name] = handler
        return handler
    return mark


class World:
    """All that is known while the calls of a log are said."""

    def __init__(self, log: Log, inherited: list[Inherited] | None = None, learnt: Learnt | None = None) -> None:
        self.log = log
        self.inherited = log.head.inherited if inherited is None else inherited
        self.blocks: list[Block] = []
        self.current: Block | None = None
        self.late: list[tuple[int, int, Call]] = []
        self.names = Names()
        self.people = People()
        self.objects = Objects()
        self.uses = Uses()
        self.doubts = doubts.Doubts()
        self.gaps = doubts.Gaps()
        self.outside = Outside(self, learnt)

    # ---- the order in which the log is read ----

    def prepare(self) -> None:
        """What is looked up in the whole log before its first call is said."""
        self.objects.prepare(self.log.calls)
        self.uses.prepare(self.log.calls)
        for call in self.log.calls:
            if ',@"' in call.text:
                for inode, name in AUTOMATIC.findall(call.text):
                    self.names.automatic.setdefault(inode, name)

    def place_of(self, event: Call | End):
        if isinstance(event, End):
            return event.line
        return event.end if event.name in POLLS else event.begin

    def run(self):
        """Says the whole log."""
        self.prepare()
        events = sorted([*self.log.calls, *self.log.ends], key=self.place_of)
        replaced = list(reversed(self.log.replaced))
        for event in events:
            place = self.place_of(event)
            while self.late and self.late[0][0] < place:
                _, _, call = heapq.heappop(self.late)
                self.say(call, call.end)
            while replaced and replaced[-1][0] <= place:
                self.people.replace(*replaced.pop()[1:])
            if isinstance(event, End):
                self.end_thread(event)
            else:
                self.say(event, place)
        while self.late:
            _, _, call = heapq.heappop(self.late)
            self.say(call, call.end)
        self.doubts.decide(self.blocks)
        return self

    def is_late(self, process: Process, call: Call, args: Arguments, result: Result):
        """Whether a call stands where it ended, since it couldn't be where it began; one of another form stands where it began."""
        try:
            return self.is_too_early(process, call, args, result) or must_wait(process, call, args, result)
        except OtherForm:
            return False

    @staticmethod
    def is_too_early(process: Process, call: Call, args: Arguments, result: Result) -> bool:
        """Whether a call gives a number that is still open: then another closes it before this one ends, where it stands."""
        if call.name not in GIVES_NUMBERS or result.error:
            return False
        pairs = after(args[GIVES_NUMBERS[call.name]]) if GIVES_NUMBERS[call.name] is not None else None
        numbers = [number_of(one, None) for one in pairs] if isinstance(pairs, list) else [result.value]
        return not (call.name in ("fcntl", "ioctl") and not result.note) and any(number in process.table for number in numbers)

    def process_of(self, thread: int):
        """The process of a thread; one that no fork made is a root."""
        process = self.people.threads.get(thread)
        if process is None:
            process = self.adopt(thread)
        return process

    def adopt(self, thread: int):
        if self.people.orphans:
            block, parent = self.people.orphans.pop(0)
            return handover.fork(self, block, parent, thread)
        head = self.log.head
        first = not self.people.processes
        user = head.user if head.user is not None else 0
        group = head.group if head.group is not None else 0
        process = Process(thread, None, {}, head.folder, "?", user=user, group=group)
        self.people.enter(process, thread)
        process.seat = self.people.new_seat(user, group, process)
        if process.seat is None:
            process.unsaid = "more than 64 processes"
        block = Block(None, process, 0, 0, 0, program=process.label())
        self.blocks.append(block)
        if first or not head.recorded:
            self.start(block, process)
        return process

    def start(self, block: Block, process: Process) -> None:
        """Opens what the first program was given."""
        for one in sorted(self.inherited, key=lambda one: one.number):
            description = Description(Kind.OPAQUE, one.target, nonblocking=one.nonblocking, inode=one.target, is_given=True)
            self.make(block, process, one.number, description, False, role=Role.START)

    # ---- the lines of the script ----

    def step(self, block: Block, seat: Seat | None, words: str, expect: str | None = None, description: Description | None = None,
             role: Role = Role.CALL, asked: frozenset[str] | None = None, makes: dict[int, Description] | None = None,
             state: str = "-", other: Description | None = None) -> None:
        """A further line of a block; `other` is a socket that it concerns beside its own. A process that has no seat has no lines."""
        if description is not None:
            block.concern(description)
        step = Step(seat, words, expect, role, description.state() if description else state, asked, block, makes)
        if other is not None:
            block.concern(other)
            step.other, step.other_name = marks.marks_of(other, description), other.name
        if description is not None and description.kind.is_socket:
            step.marks, step.other = marks.marks_of_call(description, other, words, bool(self.objects.in_flight))
            if expect is not None:
                marks.follow(description, other, words, expect)
        if seat is not None:
            block.steps.append(step)
            block.context += context_of(seat, words)

    def parts(self, block: Block, count: int):
        """Blocks for the pieces of a call that others interrupted: each may stand elsewhere, in their order."""
        made = [Block(block.call, block.process, block.begin, block.end, block.at + place * 1e-6, block.how, block.why,
                      unix=block.unix, program=block.program, is_part=True) for place in range(1, count)]
        whole = [block, *made]
        for place, one in enumerate(whole):
            one.following = tuple(whole[place + 1:])
        self.blocks += made
        return whole

    def make(self, block: Block, process: Process, wanted: int, description: Description, on_exec: bool, words: str | None = None,
             form: str = "fd {}", role: Role = Role.CALL, other: Description | None = None) -> None:
        """A call that gives a new number. Where the log has another than the lowest, it is moved there."""
        if wanted in process.table:
            self.gone(block, process, wanted)
        lowest = process.lowest()
        letters = self.letters(description, on_exec)
        words = words or f"open {OUTSIDE} rw {letters}"
        if wanted > HIGHEST:
            block.not_at_all("a descriptor above 4,095")
            return
        self.step(block, process.seat, words, form.format(lowest), role=role, makes={lowest: description}, other=other)
        self.move(block, process, lowest, wanted, description, on_exec)
        description.made_by = description.made_by or block
        process.table[wanted] = Slot(description, on_exec)

    def move(self, block: Block, process: Process, number: int, wanted: int, description: Description, on_exec: bool) -> None:
        self.doubts.given(block, process, wanted)
        if number == wanted:
            return
        self.doubts.pass_over(block, process, wanted)
        self.step(block, process.seat, f"dup2 {number} {wanted}", f"fd {wanted}", role=Role.MOVE)
        self.step(block, process.seat, f"close {number}", "ok", role=Role.MOVE)
        if on_exec:
            self.step(block, process.seat, f"flags {wanted} {self.letters(description, True)}", "ok", role=Role.MOVE)
        block.otherwise("a number other than the lowest free one")

    def gone(self, block: Block, process: Process, number: int) -> None:
        """A number that the log gives anew was closed by what the log doesn't show."""
        self.step(block, process.seat, f"close {number}", None, role=Role.MOVE)
        self.doubts.add(doubts.NOT_CLOSED, block)
        self.drop(process, number)

    @staticmethod
    def letters(description: Description, on_exec: bool):
        text = ("a" if description.append else "") + ("n" if description.nonblocking else "") + ("x" if on_exec else "")
        return text or "-"

    def slot(self, block: Block, process: Process, number: int, note: str = ""):
        """The slot of a number; one whose origin the log doesn't show is opened as an opaque object. None: not open."""
        found = process.table.get(number)
        if found is None and note and number >= 0:
            root = process
            while root.parent:
                root = root.parent
            self.gaps.missing.setdefault((root.pid, number), note)
            self.doubts.add(doubts.NO_ORIGIN, block)
            description = self.objects.by_inode.get(inode_of(note)) or Description(kind_of(note), note, inode=inode_of(note))
            description.unknown = description.unknown or "its origin isn't in the log"
            self.make(block, process, number, description, False, role=Role.START)
            found = process.table.get(number)
        if found is not None and note and not found.description.inode:
            found.description.inode = inode_of(note)
            found.description.what = found.description.what if found.description.kind is not Kind.OPAQUE else note
        return found

    # ---- one call ----

    def has_no_parent(self, thread: int) -> bool:
        """Whether a thread that isn't known yet is of a process that nothing made, though the log has all from the first on."""
        return (self.log.head.recorded and thread not in self.people.threads and bool(self.people.processes)
                and not self.people.orphans)

    def say(self, call: Call, at: float) -> None:
        is_stray = self.has_no_parent(call.thread)
        process = self.process_of(call.thread)
        if process.birth is not None and process.birth.end >= call.begin:
            process.birth.end = max(process.birth.begin, call.begin - 0.5)
        block = Block(call, process, call.begin, call.end, at, program=process.label())
        self.current = block
        if is_stray:
            self.doubts.add(doubts.NO_PARENT, block)
        try:
            args, result = call.read()
        except (Unreadable, ValueError, RecursionError) as fault:
            block.not_at_all(f"can't be read: {fault}")
            self.log.bad.append((call.begin, f"{call.name}: {fault}"))
            self.blocks.append(block)
            return
        if at < call.end and self.is_late(process, call, args, result):
            heapq.heappush(self.late, (call.end, call.begin, call))
            return
        if process.unsaid:
            block.not_at_all(process.unsaid)
        process.last = max(process.last, call.begin if call.name in ("exit", "exit_group") else min(call.end, self.log.lines))
        self.dispatch(block, process, args, result)
        if process.unsaid:
            block.not_at_all(process.unsaid)
        self.blocks.append(block)

    def dispatch(self, block: Block, process: Process, args: Arguments, result: Result) -> None:
        call = block.call
        handler = SAYS.get(call.name)
        try:
            self.note_answer(block, process, args, result)
            self.uses.note(process, call, args)
            if handler:
                handler(self, block, process, args, result)
            else:
                self.say_other(block, process, args, result)
        except OtherForm as fault:
            block.not_at_all("arguments of another form")
            self.log.bad.append((call.begin, f"{call.name}: arguments of another form ({fault})"))
        except Exception as fault:
            raise Defect(f"line {call.begin}, {call.name}: {type(fault).__name__}: {fault}") from fault

    def note_answer(self, block: Block, process: Process, args: Arguments, result: Result) -> None:
        """A call that went well on a number which leads to nothing, of which strace has no note either; or that answers 0 alone."""
        name, number = block.call.name, args[0] if args else None
        if result.error or result.value is None:
            return
        if name in ON_A_DESCRIPTOR and isinstance(number, int) and 0 <= number <= HIGHEST and number not in process.table:
            self.doubts.add(doubts.NO_ORIGIN, block)
        if name in ANSWERS_NOTHING and result.value:
            self.doubts.add(doubts.ANSWER, block)

    def say_other(self, block: Block, process: Process, args: Arguments, result: Result) -> None:
        """A call that nobody has told what to do with."""
        name = block.call.name
        if result.error or result.value is None:
            block.leave_out(f"{name} that failed" if result.error else f"{name} without an answer")
        elif name in ("signalfd", "signalfd4") and number_of(args[0], None) == result.value:
            block.leave_out("a change of what a descriptor of signals is for")
        elif name in MAKES_OPAQUE or result.note:
            what, nonblocking = OPAQUE_NAMES.get(name) or result.note or name, any("NONBLOCK" in str(value) for value in args)
            description = Description(Kind.OPAQUE, what, nonblocking, inode=result.note)
            on_exec = any("CLOEXEC" in str(value) for value in args)
            self.make(block, process, result.value, description, on_exec or name in ("pidfd_open", "pidfd_getfd"))
            block.otherwise("an opaque object" if name in MAKES_OPAQUE else f"a new number by {name}: an opaque object")
        else:
            self.unknown_effect(block, process, args)

    def unknown_effect(self, block: Block, process: Process, args: Arguments) -> None:
        """A call that isn't known: what it does to sockets, pipes and files of the layer isn't known from here on."""
        name = block.call.name
        self.gaps.unknown_names[name] += 1
        hit = False
        for descriptor in descriptors_in(args, self.uses.plain):
            slot = process.table.get(descriptor.number)
            if slot and slot.description.kind is not Kind.OPAQUE:
                self.make_unknown(slot.description, f"{name} has an effect that isn't known")
                block.unix = block.unix or slot.description.kind.is_socket
                hit = True
        if hit:
            block.not_at_all(f"{name}, of an effect that isn't known")
        else:
            block.leave_out(f"{name}, which isn't known, of nothing here")

    def make_unknown(self, description: Description, why: str) -> None:
        """Later replies of a description, and of its peer, aren't compared."""
        for one in (description, description.peer):
            if one is not None and not one.unknown:
                one.unknown = why
        if description.thing is not None:
            description.thing.unknown = description.thing.unknown or why

    def lose(self, block: Block, description: Description, why: str) -> None:
        """A call whose effect on a description can't be said, as its arguments aren't known or the layer has no such call."""
        self.make_unknown(description, why)
        block.unknown = why
        block.not_at_all(why)

    def end_thread(self, end: End) -> None:
        process = self.people.threads.pop(end.thread, None)
        if process is None:
            return
        process.threads.discard(end.thread)
        if not process.threads and not process.over:
            at = end.line if end.signal else process.last + 0.5
            block = Block(end, process, process.last + 0.1, end.line, at, program=process.label())
            block.how, block.why = (How.OTHERWISE, "ended by a signal") if end.signal else (How.AS_IT_IS, "")
            self.finish(block, process)
            self.blocks.append(block)

    def finish(self, block: Block, process: Process) -> None:
        """The process ends: all its numbers are closed."""
        process.over = True
        block.snapshot = {number: slot.description for number, slot in process.table.items()}
        self.step(block, process.seat, "exit", "ok")
        for number, slot in list(process.table.items()):
            block.concern(slot.description)
            self.drop(process, number)

    def drop(self, process: Process, number: int) -> None:
        slot = process.table.pop(number, None)
        if slot:
            process.freed[number] = self.current.end if self.current is not None else 0
            marks.released(slot.description)
        if slot and slot.description.thing is not None:
            slot.description.thing.ends -= 1
