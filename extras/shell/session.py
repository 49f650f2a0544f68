"""A session: the lines that were typed, what they mean, and what was made of them."""

from dataclasses import dataclass
from pathlib import Path

from shell import saying
from shell.naming import Names, Unnamed, parted
from shell.serving import Block, Made, Server

HEADER = ("proc 1000 1000 0 64", "proc 1000 1000 0 64")


@dataclass
class Asked:
    """A call that was typed, with numbers for its names."""

    pid: int
    call: str
    names: list[str]


def is_of_header(line: str) -> bool:
    """Whether a line may stand in the header of a script."""
    return not line.strip() or line.lstrip().startswith("#") or line.split()[0] in ("serial", "wide", "object", "proc")


class Session:
    """A layer, what is named in it, and the calls that were asked for."""

    def __init__(self, header: list[str]) -> None:
        self.names = Names()
        self.header = ["serial", *self.unnamed(header)]
        self.typed: list[str] = []
        self.begin()

    def unnamed(self, header: list[str]) -> list[str]:
        """The lines of a header that say something, without the names of its processes."""
        plain: list[str] = []
        for words in (line.split("#")[0].split() for line in header):
            if words[:1] in (["serial"], ["wide"], []):
                continue
            if words[0] == "proc" and len(words) == 6:
                count = sum(line.startswith("proc ") for line in plain)
                self.names.processes[words.pop(1)] = count + 1
            plain.append(" ".join(words))
        return plain or list(HEADER)

    def begin(self) -> None:
        """Starts a layer in which no call was made."""
        self.server = Server(self.header)
        self.names = Names(processes={name: pid for name, pid in self.names.processes.items() if pid <= self.booted()})
        self.asked: dict[int, Asked] = {}
        self.waiting: list[int] = []
        self.made: list[tuple[Asked, Made]] = []
        self.pid = 1

    def booted(self) -> int:
        """How many processes the header has."""
        return sum(line.startswith("proc ") for line in self.header)

    def call(self, line: str) -> str:
        """Makes the call of a line, or lets it wait. Gives what is to be said of it."""
        first, _, rest = line.partition(" ")
        pid = self.process(first)
        if pid is not None and not rest.strip():
            self.pid = pid
            return ""
        text, names = parted(rest if pid is not None else line)
        if text.split(" ")[0] == "wait":
            return "lines with wait are for threads and orders, and skipped here"
        asked = Asked(pid or self.pid, "", names)
        asked.call = self.names.without(asked.pid, text)
        number = len(self.asked)
        self.asked[number] = asked
        block = self.server.ask(f"pend {number} {asked.pid} {asked.call}")
        if block.fault is None:
            self.typed.append(line if pid is not None else f"{asked.pid} {line}")
        return self.outcome(block, number)

    def process(self, word: str) -> int | None:
        """The process that a word names, if it names one."""
        return int(word) if word.isdecimal() else self.names.processes.get(word)

    def outcome(self, block: Block, number: int | None) -> str:
        """What is to be said of a block."""
        if block.fault is not None:
            return saying.coloured(self.reason(block.fault, number), "fault")
        said = [self.take(made, number) for made in block.made]
        if number is not None and all(made.number != number for made in block.made):
            self.waiting.append(number)
            said.append(saying.coloured(f"waits as {number}", "waits"))
        return "\n".join(said)

    def reason(self, fault: str, number: int | None) -> str:
        """Why a line is at fault, with the form of its call."""
        fault = fault.partition(": ")[2] or fault
        if number is None or fault != "bad line":
            return fault
        word = self.asked[number].call.split(" ")[0]
        if word in saying.forms():
            return f"{fault}; {saying.form_text(word)}"
        return f"no call is named {word}; help lists the calls"

    def take(self, made: Made, number: int | None) -> str:
        """Notes a call that was made. Gives what is to be said of it."""
        if made.number is None:
            return saying.made_text(made, number)
        asked = self.asked[made.number]
        self.waiting = [other for other in self.waiting if other != made.number and self.asked[other].pid != self.ended(made)]
        if made.word == "close" and made.reply.startswith("ok"):
            self.names.drop(made.pid, int(asked.call.split(" ")[1]))
        self.names.give(made, asked.names)
        self.made.append((asked, made))
        return saying.made_text(made, number)

    def ended(self, made: Made) -> int:
        """The process whose exit this is, or 0."""
        return made.pid if made.word == "exit" else 0

    def cancel(self, word: str) -> str:
        """Takes back a call that waits."""
        if not word.isdecimal() or int(word) not in self.waiting:
            raise Unnamed("no call waits as that; pending lists those that do")
        self.waiting.remove(int(word))
        return self.outcome(self.server.ask(f"cancel {word}"), None)

    def undo(self) -> str:
        """Makes all calls again but the last."""
        if not self.typed:
            return "no call was made"
        pid, typed = self.pid, self.typed[:-1]
        last = self.typed[-1]
        self.server.end()
        self.typed = []
        self.begin()
        for line in typed:
            self.call(line)
        self.pid = pid
        return f"taken back: {last}"

    def script(self) -> str:
        """The calls that were made as a script, each with its reply."""
        lines = [line for asked, made in self.made for line in (f"{asked.pid} {asked.call}", f"#= {made.reply}")]
        return "\n".join([*self.header, *lines]) + "\n"

    def save(self, name: str) -> str:
        """Writes the script of this session."""
        Path(name).write_text(self.script())
        return f"{len(self.made)} calls written to {name}"
