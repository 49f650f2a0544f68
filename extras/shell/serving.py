"""uxserve, asked line by line."""

import os
import shutil
import subprocess
from dataclasses import dataclass, field
from pathlib import Path

TOP = Path(__file__).resolve().parent.parent.parent


class Gone(Exception):
    """uxserve isn't there, or ended."""


@dataclass(frozen=True)
class Lead:
    """A number that a call gave its process, and the description to which it leads."""

    pid: int
    fd: int
    description: int


@dataclass
class Made:
    """A call that was made: its process, word and reply, and the number under which it was asked for."""

    pid: int
    word: str
    reply: str
    number: int | None
    leads: list[Lead] = field(default_factory=list)


@dataclass
class Block:
    """What one line was answered."""

    made: list[Made] = field(default_factory=list)
    texts: list[str] = field(default_factory=list)
    fault: str | None = None


def program() -> str:
    """The path of uxserve."""
    named = os.environ.get("UXSERVE")
    if named:
        return named
    built = sorted((TOP / "crates/uxserve/out").glob("**/uxserve"))
    runs = [str(path) for path in built if path.is_file() and os.access(path, os.X_OK)]
    found = runs[0] if runs else shutil.which("uxserve")
    if found is None:
        raise Gone("uxserve isn't built; UXSERVE may name it")
    return found


def made_of(line: str, number: int | None) -> Made:
    """The call of a line of the trace."""
    front, reply = line.split(" = ", 1)
    _place, pid, _count, word = front.split(" ")
    return Made(int(pid), word, reply, number)


def add_line(block: Block, line: str, number: int | None) -> int | None:
    """Adds a line of a block. Gives the number that stands before the next call, if one does."""
    if line.startswith("answered "):
        return int(line.split(" ")[1])
    if line.startswith("leads "):
        pid, fd, description = (int(word) for word in line.split(" ")[1:])
        block.made[-1].leads.append(Lead(pid, fd, description))
    elif line.startswith("! "):
        block.fault = line[2:]
    elif line.startswith("  "):
        block.texts.append(line[2:])
    else:
        block.made.append(made_of(line, number))
    return None


class Server:
    """A layer that has just started, with the processes and file objects of a header."""

    def __init__(self, header: list[str]) -> None:
        try:
            self.process = subprocess.Popen([program()], stdin=subprocess.PIPE, stdout=subprocess.PIPE, text=True)
        except OSError as error:
            raise Gone(f"uxserve: {error.strerror}") from error
        self.write("".join(f"{line}\n" for line in header))

    def write(self, text: str) -> None:
        """Writes lines, which a flush sends."""
        assert self.process.stdin is not None
        self.process.stdin.write(text)

    def ask(self, line: str) -> Block:
        """What the line is answered."""
        assert self.process.stdin is not None and self.process.stdout is not None
        try:
            self.write(f"{line}\n")
            self.process.stdin.flush()
        except BrokenPipeError as error:
            raise Gone("uxserve has ended") from error
        block = Block()
        number: int | None = None
        for answer in self.process.stdout:
            if answer.startswith("."):
                return block
            number = add_line(block, answer.rstrip("\n"), number)
        raise Gone("uxserve has ended")

    def end(self) -> None:
        """Ends the layer."""
        assert self.process.stdin is not None
        try:
            self.process.stdin.close()
        except BrokenPipeError:
            pass
        self.process.wait()
