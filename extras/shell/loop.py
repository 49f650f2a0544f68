"""Lines that are typed, one after another."""

import sys
from pathlib import Path

from shell import completing, saying
from shell.naming import Unnamed
from shell.serving import Gone
from shell.session import Session, is_of_header


def pending_text(session: Session) -> str:
    """The calls that wait."""
    waiting = [f"{number}: {session.asked[number].pid} {session.asked[number].call}" for number in session.waiting]
    return "\n".join(waiting) or "no call waits"


def names_text(session: Session) -> str:
    """What is named."""
    named = [f"{name} is process {pid}" for name, pid in session.names.processes.items()]
    named += [f"${name} of process {pid} is {lead.fd}" for (pid, name), lead in session.names.given.items()]
    return "\n".join(named) or "nothing is named"


def audit_text(session: Session, words: list[str]) -> str:
    """Through whom numbers came to their processes: all, those of a process, or one."""
    lines = session.server.ask("audit").texts
    front = " ".join(["held", *words]) + " "
    return "\n".join(line for line in lines if not words or line.startswith(front)) or "no such number is open"


def answer(session: Session, line: str) -> str | None:
    """What is to be said of a line; none where it ends the session."""
    words = line.split()
    match words:
        case []:
            return ""
        case [first, *_] if first.startswith("#"):
            return ""
        case ["quit"]:
            return None
        case ["help"]:
            return saying.help_text()
        case ["help", word]:
            return saying.help_of(word)
        case ["holders"]:
            return "\n".join(session.server.ask("holders").texts)
        case ["audit", *which] if len(which) <= 2:
            return audit_text(session, which)
        case ["pending"]:
            return pending_text(session)
        case ["names"]:
            return names_text(session)
        case ["cancel", word]:
            return session.cancel(word)
        case ["undo"]:
            return session.undo()
        case ["save", name]:
            return session.save(name)
    return session.call(" ".join(words) if '"' not in line else line.strip())


def said(session: Session, line: str) -> bool:
    """Answers a line. Gives whether the session goes on."""
    try:
        text = answer(session, line)
    except (Unnamed, OSError) as error:
        text = saying.coloured(str(error), "fault")
    if text is None:
        return False
    if text:
        print(text, flush=True)
    return True


def read_line(session: Session, at_terminal: bool) -> str | None:
    """The next line, or none at the end."""
    try:
        return input(f"{session.pid}> " if at_terminal else "")
    except EOFError:
        return None
    except KeyboardInterrupt:
        print()
        return ""


def begun(words: list[str]) -> Session:
    """A session in which the calls of a script were made, if one is named."""
    lines = Path(words[0]).read_text().splitlines() if words else []
    count = next((place for place, line in enumerate(lines) if not is_of_header(line)), len(lines))
    session = Session(lines[:count])
    for line in lines[count:]:
        if not line.lstrip().startswith("#"):
            said(session, line)
    return session


def run(words: list[str]) -> None:
    """Answers lines up to the end."""
    session = begun(words)
    at_terminal = sys.stdin.isatty()
    if at_terminal:
        completing.begin(session)
    line = read_line(session, at_terminal)
    while line is not None and said(session, line):
        line = read_line(session, at_terminal)
    if at_terminal:
        completing.end()
    session.server.end()


def main(words: list[str]) -> int:
    """The command: its status is 0, 1 where a session can't begin or go on, 2 where it isn't understood."""
    if words[:1] in (["-h"], ["--help"]):
        print("usage: uxsh [SCRIPT]\n\n" + saying.help_text())
        return 0
    if len(words) > 1 or any(word.startswith("-") for word in words):
        print("usage: uxsh [SCRIPT]", file=sys.stderr)
        return 2
    try:
        run(words)
    except (Gone, OSError) as error:
        print(f"uxsh: {error}", file=sys.stderr)
        return 1
    return 0
