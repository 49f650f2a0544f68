"""Completion of commands, calls, names and words, by readline."""

import readline
from pathlib import Path

from shell import saying
from shell.session import Session

HISTORY = Path.home() / ".uxsh_history"
COMMANDS = ("help", "holders", "audit", "pending", "cancel", "names", "undo", "save", "quit")


def choices(session: Session, words: list[str]) -> list[str]:
    """What may stand behind these words."""
    if words and session.process(words[0]) is not None:
        pid, words = session.process(words[0]) or session.pid, words[1:]
    else:
        pid = session.pid
    if not words:
        return [*COMMANDS, *saying.forms(), *session.names.processes]
    if words[0] == "help":
        return list(saying.forms())
    fields = saying.forms().get(words[0], [])
    kind = fields[len(words) - 1]["kind"] if len(words) <= len(fields) else ""
    if kind == "Fd":
        return [f"${name}" for name in session.names.of_process(pid)]
    return list(saying.WORDS.get(kind, ()))


class Completer:
    """Completes the word at the cursor."""

    def __init__(self, session: Session) -> None:
        self.session = session
        self.found: list[str] = []

    def __call__(self, text: str, state: int) -> str | None:
        if state == 0:
            words = readline.get_line_buffer()[: readline.get_begidx()].split()
            self.found = [f"{word} " for word in choices(self.session, words) if word.startswith(text)]
        return self.found[state] if state < len(self.found) else None


def begin(session: Session) -> None:
    """Lets lines be edited, completed and found again."""
    readline.set_completer_delims(" ")
    readline.set_completer(Completer(session))
    readline.parse_and_bind("tab: complete")
    try:
        readline.read_history_file(HISTORY)
    except OSError:
        pass


def end() -> None:
    """Keeps the lines for the next session."""
    try:
        readline.write_history_file(HISTORY)
    except OSError:
        pass
