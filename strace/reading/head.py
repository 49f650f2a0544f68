"""What record writes at the head of a log: folder, user, limit, and the descriptors that the program was given."""
from __future__ import annotations

from dataclasses import dataclass, field
from urllib.parse import quote, unquote


@dataclass
class Inherited:
    """A descriptor that was open when the first program began: its number, whether it is non-blocking, where it leads."""
    number: int
    nonblocking: bool
    target: str


@dataclass
class Head:
    """The head of a log; of a log that record didn't write nothing is known."""
    recorded: bool = False
    folder: str = "/"
    user: int | None = None
    group: int | None = None
    inherited: list = field(default_factory=list)

    def add(self, text: str) -> None:
        """One line that begins with #; others than record's are skipped."""
        parts = text[1:].split()
        try:
            if parts[:1] == ["recorded"]:
                self.recorded = True
            elif parts[:1] == ["folder"]:
                self.folder = unquote(parts[1])
            elif parts[:1] == ["user"]:
                self.user, self.group = int(parts[1]), int(parts[2])
            elif parts[:1] == ["inherited"]:
                self.inherited.append(Inherited(int(parts[1]), parts[2] == "n", unquote(parts[3])))
        except (IndexError, ValueError):
            return

    def lines(self):
        """The lines of this head."""
        yield "# recorded 1"
        yield f"# folder {quote(self.folder)}"
        yield f"# user {self.user} {self.group}"
        for one in self.inherited:
            yield f"# inherited {one.number} {'n' if one.nonblocking else '-'} {quote(one.target)}"
