"""Names of sockets and files: a log's paths and abstract names become a script's, whatever folder they were given in."""
from __future__ import annotations

import posixpath
from typing import Any

LONGEST = 107


def spell(data: bytes) -> str:
    """Bytes as a script writes a name."""
    return "".join(chr(byte) if 0x21 <= byte <= 0x7e and byte != 0x25 else f"%{byte:02x}" for byte in data)


class Names:
    """Which path of the log is which path of the script. A renamed path keeps its name in the script: an alias."""

    def __init__(self) -> None:
        self.aliases: dict[bytes, str] = {}
        self.given: dict[bytes, str] = {}
        self.used: set[str] = set()
        self.bound: dict[str, Any] = {}
        self.files: list[str] = []
        self.created: set[str] = set()
        self.automatic: dict[str, str] = {}

    def canonical(self, folder: str, path: bytes):
        """A path from the root, without dots; links aren't followed, since a log doesn't show them."""
        return posixpath.normpath(posixpath.join(folder.encode("latin-1"), path))

    def word_of_path(self, folder: str, path: bytes):
        """The script's word for a path, which is made where it has none."""
        whole = self.canonical(folder, path)
        if whole not in self.aliases:
            self.aliases[whole] = self.fresh(whole)
        return self.aliases[whole]

    def fresh(self, whole: bytes):
        wanted = whole if len(whole) <= LONGEST else b"~/" + posixpath.basename(whole)[-80:]
        word, count = "p:" + spell(wanted), 1
        while word in self.used:
            count += 1
            word = f"p:{spell(wanted[-80:])}~{count}"
        self.used.add(word)
        return word

    def known(self, folder: str, path: bytes):
        """The word of a path that a socket was bound to, or at which a file was created, and that is still there, or None."""
        word = self.aliases.get(self.canonical(folder, path))
        return word if word in self.bound else None

    def bind(self, folder: str, path: bytes, description: Any, given: bytes):
        """The word of a path that a socket is bound to; `given` is how the call spelled it, which is what is told of it."""
        word = self.word_of_path(folder, path)
        self.given[given] = word
        self.bound[word] = description
        return word

    def create(self, folder: str, path: bytes):
        """The word of a path at which a file was created."""
        word = self.word_of_path(folder, path)
        self.bound[word] = None
        self.created.add(word)
        return word

    def unlink(self, folder: str, path: bytes):
        """The word to unlink, or None where nothing is known at the path or another path leads to it still."""
        whole = self.canonical(folder, path)
        word = self.aliases.get(whole)
        if word not in self.bound:
            return None
        del self.aliases[whole]
        if word in self.aliases.values():
            return None
        del self.bound[word]
        self.used.discard(word)
        self.created.discard(word)
        return word

    def rename(self, old_folder: str, old: bytes, new_folder: str, new: bytes):
        """Moves a path; the answer is the word of what is known to have been at the new one, or None."""
        source, target = self.canonical(old_folder, old), self.canonical(new_folder, new)
        if source == target:
            return None
        word = self.aliases.get(source)
        over = self.unlink(new_folder, new)
        if word in self.bound:
            del self.aliases[source]
            self.aliases[target] = word
        return over

    def link(self, old_folder: str, old: bytes, new_folder: str, new: bytes) -> bool:
        """A further path for a socket or a file; the answer is whether one is known."""
        word = self.known(old_folder, old)
        if word:
            self.aliases[self.canonical(new_folder, new)] = word
        return word is not None

    def beginning_with(self, data: bytes, abstract: bool):
        """The one name that begins with the bytes of an address that was cut, or ? where there are several; none is a difference."""
        if abstract:
            beginning = "a:" + spell(data)
            found = {word for word in self.bound if word.startswith(beginning)}
        else:
            beginning = "p:" + spell(data)
            found = {word for path, word in self.given.items() if path.startswith(data)}
        return found.pop() if len(found) == 1 else "?" if found else beginning

    def told(self, folder: str, path: bytes):
        """The word of a path as a reply tells it: as it was given at its bind."""
        return self.given.get(path) or self.word_of_path(folder, path)
