"""Reads the words of a call's arguments as strace(1) writes them: strings, descriptors, structures, lists and flags."""
from __future__ import annotations

import re
from dataclasses import dataclass
from typing import Any


class Unreadable(Exception):
    """A text that isn't what strace writes."""


class OtherForm(Exception):
    """An argument that isn't of the form that those of its call have."""


class Arguments(list):
    """A call's arguments, of which there may be fewer than its call has."""

    def __getitem__(self, place: Any):
        try:
            return super().__getitem__(place)
        except IndexError:
            raise OtherForm(f"no argument {place + 1}") from None


@dataclass(slots=True, frozen=True)
class Text:
    """A string: its bytes, whether strace cut it short, and whether it is an abstract name (written behind an @)."""
    data: bytes
    cut: bool = False
    abstract: bool = False


@dataclass(slots=True, frozen=True)
class Descriptor:
    """A descriptor's number, with what strace's option -yy says that it leads to, or no text."""
    number: int
    note: str = ""


@dataclass(slots=True, frozen=True)
class Change:
    """A value before and after a call, written `before => after`."""
    before: object
    after: object


ESCAPE = re.compile(rb'\\(x[0-9a-fA-F]{1,2}|[0-7]{1,3}|.)', re.S)
LETTERS = {b"n": b"\n", b"t": b"\t", b"r": b"\r", b"v": b"\v", b"f": b"\f"}
NOTE = r'<(?P<note>(?:"(?:[^"\\]|\\.)*"|->|<[^<>]*>|[^<>"])*)>(?:\(deleted\))?'
DEVICE = re.compile(r"<(?:char|block) [^<>]*>$")
BLANK = r"(?:\s|/\*.*?\*/)*"
PLAIN = r"[^\s,\[\]{}()\"=<>|]+"
TOKEN = re.compile(BLANK.replace(r"\s", r"[\s,]") + rf"""(?:
    (?P<end>[\])}}])
    | (?P<noted>(?P<descriptor>-?\d+|AT_FDCWD){NOTE})
    | (?P<number>-?(?:0x[0-9a-fA-F]+|\d+)(?![\w|*.<])(?!\s*<<))
    | (?P<text>(?P<abstract>@?)"(?P<quoted>(?:[^"\\]|\\.)*)"(?P<cut>\.\.\.)?)
    | (?P<more>\.\.\.)
    | (?P<list>~?\[)
    | (?P<structure>{{)
    | (?P<key>[A-Za-z_][\w.]*)=(?!>)
    | (?P<word>{PLAIN}(?:(?:\||\s?<<\s?){PLAIN})*\|?|[^\s,\[\]{{}}()"]+)
    )""", re.S | re.X)
NO_VALUE = re.compile(BLANK + r"(?:[,}\])]|$)", re.S)
ARROW = re.compile(BLANK + "=>", re.S)
BEHIND = frozenset(",)]}")
MOST_NESTED = 40
# That a value is wanted.
WANTED = object()


def unquote(text: str):
    """The bytes of a string between its quotes."""
    raw = text.encode("latin-1")
    return ESCAPE.sub(_escaped, raw) if b"\\" in raw else raw


def _escaped(match: re.Match[bytes]):
    body = match[1]
    if body[:1] == b"x" and len(body) > 1:
        return bytes([int(body[1:], 16)])
    if body[:1] in b"01234567":
        return bytes([int(body, 8) & 255])
    return LETTERS.get(body, body)


class Reader:
    """Reads one list of arguments from its opening bracket to its closing one, token by token."""

    def __init__(self, text: str, at: int = 0) -> None:
        self.text = text
        self.at = at
        self.depth = 0

    def token(self):
        """The next token; blanks, comments and commas are skipped, since commas may be missing, as in the sets of select(2)."""
        found = TOKEN.match(self.text, self.at)
        if not found:
            raise Unreadable(f"'{self.text[self.at:self.at + 20]}' is no word")
        self.at = found.end()
        return found

    def sequence(self, end: str):
        """Values up to a closing bracket."""
        self.depth += 1
        if self.depth > MOST_NESTED:
            raise Unreadable("brackets in too many others")
        values = []
        while (found := self.token()).lastgroup != "end":
            if found.lastgroup != "more":
                values.append(self.value(found))
        if found["end"] != end:
            raise Unreadable(f"{found['end']} for {end}")
        self.depth -= 1
        return values

    def structure(self):
        """The fields of a structure by name; what has no name stands under its place."""
        fields = {}
        for place, value in enumerate(self.sequence("}")):
            if isinstance(value, tuple):
                fields[value[0]] = value[1]
            else:
                fields[place] = value
        return fields

    def value(self, found: re.Match[str]):
        """The value that begins with this token, with the one that it changed to."""
        kind = found.lastgroup or ""
        before = SIMPLE[kind](found) if kind in SIMPLE else self.nested(kind, found)
        if self.text[self.at:self.at + 1] not in BEHIND:
            arrow = ARROW.match(self.text, self.at)
            if arrow:
                self.at = arrow.end()
                return Change(before, self.wanted())
        return before

    def wanted(self):
        """The next value, which has to be there."""
        if NO_VALUE.match(self.text, self.at):
            raise Unreadable("no value")
        return self.value(self.token())

    def nested(self, kind: str, found: re.Match[str]):
        """A value that has others in it; a macro's call, as htons(80), stays a text."""
        if kind == "list":
            return self.sequence("]")
        if kind == "structure":
            return self.structure()
        if kind == "key":
            return (found[kind], None if NO_VALUE.match(self.text, self.at) else self.value(self.token()))
        if self.text.startswith("(", self.at):
            self.at += 1
            return f"{found[kind]}({', '.join(str(value) for value in self.sequence(')'))})"
        return found[kind]


def _string(found: re.Match[str]):
    return Text(unquote(found["quoted"]), bool(found["cut"]), bool(found["abstract"]))


def _noted(found: re.Match[str]):
    number = -100 if found["descriptor"] == "AT_FDCWD" else int(found["descriptor"])
    return Descriptor(number, without_device(found["note"]) + (" (deleted)" if found["noted"].endswith("(deleted)") else ""))


def without_device(note: str):
    """A note without the numbers of a device, which stand behind its path."""
    return DEVICE.sub("", note) if note.endswith(">") else note


def _number(found: re.Match[str]):
    digits = found["number"]
    return int(digits, 16 if "x" in digits else 10)


SIMPLE = {"noted": _noted, "number": _number, "text": _string}


def arguments(text: str):
    """The values between the brackets of a call, of which `text` begins behind the opening one; and what follows."""
    reader = Reader(text)
    values = reader.sequence(")")
    return values, text[reader.at:]


def number_of(value: Any, otherwise: Any = WANTED):
    """The number of a descriptor or of a number, after the call; of what is neither the other value, where one is given."""
    value = after(value)
    if isinstance(value, list) and len(value) == 1:
        value = value[0]
    if isinstance(value, Descriptor):
        return value.number
    if not isinstance(value, int) and otherwise is WANTED:
        raise OtherForm(f"{str(value)[:40]} for a number")
    return value if isinstance(value, int) else otherwise


def fields_of(value: Any):
    """The fields of a structure, after the call."""
    value = after(value)
    if not isinstance(value, dict):
        raise OtherForm(f"{str(value)[:40]} for a structure")
    return value


def list_of(value: Any):
    """The values of a list, after the call; none of what isn't one, as NULL."""
    value = after(value)
    return value if isinstance(value, list) else []


def after(value: Any):
    """A value after the call."""
    while isinstance(value, Change):
        value = value.after
    return value


def room_of(value: Any) -> int:
    """How many bytes a list of buffers has room for."""
    return sum(number_of(one.get("iov_len"), 0) for one in after(value) or [] if isinstance(one, dict))


def shown(data: bytes | str) -> str:
    """Bytes, or a text of a log, as a report shows them: in one line, with ? for what can't be printed."""
    text = data.decode("utf-8", "replace") if isinstance(data, bytes) else data
    return "".join(letter if letter.isprintable() else "?" for letter in text)


def flags_of(value: Any):
    """The names of a value's flags."""
    value = after(value)
    return set(value.split("|")) if isinstance(value, str) else set()
