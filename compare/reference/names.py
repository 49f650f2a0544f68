"""Names and addresses: how a script spells them, and which are valid (unix(7))."""
from __future__ import annotations

from dataclasses import dataclass

NAME_LIMIT = 107
AUTOBIND_NAMES = 1 << 20


@dataclass(frozen=True)
class Address:
    """A path or an abstract name, or with the kind `u` the unnamed address."""
    kind: str
    name: bytes = b""

    def __str__(self) -> str:
        return "u" if self.kind == "u" else f"{self.kind}:{spelled(self.name)}"


UNNAMED = Address("u")


def spelled(name: bytes) -> str:
    """The name as a script writes it."""
    return "".join(chr(byte) if 0x20 < byte < 0x7F and byte != 0x25 else f"%{byte:02x}" for byte in name)


def name_in(word: str) -> bytes:
    """The bytes of a name as a script writes it."""
    name, at = bytearray(), 0
    while at < len(word):
        if word[at] == "%":
            name.append(int(word[at + 1:at + 3], 16))
            at += 3
        else:
            name.append(ord(word[at]))
            at += 1
    return bytes(name)


def address_in(word: str) -> Address:
    """The address of a word `u`, `p:NAME` or `a:NAME`."""
    return UNNAMED if word == "u" else Address(word[0], name_in(word[2:]))


def autobind_name(number: int) -> bytes:
    """The name of five digits that autobind gives for a number."""
    return b"%05x" % number


def is_valid_path(name: bytes) -> bool:
    """Whether it has 1 to 107 bytes without NUL."""
    return 0 < len(name) <= NAME_LIMIT and 0 not in name


def is_valid(address: Address) -> bool:
    """Whether a call takes the address; the unnamed one is valid."""
    if address.kind == "p":
        return is_valid_path(address.name)
    return len(address.name) <= NAME_LIMIT
