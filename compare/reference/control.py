"""Control buffers: what their bytes say, by the layer's grammar and by Linux's walk (cmsg(3), __scm_send of Linux)."""
from __future__ import annotations

import struct
from dataclasses import dataclass, field

HEAD = 16
SOL_SOCKET, SCM_RIGHTS, SCM_CREDENTIALS = 1, 1, 2
CREDENTIALS_LENGTH, CREDENTIALS_SPACE = 28, 32
RIGHTS_LIMIT = 253


@dataclass
class Item:
    """Rights or credentials; an item that isn't understood has the error that a send answers."""
    rights: list[int] = field(default_factory=list)
    credentials: tuple[int, int, int] | None = None
    error: str = ""


def aligned(length: int) -> int:
    """The length up to where a next item stands."""
    return (length + 7) // 8 * 8


def item_bytes(kind: int, data: bytes) -> bytes:
    """An item without padding."""
    return struct.pack("<QII", HEAD + len(data), SOL_SOCKET, kind) + data


def buffer_in(word: str) -> bytes:
    """The control bytes of a script's word."""
    if word == "-":
        return b""
    if word.startswith("x:"):
        return bytes.fromhex(word[2:])
    buffer = b""
    for part in word.split("+"):
        numbers = [int(number) for number in part[2:].split(",")]
        kind = SCM_RIGHTS if part[0] == "r" else SCM_CREDENTIALS
        buffer = buffer.ljust(aligned(len(buffer)), b"\0") + item_bytes(kind, struct.pack(f"<{len(numbers)}I", *numbers))
    return buffer


def item_of(kind: int, data: bytes) -> Item | None:
    """The item with this type and data, by the layer's grammar."""
    if kind == SCM_RIGHTS and len(data) % 4 == 0:
        return Item(rights=list(struct.unpack(f"<{len(data) // 4}I", data)))
    if kind == SCM_CREDENTIALS and len(data) == 12:
        return Item(credentials=struct.unpack("<III", data))
    return None


def items_by_grammar(buffer: bytes) -> list[Item] | None:
    """The items that the buffer is a list of, one of each type at most; or None where it is no such list."""
    items, kinds = [], set()
    while buffer:
        if len(buffer) < HEAD:
            return None
        length, level, kind = struct.unpack("<QII", buffer[:HEAD])
        item = item_of(kind, buffer[HEAD:length]) if level == SOL_SOCKET and HEAD <= length <= len(buffer) else None
        if item is None or kind in kinds:
            return None
        kinds.add(kind)
        items.append(item)
        buffer = buffer[aligned(length):]
    return items


def linux_item(kind: int, data: bytes) -> Item:
    """The item with this type and data, as Linux takes it."""
    if kind == SCM_RIGHTS:
        count = len(data) // 4
        return Item(rights=list(struct.unpack(f"<{count}I", data[:4 * count])))
    if kind == SCM_CREDENTIALS and len(data) == 12:
        return Item(credentials=struct.unpack("<III", data))
    return Item(error="EINVAL")


def is_read_alike(buffer: bytes) -> bool:
    """Whether Linux finds what cmsg(3) describes: items that it knows, of each type one, and nothing but padding behind them."""
    kinds, at = [], 0
    while at < len(buffer):
        if at + HEAD > len(buffer):
            return False
        length, level, kind = struct.unpack("<QII", buffer[at:at + HEAD])
        is_known = (kind == SCM_RIGHTS and length % 4 == 0) or (kind == SCM_CREDENTIALS and length == CREDENTIALS_LENGTH)
        if level != SOL_SOCKET or not is_known or kind in kinds or not HEAD <= length <= len(buffer) - at:
            return False
        kinds.append(kind)
        at += aligned(length)
    return True


def items_by_linux(buffer: bytes) -> list[Item]:
    """The items that Linux finds; the walk ends with an item that has an error, or where no head fits any more."""
    items, at = [], 0
    while at + HEAD <= len(buffer):
        length, level, kind = struct.unpack("<QII", buffer[at:at + HEAD])
        if not HEAD <= length <= len(buffer) - at:
            return items + [Item(error="EINVAL")]
        if level == SOL_SOCKET:
            items.append(linux_item(kind, buffer[at + HEAD:at + length]))
            if items[-1].error:
                return items
        at += aligned(length)
    return items
