"""What earlier calls left at a socket or pipe, on which later answers depend here otherwise than on Linux; and until when.

A rule of strace/rules.txt names such marks, so that it holds of what the log shows in that state alone. They follow from the
calls that are said and from the kernel's replies to them."""
from __future__ import annotations

from dataclasses import dataclass, field
from typing import TYPE_CHECKING

from .model import FILLED, MESSAGE_COST, Kind

if TYPE_CHECKING:
    from .model import Description

NO_MARKS: frozenset = frozenset()
NOBODY: frozenset = frozenset(("nobody",))
KEPT: dict[frozenset, frozenset] = {}
LAYER_BACKLOG = 128
# From so many messages that wait a sender may be told EAGAIN, here or on Linux: net.unix.max_dgram_qlen is 10 at first.
MANY_MESSAGES = 10
TIED_KINDS = (Kind.STREAM, Kind.RECORDS)


@dataclass(slots=True)
class Past:
    """What calls left at a socket: SO_PASSCRED on, by a call or from its listener; a name that nobody gave; directions shut down;
    how many datagrams Linux dropped that wait here, and whether what was received meanwhile is what was sent; an error that Linux tells
    first; how its peer went; messages that wait with rights, or from before credentials were asked for; its backlog."""
    passcred: bool = False
    inherits: bool = False
    named_at_once: bool = False
    autobound: bool = False
    shut: set = field(default_factory=set)
    dropped: int = 0
    as_sent: bool = False
    is_reset: bool = False
    lost: str = ""
    rights: int = 0
    unsigned: bool = False
    backlog: int | None = None


def past_of(description: Description):
    """What calls left at a description, where something is to be kept."""
    description.past = description.past or Past()
    return description.past


def marks_of(description: Description | None, seen_by: Description | None = None):
    """The marks of a description, by the words that rules have for them; `seen_by` is the socket whose call leads to it."""
    if description is None:
        return NO_MARKS
    found = set()
    if description.held == 0 and description.was_held and description.flying == 0:
        found.add("gone")
    if seen_by is not None and seen_by.kind is not description.kind:
        found.add("of-another-type")
    past = description.past
    if past is not None:
        found |= own_marks(description, past)
    peer = description.peer
    if has_many(description):
        found.add("has-many")
    if peer is not None and (has_many(peer) or has_sent_much(description)):
        found.add("sends-to-many")
    if description.kind in TIED_KINDS and is_half_closed(past, peer.past if peer is not None else None):
        found.add("half-closed")
    if description.name or past is not None and (past.autobound or past.named_at_once):
        found.add("named")
    if description.kind in TIED_KINDS and description.phase != "listening":
        found.add("not-listening")
    if description.kind is Kind.STREAM and not waits(description):
        found.add("empty")
    return kept(found)


def kept(found: set[str]):
    """Marks, of which a long log has the same over and over: each set is kept once."""
    marks = frozenset(found)
    return KEPT.setdefault(marks, marks)


def marks_of_call(description: Description, other: Description | None, words: str, rights_fly: bool):
    """The marks of a call's socket, and those of the other one that it concerns; `nobody` is at an address that leads to none."""
    mine, theirs = marks_of(description), marks_of(other, description)
    name, _, rest = words.partition(" ")
    if rights_fly and name == "send" and "r:" in rest:
        mine = kept({*mine, "rights-fly"})
    if other is None and name in ("connect", "send") and rest.split(" ", 2)[1][:2] in ("p:", "a:"):
        theirs = NOBODY
    return mine, theirs


def has_many(description: Description) -> bool:
    """Whether so many messages wait at a socket that some system's bound is met; dropped ones wait here still."""
    dropped = description.past.dropped if description.past is not None else 0
    return len(description.messages) + dropped >= MANY_MESSAGES


def has_sent_much(description: Description) -> bool:
    """Whether what a socket sent and nobody has received meets its SO_SNDBUF, which may be as little as 4,608 bytes."""
    waiting = [one.size for one in description.peer.messages if one.sender is description]
    return sum(waiting) + MESSAGE_COST * len(waiting) >= FILLED or bool(waiting) and "SO_SNDBUF" in description.buffers


def own_marks(description: Description, past: Past):
    """The marks that stand in what calls left."""
    told = {
        "passcred": past.passcred, "inherits-passcred": past.inherits, "named-at-once": past.named_at_once,
        "autobound": past.autobound or past.named_at_once, "shut-for-reading": "r" in past.shut, "dropped": past.dropped > 0,
        "as-sent": past.as_sent, "reset": past.is_reset, "lost-unread": past.lost == "unread", "lost-empty": past.lost == "empty",
        "rights-wait": past.rights > 0, "unsigned": past.unsigned,
        "full": past.backlog is not None and len(description.waiting) >= max(1, min(LAYER_BACKLOG, past.backlog)),
    }
    return {mark for mark, is_there in told.items() if is_there}


def is_half_closed(mine: Past | None, theirs: Past | None) -> bool:
    """Whether both directions are shut down, by one end or the other."""
    shut = set(mine.shut) if mine else set()
    shut |= {"w" if way == "r" else "r" for way in theirs.shut} if theirs else set()
    return shut == {"r", "w"}


# ---- what calls leave

def follow(description: Description, other: Description | None, words: str, reply: str) -> None:
    """Keeps what a call left, by its words and the kernel's reply."""
    name = words.split(" ", 1)[0]
    handler = LEAVES.get(name)
    if handler is not None:
        handler(description, other, words.split(" "), reply)
    if description.past is not None and reply in ("err ECONNRESET", "opt 20"):
        description.past.is_reset = False
        description.past.lost = ""


def leave_option(description: Description, other: Description | None, words: list[str], reply: str) -> None:
    if words[2] != "passcred" or reply != "ok":
        return
    past = past_of(description)
    past.passcred, past.inherits = words[3] != "0", False
    if past.passcred:
        past.named_at_once |= not description.name and description.phase in ("idle", "listening")
        past.unsigned |= waits(description)


def leave_name(description: Description, other: Description | None, words: list[str], reply: str) -> None:
    if words[2] == "u" and reply == "ok":
        past_of(description).autobound = True


def leave_listen(description: Description, other: Description | None, words: list[str], reply: str) -> None:
    if reply == "ok":
        past_of(description).backlog = int(words[2])


def leave_shutdown(description: Description, other: Description | None, words: list[str], reply: str) -> None:
    if reply == "ok":
        past_of(description).shut |= set(words[2])


def leave_association(description: Description, other: Description | None, words: list[str], reply: str) -> None:
    """Linux drops what waits at a datagram socket whose target changes, and tells a former target that was associated with it."""
    if reply == "ok" and description.kind is Kind.DATAGRAM and description.peer is not None and other is not description.peer:
        if waits(description) and description.peer.peer is description and not is_gone(description.peer):
            past_of(description.peer).is_reset = True
        drop_queue(description)


def leave_send(description: Description, other: Description | None, words: list[str], reply: str) -> None:
    has_address = words[0] == "send" and words[2] != "-"
    if reply == "err ECONNREFUSED" and description.kind is Kind.DATAGRAM and not has_address:
        drop_queue(description)
    reached = other if has_address else description.peer
    if reply.startswith("n ") and words[0] == "send" and "r:" in words[4] and reached is not None:
        past_of(reached).rights += 1


def leave_receive(description: Description, other: Description | None, words: list[str], reply: str) -> None:
    past = description.past
    is_peek = words[0] == "recv" and "p" in words[4]
    if past is None or is_peek:
        return
    if reply == "err EAGAIN":
        past.dropped = max(0, past.dropped - 1)
        past.unsigned, past.rights = False, 0
    elif not reply.startswith("err "):
        past.rights = max(0, past.rights - ("r:" in reply))
        if description.pending <= 1 and description.kind is not Kind.STREAM:
            past.unsigned = False
    if past.lost == "empty" and description.pending <= 1:
        past.lost = ""


def leave_error(description: Description, other: Description | None, words: list[str], reply: str) -> None:
    if words[2] == "error" and description.past is not None:
        description.past.lost = ""


LEAVES = {"setopt": leave_option, "bind": leave_name, "listen": leave_listen, "shut": leave_shutdown, "connect": leave_association,
          "send": leave_send, "write": leave_send, "recv": leave_receive, "read": leave_receive, "getopt": leave_error}


def waits(description: Description) -> bool:
    """Whether something waits to be received, as far as the log tells."""
    if description.kind is Kind.STREAM:
        return description.peer is not None and bool(description.peer.unread)
    return description.pending > 0


def compare(description: Description, data: bytes, room: int, by_length: bool) -> None:
    """Keeps whether what a socket receives, of which Linux dropped datagrams that wait here, is what was sent to it since."""
    if description.past is not None and description.past.dropped:
        sent = description.messages[0].data[:room] if description.messages else None
        description.past.as_sent = sent is not None and (len(sent) == len(data) if by_length else sent == data)


def drop_queue(description: Description) -> None:
    """All that waits is lost on Linux, and stays here."""
    if waits(description):
        past_of(description).dropped += description.pending
        description.pending = 0
        description.messages.clear()


def inherit(made: Description, listener: Description) -> None:
    """A server's end has its listener's SO_PASSCRED on Linux."""
    if listener.past is not None and (listener.past.passcred or listener.past.inherits):
        past_of(made).inherits = True


# ---- how a description goes

def is_gone(description: Description):
    return description.held == 0 and description.was_held and description.flying == 0


def released(description: Description) -> None:
    """One descriptor of it less; with the last one its peer is told."""
    description.held -= 1
    if not is_gone(description) or description.kind not in TIED_KINDS:
        return
    for client in description.waiting:
        past_of(client).lost = "unread"
    peer = description.peer
    if peer is not None and waits(description):
        empty = description.kind is Kind.RECORDS and description.pending == 1 and peer.unread[-1:] == [0]
        past_of(peer).lost = "empty" if empty else "unread"
