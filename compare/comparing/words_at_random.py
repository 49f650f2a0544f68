"""Arguments of random calls: names, bytes, flags and control buffers."""
from __future__ import annotations

import struct
from random import Random

from reference.control import HEAD, SCM_CREDENTIALS, SCM_RIGHTS, SOL_SOCKET, aligned
from reference.state import Process
from reference.users import NO_ID

PATHS = ["p:a", "p:b", "p:c", "p:d"]
ABSTRACT = ["a:x", "a:y", "a:z", "a:00000", "a:00001", "a:"]
OBJECT_PATHS = ["p:f", "p:g", "p:h"]
LONGEST = 1900
# Around where a message or a pipe's bytes take one page more, and where the layer takes no more.
LONG_LENGTHS = [2000, 3776, 3777, 4095, 4096, 4097, 5000, 7872, 7873, 10000, 16064, 16065, 30000, 36544, 36545, 40000, 57344, 57345,
                60000, 61440, 61441, 65535, 65536, 65537]


def odd_name(random: Random) -> str:
    """A name at or beyond a limit, or with bytes that names seldom have."""
    length = random.choice([90, 106, 107, 108, 109, 255, 256])
    return random.choice(["p:", "p:a%00b", "p:.", "p:..", "p:/", "p:d/s", "p:a%01", "p:%02",
                          "a:%00", "a:%00%00x", "a:fffff", "p:" + "l" * length, "a:" + "l" * length])


def any_name(random: Random) -> str:
    """A name that may lead to anything."""
    if random.random() < 0.08:
        return odd_name(random)
    return random.choice([*PATHS, *ABSTRACT, *OBJECT_PATHS, "u", "p:nothing", "a:nobody"])


def path(random: Random) -> str:
    """A path at which there may be anything."""
    found = any_name(random)
    return found if found.startswith("p:") else random.choice([*PATHS, *OBJECT_PATHS])


def open_flags(random: Random) -> str:
    """OFLAGS."""
    return random.choice(["-", "-", "-", "-", "x", "x", "n", "a", "nx", "ax", "an", "anx"])


def counter_flags(random: Random) -> str:
    """EFLAGS: those of OFLAGS, and in one of three a semaphore's."""
    flags = open_flags(random)
    return f"{flags.strip('-')}s" if random.random() < 0.33 else flags


def send_flags(random: Random) -> str:
    """MFLAGS of a send, mostly none."""
    return random.choice(["-"] * 30 + ["d", "d", "d", "p", "t", "x", "dpt"])


def receive_flags(random: Random) -> str:
    """MFLAGS of a receive."""
    return random.choice(["-"] * 8 + ["d", "p", "p", "p", "t", "x", "dp", "pt", "px", "dptx"])


def space(random: Random) -> int:
    """Control space: none, around the ends of items, or much."""
    return random.choice([0, 0, 15, 16, 17, 19, 20, 22, 24, 27, 28, 31, 32, 48, 51, 52, 64, 64, 64, 64, 256, 1044, 4096, 4294967295])


def data(random: Random) -> str:
    """Bytes of a message or a write, seldom many."""
    length = random.choice([0, 0, 1, 1, 2, 3, 4, 7, 8, 9, 16, 40, 64])
    if random.random() < 0.06:
        length = random.choice([192, 193, 512, 704, 705, 1000, 1728, 1729, LONGEST])
    return bytes(random.randrange(97, 103) for _ in range(length)).hex() or "-"


def counter_data(random: Random) -> str:
    """Bytes of a write to a counter."""
    value = random.choice([0, 1, 2, 5, (1 << 63), (1 << 64) - 3, (1 << 64) - 2, (1 << 64) - 1])
    return value.to_bytes(8, "little").hex() + random.choice(["", "", "", "", "00"])


def wanted(random: Random) -> int:
    """Bytes that a read or receive asks for."""
    return random.choice([0, 0, 1, 1, 2, 3, 4, 7, 8, 8, 16, 64, 64, 64, 64, 4096, 36544, 65536, 1048577, 4294967295])


def number(random: Random, process: Process) -> int:
    """A descriptor's number: mostly one that is open."""
    if process.table and random.random() < 0.93:
        return random.choice(list(process.table))
    return random.choice([0, 1, 2, 3, process.limit - 1, process.limit, process.limit + 1, 4095, 4096, 4294967295])


def polled(random: Random, process: Process) -> str:
    """FDS of a poll: one to four descriptors, seldom none, as many as may be, or one more; each mostly asked for something."""
    count = random.choice([1, 2, 2, 2, 3, 3, 4])
    if random.random() < 0.08:
        count = random.choice([0, 64, 65])
    events = ["ioh", "ioh", "ioh", "i", "i", "i", "o", "o", "io", "ih", "oh", "h", "-"]
    return ",".join(f"{number(random, process)}:{random.choice(events)}" for _ in range(count)) or "-"


def rights(random: Random, process: Process) -> list[int]:
    """Descriptors of one message: few, or as many as may be, or one more."""
    count = random.choice([1, 1, 1, 1, 2, 2, 3, 5])
    if random.random() < 0.03:
        count = random.choice([100, 252, 253, 254])
        return [number(random, process)] * count
    return [number(random, process) for _ in range(count)]


def credentials(random: Random, process: Process, processes: list[Process]) -> tuple[int, int, int]:
    """Credentials: mostly the sender's own."""
    if random.random() < 0.7:
        return process.credentials
    other = random.choice(processes)
    return random.choice([other.credentials, (process.number, process.uid + 1, process.gid), (99, process.uid, process.gid),
                          (process.number, process.uid, 4294967295)])


def ids(random: Random, process: Process, processes: list[Process]) -> tuple[int, int]:
    """A user and a group: the process's own, another's, user 0, others, or none."""
    uid, gid = process.uid, process.gid
    other = random.choice(processes)
    return random.choice([(uid, gid), (0, gid), (1000, 1000), (1001, 100), (2000, gid), (uid, 101), (other.uid, other.gid), (other.uid, gid),
                          (other.uid, other.gid), (NO_ID, gid), (uid, NO_ID), random.choice([(NO_ID, NO_ID), (1001, NO_ID), (NO_ID, 101)])])


def plain_item(random: Random, process: Process, processes: list[Process]) -> bytes:
    """An item of a plain buffer, often with something wrong."""
    kind = random.choice([SCM_RIGHTS, SCM_RIGHTS, SCM_CREDENTIALS, 3])
    body = struct.pack("<III", *credentials(random, process, processes)) if kind == SCM_CREDENTIALS else \
        b"".join(struct.pack("<I", number(random, process)) for _ in range(random.randrange(3)))
    if random.random() < 0.2:
        body = body[:random.randrange(len(body) + 1)]
    length = max(0, HEAD + len(body) + random.choice([0] * 8 + [-1, 1, -8, 8]))
    level = random.choice([SOL_SOCKET] * 6 + [0, 41])
    return struct.pack("<QII", length, level, kind) + body


def plain_buffer(random: Random, process: Process, processes: list[Process]) -> str:
    """A plain control buffer of items, which may be cut."""
    buffer = b""
    for _ in range(random.choice([1, 1, 2, 3])):
        buffer = buffer.ljust(aligned(len(buffer)), b"\0") + plain_item(random, process, processes)
    if random.random() < 0.2:
        buffer = buffer[:random.randrange(1, len(buffer) + 1)]
    return "x:" + buffer.hex()


def control(random: Random, process: Process, processes: list[Process]) -> str:
    """A control buffer of a send, mostly none."""
    choice = random.random()
    if choice < 0.62:
        return "-"
    if choice < 0.70:
        return plain_buffer(random, process, processes)
    listed = "r:" + ",".join(map(str, rights(random, process)))
    own = "c:{},{},{}".format(*credentials(random, process, processes))
    return listed if choice < 0.88 else own if choice < 0.94 else random.choice([f"{listed}+{own}", f"{own}+{listed}"])
