"""The users as whom a run's processes act: fresh ones for the superuser, so that nothing counts against them before."""
from __future__ import annotations

import os
import pwd
import random
import time
from pathlib import Path

from .programs import Programs, Trouble, complain

LEAST, MOST = 500_000_000, 2_000_000_000
TRIES = 50
LOOKS, PAUSE = 10, 0.1
USERS_OF_A_RUN = 64


def mapped_ranges() -> list[range]:
    """The numbers that this name space of users has."""
    try:
        rows = Path("/proc/self/uid_map").read_text().splitlines()
    except OSError:
        return [range(1, 1 << 32)]
    return [range(int(row.split()[0]), int(row.split()[0]) + int(row.split()[2])) for row in rows]


def users_of_processes() -> set[int]:
    """The users that have a process."""
    found = set()
    for status in Path("/proc").glob("[0-9]*/status"):
        try:
            rows = status.read_text().splitlines()
        except OSError:
            continue
        found |= {int(number) for row in rows if row.startswith("Uid:") for number in row.split()[1:]}
    return found


def is_known(user: int) -> bool:
    """Whether the system has a name for the user."""
    try:
        pwd.getpwuid(user)
    except KeyError:
        return False
    return True


def choose(count: int) -> list[int]:
    """For each of so many runs the first of users in a row that nobody is and no process has; an ordinary user is itself."""
    if os.geteuid() != 0:
        return [0]
    ranges, taken = mapped_ranges(), users_of_processes()
    for _ in range(TRIES):
        whole = max(ranges, key=len)
        wide = count * USERS_OF_A_RUN
        least = random.randrange(max(whole.start + 1, min(LEAST, whole.stop - wide - 1)), min(MOST, whole.stop - wide))
        wanted = range(least, least + wide)
        if not any(user in taken or is_known(user) for user in wanted):
            return list(wanted)[::USERS_OF_A_RUN]
    raise Trouble("no user number is free: run the comparison as an ordinary user")


def user_words(user: int) -> list[str]:
    """The words by which the replay is told its user."""
    return ["--user", str(user)] if user else []


def look_before(programs: Programs, replay: Path, users: list[int]) -> set[int]:
    """Says which users have rights in flight already, which count against their limit (unix(7), ETOOMANYREFS)."""
    found = {user for user in users if has_rights_in_flight(programs, replay, user)}
    if found:
        complain("this user has rights in flight, which count against its limit: limit-of-rights-in-flight may differ; "
                 "end the programs that pass descriptors, or run this as the superuser")
    return found


def has_rights_in_flight(programs: Programs, replay: Path, user: int) -> bool:
    """Whether a user has some, and keeps them for a while."""
    for _ in range(LOOKS):
        status, output, errors = programs.run([str(replay), *user_words(user), "--in-flight"])
        if status != 0:
            raise Trouble(f"the replay can't look at its user: {errors.strip()}")
        if output.strip() == "0":
            return False
        time.sleep(PAUSE)
    return True


def look_after(programs: Programs, replay: Path, users: list[int], had_some: set[int]) -> list[str]:
    """What is left of the run: rights in flight that weren't there before, or processes of a user that nobody else has."""
    left = []
    for user in users:
        if user not in had_some and has_rights_in_flight(programs, replay, user):
            left.append(f"rights of the user {user or os.geteuid()}, or of those behind it, are in flight")
    if users != [0]:
        wanted = {user + place for user in users for place in range(USERS_OF_A_RUN)}
        left += [f"a process of the user {user} is left" for user in sorted(users_of_processes() & wanted)]
    return left
