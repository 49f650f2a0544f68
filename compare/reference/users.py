"""setids: who a process runs as (setresuid(2), setresgid(2), capabilities(7))."""
from __future__ import annotations

from .kernel import Kernel
from .state import Process, Refusal

NO_ID = 4294967295


def may_become(process: Process, uid: int, gid: int) -> bool:
    """Whether the process may have these ids: any where it is privileged, else its own."""
    return process.privileged or (uid, gid) == (process.uid, process.gid)


def drops_privileges(process: Process, uid: int) -> bool:
    """Whether user 0 becomes another, which takes all capabilities away."""
    return process.uid == 0 and uid != 0


def call_setids(kernel: Kernel, process: Process, words: list[str]) -> str:
    """setresgid(2) and setresuid(2) as one, of real, effective and saved ids that are all the same."""
    uid, gid = int(words[1]), int(words[2])
    if NO_ID in (uid, gid):
        raise Refusal("EINVAL")
    if not may_become(process, uid, gid):
        raise Refusal("EPERM")
    if drops_privileges(process, uid):
        process.privileged = False
    process.uid, process.gid = uid, gid
    return "ok"
