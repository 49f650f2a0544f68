"""Takes the contents of files, terminals and other families' sockets out of a log while it is written."""
from __future__ import annotations

import re

CARRIES = frozenset("""read pread64 readv preadv preadv2 write pwrite64 writev pwritev pwritev2 recvfrom recvmsg recvmmsg sendto
sendmsg sendmmsg vmsplice ioctl getdents getdents64 msgrcv msgsnd mq_timedreceive mq_timedsend""".split())
NEEDED = re.compile(r"\s*-?\d+<(?:UNIX|pipe:|anon_inode:\[eventfd\]|/memfd:)")
LINE = re.compile(r"((?:\d+\s+)?(?:\d+\.\d+\s+)?)(?:(\w+)\(|<\.\.\. (\w+) resumed>)")
STRING = re.compile(r'"(?:[^"\\]|\\.)*"(?:\.\.\.)?')


class Blanker:
    """Blanks line after line; a call that was cut in two is blanked as it began."""

    def __init__(self) -> None:
        self.secret: dict[str, bool] = {}

    def blank(self, line: str):
        """The line without contents that aren't needed."""
        found = LINE.match(line)
        if not found:
            return line
        thread = found[1].split(" ", 1)[0]
        if found[2]:
            if found[2] not in CARRIES:
                return line
            hidden = not NEEDED.match(line, found.end())
            if "<unfinished ...>" in line[-24:]:
                self.secret[thread] = hidden
        else:
            hidden = self.secret.pop(thread, found[3] in CARRIES) and found[3] in CARRIES
        if not hidden:
            return line
        return line[:found.end()] + STRING.sub('""...', line[found.end():])
