# Options of sockets, and what waits in them.
import array, fcntl, os, socket, struct, termios
from common import attempt, pair
def waits(s):
    n = array.array("i", [77]); fcntl.ioctl(s, termios.FIONREAD, n); return n[0]
a, b = pair()
print("nothing waits", waits(b)); a.send(b"12345"); a.send(b"678"); print("waits", waits(b)); b.recv(2); print("waits", waits(b))
d, e = pair(socket.SOCK_DGRAM); d.send(b"12345"); d.send(b"678"); print("first datagram", waits(e)); e.recv(2); print("next", waits(e))
for name in ("SO_SNDBUF", "SO_RCVBUF"):
    option = getattr(socket, name)
    print(name, a.getsockopt(socket.SOL_SOCKET, option))
    for value in (1, 5000, 100000, 10**9):
        a.setsockopt(socket.SOL_SOCKET, option, value); print(name, value, a.getsockopt(socket.SOL_SOCKET, option))
for name in ("SO_TYPE", "SO_ERROR", "SO_ACCEPTCONN", "SO_PASSCRED", "SO_DOMAIN", "SO_PROTOCOL", "SO_REUSEADDR", "SO_KEEPALIVE", "SO_BROADCAST"):
    print(name, attempt(a.getsockopt, socket.SOL_SOCKET, getattr(socket, name)))
a.setsockopt(socket.SOL_SOCKET, socket.SO_REUSEADDR, 1); print("set", a.getsockopt(socket.SOL_SOCKET, socket.SO_REUSEADDR))
print("level", attempt(a.getsockopt, socket.IPPROTO_TCP, 1), attempt(a.setsockopt, socket.IPPROTO_TCP, 1, 1))
print("none", attempt(a.getsockopt, socket.SOL_SOCKET, 12345))
pid, uid, gid = struct.unpack("3i", a.getsockopt(socket.SOL_SOCKET, socket.SO_PEERCRED, 12))
print("peer", pid == os.getpid(), uid == os.getuid(), gid == os.getgid())
groups = a.getsockopt(socket.SOL_SOCKET, 59, 1024)
print("groups", sorted(struct.unpack(f"{len(groups) // 4}I", groups)) == sorted(os.getgroups()))
pidfd = struct.unpack("i", a.getsockopt(socket.SOL_SOCKET, 77, 4))[0]
print("pidfd", open(f"/proc/self/fdinfo/{pidfd}").read().split("Pid:")[1].split()[0] == str(os.getpid()))
s = socket.socket(socket.AF_UNIX)
print("idle", attempt(s.getsockopt, socket.SOL_SOCKET, 59, 64), struct.unpack("3i", s.getsockopt(socket.SOL_SOCKET, socket.SO_PEERCRED, 12)))
s.settimeout(0.25); print("timeouts", s.gettimeout(), s.getblocking()); s.setblocking(True); print(s.getblocking())
a.setsockopt(socket.SOL_SOCKET, socket.SO_RCVTIMEO, struct.pack("ll", 0, 100000)); print("time limit", attempt(a.recv, 1))
