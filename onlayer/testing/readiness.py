# poll, select and epoll of sockets in each phase, but for two where the layer differs by its rules (compare/DIFFERENCES.md:
# poll-of-two-half-closes, reset-before-records).
import os, select, socket, threading
from common import attempt, pair
def shown(s):
    poll = select.poll(); poll.register(s, select.POLLIN | select.POLLOUT | select.POLLRDHUP | select.POLLPRI)
    found = poll.poll(0)
    return "|".join(name for name in ("IN", "OUT", "RDHUP", "HUP", "ERR", "NVAL") if found and found[0][1] & getattr(select, "POLL" + name)) or "-"
for kind in (socket.SOCK_STREAM, socket.SOCK_SEQPACKET):
    a, b = pair(kind)
    print("pair", shown(a)); a.send(b"x"); print("data", shown(b)); b.recv(1); print("read", shown(b))
    a.shutdown(socket.SHUT_WR); print("half closed", shown(a), shown(b))
    a, b = pair(kind); a.close(); print("gone", shown(b))
    a, b = pair(kind); b.send(b"unread"); a.send(b"x"); b.close(); print("gone with data", shown(a))
    if kind == socket.SOCK_STREAM: print(attempt(a.recv, 10), attempt(a.recv, 10), shown(a))
    a, b = pair(kind); a.send(b"unread"); b.close(); print("reset", shown(a), attempt(a.recv, 10), shown(a), attempt(a.recv, 10))
    a, b = pair(kind); a.send(b"unread"); a.shutdown(socket.SHUT_RDWR); print("shut", shown(a)); b.close(); print("reset later", shown(a))
    a, b = pair(kind); a.shutdown(socket.SHUT_RDWR); b.close(); print("shut and gone", shown(a))
    a, b = pair(kind); a.setblocking(False); n = 0
    while attempt(a.send, b"x" * 1000) == 1000: n += 1
    print("full", n > 4, shown(a), shown(b))
    b.setblocking(False)
    while isinstance(attempt(b.recv, 100000), bytes): pass
    print("empty", shown(a), shown(b))
    s = socket.socket(socket.AF_UNIX, kind); name = "listener%d" % kind; s.bind(name); print("bound", shown(s)); s.listen(2); print("listening", shown(s))
    c = socket.socket(socket.AF_UNIX, kind); c.connect(name); print("pending", shown(s), shown(c)); t, _ = s.accept(); print("accepted", shown(s), shown(t))
    s.setblocking(False); print("none", attempt(s.accept))
    c.send(b"kept"); c.close(); print("left", shown(t), t.recv(10), t.recv(10))
a, b = pair(socket.SOCK_DGRAM)
print("datagrams", shown(a)); a.send(b""); print("empty one", shown(b), b.recv(1)); b.close(); print("gone", shown(a), attempt(a.send, b"x"))
edge = select.epoll(); a, b = pair(); edge.register(b, select.EPOLLIN | select.EPOLLET)
a.send(b"1"); print("edge", len(edge.poll(1))); print("no edge", len(edge.poll(0))); a.send(b"2"); print("edge again", len(edge.poll(1)))
print("data", b.recv(10)); a.send(b"3"); print("edge", len(edge.poll(1)))
copy = os.dup(b.fileno()); b.close(); a.send(b"4"); print("a copy keeps it", len(edge.poll(1))); os.close(copy); print("closed", edge.poll(0))
a, b = pair(); threading.Timer(0.2, a.send, [b"x"]).start(); print("select", len(select.select([b], [], [], 5)[0]))
threading.Timer(0.2, a.close).start(); b.recv(1); print("select of the end", len(select.select([b], [], [], 5)[0]), b.recv(1))
