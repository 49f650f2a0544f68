# Open files in messages: of files, pipes and sockets; cut, peeked at, marked, kept in flight.
import array, fcntl, os, socket
from common import attempt, pair
def count(): return len(os.listdir("/proc/self/fd"))
a, b = pair(); start = count()
fd = os.open("/etc/hostname", os.O_RDONLY); os.read(fd, 1); socket.send_fds(a, [b"f"], [fd]); os.close(fd)
data, fds, flags, _ = socket.recv_fds(b, 10, 4); print("file", data, len(fds), flags, os.lseek(fds[0], 0, os.SEEK_CUR)); os.close(fds[0])
r, w = os.pipe(); socket.send_fds(a, [b"p"], [w, w]); os.close(w); _, fds, _, _ = socket.recv_fds(b, 10, 4)
print("pipe", [os.write(one, b"x") for one in fds], [os.close(one) for one in fds], os.read(r, 10), os.read(r, 10)); os.close(r)
x, y = pair(); socket.send_fds(a, [b"s"], [y.fileno()]); y.close(); x.send(b"before"); _, fds, _, _ = socket.recv_fds(b, 10, 1)
y = socket.socket(fileno=fds[0]); print("socket", y.recv(10), y.send(b"back"), x.recv(10)); x.close(); print("end", y.recv(10)); y.close()
socket.send_fds(a, [b"c"], [0, 1, 2, 0]); data, fds, flags, _ = socket.recv_fds(b, 10, 2); print("cut", len(fds), flags & socket.MSG_CTRUNC != 0); [os.close(f) for f in fds]
socket.send_fds(a, [b"d"], [0]); print("plain receive", b.recv(10), count() == start)
socket.send_fds(a, [b"e"], [0]); _, items, _, _ = b.recvmsg(10, socket.CMSG_SPACE(4), socket.MSG_PEEK); _, more, _, _ = socket.recv_fds(b, 10, 1); print("peek", len(items), len(more)); [os.close(f) for f in array.array("i", items[0][2]).tolist() + more]
socket.send_fds(a, [b"g"], [0]); data, items, flags, _ = b.recvmsg(10, socket.CMSG_SPACE(4), socket.MSG_CMSG_CLOEXEC); fd = array.array("i", items[0][2])[0]
print("marked", fcntl.fcntl(fd, fcntl.F_GETFD), flags & socket.MSG_CMSG_CLOEXEC != 0); os.close(fd)
print("bad", attempt(socket.send_fds, a, [b"h"], [99])); a.send(b"1"); socket.send_fds(a, [b"2"], [0]); a.send(b"3")
print("barrier", socket.recv_fds(b, 10, 1)[0], b.recv(10))
x, y = pair(); r, w = os.pipe(); socket.send_fds(x, [b"k"], [w]); os.close(w); y.close(); print("in flight, then gone", os.read(r, 10)); x.close(); os.close(r)
x, y = pair(); r, w = os.pipe(); socket.send_fds(x, [b"k"], [w]); os.close(w); socket.send_fds(a, [b"n"], [y.fileno()]); y.close(); x.close()
_, fds, _, _ = socket.recv_fds(b, 10, 1); y = socket.socket(fileno=fds[0]); _, fds, _, _ = socket.recv_fds(y, 10, 1); print("nested", os.write(fds[0], b"n"), os.read(r, 5)); os.close(fds[0]); y.close(); os.close(r)
b.setsockopt(socket.SOL_SOCKET, socket.SO_PASSCRED, 1); a.send(b"c"); data, items, flags, _ = b.recvmsg(10, 100)
print("credentials", len(items), array.array("i", items[0][2]).tolist() == [os.getpid(), os.getuid(), os.getgid()])
for kind in (socket.SOCK_DGRAM, socket.SOCK_SEQPACKET):
    x, y = pair(kind); socket.send_fds(x, [b""], [0, 1]); data, fds, flags, _ = socket.recv_fds(y, 10, 4); print("no bytes", data, len(fds)); [os.close(f) for f in fds]
    x.close(); y.close()
del data, items; print("all closed", count() - start)
