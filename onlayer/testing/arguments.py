# Arguments that Linux refuses or takes in a way of its own: addresses of two bytes, flags, lengths, offsets.
import ctypes, fcntl, os, socket, struct, termios, threading, time
from common import attempt, call, pair
UNSPEC, UNIX = struct.pack("H", 0), struct.pack("H", socket.AF_UNIX)
def own(kind=socket.SOCK_STREAM): return socket.socket(socket.AF_UNIX, kind)
for what, name in (("no family", UNSPEC), ("no family, longer", UNSPEC + b"x"), ("two bytes", UNIX), ("another family", struct.pack("H", 2) + b"x"), ("a byte", b"x")):
    a, b, d = own(), own(socket.SOCK_SEQPACKET), own(socket.SOCK_DGRAM)
    print(what, call("bind", a.fileno(), name, len(name)), len(a.getsockname()), [call("connect", s.fileno(), name, len(name)) for s in (a, b, d)])
x, y = pair(socket.SOCK_DGRAM); print("an end of two bytes", call("connect", x.fileno(), UNIX, 2), attempt(x.send, b"x"), call("connect", x.fileno(), UNSPEC, 2), attempt(x.getpeername))
s = own(); s.bind("s"); s.listen(3); c = own(); c.connect("s"); s.setblocking(False)
print("accept4", call("accept4", s.fileno(), None, None, 1), call("accept4", s.fileno(), None, None, 0x80800) > 2, call("accept4", s.fileno(), None, None, 0))
a, b = pair(); r, w = os.pipe(); n = os.dup(b.fileno())
print("dup3", call("dup3", r, n, 5), attempt(a.send, b"x"), attempt(os.read, n, 5), call("dup3", 99, n, 0), attempt(os.fstat, n) != "Bad file descriptor")
def splice(*arguments): return call("splice", *arguments)
offset = ctypes.c_longlong(0); at = ctypes.byref(offset); file = os.open("plain", os.O_RDWR | os.O_CREAT); os.write(file, b"plain"); a.send(b"12345")
print("splice", splice(a.fileno(), None, b.fileno(), None, 5, 0), splice(file, None, a.fileno(), None, 5, 0), splice(b.fileno(), None, file, None, 5, 0), splice(b.fileno(), None, w, None, 0, 0))
print("of flags", splice(b.fileno(), None, w, None, 5, 64), "of offsets", splice(b.fileno(), at, w, None, 5, 0), splice(b.fileno(), None, w, at, 5, 0), splice(r, at, a.fileno(), None, 5, 0), splice(r, None, a.fileno(), at, 5, 0))
print("none is lost", b.recv(10)); wrong = os.open("plain", os.O_WRONLY)
print("sendfile", attempt(os.sendfile, a.fileno(), wrong, 0, 5), attempt(os.sendfile, a.fileno(), r, None, 5), attempt(os.sendfile, a.fileno(), file, -1, 5), attempt(os.sendfile, a.fileno(), file, 0, 0))
class Part(ctypes.Structure): _fields_ = [("base", ctypes.c_void_p), ("length", ctypes.c_ssize_t)]
memory = ctypes.create_string_buffer(b"abc", 3); base = ctypes.cast(memory, ctypes.c_void_p).value
def vector(*lengths): return (Part * len(lengths))(*[Part(base, length) for length in lengths])
print("vectors", call("writev", a.fileno(), vector(1, -1), 2), call("writev", a.fileno(), vector(1, 2), 2), call("readv", b.fileno(), vector(1, -5), 2), call("readv", b.fileno(), vector(2, 1), 2), call("writev", a.fileno(), vector(), 0), call("writev", a.fileno(), vector(1), 1025))
x, y = pair(socket.SOCK_DGRAM); print("none at all", call("writev", x.fileno(), vector(0, 0), 2), attempt(y.recv, 9, socket.MSG_DONTWAIT), call("write", x.fileno(), memory, 0), call("readv", y.fileno(), vector(0), 1), y.recv(9))
def moved(name, s, flags): return call(name, s.fileno(), vector(2), 1, ctypes.c_longlong(-1), flags)
print("not to wait", moved("preadv2", y, 8), moved("pwritev2", x, 8), moved("preadv2", y, 8), moved("preadv2", b, 8), call("preadv2", b.fileno(), vector(2), 1, ctypes.c_longlong(0), 0))
print("no memory there", call("write", a.fileno(), ctypes.c_void_p(8), 3), call("read", b.fileno(), ctypes.c_void_p(8), 0))
level = socket.SOL_SOCKET
print("lengths", [call("setsockopt", a.fileno(), level, option, memory, 3) for option in (socket.SO_PASSCRED, socket.SO_SNDBUF, socket.SO_KEEPALIVE, socket.SO_RCVLOWAT)])
for name in ("SO_SNDBUF", "SO_RCVBUF"):
    option = getattr(socket, name); a.setsockopt(level, option, -1); print(name, a.getsockopt(level, option))
print("SO_PEERNAME", attempt(c.getsockopt, level, 28, 4), attempt(c.getsockopt, level, 28, 2), attempt(c.getsockopt, level, 28, 9), attempt(own().getsockopt, level, 28, 2))
print("off", attempt(a.setsockopt, level, 42, -1), attempt(a.setsockopt, level, 76, 0), attempt(a.setsockopt, level, socket.SO_TIMESTAMP if hasattr(socket, "SO_TIMESTAMP") else 29, 0))
b.setsockopt(level, socket.SO_RCVLOWAT, 5); print("least", b.getsockopt(level, socket.SO_RCVLOWAT)); a.send(b"12")
begun = time.monotonic(); threading.Timer(0.2, a.send, [b"345678"]).start(); print("waits for five", b.recv(20), time.monotonic() - begun > 0.1); a.send(b"12"); print("at once", b.recv(20, socket.MSG_DONTWAIT)); a.send(b"12"); print("no more is asked", b.recv(2))
def size(s, request):
    n = ctypes.c_int(77); done = call("ioctl", s.fileno(), request, ctypes.byref(n)); return n.value if done == 0 else done
print("nothing sent", size(a, termios.TIOCOUTQ), size(s, termios.TIOCOUTQ), size(own(), termios.TIOCOUTQ)); a.send(b"1234567"); print("sent", size(a, termios.TIOCOUTQ) > 0, size(b, termios.TIOCOUTQ), size(b, termios.FIONREAD)); b.recv(10); print("received", size(a, termios.TIOCOUTQ))
x, y = pair(socket.SOCK_SEQPACKET); x.send(b"123"); x.send(b"45"); print("records", size(y, termios.FIONREAD), size(x, termios.FIONREAD)); y.recv(1); print(size(y, termios.FIONREAD))
x, y = pair(socket.SOCK_DGRAM); x.send(b""); x.send(b"45"); print("datagrams", size(y, termios.FIONREAD)); y.recv(1); print(size(y, termios.FIONREAD), "to nowhere", call("ioctl", y.fileno(), termios.FIONREAD, ctypes.c_void_p(8)))
print("listener", size(s, termios.FIONREAD), "idle", size(own(), termios.FIONREAD), size(own(socket.SOCK_DGRAM), termios.FIONREAD))
