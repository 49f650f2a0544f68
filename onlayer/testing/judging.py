# What is given is judged as on Linux: control data that is no list of items, rights at a wrong number, who a listener's peer is.
import ctypes, os, resource, socket, struct
from common import Message, Part, attempt, call, pair
def raw(s, control, name=b""):
    data, buffer = ctypes.create_string_buffer(b"x", 1), ctypes.create_string_buffer(control, len(control))
    part = Part(ctypes.cast(data, ctypes.c_void_p), 1)
    message = Message(ctypes.cast(ctypes.create_string_buffer(name, len(name)), ctypes.c_void_p) if name else None, len(name), ctypes.pointer(part), 1,
                      ctypes.cast(buffer, ctypes.c_void_p), len(control), 0)
    return call("sendmsg", s if isinstance(s, int) else s.fileno(), ctypes.byref(message), 0)
def item(data, kind=socket.SCM_RIGHTS, level=socket.SOL_SOCKET): return struct.pack("Qii", 16 + len(data), level, kind) + data + bytes(-len(data) % 8)
def got(s):
    data, items, flags, _ = s.recvmsg(10, 200); fds = [fd for one in items if one[1] == socket.SCM_RIGHTS for fd in struct.unpack(f"{len(one[2]) // 4}i", one[2])]
    [os.close(fd) for fd in fds]; return len(fds), flags
a, b = pair(); one, own = struct.pack("i", 0), struct.pack("3i", os.getpid(), os.getuid(), os.getgid())
for what, control in (("a byte", b"1"), ("short of a head", bytes(15)), ("two items", item(one) + item(one + one)), ("half a number", item(one + b"12")), ("another level", item(one, level=7)),
                      ("both", item(own, socket.SCM_CREDENTIALS) + item(one)), ("an empty item", item(b""))):
    print(what, raw(a, control), got(b))
for what, control in (("no such type", item(one, 77)), ("short credentials", item(one, socket.SCM_CREDENTIALS)), ("a length of 1", struct.pack("Qii", 1, 1, 1)), ("too long a length", struct.pack("Qii", 99, 1, 1)),
                      ("not open", item(struct.pack("i", 99)))):
    print(what, raw(a, control))
r, w = os.pipe(); right = item(struct.pack("i", b.fileno()))
print("rights at a pipe", raw(w, right), "at none", raw(99, right))
open("plain", "w").close(); plain = struct.pack("H", socket.AF_UNIX) + b"plain\0"; d = socket.socket(socket.AF_UNIX, socket.SOCK_DGRAM)
print("to a plain file", raw(d, right, plain), "with a bad item", raw(d, item(one, 77), plain), raw(d, item(one, 77), plain[:2] + b"plain/none\0"))
def peer(s): return [word == mine for word, mine in zip(struct.unpack("3i", s.getsockopt(socket.SOL_SOCKET, socket.SO_PEERCRED, 12)), (os.getpid(), os.getuid(), os.getgid()))]
s = socket.socket(socket.AF_UNIX); s.bind("s"); print("peer of an idle one", peer(s)); s.listen(1); print("of a listener", peer(s))
x, y = pair(socket.SOCK_DGRAM); print("no association", call("connect", x.fileno(), struct.pack("H", socket.AF_UNSPEC), 2))
x.setsockopt(socket.SOL_SOCKET, socket.SO_PASSCRED, 1); print("a send names it", attempt(x.sendto, b"", "plain"))
print("named by an option", d.sendmsg([b"named"], [(socket.SOL_SOCKET, socket.SCM_RIGHTS, struct.pack("i", r))], 0, x.getsockname()), got(x))
socket.send_fds(a, [b"ab"], [r]); limit = resource.getrlimit(resource.RLIMIT_NOFILE); resource.setrlimit(resource.RLIMIT_NOFILE, (5, limit[1])); print("no number is left", got(b), attempt(s.accept))
