# A program with a root of its own: paths inside, relative ones, absolute links, and a server seen from both sides.
import os, socket, sys
from common import attempt
if os.getuid() != 0:
    print("skipped: for the superuser alone")
    sys.exit()
def reach(name):
    c = socket.socket(socket.AF_UNIX); return attempt(c.connect, name), attempt(c.getpeername)
os.makedirs("root/folder")
outer = socket.socket(socket.AF_UNIX); outer.bind("outer"); outer.listen(9)
os.symlink("/folder/inner", "root/absolute")
r, w = os.pipe(); go, gone = os.pipe()
if os.fork() == 0:
    os.chroot("root"); os.chdir("/folder")
    s = socket.socket(socket.AF_UNIX); s.bind("inner"); s.listen(9)
    t = socket.socket(socket.AF_UNIX); t.bind("/top"); t.listen(9)
    print("inside", reach("inner"), reach("/folder/inner"), reach("../top"), reach("/absolute"), reach("/outer"))
    sys.stdout.flush(); os.write(w, b"x"); os.read(go, 1); os._exit(0)
os.read(r, 1)
print("from above", reach("root/folder/inner"), reach("root/absolute")[0], reach("root/top")[0])
os.write(gone, b"x"); os.wait(); print("modes", oct(os.stat("root/top").st_mode))
os.setgroups([]); os.chmod("root/top", 0o600)
if os.fork() == 0:
    os.setresgid(65534, 65534, 65534); os.setresuid(65534, 65534, 65534)
    print("another user", reach("outer")[0], reach("root/top")[0], attempt(socket.socket(socket.AF_UNIX).bind, "mine")); os._exit(0)
os.wait()
