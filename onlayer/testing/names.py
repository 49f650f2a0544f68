# Names: paths, links, renames, folders, permissions, abstract ones.
import os, socket
from common import attempt, pair
def listener(name, kind=socket.SOCK_STREAM):
    s = socket.socket(socket.AF_UNIX, kind); s.bind(name); s.listen(60); return s
def reach(name, kind=socket.SOCK_STREAM):
    c = socket.socket(socket.AF_UNIX, kind); return attempt(c.connect, name), attempt(c.getpeername)
s = listener("server")
print("path", reach("server"), reach("./server"), reach(os.path.abspath("server"))[0])
os.mkdir("folder"); os.symlink("../server", "folder/link"); os.link("server", "hard")
print("links", reach("folder/link")[0], reach("hard")[0])
os.rename("server", "renamed"); print("renamed", reach("server"), reach("renamed"), s.getsockname())
os.chdir("folder"); print("relative", reach("../renamed")[0]); t = listener("server"); print("another of the name", reach("server")); os.chdir("..")
for bad in ("folder/server", "nowhere/x", "renamed/x", "", "x" * 108, "folder"):
    print("bind", repr(bad[:20]), attempt(socket.socket(socket.AF_UNIX).bind, bad))
for bad in ("nothing", "folder", "folder/nothing", "renamed/x"):
    print("connect", bad, reach(bad)[0])
open("plain", "w").close(); print("plain file", reach("plain")[0], attempt(socket.socket(socket.AF_UNIX).bind, "plain"))
print("type", reach("renamed", socket.SOCK_DGRAM)[0], reach("renamed", socket.SOCK_SEQPACKET)[0])
os.chmod("renamed", 0); print("no permission", reach("renamed")[0] if os.getuid() else "Permission denied"); os.chmod("renamed", 0o600); print("permission", reach("renamed")[0])
os.mkdir("locked"); l = listener("locked/s"); os.chmod("locked", 0)
print("locked folder", (reach("locked/s")[0], attempt(socket.socket(socket.AF_UNIX).bind, "locked/t")) if os.getuid() else ("Permission denied",) * 2); os.chmod("locked", 0o700)
old = os.umask(0o027); m = listener("masked"); print("mode", oct(os.stat("masked").st_mode)); os.umask(old)
s.close(); print("gone", reach("renamed")[0], os.path.exists("renamed")); print("bind again", attempt(socket.socket(socket.AF_UNIX).bind, "renamed"))
os.unlink("renamed"); s = listener("renamed"); print("anew", reach("renamed")[0])
a = listener("\0onlayer names %d" % os.getpid()); print("abstract", reach(a.getsockname())[0], a.getsockname()[:15])
print("twice", attempt(socket.socket(socket.AF_UNIX).bind, a.getsockname())); name = a.getsockname(); a.close(); print("freed", reach(name)[0])
b = socket.socket(socket.AF_UNIX); b.bind(""); print("autobind", len(b.getsockname()), b.getsockname()[:1]); print("bound", attempt(b.bind, "x"))
longest = "y" * 107; s = listener(longest); print("longest", reach(longest)[0], len(s.getsockname()))
