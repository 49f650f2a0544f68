# Numbers: copies, the lowest free one, marks, ranges, limits, an exec.
import fcntl, os, resource, socket, subprocess, sys
from common import attempt, call, pair
a, b = pair()
def alive(fd):
    a.send(b"x"); return attempt(os.read, fd, 1)
base = os.dup(b.fileno()); print("dup", alive(base)); os.close(base)
print("lowest", os.dup(b.fileno()) == base); os.close(base)
print("from 20", fcntl.fcntl(b.fileno(), fcntl.F_DUPFD, 20), alive(20), fcntl.fcntl(b.fileno(), fcntl.F_DUPFD_CLOEXEC, 20), fcntl.fcntl(21, fcntl.F_GETFD))
print("dup2", os.dup2(b.fileno(), 30), alive(30), os.dup2(b.fileno(), 30), alive(30), os.get_inheritable(30))
r, w = os.pipe(); os.dup2(r, 30); os.write(w, b"pipe"); print("over a socket", os.read(30, 10)); os.dup2(b.fileno(), 30); print("over a pipe", alive(30))
print("bad", attempt(os.dup2, 98, 30), alive(30), attempt(os.dup2, 30, 10**6), attempt(os.dup2, b.fileno(), -1))
print("dup3", call("dup3", b.fileno(), 31, os.O_CLOEXEC), fcntl.fcntl(31, fcntl.F_GETFD), call("dup3", 31, 31, 0), call("dup3", b.fileno(), 32, 5))
print("range", call("close_range", 20, 31, 0), attempt(os.read, 20, 1), attempt(os.read, 31, 1))
os.dup2(b.fileno(), 40); print("marks a range", call("close_range", 40, 50, 4), fcntl.fcntl(40, fcntl.F_GETFD))
os.dup2(b.fileno(), 41, inheritable=True); a.send(b"for the child")
code = "import os\nfor n in (40, 41):\n    try: print(n, os.read(n, 20))\n    except OSError as e: print(n, e.strerror)"
sys.stdout.flush(); print(subprocess.run([sys.executable, "-c", code], close_fds=False, stdout=subprocess.PIPE).stdout)
soft, hard = resource.getrlimit(resource.RLIMIT_NOFILE); resource.setrlimit(resource.RLIMIT_NOFILE, (42, hard))
some = []
while not isinstance(made := attempt(os.dup, b.fileno()), str): some.append(made)
print("limit", made, attempt(socket.socket, socket.AF_UNIX), attempt(fcntl.fcntl, b.fileno(), fcntl.F_DUPFD, 42)); [os.close(one) for one in some]
os.close(0); print("standard input", os.dup(b.fileno())); a.send(b"line\n"); print(sys.stdin.readline())
