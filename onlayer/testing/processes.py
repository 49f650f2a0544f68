# Processes: fork, vfork, exec, a shared listener, a daemon, credentials of each.
import os, socket, struct, subprocess, sys, time
from common import attempt, pair
def peer(s): return struct.unpack("3i", s.getsockopt(socket.SOL_SOCKET, socket.SO_PEERCRED, 12))[0]
a, b = pair()
pid = os.fork()
if pid == 0:
    a.close(); b.send(b"child"); os._exit(3)
b.close(); print("fork", a.recv(10), a.recv(10), os.waitstatus_to_exitcode(os.wait()[1]))
a, b = pair(); os.set_inheritable(b.fileno(), True); sys.stdout.flush()
child = subprocess.Popen([sys.executable, "-c", f"import socket; s = socket.socket(fileno={b.fileno()}); s.send(b'exec'); print(s.recv(10))"], pass_fds=[b.fileno()])
b.close(); print("exec", a.recv(10), a.send(b"ok"), child.wait(), a.recv(10))
subprocess.run(["sh", "-c", "echo shell >&0"], stdin=(p := pair())[1]); print("as standard input", p[0].recv(10))
s = socket.socket(socket.AF_UNIX); s.bind("s"); s.listen(8); pids = []
for i in range(3):
    if (pid := os.fork()) == 0:
        t, _ = s.accept(); t.send(b"%d" % os.getpid()); t.close(); os._exit(0)
    pids.append(pid)
served = []
for i in range(3):
    c = socket.socket(socket.AF_UNIX); c.connect("s"); served.append(int(c.recv(20))); c.close()
print("shared listener", sorted(served) == sorted(pids)); [os.wait() for _ in pids]
if (pid := os.fork()) == 0:
    c = socket.socket(socket.AF_UNIX); c.connect("s"); c.recv(1); os._exit(0)
t, _ = s.accept(); print("peer", peer(t) == pid); t.close(); os.waitpid(pid, 0)
a, b = pair()
if os.fork() == 0:
    os.setsid()
    if os.fork(): os._exit(0)
    a.close(); time.sleep(0.3); b.send(b"daemon"); os._exit(0)
os.wait(); b.close(); print("daemon", a.recv(10), a.recv(10))
a, b = pair()
if (pid := os.fork()) == 0: a.close(); time.sleep(10); os._exit(0)
b.close(); os.kill(pid, 9); print("killed", a.recv(10), os.waitstatus_to_exitcode(os.wait()[1]))
def doomed(): a.send(b"x")
a, b = pair(); b.close()
if (pid := os.fork()) == 0:
    import signal; signal.signal(signal.SIGPIPE, signal.SIG_DFL); os.write(a.fileno(), b"x"); os._exit(0)
print("SIGPIPE", os.waitstatus_to_exitcode(os.wait()[1])); print("ignored", attempt(os.write, a.fileno(), b"x"))
