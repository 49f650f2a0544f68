# Threads that close or replace a number while another uses it, and many at once.
import os, socket, threading, time
from common import attempt, pair
def waiting(function, *arguments):
    out = []; t = threading.Thread(target=lambda: out.append(attempt(function, *arguments))); t.start(); time.sleep(0.2); return t, out
a, b = pair(); fd = os.dup(b.fileno()); t, out = waiting(os.read, fd, 10); os.close(fd); a.send(b"late"); t.join(); print("closed while it waits", out, attempt(os.read, fd, 1))
a, b = pair(); fd = os.dup(b.fileno()); b.close(); t, out = waiting(os.read, fd, 10); os.close(fd); time.sleep(0.1); a.send(b"still there"); t.join(); print("the last number", out)
print("then it is gone", attempt(a.send, b"x"))
a, b = pair(); c, d = pair(); fd = os.dup(b.fileno()); t, out = waiting(os.read, fd, 10); os.dup2(d.fileno(), fd); c.send(b"new"); a.send(b"old"); t.join(); print("replaced", out, os.read(fd, 10))
s = socket.socket(socket.AF_UNIX); s.bind("s"); s.listen(1); t, out = waiting(s.accept); c = socket.socket(socket.AF_UNIX); c.connect("s"); t.join(); print("accept", type(out[0]).__name__)
a, b = pair(); t, out = waiting(b.recv, 10); b.shutdown(socket.SHUT_RD); t.join(); print("shut while it waits", out)
a, b = pair(); t, out = waiting(b.recv, 10); a.close(); t.join(); print("end while it waits", out)
pairs = [pair() for _ in range(8)]; sums = []
def echo(s):
    while data := s.recv(100): s.sendall(data)
def ask(s):
    total = 0
    for i in range(40): s.sendall(b"%d " % i); total += int(s.recv(100))
    s.close(); sums.append(total)
threads = [threading.Thread(target=f, args=[p[n]]) for p in pairs for n, f in ((0, ask), (1, echo))]
[t.start() for t in threads]; [t.join() for t in threads]; print("echoes", sums)
def churn():
    for i in range(40):
        x, y = pair(); x.send(b"%d" % i); assert y.recv(9) == b"%d" % i; os.dup2(x.fileno(), (z := os.dup(y.fileno()))); os.close(z); x.close(); y.close()
threads = [threading.Thread(target=churn) for _ in range(4)]; [t.start() for t in threads]; [t.join() for t in threads]; print("churn", len(os.listdir("/proc/self/fd")))
a, b = pair(); total = 0
def write(): 
    for i in range(20): a.sendall(b"x" * 5000)
    a.close()
w = threading.Thread(target=write); w.start()
while data := b.recv(3000): total += len(data)
w.join(); print("blocking writes", total)
a, b = pair(); threading.Timer(0.2, lambda: (a.send(b"12"), time.sleep(0.2), a.send(b"345"))).start(); print("all of it", b.recv(5, socket.MSG_WAITALL))
