# Calls that wait in the layer, and what ends them: a signal, a time limit, another process, the close of a listener.
import os, select, signal, socket, struct, threading, time
from common import attempt, pair
class Caught(Exception): pass
def catch(*_): raise Caught
def cut(function, *arguments):
    signal.signal(signal.SIGALRM, catch); signal.setitimer(signal.ITIMER_REAL, 0.2)
    try: return attempt(function, *arguments)
    except Caught: return "cut off"
    finally: signal.setitimer(signal.ITIMER_REAL, 0)
def waiting(function, *arguments):
    out = []; t = threading.Thread(target=lambda: out.append(attempt(function, *arguments))); t.start(); time.sleep(0.2); return t, out
def listener(name, backlog):
    s = socket.socket(socket.AF_UNIX); s.bind(name); s.listen(backlog); return s
def client(): return socket.socket(socket.AF_UNIX)
a, b = pair(); print("receive", cut(b.recv, 5)); a.send(b"kept"); print("nothing is lost", b.recv(10))
print("all of it", cut(b.recv, 5, socket.MSG_WAITALL)); a.send(b"12"); print("some", cut(b.recv, 5, socket.MSG_WAITALL))
s = listener("s", 0); print("accept", cut(s.accept)); c = client(); c.connect("s"); d = client(); print("connect", cut(d.connect, "s"))
t, _ = s.accept(); d.connect("s"); u, _ = s.accept(); d.send(b"once"); print("connected once", u.recv(10), attempt(d.connect, "s")); s.setblocking(False); print("no other", attempt(s.accept))
a, b = pair(socket.SOCK_DGRAM); a.setblocking(False)
while attempt(a.send, b"x") == 1: pass
a.setblocking(True); print("datagram", cut(a.send, b"y")); a.setblocking(False); n = 0; b.setblocking(False)
while attempt(b.recv, 1) == b"x": n += 1
print("only what was sent", n > 0, attempt(b.recv, 1))
a, b = pair(); b.setsockopt(socket.SOL_SOCKET, socket.SO_RCVTIMEO, struct.pack("ll", 0, 200000)); print("a limit", attempt(b.recv, 1)); a.send(b"behind it"); print(b.recv(10))
# A thread waits, and so does a child of its process: each takes one of what comes. A child that is killed takes nothing.
a, b = pair(); t, out = waiting(b.recv, 10); pid = os.fork()
if pid == 0:
    a.close(); got = b.recv(10); os._exit(len(got))
time.sleep(0.2); a.send(b"first"); time.sleep(0.1); a.send(b"second"); t.join(); print("taken over", len(out[0]) + os.waitstatus_to_exitcode(os.waitpid(pid, 0)[1]))
a, b = pair(); pid = os.fork()
if pid == 0: b.recv(10); os._exit(1)
time.sleep(0.2); os.kill(pid, signal.SIGKILL); print("killed", os.waitstatus_to_exitcode(os.waitpid(pid, 0)[1])); a.send(b"for the parent"); print(b.recv(20))
a, b = pair(); pid = os.fork()
if pid == 0:
    os.close(a.detach()); threading.Thread(target=b.recv, args=[10], daemon=True).start(); time.sleep(0.2); os.execvp("sh", ["sh", "-c", "exit 4"])
print("a thread that an exec ends", os.waitstatus_to_exitcode(os.waitpid(pid, 0)[1])); b.close(); print(attempt(a.recv, 1))
# A listener goes while clients wait for it, and while a thread of its own process does.
s = listener("full", 0); first = client(); first.connect("full"); threads = [waiting(client().connect, "full") for _ in range(3)]; s.close()
for t, out in threads: t.join(); print("refused", out)
print("whom nobody accepted", attempt(first.recv, 1), attempt(first.send, b"x"))
s = listener("more", 0); first = client(); first.connect("more"); late = client(); t, out = waiting(late.connect, "more"); s.listen(5); t.join(); print("a longer backlog", out, len([s.accept()[0], s.accept()[0]]))
# Edges: what comes in the place of what was read is told.
edge = select.epoll(); a, b = pair(); edge.register(b, select.EPOLLIN | select.EPOLLET); a.setblocking(False)
while isinstance(attempt(a.send, b"z" * 4096), int): pass
a.setblocking(True); edge.poll(1); t, out = waiting(a.send, b"y" * 4096); b.setblocking(False)
while len(attempt(b.recv, 10**6)) > 4096 or not out: edge.poll(0.5)
t.join(); print("refilled", out)
