# sendfile, splice in both directions.
import os, socket, threading, time
from common import attempt, pair
a, b = pair()
with open("file", "wb") as f: f.write(bytes(range(256)) * 100)
fd = os.open("file", os.O_RDONLY)
print("sendfile", os.sendfile(a.fileno(), fd, 10, 20), b.recv(100))
print("no offset", os.sendfile(a.fileno(), fd, None, 5), os.lseek(fd, 0, os.SEEK_CUR), b.recv(100))
total = 0
def drain():
    global total
    while total < 25600: total += len(b.recv(65536))
t = threading.Thread(target=drain); t.start()
sent = 0
while sent < 25600: sent += os.sendfile(a.fileno(), fd, sent, 25600 - sent)
t.join(); print("all", sent, total)
print("from a socket", attempt(os.sendfile, a.fileno(), b.fileno(), None, 5))
print("to nobody", attempt(os.sendfile, 99, fd, 0, 5))
r, w = os.pipe()
os.write(w, b"through a pipe")
print("splice in", os.splice(r, a.fileno(), 7), b.recv(100), os.splice(r, a.fileno(), 100), b.recv(100))
a.sendall(b"out of a socket")
print("splice out", os.splice(b.fileno(), w, 100), os.read(r, 100))
threading.Timer(0.2, lambda: os.write(w, b"late")).start()
print("waits for the pipe", os.splice(r, a.fileno(), 100), b.recv(10))
threading.Timer(0.2, lambda: a.send(b"later")).start()
print("waits for the socket", os.splice(b.fileno(), w, 100), os.read(r, 10))
print("nothing", attempt(os.splice, r, a.fileno(), 10, None, None, 2))
os.close(w); print("end of the pipe", os.splice(r, a.fileno(), 100))
a.close(); r, w = os.pipe(); print("end of the socket", os.splice(b.fileno(), w, 100))
