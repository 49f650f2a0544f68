import os, socket, time
while not os.path.exists("ready"):
    time.sleep(0.01)
s = socket.socket(socket.AF_UNIX); s.connect("server")
s.sendall(b"pid %d" % os.getpid())
print("outside", s.recv(100), repr(s.getpeername()))
with open("file", "w") as f: f.write("a file of the outside")
fd = os.open("file", os.O_RDONLY); socket.send_fds(s, [b"here"], [fd]); os.close(fd)
data, files, _, _ = socket.recv_fds(s, 100, 4)
print("outside", data, len(files)); os.write(files[0], b"from outside"); os.close(files[0])
s.sendall(b"x" * 200000)
got = 0
while got < 200000:
    got += len(s.recv(65536))
print("outside got", got)
s.sendall(b"all")
data, files, _, _ = socket.recv_fds(s, 100, 4)
end = socket.socket(fileno=files[0]); print("outside", data, end.recv(100)); end.sendall(b"and back"); end.close()
s.close()
s = socket.socket(socket.AF_UNIX); s.connect(open("name", "rb").read()); s.sendall(b"abstract ping")
print("outside", s.recv(100), s.recv(10)); s.close()
d = socket.socket(socket.AF_UNIX, socket.SOCK_DGRAM); d.bind("outsider"); d.sendto(b"a datagram", "datagrams")
print("outside", d.recvfrom(100))
