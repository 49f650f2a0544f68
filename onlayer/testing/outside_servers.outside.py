import os, socket
stream = socket.socket(socket.AF_UNIX); stream.bind("real"); stream.listen(2)
abstract = socket.socket(socket.AF_UNIX); abstract.bind("\0onlayer-real-%d" % os.getpid()); abstract.listen(2)
open("name", "wb").write(abstract.getsockname())
d = socket.socket(socket.AF_UNIX, socket.SOCK_DGRAM); d.bind("datagrams")
open("ready", "w").close()
for server in (stream, abstract):
    s, _ = server.accept(); print("outside", s.recv(100)); s.sendall(b"pong"); s.close()
print("outside", d.recvfrom(100))
for _ in range(2):
    data, sender = d.recvfrom(100); print("outside", data, sender); d.sendto(b"answer", sender)
