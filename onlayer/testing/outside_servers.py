# Servers outside are reached from in here.
import os, socket, time
while not os.path.exists("ready"):
    time.sleep(0.01)
s = socket.socket(socket.AF_UNIX); s.connect("real"); s.sendall(b"ping")
print("path", s.recv(100), repr(s.getpeername())); s.close()
s = socket.socket(socket.AF_UNIX); s.connect(open("name", "rb").read()); s.sendall(b"ping")
print("abstract", s.recv(100)); s.close()
d = socket.socket(socket.AF_UNIX, socket.SOCK_DGRAM)
print("unnamed datagram", d.sendto(b"one", "datagrams")); d.close()
d = socket.socket(socket.AF_UNIX, socket.SOCK_DGRAM); d.bind("insider"); d.settimeout(5)
print("datagram", d.sendto(b"two", "datagrams"), d.recvfrom(100)); d.close()
d = socket.socket(socket.AF_UNIX, socket.SOCK_DGRAM); d.bind("associate"); d.connect("datagrams"); d.settimeout(5)
print("associated", d.send(b"three"), d.recv(100)); d.close()
