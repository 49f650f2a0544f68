"""What onlayer tells of a run, and its options that change one: options, a program in Python, and what has to be said of it."""

PASSES_A_FILE = """import os, socket
a, b = socket.socketpair()
socket.send_fds(a, [b"x"], [os.open("/etc/hostname", os.O_RDONLY)])
os._exit(0)
"""
LEAVES_A_LISTENER = """import os, socket
s = socket.socket(socket.AF_UNIX); s.bind("unused"); s.listen(1); s.set_inheritable(True)
os.execvp("true", ["true"])
"""
ASKS_THREE = """import socket, threading, time
a, b = socket.socketpair(socket.AF_UNIX, socket.SOCK_DGRAM); out = {}
def take(name): out[name] = b.recv(9)
threads = [threading.Thread(target=take, args=[name]) for name in "xyz"]
for thread in threads: thread.start(); time.sleep(0.1)
for message in (b"1", b"2", b"3"): a.send(message)
for thread in threads: thread.join()
print(sorted(out.items()))
"""
ONE_WAY = "import socket\na, b = socket.socketpair()\na.send(b'x'); print(b.recv(1))\n"
FILLS = "import socket\na, b = socket.socketpair()\na.setblocking(False)\nprint(a.send(b'12345'))\n"
MANY = """import os, socket
a, b = socket.socketpair()
try: print(os.dup(a.fileno()) > b.fileno(), os.dup(a.fileno()))
except OSError as error: print(error.strerror)
"""
FAILS = "import socket\ntry: socket.socketpair()\nexcept OSError as error: print(error.strerror)\nprint(socket.socketpair()[0].family)\n"

TOLD = [                                       # a name, options, the program, expressions that have to be found
    ("holders at the end", ["--holders", "end"], PASSES_A_FILE,
     [r"stream socket 1, connected to stream socket 0: held by \S+ \(pid \d+\) 4\n  unread: 1 byte, which passes /etc/hostname\n",
      r"/etc/hostname: held by \S+ \(pid \d+\) 5, a message to stream socket 1\n"]),
    ("an audit", ["--audit", "end"], PASSES_A_FILE, [r"\S+ \(pid (\d+)\) 4: made by \S+ \(pid \1\) as 4\n"]),
    ("descriptors in flight", [], PASSES_A_FILE, [r"; 1 descriptors in flight that nobody received\n"]),
    ("an unused listener", [], LEAVES_A_LISTENER, [r"onlayer: true \(pid \d+\) found a listening socket open as 3, unused, and never used it\n"]),
    ("orders that differ", ["--orders", "6"], ASKS_THREE, [r"output \"\[.*under \d of 6 seeds", r"\n6 orders: [1-9]\d* things differ\n"]),
    ("orders that don't", ["--orders", "3"], ONE_WAY, [r"^3 orders: nothing differs\n"]),
    ("--qlimit", ["--qlimit", "3"], FILLS, [r"^3\n"]),
    ("--nofile", ["--nofile", "3"], MANY, [r"^Too many open files\n"]),
    ("--fail", ["--fail", "socketpair:1:ENOMEM"], FAILS, [r"^Cannot allocate memory\n1\n", r", 1 failed as asked;"]),
]
# A program, a call of the layer, and what is told of the moment behind that call's line: two sockets, and no open file yet.
TOLD_AFTER = ("holders after a line", PASSES_A_FILE, "pair",
              [r"^stream socket 0, connected to stream socket 1: held by (\S+ \(pid \d+\)) 3\n"
               r"stream socket 1, connected to stream socket 0: held by \1 4\nonlayer: "])
TOLD_AS_JSON = [                               # the fields of a value that has to be told
    (["--json", "--holders", "end"], PASSES_A_FILE, [{"kind": "summary", "in_flight": 1, "refused": 0}, {"kind": "description", "description": 1}]),
    (["--json", "--audit", "end"], PASSES_A_FILE, [{"kind": "held", "number": "4"}]),
    (["--json"], LEAVES_A_LISTENER, [{"kind": "unused listener", "program": "true", "number": 3, "name": "unused"}]),
    (["--json", "--orders", "6"], ASKS_THREE, [{"kind": "order", "seed": 6, "status": 0}, {"kind": "difference"}]),
]

# A program whose two threads wait for each other, and what is told of it.
DEADLOCK = """import socket, threading
a, b = socket.socketpair()
threading.Thread(target=a.recv, args=[1]).start()
b.recv(1)
"""
TOLD_OF_IT = r"onlayer: deadlock: every thread waits for the layer\n(  \S+ \(pid (\d+)\) waits in recvfrom of \d+, whose other end \S+ \(pid \2\) has\n){2}"

# One whose send waits for room, and what SIGUSR1 tells of it.
WAITS_FOR_ROOM = "import socket\na, b = socket.socketpair()\na.sendall(bytes(100000))\n"
TOLD_NOW = r"onlayer: \d+ calls of the layer so far; 1 calls wait\n  \S+ \(pid (\d+)\) waits in sendto of 3, whose other end \S+ \(pid \1\) has, with 65536 bytes unread\n"
TOLD_LATER = r"stream socket 1, connected to stream socket 0: held by \S+ \(pid \d+\) 4\n"
