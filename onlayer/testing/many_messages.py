# sendmmsg and recvmmsg, also with a limit of time and MSG_WAITFORONE.
import ctypes, socket, threading, time
from common import call, messages, pair
for kind in (socket.SOCK_DGRAM, socket.SOCK_SEQPACKET):
    a, b = pair(kind)
    sent = messages([ctypes.create_string_buffer(b"message %d" % i, 10) for i in range(5)])
    print("sent", call("sendmmsg", a.fileno(), sent, 5, 0), [one.length for one in sent])
    room = [ctypes.create_string_buffer(20) for _ in range(8)]
    got = messages(room)
    print("got", call("recvmmsg", b.fileno(), got, 8, socket.MSG_DONTWAIT, None), [one.length for one in got], [r.raw[:10] for r in room])
    print("none", call("recvmmsg", b.fileno(), got, 8, socket.MSG_DONTWAIT, None))
    threading.Timer(0.2, lambda: (a.send(b"one"), a.send(b"two"))).start()
    print("for one", call("recvmmsg", b.fileno(), got, 1, 0x10000, None), got[0].length)
    time.sleep(0.1)
    print("the other", call("recvmmsg", b.fileno(), got, 8, 0x10000, None), got[0].length)
    b.close()
    print("to nobody", call("sendmmsg", a.fileno(), sent, 5, socket.MSG_NOSIGNAL))
