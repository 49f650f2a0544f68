"""What several programs of testing/ need: calls that Python has no function for."""
import ctypes
import os
import socket

libc = ctypes.CDLL(None, use_errno=True)


class Part(ctypes.Structure):
    _fields_ = [("base", ctypes.c_void_p), ("length", ctypes.c_size_t)]


class Message(ctypes.Structure):
    _fields_ = [("name", ctypes.c_void_p), ("name_length", ctypes.c_uint), ("parts", ctypes.POINTER(Part)), ("count", ctypes.c_size_t),
                ("control", ctypes.c_void_p), ("control_length", ctypes.c_size_t), ("flags", ctypes.c_int)]


class Sized(ctypes.Structure):
    _fields_ = [("message", Message), ("length", ctypes.c_uint)]


def messages(buffers):
    """A vector of messages, one a buffer."""
    all_of_them = (Sized * len(buffers))()
    for one, buffer in zip(all_of_them, buffers):
        part = Part(ctypes.cast(buffer, ctypes.c_void_p), len(buffer))
        one.message.parts, one.message.count = ctypes.pointer(part), 1
        one.kept = part
    return all_of_them


def call(name, *arguments):
    """The result of a C function, or the name of its error."""
    result = getattr(libc, name)(*arguments)
    return result if result >= 0 else os.strerror(ctypes.get_errno())


def attempt(function, *arguments):
    """What a call of Python's gives, or the name of its error."""
    try:
        return function(*arguments)
    except OSError as error:
        return os.strerror(error.errno) if error.errno else str(error)


def pair(kind=socket.SOCK_STREAM):
    return socket.socketpair(socket.AF_UNIX, kind)
