"""Says the calls of a log in the words of a script, and keeps which of them couldn't be said."""
from . import descriptors, files, ioctls, memory, moving, processes, readiness, receiving, sending, sockets, users

EVERY = (descriptors, files, ioctls, memory, moving, processes, readiness, receiving, sending, sockets, users)
