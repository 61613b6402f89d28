"""One connection to a node."""

from __future__ import annotations

import socket

from .deadline import Deadline
from .resolver import Found
from .wire import Told, decode_body, decode_length


class Connection:
    """Frames to a node and from it. Whatever fails is an OSError, a timeout too."""

    def __init__(self, found: Found, deadline: Deadline) -> None:
        self._socket = _connected(found, deadline)
        self._socket.setsockopt(socket.IPPROTO_TCP, socket.TCP_NODELAY, 1)

    def send(self, frame: bytes, deadline: Deadline) -> None:
        self._socket.settimeout(_timeout(deadline))
        self._socket.sendall(frame)

    def receive(self, deadline: Deadline) -> Told:
        """The next frame. Malformed where the bytes spell none that a client is sent."""
        return decode_body(self._exactly(decode_length(self._exactly(4, deadline)), deadline))

    def close(self) -> None:
        try:
            # It wakes a thread that waits for a frame.
            self._socket.shutdown(socket.SHUT_RDWR)
        except OSError:
            pass
        self._socket.close()

    def _exactly(self, count: int, deadline: Deadline) -> bytes:
        data = bytearray()
        while len(data) < count:
            self._socket.settimeout(_timeout(deadline))
            piece = self._socket.recv(count - len(data))
            if not piece:
                raise ConnectionError("the node has closed the connection")
            data += piece
        return bytes(data)


def _connected(found: Found, deadline: Deadline) -> socket.socket:
    """A socket that is connected to the first of these addresses that takes it; each gets its share of the time."""
    failure: OSError = ConnectionError("the name has no address")
    for place, (family, kind, protocol, _, address) in enumerate(found):
        made = socket.socket(family, kind, protocol)
        try:
            made.settimeout(_timeout(deadline.sooner(deadline.left() / (len(found) - place))))
            made.connect(address)
            return made
        except OSError as why:
            made.close()
            failure = why
    raise failure


def _timeout(deadline: Deadline) -> float:
    """What is left for a socket's next step: 0 would mean that it doesn't wait at all."""
    left = deadline.left()
    if left <= 0:
        raise TimeoutError("the deadline has passed")
    return left
