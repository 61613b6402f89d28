"""A node that answers asks by a script, and keeps what it was asked."""

from __future__ import annotations

import socket
import struct
import threading
from typing import List, Optional, Sequence, Tuple, Union

# What becomes of an ask: bytes are sent, None closes the connection, and no bytes leave the client waiting.
Step = Optional[bytes]
Ask = Tuple[int, str]

SESSION = 7


def reply(request: int, answer: str, session: int = SESSION) -> bytes:
    return _frame(struct.pack(">BQQ", 4, session, request) + bytes.fromhex(answer))


def refused(request: int, refusal: int, carried: int = 0, session: int = SESSION) -> bytes:
    return _frame(struct.pack(">BQQBQ", 5, session, request, refusal, carried))


def learned(last: int) -> List[Step]:
    """The steps by which a client learns the session's last request, and settles the number after it."""
    return [refused(0, 11, last), reply(last + 1, FLAG_0)]


STORED, FLAG_0, SEEN_NOTHING = "01", "0400", "020000"


class ScriptedNode:
    """One step for each ask that comes, over whichever connection; after the last one it closes each connection."""

    def __init__(self, steps: Sequence[Step]) -> None:
        self._steps = list(steps)
        self._listener = socket.create_server(("127.0.0.1", 0))
        self.address = "127.0.0.1:%d" % self._listener.getsockname()[1]
        # The number and the command of each ask.
        self.asks: List[Ask] = []
        threading.Thread(target=self._accept, daemon=True).start()

    def close(self) -> None:
        """Takes no further connection."""
        try:
            # It ends the accept that waits.
            self._listener.shutdown(socket.SHUT_RDWR)
        except OSError:
            pass
        self._listener.close()

    def _accept(self) -> None:
        while True:
            try:
                stream, _ = self._listener.accept()
            except OSError:
                return
            threading.Thread(target=self._serve, args=(stream,), daemon=True).start()

    def _serve(self, stream: socket.socket) -> None:
        with stream, stream.makefile("rb") as incoming:
            while True:
                prefix = incoming.read(4)
                if len(prefix) < 4:
                    return
                body = incoming.read(int.from_bytes(prefix, "big"))
                step = self._step(body)
                if step is None:
                    return
                stream.sendall(step)

    def _step(self, body: bytes) -> Step:
        assert body[0] == 3 and int.from_bytes(body[1:9], "big") == SESSION
        self.asks.append((int.from_bytes(body[9:17], "big"), body[17:].hex()))
        return self._steps.pop(0) if self._steps else None


def _frame(body: Union[bytes, bytearray]) -> bytes:
    return struct.pack(">I", len(body)) + body
