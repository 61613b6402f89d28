"""The addresses of a node's host, looked up until a deadline."""

from __future__ import annotations

import socket
import threading
from typing import Any, Dict, List, Optional, Tuple

from .deadline import Deadline

# A host and a port.
Address = Tuple[str, int]
# What getaddrinfo answers.
Found = List[Tuple[Any, ...]]


class Resolver:
    """Looks names up. A look-up that outlasts a deadline goes on, and whoever asks for the same name next waits for it."""

    def __init__(self) -> None:
        self._under_way: Dict[Address, _LookUp] = {}

    def find(self, address: Address, deadline: Deadline) -> Found:
        """Where an address leads. A name that nobody knows is an OSError, and so is a look-up that takes too long."""
        try:
            return _look_up(address, socket.AI_NUMERICHOST)
        except socket.gaierror:
            pass
        if address not in self._under_way:
            self._under_way[address] = _LookUp(address)
        look_up = self._under_way[address]
        if not look_up.is_over.wait(deadline.left()):
            raise TimeoutError(f"the look-up of {address[0]} takes too long")
        del self._under_way[address]
        if look_up.failure is not None:
            raise look_up.failure
        return look_up.found


class _LookUp:
    """A look-up in a thread of its own: nothing cuts that of the system short."""

    def __init__(self, address: Address) -> None:
        self.is_over = threading.Event()
        self.found: Found = []
        self.failure: Optional[OSError] = None
        threading.Thread(target=self._run, args=(address,), daemon=True).start()

    def _run(self, address: Address) -> None:
        try:
            self.found = _look_up(address)
        except OSError as why:
            self.failure = why
        finally:
            self.is_over.set()


def _look_up(address: Address, flags: int = 0) -> Found:
    host, port = address
    return list(socket.getaddrinfo(host, port, type=socket.SOCK_STREAM, flags=flags))
