"""How long a call waits for the look-up of a name."""

from __future__ import annotations

import socket
import threading
import time
import unittest
from typing import Any
from unittest import mock

import ccnode

from .scripted_node import SESSION, STORED, ScriptedNode, learned, reply

LOOK_UP = socket.getaddrinfo


class SlowResolver:
    """The system's look-up, which takes so long for `slow.test`, or until it is told to go on."""

    def __init__(self, seconds: float) -> None:
        self.seconds = seconds
        self.go_on = threading.Event()
        self.look_ups = 0

    def __call__(self, host: str, port: int, *, type: int, flags: int = 0) -> Any:
        if host != "slow.test" or flags:
            return LOOK_UP(host, port, type=type, flags=flags)
        self.look_ups += 1
        self.go_on.wait(self.seconds)
        return LOOK_UP("127.0.0.1", port, type=type)


class ResolverTest(unittest.TestCase):
    def resolver(self, seconds: float) -> SlowResolver:
        resolver = SlowResolver(seconds)
        self.addCleanup(resolver.go_on.set)
        patch = mock.patch("socket.getaddrinfo", resolver)
        patch.start()
        self.addCleanup(patch.stop)
        return resolver

    def node(self) -> ScriptedNode:
        node = ScriptedNode([*learned(4), reply(6, STORED)])
        self.addCleanup(node.close)
        return node

    def test_a_look_up_counts_in_the_deadline(self) -> None:
        self.resolver(30)
        start = time.monotonic()
        with self.assertRaises(ccnode.DeadlineExceeded) as raised:
            ccnode.connect("slow.test:7001", SESSION, 0.2)
        self.assertLess(time.monotonic() - start, 2)
        self.assertIsInstance(raised.exception.__cause__, TimeoutError)
        self.assertFalse(raised.exception.is_pending)

    def test_the_next_attempt_waits_for_the_look_up_that_is_under_way(self) -> None:
        resolver, node = self.resolver(0.6), self.node()
        with mock.patch("ccnode.client._ATTEMPT", 0.2):
            with ccnode.connect(node.address.replace("127.0.0.1", "slow.test"), SESSION, 5) as client:
                client.store("a")
        self.assertEqual(resolver.look_ups, 1)

    def test_the_next_address_is_tried_meanwhile(self) -> None:
        self.resolver(30)
        node = self.node()
        with mock.patch("ccnode.client._ATTEMPT", 0.2):
            with ccnode.connect(["slow.test:7001", node.address], SESSION, 5) as client:
                client.store("a")

    def test_a_name_that_nobody_knows(self) -> None:
        with self.assertRaises(ccnode.DeadlineExceeded) as raised:
            ccnode.connect("name.invalid:7001", SESSION, 0.2)
        self.assertIsInstance(raised.exception.__cause__, OSError)


if __name__ == "__main__":
    unittest.main()
