"""What a client asks, and what it makes of what it is told, against a node that answers by a script."""

from __future__ import annotations

import threading
import time
import unittest
from typing import Dict, List, Sequence

import ccnode
from ccnode import DeadlineExceeded, Fault, InvalidArgument, Malformed, Refusal, Refused, SessionInUse

from .scripted_node import FLAG_0, SEEN_NOTHING, SESSION, STORED, ScriptedNode, Step, learned, refused, reply

READ_FLAG, COLLECT, STORE_A, STORE_B = "06", "02", "010161", "010162"
# What a client asks first where the session's last request is 4.
LEARNING = [(0, READ_FLAG), (5, READ_FLAG)]


def row(node: int, number: int, text: str) -> str:
    return f"{node:08x}{number:016x}{len(text):02x}{text.encode().hex()}{0:016x}0000"


# Views that differ.
VIEWS = [
    "020001" + row(1, 1, "a"),
    "020002" + row(1, 1, "a") + row(2, 1, "b"),
    "020002" + row(1, 2, "c") + row(2, 1, "b"),
]


def replies(first: int, views: Sequence[str]) -> List[Step]:
    """A reply with each view to requests from the first one on."""
    return [reply(number, view) for number, view in enumerate(views, first)]


class ClientTest(unittest.TestCase):
    def node(self, *steps: Step) -> ScriptedNode:
        """A node of whose session the last request is 4, and what it says from request 6 on."""
        return self.kept(ScriptedNode([*learned(4), *steps]))

    def kept(self, node: ScriptedNode) -> ScriptedNode:
        self.addCleanup(node.close)
        return node

    def client(self, node: ScriptedNode, timeout: float = 5.0) -> ccnode.Client:
        client = ccnode.connect(node.address, SESSION, timeout)
        self.addCleanup(client.close)
        return client

    def test_requests_are_numbered_from_the_last_one(self) -> None:
        node = self.node(reply(6, STORED), reply(7, SEEN_NOTHING))
        client = self.client(node)
        client.store("a")
        self.assertEqual(client.collect(), [])
        self.assertEqual(node.asks, [*LEARNING, (6, STORE_A), (7, COLLECT)])

    def test_a_request_of_an_earlier_client_takes_no_write_with_it(self) -> None:
        steps = [refused(0, 11, 4), reply(5, STORED), refused(0, 11, 5), reply(6, FLAG_0), reply(7, STORED)]
        node = self.kept(ScriptedNode(steps))
        self.client(node).store("b")
        self.assertEqual(node.asks, [*LEARNING, (0, READ_FLAG), (6, READ_FLAG), (7, STORE_B)])

    def test_a_number_that_another_command_has_taken_is_left_to_it(self) -> None:
        fences = [refused(0, 11, 4), refused(5, 11, 5), refused(6, 11, 8), reply(9, FLAG_0)]
        node = self.kept(ScriptedNode([*fences, reply(10, STORED)]))
        self.client(node).store("b")
        self.assertEqual(node.asks, [*LEARNING, (6, READ_FLAG), (9, READ_FLAG), (10, STORE_B)])

    def test_a_number_beyond_the_next_one_is_of_another_session(self) -> None:
        node = self.kept(ScriptedNode([refused(0, 11, 4), refused(5, 12, 2)]))
        self.assertRaises(SessionInUse, self.client, node)

    def test_a_broken_connection_leaves_the_number(self) -> None:
        node = self.node(None, reply(6, STORED))
        self.client(node).store("a")
        self.assertEqual(node.asks, [*LEARNING, (6, STORE_A), (6, STORE_A)])

    def test_what_passes_is_asked_again(self) -> None:
        passing = [2, 4, 13, 15, 17, 18]
        node = self.node(*(refused(6, number) for number in passing), reply(6, STORED))
        self.client(node).store("a")
        self.assertEqual(node.asks, [*LEARNING, *[(6, STORE_A)] * 7])

    def test_what_passes_until_the_deadline_is_its_cause(self) -> None:
        node = self.node(*[refused(6, 4)] * 100)
        with self.assertRaises(DeadlineExceeded) as raised:
            self.client(node).store("a", timeout=0.1)
        cause = raised.exception.__cause__
        assert isinstance(cause, Refused)
        self.assertEqual(cause.refusal, Refusal.NOT_JOINED)

    def test_a_late_request_is_settled_before_the_next_one(self) -> None:
        node = self.node(b"", b"", reply(6, STORED), reply(7, STORED))
        client = self.client(node)
        for is_pending, text in ((True, "a"), (False, "b")):
            with self.assertRaises(DeadlineExceeded) as raised:
                client.store(text, timeout=0.05)
            self.assertEqual(raised.exception.is_pending, is_pending)
        client.store("b")
        self.assertEqual(node.asks, [*LEARNING, (6, STORE_A), (6, STORE_A), (6, STORE_A), (7, STORE_B)])

    def test_a_late_request_that_is_refused_leaves_its_number(self) -> None:
        node = self.node(b"", refused(6, 14), reply(6, STORED))
        client = self.client(node)
        self.assertRaises(DeadlineExceeded, client.add, 9, timeout=0.05)
        client.store("b")
        self.assertEqual(node.asks[3:], [(6, "0700000009"), (6, STORE_B)])

    def test_a_late_reading_whose_number_another_command_has_taken_is_forgotten(self) -> None:
        for told in (refused(6, 11, 6), reply(6, STORED)):
            node = self.node(b"", told, *learned(6), reply(8, STORED))
            client = self.client(node)
            self.assertRaises(DeadlineExceeded, client.collect, timeout=0.05)
            client.store("b")
            self.assertEqual(node.asks[3:], [(6, COLLECT), (0, READ_FLAG), (7, READ_FLAG), (8, STORE_B)])

    def test_a_late_write_whose_number_another_command_has_taken_is_told(self) -> None:
        for told in (refused(6, 11, 6), reply(6, FLAG_0)):
            node = self.node(b"", told, *learned(6), reply(8, STORED))
            client = self.client(node)
            self.assertRaises(DeadlineExceeded, client.store, "a", timeout=0.05)
            self.assertRaises(SessionInUse, client.store, "b")
            client.store("b")
            self.assertEqual(node.asks[3:], [(6, STORE_A), (0, READ_FLAG), (7, READ_FLAG), (8, STORE_B)])

    def test_a_request_that_was_never_sent_is_not_pending(self) -> None:
        node = self.node()
        client = self.client(node)
        node.close()
        client._disconnect()
        with self.assertRaises(DeadlineExceeded) as raised:
            client.store("a", timeout=0.05)
        self.assertFalse(raised.exception.is_pending)
        self.assertIsInstance(raised.exception.__cause__, OSError)

    def test_refused_for_good(self) -> None:
        node = self.node(refused(6, 14), reply(6, STORED))
        client = self.client(node)
        with self.assertRaises(Refused) as raised:
            client.add(9)
        self.assertEqual((raised.exception.refusal, raised.exception.carried), (Refusal.SET_FULL, 0))
        client.store("b")
        self.assertEqual(node.asks[2:], [(6, "0700000009"), (6, STORE_B)])

    def test_another_client_in_the_session(self) -> None:
        for told in (refused(6, 11, 9), refused(6, 12, 2), reply(6, SEEN_NOTHING)):
            node = self.node(told, *learned(9), reply(11, STORED))
            client = self.client(node)
            self.assertRaises(SessionInUse, client.store, "a")
            client.store("b")
            self.assertEqual(node.asks[2:], [(6, STORE_A), (0, READ_FLAG), (10, READ_FLAG), (11, STORE_B)])

    def test_what_is_told_of_others_is_passed_over(self) -> None:
        others = reply(5, STORED) + reply(6, STORED, session=8) + refused(7, 13) + refused(6, 10)
        node = self.node(others + reply(6, "03000000000000002a"))
        self.assertEqual(self.client(node).read_max(), 42)

    def test_malformed_frames_end_the_connection(self) -> None:
        node = self.node(bytes.fromhex("00010001ff"), reply(6, STORED), reply(7, STORED))
        client = self.client(node)
        with self.assertRaises(Malformed) as raised:
            client.store("a")
        self.assertEqual(raised.exception.fault, Fault.TOO_LARGE)
        client.store("b")
        self.assertEqual(node.asks[2:], [(6, STORE_A), (6, STORE_A), (7, STORE_B)])

    def test_a_last_request_that_no_node_has(self) -> None:
        node = self.kept(ScriptedNode([refused(0, 11, 2**64 - 1)]))
        self.assertRaises(Malformed, ccnode.connect, node.address, SESSION)

    def test_addresses_are_tried_in_turn(self) -> None:
        gone = ScriptedNode([])
        gone.close()
        node = self.node(reply(6, STORED))
        with ccnode.connect([gone.address, node.address], SESSION) as client:
            client.store("a")
        self.assertEqual(node.asks, [*LEARNING, (6, STORE_A)])

    def test_arguments_are_looked_at_before_anything_is_sent(self) -> None:
        node = self.node()
        client = self.client(node)
        for text in (bytes(65), "\ud800", 5, True, None, 1.5, [97], ("a",)):
            self.assertRaises(InvalidArgument, client.store, text)
        for number in (2**64, -1, 1.0, True, None, "1"):
            self.assertRaises(InvalidArgument, client.max, number)
            self.assertRaises(InvalidArgument, ccnode.connect, node.address, number)
        self.assertRaises(InvalidArgument, client.add, 2**32)
        for time_given in (0, -1, True, "1", float("nan")):
            self.assertRaises(InvalidArgument, client.flag, timeout=time_given)
            self.assertRaises(InvalidArgument, client.snapshot, timeout=time_given)
            self.assertRaises(InvalidArgument, client.watch, time_given)
        self.assertRaises(InvalidArgument, ccnode.connect, node.address, SESSION, None)
        for addresses in ([], "", "7001", "127.0.0.1:0", "127.0.0.1:65536", 7001, [7001], None, f"{'a' * 64}.b:7001"):
            self.assertRaises(InvalidArgument, ccnode.connect, addresses, SESSION)
        self.assertEqual(node.asks, LEARNING)

    def test_a_closed_client(self) -> None:
        node = self.node(b"")
        client = self.client(node)
        raised: List[BaseException] = []

        def collect() -> None:
            try:
                client.collect()
            except ccnode.ClientClosed as error:
                raised.append(error)

        thread = threading.Thread(target=collect)
        thread.start()
        time.sleep(0.05)
        client.close()
        thread.join(5)
        self.assertEqual(len(raised), 1)
        self.assertRaises(ccnode.ClientClosed, client.collect)

    def test_threads_take_turns(self) -> None:
        node = self.node(*(reply(number, STORED) for number in range(6, 16)))
        client = self.client(node)
        threads = [threading.Thread(target=client.store, args=("a",)) for _ in range(10)]
        for thread in threads:
            thread.start()
        for thread in threads:
            thread.join(5)
        self.assertEqual(node.asks[2:], [(number, STORE_A) for number in range(6, 16)])

    def test_a_watch_tells_what_changed(self) -> None:
        node = self.node(*replies(6, VIEWS), b"", reply(9, VIEWS[2]))
        watch = self.client(node, timeout=0.2).watch(0.001)
        seen = [(change.node, change.old and change.old.text, change.new.text) for change in (next(watch) for _ in range(3))]
        self.assertEqual(seen, [(1, None, b"a"), (2, None, b"b"), (1, b"a", b"c")])
        self.assertRaises(DeadlineExceeded, next, watch)

    def test_a_snapshot_is_what_two_collects_in_a_row_show(self) -> None:
        shown: Dict[str, List[ccnode.Row]] = {SEEN_NOTHING: [], VIEWS[0]: [ccnode.Row(1, 1, b"a", 0, False, ())]}
        for view, rows in shown.items():
            node = self.node(*replies(6, [view, view]), reply(8, STORED))
            client = self.client(node)
            self.assertEqual(client.snapshot(), ccnode.Snapshot(rows, 2))
            client.store("a")
            self.assertEqual(node.asks[2:], [(6, COLLECT), (7, COLLECT), (8, STORE_A)])

    def test_a_snapshot_collects_until_two_in_a_row_agree(self) -> None:
        for first in VIEWS[:2]:
            node = self.node(*replies(6, [first, VIEWS[2], VIEWS[2]]))
            taken = self.client(node).snapshot()
            self.assertEqual([(row.node, row.number, row.text) for row in taken.rows], [(1, 2, b"c"), (2, 1, b"b")])
            self.assertEqual(taken.collects, 3)
            self.assertEqual(node.asks[2:], [(6, COLLECT), (7, COLLECT), (8, COLLECT)])

    def test_no_two_collects_in_a_row_agree(self) -> None:
        for answered in (2, 3):
            late = 6 + answered
            node = self.node(*replies(6, VIEWS[:answered]), b"", reply(late, VIEWS[2]), reply(late + 1, STORED))
            client = self.client(node)
            text = f"^no two in a row of {answered} collects agree, since others write$"
            with self.assertRaisesRegex(DeadlineExceeded, text) as raised:
                client.snapshot(timeout=0.3)
            self.assertTrue(raised.exception.is_pending)
            self.assertIsInstance(raised.exception.__cause__, OSError)
            client.store("a")
            collects = [(number, COLLECT) for number in (*range(6, late), late, late)]
            self.assertEqual(node.asks[2:], [*collects, (late + 1, STORE_A)])

    def test_too_few_collects_to_compare(self) -> None:
        for answered in (0, 1):
            node = self.node(*replies(6, VIEWS[:answered]), b"")
            with self.assertRaisesRegex(DeadlineExceeded, "^no answer in time") as raised:
                self.client(node).snapshot(timeout=0.2)
            self.assertTrue(raised.exception.is_pending)

    def test_all_collects_of_a_snapshot_have_one_deadline(self) -> None:
        views = ["020001" + row(1, number, "a") for number in range(20_000)]
        node = self.node(*replies(6, views))
        with self.assertRaisesRegex(DeadlineExceeded, r"^no two in a row of \d+ collects agree, since others write$"):
            self.client(node).snapshot(timeout=0.1)
        asks = node.asks[2:]
        self.assertLess(len(asks), len(views))
        self.assertEqual(asks, [(number, COLLECT) for number in range(6, 6 + len(asks))])

    def test_a_connection_that_breaks_between_the_collects_of_a_snapshot(self) -> None:
        node = self.node(reply(6, VIEWS[0]), None, reply(7, VIEWS[0]))
        self.assertEqual(self.client(node).snapshot().collects, 2)
        self.assertEqual(node.asks[2:], [(6, COLLECT), (7, COLLECT), (7, COLLECT)])


if __name__ == "__main__":
    unittest.main()
