"""What examples/client.py asks, and what it makes of what it is told, against a node that answers by a script."""
import pathlib
import subprocess
import sys
import unittest

HERE = pathlib.Path(__file__).resolve().parent
sys.path[:0] = [str(HERE / "python/tests"), str(HERE.parent / "examples")]
import client  # noqa: E402
from scripted_node import FLAG_0, SESSION, STORED, ScriptedNode, learned, refused, reply  # noqa: E402

READ_FLAG, STORE_A, ADD_NINE = "06", "010161", "0700000009"


class ExampleTest(unittest.TestCase):
    def node(self, *steps):
        node = ScriptedNode(steps)
        self.addCleanup(node.close)
        return node

    def store(self, node):
        return client.ask(node.address, SESSION, ["store", "a"])

    def test_the_number_after_the_last_one_goes_to_a_reading(self):
        node = self.node(*learned(41), reply(43, STORED))
        self.assertEqual(self.store(node), "Stored")
        self.assertEqual(node.asks, [(0, READ_FLAG), (42, READ_FLAG), (43, STORE_A)])

    def test_an_earlier_request_that_takes_the_number_is_waited_for(self):
        told = reply(42, STORED), refused(0, 11, 42), reply(43, FLAG_0)
        node = self.node(refused(0, 11, 41), *told, reply(44, STORED))
        self.assertEqual(self.store(node), "Stored")
        fences = [(0, READ_FLAG), (42, READ_FLAG), (0, READ_FLAG), (43, READ_FLAG)]
        self.assertEqual(node.asks, [*fences, (44, STORE_A)])

    def test_a_fence_that_is_refused_goes_under_the_number_after_the_last_one(self):
        node = self.node(refused(0, 11, 41), refused(42, 11, 42), reply(43, FLAG_0), reply(44, STORED))
        self.assertEqual(self.store(node), "Stored")
        self.assertEqual(node.asks, [(0, READ_FLAG), (42, READ_FLAG), (43, READ_FLAG), (44, STORE_A)])

    def test_the_command_of_another_client_is_told(self):
        for told in (reply(43, FLAG_0), refused(43, 11, 43), refused(43, 12, 9)):
            node = self.node(*learned(41), told)
            self.assertRaises(client.SessionInUse, self.store, node)

    def test_its_status_is_1_where_another_client_uses_the_session(self):
        node = self.node(*learned(41), reply(43, FLAG_0))
        words = [sys.executable, HERE.parent / "examples/client.py", node.address, str(SESSION), "store", "a"]
        ended = subprocess.run(words, capture_output=True, text=True, timeout=30)
        self.assertEqual((ended.returncode, ended.stdout), (1, ""))
        self.assertIn("another client uses session 7", ended.stderr)

    def test_a_request_keeps_its_number_where_the_connection_breaks(self):
        node = self.node(refused(0, 11, 41), None, reply(42, FLAG_0), None, refused(43, 13), reply(43, STORED))
        self.assertEqual(self.store(node), "Stored")
        asks = [(0, READ_FLAG), *[(42, READ_FLAG)] * 2, *[(43, STORE_A)] * 3]
        self.assertEqual(node.asks, asks)

    def test_refused_for_good(self):
        node = self.node(*learned(41), refused(43, 14))
        self.assertEqual(client.ask(node.address, SESSION, ["add", "9"]), "refused 14 0")
        self.assertEqual(node.asks[2:], [(43, ADD_NINE)])


if __name__ == "__main__":
    unittest.main()
