"""The encoder and the decoder against clients/vectors.json."""

from __future__ import annotations

import json
import pathlib
import unittest
from typing import Any, Callable, Dict

from ccnode import Fault, InvalidArgument, Malformed, Refusal, Row, wire

VECTORS = json.loads((pathlib.Path(__file__).resolve().parents[2] / "vectors.json").read_text())


def command_of(vector: Dict[str, Any]) -> wire.Command:
    argument = vector["argument"]
    made: Dict[str, Callable[[], wire.Command]] = {
        "store": lambda: wire.store(bytes.fromhex(argument)),
        "collect": lambda: wire.COLLECT,
        "max": lambda: wire.write_max(int(argument)),
        "read_max": lambda: wire.READ_MAX,
        "flag": lambda: wire.SET_FLAG,
        "read_flag": lambda: wire.READ_FLAG,
        "add": lambda: wire.add(int(argument)),
        "read_set": lambda: wire.READ_SET,
    }
    return made[vector["command"]]()


def row_of(vector: Dict[str, Any]) -> Row:
    return Row(
        node=int(vector["node"]),
        number=int(vector["number"]),
        text=bytes.fromhex(vector["text"]),
        max=int(vector["max"]),
        flag=vector["flag"] == "1",
        set=tuple(map(int, vector["set"])),
    )


def answer_of(vector: Dict[str, Any]) -> wire.Answer:
    made: Dict[str, Callable[[], wire.Answer]] = {
        "Stored": wire.Stored,
        "Seen": lambda: wire.Seen(tuple(map(row_of, vector["rows"]))),
        "Max": lambda: wire.Max(int(vector["max"])),
        "Flag": lambda: wire.Flag(vector["flag"] == "1"),
        "Set": lambda: wire.NumberSet(tuple(map(int, vector["set"]))),
    }
    return made[vector["answer"]]()


def decode(frame: bytes) -> wire.Told:
    length = wire.decode_length(frame[:4])
    assert length == len(frame) - 4
    return wire.decode_body(frame[4:])


class WireTest(unittest.TestCase):
    def test_asks(self) -> None:
        for vector in VECTORS["asks"]:
            with self.subTest(vector["name"]):
                frame = wire.encode_ask(int(vector["session"]), int(vector["request"]), command_of(vector))
                self.assertEqual(frame.hex(), vector["frame"].replace(" ", ""))

    def test_replies(self) -> None:
        for vector in VECTORS["replies"]:
            with self.subTest(vector["name"]):
                told = wire.Reply(int(vector["session"]), int(vector["request"]), answer_of(vector))
                self.assertEqual(decode(bytes.fromhex(vector["frame"])), told)

    def test_refusals(self) -> None:
        for vector in VECTORS["refusals"]:
            with self.subTest(vector["name"]):
                told = decode(bytes.fromhex(vector["frame"]))
                assert isinstance(told, wire.Refusing)
                self.assertEqual(told, wire.Refusing(7, 1, Refusal(int(vector["number"])), int(vector["carried"])))
                self.assertEqual(told.refusal.name.replace("_", ""), vector["name"].upper())

    def test_malformed(self) -> None:
        for vector in VECTORS["malformed"]:
            with self.subTest(vector["name"]), self.assertRaises(Malformed) as raised:
                decode(bytes.fromhex(vector["frame"]))
            self.assertEqual(raised.exception.fault, Fault(vector["fault"]), vector["name"])

    def test_each_reply_cut_short(self) -> None:
        for vector in VECTORS["replies"] + VECTORS["refusals"]:
            body = bytes.fromhex(vector["frame"])[4:]
            for length in range(len(body)):
                with self.assertRaises(Malformed) as raised:
                    wire.decode_body(body[:length])
                self.assertEqual(raised.exception.fault, Fault.SHORT)

    def test_each_byte_changed(self) -> None:
        for vector in VECTORS["replies"]:
            body = bytes.fromhex(vector["frame"])[4:]
            for place in range(len(body)):
                for byte in range(256):
                    try:
                        wire.decode_body(body[:place] + bytes([byte]) + body[place + 1 :])
                    except Malformed:
                        pass

    def test_arguments_outside_their_limits(self) -> None:
        for make in (
            lambda: wire.store(bytes(65)),
            lambda: wire.store("é" * 33),
            lambda: wire.write_max(-1),
            lambda: wire.write_max(2**64),
            lambda: wire.add(-1),
            lambda: wire.add(2**32),
            lambda: wire.add(True),
        ):
            self.assertRaises(InvalidArgument, make)


if __name__ == "__main__":
    unittest.main()
