#!/usr/bin/env python3
"""A client of one node, by docs/FORMATS.md and the standard library alone: client.py 127.0.0.1:7001 7 store hello

Its words are those of `ccnode ask`: an address, a session, and store WORD, collect, max N, readmax, flag, readflag, add N
or readset. It prints the answer, its texts as they are, or `refused`, the refusal's number and what it carries. Where
another client uses the session it says so, and its status is 1.
"""
import socket
import struct
import sys
import time

COMMANDS = ["store", "collect", "max", "readmax", "flag", "readflag", "add", "readset"]
# The first word of the answer that each command gets.
ANSWERS = dict(zip(COMMANDS, ["Stored", "Seen", "Stored", "Max", "Stored", "Flag", "Stored", "Set"]))
FENCE = ["readflag"]
REPEAT, STALE, SKIP, BUSY, OUTBOX_FULL, QUEUE_FULL = 10, 11, 12, 13, 15, 18
# The node asks for patience: it may take the same request later.
PASSING = (BUSY, OUTBOX_FULL, QUEUE_FULL)


def command_bytes(words):
    kind = COMMANDS.index(words[0]) + 1
    if words[0] == "store":
        text = words[1].encode()
        return bytes([kind, len(text)]) + text
    field = {"max": ">Q", "add": ">I"}.get(words[0])
    return bytes([kind]) + (struct.pack(field, int(words[1])) if field else b"")


def ask_frame(session, request, command):
    body = b"\x03" + struct.pack(">QQ", session, request) + command
    return struct.pack(">I", len(body)) + body


def read_exactly(connection, count):
    data = b""
    while len(data) < count:
        data += (piece := connection.recv(count - len(data)))
        if not piece:
            raise ConnectionError("the node has closed the connection")
    return data


def read_frame(connection):
    return read_exactly(connection, int.from_bytes(read_exactly(connection, 4), "big"))


def rows_of(data, count):
    """The rows of a view, as text."""
    at = 0
    for _ in range(count):
        node, number, length = struct.unpack_from(">IQB", data, at)
        text, at = data[at + 13 : at + 13 + length].decode(errors="replace"), at + 13 + length
        greatest, flag, size = struct.unpack_from(">QBB", data, at)
        numbers, at = struct.unpack_from(f">{size}I", data, at + 10), at + 10 + 4 * size
        yield f"{node}:{number}={text}/{greatest}/{flag}/{'+'.join(map(str, numbers))}"


def answer_text(data):
    kind, fields = data[0], data[1:]
    if kind in (2, 5):
        (count,), rest = struct.unpack(">H", fields[:2]), fields[2:]
        items = rows_of(rest, count) if kind == 2 else map(str, struct.unpack(f">{count}I", rest))
        return f"{'Seen' if kind == 2 else 'Set'} [{','.join(items)}]"
    return {1: "Stored", 3: "Max ", 4: "Flag "}[kind] + (str(int.from_bytes(fields, "big")) if fields else "")


def answer_to(connection, session, request, command):
    """What the node says of this request: its answer, or the number of the refusal and what it carries."""
    connection.sendall(ask_frame(session, request, command))
    while True:
        frame = read_frame(connection)
        if struct.unpack(">QQ", frame[1:17]) == (session, request):
            if frame[0] == 4:
                return answer_text(frame[17:]), None, None
            if frame[17] != REPEAT:
                return None, frame[17], int.from_bytes(frame[18:], "big")


class SessionInUse(Exception):
    """Another client asks in this session. Whether the command was done isn't known."""


class Request:
    """A command, and what is asked next on its behalf: under 0, then the fence, then the command itself.

    An earlier client's request may still be on its way under the number after the session's last one. So that number goes
    to a reading, the fence, which does no harm. Once it is answered the earlier request was done, or never will be, and the
    number after it is the command's.
    """

    def __init__(self, words):
        self.words, self.step = words, "last"
        self.number, self.asked = 0, FENCE

    def take_number(self, last):
        """The fence goes under the number after the session's last request."""
        self.step, self.number, self.asked = "fence", last + 1, FENCE

    def is_told(self, answer, refusal, last):
        """What the command comes to, where that is told by now. Else what is asked next has been set."""
        if self.step == "command":
            return self.outcome(answer, refusal, last)
        if refusal == STALE:
            self.take_number(last)
        elif refusal:
            return f"refused {refusal} {last}"
        elif self.step == "fence" and answers(FENCE, answer):
            self.step, self.number, self.asked = "command", self.number + 1, self.words
        else:
            # The number was taken by a request of an earlier client.
            self.step, self.number = "last", 0
        return None

    def outcome(self, answer, refusal, last):
        if refusal in (STALE, SKIP) or (answer and not answers(self.words, answer)):
            raise SessionInUse(f"request {self.number} is another client's")
        return answer or f"refused {refusal} {last}"


def answers(words, answer):
    """Whether the answer is one that this command gets."""
    return answer.split()[0] == ANSWERS[words[0]]


def ask(address, session, words, seconds=10.0):
    """The command's answer, or its refusal. It is asked under one number, so it is done once whatever breaks."""
    host, port = address.rsplit(":", 1)
    request, end = Request(words), time.monotonic() + seconds
    # Words that are no command fail before anything is sent.
    command_bytes(words)
    while True:
        try:
            with socket.create_connection((host, int(port)), timeout=2) as connection:
                connection.setsockopt(socket.IPPROTO_TCP, socket.TCP_NODELAY, 1)
                while True:
                    told = answer_to(connection, session, request.number, command_bytes(request.asked))
                    if told[1] in PASSING and time.monotonic() < end:
                        time.sleep(0.02)
                    elif outcome := request.is_told(*told):
                        return outcome
        except OSError:
            if time.monotonic() > end:
                raise
            time.sleep(0.1)


def main():
    address, session, words = sys.argv[1], int(sys.argv[2]), sys.argv[3:]
    try:
        print(ask(address, session, words))
    except SessionInUse as why:
        sys.exit(f"another client uses session {session}: {why}")


if __name__ == "__main__":
    main()
