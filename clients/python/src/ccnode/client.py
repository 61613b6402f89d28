"""A client of one node: one request at a time, each under a number of its own, asked again until it is answered."""

from __future__ import annotations

import threading
import time
from contextlib import contextmanager
from types import TracebackType
from typing import Iterator, List, Optional, Sequence, Tuple, Type, Union

from . import wire
from .connection import Connection
from .deadline import Deadline
from .errors import ClientClosed, DeadlineExceeded, Fault, InvalidArgument, Malformed, Refusal, Refused, SessionInUse
from .resolver import Address, Resolver
from .snapshot import Snapshot, take_snapshot
from .watch import Watch
from .wire import Answer, Command, Refusing, Row, Told

DEFAULT_TIMEOUT = 10.0

# A request without an answer for so many seconds is asked again over a new connection.
_ATTEMPT = 2.0
# A client pauses so many seconds before it asks again, twice as many each time up to the greatest.
_FIRST_PAUSE, _LONGEST_PAUSE = 0.01, 0.32
# The node asks for patience: it may take the same request later.
_PASSING = frozenset(
    (Refusal.NOT_ENTERED, Refusal.NOT_JOINED, Refusal.BUSY, Refusal.OUTBOX_FULL, Refusal.NO_MEMORY, Refusal.QUEUE_FULL)
)


def connect(addresses: Union[str, Sequence[str]], session: int, timeout: float = DEFAULT_TIMEOUT) -> "Client":
    """A client in a session of the node that listens at these addresses, "HOST:PORT" each; several lead to one node.

    It returns once no request of an earlier client of the session is under way any more. `timeout` is in seconds, and
    that of each call that names none. It raises InvalidArgument, DeadlineExceeded, Refused, SessionInUse or Malformed.
    """
    client = Client(addresses, session, timeout)
    try:
        client._open()
    except BaseException:
        client.close()
        raise
    return client


class Client:
    """A client of one node, which `connect` makes. Threads may share it: their calls take turns.

    Each call waits `timeout` seconds at most and raises DeadlineExceeded then, Refused where the node refuses for good,
    InvalidArgument before anything is sent, ClientClosed, SessionInUse or Malformed.
    """

    def __init__(self, addresses: Union[str, Sequence[str]], session: int, timeout: float = DEFAULT_TIMEOUT) -> None:
        self._addresses = _parse_all(addresses)
        self._session = wire.whole(session, wire.MAX_U64, "a session")
        self._timeout = _seconds(timeout)
        self._turn = threading.Lock()
        self._connection: Optional[Connection] = None
        self._resolver = Resolver()
        # Which address is tried next.
        self._place = 0
        self._is_closed = False
        # The number of the next request, once that is known.
        self._next: Optional[int] = None
        # A request that was sent, and of which nobody knows yet what became.
        self._pending: Optional[Tuple[int, Command]] = None

    def store(self, text: Union[str, bytes], *, timeout: Optional[float] = None) -> None:
        """Stores a text of at most 64 bytes as this node's; a str is taken as UTF-8."""
        self._call(wire.store(text), timeout)

    def collect(self, *, timeout: Optional[float] = None) -> List[Row]:
        """The last row of each node that ever wrote, by ascending node."""
        return self._collect(self._deadline(timeout))

    def snapshot(self, *, timeout: Optional[float] = None) -> Snapshot:
        """What all nodes had at one moment: it collects until two collects in a row agree.

        Where others write all the time no two may agree until the deadline. A longer one gives it more tries.
        """
        deadline = self._deadline(timeout)
        return take_snapshot(lambda: self._collect(deadline))

    def max(self, number: int, *, timeout: Optional[float] = None) -> None:
        """Raises this node's maximum to `number`, at most 2^64 - 1; a smaller one leaves it as it is."""
        self._call(wire.write_max(number), timeout)

    def read_max(self, *, timeout: Optional[float] = None) -> int:
        """The greatest maximum of all nodes, 0 where none was written."""
        answer = self._call(wire.READ_MAX, timeout)
        assert isinstance(answer, wire.Max)
        return answer.value

    def flag(self, *, timeout: Optional[float] = None) -> None:
        """Sets this node's flag, for good."""
        self._call(wire.SET_FLAG, timeout)

    def read_flag(self, *, timeout: Optional[float] = None) -> bool:
        """Whether any node has set its flag."""
        answer = self._call(wire.READ_FLAG, timeout)
        assert isinstance(answer, wire.Flag)
        return answer.value

    def add(self, number: int, *, timeout: Optional[float] = None) -> None:
        """Adds a number, at most 2^32 - 1, to this node's set. Refused with SET_FULL where that has 32 others."""
        self._call(wire.add(number), timeout)

    def read_set(self, *, timeout: Optional[float] = None) -> List[int]:
        """The numbers that were added at any node, ascending."""
        answer = self._call(wire.READ_SET, timeout)
        assert isinstance(answer, wire.NumberSet)
        return list(answer.numbers)

    def watch(self, interval: float, *, timeout: Optional[float] = None) -> Watch:
        """Collects each `interval` seconds, and iterates over the rows that appeared or changed."""
        return Watch(lambda: self.collect(timeout=timeout), _seconds(interval))

    def close(self) -> None:
        """Ends the client. A call that is under way in another thread raises ClientClosed; it may still be done."""
        self._is_closed = True
        self._disconnect()

    def __enter__(self) -> "Client":
        return self

    def __exit__(
        self,
        kind: Optional[Type[BaseException]],
        error: Optional[BaseException],
        traceback: Optional[TracebackType],
    ) -> None:
        self.close()

    def _open(self) -> None:
        deadline = Deadline(self._timeout)
        with self._turn_by(deadline):
            self._learn(deadline)

    def _deadline(self, timeout: Optional[float]) -> Deadline:
        return Deadline(self._timeout if timeout is None else _seconds(timeout))

    def _collect(self, deadline: Deadline) -> List[Row]:
        answer = self._call_by(deadline, wire.COLLECT)
        assert isinstance(answer, wire.Seen)
        return list(answer.rows)

    def _call(self, command: Command, timeout: Optional[float]) -> Answer:
        return self._call_by(self._deadline(timeout), command)

    def _call_by(self, deadline: Deadline, command: Command) -> Answer:
        is_asked = False
        with self._turn_by(deadline):
            try:
                self._settle(deadline)
                number = self._learn(deadline) if self._next is None else self._next
                is_asked = True
                return self._answered(number, command, deadline)
            except DeadlineExceeded as error:
                error.is_pending = is_asked and self._pending is not None
                raise

    @contextmanager
    def _turn_by(self, deadline: Deadline) -> Iterator[None]:
        if not self._turn.acquire(timeout=deadline.left()):
            raise DeadlineExceeded("another call of the client was under way all the time")
        try:
            yield
        except Refused:
            raise
        except BaseException:
            # What comes over this connection from now on belongs to a call that has ended.
            self._disconnect()
            raise
        finally:
            self._turn.release()

    def _settle(self, deadline: Deadline) -> None:
        """Brings the request of an earlier call, of which nobody knows what became, to its end."""
        if self._pending is None:
            return
        number, command = self._pending
        try:
            self._answered(number, command, deadline)
        except Refused:
            pass
        except SessionInUse:
            # Nobody waits for what a reading would have told any more.
            if not command.is_reading:
                raise

    def _learn(self, deadline: Deadline) -> int:
        """The number of the next request, which no earlier client's request can take any more.

        A request that an earlier client gave up may still be on its way under the number after the last one. So that number
        goes to a reading, which does no harm: once it is answered, the other one has been done, or never will be.
        """
        last = self._last_request(deadline)
        while True:
            told = self._told(last + 1, wire.READ_FLAG, deadline)
            if isinstance(told, Refusing):
                # The other one has taken the number, or a later one.
                last = self._stale(told)
            elif isinstance(told.answer, wire.Flag):
                self._next = number = last + 2
                return number
            else:
                last = self._last_request(deadline)

    def _last_request(self, deadline: Deadline) -> int:
        told = self._ask(0, wire.READ_FLAG, deadline)
        if not isinstance(told, Refusing):
            raise SessionInUse("request 0, which no node takes, was answered")
        return self._stale(told)

    def _stale(self, told: Refusing) -> int:
        """The session's last request, by a refusal that tells it. Refused by any other."""
        if told.refusal is Refusal.SKIP:
            raise SessionInUse(f"request {told.request} isn't next: the session's last one is {told.carried}")
        if told.refusal is not Refusal.STALE:
            raise Refused(told.refusal, told.carried)
        if told.carried > wire.MAX_REQUEST:
            raise Malformed(Fault.TOO_LARGE)
        return told.carried

    def _answered(self, number: int, command: Command, deadline: Deadline) -> Answer:
        """The answer to a request: one of the command's kind."""
        told = self._told(number, command, deadline)
        if isinstance(told, wire.Reply):
            if isinstance(told.answer, command.answer):
                self._next = number + 1
                return told.answer
            raise SessionInUse(f"request {number} got an answer to another command")
        if told.refusal in (Refusal.STALE, Refusal.SKIP):
            raise SessionInUse(f"request {number} isn't next: the session's last one is {told.carried}")
        self._next = number
        raise Refused(told.refusal, told.carried)

    def _told(self, number: int, command: Command, deadline: Deadline) -> Told:
        """What becomes of a request, which is pending once it was sent until the node says so."""
        told = self._ask(number, command, deadline)
        self._pending = self._next = None
        return told

    def _ask(self, number: int, command: Command, deadline: Deadline) -> Told:
        """What the node says of a request: its answer, or a refusal that stands. Until then it is asked again."""
        pause = _FIRST_PAUSE
        while not self._is_closed:
            cause: Exception
            try:
                told = self._exchange(number, command, deadline.sooner(_ATTEMPT))
                if not isinstance(told, Refusing) or told.refusal not in _PASSING:
                    return told
                cause = Refused(told.refusal, told.carried)
            except OSError as broken:
                self._disconnect()
                cause = broken
            time.sleep(min(pause, deadline.left()))
            pause = min(2 * pause, _LONGEST_PAUSE)
            if deadline.left() <= 0:
                raise DeadlineExceeded(f"no answer in time: {cause}") from cause
        raise ClientClosed("the client was closed")

    def _exchange(self, number: int, command: Command, deadline: Deadline) -> Told:
        """What the node says of a request to one sending of it. What it says of others is passed over."""
        connection = self._connected(deadline)
        if number != 0:
            self._pending = (number, command)
        connection.send(wire.encode_ask(self._session, number, command), deadline)
        while True:
            told = connection.receive(deadline)
            if (told.session, told.request) != (self._session, number):
                continue
            # A request that was taken before is answered again.
            if not isinstance(told, Refusing) or told.refusal is not Refusal.REPEAT:
                return told

    def _connected(self, deadline: Deadline) -> Connection:
        connection = self._connection
        if connection is None:
            address = self._addresses[self._place % len(self._addresses)]
            self._place += 1
            connection = self._connection = Connection(self._resolver.find(address, deadline), deadline)
        if self._is_closed:
            raise ConnectionError("the client was closed")
        return connection

    def _disconnect(self) -> None:
        connection, self._connection = self._connection, None
        if connection is not None:
            connection.close()


def _seconds(seconds: float) -> float:
    is_number = isinstance(seconds, (int, float)) and not isinstance(seconds, bool)
    if not is_number or not 0 < seconds <= threading.TIMEOUT_MAX:
        raise InvalidArgument(f"a time is above 0 and at most {threading.TIMEOUT_MAX} seconds, not {seconds!r}")
    return seconds


def _parse_all(addresses: Union[str, Sequence[str]]) -> List[Address]:
    if not isinstance(addresses, (str, Sequence)) or not addresses:
        raise InvalidArgument(f"an address is needed, or a list of some, not {addresses!r}")
    return [_parse(text) for text in ([addresses] if isinstance(addresses, str) else addresses)]


def _parse(text: str) -> Address:
    host, colon, port = text.rpartition(":") if isinstance(text, str) else ("", "", "")
    if not (host and colon and port.isascii() and port.isdigit() and 0 < int(port) < 65_536):
        raise InvalidArgument(f"an address is HOST:PORT, not {text!r}")
    host = host.strip("[]")
    try:
        host.encode("idna")
    except UnicodeError as why:
        raise InvalidArgument(f"{host!r} is no name of a host: {why}") from None
    return host, int(port)
