"""What a call may raise."""

from __future__ import annotations

import enum


class Refusal(enum.IntEnum):
    """Why a node refuses a request, by its number (docs/FORMATS.md, "Refusals")."""

    LEFT = 1
    NOT_ENTERED = 2
    ALREADY_ENTERED = 3
    NOT_JOINED = 4
    OLD = 5
    GAP = 6
    NOTHING_TO_ACK = 7
    TOO_MANY_NODES = 8
    TOO_MANY_SESSIONS = 9
    REPEAT = 10
    STALE = 11
    SKIP = 12
    BUSY = 13
    SET_FULL = 14
    OUTBOX_FULL = 15
    SPENT = 16
    NO_MEMORY = 17
    QUEUE_FULL = 18


class Fault(enum.Enum):
    """What is wrong with bytes that spell no frame of a node (docs/FORMATS.md, "What a decoder refuses")."""

    SHORT = "Short"
    TOO_LARGE = "TooLarge"
    BAD_KIND = "BadKind"
    NOT_ASCENDING = "NotAscending"
    TRAILING = "Trailing"


class CcnodeError(Exception):
    """Whatever this package raises."""


class InvalidArgument(CcnodeError, ValueError):
    """An argument is outside its limits. Nothing was sent."""


class ClientClosed(CcnodeError):
    """The client was closed."""


class DeadlineExceeded(CcnodeError, TimeoutError):
    """No answer came in time, or no two collects in a row of a snapshot agreed.

    Where `is_pending`, what was asked may have been done, and the client's next call first asks it again until it is; else
    it was never sent. `__cause__` is why the last attempt failed: an OSError, or the Refused that the node told last.
    """

    is_pending: bool = False


class SessionInUse(CcnodeError):
    """Another client asks in this session, or the addresses lead to different nodes. What was asked may have been done."""


class Malformed(CcnodeError):
    """The other end sent bytes that spell no frame of a node. What was asked may still be done, as after a deadline."""

    def __init__(self, fault: Fault) -> None:
        super().__init__(f"malformed frame: {fault.value}")
        self.fault = fault


class Refused(CcnodeError):
    """The node refused the request for good: it wasn't done, and won't be."""

    def __init__(self, refusal: Refusal, carried: int = 0) -> None:
        super().__init__(f"refused {refusal.value} {refusal.name}")
        self.refusal = refusal
        self.carried = carried
