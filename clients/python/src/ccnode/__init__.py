"""A client of one node of a ccnode cluster: store, collect, a maximum, a flag and a set, each request done exactly once."""

from .client import Client, connect
from .errors import (
    CcnodeError,
    ClientClosed,
    DeadlineExceeded,
    Fault,
    InvalidArgument,
    Malformed,
    Refusal,
    Refused,
    SessionInUse,
)
from .snapshot import Snapshot
from .watch import Change, Watch
from .wire import Row

__all__ = [
    "CcnodeError",
    "Change",
    "Client",
    "ClientClosed",
    "DeadlineExceeded",
    "Fault",
    "InvalidArgument",
    "Malformed",
    "Refusal",
    "Refused",
    "Row",
    "SessionInUse",
    "Snapshot",
    "Watch",
    "connect",
]
