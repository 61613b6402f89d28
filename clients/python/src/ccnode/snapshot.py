"""What all nodes had at one moment."""

from __future__ import annotations

from dataclasses import dataclass
from typing import Callable, List, Optional

from .errors import DeadlineExceeded
from .wire import Row


@dataclass(frozen=True)
class Snapshot:
    """What all nodes had at one moment: rows as `collect` gives them, and how many collects it took, 2 at least."""

    rows: List[Row]
    collects: int


def take_snapshot(collect: Callable[[], List[Row]]) -> Snapshot:
    """Collects until two collects in a row show the same rows, or until one fails."""
    last: Optional[List[Row]] = None
    collects = 0
    while True:
        try:
            rows = collect()
        except DeadlineExceeded as late:
            if collects < 2:
                raise
            raise _no_two_agree(collects, late) from late.__cause__
        collects += 1
        if rows == last:
            return Snapshot(rows, collects)
        last = rows


def _no_two_agree(collects: int, late: DeadlineExceeded) -> DeadlineExceeded:
    error = DeadlineExceeded(f"no two in a row of {collects} collects agree, since others write")
    error.is_pending = late.is_pending
    return error
