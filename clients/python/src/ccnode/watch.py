"""What changed between one collect and the next."""

from __future__ import annotations

import time
from collections import deque
from dataclasses import dataclass
from typing import Callable, Deque, Dict, Iterator, List, Optional

from .wire import Row


@dataclass(frozen=True)
class Change:
    """A node's row appeared, where `old` is None, or changed. Rows never go away."""

    node: int
    old: Optional[Row]
    new: Row


class Watch(Iterator[Change]):
    """The changes of a cluster's rows, without end; the first collect makes each row appear.

    Where a collect fails its error is raised, and the watch stands as it was: whoever iterates on has missed no change but
    those that were followed by another one of the same node between two collects.
    """

    def __init__(self, collect: Callable[[], List[Row]], interval: float) -> None:
        self._collect = collect
        self._interval = interval
        self._due = time.monotonic()
        self._rows: Dict[int, Row] = {}
        self._changes: Deque[Change] = deque()

    def __next__(self) -> Change:
        while not self._changes:
            time.sleep(max(0.0, self._due - time.monotonic()))
            self._due = time.monotonic() + self._interval
            self._compare(self._collect())
        return self._changes.popleft()

    def _compare(self, rows: List[Row]) -> None:
        for row in rows:
            old = self._rows.get(row.node)
            # Under one number a node never has two values.
            if old is None or old.number != row.number:
                self._changes.append(Change(row.node, old, row))
                self._rows[row.node] = row
