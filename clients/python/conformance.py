#!/usr/bin/env python3
"""Asks nodes by a plan, and prints a line of JSON for each operation: a driver of clients/conformance.py, which has its words.

    conformance.py OPERATIONS PLAN NODE,ADDRESS,SESSION...
"""

from __future__ import annotations

import json
import pathlib
import sys
import threading
import time
from typing import Any, Callable, Dict, List, Tuple

sys.path.insert(0, str(pathlib.Path(__file__).resolve().parent / "src"))

import ccnode  # noqa: E402

NAME = "python"
# Seconds. Each fiftieth operation gets no time to speak of. A snapshot ends by its deadline where others write all the time.
PATIENCE, HASTE, SNAPSHOT_PATIENCE = 120.0, 0.001, 2.0
# Held by the thread that prints.
LINES = threading.Lock()


def operation_of(letter: str, place: int, operations: int, session: int) -> Tuple[str, Any]:
    """The operation at a place of a session, and its argument."""
    if letter == "f" and 2 * place < operations:
        letter = "F"
    return {
        "s": ("store", f"{NAME}-{session}-{place}"),
        "c": ("collect", None),
        "n": ("snapshot", None),
        "m": ("max", 1000 * place + session),
        "M": ("read_max", None),
        "f": ("flag", None),
        "F": ("read_flag", None),
        "a": ("add", 4 * session + 4 * place // operations),
        "S": ("read_set", None),
    }[letter]


def ask(client: ccnode.Client, operation: str, argument: Any, timeout: float) -> Any:
    call: Callable[..., Any] = getattr(client, operation)
    try:
        answer = call(timeout=timeout) if argument is None else call(argument, timeout=timeout)
    except ccnode.DeadlineExceeded as error:
        return {"deadline": "pending" if error.is_pending else "unsent"}
    except ccnode.CcnodeError as error:
        return {"error": repr(error)}
    if operation == "collect":
        return listed(answer)
    if operation == "snapshot":
        return {"rows": listed(answer.rows), "collects": answer.collects}
    return "Stored" if answer is None else answer


def listed(rows: List[ccnode.Row]) -> List[Any]:
    return [[row.node, row.number, row.text.decode(), row.max, row.flag, row.set] for row in rows]


def timeout_of(operation: str, place: int) -> float:
    """How long an operation at a place may take."""
    if place % 50 == 25:
        return HASTE
    return SNAPSHOT_PATIENCE if operation == "snapshot" else PATIENCE


def drive(operations: int, plan: str, node: int, address: str, session: int) -> None:
    client = ccnode.connect(address, session, PATIENCE)
    for place in range(operations):
        operation, argument = operation_of(plan[(place + session) % len(plan)], place, operations, session)
        line: Dict[str, Any] = {"client": NAME, "session": session, "node": node, "operation": operation}
        start = time.time_ns() // 1000
        answer = ask(client, operation, argument, timeout_of(operation, place))
        end = time.time_ns() // 1000 + 1
        line.update(argument=argument, start=start, end=end, answer=answer)
        with LINES:
            print(json.dumps(line))
        if place % 400 == 399:
            client.close()
            client = ccnode.connect(address, session, PATIENCE)
    client.close()


def main() -> None:
    operations, plan = int(sys.argv[1]), sys.argv[2]
    threads = []
    for word in sys.argv[3:]:
        node, address, session = word.split(",")
        threads.append(threading.Thread(target=drive, args=(operations, plan, int(node), address, int(session))))
    for thread in threads:
        thread.start()
    for thread in threads:
        thread.join()


if __name__ == "__main__":
    main()
