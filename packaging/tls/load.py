#!/usr/bin/env python3
"""Measures a cluster by the clients of tools/load.py, and prints a row for each count of them:

    load.py NAME SECONDS ADDRESSES PIDS

NAME stands before each row. The clients are spread over ADDRESSES, each of 1 and then 48 of them asks again as soon as
it was answered, stores for SECONDS and then collects for as long. PIDS are the processes whose processor time is
counted: the nodes, and the tunnels where there are some. Both are lists with commas.
"""
import pathlib
import sys
import time

sys.path.insert(0, str(pathlib.Path(__file__).resolve().parents[2] / "tools"))
from load import Asker, percentile, run_clients  # noqa: E402
from nodes import processor_seconds, say  # noqa: E402

COUNTS = (1, 48)
COMMANDS = {"store": ["store", "load-0123456789"], "collect": ["collect"]}


def spent(pids):
    return sum(processor_seconds(pid) for pid in pids)


def measure(addresses, pids, count, kind, seconds, first_session):
    """Operations a second; the times of half and of 99 % of them, and of the processes for each, in microseconds."""
    askers = [
        Asker(addresses[place % len(addresses)], first_session + place, COMMANDS[kind]) for place in range(count)
    ]
    before = spent(pids)
    took, passed = run_clients(askers, seconds)
    processor = (spent(pids) - before) / max(1, len(took)) * 1e6
    for asker in askers:
        asker.socket.close()
    return len(took) / passed, percentile(took, 0.5), percentile(took, 0.99), processor


def main():
    name, seconds = sys.argv[1], float(sys.argv[2])
    addresses, pids = sys.argv[3].split(","), sys.argv[4].split(",")
    session = 1000
    for count in COUNTS:
        for kind in COMMANDS:
            row = measure(addresses, pids, count, kind, seconds, session)
            session += count
            say(f"{name:<8}{count:>7}  {kind:<8}{row[0]:>9.0f}{row[1]:>9.0f}{row[2]:>9.0f}{row[3]:>11.0f}")


if __name__ == "__main__":
    main()
