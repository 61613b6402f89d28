"""Whether the operations that clients logged make one history: what conformance.py checks.

A moment is in microseconds of the machine's clock. A start is told no later than it was and an end no earlier, so an operation
that ended before another one began did so in truth.
"""
import json
from typing import NamedTuple


class Operation:
    """One operation of a client, by its line in a log."""

    def __init__(self, line):
        self.client, self.session, self.node = line["client"], line["session"], line["node"]
        self.name, self.argument, self.answer = line["operation"], line["argument"], line["answer"]
        self.start, self.end = line["start"], line["end"]

    def __str__(self):
        return f"{self.name} {self.argument} of {self.client} in session {self.session} at node {self.node}"

    @property
    def is_write(self):
        return self.name in ("store", "max", "flag", "add")

    @property
    def shows_rows(self):
        return self.name in ("collect", "snapshot")

    @property
    def rows(self):
        """What a collect or a snapshot has shown."""
        return self.answer["rows"] if self.name == "snapshot" else self.answer

    def told(self, what):
        """What the line tells in place of an answer: `error`, or of which kind a `deadline` was."""
        return self.answer.get(what) if isinstance(self.answer, dict) else None


def read_log(path):
    with open(path, encoding="utf-8") as lines:
        return [Operation(json.loads(line)) for line in lines]


def settled(operations, faults):
    """The operations that were done. A write whose deadline passed while it was pending has been done once a later call of
    its client is answered or is pending itself, and may have been done at any moment until then."""
    pending = {}
    for operation in operations:
        if operation.told("error"):
            faults.append(f"{operation}: {operation.told('error')}")
        elif operation.told("deadline") != "unsent":
            # It was sent, so what was pending before was settled.
            earlier = pending.pop(operation.session, None)
            if earlier is not None and earlier.is_write:
                earlier.end = operation.end
                yield earlier
            if operation.told("deadline"):
                pending[operation.session] = operation
            else:
                yield operation
    writes = [operation for operation in pending.values() if operation.is_write]
    faults.extend(f"{operation}: nobody knows whether it was done" for operation in writes)


class Values(NamedTuple):
    """Of a node, or of all: how many writes were made, the greatest maximum, whether the flag is set, and the set."""

    number: int = 0
    max: int = 0
    flag: bool = False
    set: frozenset = frozenset()

    def written(self, operation):
        """What a write makes of them."""
        return Values(
            self.number + 1,
            max(self.max, operation.argument) if operation.name == "max" else self.max,
            self.flag or operation.name == "flag",
            self.set | {operation.argument} if operation.name == "add" else self.set,
        )

    def joined(self, other):
        return Values(*(max(pair) for pair in zip(self[:3], other[:3])), self.set | other.set)

    def lacks(self, other, aspects):
        """The aspects in which these have less than the others."""
        return [aspect for aspect in aspects if not getattr(self, aspect) >= getattr(other, aspect)]


# What each reading tells of all nodes together.
OF_ROWS = ("max", "flag", "set")
ASPECTS = {"collect": OF_ROWS, "snapshot": OF_ROWS, "read_max": ("max",), "read_flag": ("flag",), "read_set": ("set",)}


class Before(NamedTuple):
    """What a reading must have: what stood so as it began."""

    answered: dict
    seen: dict
    latest: dict
    shown: Values


class Checker:
    """Passes over the operations in the order of their moments, and keeps what a reading must have and may have."""

    def __init__(self, nodes):
        self.faults = []
        # Of each node: what was written by the writes that have been answered, and by those that have been asked; what
        # collects have shown; and the latest start of an answered store.
        self.answered = dict.fromkeys(nodes, Values())
        self.asked = dict.fromkeys(nodes, Values())
        self.seen = dict.fromkeys(nodes, Values())
        self.latest = dict.fromkeys(nodes, 0)
        # What readings have shown of all nodes together.
        self.shown = Values()
        # The stores that were asked, by their texts, and what each number of a node stands for.
        self.stores, self.values = {}, {}
        self.before = {}

    def run(self, operations):
        # Starts go before ends of the same microsecond: then neither is before the other.
        moments = [(operation.start, False, place) for place, operation in enumerate(operations)]
        moments += [(operation.end, True, place) for place, operation in enumerate(operations)]
        for _, is_end, place in sorted(moments):
            (self.ends if is_end else self.begins)(operations[place])
        self.check_snapshots([operation for operation in operations if operation.name == "snapshot"])

    def begins(self, operation):
        if not operation.is_write:
            self.before[operation] = Before(dict(self.answered), dict(self.seen), dict(self.latest), self.shown)
            return
        self.asked[operation.node] = self.asked[operation.node].written(operation)
        if operation.name == "store":
            self.stores[operation.argument] = operation

    def ends(self, operation):
        node = operation.node
        if operation.is_write:
            self.answered[node] = self.answered[node].written(operation)
            if operation.name == "store":
                self.latest[node] = max(self.latest[node], operation.start)
            return
        before = self.before.pop(operation)
        told = self.told_of_all(operation, before) if operation.shows_rows else told_by(operation)
        self.check_reading(operation, before, told)

    def told_of_all(self, operation, before):
        """What a collect or a snapshot tells of all nodes together, once each of its rows was checked."""
        rows = {row[0]: row[1:] for row in operation.rows}
        told = Values()
        for node in self.seen:
            number, text, *others, numbers = rows.get(node, (0, "", 0, False, ()))
            values = Values(number, *others, frozenset(numbers))
            self.check_row(operation, before, node, values)
            self.check_text(operation, before, node, text)
            if self.values.setdefault((node, number), (text, values)) != (text, values):
                self.faults.append(f"{operation}: number {number} of node {node} stands for two values")
            self.seen[node] = self.seen[node].joined(values)
            told = told.joined(values)
        self.faults.extend(f"{operation}: a row of node {node}, which isn't there" for node in rows.keys() - self.seen.keys())
        return told

    def check_row(self, operation, before, node, values):
        self.check(operation, f"the row of node {node}", values, before.answered[node], Values._fields, "was answered")
        self.check(operation, f"the row of node {node}", values, before.seen[node], Values._fields, "was collected")
        for aspect in self.asked[node].lacks(values, Values._fields):
            self.faults.append(f"{operation}: the row of node {node} has a {aspect} beyond all that was asked")

    def check_text(self, operation, before, node, text):
        """The text is that of a store at the node which wasn't over before a store began that was answered by then."""
        store = self.stores.get(text)
        if text and (store is None or store.node != node):
            self.faults.append(f"{operation}: nobody has stored {text!r} at node {node}")
        elif before.latest[node] > (store.end if store else 0):
            self.faults.append(f"{operation}: the text {text!r} of node {node}, where a later store was answered before")

    def check_reading(self, operation, before, told):
        aspects = ASPECTS[operation.name]
        for values in before.answered.values():
            self.check(operation, "it", told, values, aspects, "was answered")
        self.check(operation, "it", told, before.shown, aspects, "was read")
        asked = Values()
        for values in self.asked.values():
            asked = asked.joined(values)
        for aspect in asked.lacks(told, aspects):
            self.faults.append(f"{operation}: it tells a {aspect} beyond all that was asked")
        self.shown = self.shown.joined(told)

    def check_snapshots(self, snapshots):
        """Of any two snapshots one is within the other: each is within the next one by the sum of the numbers."""
        ascending = sorted(snapshots, key=lambda snapshot: sum(numbers_of(snapshot).values()))
        for snapshot, other in zip(ascending, ascending[1:]):
            if not is_within(numbers_of(snapshot), numbers_of(other)):
                shown = f"{snapshot} shows {numbers_of(snapshot)}, {other} {numbers_of(other)}"
                self.faults.append(f"{shown}: neither is within the other")

    def check(self, operation, what, told, least, aspects, why):
        for aspect in told.lacks(least, aspects):
            self.faults.append(f"{operation}: {what} has less of {aspect} than {why} before it began")


def told_by(operation):
    """What a reading of all nodes together tells."""
    answer = frozenset(operation.answer) if operation.name == "read_set" else operation.answer
    return Values()._replace(**{operation.name[len("read_") :]: answer})


def numbers_of(snapshot):
    """The number of each node that a snapshot has shown."""
    return {row[0]: row[1] for row in snapshot.rows}


def is_within(numbers, others):
    return all(number <= others.get(node, 0) for node, number in numbers.items())


class Snapshots(NamedTuple):
    """How many snapshots were taken, how many ended by their deadline, and how many collects one took at most."""

    taken: int
    late: int
    most: int

    def __str__(self):
        return f"{self.taken} snapshots were taken, by {self.most} collects at most, and {self.late} ended by their deadline"


def snapshots_of(operations):
    told = [operation.answer for operation in operations if operation.name == "snapshot"]
    collects = [answer["collects"] for answer in told if "collects" in answer]
    return Snapshots(len(collects), sum("deadline" in answer for answer in told), max(collects, default=0))
