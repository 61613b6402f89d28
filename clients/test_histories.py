"""That the check of histories takes what is right, and finds each kind of fault in one that is wrong."""

import unittest

from histories import Checker, Operation, settled, snapshots_of

STORE, COLLECT, SNAPSHOT = "store", "collect", "snapshot"


def operation(name, start, end, argument=None, answer="Stored", session=7, node=1):
    """An operation at a node from one moment to another."""
    line = {"client": "test", "session": session, "node": node, "operation": name, "argument": argument}
    return Operation({**line, "start": start, "end": end, "answer": answer})


def row(number, text="", greatest=0, flag=False, numbers=(), node=1):
    return [node, number, text, greatest, flag, list(numbers)]


def collect(start, end, *rows):
    return operation(COLLECT, start, end, answer=list(rows), session=8)


def snapshot(start, end, *rows, collects=2):
    return operation(SNAPSHOT, start, end, answer={"rows": list(rows), "collects": collects}, session=9)


def late(name, start, end, deadline, argument=None):
    return operation(name, start, end, argument, {"deadline": deadline})


def faults(*operations):
    checker = Checker([1, 2])
    checker.run(list(operations))
    return checker.faults


class HistoriesTest(unittest.TestCase):
    def test_a_history_that_is_right(self):
        history = [
            operation(STORE, 10, 20, "a"),
            collect(12, 14),
            collect(15, 19, row(1, "a")),
            operation("max", 30, 40, 5),
            operation("add", 50, 60, 9),
            operation("flag", 70, 80),
            collect(90, 95, row(4, "a", 5, True, [9])),
            operation("read_max", 96, 97, answer=5),
            operation("read_flag", 96, 97, answer=True),
            operation("read_set", 96, 97, answer=[9]),
        ]
        self.assertEqual(faults(*history), [])

    def test_what_was_answered_is_missing(self):
        for write, row_without in (
            (operation(STORE, 10, 20, "a"), row(0)),
            (operation("max", 10, 20, 5), row(1)),
            (operation("flag", 10, 20), row(1)),
            (operation("add", 10, 20, 9), row(1)),
        ):
            self.assertNotEqual(faults(write, collect(21, 25, row_without)), [])

    def test_a_reading_lacks_what_was_answered_or_read(self):
        for write, name, least, answer in (
            (operation("max", 10, 20, 5), "read_max", 4, 5),
            (operation("flag", 10, 20), "read_flag", False, True),
            (operation("add", 10, 20, 9), "read_set", [], [9]),
        ):
            self.assertNotEqual(faults(write, operation(name, 21, 25, answer=least)), [])
            write.end = 40
            shown = operation(name, 11, 12, answer=answer)
            self.assertEqual(faults(write, shown, operation(name, 13, 14, answer=answer)), [])
            self.assertNotEqual(faults(write, shown, operation(name, 13, 14, answer=least)), [])

    def test_a_collect_goes_back(self):
        write = operation(STORE, 10, 40, "a")
        self.assertNotEqual(faults(write, collect(11, 12, row(1, "a")), collect(13, 14)), [])

    def test_more_than_was_asked(self):
        write = operation(STORE, 10, 20, "a")
        self.assertNotEqual(faults(write, collect(21, 25, row(2, "a"))), [])
        self.assertNotEqual(faults(write, collect(5, 9, row(1, "a"))), [])
        self.assertNotEqual(faults(write, collect(21, 25, row(1, "b"))), [])
        self.assertNotEqual(faults(operation("read_max", 1, 2, answer=1)), [])

    def test_an_older_text(self):
        stores = [operation(STORE, 10, 20, "a"), operation(STORE, 30, 40, "b")]
        self.assertEqual(faults(*stores, collect(50, 60, row(2, "b"))), [])
        self.assertNotEqual(faults(*stores, collect(50, 60, row(2, "a"))), [])
        together = [operation(STORE, 10, 31, "a"), operation(STORE, 30, 40, "b")]
        self.assertEqual(faults(*together, collect(50, 60, row(2, "a"))), [])

    def test_a_number_of_two_values(self):
        stores = [operation(STORE, 10, 40, "a"), operation(STORE, 10, 40, "b")]
        self.assertNotEqual(faults(*stores, collect(11, 15, row(1, "a")), collect(16, 20, row(1, "b"))), [])

    def test_a_snapshot_shows_what_a_collect_must(self):
        write = operation(STORE, 10, 20, "a")
        self.assertEqual(faults(write, snapshot(21, 25, row(1, "a"))), [])
        self.assertNotEqual(faults(write, snapshot(21, 25)), [])
        self.assertNotEqual(faults(write, snapshot(21, 25, row(2, "a"))), [])
        write.end = 40
        self.assertNotEqual(faults(write, snapshot(11, 12, row(1, "a")), collect(13, 14)), [])
        self.assertNotEqual(faults(write, collect(11, 12, row(1, "a")), snapshot(13, 14)), [])

    def test_of_two_snapshots_one_is_within_the_other(self):
        stores = [operation(STORE, 10, 40, "a"), operation(STORE, 10, 40, "b", node=2)]
        one, other = row(1, "a"), row(1, "b", node=2)
        for right in ([one], [one, other]), ([], [other]), ([one, other], [one, other]):
            self.assertEqual(faults(*stores, *(snapshot(11, 30, *rows) for rows in right)), [])
        self.assertEqual(faults(*stores, collect(11, 30, one), collect(11, 30, other)), [])
        self.assertEqual(len(faults(*stores, snapshot(11, 30, one), snapshot(11, 30, other))), 1)
        further = [snapshot(11, 30), snapshot(11, 30, one, other)]
        self.assertEqual(len(faults(*stores, snapshot(11, 30, one), *further, snapshot(11, 30, other))), 1)

    def test_snapshots_whose_sums_differ(self):
        stores = [operation(STORE, 10, 40, "a"), operation("max", 10, 40, 5), operation(STORE, 10, 40, "b", node=2)]
        more, other = row(2, "a", 5), row(1, "b", node=2)
        self.assertEqual(len(faults(*stores, snapshot(11, 30, more), snapshot(11, 30, other))), 1)

    def test_what_is_told_of_snapshots(self):
        taken = [snapshot(1, 2), snapshot(3, 4, collects=7)]
        ended = [late(SNAPSHOT, 5, 6, "pending"), late(SNAPSHOT, 7, 8, "unsent"), late(COLLECT, 9, 10, "pending")]
        self.assertEqual(snapshots_of([*taken, *ended, collect(1, 2)]), (2, 2, 7))
        self.assertEqual(snapshots_of([]), (0, 0, 0))

    def test_a_pending_write_is_done_by_the_next_answer(self):
        pending = late(STORE, 10, 20, "pending", "a")
        unsent = late(STORE, 30, 40, "unsent", "b")
        answered = operation("max", 50, 60, 5)
        found = []
        self.assertEqual([done.argument for done in settled([pending, unsent, answered], found)], ["a", 5])
        self.assertEqual((pending.end, found), (60, []))
        self.assertEqual((list(settled([pending], found)), len(found)), ([], 1))
        self.assertEqual((list(settled([operation(STORE, 1, 2, "a", {"error": "x"})], found)), len(found)), ([], 2))

    def test_a_pending_write_is_done_before_the_next_call_is_pending(self):
        pending = late(STORE, 10, 20, "pending", "a")
        snapshots = [late(SNAPSHOT, 30, 40, "pending"), late(SNAPSHOT, 50, 60, "pending")]
        found = []
        self.assertEqual([done.argument for done in settled([pending, *snapshots], found)], ["a"])
        self.assertEqual((pending.end, found), (40, []))


if __name__ == "__main__":
    unittest.main()
