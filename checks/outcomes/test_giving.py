# SPDX-License-Identifier: MIT OR Apache-2.0
"""Tests of what has to be said of an outcome by its moments."""
import unittest
from dataclasses import replace

from checks.outcomes import giving
from records.events import (NO_FLUSH, Answer, Assist, Fault, Header, InvalidatePage, InvalidatePcid, LoadRoot, Record,
                            SetGlobalPages, Write)

TABLES = [Write(0, 0x1000, 0x2027), Write(0, 0x2000, 0x3027), Write(0, 0x3000, 0x4027)]
LEAF = Write(0, 0x4028, 0x9127)
USER, USER_WRITE = 4, 5  # flags of accesses
PAGE, FAULT = {"page": "0x9123"}, {"fault": "0x4"}


def given(behind, outcome, moments, *, version=1, flags=USER, start=(0x1001, 0)):
    events = [*TABLES, *behind, Answer(0, flags, 0x5123, 0)]
    record = Record(Header(version, 40, 3, 16, (start,)), events)
    return giving.given(record, len(events) - 1, {**outcome, "by": moments})


class Given(unittest.TestCase):
    def test_the_entries_of_a_page(self):
        it = given([LEAF, Write(0, 0x4028, 0)], PAGE, [4, 4, 4, 4])
        self.assertEqual((it["page"], it["cached_since"]), ("0x9123", 4))
        self.assertEqual([entry["written_by"] for entry in it["walk"]], [0, 1, 2, 3])
        self.assertEqual(it["walk"][3], {"level": 1, "moment": 4, "pcid": "0x1", "word": "0x4028", "value": "0x9127",
                                         "is": "leaf", "written_by": 3})
        self.assertNotIn("accessed", it)

    def test_a_fault_is_read_at_the_access(self):
        it = given([LEAF, Write(0, 0x4028, 0)], FAULT, [5, 5, 5, 5])
        self.assertEqual((it["fault"], it["cached_since"], it["walk"][3]["is"]), ("0x4", None, "absent"))
        with self.assertRaises(ValueError):
            given([Write(0, 0x4028, 0), Write(1, 0x4030, 0)], FAULT, [4, 4, 4, 4])

    def test_what_drops_a_leaf(self):
        kept = [InvalidatePage(0, 0x6000), InvalidatePage(1, 0x5000), LoadRoot(0, NO_FLUSH | 0x1001),
                LoadRoot(0, 0x1002), InvalidatePcid(0, 0, 1, 0x6000), InvalidatePcid(0, 1, 2, 0), SetGlobalPages(0, 0),
                Fault(0, USER, 0x6000, 4)]
        dropped = [InvalidatePage(0, 0x5FFF), LoadRoot(0, 0x1001), InvalidatePcid(0, 0, 1, 0x5000),
                   InvalidatePcid(0, 1, 1, 0), InvalidatePcid(0, 2, 0, 0), InvalidatePcid(0, 3, 0, 0),
                   SetGlobalPages(0, 1), Fault(0, USER, 0x5000, 4)]
        for event in kept:
            self.assertEqual(given([LEAF, event], PAGE, [4, 4, 4, 4])["cached_since"], 4, event)
        for event in dropped:
            with self.assertRaises(ValueError):
                given([LEAF, event], PAGE, [4, 4, 4, 4])

    def test_what_drops_a_global_leaf(self):
        for event in (LoadRoot(0, 0x1001), InvalidatePcid(0, 0, 1, 0x5000), InvalidatePcid(0, 3, 0, 0)):
            self.assertEqual(given([LEAF, event], PAGE, [4, 4, 4, 4], start=(0x1001, 1))["cached_since"], 4, event)
        for event in (InvalidatePage(0, 0x5000), InvalidatePcid(0, 2, 0, 0), SetGlobalPages(0, 0)):
            with self.assertRaises(ValueError):
                given([LEAF, event], PAGE, [4, 4, 4, 4], start=(0x1001, 1))

    def test_flags(self):
        words = ["0x1000", "0x2000", "0x3000", "0x4028"]
        read = given([LEAF], PAGE, [4, 4, 4, 4], version=2)
        self.assertEqual((read["accessed"], read["dirty"]), (words, None))
        fault = given([], FAULT, [3, 3, 3, 3], version=2)
        self.assertEqual((fault["accessed"], fault["dirty"]), (words[:3], None))
        dirtied = Assist(0, USER_WRITE | 16, 0x5123, 0x4028)
        write = given([LEAF, dirtied], PAGE, [5, 5, 5, 5], version=2, flags=USER_WRITE)
        self.assertEqual((write["accessed"], write["dirty"], write["walk"][3]["written_by"]), (words, "0x4028", 4))
        for leaf, flags in ((LEAF, USER_WRITE), (replace(LEAF, value=0x9107), USER)):
            with self.assertRaises(ValueError):
                given([leaf], PAGE, [4, 4, 4, 4], version=2, flags=flags)

    def test_a_large_page(self):
        it = given([Write(0, 0x3000, 0x400087)], {"page": "0x405123"}, [4, 4, 4])
        self.assertEqual((it["page"], it["cached_since"], len(it["walk"])), ("0x405123", 4, 3))


if __name__ == "__main__":
    unittest.main()
