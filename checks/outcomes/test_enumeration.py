# SPDX-License-Identifier: MIT OR Apache-2.0
"""Tests of what is tried as an access's outcome, and of what is made of the verdicts. checks/outcomes/run asks the
program itself."""
import unittest

from checks.outcomes import enumeration
from records.events import Answer, Assist, Fault, Header, InvalidatePage, Record, Write
from records.reading import read_record

TABLES = [Write(0, 0x1000, 0x2007), Write(0, 0x2000, 0x3007), Write(0, 0x3000, 0x4007), Write(0, 0x4028, 0x9007)]
USER, USER_WRITE, FETCH = 4, 5, 2  # flags of accesses
UNNAMED = enumeration.UNNAMED


def record_of(*behind, version=1, before=()):
    return Record(Header(version, 40, 3, 16, ((0x1000, 0),)), [*TABLES, *before, *behind])


def read(physical=0, linear=0x5123):
    return Answer(0, USER, linear, physical, UNNAMED)


class Candidates(unittest.TestCase):
    def test_frames_of_each_size_and_one_more(self):
        # Words held 0x2000, 0x3000, 0x4000 and 0x9000; as pages of 2 MB and 1 GB all begin at 0; the first frame
        # that no word gives is 0x1000.
        self.assertEqual(enumeration.frames_of(record_of(read()), 0x5123),
                         [0x1123, 0x2123, 0x3123, 0x4123, 0x5123, 0x9123])

    def test_large_bases(self):
        record = record_of(read(), before=[Write(0, 0x3000, 0x40A00087)])
        found = enumeration.frames_of(record, 0x205123)
        self.assertTrue({0x40A00123, 0x40A05123, 0x40205123} <= set(found))

    def test_bits_above_the_address_are_left_out(self):
        record = record_of(read(), before=[Write(0, 0x4028, 0x8000_0100_0000_7007)])
        self.assertIn(0x7123, enumeration.frames_of(record, 0x5123))

    def test_words_behind_the_access_count_too(self):
        record = record_of(read(), Write(0, 0x4028, 0xB007))
        self.assertIn(Answer(0, USER, 0x5123, 0xB123, UNNAMED), enumeration.candidates(record, 4))

    def test_codes(self):
        for flags, codes in ((0, [0, 1, 8, 9]), (USER, [4, 5, 12, 13]), (1, [2, 3, 10, 11]),
                             (USER_WRITE, [6, 7, 14, 15]), (FETCH, [0, 1, 8, 9, 16, 17, 24, 25]), (8, [0, 1, 8, 9])):
            self.assertEqual(enumeration.codes_of(flags), codes)

    def test_what_is_no_access(self):
        for record, number in ((record_of(read()), 3), (record_of(read()), 5), (record_of(read()), -1),
                               (record_of(Fault(0, USER, 0x5123, 4), version=3), 4)):
            with self.assertRaises(enumeration.Untried):
                enumeration.candidates(record, number)


class Allowed(unittest.TestCase):
    def test_yes_exactly_for_the_allowed(self):
        asked = []

        def accepts(data):
            record = read_record(data)
            asked.append(record)
            return record.events[-1] in (read(0x9123), Fault(0, USER, 0x5123, 5, UNNAMED))

        record = record_of(read(0x7777), InvalidatePage(0, 0x5000))
        self.assertEqual(enumeration.allowed(record, 4, accepts), [read(0x9123), Fault(0, USER, 0x5123, 5, UNNAMED)])
        self.assertEqual({len(it.events) for it in asked}, {5})
        self.assertEqual({tuple(it.events[:4]) for it in asked}, {tuple(TABLES)})
        self.assertNotIn(0x7777, [it.events[-1].physical for it in asked if isinstance(it.events[-1], Answer)])


class Assists(unittest.TestCase):
    def test_memory(self):
        record = record_of(Assist(0, USER, 0x5123, 0x1000, UNNAMED), Assist(0, 21, 0x5123, 0x4028, UNNAMED),
                           read(), version=2)
        self.assertEqual(enumeration.memory_of(record.events[:5]), {0x1000: 0x2027, 0x2000: 0x3007, 0x3000: 0x4007,
                                                            0x4028: 0x9007})
        self.assertEqual(enumeration.memory_of(record.events[:6])[0x4028], 0x9067)
        self.assertEqual(enumeration.changes_of(TABLES, record.events[4:6]), {0x1000: 0x20, 0x4028: 0x60})

    def test_served(self):
        assists = [Assist(0, USER, 0x5123, 0x1000, UNNAMED), Assist(1, USER, 0x5123, 0x2000, UNNAMED),
                   Assist(0, USER, 0x5123, 0x2000, UNNAMED)]
        self.assertEqual(enumeration.served(record_of(*assists, read(), version=2), 7), [6, 4])
        other = [Assist(0, USER, 0x7123, 0x1000, UNNAMED), InvalidatePage(0, 0x5000), assists[0]]
        self.assertEqual(enumeration.served(record_of(*other, read(), version=2), 7), [6])

    def test_each_set_of_flags_once(self):
        # A judge that wants A in two words, which may be set in either order.
        def accepts(data):
            record = read_record(data)
            flagged = {event.address for event in record.events if isinstance(event, Assist)}
            if isinstance(record.events[-1], Assist):
                return flagged <= {0x1000, 0x2000}
            return flagged == {0x1000, 0x2000} and record.events[-1] == read(0x9123)

        record = record_of(Assist(0, USER, 0x5123, 0x3000, UNNAMED), read(), version=2)
        found = enumeration.allowed_with_assists(record, 5, accepts)
        self.assertEqual([({it.address for it in assists}, outcomes) for assists, outcomes in found],
                         [({0x1000, 0x2000}, [read(0x9123)])])


if __name__ == "__main__":
    unittest.main()
