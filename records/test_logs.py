# SPDX-License-Identifier: MIT OR Apache-2.0
"""Tests of reading and writing logs."""
import random
import unittest

from checks.emitter import encoder
from records import logs
from records.events import Fault, InvalidatePage, Write
from records.reading import Cut
from records.test_records import as_encoder, block_of_page, random_event


def random_log(dice, version):
    """A log of random events with rising stamps."""
    events, last = [], 0
    for _ in range(dice.randint(0, 12)):
        begin = last + dice.randint(1, 9)
        last = begin + dice.randint(1, 2**40)
        events.append((begin, last, random_event(dice, version + 2)))
    return logs.Log(version, 40, dice.randrange(16), 2, 1, (0x1001, 1), [
        (begin, end, without_back(event)) for begin, end, event in events])


def without_back(event):
    """A log has stamps in the place of `back`."""
    return type(event)(*(getattr(event, name) for name in event.__match_args__))


class Logs(unittest.TestCase):
    def random_logs(self):
        dice = random.Random(12)
        for turn in range(60):
            yield random_log(dice, 1 + turn % 2)

    def test_worked_example(self):
        data = block_of_page("504743 50554c4f47")
        log = logs.Log(1, 40, 3, 2, 1, (0x1001, 1), [(3, 4, InvalidatePage(1, 0x5000))])
        self.assertEqual(len(data), 67)
        self.assertEqual(logs.read_log(data), log)
        self.assertEqual(logs.log_bytes(log), data)

    def test_what_is_written_is_read(self):
        for log in self.random_logs():
            self.assertEqual(logs.read_log(logs.log_bytes(log)), log)

    def test_another_encoder_writes_the_same(self):
        for log in self.random_logs():
            header = log.version, log.address_bits, log.flags, 1, [(0, 0), log.start]
            wanted = encoder.log_bytes(header, 1, [(begin, end, as_encoder(event)) for begin, end, event in log.events])
            self.assertEqual(logs.log_bytes(log), wanted)

    def test_whole_events_of_a_log_that_is_cut(self):
        for log in list(self.random_logs())[:6]:
            data = logs.log_bytes(log)
            for end in range(len(data)):
                if end < logs.HEAD.size:
                    self.assertRaises(Cut, logs.read_log, data[:end])
                    continue
                left = logs.read_log(data[:end])
                kept = len(left.events)
                self.assertFalse(left.is_whole)
                self.assertEqual(left.events, log.events[:kept])
                written = logs.log_bytes(left)
                size = len(written) - logs.STAMPS.size
                self.assertEqual(data[:size], written[:size])
                # (the next event does not fit)
                if kept < len(log.events):
                    left.events = log.events[:kept + 1]
                    self.assertGreater(len(logs.log_bytes(left)) - logs.STAMPS.size, end)

    def test_events_out_of_order_are_not_taken(self):
        page = InvalidatePage(0, 0x5000)
        for events, kept in (([(1, 2, page), (2, 3, page)], 1), ([(2, 2, page)], 0), ([(0, 1, page)], 0),
                             ([(1, 5, Write(0, 8, 1)), (6, 7, Fault(0, 0, 0, 0))], 2)):
            log = logs.Log(1, 40, 3, 1, 0, (0x1001, 1), events)
            left = logs.read_log(logs.log_bytes(log))
            self.assertEqual((left.events, left.is_whole), (events[:kept], kept == len(events)))

    def test_an_end_mark_with_another_count(self):
        data = logs.log_bytes(next(self.random_logs()))
        self.assertFalse(logs.read_log(data[:-8] + b"\xff" * 8).is_whole)

    def test_what_is_no_log(self):
        data = logs.log_bytes(next(self.random_logs()))
        for place, value in ((0, 0), (8, 3)):
            with self.assertRaises(Cut):
                logs.read_log(data[:place] + bytes([value]) + data[place + 1:])


if __name__ == "__main__":
    unittest.main()
