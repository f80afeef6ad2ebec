# SPDX-License-Identifier: MIT OR Apache-2.0
"""Tests of reading and writing records."""
import os
import random
import re
import unittest

from checks.emitter import encoder
from records import reading, writing
from records.events import (Answer, Assist, Fault, Header, InvalidatePage, InvalidatePcid, LoadRoot, Record,
                            SetGlobalPages, Write, has_spans, is_wide)

TOP = os.path.dirname(os.path.dirname(os.path.abspath(__file__)))
TABLES = [Write(0, 0x1000, 0x2007), Write(0, 0x2000, 0x3007), Write(0, 0x3000, 0x4007), Write(0, 0x4028, 0x9007)]


def block_of_page(first):
    """The bytes of a worked example of docs/FORMAT.md, whose block begins so."""
    with open(os.path.join(TOP, "docs/FORMAT.md"), encoding="utf-8") as page:
        block = re.search(rf"^{first}.*?(?=^```)", page.read(), re.M | re.S)[0]
    # (three blanks stand before a comment, and more before one that goes on)
    lines = [line.split("   ")[0] for line in block.splitlines()]
    return bytes.fromhex("".join(lines))


def random_event(dice, version):
    """An event of any kind that the version has, in range of its fields."""
    processor, linear, word = dice.randrange(2), dice.getrandbits(64), dice.getrandbits(64)
    flags, spans = dice.getrandbits(8), has_spans(version)
    moments = () if spans else tuple(dice.getrandbits(32) for _ in range(dice.randint(1, 4)))
    back = dice.getrandbits(32) if spans else 0
    return dice.choice([
        Write(processor, word, linear, back=back), Answer(processor, flags, linear, word, moments, back=back),
        Fault(processor, flags, linear, dice.getrandbits(16), moments, back=back),
        LoadRoot(processor, word, back=back), InvalidatePage(processor, linear, back=back),
        InvalidatePcid(processor, dice.getrandbits(8), dice.getrandbits(16), linear, back=back),
        SetGlobalPages(processor, dice.randrange(2), back=back),
        *[Assist(processor, flags, linear, word, moments, back=back)] * is_wide(version)])


def as_encoder(event):
    """The event as checks/emitter/encoder.py has it, which was written from the page by itself."""
    names = {Write: "write", Answer: "answer", Fault: "fault", LoadRoot: "mov_cr3", InvalidatePage: "invlpg",
             InvalidatePcid: "invpcid", SetGlobalPages: "mov_cr4", Assist: "assist"}
    fields = [getattr(event, name) for name in event.__match_args__ if name != "processor"]
    if fields and isinstance(fields[-1], tuple):
        fields[-1] = list(fields[-1])
    return names[type(event)], event.processor, *fields


class Records(unittest.TestCase):
    def random_records(self):
        dice = random.Random(11)
        for turn in range(200):
            version = 1 + turn % 4
            starts = tuple((dice.getrandbits(40), dice.randrange(2)) for _ in range(dice.randint(1, 5)))
            header = Header(version, 40, dice.randrange(16), dice.randint(1, 9), starts)
            yield Record(header, [random_event(dice, version) for _ in range(dice.randint(0, 30))])

    def test_worked_example_of_version_1(self):
        header = Header(1, 40, 3, 16, ((0x1001, 1),))
        events = [*TABLES, Answer(0, 4, 0x5123, 0x9123, (4,) * 4)]
        data = writing.record_bytes(header, events)
        self.assertEqual(len(data), 149)
        with open(os.path.join(TOP, "samples/fresh_walk.record"), "rb") as sample:
            self.assertEqual(data, sample.read())
        self.assertEqual(reading.read_record(data), Record(header, events))

    def test_worked_example_of_version_3(self):
        header = Header(3, 40, 3, 16, ((0x1001, 0), (0x1001, 0)))
        events = [*TABLES, InvalidatePage(1, 0x5000, back=1), Answer(1, 4, 0x5123, 0x9123)]
        data = block_of_page("50475245434f5244 0300")
        self.assertEqual(len(data), 175)
        self.assertEqual(reading.read_record(data), Record(header, events))
        self.assertEqual(writing.record_bytes(header, events), data)

    def test_what_is_written_is_read(self):
        for record in self.random_records():
            data = writing.record_bytes(record.header, record.events)
            self.assertEqual(reading.read_record(data), record)

    def test_another_encoder_writes_the_same(self):
        for record in self.random_records():
            header, events = record.header, record.events
            wanted = encoder.record_bytes(
                (header.version, header.address_bits, header.flags, header.segment, list(header.starts)),
                [as_encoder(event) for event in events], [event.back for event in events])
            self.assertEqual(writing.record_bytes(header, events), wanted)

    def test_a_record_that_is_cut_anywhere_is_cut(self):
        for record in list(self.random_records())[:8]:
            data = writing.record_bytes(record.header, record.events)
            for end in range(len(data)):
                with self.assertRaises(reading.Cut):
                    reading.read_first(data[:end])

    def test_a_record_among_other_bytes(self):
        record = next(self.random_records())
        data = writing.record_bytes(record.header, record.events)
        self.assertEqual(reading.read_first(b"before" + data + b"behind", 6), (record, 6 + len(data)))
        with self.assertRaises(reading.Cut):
            reading.read_record(data + b"\0")

    def test_what_is_no_record(self):
        header = Header(1, 40, 3, 1, ((0x1001, 1),))
        good = writing.record_bytes(header, [Fault(0, 4, 0x5000, 4, (0,))])
        outcome = len(writing.header_bytes(header)) + 9 + 2 + 9
        for place, value in ((0, 0), (8, 5), (outcome, 2), (outcome - 11, 0x16), (outcome - 11, 0x17),
                             (len(good) - 5, 3), (len(good) - 4, 2)):
            with self.subTest(place=place), self.assertRaises(reading.Cut):
                reading.read_record(good[:place] + bytes([value]) + good[place + 1:])


if __name__ == "__main__":
    unittest.main()
