# SPDX-License-Identifier: MIT OR Apache-2.0
"""Records of their bytes. Whether an event keeps the rules of a well-formed one is not looked at."""
import struct

from records.events import (ACCESS_TAG, ASKED, BODIES, FORMS, OUTCOMES, TAGS, VERSIONS, Assist, Header, Record,
                            Walk, is_wide)
from records.writing import END_TAG, MAGIC, SEGMENT_TAG

KINDS = {tag: kind for kind, tag in TAGS.items()}
ACCESSES = {outcome: (kind, value) for kind, (outcome, value) in OUTCOMES.items()}
FIXED = struct.Struct("<8sHBB")
COUNT, WIDE_COUNT = struct.Struct("<BI"), struct.Struct("<HI")  # of processors, and the segment size
START = struct.Struct("<QB")
MOMENTS = [struct.Struct(f"<{count}I") for count in range(256)]
SEGMENT, TOTAL, BYTE = struct.Struct("<II"), struct.Struct("<I"), struct.Struct("<B")


class Cut(Exception):
    """The bytes end before the record does, or go on as no record."""


class Source:
    """Bytes, and how far they were read."""

    def __init__(self, data, at=0):
        self.data, self.at = data, at

    def take(self, form):
        """The next fields."""
        end = self.at + form.size
        if end > len(self.data):
            raise Cut
        fields = form.unpack_from(self.data, self.at)
        self.at = end
        return fields

    def take_byte(self):
        return self.take(BYTE)[0]


def read_header(source):
    """The header of a record."""
    magic, version, address_bits, flags = source.take(FIXED)
    if magic != MAGIC or version not in VERSIONS:
        raise Cut
    processors, segment = source.take(WIDE_COUNT if is_wide(version) else COUNT)
    starts = tuple(source.take(START) for _ in range(processors))
    return Header(version, address_bits, flags, segment, starts)


def read_event(source, form):
    """The event that stands next."""
    tag, processor, *backs = source.take(form.head)
    back = backs[0] if backs else 0
    if tag == ACCESS_TAG:
        kind, fields = read_access(source)
    else:
        kind = KINDS.get(tag)
        if kind is None or (kind is Assist and not form.has_assists):
            raise Cut
        fields = source.take(BODIES[kind])
    if issubclass(kind, Walk):
        fields = (*fields, read_moments(source) if form.has_moments else ())
    return kind(processor, *fields, back=back)


def read_access(source):
    """An access's kind, by its outcome, and its fields but for moments."""
    flags, linear, outcome = source.take(ASKED)
    if outcome not in ACCESSES:
        raise Cut
    kind, value = ACCESSES[outcome]
    return kind, (flags, linear, *source.take(value))


def read_moments(source):
    return source.take(MOMENTS[source.take_byte()])


def read_first(data, at=0):
    """The record that begins there, and where it ends. Cut where it is not whole."""
    source, events = Source(data, at), []
    header = read_header(source)
    form = FORMS[header.version]
    while (tag := source.take_byte()) == SEGMENT_TAG:
        _, count = source.take(SEGMENT)
        events += [read_event(source, form) for _ in range(count)]
    if tag != END_TAG or source.take(TOTAL) != (len(events),):
        raise Cut
    return Record(header, events), source.at


def read_record(data):
    """The record of these bytes. Cut where they are not one whole record."""
    record, end = read_first(data)
    if end != len(data):
        raise Cut
    return record
