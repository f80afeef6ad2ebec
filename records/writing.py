# SPDX-License-Identifier: MIT OR Apache-2.0
"""The bytes of records. Nothing is looked over: checks write events and headers that no reader takes."""
import dataclasses
import struct

from records.events import ACCESS_TAG, ACCESSES, ASKED, BODIES, FORMS, OUTCOMES, TAGS, Walk, is_wide

MAGIC = b"PGRECORD"
SEGMENT_TAG, END_TAG = 1, 2
# The names of a kind's own fields.
FIELDS = {kind: [it.name for it in dataclasses.fields(kind) if it.name not in ("processor", "back", "moments")]
          for kind in BODIES}


def spelled(form, event):
    """The bytes of an event in a form."""
    tag = ACCESS_TAG if isinstance(event, ACCESSES) else TAGS[type(event)]
    head = (tag, event.processor, event.back) if form.has_backs else (tag, event.processor)
    return form.head.pack(*head) + body(event) + (moments(event) if form.has_moments else b"")


def body(event):
    """The event's own fields, but for moments."""
    if isinstance(event, ACCESSES):
        outcome, value = OUTCOMES[type(event)]
        return ASKED.pack(event.flags, event.linear, outcome) + value.pack(
            event.physical if outcome == 0 else event.code)
    return BODIES[type(event)].pack(*(getattr(event, name) for name in FIELDS[type(event)]))


def moments(event):
    """The count of moments and each of them, of an event that has any."""
    if not isinstance(event, Walk):
        return b""
    return struct.pack(f"<B{len(event.moments)}I", len(event.moments), *event.moments)


def event_bytes(version, event):
    """The bytes of an event in a record of this version."""
    return spelled(FORMS[version], event)


def header_parts(header):
    """The bytes before the first segment: what all processors share, and the start of each."""
    count = struct.pack("<H" if is_wide(header.version) else "<B", len(header.starts))
    fixed = struct.pack("<8sHBB", MAGIC, header.version, header.address_bits, header.flags)
    return [fixed + count + struct.pack("<I", header.segment),
            *(struct.pack("<QB", *start) for start in header.starts)]


def header_bytes(header):
    """The bytes before the first segment."""
    return b"".join(header_parts(header))


def segment_head(number, count):
    """What stands before the events of a segment."""
    return struct.pack("<BII", SEGMENT_TAG, number, count)


def end_bytes(count):
    """The end mark of a record with so many events."""
    return struct.pack("<BI", END_TAG, count)


def record_parts(header, events):
    """The bytes of a record, in parts: those of its header, the head of each segment, each event, the
    end."""
    form = FORMS[header.version]
    parts = header_parts(header)
    for number, first in enumerate(range(0, len(events), header.segment)):
        segment = events[first:first + header.segment]
        parts.append(segment_head(number, len(segment)))
        parts += [spelled(form, event) for event in segment]
    parts.append(end_bytes(len(events)))
    return parts


def record_bytes(header, events):
    """The bytes of a record."""
    return b"".join(record_parts(header, events))
