# SPDX-License-Identifier: MIT OR Apache-2.0
"""Records as Python values and as bytes, written from docs/FORMAT.md alone.

A header is (version, m, settings, segment, [(cr3, pge), ..]). An event is a tuple: its name, its
processor and its fields:
    ("write", p, address, value)
    ("answer", p, flags, linear, physical, moments)    ("fault", p, flags, linear, code, moments)
    ("mov_cr3", p, operand)    ("invlpg", p, linear)    ("invpcid", p, type, pcid, linear)
    ("mov_cr4", p, pge)        ("assist", p, flags, linear, entry, moments)
In versions 3 and 4 moments is the empty list, and each event has a number beside it, its back.
"""
import struct

TAGS = {"write": 0x10, "answer": 0x11, "fault": 0x11, "mov_cr3": 0x12, "invlpg": 0x13,
        "invpcid": 0x14, "mov_cr4": 0x15, "assist": 0x16}
FIELDS = {"write": "<QQ", "answer": "<BQBQ", "fault": "<BQBH", "mov_cr3": "<Q", "invlpg": "<Q",
          "invpcid": "<BHQ", "mov_cr4": "<B", "assist": "<BQQ"}
MOST_PROCESSORS = {1: 64, 2: 1024, 3: 64, 4: 1024}
LONGEST_EVENT = {1: 37, 2: 38, 3: 24, 4: 25}
SPANNED = (3, 4)


def is_narrow(version):
    """Whether a processor's number has one byte."""
    return version in (1, 3)


def event_bytes(version, event, back=0):
    name, processor, *fields = event
    moments = fields.pop() if name in ("answer", "fault", "assist") else None
    if name in ("answer", "fault"):
        fields.insert(2, int(name == "fault"))
    head = struct.pack("<BB" if is_narrow(version) else "<BH", TAGS[name], processor)
    if version in SPANNED:
        head += struct.pack("<I", back)
    body = struct.pack(FIELDS[name], *fields)
    if moments is not None and version not in SPANNED:
        body += struct.pack(f"<B{len(moments)}I", len(moments), *moments)
    return head + body


def header_bytes(header):
    version, m, settings, segment, start = header
    fixed = struct.pack("<8sHBB", b"PGRECORD", version, m, settings)
    fixed += struct.pack("<BI" if is_narrow(version) else "<HI", len(start), segment)
    return fixed + b"".join(struct.pack("<QB", cr3, pge) for cr3, pge in start)


def segments_bytes(header, events, backs=()):
    """The bytes of each segment. Where no backs are told each is 0."""
    version, size = header[0], header[3]
    parts = [event_bytes(version, *pair) for pair in zip(events, backs or [0] * len(events))]
    cuts = [parts[at:at + size] for at in range(0, len(parts), size)]
    return [struct.pack("<BII", 1, number, len(cut)) + b"".join(cut)
            for number, cut in enumerate(cuts)]


def end_bytes(count):
    return struct.pack("<BI", 2, count)


def record_bytes(header, events, backs=()):
    return (header_bytes(header) + b"".join(segments_bytes(header, events, backs)) +
            end_bytes(len(events)))


def log_bytes(header, number, events, is_whole=True):
    """The log of a processor of a run with this header: (begin, end, event) each."""
    version, m, settings, _, start = header
    head = struct.pack("<8sHBBHHQB", b"PGCPULOG", version, m, settings, len(start), number,
                       *start[number])
    # (an event as a record has it, without its back)
    place = 1 + (1 if is_narrow(version) else 2)
    parts = []
    for begin, end, event in events:
        spelled = event_bytes(version + 2, event)
        parts.append(struct.pack("<QQ", begin, end) + spelled[:place] + spelled[place + 4:])
    return head + b"".join(parts) + struct.pack("<QQ", 2**64 - 1, len(parts)) * is_whole


def log_refusal(header, number):
    """The status that `pcid_log_begin` answers."""
    if header[0] not in (1, 2):
        return 10
    return 11 if number >= len(header[4]) else header_refusal((*header[:3], 1, header[4]), 99)


class Cut(Exception):
    """The bytes end, or are no record's."""


class Bytes:
    def __init__(self, data):
        self.data, self.at = data, 0

    def take(self, form):
        size = struct.calcsize(form)
        if self.at + size > len(self.data):
            raise Cut
        self.at += size
        return struct.unpack_from(form, self.data, self.at - size)


def read_header(source):
    magic, version, m, settings = source.take("<8sHBB")
    if magic != b"PGRECORD" or version not in MOST_PROCESSORS:
        raise Cut
    processors, segment = source.take("<BI" if is_narrow(version) else "<HI")
    return version, m, settings, segment, [source.take("<QB") for _ in range(processors)]


def read_event(source, version):
    """The event, and its back."""
    tag, processor = source.take("<BB" if is_narrow(version) else "<BH")
    back, = source.take("<I") if version in SPANNED else (0,)
    if tag == 0x11:
        flags, linear, outcome = source.take("<BQB")
        name = ("answer", "fault")[outcome]
        fields = [flags, linear, *source.take("<H" if outcome else "<Q")]
    else:
        name = {number: word for word, number in TAGS.items()}[tag]
        fields = list(source.take(FIELDS[name]))
    if tag in (0x11, 0x16):
        count = 0 if version in SPANNED else source.take("<B")[0]
        fields.append(list(source.take(f"<{count}I")))
    return (name, processor, *fields), back


def read_record(data):
    """The header and the events of a record that is whole."""
    header, events = read_spans(data)
    return header, [event for event, _ in events]


def read_spans(data):
    """The header of such a record, and its events, each with its back."""
    source, events = Bytes(data), []
    header = read_header(source)
    while source.take("<B") == (1,):
        _, count = source.take("<II")
        events += [read_event(source, header[0]) for _ in range(count)]
    if source.take("<I") != (len(events),) or source.at != len(data):
        raise Cut
    return header, events


def header_refusal(header, size):
    """The status that `pcid_record_begin` answers, with a buffer of `size` bytes."""
    version, m, settings, segment, start = header
    if version not in MOST_PROCESSORS:
        return 10
    if not (36 <= m <= 52 and settings < 16 and 1 <= len(start) <= MOST_PROCESSORS[version]
            and 1 <= segment <= 65536 and all(cr3 < 1 << m and pge < 2 for cr3, pge in start)):
        return 11
    return 12 if size < buffer_size(header) else 0


def buffer_size(header):
    """The least buffer that `pcid_record_begin` takes."""
    return 9 + header[3] * LONGEST_EVENT[header[0]]


def canonical(linear):
    return linear < 1 << 47 or linear >= (1 << 64) - (1 << 47)


def event_refusal(header, event):
    """The status that the call of this event answers, where the record is open and not full."""
    version, m, _, _, start = header
    name, processor, *fields = event
    if name == "assist" and version in (1, 3):
        return 8
    if name in ("answer", "fault", "assist") and not \
            (not fields[-1] if version in SPANNED else 1 <= len(fields[-1]) <= 4):
        return 7
    if name == "fault" and fields[2] > 0xFFFF:
        return 7
    if name == "mov_cr4" and fields[0] > 1:
        return 7
    if processor >= len(start):
        return 1
    word = {"write": fields[0], "assist": fields[2] if len(fields) > 2 else 0}.get(name, 0)
    if word % 8 or word >= 1 << m:
        return 2
    linear = {"answer": 1, "fault": 1, "assist": 1, "invlpg": 0}.get(name)
    if name == "invpcid" and fields[0] == 0:
        linear = 2
    if linear is not None and not canonical(fields[linear]):
        return 3
    if name == "mov_cr3" and fields[0] % (1 << 63) >= 1 << m:
        return 4
    if name == "invpcid":
        kind, pcid, address = fields
        if kind > 3 or pcid > 4095 or (kind in (2, 3) and pcid) or (kind in (1, 2, 3) and address):
            return 5
    if name in ("answer", "fault", "assist"):
        flags = fields[0]
        if flags % 4 == 3 or flags >> (5 if name == "assist" else 4):
            return 6
        if flags & 16 and flags % 4 != 1:
            return 6
    return 0
