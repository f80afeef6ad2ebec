# SPDX-License-Identifier: MIT OR Apache-2.0
"""Logs of single processors: their bytes, and what stands whole of one that is cut."""
import struct
from dataclasses import dataclass

from records.events import FORMS_OF_LOGS
from records.reading import Cut, Source, read_event
from records.writing import spelled

MAGIC = b"PGCPULOG"
HEAD = struct.Struct("<8sHBBHHQB")
STAMPS = struct.Struct("<QQ")
END = (1 << 64) - 1  # in the place of a begin stamp


@dataclass
class Log:
    """What one processor logged: its events are (begin stamp, end stamp, event). It is whole where
    its end mark is there."""
    version: int
    address_bits: int
    flags: int
    processors: int
    processor: int
    start: tuple  # CR3 and CR4.PGE
    events: list
    is_whole: bool = True


def log_bytes(log):
    """The bytes of a log, with an end mark."""
    form = FORMS_OF_LOGS[log.version]
    head = HEAD.pack(MAGIC, log.version, log.address_bits, log.flags, log.processors, log.processor, *log.start)
    parts = [STAMPS.pack(begin, end) + spelled(form, event) for begin, end, event in log.events]
    return b"".join([head, *parts, STAMPS.pack(END, len(log.events))])


def read_log(data):
    """The log that begins with these bytes, as far as it is whole. Cut where its header is not."""
    source = Source(data)
    magic, version, address_bits, flags, processors, processor, *start = source.take(HEAD)
    if magic != MAGIC or version not in FORMS_OF_LOGS:
        raise Cut
    log = Log(version, address_bits, flags, processors, processor, tuple(start), [], False)
    try:
        log.is_whole = read_events(source, log)
    except Cut:
        pass
    return log


def read_events(source, log):
    """Takes the events that have their place by their stamps, and says whether the end mark follows."""
    form, last = FORMS_OF_LOGS[log.version], 0
    while True:
        begin, end = source.take(STAMPS)
        if begin == END:
            return end == len(log.events)
        event = read_event(source, form)
        if not last < begin < end:
            return False
        log.events.append((begin, end, event))
        last = end
