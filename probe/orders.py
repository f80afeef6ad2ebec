# SPDX-License-Identifier: MIT OR Apache-2.0
"""The orders that the events of a small record with spans may have had, each judged by itself: for
records that `pcid-audit certify` does not decide."""
from dataclasses import replace

from probe import auditor, keeping
from records.events import Record, Walk

MOST_EVENTS, MOST_ORDERS = 60, 100


def orders(processors, ended_before):
    """The orders of events, as lists of their numbers: each stands behind those that had ended when
    it began, and behind the earlier ones of its processor."""
    count = len(processors)
    before = [{j for j in range(i) if j < ended_before[i] or processors[j] == processors[i]}
              for i in range(count)]

    def extend(placed, rest):
        if not rest:
            yield placed
        for number in rest:
            if before[number].isdisjoint(rest):
                yield from extend([*placed, number], [it for it in rest if it != number])
    return extend([], list(range(count)))


def in_order(record, order):
    """The record of one order of the events, of version 1 or 2. Nobody named moments: each access
    and each assist has one, 0."""
    events = [replace(record.events[number], back=0) for number in order]
    events = [replace(event, moments=(0,)) if isinstance(event, Walk) else event for event in events]
    header = replace(record.header, version=record.header.version - 2)
    return keeping.bytes_of(Record(header, events))


def is_no_in_each(record):
    """Whether certify says no of each order of a record, as far as these are few."""
    if len(record.events) > MOST_EVENTS:
        return False
    processors = [event.processor for event in record.events]
    ended_before = [number - event.back for number, event in enumerate(record.events)]
    for count, order in enumerate(orders(processors, ended_before)):
        if count == MOST_ORDERS or auditor.certify(in_order(record, order))[0] != 1:
            return False
    return True
