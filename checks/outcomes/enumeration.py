# SPDX-License-Identifier: MIT OR Apache-2.0
"""What an access may return, by trial: each outcome that is thinkable is put in the access's place behind the events
before it, and `certify` is asked whether some run of the manual's machine has these events. It shares no search with
what finds outcomes otherwise, so it can judge that."""
from dataclasses import replace

from records.events import ACCESSES, DIRTY, OPERATION, USER, Answer, Assist, Fault, Write, has_spans
from records.writing import record_bytes

SIZES = (1 << 12, 1 << 21, 1 << 30)  # of pages
ACCESSED_BIT, DIRTY_BIT = 1 << 5, 1 << 6  # of an entry
WRITE, FETCH = 1, 2  # the operation of an access
UNNAMED = (0,)  # the moments of a record in which nobody named them


class Untried(Exception):
    """There is no access of one order there."""


def access_at(record, number):
    """The event of this number, which has to be an access of a record that is one order."""
    if has_spans(record.header.version):
        raise Untried("events overlap in a record of version 3 or 4")
    if not 0 <= number < len(record.events) or not isinstance(record.events[number], ACCESSES):
        raise Untried(f"event {number} is no access")
    return record.events[number]


def frames_of(record, linear):
    """Where the page of an address may lie, by all that a word of the record ever held: for each size of a page the
    address that the bits of each entry give. And one frame that no word held."""
    bits = (1 << record.header.address_bits) - 1
    bases = {event.value & bits & -SIZES[0] for event in record.events if isinstance(event, Write)}
    found = {(base & -size) | linear & (size - 1) for base in bases for size in SIZES}
    taken = {it & -SIZES[0] for it in found} | bases
    other = next(frame for frame in range(SIZES[0], bits, SIZES[0]) if frame not in taken)
    return sorted(found | {other | linear & (SIZES[0] - 1)})


def codes_of(flags):
    """The error codes that a page fault of such an access can have: bits 0 and 3 in each way, bits 1 and 2 as the
    access is. Of a fetch bit 4 is tried in each way, whatever the settings are."""
    fixed = (2 if flags & OPERATION == WRITE else 0) | (4 if flags & USER else 0)
    fetches = (0, 16) if flags & OPERATION == FETCH else (0,)
    return sorted(fixed | present | reserved | fetch for present in (0, 1) for reserved in (0, 8) for fetch in fetches)


def candidates(record, number):
    """The outcomes that are tried, as events."""
    access = access_at(record, number)
    asked = access.processor, access.flags, access.linear
    return ([Answer(*asked, physical, UNNAMED) for physical in frames_of(record, access.linear)] +
            [Fault(*asked, code, UNNAMED) for code in codes_of(access.flags)])


def allowed(record, number, accepts, mapping=map):
    """The outcomes that the access may have behind the events before it, as events: physical addresses and then error
    codes, each in rising order. None where those before are rejected. What the access itself got is not looked at.
    `accepts` says of a record's bytes whether `certify` says yes; `mapping` may ask side by side."""
    before, tried = record.events[:number], candidates(record, number)
    verdicts = mapping(lambda event: accepts(record_bytes(record.header, [*before, event])), tried)
    return [event for event, verdict in zip(tried, verdicts) if verdict]


# ---- Assists (version 2)

def memory_of(events):
    """Each word behind events, as writes and assists left it."""
    words = {}
    for event in events:
        if isinstance(event, Write):
            words[event.address] = event.value
        elif isinstance(event, Assist):
            words[event.address] = words.get(event.address, 0) | bits_of(event)
    return words


def bits_of(assist):
    """The flags that an assist sets."""
    return ACCESSED_BIT | (DIRTY_BIT if assist.flags & DIRTY else 0)


def changes_of(before, assists):
    """By its address, of each word that assists set flags of behind these events, the flags."""
    words = memory_of(before)
    after = memory_of([*before, *assists])
    return {it.address: after[it.address] & ~words.get(it.address, 0) for it in assists}


def served(record, number):
    """The numbers of the assists before an access that serve it: those of its processor and address since that
    processor's event before."""
    access, found = record.events[number], []
    for at in range(number - 1, -1, -1):
        event = record.events[at]
        if event.processor != access.processor:
            continue
        if not isinstance(event, Assist) or event.linear != access.linear:
            break
        found.append(at)
    return found


def next_assists(record, access):
    """An assist for each word that lacks A, and of a write for each that lacks D, as the words are behind the events
    of a record."""
    for address, value in sorted(memory_of(record.events).items()):
        if value & 1 and not value & ACCESSED_BIT:
            yield Assist(access.processor, access.flags, access.linear, address, UNNAMED)
        if value & 1 and not value & DIRTY_BIT and access.flags & OPERATION == WRITE:
            yield Assist(access.processor, access.flags | DIRTY, access.linear, address, UNNAMED)


def allowed_with_assists(record, number, accepts, mapping=map):
    """The outcomes that the access may have with assists of its own in the place of those that the record has for it:
    pairs of assists and of outcomes that are allowed behind them. In version 1 there are no assists."""
    access, gone = access_at(record, number), set(served(record, number))
    if record.header.version != 2:
        return [((), allowed(record, number, accepts, mapping))]
    before = [event for at, event in enumerate(record.events[:number]) if at not in gone]
    found, open_ones, seen = [], [()], set()
    while open_ones:
        assists = open_ones.pop(0)
        now = replace_events(record, [*before, *assists])
        found.append((assists, allowed(replace_events(record, [*now.events, access]), len(now.events), accepts,
                                       mapping)))
        more = list(next_assists(now, access))
        verdicts = mapping(lambda it, now=now: accepts(record_bytes(record.header, [*now.events, it])), more)
        for assist, is_allowed in zip(more, verdicts):
            changes = frozenset((it.address, it.flags & DIRTY) for it in (*assists, assist))
            if is_allowed and changes not in seen:
                seen.add(changes)
                open_ones.append((*assists, assist))
    return [(assists, outcomes) for assists, outcomes in found if outcomes]


def replace_events(record, events):
    """A record of these events under the same header."""
    return replace(record, events=events)
