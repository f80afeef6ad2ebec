# SPDX-License-Identifier: MIT OR Apache-2.0
"""What gives an outcome of an access, by the moments that it is told with: the entries of the walk, since when its leaf
is cached, and in version 2 the words that need flags. It is made of the events alone, by the manual's rules."""
from dataclasses import dataclass

from records.events import (NO_FLUSH, OPERATION, Assist, Fault, InvalidatePage, InvalidatePcid, LoadRoot,
                            SetGlobalPages, Write)

WRITE = 1  # the operation of an access
PRESENT, ACCESSED, DIRTY, LARGE, GLOBAL, EXECUTE_DISABLE = 1, 1 << 5, 1 << 6, 1 << 7, 1 << 8, 1 << 63
NXE = 2  # of a header's flags
ASSIST_DIRTY = 16  # of an assist's flags
USED = ("table", "leaf")  # the entries that need the accessed flag


def shift_of(level):
    """Of the lowest bit of a linear address that picks an entry of the level."""
    return 12 + 9 * (level - 1)


def ones(first, end):
    return (1 << end) - (1 << first)


@dataclass
class Control:
    """The control registers of a processor."""
    root: int
    pcid: int
    has_global_pages: int


def control_at(record, processor, moment):
    """Those just before the event of this number."""
    cr3, has_global_pages = record.header.starts[processor]
    frames = ones(12, record.header.address_bits)
    now = Control(cr3 & frames, cr3 & 0xfff, has_global_pages)
    for event in record.events[:moment]:
        if event.processor == processor and isinstance(event, LoadRoot):
            now.root, now.pcid = event.operand & frames, event.operand & 0xfff
        elif event.processor == processor and isinstance(event, SetGlobalPages):
            now.has_global_pages = event.is_on
    return now


def word_at(record, address, moment):
    """What a word holds just before the event of this number, and the event that wrote it last."""
    value, writer = 0, None
    for number, event in enumerate(record.events[:moment]):
        if isinstance(event, Write) and event.address == address:
            value, writer = event.value, number
        elif isinstance(event, Assist) and event.address == address:
            value, writer = value | ACCESSED | (DIRTY if event.flags & ASSIST_DIRTY else 0), number
    return value, writer


def kind_of(header, level, value):
    if not value & PRESENT:
        return "absent"
    is_large = bool(value & LARGE) and level > 1
    reserved = ones(header.address_bits, 52) | (0 if header.flags & NXE else EXECUTE_DISABLE)
    if is_large:
        reserved |= LARGE if level == 4 else ones(13, shift_of(level))
    if value & reserved:
        return "reserved"
    return "leaf" if is_large or level == 1 else "table"


def walk_by(record, access, moments):
    """The entries that the moments name, as JSON says them."""
    entries, table = [], control_at(record, access.processor, moments[0]).root
    for level, moment in zip((4, 3, 2, 1), moments):
        address = table + 8 * (access.linear >> shift_of(level) & 511)
        value, writer = word_at(record, address, moment)
        entries.append({"level": level, "moment": moment, "word": f"{address:#x}", "value": f"{value:#x}",
                        "pcid": f"{control_at(record, access.processor, moment).pcid:#x}",
                        "is": kind_of(record.header, level, value), "written_by": writer})
        table = value & ones(12, record.header.address_bits)
    return entries


def is_of_page(linear, other, shift):
    return (linear ^ other) & ones(shift, 48) == 0


def drops(event, now, pcid, is_global, linear, shift):
    """Whether an event of a processor with these registers has to drop the translation of a page (SDM, 4.10.4.1)."""
    if isinstance(event, (InvalidatePage, Fault)):
        return is_of_page(event.linear, linear, shift) and (is_global or pcid == now.pcid)
    if isinstance(event, LoadRoot):
        return not event.operand & NO_FLUSH and not is_global and pcid == event.operand & 0xfff
    if isinstance(event, SetGlobalPages):
        return event.is_on != now.has_global_pages
    if isinstance(event, InvalidatePcid):
        is_own = pcid == event.pcid and not is_global
        return (is_own and is_of_page(event.linear, linear, shift), is_own, True, not is_global)[event.kind]
    return False


def dropped_by(record, number, entry):
    """The first event from the moment of a leaf up to the access of this number that has to drop its translation."""
    access, since = record.events[number], entry["moment"]
    read = control_at(record, access.processor, since)
    is_global = has(entry, GLOBAL) and bool(read.has_global_pages)
    for at in range(since, number):
        event = record.events[at]
        now = control_at(record, access.processor, at)
        if event.processor == access.processor and drops(event, now, read.pcid, is_global, access.linear,
                                                         shift_of(entry["level"])):
            return at
    return None


def page_by(record, access, entry):
    """The physical address that a leaf gives."""
    shift = shift_of(entry["level"])
    frame = int(entry["value"], 16) & ones(shift, record.header.address_bits)
    return f"{frame | access.linear & ones(0, shift):#x}"


def has(entry, flag):
    return bool(int(entry["value"], 16) & flag)


def flags_of(access, outcome, walk):
    """The words whose accessed flag an outcome needs, and the one whose dirty flag it needs, if any."""
    is_done_write = "page" in outcome and access.flags & OPERATION == WRITE
    return {"accessed": [entry["word"] for entry in walk if entry["is"] in USED],
            "dirty": walk[-1]["word"] if is_done_write else None}


def given(record, number, outcome):
    """What has to be said of an outcome of an access, by its moments. It raises where these do not give it: tables and
    then another entry, of which a leaf is not dropped, and whose flags are set where they are needed."""
    access, moments = record.events[number], outcome["by"]
    walk = walk_by(record, access, moments)
    *tables, last = walk
    if moments != sorted(moments) or moments[-1] > number or any(entry["is"] != "table" for entry in tables):
        raise ValueError(f"no walk: {walk}")
    it = {"by": moments, "walk": walk, "cached_since": None}
    if last["is"] == "leaf":
        it["cached_since"] = last["moment"]
        if (by := dropped_by(record, number, last)) is not None:
            raise ValueError(f"event {by} drops the translation that {outcome} uses")
    elif last["moment"] != number:
        raise ValueError(f"an entry of moment {last['moment']} gives no fault at event {number}")
    it |= {"page": page_by(record, access, last)} if "page" in outcome else {"fault": outcome["fault"]}
    if record.header.version == 2:
        it |= flags_of(access, outcome, walk)
        used = [entry for entry in walk if entry["is"] in USED]
        if not all(has(entry, ACCESSED) for entry in used) or it["dirty"] and not has(last, DIRTY):
            raise ValueError(f"a flag that {outcome} needs is not set: {walk}")
    return it
