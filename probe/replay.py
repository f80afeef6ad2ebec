# SPDX-License-Identifier: MIT OR Apache-2.0
"""Lays out a record's events for the guest to carry them out again (guest/replay.c): where each
table and each frame goes, and one step an event. A record of the guest's own stays where it was; of
another the tables and frames are moved to where the guest has place for them."""
import struct

from probe import image, keeping
from records.events import (ACCESS_TAG, DIRTY, NO_FLUSH, TAGS, Answer, Assist, Fault, InvalidatePage, InvalidatePcid,
                            LoadRoot, SetGlobalPages, Write, has_spans)

MOST_BYTES = 0x100000
MAGIC = b"GPREPLAY"
MOST_PROCESSORS, MOST_TABLES, MOST_FRAMES = 8, 96, 256
POOL, PIECE, GIGABYTE = 0x400000, 0x200000, 1 << 30
OWN_SLOTS = (256, 257)  # of each root
OWN_WORDS, SLOT_WORDS = 1, 2
HIGH_RESERVED = 1
IMPLICIT = 3
GIGABYTE_PAGES, PCIDS = 1, 2
P, A, D, PS, XD = 1, 1 << 5, 1 << 6, 1 << 7, 1 << 63
# Where frames may be: those that the guest's random runs have, and what else it leaves alone.
LOW_FRAMES = (0, 0x1000, 0x7000, 0x64000, 0x102000, 0x1FF000)
LOW_END = 0x8000000
FREE = ((POOL, 0x600000), (0x1000000, LOW_END), (GIGABYTE, GIGABYTE + LOW_END))
PLACE_OF_FRAMES, PLACE_OF_PIECES = 0x1000000, 0x2000000
NOWHERE = 0x1FFF000  # for frames that no access of the record can reach
OFFSETS = {0: 0, 1: 24, 2: 8, IMPLICIT: 16}
SLOTS = (2, 3, 19, 40, 62, 90, 126)
STEP = struct.Struct("<BBBBIQQ")


def stop(why):
    raise image.Stop(f"the record can't be placed: {why}")


WRITE, LOAD_ROOT, INVALIDATE_PAGE, INVALIDATE_PCID, SET_GLOBAL_PAGES, ASSIST = (
    TAGS[kind] for kind in (Write, LoadRoot, InvalidatePage, InvalidatePcid, SetGlobalPages, Assist))


class Step:
    """An event as it is carried out again: `what` is its tag, or one of the guest's own words."""

    def __init__(self, what, processor=0, flags=0, kind=0, pcid=0, address=0, value=0):
        self.what, self.processor, self.flags, self.kind = what, processor, flags, kind
        self.pcid, self.address, self.value = pcid, address, value

    def bytes(self):
        return STEP.pack(self.what, self.processor, self.flags, self.kind, self.pcid,
                         self.address & (1 << 64) - 1, self.value)


class Source:
    """What a record says: its settings, starts, events and the walks of its accesses."""

    def __init__(self, record, notes):
        header = record.header
        if has_spans(header.version):
            stop(f"it has version {header.version}, and no one order: `certify --bytes` gives one")
        if len(header.starts) > MOST_PROCESSORS:
            stop(f"it has {len(header.starts)} processors, and the guest {MOST_PROCESSORS}")
        self.record, self.notes = record, notes
        self.m, self.rules, self.starts = header.address_bits, header.flags, header.starts
        self.address_bits = (1 << self.m) - 4096
        self.steps, self.values, self.answers = [], {}, set()
        for number, event in enumerate(record.events):
            self.take(number, event)
        self.roots = {cr3 & self.address_bits for cr3, _ in self.starts} | {
            step.address & self.address_bits for step in self.steps if step.what == LOAD_ROOT}
        self.pages = {step.address & ~4095 for step in self.steps if step.what == ACCESS_TAG}
        self.levels, self.leaves, self.read = {}, {}, set()
        for root in self.roots:
            for page in self.pages or {0}:
                self.walk(root, page, 4)

    def take(self, number, event):
        """Adds the step of an event, and notes what walks can meet by it."""
        processor = event.processor
        match event:
            case Write():
                self.values.setdefault(event.address, []).append(event.value)
                step = Step(WRITE, processor, address=event.address, value=event.value)
            case Answer() | Fault():
                step = Step(ACCESS_TAG, processor, self.asked(number, event), address=event.linear)
                if isinstance(event, Answer):
                    self.answers.add(event.physical & ~4095)
            case LoadRoot():
                step = Step(LOAD_ROOT, processor, address=event.operand)
            case InvalidatePage():
                step = Step(INVALIDATE_PAGE, processor, address=event.linear)
            case InvalidatePcid():
                step = Step(INVALIDATE_PCID, processor, kind=event.kind, pcid=event.pcid, address=event.linear)
            case SetGlobalPages():
                step = Step(SET_GLOBAL_PAGES, processor, value=event.is_on)
            case Assist():
                if self.is_served(number):
                    return
                flags = A | (D if event.flags & DIRTY else 0)
                step = Step(ASSIST, processor, address=event.address, value=flags)
        self.steps.append(step)

    def is_served(self, number):
        """Whether the access follows that an assist serves, whose processor sets the flags."""
        assist, *behind = self.record.events[number:]
        access = next((event for event in behind if isinstance(event, (Answer, Fault)) and
                       event.processor == assist.processor), None)
        return access is not None and access.linear == assist.linear

    def asked(self, number, event):
        """The operation and what carries it out. Where no note tells, a read at the place of a
        slot's descriptor is an implicit access, which the guest made."""
        words = self.notes.get(number)
        if words is None and not self.notes and event.flags & 15 == 0 and event.linear % 32 == OFFSETS[IMPLICIT]:
            words = ("ac",)
        if words is None:
            return event.flags & 15
        return IMPLICIT | (4 if "user" in words else 0) | (8 if "ac" in words else 0)

    def kind(self, level, entry):
        """Whether an entry is a table, or a leaf; None where it is absent or has a reserved bit."""
        is_large = bool(entry & PS) and level in (2, 3)
        reserved = (1 << 52) - (1 << self.m) | (PS if level == 4 else 0)
        reserved |= {2: 0x1FE000, 3: 0x3FFFE000}[level] if is_large else 0
        reserved |= 0 if self.rules & 2 else XD
        if not entry & P or entry & reserved:
            return None
        return "leaf" if level == 1 or is_large else "table"

    def walk(self, table, page, level):
        """All that a walk of the page can ever meet at this table."""
        self.levels.setdefault(table, set()).add(level)
        word = table + 8 * (page >> 3 + 9 * level & 511)
        self.read.add(word)
        for value in dict.fromkeys(self.values.get(word, ())):
            kind, base = self.kind(level, value), value & self.address_bits
            if kind == "table":
                self.walk(base, page, level - 1)
            elif kind == "leaf":
                size = 1 << 3 + 9 * level
                self.leaves.setdefault(level, set()).add(base & ~(size - 1))
                self.answers.add(base & ~(size - 1) | page & size - 4096)


class Place:
    """Where the tables and frames of a record go."""

    def __init__(self, source, is_small=False):
        self.source, self.moved, self.pieces = source, {}, {}
        self.tables = source.roots | {word & ~4095 for word in source.values}
        # (a frame that no word was written in may serve as a table too, of absent entries)
        self.frames = (source.answers | set(source.levels)) - self.tables
        self.stays = all(POOL <= it < POOL + 4096 * MOST_TABLES for it in self.tables) and all(
            it in LOW_FRAMES or any(low <= it < high for low, high in FREE) for it in self.frames)
        if is_small or not self.stays:
            self.try_to_move()
        if len(self.tables) > MOST_TABLES or len(self.frames) > MOST_FRAMES:
            stop(f"it has {len(self.tables)} tables and {len(self.frames)} frames, of which the "
                 f"guest takes {MOST_TABLES} and {MOST_FRAMES}")

    def try_to_move(self):
        """Moves all to the first 128 MB, or leaves it where it was if that is a place too."""
        try:
            self.move()
            self.stays = False
        except image.Stop:
            if not self.stays:
                raise

    def move(self):
        source = self.source
        if source.leaves.get(3):
            stop("a 1-GB page lies elsewhere than the guest's memory")
        if any(len(levels) > 1 and any(value & PS for word in source.values if word & ~4095 == table
                                       for value in source.values[word])
               for table, levels in source.levels.items()):
            stop("a table serves at several levels and has an entry with PS=1, and lies elsewhere "
                 "than the guest's")
        pieces = {base: PLACE_OF_PIECES + PIECE * k
                  for k, base in enumerate(sorted(source.leaves.get(2, ())))}
        if any(table & -PIECE in pieces for table in self.tables):
            stop("a table lies within a large page, and elsewhere than the guest's tables")
        if len(pieces) > 48:
            stop(f"it has {len(pieces)} pages of 2 MB")
        self.moved = {table: POOL + 4096 * k for k, table in enumerate(sorted(self.tables))}
        for k, frame in enumerate(sorted(self.frames)):
            self.moved[frame] = (pieces[frame & -PIECE] | frame & PIECE - 1
                                 if frame & -PIECE in pieces else PLACE_OF_FRAMES + 4096 * k)
        self.pieces = pieces

    def is_low(self):
        """Whether all lies in the first 128 MB."""
        return not self.stays or all(frame < LOW_END for frame in self.frames)

    def frame(self, address):
        """Where a frame is."""
        return address if self.stays else self.moved.get(address, NOWHERE)

    def entry(self, table, value):
        """An entry as it is written, and whether it has a bit above the record's addresses."""
        source = self.source
        flag = HIGH_RESERVED if value & (1 << 52) - (1 << source.m) else 0
        levels = source.levels.get(table, {1})
        kinds = {source.kind(level, value) for level in levels}
        if self.stays or kinds == {None}:
            return value, flag
        level, base = min(levels), value & source.address_bits
        if "leaf" in kinds and level == 2:
            return value & ~(source.address_bits & -PIECE) | self.pieces.get(base & -PIECE,
                                                                            NOWHERE & -PIECE), flag
        return value & ~source.address_bits | self.frame(base), flag

    def slot(self):
        """A slot's number: that of the record where the guest made it, else one that no word of a
        table which answers accesses has."""
        offsets = {(step.address & 4095) - OFFSETS[step.flags & 3] for step in self.source.steps
                   if step.what == ACCESS_TAG}
        own = [it // 32 for it in offsets if it >= 0 and it % 32 == 0] if len(offsets) == 1 else []
        used = {word & 4095 for word in {*self.source.values, *self.source.read}
                if word & ~4095 in self.frames or word & ~4095 in self.source.answers}
        free = [it for it in SLOTS if not used & set(range(32 * it, 32 * it + 32))]
        if not own and not free:
            stop("words of tables that answer accesses stand where the guest's marks would")
        return (own or free)[0]


def placed(step, source, place, slot):
    """The step where the guest has its tables and frames; nothing of a write of the guest's own
    words, which it makes itself."""
    table = step.address & ~4095
    if step.what == WRITE:
        if table in source.roots and step.address >> 3 & 511 in OWN_SLOTS:
            return None
        if table in source.answers and (step.address & 4095) // 32 == slot:
            return None
        step.value, step.flags = place.entry(table, step.value)
    if step.what in (WRITE, ASSIST):
        step.address = place.frame(table) | step.address & 4095
    elif step.what == LOAD_ROOT:
        root = step.address & source.address_bits
        step.address = step.address & ~source.address_bits | place.frame(root)
    return step


def needs_of(source, steps):
    """What the machine has to have, in bits."""
    has_pcids = any(cr3 & 4095 for cr3, _ in source.starts) or any(
        step.what == INVALIDATE_PCID or (step.what == LOAD_ROOT and step.address & (4095 | NO_FLUSH))
        for step in steps)
    return (GIGABYTE_PAGES if source.leaves.get(3) else 0) | (PCIDS if has_pcids else 0)


def laid_out(record, notes):
    """The bytes for the guest, and a line that says where all is."""
    source = Source(record, notes)
    return laid_out_at(source, Place(source))


def laid_out_at(source, place, behind=b""):
    """The same for a place that is chosen, with what is to stand behind the steps."""
    for page in source.pages:
        if page >> 39 & 511 in OWN_SLOTS:
            stop(f"it has an access to {page:#x}, where the guest itself is")
    slot = place.slot()
    # Each root gets the guest's own words, and each table that answers accesses a slot.
    steps = [Step(OWN_WORDS, address=place.frame(root)) for root in sorted(source.roots)]
    steps += [Step(SLOT_WORDS, address=place.frame(table))
              for table in sorted(place.tables & source.answers)]
    steps += filter(None, (placed(step, source, place, slot) for step in source.steps))
    starts = [(cr3 & 4095 | place.frame(cr3 & source.address_bits), pge) for cr3, pge in source.starts]
    starts += [(0, 0)] * (MOST_PROCESSORS - len(starts))
    frames = sorted(map(place.frame, place.frames))
    tables = max((place.frame(it) - POOL) // 4096 + 1 for it in place.tables)
    body = b"".join([*(struct.pack("<QQ", *start) for start in starts),
                     *(struct.pack("<Q", frame) for frame in frames),
                     *(step.bytes() for step in steps), behind])
    head = struct.pack("<8s9Q", MAGIC, 80 + len(body), len(source.starts), source.rules, source.m,
                       needs_of(source, steps), slot, tables, len(frames), len(steps))
    said = (f"{len(source.steps)} events, {len(place.tables)} tables, {len(frames)} frames, " +
            ("where they were" if place.stays else "moved"))
    return head + body, said


def of_files(paths):
    """Of several records the bytes for the guest, the most processors, and a line for each. An
    accepted record may have no event that is carried out again."""
    parts, processors, said = [], 1, []
    for path in paths:
        record, notes = keeping.read_kept(path)
        try:
            data, line = laid_out(record, notes)
        except image.Stop as why:
            raise image.Stop(f"{path}: {why}") from None
        parts.append(data)
        said.append(line)
        processors = max(processors, len(record.header.starts))
    if sum(map(len, parts)) + 8 > MOST_BYTES:
        raise image.Stop(f"{sum(map(len, parts))} bytes to carry out: the guest takes {MOST_BYTES}")
    return b"".join(parts), processors, said
