# SPDX-License-Identifier: MIT OR Apache-2.0
"""Random records: runs of a small simulator of the manual's machine, at times of a faulty one, then at
times changed in their events or in their bytes."""
from dataclasses import replace

from records.events import (Answer, Assist, Fault, Header, InvalidatePage, InvalidatePcid, LoadRoot, SetGlobalPages,
                            Walk, Write)
from records.writing import FIELDS, end_bytes, record_bytes, record_parts

# ---- The machine

LEVELS = (4, 3, 2, 1)
DEFECTS = ["structure", "translation", "translation", "foreign", "foreign", "foreign", "context",
           "context", "context", "absent", "rights", "answer", "code", "accessed", "dirty", "assist"]


def shift_of(level):
    return 3 + 9 * level


def page_of(linear, shift):
    return (linear & (1 << 48) - 1) >> shift


class Machine:
    """Processors with caches; each cached entry keeps the moments that it was read at."""

    def __init__(self, rng, version, defect):
        self.rng, self.version, self.defect = rng, version, defect
        self.m = rng.choice([36, 40, 40, 46, 52])
        self.settings = rng.choice([rng.randrange(16), 3, 15])
        self.mixes = defect in ("foreign", "context")
        self.pcids = [rng.randrange(4096) for _ in range(2 if self.mixes else rng.choice([1, 3]))]
        self.frames = [0x1000 * n for n in range(1, rng.choice([6, 10, 14]))]
        self.frames.append((1 << self.m) - 0x1000)
        self.roots = self.frames[:1 if self.mixes else rng.choice([1, 1, 2])]
        self.linears = [self.fresh_linear() for _ in range(rng.choice([2, 4, 8]))]
        count = rng.choice([1, 1, 2, 3])
        self.starts = [(self.cr3(), rng.randrange(2)) for _ in range(count)]
        self.control = [[cr3 & ~0xfff, cr3 & 0xfff, pge] for cr3, pge in self.starts]
        self.structures = [[] for _ in range(count)]
        self.translations = [[] for _ in range(count)]
        self.memory, self.events = {}, []

    def slips(self, defect):
        """Whether a machine with this defect shows it now."""
        return self.defect == defect and self.rng.random() < 0.4

    def header(self):
        segment = self.rng.choice([1, 2, 5, 16, 1000, 65536])
        return Header(self.version, self.m, self.settings, segment, tuple(self.starts))

    def cr3(self):
        return self.rng.choice(self.roots) | self.rng.choice(self.pcids)

    def fresh_linear(self):
        rng = self.rng
        index = [rng.choice([0, 0, 0, 511]), rng.choice([0, 0, 1]), rng.choice([0, 0, 1]),
                 rng.choice([5, 6])]
        linear = index[0] << 39 | index[1] << 30 | index[2] << 21 | index[3] << 12
        return linear | (0xffff << 48 if linear >> 47 else 0)

    def linear(self):
        return self.rng.choice(self.linears) + self.rng.choice([0, 0x123, 0xfff])

    def emit(self, event):
        self.events.append(event)

    def now(self):
        return len(self.events)

    # Entries

    def kind(self, level, word):
        if not word & 1:
            return "absent"
        large = word >> 7 & 1
        reserved = word >> self.m & ((1 << 52 - self.m) - 1)
        reserved |= word >> 63 and not self.settings & 2
        reserved |= large and level == 4
        if large and level in (2, 3):
            reserved |= word & ((1 << shift_of(level)) - (1 << 13))
        if reserved:
            return "reserved"
        return "leaf" if level == 1 or (large and level < 4) else "table"

    def allowed(self, rights, flags):
        return bool(self.truly_allowed(rights, flags)) != self.slips("rights")

    def truly_allowed(self, rights, flags):
        write, user, xd = rights
        operation = flags & 3
        if flags & 4:
            return user and (write or operation != 1) and not (xd and operation == 2)
        if operation == 2:
            return not (user and self.settings & 4) and not xd
        if user and self.settings & 8 and not flags & 8:
            return False
        return operation == 0 or write or not self.settings & 1

    def code(self, flags, cause):
        fetch = flags & 3 == 2 and self.settings & 6
        code = cause | (flags & 3 == 1) << 1 | flags & 4 | (16 if fetch else 0)
        return code ^ self.rng.choice([2, 4, 16, 32, 1 << 15]) if self.slips("code") else code

    def fresh_word(self, level):
        rng = self.rng
        if rng.random() < 0.06:
            return rng.choice([0, 0x6, rng.getrandbits(64)])
        word = 1 | (rng.random() < 0.85) << 1 | (rng.random() < 0.85) << 2
        word |= (rng.random() < 0.8) << 5 | rng.randrange(2) << 6 | rng.randrange(2) << 8
        word |= (rng.random() < 0.05) << 63
        if level in (2, 3) and rng.random() < 0.2:
            word |= 1 << 7 | rng.randrange(1 << self.m - shift_of(level)) << shift_of(level)
            word |= (rng.random() < 0.1) << rng.randrange(12, shift_of(level))
        elif level == 1 and rng.random() < 0.3:
            word |= rng.randrange(1 << self.m - 12) << 12
        else:
            word |= rng.choice(self.frames)
        if rng.random() < 0.03 and self.m < 52:
            word |= 1 << rng.randrange(self.m, 52)
        return word | (rng.random() < 0.02) << (7 if level == 4 else 9)

    # Events

    def write_for(self, p, linear):
        """Writes an entry on the way of an address: mostly the first that is absent."""
        table, last = self.control[p][0], None
        for level in LEVELS:
            address = table + 8 * (linear >> shift_of(level) & 511)
            last = (level, address)
            word = self.memory.get(address, 0)
            if self.kind(level, word) != "table" or self.rng.random() < 0.1:
                break
            table = word & ((1 << self.m) - 0x1000)
        word = self.memory.get(last[1], 0)
        if word & 1 and self.rng.random() < 0.4:
            word ^= 1 << self.rng.choice([0, 1, 2, 5, 6, 8, 12, 63])
        else:
            word = self.fresh_word(last[0])
        self.emit(Write(self.rng.randrange(len(self.starts)), last[1], word))
        self.memory[last[1]] = word

    def assist(self, p, flags, linear, address, moments):
        self.emit(Assist(p, flags, linear, address, (*moments, self.now())))
        self.memory[address] = self.memory.get(address, 0) | (0x60 if flags & 16 else 0x20)

    def look(self, p, linear, flags, moments, level, table, rights):
        """Reads one entry now, with its flags set first where that has to be."""
        address = table + 8 * (linear >> shift_of(level) & 511)
        word = self.memory.get(address, 0)
        kind = self.kind(level, word)
        joined = (rights[0] and word >> 1 & 1, rights[1] and word >> 2 & 1, rights[2] or word >> 63)
        if self.version == 2 and kind in ("table", "leaf") and not self.slips("accessed"):
            dirties = kind == "leaf" and flags & 3 == 1 and self.truly_allowed(joined, flags)
            if flags & 3 == 1 and self.slips("assist"):
                self.assist(p, flags | 16, linear, address, moments)
            elif dirties and not word >> 6 & 1 and not self.slips("dirty"):
                self.assist(p, flags | 16, linear, address, moments)
            elif not word >> 5 & 1:
                self.assist(p, flags, linear, address, moments)
            word = self.memory.get(address, 0)
        return kind, word, joined, (*moments, self.now())

    def walk(self, p, linear, flags):
        """The entry that a walk ends with, from the root or from a structure entry."""
        root, pcid, pge = self.control[p]
        at = (4, root, (1, 1, 0), ())
        usable = [entry for entry in self.structures[p]
                  if (entry[0] == pcid or self.slips("context"))
                  and entry[2] == page_of(linear, shift_of(entry[1]))]
        if usable and self.rng.random() < 0.8:
            _, level, _, table, rights, moments = self.rng.choice(usable)
            at = (level - 1, table, rights, moments)
        while True:
            level, table, rights, moments = at
            kind, word, rights, moments = self.look(p, linear, flags, moments, level, table, rights)
            if kind != "table":
                break
            table = word & ((1 << self.m) - 0x1000)
            number = page_of(linear, shift_of(level))
            self.structures[p].append((pcid, level, number, table, rights, moments))
            at = (level - 1, table, rights, moments)
            if self.rng.random() < 0.1:
                self.write_for(p, linear)
        if kind == "leaf":
            shift = shift_of(level)
            frame = word & ((1 << self.m) - (1 << shift))
            entry = (pcid, shift, page_of(linear, shift), bool(word >> 8 & 1 and pge), frame,
                     rights, word, moments)
            self.translations[p].append(entry)
            return kind, entry, moments
        return kind, None, moments

    def drop(self, p, structure, translation):
        """Drops what the tests say, save what a faulty machine forgets to."""
        self.structures[p] = [e for e in self.structures[p]
                              if not structure(e) or self.slips("structure")]
        self.translations[p] = [e for e in self.translations[p]
                                if not translation(e) or self.slips("translation")]

    def drop_address(self, p, linear, every_structure):
        pcid = self.control[p][1]
        self.drop(p, lambda e: e[0] == pcid and (every_structure or e[2] == page_of(linear, shift_of(e[1]))),
                  lambda e: e[2] == page_of(linear, e[1]) and (e[0] == pcid or e[3]))

    def fault(self, p, flags, linear, cause, moments):
        self.emit(Fault(p, flags, linear, self.code(flags, cause), moments))
        self.drop_address(p, linear, False)

    def access(self, p):
        rng = self.rng
        linear = self.linear()
        flags = rng.choice([0, 0, 1, 2]) | (rng.random() < 0.7) << 2 | rng.randrange(2) << 3
        pcid = self.control[p][1]
        found = [e for e in self.translations[p] if e[2] == page_of(linear, e[1])
                 and (e[0] == pcid or e[3] or self.slips("foreign"))]
        served = [e for e in found if self.version == 1 or flags & 3 != 1 or e[6] >> 6 & 1
                  or self.slips("dirty") or not self.truly_allowed(e[5], flags)]
        if served and rng.random() < 0.7:
            kind, entry = "leaf", rng.choice(served)
            moments = entry[-1]
        else:
            kind, entry, moments = self.walk(p, linear, flags)
        if kind != "leaf":
            if self.slips("absent"):
                self.instruct(p)
            if moments[-1] == self.now() or self.defect == "absent":
                self.fault(p, flags, linear, 0 if kind == "absent" else 9, moments)
        elif not self.allowed(entry[5], flags):
            self.fault(p, flags, linear, 1, moments)
        else:
            answer = entry[4] + linear % (1 << entry[1]) ^ (1 << 12 if self.slips("answer") else 0)
            self.emit(Answer(p, flags, linear, answer, moments))

    def instruct(self, p):
        rng, pcid = self.rng, self.rng.choice(self.pcids)
        choice = rng.randrange(10)
        if choice < 4:
            operand = self.cr3() | (self.mixes or rng.randrange(2)) << 63
            self.emit(LoadRoot(p, operand))
            if not operand >> 63:
                pcid = operand & 0xfff
                self.drop(p, lambda e: e[0] == pcid, lambda e: e[0] == pcid and not e[3])
            self.control[p][:2] = [operand & ((1 << self.m) - 0x1000), operand & 0xfff]
        elif choice < 6:
            linear = self.linear()
            self.emit(InvalidatePage(p, linear))
            self.drop_address(p, linear, True)
        elif choice < 9:
            self.invpcid(p, pcid)
        else:
            pge = rng.randrange(2)
            self.emit(SetGlobalPages(p, pge))
            if pge != self.control[p][2]:
                self.drop(p, lambda e: True, lambda e: True)
            self.control[p][2] = pge

    def invpcid(self, p, pcid):
        kind = self.rng.randrange(4)
        linear = self.linear() if kind == 0 else 0
        self.emit(InvalidatePcid(p, kind, pcid if kind < 2 else 0, linear))
        if kind == 0:
            self.drop(p, lambda e: e[0] == pcid and e[2] == page_of(linear, shift_of(e[1])),
                      lambda e: e[0] == pcid and e[2] == page_of(linear, e[1]) and not e[3])
        elif kind == 1:
            self.drop(p, lambda e: e[0] == pcid, lambda e: e[0] == pcid and not e[3])
        else:
            self.drop(p, lambda e: True, lambda e: kind == 2 or not e[3])

    def run(self, length):
        for _ in range(self.rng.randrange(12)):
            self.write_for(self.rng.randrange(len(self.starts)), self.linear())
        quiet = self.rng.choice([0.1, 0.3])
        while len(self.events) < length:
            p, dice = self.rng.randrange(len(self.starts)), self.rng.random()
            if dice < quiet / 2:
                self.write_for(p, self.linear())
            elif dice < quiet:
                self.instruct(p)
            elif dice < quiet + 0.1:
                self.walk(p, self.linear(), 0)
            else:
                self.access(p)
            for cache in (self.structures[p], self.translations[p]):
                del cache[:max(0, len(cache) - 40)]


# ---- Changes

def renumbered(event, at, by, rng):
    """The event after an insertion or a removal at a number."""
    if not isinstance(event, Walk):
        return event

    def shifted(moment):
        return moment + by if moment > at or (moment == at and rng.random() < 0.5) else moment
    return replace(event, moments=tuple(max(0, shifted(moment)) for moment in event.moments))


def change_moments(rng, choice, moments, count):
    """Other moments: one moved a little, all the same, or one fewer or more."""
    moments = list(moments)
    if choice < 3:
        at = rng.randrange(len(moments))
        moments[at] = max(0, moments[at] + rng.choice([-3, -2, -1, 1, 2]))
    elif choice == 3:
        moments = [rng.randrange(count + 2)] * len(moments)
    elif rng.random() < 0.5:
        moments = moments[:-1] or [0]
    else:
        moments = (moments + moments[-1:])[:4]
    return tuple(moments)


def change_claim(rng, event, count):
    """Another access or assist: another moment, address, outcome or flag."""
    choice = rng.randrange(9)
    if choice < 5:
        event = replace(event, moments=change_moments(rng, choice, event.moments, count))
    elif choice == 5:
        event = replace(event, flags=event.flags ^ rng.choice([1, 2, 4, 8]))
    elif choice == 6:
        event = replace(event, linear=event.linear ^ 1 << rng.choice([0, 3, 12, 13, 21, 30]))
    elif isinstance(event, Assist):
        address = event.address ^ 1 << rng.choice([3, 4, 12])
        event = replace(event, address=address, flags=event.flags ^ rng.choice([0, 16]))
    elif isinstance(event, Fault):
        event = replace(event, code=event.code ^ 1 << rng.choice([0, 1, 2, 3, 4, 5]))
    else:
        event = replace(event, physical=event.physical ^ 1 << rng.choice([0, 1, 2, 3, 4, 5]))
    flags = event.flags
    if flags & 3 == 3:
        flags &= ~1
    if isinstance(event, Assist) and flags & 16 and flags & 3 != 1:
        flags &= ~16
    return replace(event, flags=flags)


def another_instruction(rng, machine):
    """An instruction that the machine might have carried out, without its caches or its memory."""
    other = Machine.__new__(Machine)
    other.__dict__.update(machine.__dict__, events=[], memory=dict(machine.memory))
    other.structures = [[] for _ in machine.starts]
    other.translations = [[] for _ in machine.starts]
    other.control = [list(control) for control in machine.control]
    other.instruct(rng.randrange(len(machine.starts)))
    return other.events[0]


def change_events(rng, machine, events):
    events = list(events)
    for _ in range(rng.choice([1, 1, 1, 2, 5])):
        if not events:
            return events
        at, choice = rng.randrange(len(events)), rng.randrange(8)
        claims = [number for number, event in enumerate(events) if isinstance(event, Walk)]
        if choice < 3 and claims:
            at = rng.choice(claims)
            events[at] = change_claim(rng, events[at], len(events))
        elif choice < 5:
            more = another_instruction(rng, machine)
            events = [renumbered(event, at, 1, rng) for event in events]
            events.insert(at, more)
        elif choice == 5:
            del events[at]
            events = [renumbered(event, at, -1, rng) for event in events]
        elif choice == 6 and at + 1 < len(events):
            events[at], events[at + 1] = events[at + 1], events[at]
        elif isinstance(events[at], Write):
            value = events[at].value ^ 1 << rng.choice([0, 1, 2, 5, 6, 7, 8, 12, 51])
            events[at] = replace(events[at], value=value)
        else:
            events[at] = replace(events[at], processor=rng.randrange(len(machine.starts)))
    return events


def random_events(rng, machine, length):
    """Events without a machine, with moments near plausible ones."""
    events = []
    for number in range(length):
        p, dice = rng.randrange(len(machine.starts)), rng.random()
        linear = machine.linear()
        if dice < 0.4:
            table = rng.choice(machine.frames)
            index = linear >> shift_of(rng.choice(LEVELS)) & 511
            events.append(Write(p, table + 8 * index, machine.fresh_word(rng.choice(LEVELS))))
        elif dice < 0.9:
            count = rng.choice([1, 1, 2, 2, 3, 4, 4, 4])
            moments = tuple(sorted(max(0, number - rng.choice([0, 0, 0, 1, 3])) for _ in range(count)))
            flags, is_fault = rng.choice([0, 4, 5, 6]), rng.random() < 0.6
            value = rng.choice([4, 6, 0, 9, 5]) if is_fault else rng.choice(machine.frames)
            events.append((Fault if is_fault else Answer)(p, flags, linear, value, moments))
        else:
            events.append(InvalidatePage(p, linear))
    return events


# The bits of those fields that have fewer than 64, of a processor's number as version 1 has it.
FIELD_BITS = {"processor": 8, "flags": 8, "is_on": 8, "kind": 8, "pcid": 16}


def change_field(rng, machine, events):
    """Breaks a rule of one event."""
    events = list(events)
    if not events:
        return events
    at = rng.randrange(len(events))
    event = events[at]
    if isinstance(event, Walk):
        name = rng.choice(["flags", "linear", "linear", "processor"])
    else:
        name = rng.choice(["processor", *FIELDS[type(event)]])
    width = FIELD_BITS.get(name, 64)
    bit = rng.choice([rng.randrange(width), width - 1, width - 2, width // 2])
    events[at] = replace(event, **{name: getattr(event, name) ^ 1 << bit})
    if rng.random() < 0.3:
        events[at] = LoadRoot(0, machine.cr3() | 1 << rng.choice([machine.m - 1, machine.m, 62, 63]))
    return events


def change_header(rng, header):
    """Another value in one field, which is mostly out of range."""
    name = rng.choice(["address_bits", "flags", "segment", "starts"])
    if name == "starts":
        value = rng.choice([(), header.starts * 40, ((1 << 52, 0),), ((0x1000, 2),)])[:1100]
    else:
        value = rng.choice([0, 35, 53, 16, 65537, 255, getattr(header, name)])
        value &= 0xffffffff if name == "segment" else 0xff
    changed = replace(header, **{name: value})
    # (no events can be spelled in segments of none)
    return replace(changed, segment=changed.segment or 1)


def change_parts(rng, choice, parts, count):
    """Changes one part of a record of so many events: one left out or twice, the head of a segment, the
    end mark, or bytes behind it."""
    if choice == 4:
        at = rng.randrange(len(parts))
        parts[at:at + 1] = [parts[at]] * rng.choice([0, 2])
    elif choice == 5:
        heads = [number for number, part in enumerate(parts) if part[:1] == b"\x01" and len(part) == 9]
        at = rng.choice(heads) if heads else -1
        part = bytearray(parts[at])
        part[rng.randrange(len(part))] = rng.choice([0, 1, 2, 255])
        parts[at] = bytes(part)
    elif choice == 6:
        parts[-1] = end_bytes(rng.choice([0, count + 1, 1 << 31]))
    elif choice == 7:
        parts.append(bytes(rng.choice([1, 2, 300])))


def change_bytes(rng, machine, header, events):
    """Bytes that mostly spell no record."""
    choice = rng.randrange(10)
    if choice < 3:
        return record_bytes(header, change_field(rng, machine, events))
    if choice == 3:
        return record_bytes(change_header(rng, header), events)
    parts = record_parts(header, events)
    change_parts(rng, choice, parts, len(events))
    data = bytearray(b"".join(parts))
    if choice == 8:
        return bytes(data[:rng.randrange(len(data))])
    if choice == 9:
        at = rng.choice([rng.randrange(len(data)), rng.randrange(min(24, len(data)))])
        data[at] ^= 1 << rng.randrange(8)
    return bytes(data)


def record_of(rng, version, is_long):
    """The bytes of a random record, and whether they are those of a true run, as it was."""
    machine = Machine(rng, version, rng.choice(DEFECTS + [None] * 6))
    length = rng.choice([1500, 3000, 6000]) if is_long else rng.choice([0, 3, 8, 20, 40, 80])
    dice = rng.random()
    if dice < 0.1:
        events = random_events(rng, machine, length)
    else:
        machine.run(length)
        events = machine.events
    if dice > 0.55:
        events = change_events(rng, machine, events)
    elif dice > 0.1 and machine.defect is None:
        return record_bytes(machine.header(), events), True
    header = machine.header()
    if dice > 0.85:
        return change_bytes(rng, machine, header, events), False
    return record_bytes(header, events), False
