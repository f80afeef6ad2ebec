# SPDX-License-Identifier: MIT OR Apache-2.0
"""Events and headers of records, and how each version spells an event."""
import struct
from dataclasses import dataclass, field

VERSIONS = (1, 2, 3, 4)
# Of the flags of a walk. (An operation is 0 for a read, 1 for a write, 2 for a fetch.)
OPERATION, USER, ALIGNMENT_CHECK, DIRTY = 3, 4, 8, 16
NO_FLUSH = 1 << 63  # of a MOV to CR3's operand


@dataclass(frozen=True, slots=True)
class Event:
    """What a processor did. In versions 3 and 4 `back` of the events before had not ended when it
    began; in the others it is 0."""
    processor: int
    back: int = field(default=0, kw_only=True)


@dataclass(frozen=True, slots=True)
class Write(Event):
    """Of a table word."""
    address: int
    value: int


@dataclass(frozen=True, slots=True)
class Walk(Event):
    """What reads paging entries. It has a moment for each level that was read; in versions 3 and 4,
    and in a log, it has none."""
    flags: int
    linear: int


@dataclass(frozen=True, slots=True)
class Answer(Walk):
    """An access that got a physical address."""
    physical: int
    moments: tuple = ()


@dataclass(frozen=True, slots=True)
class Fault(Walk):
    """An access that got a page fault."""
    code: int
    moments: tuple = ()


@dataclass(frozen=True, slots=True)
class Assist(Walk):
    """A processor's own update of the entry at an address (version 2)."""
    address: int
    moments: tuple = ()


@dataclass(frozen=True, slots=True)
class LoadRoot(Event):
    """MOV to CR3."""
    operand: int


@dataclass(frozen=True, slots=True)
class InvalidatePage(Event):
    """INVLPG."""
    linear: int


@dataclass(frozen=True, slots=True)
class InvalidatePcid(Event):
    """INVPCID."""
    kind: int
    pcid: int
    linear: int


@dataclass(frozen=True, slots=True)
class SetGlobalPages(Event):
    """MOV to CR4, of which the new PGE counts."""
    is_on: int


ACCESSES = (Answer, Fault)
CHANGES = (Write, Assist)  # of a word
INVALIDATIONS = (LoadRoot, InvalidatePage, InvalidatePcid, SetGlobalPages)

TAGS = {Write: 0x10, LoadRoot: 0x12, InvalidatePage: 0x13, InvalidatePcid: 0x14, SetGlobalPages: 0x15,
        Assist: 0x16}
# Of each kind the fields behind processor and back, but for moments.
BODIES = {kind: struct.Struct(form) for kind, form in {
    Write: "<QQ", LoadRoot: "<Q", InvalidatePage: "<Q", InvalidatePcid: "<BHQ", SetGlobalPages: "<B",
    Assist: "<BQQ"}.items()}
ACCESS_TAG = 0x11
ASKED = struct.Struct("<BQB")  # of an access: its flags, its linear address, its outcome's tag
OUTCOMES = {Answer: (0, struct.Struct("<Q")), Fault: (1, struct.Struct("<H"))}  # the tag, and what follows


@dataclass(frozen=True, slots=True)
class Header:
    """What stands before all events of a record."""
    version: int
    address_bits: int  # the MAXPHYADDR
    flags: int  # bit 0 CR0.WP, bit 1 EFER.NXE, bit 2 CR4.SMEP, bit 3 CR4.SMAP
    segment: int  # the most events of a segment
    starts: tuple  # of each processor CR3 and CR4.PGE


@dataclass
class Record:
    """A record as it stands in a file, or as it is to."""
    header: Header
    events: list


class Form:
    """How events are spelled: what stands beside their own fields."""

    def __init__(self, has_assists, has_backs, has_moments):
        self.has_assists, self.has_backs, self.has_moments = has_assists, has_backs, has_moments
        # (the versions with assists are those in which a processor's number has two bytes)
        self.head = struct.Struct("<B" + ("H" if has_assists else "B") + ("I" if has_backs else ""))


def is_wide(version):
    """Whether a processor's number has two bytes, and its events may be assists."""
    return version % 2 == 0


def has_spans(version):
    """Whether each event has `back`, in the place of one order and of moments."""
    return version >= 3


FORMS = {version: Form(is_wide(version), has_spans(version), not has_spans(version)) for version in VERSIONS}
FORMS_OF_LOGS = {version: Form(is_wide(version), False, False) for version in (1, 2)}
