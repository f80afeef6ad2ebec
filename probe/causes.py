# SPDX-License-Identifier: MIT OR Apache-2.0
"""Why a record is a no: what `pcid-audit certify` says of it, in the form that shrinking has to
keep and by which a hunt tells one no from another."""
import re
from dataclasses import replace

from probe import auditor, image, keeping
from records.events import ALIGNMENT_CHECK, USER, Answer, LoadRoot, Walk, Write

PAGES = {1: "4 KB", 2: "2 MB", 3: "1 GB", 4: "512 GB"}
EXPLICIT = "carried out as an explicit access"


class Cause:
    """Of a no: the number of the bad event, what stays the same while other events are left out,
    and the number of the event that took the last moments away, where one did."""

    def __init__(self, number, text, taker, key):
        self.number, self.text, self.taker, self.key = number, text, taker, key

    def is_same(self, other):
        return other is not None and self.text == other.text


def explicit(event, words):
    """The event of an implicit access as if software had asked for it: with its ring and AC."""
    flags = event.flags | (USER if "user" in words else 0) | (ALIGNMENT_CHECK if "ac" in words else 0)
    return replace(event, flags=flags)


def answer_of(data):
    """The report of certify for a rejected record, None for an accepted one and where it did not decide."""
    status, report, said = auditor.certify(data)
    if status not in (0, 1, image.UNDECIDED):
        raise image.Stop(f"certify ends with status {status}: {said.decode().strip()}")
    return report.decode() if status == 1 else None


def undecided_event(data):
    """The number of the event at which certify gave a record up, None where it decides."""
    status, report, _ = auditor.certify(data)
    return bad_event(report.decode()) if status == image.UNDECIDED else None


def bad_event(report):
    """The number of the event that a no names."""
    return int(re.search(r"^event: (\d+)$", report, re.M).group(1))


def is_yes_as_explicit(record, events, number, words):
    """Whether an implicit access, which denies a user page where SMAP=1 whatever AC is, is a no for
    that alone: carried out as an explicit one it would have been right."""
    changed = [*events[:number], explicit(events[number], words)]
    return "ac" in words and answer_of(keeping.bytes_of(record, changed)) is None


def cause_of(record, events, notes):
    """The cause of these events' no, None where they are a yes. Notes are by events' numbers."""
    report = answer_of(keeping.bytes_of(record, events))
    if report is None:
        return None
    number = bad_event(report)
    taken = (re.search(r"^last: dropped by (\d+) (.*)$", report, re.M)
             or re.search(r"^last: moment \d+ by .*; taken by (\d+) (.*)$", report, re.M))
    words = notes.get(number)
    if words is not None and is_yes_as_explicit(record, events, number, words):
        return Cause(number, EXPLICIT, None, key_of(EXPLICIT, report, words))
    if taken:
        return Cause(number, taken.group(2), int(taken.group(1)),
                     key_of(taker_of(taken.group(2)), report, words))
    walk = re.sub(r"by event \d+", "", "".join(re.findall(r"^now: .*\n?", report, re.M)))
    return Cause(number, walk, None, key_of("never had moments", report, words))


def taker_of(event):
    """What kind of event took the last moments away."""
    if " -> fault " in event:
        return "taken by a fault"
    name, *operands = event.split(" ", 2)[2].split()
    if name == "invpcid":
        return f"taken by invpcid {operands[0]}"
    if name == "cr3":
        return "taken by cr3" + (" with bit 63" if int(operands[0], 16) >> 63 else "")
    return "taken by " + name


def key_of(taken, report, words):
    """One line for rejections alike: what took the moments away, which access, and the page's size."""
    access = re.search(r"^event: \d+ cpu \d+ (.*)$", report, re.M).group(1)
    kind, answer = re.fullmatch(r"(.*) 0x[0-9a-f]+(?: \[.*)? -> (.*?)(?: moments .*)?",
                                access).groups() if " -> " in access else (access, "assist")
    kind = kind.replace("-ac", "") if words is None else "implicit" + "".join(
        f" {word}" for word in words)
    answer = "answered" if answer.startswith("0x") else re.sub(r"[()]", "", answer)
    return f"{taken}; {kind} {answer}; {page_of(report)}"


def page_of(report):
    """The size of the page that last answered, else of that which the tables have now, else the
    level at which the walk ends now."""
    by = re.search(r"^last: moment \d+ by ([\d ]+);", report, re.M)
    if by:
        return PAGES[5 - len(by.group(1).split())]
    level, kind = re.findall(r"^now: level (\d) \[\w+\] = \w+ (\w+)", report, re.M)[-1]
    return PAGES[int(level)] if kind == "leaf" else f"{kind} at level {level}"


FRAME = (1 << 52) - (1 << 12)  # of an entry or a root, the address of a table
LARGE = 1 << 7  # of an entry of level 3 or 2: it maps a page


def linear_page(event):
    """The number of the page that an access or an assist is in, None of another event."""
    return event.linear >> 12 if isinstance(event, Walk) else None


def told(event):
    """Of an answer its processor, page and frame; None of another event."""
    return (event.processor, linear_page(event), event.physical >> 12) if isinstance(event, Answer) else None


class Reader:
    """What walks of a record can have read."""

    def __init__(self, record):
        self.record, self.values = record, {}
        for event in record.events:
            if isinstance(event, Write):
                self.values.setdefault(event.address, set()).add(event.value)

    def roots(self, processor):
        return {self.record.header.starts[processor][0]} | {
            event.operand for event in self.record.events
            if isinstance(event, LoadRoot) and event.processor == processor}

    def walks(self, access):
        """Level by level from 4 on, the words that a walk of an access's address can ever have
        read there, and their values."""
        tables = {root & FRAME for root in self.roots(access.processor)}
        for level in (4, 3, 2, 1):
            words = {table + 8 * (access.linear >> 3 + 9 * level & 511) for table in tables}
            entries = {value for word in words for value in self.values.get(word, ())}
            yield level, words, entries
            tables = {entry & FRAME for entry in entries}

    def walked(self, access):
        """The words that a walk of an access's address can ever have read."""
        return set().union(*(words for _, words, _ in self.walks(access)))

    def sizes_of(self, answer):
        """The levels of the leaves by which an answer can ever have been given."""
        found = set()
        for level, _, entries in self.walks(answer):
            size = 1 << 3 + 9 * level
            base = (answer.physical - answer.linear % size) & FRAME
            if level < 4 and any(entry & 1 and (level == 1 or entry & LARGE) and
                                 entry & FRAME & -size == base for entry in entries):
                found.add(level)
        return found
