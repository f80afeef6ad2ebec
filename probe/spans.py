# SPDX-License-Identifier: MIT OR Apache-2.0
"""Records whose events overlap (versions 3 and 4): why one is a no, and what is left of it when
events are left out. An event stands behind those that had ended when it began; which these were
stays true of what is left, so that `back` is counted anew."""
import itertools
from bisect import bisect_left
from dataclasses import replace

from probe import auditor, causes, image, keeping, orders
from records.events import (ACCESSES, ALIGNMENT_CHECK, CHANGES, DIRTY, INVALIDATIONS, NO_FLUSH, OPERATION, USER, Answer,
                            Assist, Fault, InvalidatePage, InvalidatePcid, LoadRoot, SetGlobalPages, TAGS, Walk, Write)
from records.reading import read_record

NEVER, MANY = "never had moments", "taken by several events"
MOST_TAKERS = 40  # events that are tried for the one that took the last moments away
MOST_ACCESSES = 24  # that are tried where the event shows nothing at which certify gave up
CONTEXT = (LoadRoot, SetGlobalPages)
OPERATIONS = ("read", "write", "fetch")


def without_others(record, numbers):
    """The record of the events with these numbers, which rise."""
    events = []
    for new, old in enumerate(numbers):
        event = record.events[old]
        had_ended = bisect_left(numbers, old - event.back)
        events.append(replace(event, back=new - had_ended))
    return keeping.bytes_of(record, events)


class Overlapping:
    """A record that is a no, or is not decided, and what is left of it. The cause of the no is the
    latest event of the bad one's processor that invalidates something, and without which certify
    says yes: it stays the cause. Where no single event is, the bad event alone is kept, with all
    that its walk can have read."""

    def __init__(self, record, notes):
        self.record, self.notes, self.reader = record, notes, causes.Reader(record)
        self.all = []  # the numbers of events that are a no with the bad one
        self.ended_before = [number - event.back for number, event in enumerate(record.events)]
        data = keeping.bytes_of(record)
        report = causes.answer_of(data)
        number = causes.undecided_event(data) if report is None else causes.bad_event(report)
        if number is None:
            raise image.Stop("certify says yes: there is nothing to shrink")
        self.is_decided = report is not None
        self.look_at(number)
        if not self.is_decided and self.taker is None:
            self.look_behind(number)
        self.cause = causes.Cause(self.number, self.taken(), self.taker, self.key())

    def look_at(self, number):
        """Takes this event for the bad one."""
        self.number, self.bad, self.taker = number, self.record.events[number], None
        self.walked = self.reader.walked(self.bad) if isinstance(self.bad, Walk) else set()
        self.all = self.least_no([*self.beginnings()])
        self.taker = self.find_taker()

    def look_behind(self, number):
        """Takes an access behind the event at which certify gave up for the bad one, the first
        that is a no by few events; where none is, that event again. What certify can't place may
        be right by itself and wait for another processor's, or be a no by what others saw: the
        same fault then mostly shows again."""
        behind = range(number + 1, len(self.record.events))
        accesses = (it for it in behind if isinstance(self.record.events[it], ACCESSES))
        for other in itertools.islice(accesses, MOST_ACCESSES):
            self.look_at(other)
            if self.taker is not None:
                return
        self.look_at(number)

    def beginnings(self):
        """Numbers of events with which the no may begin, the fewest first. Events that ended behind
        the bad one can play a part where they began before it ended, and are writes. Answers and
        what other processors did to their own caches only make more of a no."""
        to_end = [number for number in range(len(self.record.events))
                  if number < self.number or (self.is_write(number) and
                                              self.ended_before[number] <= self.number)]
        own = [number for number in to_end if self.is_write(number) or self.is_own(number)]
        yield [number for number in own if not isinstance(self.record.events[number], Answer)]
        yield own
        yield to_end
        yield [number for number in range(len(self.record.events)) if number != self.number]

    def least_no(self, choices):
        """The first that is a no, or that is no yes where none is decided to be one."""
        return next(filter(self.is_no, choices), None) or \
            next((chosen for chosen in choices if not self.is_yes(chosen)), choices[-1])

    def is_write(self, number):
        return isinstance(self.record.events[number], CHANGES)

    def is_own(self, number):
        return self.record.events[number].processor == self.bad.processor

    def is_drop(self, number):
        """Whether an event takes something out of its processor's caches: a fault does."""
        return isinstance(self.record.events[number], (*INVALIDATIONS, Fault))

    def is_no(self, kept):
        """Whether these events and the bad one are a no at the bad one, or where certify does not
        decide, a no in each of their orders."""
        numbers = sorted([*kept, self.number])
        data = without_others(self.record, numbers)
        report = causes.answer_of(data)
        if report is None:
            return causes.undecided_event(data) is not None and \
                orders.is_no_in_each(read_record(data))
        return causes.bad_event(report) == numbers.index(self.number)

    def is_yes(self, kept):
        numbers = sorted([*kept, self.number])
        return auditor.certify(without_others(self.record, numbers))[0] == 0

    def shows(self, kept):
        """Whether they are a no for the same cause."""
        return self.is_no(kept) and (self.taker is None or self.is_yes(
            [number for number in kept if number != self.taker]))

    def find_taker(self):
        own = [number for number in self.all
               if number < self.number and self.is_own(number) and self.is_drop(number)]
        return next(filter(self.is_taker, own[:-MOST_TAKERS - 1:-1]), None) or self.leave_one(own)

    def leave_one(self, own):
        """Where each of several drops would do, the latest alone: to leave out the others makes no
        no. None where one alone is not enough, or none is needed."""
        if not self.is_decided:
            return None
        rest = [number for number in self.all if number not in {*own}]
        left = without_parts(lambda some: self.is_no([*rest, *some]), own[::-1])
        if len(left) != 1 or not self.is_yes(rest):
            return None
        self.all = sorted([*rest, *left])
        return left[0]

    def is_taker(self, number):
        """Whether there is no no without this event: of the few that it takes with the writes that
        have to stay, where they are a no, since of few events `certify` decides the most. Of a
        record that it does not decide they have to be."""
        few = {*self.needed(number), *self.loads(), number}
        is_no = self.is_no(few)
        chosen = few if is_no else self.all
        return (is_no or self.is_decided) and self.is_yes([it for it in chosen if it != number])

    def loads(self):
        """The loads of CR3 by the bad one's processor."""
        return [number for number in self.all if self.is_own(number) and
                isinstance(self.record.events[number], LoadRoot)]

    def needed(self, taker):
        """The writes that have to stay, so that the no says of them all what it says of the rest:
        those of words of the walk, but for what was surely overwritten before the taker began."""
        writes = [number for number in self.all if self.is_write(number) and
                  self.word(number) in self.walked]
        if taker is None:
            return writes
        gone = {}  # by word, how many of the first events an overwriting began behind
        for number in writes:
            if number < self.ended_before[taker]:
                word = self.word(number)
                gone[word] = max(gone.get(word, 0), self.ended_before[number])
        return [number for number in writes if number >= gone.get(self.word(number), 0)]

    def word(self, number):
        return self.record.events[number].address

    def cut(self):
        """The numbers of the events that are needed beside the bad one."""
        fixed = {*self.needed(self.taker), *([] if self.taker is None else [self.taker])}

        def shows(rest):
            return self.shows(sorted({*fixed, *rest}))

        first = next(filter(shows, self.guesses(fixed)),
                     [number for number in self.all if number not in fixed])
        return sorted({*fixed, *without_parts(shows, first)})

    def guesses(self, fixed):
        """Numbers of events that may be enough beside those, the fewest first."""
        events, page = self.record.events, causes.linear_page(self.bad)
        own = [number for number in self.all if self.is_own(number) and number not in fixed]
        near = [number for number in own if not self.is_write(number) and
                causes.linear_page(events[number]) in (None, page)]
        walks = [number for number in self.all
                 if number not in fixed and self.is_write(number) and
                 self.word(number) in self.walked]
        for chosen in ([], self.loads(), near, walks, [*near, *walks], [*own, *walks]):
            yield sorted({*chosen} - fixed)

    def left(self, kept):
        """The record of these events and the bad one."""
        return keeping.Kept(without_others(self.record, sorted([*kept, self.number])))

    def with_answers(self, _):
        """What overlaps can't be carried out again one at a time, so no answer is put back."""
        return iter(())

    def taken(self):
        """What took the last moments away."""
        if self.taker is None:
            return MANY
        event = self.record.events[self.taker]
        if isinstance(event, Fault):
            return "taken by a fault"
        if isinstance(event, LoadRoot):
            return "taken by cr3" + (" with bit 63" if event.operand & NO_FLUSH else "")
        if isinstance(event, InvalidatePcid):
            return f"taken by invpcid {event.kind}"
        return "taken by " + ("invlpg" if isinstance(event, InvalidatePage) else "pge")

    def key(self):
        """One line for rejections alike, as `causes.key_of` has them."""
        taken = self.taken()
        context = [number for number in self.all
                   if isinstance(self.record.events[number], (*CHANGES, *CONTEXT))]
        if self.taker is None and not self.is_yes(context):
            taken = NEVER
        if not isinstance(self.bad, Walk):
            return f"at once; {taken}; event {TAGS[type(self.bad)]:#x}"
        if isinstance(self.bad, Assist):
            return f"at once; {taken}; assist"
        ring = "user" if self.bad.flags & USER else "super"
        return f"at once; {taken}; {ring} {OPERATIONS[self.bad.flags & OPERATION]} {self.outcome()}"

    def outcome(self):
        """What the access got, and by which pages it can have got that."""
        if isinstance(self.bad, Fault):
            return f"fault {self.bad.code:#x}"
        sizes = self.reader.sizes_of(self.bad)
        return "answered; " + (" or ".join(causes.PAGES[level] for level in sorted(sizes)) or
                               "by no page")


def listed(record):
    """The events of a record, a line each, as `pcid-audit show` has those of one order, and how
    many of the events before had not ended when each began."""
    for number, event in enumerate(record.events):
        yield (f"{number} cpu {event.processor} {spelled(event)}" +
               (f" back {event.back}" if event.back else ""))


def asked(event):
    """What an access, or that which an assist serves, asks for."""
    mode = ("user" if event.flags & USER else "super") + ("-ac" if event.flags & ALIGNMENT_CHECK else "")
    return f"{mode} {OPERATIONS[event.flags & OPERATION]} {event.linear:#x}"


def spelled(event):
    """What an event is, but for its processor."""
    match event:
        case Write():
            return f"write [{event.address:#x}] = {event.value:#x}"
        case Answer():
            return f"{asked(event)} -> {event.physical:#x}"
        case Fault():
            return f"{asked(event)} -> fault {event.code:#x}"
        case Assist():
            return f"assist {asked(event)} [{event.address:#x}]" + (" dirty" if event.flags & DIRTY else "")
        case InvalidatePcid():
            return f"invpcid {event.kind} {event.pcid:#x} {event.linear:#x}"
        case SetGlobalPages():
            return f"pge {event.is_on}"
        case LoadRoot():
            return f"cr3 {event.operand:#x}"
    return f"invlpg {event.linear:#x}"


def without_parts(shows, events):
    """Leaves out parts of the events, of half of them down to one, until none can go. The last go
    first, since events stand on those before them."""
    size = max(1, len(events) // 2)
    while True:
        before, end = len(events), len(events)
        while end > 0:
            start = max(0, end - size)
            rest = events[:start] + events[end:]
            if shows(rest):
                events = rest
            end = start
        if size == 1 and len(events) == before:
            return events
        if size > 1:
            size = max(1, min(size // 2, len(events) // 2))
