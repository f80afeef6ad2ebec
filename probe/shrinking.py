# SPDX-License-Identifier: MIT OR Apache-2.0
"""Leaves out events of a record while it stays a no for the same cause."""
from probe import causes, image, keeping, spans
from probe.spans import without_parts
from records.events import (ACCESSES, CHANGES, INVALIDATIONS, NO_FLUSH, Answer, InvalidatePage, LoadRoot, Walk,
                            has_spans)

MOST_TRIED = 20  # answers that are looked at


def guesses(record, reader, number, taker):
    """Numbers of events before a bad one that may be enough, the fewest first: what its walk and
    that of the taker can have read, and then what the processor did."""
    ends = [record.events[at] for at in (number, taker)
            if at is not None and isinstance(record.events[at], Walk)]
    own, pages = ends[0].processor, {causes.linear_page(end) for end in ends}
    walked = set().union(*(reader.walked(end) for end in ends))

    def chosen(kinds):
        return [at for at, event in enumerate(record.events[:number]) if at == taker
                or (isinstance(event, CHANGES) and event.address in walked)
                or (isinstance(event, kinds) and event.processor == own
                    and not isinstance(event, Answer) and causes.linear_page(event) in (None, *pages))]

    yield chosen(())
    yield chosen((LoadRoot,))
    yield chosen(INVALIDATIONS)
    yield chosen((*ACCESSES, *INVALIDATIONS))
    # An answer takes nothing out of a cache, so mostly none of them is needed.
    yield [at for at in range(number) if not isinstance(record.events[at], Answer)]


def of(record, notes):
    """What shrinks a record that is a no; nothing where there is no no. One that is not decided
    shrinks where what is left of it is a no in each order."""
    overlaps, data = has_spans(record.header.version), keeping.bytes_of(record)
    if causes.answer_of(data) is None and not (overlaps and causes.undecided_event(data) is not None):
        return None
    work = (spans.Overlapping if overlaps else Shrinking)(record, notes)
    return work if not overlaps or work.is_decided or work.taker is not None else None


class Shrinking:
    """A record that is a no, and what is left of it. What is left ends with the bad event; each
    event of it is needed: without it the answer is another."""

    def __init__(self, record, notes):
        self.record, self.notes = record, notes
        self.cause = causes.cause_of(record, record.events, notes)
        if self.cause is None:
            raise image.Stop("certify says yes: there is nothing to shrink")
        self.reader, self.number = causes.Reader(record), self.cause.number

    def left(self, kept):
        """The record of these events and the bad one, with its notes."""
        numbers = [*kept, self.number]
        events = [self.record.events[at] for at in numbers]
        return keeping.Kept(keeping.bytes_of(self.record, events),
                            {new: self.notes[old] for new, old in enumerate(numbers)
                             if old in self.notes})

    def shows(self, kept):
        events = [self.record.events[at] for at in (*kept, self.number)]
        words = self.notes.get(self.number)
        cause = causes.cause_of(self.record, events,
                                {} if words is None else {len(kept): words})
        return self.cause.is_same(cause) and cause.number == len(kept)

    def cut(self):
        """The numbers of the events that are needed before the bad one."""
        tried = guesses(self.record, self.reader, self.number, self.cause.taker)
        return without_parts(self.shows, next(filter(self.shows, tried), list(range(self.number))))

    def answers_before(self):
        """The answers of the bad event's page by its frame: those of its own kind, and all."""
        events = self.record.events
        last = events[self.number]
        alike = [at for at in range(self.number)
                 if isinstance(events[at], Answer) and causes.told(events[at]) == causes.told(last)]
        return [at for at in alike if events[at].flags == last.flags], alike

    def with_answers(self, kept):
        """What is left with an answer put back, of the bad event's page by its frame, which shows
        what was cached. Those come first that the tables gave as they stood, so that they fill a
        cache where the events are carried out again; of these such of the bad event's own kind, as
        each kind may have a cache of its own, and the latest. Each is a list of events that is a no
        as before."""
        kept, found = self.with_loads(kept), []
        for numbers in self.answers_before():
            for at in self.latest(numbers, kept):
                if at not in kept and self.shows(sorted([*kept, at])):
                    found.append(sorted([*kept, at]))
                    if self.is_fresh(kept, at):
                        yield found[-1]
        yield from self.cuts_around_answers()
        yield from found

    def with_loads(self, kept):
        """Where a MOV to CR3 that keeps took the last moments away, the load of the same root and
        PCID before is put back, with those behind it, where they can stay: what is kept of a PCID
        is from when it was used."""
        events, taker = self.record.events, self.cause.taker
        load = None if taker is None else events[taker]
        if not isinstance(load, LoadRoot) or not load.operand & NO_FLUSH:
            return kept
        own = [at for at in range(taker) if isinstance(events[at], LoadRoot)
               and events[at].processor == load.processor]
        before = [at for at in own if events[at].operand | NO_FLUSH == load.operand]
        more = sorted({*kept, *(at for at in own if before and at >= before[-1])})
        return more if self.shows(more) else kept

    def latest(self, numbers, kept):
        """Of these events the latest before each that is kept, from the last on."""
        return dict.fromkeys(max(at for at in numbers if at < end)
                             for end in [self.number, *reversed(kept)]
                             if any(at < end for at in numbers))

    def is_fresh(self, kept, at):
        """Whether the tables as these events left them gave an answer, and no cache: behind an
        INVLPG it is right too."""
        event = self.record.events[at]
        drop = InvalidatePage(event.processor, event.linear)
        before = [self.record.events[it] for it in kept if it < at]
        return causes.answer_of(keeping.bytes_of(self.record, [*before, drop, event])) is None

    def cuts_around_answers(self):
        """What is left where such an answer stays from the start: the latest that the tables gave,
        of the bad event's own kind and of any."""
        all_before = range(self.number)
        fresh = [next((at for at in reversed(numbers[-MOST_TRIED:])
                       if self.is_fresh([it for it in all_before if it != at], at)), None)
                 for numbers in self.answers_before()]
        for at in dict.fromkeys(at for at in fresh if at is not None):
            def shows(rest, at=at):
                return self.is_fresh(rest, at) and self.shows(sorted([*rest, at]))

            rest = [it for it in all_before if it != at]
            if shows(rest):
                yield sorted([*without_parts(shows, rest), at])
