# SPDX-License-Identifier: MIT OR Apache-2.0
"""Cases: a record with what its accesses may return, so that a guest carries it out and says PASS or FAIL by itself.

What an access may return depends on what those before it returned, which may be another allowed outcome than the
record has. So the outcomes are a tree: a node is an access behind certain outcomes."""
import heapq
import itertools
import os
import struct
from concurrent.futures import ThreadPoolExecutor
from dataclasses import dataclass, field, replace

from checks.outcomes import enumeration
from probe import auditor, image, keeping, replay
from records.events import (ACCESSES, ALIGNMENT_CHECK, NO_FLUSH, OPERATION, USER, Answer, Assist, Fault,
                            InvalidatePcid, LoadRoot, Write, has_spans)

MAGIC = b"PCIDCASE"
MOST_NODES = 64
OFFSET = 4095
OPERATIONS = ("read", "write", "fetch")


class Rejected(Exception):
    """An event before the access that is judged is no event of any run."""


@dataclass
class Edge:
    """An outcome that is allowed: the flags that have to be set with it, by the words' addresses, and the node of the
    next access; none where the access is the last, or nothing is laid out behind it."""
    outcome: object
    changes: dict
    next: object = None


@dataclass
class Node:
    """An access behind certain outcomes."""
    number: int
    before: list  # the events that were carried out
    edges: list = field(default_factory=list)


@dataclass
class Asked:
    """What is asked of a case: a record that ends with the access which is judged, its notes, its name, and whether
    the accesses before are judged too."""
    record: object
    notes: dict
    name: str
    is_each: bool = False


def text_of_outcome(outcome):
    return f"{outcome.physical:#x}" if isinstance(outcome, Answer) else f"fault {outcome.code:#x}"


def text_of_access(asked, number):
    """An access as `show` has it, without its outcome."""
    event, words = asked.record.events[number], asked.notes.get(number)
    ring = ("user" if event.flags & USER else "super") + ("-ac" if event.flags & ALIGNMENT_CHECK else "")
    text = f"event {number} cpu {event.processor} {ring} {OPERATIONS[event.flags & OPERATION]} {event.linear:#x}"
    if words is None:
        return text
    return f"{text} (implicit, ring {3 if 'user' in words else 0}, AC={int('ac' in words)})"


def text_of_edge(edge):
    flags = [f"{'A' if bits & 32 else ''}{'D' if bits & 64 else ''} of [{address:#x}]"
             for address, bits in sorted(edge.changes.items())]
    return text_of_outcome(edge.outcome) + (f" setting {' and '.join(flags)}" if flags else "")


# ---- The tree

def without_pcids(record):
    """The record as a machine without PCIDs carries it out."""
    starts = tuple((cr3 & ~OFFSET, pge) for cr3, pge in record.header.starts)
    events = [replace(event, operand=event.operand & ~(NO_FLUSH | OFFSET)) if isinstance(event, LoadRoot) else event
              for event in without_invpcid(record).events]
    return replace(record, header=replace(record.header, starts=starts), events=events)


def without_invpcid(record):
    """The same of one without INVPCID. What is left out keeps its number."""
    return replace(record, events=[None if isinstance(event, InvalidatePcid) else event for event in record.events])


class Grower:
    """Makes the tree of a record: the record's own outcomes first, and then others, as many nodes as are asked for."""

    def __init__(self, record, source, accepts, mapping, most):
        self.record, self.source, self.accepts, self.mapping, self.most = record, source, accepts, mapping, most
        self.served = {number for number, event in enumerate(record.events)
                       if isinstance(event, Assist) and source.is_served(number)}

    def advance(self, before, at):
        """The node of the next access from an event on, None behind the last."""
        before = list(before)
        for number in range(at, len(self.record.events)):
            event = self.record.events[number]
            if isinstance(event, ACCESSES):
                return Node(number, before)
            if isinstance(event, Assist) and number not in self.served:
                before += self.set_flags(before, event)
            elif event is not None and not isinstance(event, Assist):
                before.append(event)
        return None

    def set_flags(self, before, assist):
        """An assist whose access is not carried out again is a write of the flags."""
        word, bits = enumeration.memory_of(before).get(assist.address, 0), enumeration.bits_of(assist)
        return [] if word | bits == word else [Write(assist.processor, assist.address, word | bits)]

    def fill(self, node):
        """Finds the node's edges."""
        access = self.record.events[node.number]
        record = replace(self.record, events=[*node.before, access])
        for assists, outcomes in enumeration.allowed_with_assists(record, len(node.before), self.accepts,
                                                                  self.mapping):
            changes = enumeration.changes_of(node.before, assists)
            for outcome in outcomes:
                node.edges.append(Edge(outcome, changes))
                yield node.edges[-1], [*node.before, *assists, outcome]

    def grow(self):
        """The node of the first access."""
        root, order = self.advance([], 0), itertools.count()
        todo, count = [(0, next(order), root)], 0
        while todo and count < self.most:
            away, _, node = heapq.heappop(todo)
            own, count = self.record.events[node.number], count + 1
            for edge, before in list(self.fill(node)):
                edge.next = self.advance(before, node.number + 1)
                if edge.next:
                    heapq.heappush(todo, (away + (not is_same(edge.outcome, own)), next(order), edge.next))
        for _, _, node in todo:
            node.before = None  # nothing is known of it
        return root


def is_same(one, other):
    return type(one) is type(other) and text_of_outcome(one) == text_of_outcome(other)


def is_accepted(data):
    """Whether certify says yes."""
    status, _, said = auditor.certify(data)
    if status not in (0, 1):
        raise image.Stop(f"certify ends with status {status}: {said.decode().strip()}")
    return status == 0


def need_own_path(record, root):
    """Stops where an access before the last has an outcome that is not allowed, or is not laid out."""
    node = root
    while True:
        if node.before is None:
            raise image.Stop("the record has more accesses than are laid out: --nodes N lays out N of them")
        own = record.events[node.number]
        edge = next((it for it in node.edges if is_same(it.outcome, own)), None)
        if node.number == len(record.events) - 1:
            return
        if edge is None:
            raise Rejected(f"event {node.number} is rejected, which is before the access")
        node = edge.next


def trees_of(asked, source, most=MOST_NODES):
    """The roots for a machine with PCIDs and INVPCID, for one with PCIDs alone, and for one with neither."""
    found, roots = [], []
    with ThreadPoolExecutor(2) as pool:
        for record in (asked.record, without_invpcid(asked.record), without_pcids(asked.record)):
            root = next((root for it, root in zip(found, roots) if it == record), None)
            found.append(record)
            roots.append(root or Grower(record, source, is_accepted, pool.map, most).grow())
    need_own_path(asked.record, roots[0])
    return roots


# ---- The bytes

class Writer:
    """Lays the trees out: a head, the frames' names, the nodes, the texts. Places are counted from the beginning."""

    def __init__(self, asked, place, roots):
        self.asked, self.place, self.roots = asked, place, roots
        self.places, self.texts, self.nodes, self.end = {}, {}, [], 0
        frames = sorted({*place.frames, *place.tables})
        self.frames = [] if place.stays else [(place.frame(it), it) for it in frames]

    def text(self, text):
        """The place of a text, once all nodes have theirs."""
        if text not in self.texts:
            self.texts[text] = self.end
            self.end += len(text) + 1
        return self.texts[text]

    def take(self, node, end):
        """Gives a node and those behind it their places."""
        if id(node) in self.places:
            return end
        self.places[id(node)] = end
        self.nodes.append(node)
        end += 48 + sum(32 + 16 * len(edge.changes) for edge in node.edges)
        for edge in node.edges:
            if edge.next and edge.next.before is not None:
                end = self.take(edge.next, end)
        return end

    def word_at(self, address):
        return self.place.frame(address & ~OFFSET) | address & OFFSET

    def edge_bytes(self, edge):
        is_fault = isinstance(edge.outcome, Fault)
        value = edge.outcome.code if is_fault else self.place.frame(edge.outcome.physical & ~OFFSET)
        changes = sorted((self.word_at(address), bits) for address, bits in edge.changes.items())
        return struct.pack("<4Q", is_fault, value, self.places.get(id(edge.next), 0), len(changes)) + b"".join(
            struct.pack("<QQ", *change) for change in changes)

    def node_bytes(self, node):
        is_last = node.number == len(self.asked.record.events) - 1
        allowed = ", ".join(map(text_of_edge, node.edges)) or "nothing"
        linear = self.asked.record.events[node.number].linear
        head = struct.pack("<6Q", self.text(text_of_access(self.asked, node.number)), self.text(allowed), linear,
                           is_last or self.asked.is_each, is_last, len(node.edges))
        return head + b"".join(map(self.edge_bytes, node.edges))

    def bytes(self):
        end = 56 + 16 * len(self.frames)
        for root in self.roots:
            end = self.take(root, end)
        self.end = end
        last = len(self.asked.record.events) - 1
        about = f"{last + 1} events, to {text_of_access(self.asked, last)}"
        body = b"".join(map(self.node_bytes, self.nodes))
        head = struct.pack("<8s6Q", MAGIC, self.text(self.asked.name), self.text(about), len(self.frames),
                           *(self.places[id(root)] for root in self.roots))
        names = b"".join(struct.pack("<QQ", *it) for it in self.frames)
        data = head + names + body + b"".join(text.encode() + b"\0" for text in self.texts)
        return data + b"\0" * (-len(data) % 8)


# ---- What is asked

def read(path, number=None, access=None, is_each=False):
    """What is asked of the record of a file: the access of that number, or its last one, or one more behind all
    events, whose ring, operation and address the text names."""
    record, notes = keeping.read_kept(path)
    if has_spans(record.header.version):
        replay.stop(f"it has version {record.header.version}, and no one order: `certify --bytes` gives one")
    name = os.path.basename(path).removesuffix(".record")
    if access is not None:
        event, words = access_of(access)
        record = replace(record, events=[*record.events, event])
        number = len(record.events) - 1
        notes = {**notes, **({number: words} if words is not None else {})}
    accesses = [at for at, event in enumerate(record.events) if isinstance(event, ACCESSES)]
    if number is None and not accesses:
        raise image.Stop(f"{path} has no access: --access has one more behind its events")
    number = accesses[-1] if number is None else number
    if number not in accesses:
        raise image.Stop(f"event {number} of {path} is no access")
    return Asked(replace(record, events=record.events[:number + 1]), notes, name, is_each)


def access_of(text):
    """The access of a text such as `1 user-ac read 0x5123`, where the first number is the processor's, which may lack,
    or `user-ac implicit 0x5010`; and the words of its note."""
    words = text.split()
    try:
        processor = int(words.pop(0)) if words[0].isdigit() else 0
        ring, operation, linear = words[0], words[1], int(words[2], 0)
        if ring.removesuffix("-ac") not in ("user", "super") or len(words) != 3:
            raise ValueError
        if operation == "implicit":
            note = tuple(word for word in ("user", "ac") if word in ring.split("-"))
            return Answer(processor, 0, linear, 0, (0,)), note
        flags = OPERATIONS.index(operation) | (USER if ring.startswith("user") else 0) | (
            ALIGNMENT_CHECK if ring.endswith("-ac") else 0)
        return Answer(processor, flags, linear, 0, (0,)), None
    except (ValueError, IndexError):
        raise image.Stop(f"{text} is no access: `user-ac read 0x5123` is one, and `1 super implicit 0x5010`") from None


class Case:
    """A case that is made: the bytes for the guest, the place of its frames, and its trees."""

    def __init__(self, asked, most=MOST_NODES):
        self.asked = asked
        self.source = source = replay.Source(asked.record, asked.notes)
        self.place = replay.Place(source, is_small=True)
        self.roots = trees_of(asked, source, most)
        self.data, _ = replay.laid_out_at(source, self.place, Writer(asked, self.place, self.roots).bytes())
        self.processors = len(asked.record.header.starts)

    def settings(self, ways=0, number=0):
        """The guest's settings for it, which is the one of this number of those that are laid out."""
        version = self.asked.record.header.version
        kinds = ["clear-flag-faults"] if version == 2 else []
        return image.settings_of(number, 1, 0, self.processors, version, kinds, ways | image.REPLAY | image.CASE)

    def write(self, path, is_disk=False):
        """Writes the kernel, or the disk."""
        (image.disk if is_disk else image.kernel)(path, self.settings(), self.data)

    def command(self, path):
        """What boots the kernel in QEMU."""
        return (f"qemu-system-x86_64 -cpu max -smp {self.processors} -m {128 if self.place.is_low() else 1152} "
                f"-kernel {path} -device isa-debug-exit,iobase=0xf4,iosize=4 -nographic -no-reboot")

    def told(self):
        """What is judged, and what is allowed there behind the record's own outcomes."""
        node, last = self.roots[0], len(self.asked.record.events) - 1
        while node.number != last:
            node = next(edge for edge in node.edges
                        if is_same(edge.outcome, self.asked.record.events[node.number])).next
        return f"{text_of_access(self.asked, last)}, allowed: " + (
            ", ".join(map(text_of_edge, node.edges)) or "nothing")
