# SPDX-License-Identifier: MIT OR Apache-2.0
"""Writes a case as one C file for the x86 tests of kvm-unit-tests, and builds such a file with our stub of that tree,
so that the probe's guest runs it."""
import glob
import os
import re
import subprocess
import tempfile
from dataclasses import replace

from checks.outcomes import enumeration
from probe import auditor, casing, causes, image, keeping, replay
from records.events import Assist, Fault, Write

FOLDER = os.path.join(image.HERE, "kvm_unit_tests")
HEADERS = ("libcflat.h", "processor.h", "desc.h", "vm.h", "vmalloc.h", "alloc_page.h", "smp.h")
OPERATIONS = ("DATA_READ", "DATA_WRITE", "FETCH", "LOAD_LIMIT")
KINDS = {replay.WRITE: "WRITE", replay.ACCESS_TAG: "ACCESS", replay.LOAD_ROOT: "LOAD_CR3",
         replay.INVALIDATE_PAGE: "INVALIDATE_PAGE", replay.INVALIDATE_PCID: "INVALIDATE_PCID",
         replay.SET_GLOBAL_PAGES: "SET_PGE"}
NONE = "NO_FRAME"
# Of the tree's own Makefile, as remembered, beside those of the guest.
WARNINGS = ("-Wwrite-strings", "-Wempty-body", "-Wclobbered", "-Wtype-limits", "-Wignored-qualifiers",
            "-Wmissing-prototypes", "-Wstrict-prototypes")
HEAD = """\
/*
 * {file}: a test of paging for the x86 tests of kvm-unit-tests. The probe/case of pcid-audit
 * made it of a record:
 *
{events}
 *
 * What is judged: {told}
 * Manual: Intel SDM, volume 3, {manual}.
 *
 * The tables lie where the test finds place, so the addresses above are not those of the run.
 * Needs -smp {processors}, and what the record has: -cpu max.
 */
"""


def without_assists(asked):
    """The record in version 1, which has no assists: flags that an access does not set again are written."""
    source, events, notes = replay.Source(asked.record, asked.notes), [], {}
    for number, event in enumerate(asked.record.events):
        if number in asked.notes:
            notes[len(events)] = asked.notes[number]
        if not isinstance(event, Assist):
            events.append(event)
        elif not source.is_served(number):
            words = enumeration.memory_of(asked.record.events[:number + 1])
            events.append(Write(event.processor, event.address, words[event.address]))
    header = replace(asked.record.header, version=1)
    return replace(asked, record=replace(asked.record, header=header, events=events), notes=notes)


def manual_of(record, notes):
    """The sections of the manual that speak of what is judged."""
    if auditor.certify(keeping.bytes_of(record))[0] != 1:
        return "4.6.1 (rights), 4.7 (error codes), 4.10.4.1 (what invalidates)"
    cause = causes.cause_of(record, record.events, notes)
    if cause.taker is not None:
        return "4.10.4.1 (what invalidates cached translations)"
    return "4.7 (error codes)" if isinstance(record.events[-1], Fault) else "4.6.1 (rights)"


def shown(record):
    """The events as `show` writes them."""
    with tempfile.TemporaryFile() as file:
        file.write(keeping.bytes_of(record))
        file.seek(0)
        done = subprocess.run([auditor.program(), "show"], stdin=file, capture_output=True, text=True, check=False)
    return [re.sub(r" moments [0-9 ]*$", "", line) for line in done.stdout.splitlines()]


class Writer:
    """Writes the data of a test."""

    def __init__(self, case):
        # (the case's own steps have been moved)
        self.case, self.place, self.source = case, case.place, replay.Source(case.asked.record, case.asked.notes)
        self.is_moved()
        self.numbers = {frame: number for number, frame in
                        enumerate([*sorted({*self.place.tables, *self.place.frames}), None])}
        self.pieces = {base: number for number, base in enumerate(sorted(self.place.pieces))}
        self.nodes, self.edges = [], []

    def is_moved(self):
        """Stops where frames can't be numbered."""
        if self.place.stays or any(levels != {4} for root, levels in self.source.levels.items()
                                   if root in self.source.roots):
            replay.stop("its tables can't lie anywhere else, as a test for kvm-unit-tests has them")

    def frames(self):
        for frame in self.numbers:
            base = None if frame is None else frame & -replay.PIECE
            piece, offset = (self.pieces[base], frame - base) if base in self.pieces else (NONE, 0)
            is_marked = frame is None or frame not in self.place.tables or frame in self.source.answers
            yield (f"{{ {0 if frame is None else frame:#x}, {piece}, {offset:#x}, "
                   f"{number_of(frame in self.source.roots)}, {number_of(is_marked)} }}")

    def steps(self):
        for step in self.source.steps:
            fields = self.fields_of(step)
            if fields is not None:
                words = ", ".join(f".{name} = {value}" for name, value in fields.items())
                yield f"{{ .what = {KINDS[step.what]}, .cpu = {step.processor}, {words} }}"

    def fields_of(self, step):
        """The fields of a step beside its kind and processor; nothing of a write of the guest's own words."""
        if step.what == replay.WRITE:
            return self.fields_of_write(step)
        if step.what == replay.ACCESS_TAG:
            return {"linear": f"{step.address:#x}ull", "operation": OPERATIONS[step.flags & 3],
                    "is_user": number_of(step.flags & 4), "ac": number_of(step.flags & 8)}
        if step.what == replay.LOAD_ROOT:
            return {"frame": self.numbers[step.address & self.source.address_bits],
                    "value": f"{step.address & ~self.source.address_bits:#x}ull"}
        if step.what == replay.SET_GLOBAL_PAGES:
            return {"value": int(step.value)}
        return {"linear": f"{step.address:#x}ull", "value": f"{step.pcid:#x}", "type": step.kind}

    def fields_of_write(self, step):
        table, place, source = step.address & ~4095, self.place, self.source
        if table in source.roots and step.address >> 3 & 511 in replay.OWN_SLOTS:
            return None
        if table in source.answers and (step.address & 4095) // 32 == place.slot():
            return None
        flags = replay.HIGH_RESERVED if step.value & (1 << 52) - (1 << source.m) else 0
        levels = source.levels.get(table, {1})
        kinds = {source.kind(level, step.value) for level in levels}
        base, to, piece, value = step.value & source.address_bits, NONE, NONE, step.value
        if "leaf" in kinds and min(levels) == 2:
            value, piece = value & ~(source.address_bits & -replay.PIECE), self.pieces.get(base & -replay.PIECE, NONE)
        elif kinds != {None}:
            value, to = value & ~source.address_bits, self.numbers.get(base, self.numbers[None])
        return {"frame": self.numbers[table], "offset": f"{step.address & 4095:#x}", "value": f"{value:#x}ull",
                "to": to, "to_piece": piece, "flags": flags}

    def take(self, node):
        """The number of a node, whose edges and those behind it are taken too."""
        for number, (taken, _) in enumerate(self.nodes):
            if taken is node:
                return number
        number = len(self.nodes)
        self.nodes.append((node, None))
        nexts = [self.take(edge.next) if edge.next and edge.next.before is not None else NONE for edge in node.edges]
        self.nodes[number] = (node, len(self.edges))
        for edge, following in zip(node.edges, nexts):
            is_fault = isinstance(edge.outcome, Fault)
            value = f"{edge.outcome.code:#x}" if is_fault else self.numbers[edge.outcome.physical & ~4095]
            self.edges.append(f"{{ {number_of(is_fault)}, {value}, {following} }}")
        return number

    def node_text(self, node, first):
        asked, last = self.case.asked, len(self.case.asked.record.events) - 1
        allowed = ", ".join(map(casing.text_of_edge, node.edges)) or "nothing"
        is_last = node.number == last
        return (f'{{ "{casing.text_of_access(asked, node.number)}", "{allowed}", '
                f"{number_of(is_last or asked.is_each)}, {number_of(is_last)}, {first}, {len(node.edges)} }}")

    def data(self):
        """The definitions that a test begins with."""
        header, source = self.case.asked.record.header, self.source
        trees = [self.take(root) for root in self.case.roots]
        slots = sorted({step.address >> 39 & 511 for step in source.steps if step.what in (
            replay.ACCESS_TAG, replay.INVALIDATE_PAGE, replay.INVALIDATE_PCID)} | {
                word >> 3 & 511 for word in source.values if word & ~4095 in source.roots})
        starts = [f"{{ {self.numbers[cr3 & source.address_bits]}, {cr3 & 4095:#x}, {pge} }}"
                  for cr3, pge in header.starts]
        names = (("WP", 1), ("NXE", 2), ("SMEP", 4), ("SMAP", 8))
        return "\n".join([
            f'#define NAME\t"{name_of(self.case.asked)}"', f"#define CPUS\t{len(header.starts)}",
            f"#define PIECES\t{len(self.pieces)}", f"#define SLOT\t{32 * self.place.slot():#x}",
            f"#define MAXPHYADDR\t{source.m}", *(f"#define HAS_{name}\t{number_of(header.flags & bit)}"
                                                 for name, bit in names), "",
            rows("struct frame frames[]", self.frames()), rows("struct step steps[]", self.steps()),
            rows("struct { int root; u64 pcid, pge; } starts[]", starts),
            rows("int used_slots[]", map(str, slots or [0])), rows("int trees[]", map(str, trees)),
            rows("struct edge edges[]", self.edges or ["{ 0, 0, NO_FRAME }"]),
            rows("struct node nodes[]", (self.node_text(*it) for it in self.nodes))])


def number_of(holds):
    return int(bool(holds))


def rows(what, lines):
    return f"static const {what} = {{\n" + "".join(f"\t{line},\n" for line in lines) + "};\n"


def name_of(asked):
    return "pcid_" + re.sub(r"\W", "_", asked.name)


def case_of(asked, most=casing.MOST_NODES):
    """The case that a C file has."""
    return casing.Case(without_assists(asked), most)


def text_of_case(case):
    """The C file of a case without assists."""
    asked = case.asked
    events = "\n".join(" *   " + line for line in shown(asked.record))
    head = HEAD.format(file=name_of(asked) + ".c", events=events, told=case.told(),
                       manual=manual_of(asked.record, asked.notes), processors=case.processors)
    with open(os.path.join(FOLDER, "test.c.in"), encoding="utf-8") as file:
        return file.read().replace("@HEAD@\n", head).replace("@DATA@\n", Writer(case).data())


def build(source, folder):
    """Builds a C file with the stub and the guest: the guest's bytes for an image."""
    image.build()
    headers = os.path.join(folder, "headers")
    os.makedirs(headers, exist_ok=True)
    for name in HEADERS:
        with open(os.path.join(headers, name), "w", encoding="utf-8") as file:
            file.write('#include "stub.h"\n')
    made = {name: os.path.join(folder, name + ".o") for name in ("stub", "test")}
    image.command(*image.COMPILE, "-o", made["stub"], os.path.join(FOLDER, "stub.c"))
    image.command(*(word for word in image.COMPILE if word not in ("-std=c99", "-Wpedantic")), *WARNINGS, "-std=gnu11",
                  "-I", FOLDER, "-I", headers, "-o", made["test"], source)
    objects = [os.path.join(image.OUT, os.path.basename(path).rsplit(".", 1)[0] + ".o")
               for path in glob.glob(os.path.join(image.HERE, "guest", "*.c")) if not path.endswith("/replay.c")]
    flat = os.path.join(folder, "guest.bin")
    image.link(os.path.join(folder, "guest.elf"), flat,
               [*sorted(objects), os.path.join(image.OUT, "entry.o"), *made.values()])
    return flat


def write_image(path, source, processors, is_disk=False):
    """Writes the image of a C file: a kernel, or a disk."""
    with tempfile.TemporaryDirectory() as folder:
        flat = build(source, folder)
        settings = image.settings_of(processors=processors, ways=image.REPLAY | image.CASE)
        (image.disk if is_disk else image.kernel)(path, settings, guest=flat)
