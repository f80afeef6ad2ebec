#!/usr/bin/env python3
# SPDX-License-Identifier: MIT OR Apache-2.0
"""Drives Unicorn, an emulator that is a library, with random paging operations, and has `pcid-audit
certify` judge the record: an example for emulators that boot no guest. One processor without PCIDs
executes writes of table entries (all levels and page sizes, rights, reserved bits, A and D, global
pages), reads, writes and fetches by ring 3 and ring 0, implicit accesses (LSL), INVLPG, MOV to CR3
and changes of CR4.PGE. Output and status are the auditor's. It needs Unicorn 2.1 or newer: pip's
unicorn, or Debian's python3-unicorn of trixie. docs/PROBE.md describes it."""
import ctypes
import os
import random
import struct
import sys

sys.dont_write_bytecode = True
# (in place of this file's folder, where `unicorn` is this file)
sys.path[0] = os.path.abspath(os.path.join(os.path.dirname(__file__), "../.."))
from probe import auditor, image
from records.events import Answer, Fault, Header, InvalidatePage, LoadRoot, SetGlobalPages, Write
from records.writing import record_bytes

LEAST = (2, 1)  # the version: earlier ones look for memory by the linear address
KINDS = ("reserved", "large", "global", "user", "writes", "fetches", "implicit", "implicit-ac",
         "bare-faults")
# The tested indices of levels 1 to 4, and the pool's first and last frame of each level.
INDICES = {1: (0, 1, 7, 100, 258, 511), 2: (16, 21, 30, 63), 3: (0, 1, 511), 4: (0, 255, 300, 511)}
FRAMES = {4: (0, 3), 3: (3, 6), 2: (6, 10), 1: (10, 16)}
POOL, LOW_MEMORY, GIGABYTE = 0x400000, 128 << 20, 1 << 30
CODE, DESCRIPTORS, STACK, HOME = 0x10000, 0x11000, 0x12000, 0x20000
SUPERVISOR, USER = 0xFFFF800000000000, 0xFFFF808000000000  # slots 256 and 257 of each root
SLOT = 0x7C0  # of each frame, where it says which it is
PAGE_FAULT = 14
P, RW, US, A, D, PS, G, XD = 1, 2, 4, 1 << 5, 1 << 6, 1 << 7, 1 << 8, 1 << 63
AC = 1 << 18
CR0, CR4_PAE, CR4_PGE, CR4_SMEP, CR4_SMAP = 0x80010031, 1 << 5, 1 << 7, 1 << 20, 1 << 21
EFER, EFER_LONG, EFER_NXE = 0xC0000080, 0x500, 0x800
# Ring 0: RBX is the linear address, RAX the value. Each is run up to its end.
STUBS = {"read": b"\x48\x8b\x03", "write": b"\x48\x89\x03", "fetch": b"\xff\xe3",
         "invlpg": b"\x0f\x01\x3b", "cr3": b"\x0f\x22\xdb", "cr4": b"\x0f\x22\xe3",
         "lsl": b"\x89\xc1\x31\xc0\x0f\x03\xc1", "lldt": b"\x0f\x00\xd0",
         "cpuid": b"\x0f\xa2", "iretq": b"\x48\xcf"}
OPERATIONS = {"read": 0, "write": 1, "fetch": 2, "lsl": 0}
OFFSETS = {"read": 0, "write": 24, "fetch": 8, "lsl": 16}  # in a slot
LOCAL, FIRST_OF_LOCAL = 0x30, 7  # selectors: of the local table, and of its first descriptor
ZERO_FLAG = 1 << 6


unicorn = x86 = None  # pylint: disable=invalid-name


def load_library(folder):
    """Imports Unicorn, where a folder of probe/suite is named from there."""
    # pylint: disable=global-statement,import-outside-toplevel,import-self,no-member,redefined-outer-name
    global unicorn, x86
    try:
        if folder:
            sys.path.insert(1, os.path.join(folder, "usr/lib/python3/dist-packages"))
            # The package asks for its library by name: the one that is loaded already is taken.
            ctypes.CDLL(os.path.join(folder, "usr/lib/x86_64-linux-gnu/libunicorn.so.2"))
        import unicorn
        from unicorn import x86_const as x86
    except (ImportError, OSError) as why:
        raise image.Stop(f"unicorn is missing ({why}): Debian has it in the package "
                         "python3-unicorn of trixie, pip as unicorn") from None
    if unicorn.uc_version()[:2] < LEAST:
        raise image.Stop("Unicorn 2.1 is needed: Debian 13 has it (probe/suite trixie, --in), "
                         "and pip as unicorn")


class Machine:
    """Unicorn's processor: runs one instruction at a time."""

    def __init__(self, rules):
        self.uc = unicorn.Uc(unicorn.UC_ARCH_X86, unicorn.UC_MODE_64)
        self.uc.ctl_set_cpu_model(x86.UC_CPU_X86_SKYLAKE_SERVER)
        for base in (0, GIGABYTE):
            self.uc.mem_map(base, LOW_MEMORY)
        # Of the last stub: its exception, the processor's state at that, and its address.
        self.vector, self.left, self.fault_address = None, b"", 0
        self.uc.hook_add(unicorn.UC_HOOK_INTR, self.take_exception)
        self.lay_out()
        self.set_registers(rules)
        self.rest = self.uc.context_save()
        self.place_of_code = self.find_error_code()

    def take_exception(self, uc, vector, _):
        if self.vector is None:  # (behind a fetch that faulted Unicorn tries again)
            self.vector, self.left = vector, bytes(uc.context_save())
            self.fault_address = uc.reg_read(x86.UC_X86_REG_CR2)
        uc.emu_stop()

    def word(self, physical):
        return struct.unpack("<Q", self.uc.mem_read(physical, 8))[0]

    def set_word(self, physical, value):
        self.uc.mem_write(physical, struct.pack("<Q", value))

    def lay_out(self):
        """The stubs, twice over: for ring 0 in slot 256, for ring 3 in slot 257."""
        self.stubs = {}
        for number, (name, code) in enumerate(STUBS.items()):
            self.stubs[name] = CODE + 16 * number
            self.uc.mem_write(self.stubs[name], code)
        for number, entry in enumerate((0, 0x00209A0000000000, 0x00CF92000000FFFF, 0,
                                        0x00CFF2000000FFFF, 0x0020FA0000000000)):
            self.set_word(DESCRIPTORS + 8 * number, entry)
        for at, entry in ((HOME, HOME + 0x1023), (HOME + 0x1000, 0xE3),
                          (HOME + 0x2000, HOME + 0x3027), (HOME + 0x3000, HOME + 0x4027),
                          (HOME + 0x4000 + 8 * (CODE >> 12), CODE | 0x25)):
            self.set_word(at, entry)
        for root in range(*FRAMES[4]):
            self.set_word(POOL + 4096 * root + 8 * 256, HOME | 0x23)
            self.set_word(POOL + 4096 * root + 8 * 257, HOME + 0x2000 | 0x27)

    def set_registers(self, rules):
        uc = self.uc
        uc.reg_write(x86.UC_X86_REG_CR4, CR4_PAE)
        uc.reg_write(x86.UC_X86_REG_CR3, POOL)
        uc.msr_write(EFER, EFER_LONG | (EFER_NXE if rules["nxe"] else 0))
        uc.reg_write(x86.UC_X86_REG_CR0, CR0 if rules["wp"] else CR0 & ~(1 << 16))
        uc.reg_write(x86.UC_X86_REG_GDTR, (0, SUPERVISOR + DESCRIPTORS, 63, 0))
        self.cr4 = CR4_PAE | (CR4_SMEP if rules["smep"] else 0) | \
            (CR4_SMAP if rules["smap"] else 0)
        self.rest = uc.context_save()
        self.run("cr4", self.cr4, stays=True)
        self.run("cpuid", 0, value=0x80000008)
        self.width = uc.reg_read(x86.UC_X86_REG_RAX) & 255  # MAXPHYADDR
        self.go_back()

    def go_back(self):
        self.uc.context_restore(self.rest)

    def run(self, name, linear, value=0, flags=2, is_user=False, stays=False):
        """Runs one stub, and answers the exception that it gave, if any. With `stays` what it
        changed is there from now on."""
        uc, self.vector = self.uc, None
        uc.reg_write(x86.UC_X86_REG_RBX, linear)
        uc.reg_write(x86.UC_X86_REG_RAX, value)
        uc.reg_write(x86.UC_X86_REG_EFLAGS, flags)
        start, end = SUPERVISOR + self.stubs[name], None
        if is_user:
            target = linear if name == "fetch" else USER + self.stubs[name]
            uc.mem_write(STACK, struct.pack("<5Q", target, 0x2B, flags, 0, 0x23))
            uc.reg_write(x86.UC_X86_REG_RSP, SUPERVISOR + STACK)
            start = SUPERVISOR + self.stubs["iretq"]
            end = target + len(STUBS[name])
        if name == "fetch":
            end = linear + 5  # behind the slot's first instruction
        uc.emu_start(start, end or start + len(STUBS[name]))
        if stays:
            self.rest = uc.context_save()
        return self.vector

    def load_local_table(self, linear):
        """A local table whose first descriptor stands at the address."""
        self.set_word(DESCRIPTORS + LOCAL, 0x000082000000000F | (linear & 0xFFFFFF) << 16 |
                      (linear >> 24 & 0xFF) << 56)
        self.set_word(DESCRIPTORS + LOCAL + 8, linear >> 32)
        if self.run("lldt", 0, value=LOCAL, stays=True) is not None:
            raise image.Stop("Unicorn takes no local descriptor table")

    def find_error_code(self):
        """Unicorn has no call for a fault's error code: where it stands in a saved context is
        found by faults at an absent page, whose codes are known."""
        absent, found = 0x7F0000000000, None
        for name, is_user, code in (("read", False, 0), ("write", False, 2), ("read", True, 4),
                                    ("write", True, 6), ("read", False, 0), ("write", True, 6)):
            if self.run(name, absent, is_user=is_user) != PAGE_FAULT:
                raise image.Stop("Unicorn gave no fault at an absent page")
            places = {at for at in range(0, len(self.left) - 3, 4)
                      if struct.unpack_from("<I", self.left, at)[0] == code}
            found = places if found is None else found & places
            self.go_back()
        if len(found) != 1:
            raise image.Stop(f"the error code has {len(found)} places in Unicorn's context")
        return found.pop()

    def error_code(self):
        return struct.unpack_from("<I", self.left, self.place_of_code)[0]


class Recorder:
    """The events of a record of version 1, one processor."""

    def __init__(self, machine, rules):
        flags = rules["wp"] | rules["nxe"] << 1 | rules["smep"] << 2 | rules["smap"] << 3
        self.header, self.events = Header(1, machine.width, flags, 1024, ((POOL, 0),)), []

    def add(self, event):
        self.events.append(event)

    def bytes(self):
        return record_bytes(self.header, self.events)


class Run:
    """A random run."""

    def __init__(self, seed, count, left_out):
        self.dice, self.left_out = random.Random(seed), left_out
        self.rules = {name: seed >> bit & 1 for bit, name in
                      enumerate(("wp", "nxe", "smep", "smap"))}
        self.machine = Machine(self.rules)
        self.recorder, self.count = Recorder(self.machine, self.rules), count
        self.root, self.pge, self.written = POOL, 0, 0
        self.pages = [self.page() for _ in range(26)]
        self.recent = self.dice.sample(self.pages, 4)
        self.frames = [base + (high << 21) + (low << 12) for base in (0, GIGABYTE)
                       for high in INDICES[2] for low in INDICES[1]]
        for frame in self.frames:
            self.fill_slot(frame)

    def allows(self, kind):
        return kind not in self.left_out

    def chance(self, percent):
        return self.dice.random() * 100 < percent

    def fill_slot(self, frame):
        slot = frame + SLOT
        self.machine.set_word(slot, slot)
        self.machine.set_word(slot + 8, 0xB8 | slot + 8 << 8 | 0x900B0F << 40)
        self.machine.set_word(slot + 16, frame >> 12 & 0xFFFF | 0xF20000000000 |
                              (frame >> 28 & 15) << 48)
        self.machine.set_word(slot + 24, slot + 24)

    def page(self):
        address = sum(self.dice.choice(indices) << 3 + 9 * level for level, indices in INDICES.items())
        return address | 0xFFFF << 48 if address >> 47 else address

    def likely_page(self):
        page = self.dice.choice(self.recent if self.chance(70) else self.pages)
        self.recent[self.dice.randrange(4)] = page
        return page

    def entry(self, level):
        """A random entry: its rights, flags and address, with a reserved bit at times."""
        is_large = self.allows("large") and level in (2, 3) and \
            self.chance(25 if level == 2 else 14)
        is_leaf = is_large or level == 1
        if self.chance(8):
            return 0
        entry = P | (RW if self.chance(75 if is_leaf else 94) else 0)
        entry |= (US if self.chance(62 if is_leaf else 94) else 0)
        entry |= (A if self.chance(80) else 0) | (D if is_leaf and self.chance(60) else 0)
        entry |= self.dice.randrange(8) << 9
        if self.allows("global") and level < 4 and self.chance(35 if is_leaf else 10):
            entry |= G
        if self.rules["nxe"] and self.chance(22 if is_leaf else 3):
            entry |= XD
        if is_leaf:
            frame = self.dice.choice(self.frames)
            shift = 12 + 9 * (level - 1)
            entry |= (PS if is_large else 0) | frame >> shift << shift
        else:
            entry |= POOL + 4096 * self.dice.randrange(*FRAMES[level - 1])
        return entry | self.reserved_bit(level, is_large)

    def reserved_bit(self, level, is_large):
        if not self.allows("reserved") or not self.chance(6):
            return 0
        choices = [1 << self.dice.randrange(self.machine.width, 52)]
        choices += [PS] if level == 4 else []
        choices += [1 << self.dice.randrange(13, 3 + 9 * level)] if is_large else []
        choices += [] if self.rules["nxe"] else [XD]
        return self.dice.choice(choices)

    def write_entry(self, physical, value):
        self.machine.set_word(physical, value)
        self.recorder.add(Write(0, physical, value))

    def write_all(self):
        for level in (4, 3, 2, 1):
            for frame in range(*FRAMES[level]):
                for index in INDICES[level]:
                    self.write_entry(POOL + 4096 * frame + 8 * index, self.entry(level))

    def write_some(self):
        """Mostly an entry that the walk of a likely page reads."""
        level, linear = self.dice.choices((1, 2, 3, 4), (52, 25, 15, 8))[0], self.likely_page()
        table = self.root
        for at in range(4, level, -1):
            entry = self.machine.word(table + 8 * (linear >> 3 + 9 * at & 511))
            table = entry & (1 << self.machine.width) - 4096
            if not entry & P or at < 4 and entry & PS or not POOL <= table < POOL + (16 << 12):
                table = POOL + 4096 * self.dice.randrange(*FRAMES[level])
                break
        self.write_entry(table + 8 * (linear >> 3 + 9 * level & 511), self.entry(level))

    def invalidate(self, linear):
        self.machine.run("invlpg", linear, stays=True)
        self.recorder.add(InvalidatePage(0, linear))

    def load_root(self):
        self.root = POOL + 4096 * self.dice.randrange(*FRAMES[4])
        self.machine.run("cr3", self.root, stays=True)
        self.recorder.add(LoadRoot(0, self.root))

    def set_pge(self):
        self.pge ^= self.dice.randrange(2)
        self.machine.run("cr4", self.machine.cr4 | (CR4_PGE if self.pge else 0), stays=True)
        self.recorder.add(SetGlobalPages(0, self.pge))

    def written_at(self, value):
        """The frame where the value was written, which is put back."""
        found = [frame for frame in self.frames
                 if self.machine.word(frame + SLOT + OFFSETS["write"]) == value]
        if len(found) != 1:
            raise image.Stop(f"a write reached {len(found)} frames")
        self.fill_slot(found[0])
        return found[0] + SLOT + OFFSETS["write"]

    def answer(self, name, linear, value):
        """The physical address that answered an access."""
        left = self.machine.uc.reg_read(x86.UC_X86_REG_RAX)
        if name == "write":
            return self.written_at(value)
        if name == "lsl":
            if not self.machine.uc.reg_read(x86.UC_X86_REG_EFLAGS) & ZERO_FLAG:
                raise image.Stop(f"no descriptor where LSL read, {linear:#x}")
            return (left & 0xFFFFFFFF) << 12 | linear & 4095
        return left if name == "read" else left & 0xFFFFFFFF

    def access(self):
        kinds = [name for name, kind in (("read", None), ("write", "writes"), ("fetch", "fetches"),
                                         ("lsl", "implicit")) if kind is None or self.allows(kind)]
        name, is_user = self.dice.choice(kinds), self.allows("user") and self.chance(55)
        ac, linear = self.chance(50), self.likely_page() + SLOT + OFFSETS[name]
        flags = OPERATIONS[name] | (4 if is_user else 0) | (8 if ac else 0)
        self.written += 1
        value = 0x5EED000000000001 | self.written << 8
        if name == "lsl":  # it is recorded as what it is, a supervisor access with AC=0
            ac = ac and self.allows("implicit-ac")
            flags, value = OPERATIONS[name], FIRST_OF_LOCAL
            self.machine.load_local_table(linear)
        vector = self.machine.run(name, linear, value, 2 | (AC if ac else 0), is_user)
        if vector is None:
            answer = self.answer(name, linear, value)
            self.machine.go_back()
            self.recorder.add(Answer(0, flags, linear, answer, (0,)))
            return
        if vector != PAGE_FAULT or self.machine.fault_address != linear:
            raise image.Stop(f"an access of {linear:#x} gave vector {vector}, "
                             f"CR2 {self.machine.fault_address:#x}")
        code = self.machine.error_code()
        self.machine.go_back()
        self.recorder.add(Fault(0, flags, linear, code, (0,)))
        if not self.allows("bare-faults"):
            self.invalidate(linear)

    def carry_out(self):
        self.write_all()
        while len(self.recorder.events) < self.count:
            chance = self.dice.random() * 100
            if chance < 26:
                self.write_some()
            elif chance < 34:
                self.invalidate(self.likely_page() ^ self.dice.choice(INDICES[1]) << 12)
            elif chance < 38:
                self.load_root()
            elif chance < 40 and self.allows("global"):
                self.set_pge()
            else:
                self.access()
        return self.recorder.bytes()


def main():
    words = image.Words(prog="probe/library/unicorn.py", description=__doc__)
    words.add_argument("--seed", type=int, default=1, metavar="N")
    words.add_argument("--events", type=int, default=2000, metavar="N")
    words.add_argument("--without", default="", metavar="KINDS",
                       help="leave these out, by commas: " + " ".join(KINDS))
    words.add_argument("--keep", metavar="FILE", help="keep the record too")
    words.add_argument("--in", dest="folder", metavar="FOLDER",
                       help="Unicorn of that folder, which probe/suite has filled")
    chosen = words.parse_args()
    left_out = [kind for kind in chosen.without.split(",") if kind]
    for kind in left_out:
        if kind not in KINDS:
            raise image.Stop(f"no such kind: {kind}; there are {' '.join(KINDS)}")
    load_library(chosen.folder)
    auditor.ready()
    record = Run(chosen.seed, chosen.events, left_out).carry_out()
    if chosen.keep:
        with open(chosen.keep, "wb") as file:
            file.write(record)
    status, report, said = auditor.certify(record)
    sys.stderr.buffer.write(said)
    sys.stdout.buffer.write(report)
    return status


image.stop_on_failure(main)
