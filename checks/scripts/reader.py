# SPDX-License-Identifier: MIT OR Apache-2.0
"""Which text is a script, and which line is refused for what, written from docs/SCRIPT.md alone.

`refusal(text)` gives the line and the number of the refusal of these bytes, and None where they are a
script. Running out of memory and too many instructions are left out.
"""
import re

DEC = re.compile(r"[0-9]{1,10}\Z")
HEX = re.compile(r"0x[0-9A-Fa-f]{1,16}\Z")
FIRST, MACHINE, SEGMENT, CPU, INSTRUCTION, NUMBER, MALFORMED, LINE_END = range(1, 9)
FLAGS = ["wp", "nxe", "smep", "smap"]
WORDS = {"write": "hex hex", "read": "hex mode", "store": "hex mode", "fetch": "hex mode", "cr3": "hex",
         "invlpg": "hex", "invpcid": "dec hex hex", "pge": "pge"}
WRONG = {"hex": NUMBER, "dec": NUMBER, "mode": INSTRUCTION, "pge": INSTRUCTION}
MOST_PROCESSORS = {1: 64, 2: 1024}


def is_word(kind, word):
    if kind in ("hex", "dec"):
        return bool((HEX if kind == "hex" else DEC).match(word))
    return word in (("user", "super", "super-ac") if kind == "mode" else ("0", "1"))


def is_canonical(linear):
    return linear < 1 << 47 or linear >= (1 << 64) - (1 << 47)


def is_well_formed(name, words, m):
    """Whether the numbers of an instruction are those of an event."""
    first = int(words[0], 0) if name != "invpcid" else int(words[0])
    if name == "write":
        return first % 8 == 0 and first < 1 << m
    if name in ("read", "store", "fetch", "invlpg"):
        return is_canonical(first)
    if name == "cr3":
        return first % (1 << 63) < 1 << m
    if name == "invpcid":
        pcid, linear = int(words[1], 16), int(words[2], 16)
        if first == 0:
            return pcid <= 4095 and is_canonical(linear)
        return first <= 3 and pcid <= 4095 and linear == 0 and (first == 1 or pcid == 0)
    return True


def instruction(line, m, processors):
    """The number of an instruction's refusal: its words from the left, and then what they say."""
    words = line.split(" ")
    if not DEC.match(words[0]) or len(words) < 2 or words[1] not in WORDS:
        return INSTRUCTION
    kinds = WORDS[words[1]].split()
    for kind, word in zip(kinds, words[2:]):
        if not is_word(kind, word):
            return WRONG[kind]
    if len(words) != 2 + len(kinds):
        return INSTRUCTION
    if int(words[0]) >= processors or not is_well_formed(words[1], words[2:], m):
        return MALFORMED
    return None


def is_machine(words):
    if words[0] != "machine" or len(words) < 2 or not DEC.match(words[1]) or not 36 <= int(words[1]) <= 52:
        return False
    places = [FLAGS.index(word) if word in FLAGS else -1 for word in words[2:]]
    return -1 not in places and places == sorted(set(places))


def is_segment(words):
    return len(words) == 2 and words[0] == "segment" and bool(DEC.match(words[1])) and 1 <= int(words[1]) <= 65536


def is_cpu(words, m):
    return len(words) == 3 and bool(HEX.match(words[1])) and int(words[1], 16) < 1 << m and words[2] in ("0", "1")


class Reader:
    def __init__(self):
        self.due, self.version, self.m, self.processors = FIRST, 0, 0, 0

    def take(self, line):
        """The number of a line's refusal."""
        words = line.split(" ")
        if self.due == FIRST:
            if line not in ("pcid-guest 1", "pcid-guest 2"):
                return FIRST
            self.version, self.due = int(line[-1]), MACHINE
        elif self.due == MACHINE:
            if not is_machine(words):
                return MACHINE
            self.m, self.due = int(words[1]), SEGMENT
        elif self.due == SEGMENT:
            if not is_segment(words):
                return SEGMENT
            self.due = CPU
        elif self.due == CPU and words[0] == "cpu" and self.processors < MOST_PROCESSORS[self.version]:
            if not is_cpu(words, self.m):
                return CPU
            self.processors += 1
        elif self.processors == 0:
            return CPU
        else:
            self.due = INSTRUCTION
            return instruction(line, self.m, self.processors)
        return None


def refusal(text):
    reader = Reader()
    lines = text.split(b"\n")
    for number, line in enumerate(lines[:-1], 1):
        if any(byte < 0x20 or byte > 0x7E for byte in line):
            return number, LINE_END
        if number > 1 and (not line or line.startswith(b"#")):
            continue
        wrong = reader.take(line.decode("ascii"))
        if wrong:
            return number, wrong
    if lines[-1]:
        return len(lines), LINE_END
    if reader.due in (FIRST, MACHINE, SEGMENT) or reader.due == CPU and reader.processors == 0:
        return len(lines), reader.due
    return None
