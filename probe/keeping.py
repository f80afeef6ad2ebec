# SPDX-License-Identifier: MIT OR Apache-2.0
"""Records of the probe: found in the output of a run, and kept with their notes."""
import os
import re
import subprocess
from dataclasses import replace

from probe.image import OUT, TOP, Stop, command, need
from records.events import ACCESSES
from records.reading import Cut, read_first, read_record
from records.writing import MAGIC, record_bytes

NOTES = ".notes"  # behind the name of a record
SEGMENT = 1024  # events of a segment, where a record is written anew
# Of the mark that the guest sets behind an implicit access, what each bit says.
MARKS = ((2, "user"), (4, "ac"))


class Kept:
    """A record as bytes, and its notes: by the numbers of its implicit accesses what carried each
    out, of which the record has no word: `user` for ring 3, `ac` for EFLAGS.AC=1."""

    def __init__(self, data, notes=None):
        self.data, self.notes = data, notes or {}

    def write(self, path):
        """The record there, and its notes beside it."""
        for name, data in ((path, self.data), (path + NOTES, spelled(self.notes).encode())):
            with open(name, "wb") as file:
                file.write(data)


def bytes_of(record, events=None):
    """The record of these events, or of all that it has."""
    header = replace(record.header, segment=SEGMENT)
    return record_bytes(header, record.events if events is None else events)


def spelled(notes):
    return "".join(" ".join([str(number), "implicit", *words]) + "\n"
                   for number, words in sorted(notes.items()))


def read_notes(path):
    """The notes beside a record, none where there is no such file."""
    if not os.path.exists(path + NOTES):
        return {}
    with open(path + NOTES, encoding="utf-8") as file:
        lines = [re.fullmatch(r"(\d+) implicit((?: user)?(?: ac)?)", line.strip()) for line in file]
    if None in lines:
        raise Stop(f"{path + NOTES} has a line that is no note")
    return {int(line[1]): tuple(line[2].split()) for line in lines}


def read_kept(path):
    """The record of a file, and its notes."""
    try:
        with open(path, "rb") as file:
            return read_first(file.read())[0], read_notes(path)
    except OSError as why:
        raise Stop(f"{path}: {why.strerror}") from None
    except Cut:
        raise Stop(f"{path} is no whole record of version 1 to 4") from None


def take_notes(data):
    """Of a record as the guest writes it the notes, and the record without them: an implicit access
    has a second number where moments stand, and its bits say what carried it out."""
    record, notes = read_record(data), {}
    for number, event in enumerate(record.events):
        if isinstance(event, ACCESSES) and len(event.moments) == 2:
            moment, mark = event.moments
            notes[number] = tuple(word for bit, word in MARKS if mark & bit)
            record.events[number] = replace(event, moments=(moment,))
    return Kept(record_bytes(record.header, record.events), notes)


def close(data):
    """What stands whole of a record whose end is cut, by emit/close.c, and what that says."""
    need("cc")
    os.makedirs(OUT, exist_ok=True)
    program = os.path.join(OUT, "close")
    command("cc", "-std=c99", "-O1", "-o", program, os.path.join(TOP, "emit", "close.c"))
    done = subprocess.run([program, "events"], input=data, capture_output=True, check=False)
    return done.stdout, done.stderr.decode().strip()


def split(output):
    """The records of an output, with their notes, and what was said of those that were cut."""
    found, at, said = [], output.find(MAGIC), []
    while at >= 0:
        after = output.find(MAGIC, at + len(MAGIC))
        piece = output[at:after] if after > 0 else output[at:]
        try:
            found.append(take_notes(piece[:read_first(piece)[1]]))
        except Cut:
            closed, words = close(piece)
            said.append(words)
            if closed:
                found.append(take_notes(closed))
        at = after
    return found, "; ".join(said)
