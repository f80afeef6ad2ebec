# SPDX-License-Identifier: MIT OR Apache-2.0
"""Runs an emulator, and passes its record through emit/close.c to `certify` while the guest
runs."""
import contextlib
import os
import re
import signal
import subprocess
import sys
import threading
import time

from record import parts
from probe import image

# Statuses beside those of `certify` and of the probe.
EMULATOR_DIED, STOPPED = image.EARLY_END, image.HANG
NOT_WRITTEN, AUDITOR_DIED, RECORDER_WRONG = 12, 13, 14
LEAVE_TO_END = 20  # seconds that an emulator has to close its record when it is told to
FORGOT = re.compile(r"forgot (\d+) (\w+) (\d+) (\d+) (0x\w+) (0x\w+)")
END = re.compile(r"end ([^:]+): (.*)")
REJECTED = re.compile(rb"^event: (\d+) cpu (\d+) \S+ \w+ (0x\w+) ->", re.M)


class Told:
    """What the recorder told on standard error, line by line."""

    def __init__(self, stream, is_terminal):
        self.forgotten, self.end, self.counts, self.others = [], None, {}, []
        self.guest_began = 0  # microseconds of the guest
        self.is_terminal, self.last = is_terminal, (0, 0.0)
        self.thread = threading.Thread(target=self.read, args=(stream,), daemon=True)
        self.thread.start()

    def read(self, stream):
        for line in stream:
            text = line.decode(errors="replace").rstrip()
            if text.startswith("record: "):
                self.take(text[len("record: "):])
            else:
                self.others.append(text)
        stream.close()

    def take(self, text):
        if text.startswith("begin "):
            self.guest_began = int(text.split()[1])
        elif text.startswith("progress "):
            self.progress(*map(int, text.split()[1:]))
        elif found := FORGOT.fullmatch(text):
            number, name, cpu, kind, pcid, linear = found.groups()
            self.forgotten.append((int(number), name, int(cpu), int(kind), int(pcid, 16),
                                   int(linear, 16)))
        elif found := END.fullmatch(text):
            self.end = found[1]
            self.counts = dict(part.rsplit(" ", 1) for part in found[2].split(", "))
        else:
            print(f"record: {text}", file=sys.stderr)

    def progress(self, events, microseconds):
        """On a terminal, one line that is written over."""
        if not self.is_terminal:
            return
        now, (before, then) = time.monotonic(), self.last
        rate = (events - before) / (now - then) if then else 0
        self.last = (events, now)
        guest = (microseconds - self.guest_began) / 1e6
        print(f"\r{events:,} events, {rate:,.0f} a second, {guest:.1f} s of the guest", end="",
              file=sys.stderr)

    def finish(self):
        self.thread.join()
        if self.is_terminal and self.last[1]:
            print(file=sys.stderr)


class Chain:
    """Programs, each of which reads what the one before it writes."""

    def __init__(self, source):
        self.source, self.programs = source, []

    def add(self, *words, **more):
        """The last program added is the one that `output` reads. An interrupt from the terminal
        does not reach it, so that it takes what was recorded until then."""
        program = subprocess.Popen(words, stdin=self.source, stdout=subprocess.PIPE,
                                   start_new_session=True, **more)
        if isinstance(self.source, int):
            os.close(self.source)
        else:
            self.source.close()
        self.source = program.stdout
        self.programs.append(program)
        return program

    def output(self):
        """What the last one writes, when all have ended."""
        data = self.source.read()
        for program in self.programs:
            program.wait()
        return data


class Outcome:
    """The report and the status of `certify`, how the emulator ended, and whether the file that was
    asked for was written."""

    def __init__(self, report, verdict, emulator, is_stopped, is_kept):
        self.report, self.verdict, self.emulator = report, verdict, emulator
        self.is_stopped, self.is_kept = is_stopped, is_kept
        self.is_judged = verdict in (0, 1, 2, 3, image.UNDECIDED)


def wait(process, limit):
    """Whether it had to be told to end, by the limit or by an interrupt from the terminal: it has a
    while for that, and is then ended."""
    try:
        process.wait(limit)
        return False
    except (subprocess.TimeoutExpired, KeyboardInterrupt):
        process.terminate()
    with contextlib.suppress(subprocess.TimeoutExpired):
        process.wait(LEAVE_TO_END)
        return True
    process.kill()
    process.wait()
    return True


def start(words, folder, variables, output):
    """The emulator, in a group of its own, with its record in this open file."""
    return subprocess.Popen(words, cwd=folder, stdin=subprocess.DEVNULL,
                            stdout=subprocess.DEVNULL, stderr=subprocess.PIPE,
                            env={**os.environ, **variables}, pass_fds=[output] if output else (),
                            start_new_session=True)


def run_alone(words, folder, variables, limit, is_terminal):
    """A run of which nothing is recorded."""
    emulator = start(words, folder, variables, None)
    told = Told(emulator.stderr, is_terminal)
    try:
        is_stopped = wait(emulator, limit)
    finally:
        end(emulator)
    told.finish()
    return Outcome(b"", 0, emulator.returncode, is_stopped, True), told


def end(emulator):
    if emulator.poll() is None:
        os.killpg(emulator.pid, signal.SIGKILL)
        emulator.wait()


def run_recorded(words, folder, variables, limit, is_terminal, auditor, keep):
    """A run whose record `auditor` judges, and of which a file is kept where one is named."""
    source, output = os.pipe()
    emulator = start(words, folder, {**variables, "PCID_RECORD_FD": str(output)}, output)
    os.close(output)
    told, chain, tee = Told(emulator.stderr, is_terminal), Chain(source), None
    chain.add(parts.close_program(), stderr=subprocess.DEVNULL)
    if keep:
        tee = chain.add("tee", "--output-error=warn-nopipe", keep)  # also where certify dies
    judge = chain.add(auditor, "certify")
    try:
        is_stopped = wait(emulator, limit)
    finally:
        end(emulator)
    told.finish()
    report = chain.output()
    is_kept = tee is None or tee.returncode == 0
    return Outcome(report, judge.returncode, emulator.returncode, is_stopped, is_kept), told


def status_of(outcome, told, is_written=True):
    """The status that tells most of a run, whose report was written or not: the greatest of those
    that apply."""
    if any(told.counts.get(name, "0") != "0" for name in ("unseen stores", "refused")):
        return RECORDER_WRONG
    if not outcome.is_judged:
        return AUDITOR_DIED
    if not (outcome.is_kept and is_written):
        return NOT_WRITTEN
    if outcome.is_stopped:
        return STOPPED
    return EMULATOR_DIED if outcome.emulator != 0 else outcome.verdict


def write(report, stream):
    """Whether standard output took the report: its reader may have ended, or its disk be full."""
    try:
        stream.buffer.write(report)
        stream.flush()
        return True
    except OSError:
        # What is left of it is not to be written again when Python ends.
        os.dup2(os.open(os.devnull, os.O_WRONLY), stream.fileno())
        return False


def culprit(told, report):
    """The invalidation that was forgotten on purpose and that the rejected access shows: the last
    one before it, of its processor, of its page or of all pages. None where there is none."""
    found = REJECTED.search(report)
    if not found:
        return None
    number, cpu, linear = int(found[1]), int(found[2]), int(found[3], 16)
    for event in reversed(told.forgotten):
        whole = event[1] == "cr3" or event[1] == "invpcid" and event[3] == 1
        if event[0] < number and event[2] == cpu and (whole or event[5] >> 12 == linear >> 12):
            return event
    return None


def spelled(event):
    number, name, cpu, kind, pcid, linear = event
    what = {"invlpg": f"INVLPG {linear:#x}", "cr3": "MOV to CR3",
            "invpcid": f"INVPCID type {kind} {linear:#x}",
            "fault": f"page fault {linear:#x}"}[name]
    return f"event {number} cpu {cpu} {what}, PCID {pcid:#x}"
