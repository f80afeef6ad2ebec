# SPDX-License-Identifier: MIT OR Apache-2.0
"""What benches measure by: seconds, peak memory, and bars."""
import os
import subprocess
import tempfile
import time

from checks import common


def run(words, path):
    """What a program answers to this input, its processor seconds, and those on the clock."""
    with open(path, "rb") as bytes_in, tempfile.TemporaryFile() as out:
        start = time.perf_counter()
        child = subprocess.Popen(words, stdin=bytes_in, stdout=out)
        _, status, usage = os.wait4(child.pid, 0)
        spent = time.perf_counter() - start
        child.returncode = os.waitstatus_to_exitcode(status)
        out.seek(0)
        return (child.returncode, out.read()), usage.ru_utime + usage.ru_stime, spent


class Bench:
    """A program that is measured, in a folder for what that needs, and the bars that it missed."""

    def __init__(self, program, work, runs):
        self.program, self.work, self.runs, self.missed = program, work, runs, []
        self.library = common.preload(work, "checks/memory/peak.c")

    def path(self, name):
        return os.path.join(self.work, name)

    def held(self, what, value, most):
        """The value with its bar, which is noted where it is missed."""
        if value > most:
            self.missed.append(f"{what}: {value:.2f} above {most:.2f}")
        return f"{value:7.2f} /{most:6.2f}{'*' if value > most else ' '}"

    def peak(self, words, path, check=True):
        """The peak memory of a program in MB, with this input. Its status is to be 0 where that is checked."""
        told = self.path("peak")
        with open(path, "rb") as bytes_in:
            subprocess.run(words, stdin=bytes_in, stdout=subprocess.DEVNULL, check=check,
                           env=dict(os.environ, LD_PRELOAD=self.library, PEAK=told))
        with open(told, encoding="ascii") as kilobytes:
            return int(kilobytes.read()) / 1024

    def end(self):
        """Tells the bars that were missed, and gives the exit status."""
        print("\n".join([f"missed bars: {len(self.missed)}", *self.missed]))
        return 1 if self.missed else 0
