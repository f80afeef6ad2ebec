# SPDX-License-Identifier: MIT OR Apache-2.0
"""The program without proofs, out/unproved/pcid_audit. ./pcid-audit runs it until the proved program is there.

It is unoptimised, so that it is built soon, and an overflow or an index out of bounds ends it.
"""
import fcntl
import os
import shutil
import subprocess
import tempfile
import time

from build import compiling
from checks import common

TOP = common.TOP
# (not in the crate's own out/, which `rt ci` sets aside)
FOLDER = os.path.join(TOP, "out/unproved")
PROGRAM = os.path.join(FOLDER, "pcid_audit")
NEW = PROGRAM + ".new"
# What the program answers for before it is kept.
SAMPLE = os.path.join(TOP, "samples/fresh_walk.record")
REPORT = os.path.join(TOP, "samples/fresh_walk.report")


class NotBuilt(Exception):
    """Says why there is no program."""


def sources():
    """The files that the program is made from."""
    yield os.path.join(TOP, "crates.txt")
    for at, folders, files in os.walk(os.path.join(TOP, "crates")):
        folders[:] = [it for it in folders if it != "out"]
        yield from (os.path.join(at, it) for it in files if it.endswith(".rt"))


def is_current():
    """Whether the program is there and no older than its sources."""
    try:
        built = os.stat(PROGRAM).st_mtime_ns
    except OSError:
        return False
    return all(os.stat(it).st_mtime_ns <= built for it in sources())


def answers():
    """Whether the new program gives the answer of a sample."""
    ran = subprocess.run([NEW, "check", SAMPLE], stdin=subprocess.DEVNULL, capture_output=True, check=False)
    with open(REPORT, "rb") as report:
        return ran.returncode == 0 and ran.stdout == report.read()


def build():
    """Builds the program, and puts it in its place."""
    if not shutil.which("rt"):
        raise NotBuilt('rt is missing: the toolchain that builds it (README.md, "Without the toolchain")')
    started = time.time()
    with tempfile.TemporaryDirectory(prefix="pcid-audit-") as room:
        try:
            compiling.compile_to(NEW, 0, os.path.realpath(room))
        except compiling.NotCompiled as error:
            raise NotBuilt(error) from error
    if not answers():
        raise NotBuilt(f"the program gives another answer for {SAMPLE} than {REPORT}")
    # Whoever edits a source while this runs gets a new build.
    os.utime(NEW, (started, started))
    os.rename(NEW, PROGRAM)


def build_once():
    """Builds the program, unless another call has built it meanwhile."""
    common.quit_at_signals()
    os.makedirs(FOLDER, exist_ok=True)
    with open(os.path.join(FOLDER, "lock"), "w", encoding="ascii") as lock:
        fcntl.flock(lock, fcntl.LOCK_EX)
        if not is_current():
            build()
