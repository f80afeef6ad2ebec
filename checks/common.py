# SPDX-License-Identifier: MIT OR Apache-2.0
"""What scripts of checks/, bench/ and build/ share."""
import argparse
import ctypes
import os
import re
import shutil
import signal
import subprocess
import sys

TOP = os.path.dirname(os.path.dirname(os.path.abspath(__file__)))
BUILT = os.path.join(TOP, "crates/pcid_audit/out/pcid_audit")
# (Linux's prctl: which signal a process gets when the one that started it ends)
PR_SET_PDEATHSIG = 1
# What a crate's proof takes at most, but for the largest.
MEMORY_OF_A_PROOF = 3_000_000_000


def program():
    """The path of the program: what the environment variable PCID_AUDIT names, else the proved one. If that
    is missing or older than its sources, the script ends with a line that says so: its proof takes half an
    hour of all cores, and starts only for who asks for it."""
    named = os.environ.get("PCID_AUDIT")
    if named:
        return os.path.abspath(named)
    if not {"-h", "--help"} & set(sys.argv[1:]) and not is_proved():
        print(f"{os.path.relpath(os.path.abspath(sys.argv[0]), TOP)}: there is no proved program: name one by "
              "PCID_AUDIT, or run ./pcid-audit --prove first", file=sys.stderr)
        sys.exit(2)
    return BUILT


def is_proved():
    """Whether the proved program is there and no older than its sources, as ./pcid-audit sees it."""
    told = subprocess.run([os.path.join(TOP, "pcid-audit"), "--version"], stdout=subprocess.PIPE, check=True)
    return b"\nproved: yes" in told.stdout


def end_with_parent():
    """In a child, before its program starts: it is to end however the process that started it ends."""
    try:
        ctypes.CDLL(None).prctl(PR_SET_PDEATHSIG, signal.SIGTERM)
    except (OSError, AttributeError):
        pass


def quit_at_signals():
    """Has a signal end this script as an exit does, so that what it started is ended."""
    for number in (signal.SIGINT, signal.SIGTERM, signal.SIGHUP):
        signal.signal(number, lambda it, _: sys.exit(128 + it))


def stolen():
    """How many clock ticks other guests of the host took from the processors of this machine, all in all; 0
    where the system does not tell."""
    return number_in("/proc/stat", r"cpu +(?:\d+ +){7}(\d+)") or 0


def number_in(file, pattern):
    """The number that a file of the system tells so, None where it does not."""
    try:
        with open(file, encoding="ascii") as text:
            found = re.search(pattern, text.read())
    except OSError:
        return None
    return int(found[1]) if found else None


GROUP = "/sys/fs/cgroup/"


def lanes_of_memory():
    """How many proofs may run side by side by the memory that is free. A container may have less of
    it than the machine."""
    free = 1024 * number_in("/proc/meminfo", r"MemAvailable:\s+(\d+)")
    limit, held = number_in(GROUP + "memory.max", r"^(\d+)"), number_in(GROUP + "memory.stat", r"anon (\d+)")
    if limit and held is not None:
        free = min(free, limit - held)
    return max(1, free // MEMORY_OF_A_PROOF)


def lanes():
    """How many proofs may run side by side: one a core, as memory allows, and one at least. A
    container may have fewer cores than the machine."""
    cores = len(os.sched_getaffinity(0))
    quota, period = number_in(GROUP + "cpu.max", r"^(\d+)"), number_in(GROUP + "cpu.max", r" (\d+)")
    if quota and period:
        cores = max(1, min(cores, quota // period))
    return min(cores, lanes_of_memory())


def libraries_of(top):
    """By crate, the repository's crates that its line of crates.txt names, and those lines."""
    with open(os.path.join(top, "crates.txt"), encoding="utf-8") as file:
        rows = [line.partition("#")[0].strip() for line in file]
    lines = {row.split(":")[0].split()[0]: row for row in rows if row}
    return {name: [it for it in row.partition(":")[2].split() if it in lines] for name, row in lines.items()}, lines


def below(libraries, name):
    """The crates that this one stands on, each behind those that it stands on itself."""
    found = []
    for library in libraries[name]:
        found += [it for it in (*below(libraries, library), library) if it not in found]
    return found


def linked(source, target):
    """Gives a file a second name, or a copy where it can have none."""
    try:
        os.link(source, target)
    except OSError:
        shutil.copy2(source, target)


class Tally:
    """How many expectations held."""

    def __init__(self):
        self.counts = {True: 0, False: 0}

    def expect(self, what, got, wanted):
        self.counts[got == wanted] += 1
        if got != wanted:
            print(f"FAILED {what}\n    got    {got!r:.600}\n    wanted {wanted!r:.600}")
        return got == wanted

    def end(self):
        """Tells the counts, and gives the exit status."""
        print(f"{self.counts[True]} passed, {self.counts[False]} failed")
        return 1 if self.counts[False] else 0


def compiled(target, source, *words):
    """Compiles a source in C, which stands at this path below the top, and gives the target's path."""
    subprocess.run(["cc", "-O2", *words, "-o", target, os.path.join(TOP, source), "-ldl"], check=True)
    return target


def compiled_rust(target, source, *words):
    """Compiles a source in Rust, which stands at this path below the top, and gives the target's path."""
    subprocess.run(["rustc", "--edition", "2021", "-O", *words, "-o", target, os.path.join(TOP, source)], check=True)
    return target


def preload(folder, source):
    """Compiles a library that is to be loaded before the program's own."""
    return compiled(os.path.join(folder, "preload.so"), source, "-shared", "-fPIC")


def command_line(about):
    """The parser of a script's words. Its help is the script's first comment."""
    name = os.path.relpath(os.path.abspath(sys.argv[0]), TOP)
    return argparse.ArgumentParser(prog=name, description=about, formatter_class=argparse.RawDescriptionHelpFormatter)


def add_random(parser, count, seed=1):
    """The options of checks by random records."""
    parser.add_argument("--records", type=int, default=count, metavar="N", help=f"how many; {count} if left out")
    parser.add_argument("--seed", type=int, default=seed, metavar="N", help=f"{seed} if left out")


def add_runs(parser, runs):
    """How many runs a bench makes."""
    parser.add_argument("runs", type=int, nargs="?", default=runs, metavar="RUNS",
                        help=f"of each, in turns; the least counts; {runs} if left out")


def runs_asked(about, runs):
    """The runs that the command line of a bench asks for, which has no other words."""
    parser = command_line(about)
    add_runs(parser, runs)
    return parser.parse_args().runs
