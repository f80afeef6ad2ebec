# SPDX-License-Identifier: MIT OR Apache-2.0
"""Builds an emulator from its source package in Debian, with a recorder: fetches the source by
package lists of its own, so nothing of the machine's apt changes, patches it, and keeps source and
program in parts.CACHE."""
import argparse
import glob
import hashlib
import os
import re
import shutil
import subprocess
import sys
import tempfile

from record import parts
from probe import debian, image

SUITE = "trixie"
# What each recorder is made of, beside its own files.
HEADERS = [os.path.join(parts.TOP, "emit", name)
           for name in ("pcid_record.h", "pcid_tables.h", "pcid_seen.h")]
SHARED = [*HEADERS, os.path.join(parts.HERE, "recorder.h")]
TOOLS = ("gcc", "make", "patch", "tar", "xz", "apt-get")


def digests(archive, package):
    """The files of a source package, with the SHA-256 that Debian's signed index has of each."""
    told = debian.run("apt-cache", *archive.options, "showsrc", "--only-source", package)
    lines = re.search(r"^Checksums-Sha256:\n((?: .*\n)+)", told, re.M)
    if not lines:
        raise image.Stop(f"the index of {SUITE} has no source of {package}")
    return {name: digest for digest, _, name in map(str.split, lines[1].splitlines())}


def is_whole(path, digest):
    return os.path.exists(path) and hashlib.sha256(parts.read(path)).hexdigest() == digest


def source(package):
    """The source as its authors published it. The package's other files are not needed, and a
    mirror may lack one of them."""
    def make(folder):
        archive = debian.Archive(SUITE)
        wanted = {name: digest for name, digest in digests(archive, package).items()
                  if ".orig." in name}
        try:
            archive.fetch_source(package, folder)
        except image.Stop as why:
            if not all(is_whole(os.path.join(folder, name), wanted[name]) for name in wanted):
                raise image.Stop(f"the source of {package} was not fetched: {why}") from None
        for name in os.listdir(folder):
            if name not in wanted:
                os.remove(os.path.join(folder, name))
    [found] = glob.glob(os.path.join(parts.kept(f"{package}-{SUITE}-source", make), "*"))
    return found


class Build:
    """One emulator: its package, the patch and the recorder's files in the folder of its script,
    where these go in its tree, and the words of its configure."""

    def __init__(self, script, package, patch, place, configure):
        folder = os.path.dirname(os.path.abspath(script))
        self.name = os.path.relpath(os.path.abspath(script), parts.TOP)
        self.package, self.place, self.configure = package, place, configure
        self.patch = os.path.join(folder, patch)
        self.files = [*sorted(glob.glob(os.path.join(folder, "instrument", "*"))), *SHARED]

    def unpack(self, folder):
        """The tree of the source, patched, with the recorder."""
        image.command("tar", "-xf", source(self.package), "-C", folder)
        [tree] = glob.glob(os.path.join(folder, "*"))
        image.command("patch", "-d", tree, "-p1", "-i", self.patch)
        place = os.path.join(tree, self.place)
        os.makedirs(place, exist_ok=True)
        for path in self.files:
            shutil.copy(path, place)
        return tree

    def keep(self, make):
        """The folder of the program, which `make(tree, step, folder)` builds where it is missing:
        `step` runs a command."""
        made = parts.key_of(self.patch, *self.files, words=self.configure)

        def build(folder):
            print(f"{self.name}: builds {self.package}, which takes minutes", file=sys.stderr)
            with tempfile.TemporaryDirectory(dir=parts.CACHE) as place:
                make(self.unpack(place), Steps(os.path.join(folder, "log")), folder)
        with image.alone():
            return parts.kept(f"{self.package}-{made}", build)


class Steps:
    """Runs the steps of a build, whose output goes to a file."""

    def __init__(self, log):
        self.log = log

    def __call__(self, folder, *words, **variables):
        """Runs a step in this folder, and stops with its last lines where it fails."""
        with open(self.log, "ab") as file:
            status = subprocess.run(words, cwd=folder, stdin=subprocess.DEVNULL, stdout=file,
                                    stderr=file, env={**os.environ, **variables},
                                    check=False).returncode
        if status != 0:
            raise image.Stop("\n".join([" ".join(words), *image.last_lines(parts.read(self.log))]))


def jobs(name, text):
    """How many compilers are to run at once, by the command line."""
    words = argparse.ArgumentParser(prog=name, description=text)
    words.add_argument("--jobs", type=int, default=len(os.sched_getaffinity(0)), metavar="N",
                       help="how many compilers run at once")
    return words.parse_args().jobs
