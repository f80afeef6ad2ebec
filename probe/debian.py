# SPDX-License-Identifier: MIT OR Apache-2.0
"""Debian's packages: of the machine's own release, or of another by lists of apt that stand in
probe/out, so that nothing of the machine's apt changes."""
import glob
import os
import re
import shutil
import subprocess

from probe import image

MIRROR = os.environ.get("PROBE_DEBIAN", "http://deb.debian.org/debian")
KEYS = "/usr/share/keyrings/debian-archive-keyring.gpg"


def run(*words, folder=None):
    """What a program writes. image.Stop with its last lines where it fails."""
    if not shutil.which(words[0]):
        raise image.Stop(f"{words[0]} is missing: this needs Debian's package manager")
    done = subprocess.run(words, cwd=folder, capture_output=True, text=True, check=False)
    if done.returncode != 0:
        raise image.Stop("\n".join([" ".join(words), *done.stderr.splitlines()[-4:]]))
    return done.stdout


class Own:
    """The machine's own release, as its apt knows it."""
    options = ()

    def shown(self, package):
        """What apt-cache tells of a package."""
        try:
            return run("apt-cache", *self.options, "show", package)
        except image.Stop:
            raise image.Stop(f"apt-cache knows no {package}: run apt-get update") from None

    def depends(self, package):
        """The packages that it asks for first, without alternatives and versions."""
        line = re.search(r"^Depends: (.*)$", self.shown(package), re.M)
        return [re.match(r"[^ :(|]+", part.strip()).group()
                for part in (line.group(1).split(",") if line else ())]

    def fetch(self, packages, folder):
        """Fetches packages, and answers their files."""
        run("apt-get", *self.options, "download", *packages, folder=folder)
        return glob.glob(os.path.join(folder, "*.deb"))


class Archive(Own):
    """A suite of Debian's main archive, such as bookworm, trixie or sid."""

    def __init__(self, suite):
        self.folder = os.path.join(image.OUT, "apt", suite)
        for name in ("lists/partial", "cache/archives/partial"):
            os.makedirs(os.path.join(self.folder, name), exist_ok=True)
        with open(os.path.join(self.folder, "sources.list"), "w", encoding="utf-8") as file:
            for kind in ("deb", "deb-src"):
                file.write(f"{kind} [signed-by={KEYS}] {MIRROR} {suite} main\n")
        with open(os.path.join(self.folder, "status"), "w", encoding="utf-8"):
            pass  # nothing is installed
        values = {"Dir::Etc::SourceList": "sources.list", "Dir::State::Lists": "lists",
                  "Dir::Cache": "cache", "Dir::State::status": "status"}
        self.options = ["-o", "Dir::Etc::SourceParts=/dev/null", "-o", "Debug::NoLocking=1"]
        for name, place in values.items():
            self.options += ["-o", f"{name}={os.path.join(self.folder, place)}"]
        run("apt-get", *self.options, "update")

    def fetch_source(self, package, folder):
        run("apt-get", *self.options, "source", "--download-only", package, folder=folder)

    def fetch_all(self, packages):
        """Fetches packages with all that they ask for, and answers their files."""
        shutil.rmtree(os.path.join(self.folder, "cache"))
        os.makedirs(os.path.join(self.folder, "cache/archives/partial"))
        run("apt-get", *self.options, "install", "--download-only", "--yes",
            "--no-install-recommends", *packages)
        return glob.glob(os.path.join(self.folder, "cache/archives/*.deb"))
