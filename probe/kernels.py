# SPDX-License-Identifier: MIT OR Apache-2.0
"""Kernels of Debian, unpacked: where their image is, and KVM's modules as an initramfs has them."""
import glob
import lzma
import os
import re
import shutil
import subprocess
import tempfile

from probe import debian, image

FOLDER = os.path.join(image.OUT, "kernels")
MODULE = {"qemu": "kvm-amd", "bochs": "kvm-intel"}  # by the emulator whose processor it is for


def parts_of(archive, package):
    """The packages that a kernel's image comes in: one, or since Linux 7 several of one name."""
    if not re.search(r"[0-9]", package.replace("amd64", "")):  # linux-image-amd64 asks for one
        package = next((name for name in archive.depends(package)
                        if name.startswith("linux-image-")), package)
    version = package.removeprefix("linux-image")
    return [package, *(name for name in archive.depends(package)
                       if name in ("linux-binary" + version, "linux-modules" + version))]


def fetch(asked, folder):
    """The packages that were asked for: files by commas, or a package's name, with a slash and a
    suite behind it where it is not of the machine's own release."""
    if asked.endswith(".deb"):
        return [os.path.abspath(name) for name in asked.split(",")]
    package, _, suite = asked.partition("/")
    archive = debian.Archive(suite) if suite else debian.Own()
    return archive.fetch(parts_of(archive, package), folder)


class Kernel:
    """A kernel that is fetched and unpacked where it is not there yet."""

    def __init__(self, asked=None):
        self.asked = asked or "linux-image-amd64"
        self.folder = os.path.join(FOLDER, re.sub(r"[^\w.+-]", "-", asked or "own"))

    def find(self):
        return [path for form in ("boot/vmlinuz-*", "usr/lib/modules/*/vmlinuz")
                for path in glob.glob(os.path.join(self.folder, form))]

    def needs(self):
        """What fetching and unpacking it takes."""
        return () if self.find() else ("apt-get", "dpkg-deb")

    def prepare(self):
        if self.find():
            return
        with tempfile.TemporaryDirectory(dir=image.OUT) as folder:
            tree = os.path.join(folder, "tree")
            for package in fetch(self.asked, folder):
                image.command("dpkg-deb", "-x", package, tree)
            shutil.rmtree(self.folder, ignore_errors=True)
            os.makedirs(FOLDER, exist_ok=True)
            os.rename(tree, self.folder)

    def image(self):
        found = self.find()
        if not found:
            raise image.Stop(f"{self.folder} has no kernel")
        return found[0]

    def modules(self, system):
        """KVM's modules, each behind those that it needs: pairs of a name and its bytes."""
        files = glob.glob(os.path.join(self.folder, "**", "*.ko*"), recursive=True)
        paths = {os.path.basename(path).split(".ko")[0].replace("-", "_"): path for path in files}
        found = {}
        self.add(paths, MODULE[system], found)
        return list(found.items())

    def add(self, paths, name, found):
        name = name.replace("-", "_")
        if name not in paths:
            raise image.Stop(f"the kernel has no module {name}")
        data = plain(paths[name])
        needed = re.search(rb"\0depends=([^\0]*)\0", data)
        for other in filter(None, needed.group(1).decode().split(",") if needed else ()):
            if other.replace("-", "_") not in found:
                self.add(paths, other, found)
        found[name] = data


def plain(path):
    """A module's bytes, which newer kernels compress."""
    if path.endswith(".zst"):
        image.need("zstd")
        return subprocess.run(["zstd", "-dcq", path], capture_output=True, check=True).stdout
    with open(path, "rb") as file:
        data = file.read()
    return lzma.decompress(data) if path.endswith(".xz") else data
