# SPDX-License-Identifier: MIT OR Apache-2.0
"""What a run is made of, each part fetched or built where it is missing and kept in CACHE: a
kernel, the guest's files and their disc, and emit/close.c."""
import hashlib
import os
import shutil
import tempfile

HERE = os.path.dirname(os.path.abspath(__file__))
TOP = os.path.dirname(HERE)
CACHE = os.path.join(os.environ.get("XDG_CACHE_HOME") or os.path.expanduser("~/.cache"),
                     "pcid-audit")
from probe import image

image.OUT = CACHE  # of all that the probe's modules fetch
image.PACKAGES.update({"g++": "g++", "tar": "tar", "xz": "xz-utils", "tee": "coreutils",
                       "ninja": "ninja-build", "pkg-config": "pkgconf",
                       "/usr/bin/python3": "python3", "/usr/include/zlib.h": "zlib1g-dev",
                       "/usr/include/glib-2.0": "libglib2.0-dev",
                       "/usr/include/libfdt.h": "libfdt-dev"})
# (what these fetch goes there)
from probe import debian, kernels, nesting

GUEST = os.path.join(HERE, "linux")
COMPILE = ["gcc", "-std=c99", "-Wall", "-Wextra", "-Wpedantic", "-Werror", "-O1"]
# What makes the guest's files and their disc, runs, and fetches the rest.
TOOLS = ("gcc", "grub-mkrescue", "xorriso", "mformat", "/usr/lib/grub/i386-pc", "tee", "apt-get",
         "dpkg-deb")
# What holds for an emulator: its clock is not that of the machine, and it ends where the kernel
# panics.
WORDS = ("console=ttyS0,115200 panic=-1 quiet no_timer_check tsc=reliable lpj=1000000 "
         "clocksource=tsc random.trust_cpu=on")


def key_of(*paths, words=()):
    """A name for what is made of these files by these words."""
    made = hashlib.sha256(repr(list(words)).encode())
    for path in paths:
        with open(path, "rb") as file:
            made.update(file.read())
    return made.hexdigest()[:12]


def kept(name, make):
    """The path of a part: `make` has made it in the folder that it is passed, now or before."""
    path = os.path.join(CACHE, name)
    if os.path.exists(path):
        return path
    os.makedirs(CACHE, exist_ok=True)
    folder = tempfile.mkdtemp(dir=CACHE)
    try:
        make(folder)
        os.rename(folder, path)
    finally:
        shutil.rmtree(folder, ignore_errors=True)
    return path


def compiled(name, source, *words):
    """The path of a program of one source."""
    made = key_of(source, words=words)

    def make(folder):
        image.command(*COMPILE, *words, "-o", os.path.join(folder, name), source)
    return os.path.join(kept(f"{name}-{made}", make), name)


def close_program():
    """The filter that ends a record whose tail is cut, and leaves any other as it is."""
    return compiled("close", os.path.join(TOP, "emit", "close.c"))


def packages(*names):
    """The folder in which these packages of the machine's own release are unpacked."""
    def make(folder):
        archive = debian.Own()
        for name in names:
            archive.shown(name)  # which says what to do where apt knows no package
        with tempfile.TemporaryDirectory() as files:
            for file in archive.fetch(names, files):
                image.command("dpkg-deb", "-x", file, folder)
    return kept("-".join(names), make)


def read(path):
    with open(path, "rb") as file:
        return file.read()


def initramfs():
    """The guest's files, as the kernel unpacks them."""
    work = compiled("work", os.path.join(GUEST, "work.c"), "-static", "-pthread")
    busybox = os.path.join(packages("busybox-static"), "bin", "busybox")
    files = {"bin/busybox": busybox, "init": os.path.join(GUEST, "init"), "work": work}
    return b"".join([nesting.archive_entry("bin", 0o040755, b""),
                     *(nesting.archive_entry(name, 0o100755, read(path))
                       for name, path in files.items()),
                     nesting.archive_entry("TRAILER!!!", 0, b"")])


def kernel(asked):
    """The image of the kernel that was asked for: a file, or a package of Debian."""
    if asked and os.path.isfile(asked) and not asked.endswith(".deb"):
        return asked
    found = kernels.Kernel(asked)
    found.prepare()
    return found.image()


def make_disc(path, kernel_image, words):
    """Writes a disc that boots the kernel with the guest's files."""
    with tempfile.TemporaryDirectory() as tree:
        boot = os.path.join(tree, "boot")
        os.makedirs(os.path.join(boot, "grub"))
        shutil.copy(kernel_image, os.path.join(boot, "vmlinuz"))
        with open(os.path.join(boot, "initramfs"), "wb") as file:
            file.write(initramfs())
        with open(os.path.join(boot, "grub", "grub.cfg"), "w", encoding="utf-8") as file:
            file.write(f"set timeout=0\nmenuentry guest {{\n linux /boot/vmlinuz {WORDS} {words}\n"
                       " initrd /boot/initramfs\n}\n")
        image.command("grub-mkrescue", "-o", path, tree)
