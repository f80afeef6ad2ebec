# SPDX-License-Identifier: MIT OR Apache-2.0
"""Runs the guest on a system: what it wrote, what it said, and how the run ended."""
import os
import re
import signal
import subprocess
import sys
import tempfile
import time

from probe import bochsrc, image

MEMORY = 1152  # MB: the first 128 MB of two GBs
BOCHS_BIOS = "/usr/share/bochs/BIOS-bochs-latest"
BOCHS_VGA_BIOS = "/usr/share/vgabios/vgabios.bin"
XEN = os.path.join(image.OUT, "xen", "xen")  # probe/xen/build writes it


# What each needs beside what builds the guest.
NEEDS = {"qemu": ("qemu-system-x86_64", "/usr/share/seabios/bios-256k.bin"),
         "bochs": ("bochs", BOCHS_BIOS, BOCHS_VGA_BIOS), "kvm": ()}
NEEDS["xen"] = (*NEEDS["qemu"], "as", "ld")


def need(system, *more):
    """Stops where something lacks that a run takes, and names all of it."""
    image.need(*image.builders(), *NEEDS[system], *more,
               *(("gcc",) if system == "kvm" and not loader_is_built() else ()))
    if system == "kvm" and not os.access("/dev/kvm", os.R_OK | os.W_OK):
        raise image.Stop("/dev/kvm can't be opened: probe/nested has a KVM in an emulator")
    if system == "xen" and not os.path.exists(XEN):
        raise image.Stop("there is no Xen with shadow paging: run probe/xen/build")


class Run:
    """What a run wrote, what the guest or its loader and the system said, and why it was ended,
    where it did not end by itself."""

    def __init__(self, output, said, system_said, hung):
        self.output, self.said, self.system_said, self.hung = output, said, system_said, hung

    def tell(self, limit, cut):
        """What the guest said, and how the run ended where it did not end well."""
        for line in self.said.decode(errors="replace").splitlines():
            print(f"probe: {line}", file=sys.stderr)
        if self.hung:
            why = LOCKED_UP if self.hung == LOCKED_UP else f"the run did not end within {limit} s"
            print(f"probe: hang: {why}", file=sys.stderr)
        if cut:
            print(f"probe: the output is cut off: {cut}", file=sys.stderr)

    def status(self, cut):
        """The status of how the run ended, 0 where it came to its end."""
        if self.hung:
            return image.HANG
        return image.EARLY_END if cut or ENDED_EARLY.search(self.said) else 0


LATE, LOCKED_UP = "late", "what the system runs locked up, and it was ended"
# What the guest says where it stops itself, and the loader of a run that failed.
ENDED_EARLY = re.compile(rb"^(stopped: |loader: run \S+ failed)", re.M)


def use_folder(folder):
    """Takes the emulators from a folder that probe/suite has filled, by changing the root; runs
    have their files below it."""
    image.inside = os.path.abspath(folder)
    if not os.path.isdir(os.path.join(image.inside, "usr", "bin")):
        raise image.Stop(f"{folder} is no folder that probe/suite has filled")
    tempfile.tempdir = os.path.join(image.inside, "tmp")


def words_inside(words, folder):
    """What starts a program of that folder, as root or without."""
    if not image.inside:
        return words
    return ["unshare", *([] if os.geteuid() == 0 else ["--map-root-user"]),
            f"--root={image.inside}", f"--wd=/{os.path.relpath(folder, image.inside)}", *words]


def read(path):
    if not os.path.exists(path):
        return b""
    with open(path, "rb") as file:
        return file.read()


def has_locked_up(folder):
    """Whether a kernel in the system said that it no longer comes on."""
    said = read(os.path.join(folder, "said"))
    return b"soft lockup" in said or b"detected stalls" in said or b"hard LOCKUP" in said


def wait_for(process, limit, folder):
    """Why it is to be ended: that is past the limit, or what it runs locked up. Nothing where it
    ended."""
    end = time.monotonic() + limit
    while not has_locked_up(folder):
        try:
            process.wait(max(0, min(5, end - time.monotonic())))
            return ""
        except subprocess.TimeoutExpired:
            if time.monotonic() >= end:
                return LATE
    return LOCKED_UP


def finish(words, limit, folder, **more):
    """Runs a system, and ends it at the end of the limit or where it locks up. Answers why it was
    ended, nothing where it ended by itself. What it says is kept."""
    with open(os.path.join(folder, "system"), "wb") as said:
        process = subprocess.Popen(words_inside(words, folder), stdin=subprocess.DEVNULL,
                                   cwd=folder, stderr=said, start_new_session=True,
                                   **{"stdout": said, **more})
        try:
            return wait_for(process, limit, folder)
        finally:
            if process.poll() is None:
                os.killpg(process.pid, signal.SIGKILL)  # a system may be a script that starts it
                process.wait()


def qemu(settings, limit, replay=b""):
    with tempfile.TemporaryDirectory() as folder:
        image.disk(os.path.join(folder, "disk"), settings, replay)
        # One thread: processors that wait for their turn give it up.
        threads = "multi" if settings[6] & image.AT_ONCE else "single"
        hung = finish(["qemu-system-x86_64", "-accel", f"tcg,thread={threads}", "-cpu", "max",
                       "-smp", str(settings[3]), "-m", str(MEMORY), "-display", "none",
                       "-nodefaults", "-no-reboot", "-drive", "format=raw,file=disk",
                       "-debugcon", "file:output", "-serial", "file:said",
                       "-device", "isa-debug-exit,iobase=0xf4"], limit, folder)
        return Run(read(os.path.join(folder, "output")), read(os.path.join(folder, "said")),
                   read(os.path.join(folder, "system")), hung)


def write_bochsrc(folder, **values):
    bochsrc.write(folder, bios=BOCHS_BIOS, vga_bios=BOCHS_VGA_BIOS, **values)
    with open(os.path.join(folder, "commands"), "w", encoding="utf-8") as file:
        file.write("c\n")  # Debian's is built with its debugger, which waits for this


def bochs(settings, limit, replay=b""):
    with tempfile.TemporaryDirectory() as folder:
        image.disk(os.path.join(folder, "disk"), settings, replay)
        return bochs_of_disk(folder, settings[3], limit)


def bochs_of_disk(folder, processors, limit):
    """Boots the disk of a folder."""
    # Few instructions a second, as the BIOS waits for seconds of the machine's time.
    write_bochsrc(folder, processors=processors, memory=MEMORY, ips=1000000, boot="disk",
                  drive=f"type=disk, path=disk, mode=flat, cylinders={image.CYLINDERS}, "
                        f"heads={image.HEADS}, spt={image.SECTORS}")
    with open(os.path.join(folder, "output"), "wb") as output:
        hung = finish(["bochs", "-q", "-f", "bochsrc", "-rc", "commands"], limit, folder,
                      stdout=output)
    return Run(read(os.path.join(folder, "output")), read(os.path.join(folder, "said")),
               read(os.path.join(folder, "system")) + read(os.path.join(folder, "log")), hung)


LOADER, LOADER_SOURCE = (os.path.join(image.OUT, "loader"),
                         os.path.join(image.HERE, "loader.c"))


def loader_is_built():
    return image.is_newer(LOADER, [LOADER_SOURCE])


def build_loader():
    """The loader's program, linked so that it needs nothing."""
    with image.alone():
        if not loader_is_built():
            image.need("gcc")
            image.command("gcc", "-std=c99", "-Wall", "-Wextra", "-Wpedantic", "-Werror", "-O1",
                          "-static", "-pthread", "-o", LOADER, LOADER_SOURCE)
    return LOADER


def kvm(settings, limit, replay=b""):
    with tempfile.TemporaryDirectory() as folder:
        guest = os.path.join(folder, "guest.elf")
        with open(guest, "wb") as file:
            file.write(image.guest_file(replay))
        words = [build_loader(), guest, str(limit), ":".join(map(str, settings))]
        with open(os.path.join(folder, "output"), "wb") as output:
            late = finish(words, limit + 10, folder, stdout=output)
        said = read(os.path.join(folder, "system"))
        hung = late or (LATE if b" hung," in said else "")
        return Run(read(os.path.join(folder, "output")), said, said, hung)


def xen(settings, limit, replay=b"", parameters=None):
    # (which uses this module)
    from probe.xen import system  # pylint: disable=import-outside-toplevel
    return system.run(settings, limit, replay, parameters)


SYSTEMS = {"bochs": bochs, "kvm": kvm, "qemu": qemu, "xen": xen}
