# SPDX-License-Identifier: MIT OR Apache-2.0
"""The emulators that a run may be recorded in: what each needs, its command, and what it can do."""
import os
import subprocess

from record import parts
from probe import bochsrc, image

MEMORY = 512  # MB


def built(name):
    """The path of the emulator, which record/NAME/build builds where it is missing."""
    script = os.path.join(parts.HERE, name, "build")
    done = subprocess.run([script], stdout=subprocess.PIPE, text=True, check=False)
    if done.returncode != 0:
        raise image.Stop(f"record/{name}/build failed")
    return done.stdout.strip()


def firmware(packages, *names):
    """Files of these packages of Debian."""
    folder = parts.packages(*packages)
    found = [os.path.join(folder, "usr", "share", name) for name in names]
    for path in found:
        if not os.path.exists(path):
            raise image.Stop(f"the packages {' and '.join(packages)} have no {path}")
    return found


def prepare_bochs(chosen, folder):
    with image.alone():
        bios, vga_bios = firmware(["bochsbios", "vgabios"], "bochs/BIOS-bochs-latest",
                                  "vgabios/vgabios.bin")
    bochsrc.write(folder, display="nogui", processors=chosen.processors, memory=MEMORY,
                  ips=100000000, bios=bios, vga_bios=vga_bios, boot="cdrom",
                  drive="type=cdrom, path=disc, status=inserted")
    return ["-q", "-f", "bochsrc"]


def prepare_qemu(chosen, folder):
    with image.alone():
        [bios] = firmware(["seabios"], "seabios/bios-256k.bin")
    # One thread, so that the calls on the recorder come in the order of the effects. No five
    # levels and no keys, which no record has.
    return ["-accel", "tcg,thread=single", "-machine", "pc,smm=off,vmport=off",
            "-cpu", "max,la57=off,pku=off,pks=off,svm=off", "-smp", str(chosen.processors),
            "-m", str(MEMORY), "-bios", bios, "-L", folder, "-nodefaults",
            "-global", "apic-common.vapic=off", "-display", "none",
            "-no-reboot", "-serial", "file:said",
            "-drive", "if=ide,media=cdrom,format=raw,readonly=on,file=disc"]


class Emulator:
    """How to run it, the kinds of --break that it can make, and the options of record/run that it
    has not."""

    def __init__(self, name, prepare, bugs, lacks=()):
        self.name, self.prepare, self.bugs, self.lacks = name, prepare, bugs, lacks

    def command(self, chosen, folder):
        """Builds it where it is missing, writes what it reads beside the disc, and answers the
        words that start it."""
        return [built(self.name), *self.prepare(chosen, folder)]


EMULATORS = {each.name: each for each in (
    Emulator("bochs", prepare_bochs, ("invlpg", "invpcid", "cr3", "fault")),
    # It has no PCIDs, and invalidates nothing at a page fault.
    Emulator("qemu", prepare_qemu, ("invlpg", "cr3"), ("one_tlb", "mark_denied")))}
