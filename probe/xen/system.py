# SPDX-License-Identifier: MIT OR Apache-2.0
"""Runs the guest as the first domain of Xen, in QEMU: Xen keeps shadow tables of it."""
import os
import shutil
import tempfile

from probe import image, systems

SHADOW = "dom0=pvh,shadow"
MEMORY, DOMAIN_MEMORY = 3072, 1400  # MB
WAYS = 7  # the place of the ways in the settings


def run(settings, limit, replay=b"", parameters=None):
    """Xen has port 0xE9 for itself, so the record goes to the first serial line, and Xen's own
    lines to the second."""
    before, after = settings[:WAYS - 1], settings[WAYS:]
    with tempfile.TemporaryDirectory() as folder:
        image.kernel(os.path.join(folder, "kernel"), (*before, settings[WAYS - 1] | image.SERIAL, *after), replay)
        shutil.copy(systems.XEN, os.path.join(folder, "xen"))
        hung = systems.finish(
            ["qemu-system-x86_64", "-accel", "tcg,thread=single", "-cpu", "max,+svm",
             "-machine", "q35,kernel-irqchip=off", "-device", "intel-iommu,intremap=off",
             "-smp", "1", "-m", str(MEMORY), "-display", "none", "-nodefaults", "-no-reboot",
             "-kernel", "xen", "-initrd", "kernel", "-append",
             f"console=com2 com2=115200,8n1 {parameters or SHADOW} dom0_mem={DOMAIN_MEMORY}M "
             f"dom0_max_vcpus={settings[3]} loglvl=all guest_loglvl=all noreboot",
             "-serial", "file:output", "-serial", "file:said",
             "-device", "isa-debug-exit,iobase=0xf4"], limit, folder)
        said = systems.read(os.path.join(folder, "said"))
        return systems.Run(systems.read(os.path.join(folder, "output")), b"",
                           said + systems.read(os.path.join(folder, "system")), hung)
