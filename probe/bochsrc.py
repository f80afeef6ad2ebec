# SPDX-License-Identifier: MIT OR Apache-2.0
"""The settings of a Bochs, for the probe and for record/."""
import os

SETTINGS = """\
config_interface: textconfig
display_library: {display}
cpu: model=broadwell_ult, count={processors}, ips={ips}, reset_on_triple_fault=0
memory: guest={memory}, host={memory}
romimage: file={bios}
vgaromimage: file={vga_bios}
boot: {boot}
ata0: enabled=1, ioaddr1=0x1f0, ioaddr2=0x3f0, irq=14
ata0-master: {drive}
port_e9_hack: enabled=1
com1: enabled=1, mode=file, dev=said
clock: sync=none
log: log
panic: action=fatal
error: action=report
info: action=report
debug: action=ignore
plugin_ctrl: speaker=0
"""
UNWATCHED = 'rfb, options="timeout=0"'  # a display that waits for nobody


def write(folder, display=UNWATCHED, **values):
    """Writes the settings into the folder, where Bochs runs."""
    with open(os.path.join(folder, "bochsrc"), "w", encoding="utf-8") as file:
        file.write(SETTINGS.format(display=display, **values))
