# SPDX-License-Identifier: MIT OR Apache-2.0
"""Boots Debian's kernel in an emulator, and has the probe's loader run its guest on that kernel's
KVM: for a machine that has no KVM of its own."""
import os
import re
import shutil
import tempfile

from probe import image, keeping, systems

SHADOW = {"qemu": "npt=0", "bochs": "ept=0 vpid=0"}
NESTED = {"qemu": "npt=1", "bochs": "ept=1 vpid=0"}  # the control: KVM keeps no shadow tables
MOST_RUNS = 28  # the kernel hands its first process 32 words at most
BOOT = {"qemu": 1200, "bochs": 3600}  # seconds that the boot may take, with much work beside
QUIET = "panic=-1 quiet mitigations=off no_timer_check"
BOCHS_KERNEL = "nosmp acpi=off noapic tsc=reliable lpj=1000000 clocksource=tsc"


def needs(system, kernel):
    """What a boot takes beside what the emulator does."""
    more = ["gcc", *kernel.needs()]
    if system == "bochs":
        more += ["grub-mkrescue", "xorriso", "mformat", "/usr/lib/grub/i386-pc"]
    return more


def archive_entry(name, mode, data):
    """A file or folder of an initramfs, in the format newc of cpio."""
    name = name.encode() + b"\0"
    numbers = [1, mode, 0, 0, 1, 0, len(data), 0, 0, 0, 0, len(name), 0]
    head = b"070701" + b"".join(b"%08X" % number for number in numbers) + name
    return head + b"\0" * (-len(head) % 4) + data + b"\0" * (-len(data) % 4)


def initramfs(modules, parameters, replayed=b""):
    """The loader as the first process, the guest, KVM's modules and the list of them: the last one
    has the parameters."""
    files = {name + ".ko": data for name, data in modules}
    lines = "\n".join("/" + name for name in files) + f" {parameters}\n"
    files["init"], files["guest.elf"] = systems.read(systems.build_loader()), \
        image.guest_file(replayed)
    return b"".join([archive_entry("modules", 0o100644, lines.encode()),
                     *(archive_entry(name, 0o100755, data) for name, data in files.items()),
                     archive_entry("TRAILER!!!", 0, b"")])


class Run:
    """One run of the guest: its seed, its processors, whether each has a thread, its script; `plan`
    has what all runs have in common."""

    def __init__(self, plan, seed, processors, has_threads, script=0):
        self.plan, self.seed, self.processors, self.script = plan, seed, processors, script
        self.has_threads = has_threads or bool(plan.at_once)
        self.way = (f"at once, {plan.at_once}" if plan.at_once else
                    "by threads" if has_threads else "by turns")

    def settings(self):
        plan = self.plan
        ways = image.AT_ONCE if plan.at_once else 0 if self.has_threads else image.LOADER_TURNS
        return image.settings_of(self.seed, 1, plan.events, self.processors, plan.version,
                                 image.kinds_of(plan), ways, self.script,
                                 *image.MODES[plan.at_once or "free"])

    def name(self):
        """Of the record that is kept."""
        return f"{self.seed}" + (f"-script-{self.script}" if self.script else "")

    def __str__(self):
        return (f"seed: {self.seed}" + (f" script {self.script}" if self.script else "") +
                f"\nprocessors: {self.processors} {self.way}")


class Replay:
    """One record that is carried out again."""

    def __init__(self, plan, number, path):
        self.plan, self.number, self.path = plan, number, path
        header = keeping.read_kept(path)[0].header
        self.processors, self.version = len(header.starts), header.version
        self.has_threads = plan.threads

    def settings(self):
        ways = image.REPLAY | (0 if self.has_threads else image.LOADER_TURNS)
        return image.settings_of(self.number, 1, 0, self.processors, self.version,
                                 image.kinds_of(self.plan, self.version), ways)

    def name(self):
        return os.path.basename(self.path).removesuffix(".record") + "-replay"

    def __str__(self):
        return (f"replay: {self.path}\n"
                f"processors: {self.processors} by {'threads' if self.has_threads else 'turns'}")


class Judged:
    """A case of probe/casing.py, the one of this number."""
    has_threads = False

    def __init__(self, case, number):
        self.case, self.number, self.processors = case, number, case.processors

    def settings(self):
        return self.case.settings(image.LOADER_TURNS, self.number)


def boot_qemu(folder, words, limit, processors, threads="single"):
    return systems.finish(
        ["qemu-system-x86_64", "-accel", f"tcg,thread={threads}", "-cpu", "max,+svm",
         "-smp", str(processors), "-m", "3072", "-display", "none", "-nodefaults", "-no-reboot",
         "-kernel", "vmlinuz", "-initrd", "initramfs",
         "-append", f"console=ttyS0 {QUIET} -- {words}", "-serial", "file:said",
         "-debugcon", "file:output", "-device", "isa-debug-exit,iobase=0xf4"], limit, folder)


def boot_bochs(folder, words, limit, _processors, _threads):
    tree = os.path.join(folder, "tree")
    os.makedirs(os.path.join(tree, "boot", "grub"))
    for name in ("vmlinuz", "initramfs"):
        shutil.copy(os.path.join(folder, name), os.path.join(tree, "boot", name))
    with open(os.path.join(tree, "boot", "grub", "grub.cfg"), "w", encoding="utf-8") as file:
        file.write(f"set timeout=0\nmenuentry probe {{\n linux /boot/vmlinuz console=ttyS0,115200 "
                   f"{QUIET} {BOCHS_KERNEL} -- {words}\n initrd /boot/initramfs\n}}\n")
    image.command("grub-mkrescue", "-o", os.path.join(folder, "disc"), tree)
    systems.write_bochsrc(folder, processors=1, memory=1024, ips=100000000, boot="cdrom",
                          drive="type=cdrom, path=disc, status=inserted")
    with open(os.path.join(folder, "output"), "wb") as output:
        return systems.finish(["bochs", "-q", "-f", "bochsrc", "-rc", "commands"], limit, folder,
                              stdout=output)


def boot(plan, kernel, runs, replayed=b""):
    """Boots the kernel once for all runs."""
    parameters = SHADOW[plan.system] if plan.parameters is None else plan.parameters
    words = " ".join(["/guest.elf", str(plan.limit),
                      *(":".join(map(str, run.settings())) for run in runs)])
    with tempfile.TemporaryDirectory() as folder:
        with image.alone():
            kernel.prepare()
        with open(os.path.join(folder, "initramfs"), "wb") as file:
            file.write(initramfs(kernel.modules(plan.system), parameters, replayed))
        shutil.copy(kernel.image(), os.path.join(folder, "vmlinuz"))
        start = boot_qemu if plan.system == "qemu" else boot_bochs
        hung = start(folder, words, BOOT[plan.system] + plan.limit * len(runs),
                     max(run.processors if run.has_threads else 1 for run in runs) +
                     bool(plan.at_once),  # one more for the kernel itself
                     "multi" if plan.emulator_threads else "single")
        output, said = (systems.read(os.path.join(folder, name)) for name in ("output", "said"))
        system_said = b"".join(systems.read(os.path.join(folder, name))
                               for name in ("system", "log"))
    return systems.Run(output, said, system_said, hung)


def part_of(done, number):
    """How one run of a boot ended, by what the loader told behind it. One to which it did not come
    ended as the emulator did."""
    told, start = [], 0
    for end in re.finditer(rb"^loader: run \S+ (ended|hung|failed).*\n?", done.said, re.M):
        told.append(systems.Run(b"", done.said[start:end.end()], done.system_said,
                                systems.LATE if end[1] == b"hung" else ""))
        start = end.end()
    rest = systems.Run(b"", done.said[start:], done.system_said, done.hung)
    return told[number] if number < len(told) else rest
