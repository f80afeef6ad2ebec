# SPDX-License-Identifier: MIT OR Apache-2.0
"""The program's own table of commands and options, read from its help texts."""
import re
import subprocess

# A line of a list: a name, two spaces at least, and what it says.
COMMAND = re.compile(r"  ([a-z][a-z-]*)  +(\S.*)")
OPTION = re.compile(r"  (?:(-\w), |    )--([a-z][a-z-]*)(?: <([^>]+)>)?(?:\.\.\.)?  +(\S.*)")


# The other name of an option, at the end of what it does.
ALIAS = re.compile(r" \[alias: --([a-z][a-z-]*)\]$")


class Option:
    """An option: its letter, or None; its name, and another one, or None; what its value is called, or None; what
    it does."""

    def __init__(self, letter, name, value, about):
        self.letter, self.name, self.value = letter, name, value
        alias = ALIAS.search(about)
        self.alias, self.about = alias and alias[1], ALIAS.sub("", about)

    def names(self):
        return [self.name] + ([self.alias] if self.alias else [])

    def spellings(self):
        return [f"--{name}" for name in self.names()] + ([self.letter] if self.letter else [])


class Help:
    """A help text: its first line, its commands with what each does, its options, whether it takes files."""

    def __init__(self, text):
        lines = text.split("\n")
        self.about, self.commands, self.options = lines[0], [], []
        self.takes_file, heading = "Arguments:" in lines, ""
        for line in lines[1:]:
            if re.fullmatch(r"[A-Z]\w*:", line):
                heading = line
            elif heading == "Commands:" and COMMAND.fullmatch(line):
                self.commands.append(COMMAND.fullmatch(line).groups())
            elif heading == "Options:" and OPTION.fullmatch(line):
                self.options.append(Option(*OPTION.fullmatch(line).groups()))
            elif line and heading in ("Commands:", "Options:"):
                raise ValueError(f"a line of help that is neither a command nor an option: {line}")


def told(program, *words):
    """What the program writes for these arguments."""
    return subprocess.run([program, *words], stdin=subprocess.DEVNULL, stdout=subprocess.PIPE, check=True, timeout=60,
                          text=True).stdout


def of_program(program):
    """The help of the program, and by name that of each command but `help`."""
    whole = Help(told(program, "--help"))
    return whole, {name: Help(told(program, name, "--help")) for name, _ in whole.commands if name != "help"}
