# SPDX-License-Identifier: MIT OR Apache-2.0
"""Completions for bash and zsh, made from the program's own table of options."""

# How help calls a value that is the name of a file.
FILE = "FILE"

BASH = """# Completion of pcid-audit for bash, made by build/package from the program's help texts.
_pcid_audit() {{
    local current=${{COMP_WORDS[COMP_CWORD]}} options=
    COMPREPLY=()
    if [ "$COMP_CWORD" -eq 1 ]; then
        COMPREPLY=($(compgen -W "{first}" -- "$current"))
        return
    fi
    case ${{COMP_WORDS[COMP_CWORD - 1]}} in
{values}    esac
    case ${{COMP_WORDS[1]}} in
{commands}    esac
    case $current in
    -*) COMPREPLY=($(compgen -W "$options" -- "$current")) ;;
    *) [ "${{COMP_WORDS[1]}}" = help ] || COMPREPLY=($(compgen -f -- "$current")) ;;
    esac
}}
complete -o filenames -F _pcid_audit pcid-audit
"""

ZSH = """#compdef pcid-audit
# Completion of pcid-audit for zsh, made by build/package from the program's help texts.
local -a subcommands
subcommands=(
{commands})
if ((CURRENT == 2)); then
    _describe command subcommands
    _arguments {options}
    return
fi
local subcommand=$words[2]
shift words
((CURRENT--))
case $subcommand in
{cases}esac
"""


def bash(whole, commands):
    """The completion file for bash."""
    first = " ".join([name for name, _ in whole.commands] + [it for o in whole.options for it in o.spellings()])
    files = sorted({f"--{o.name}" for it in commands.values() for o in it.options if o.value == FILE})
    valued = sorted({f"--{o.name}" for it in commands.values() for o in it.options if o.value not in (None, FILE)})
    values = f"    {' | '.join(valued)}) return ;;\n" if valued else ""
    if files:
        values += f"    {' | '.join(files)}) COMPREPLY=($(compgen -f -- \"$current\")); return ;;\n"
    rows = []
    for name, it in commands.items():
        rows.append(f"    {name}) options='{' '.join(w for o in it.options for w in o.spellings())}' ;;\n")
    names = " ".join(commands)
    rows.append(f"    help) COMPREPLY=($(compgen -W '{names}' -- \"$current\")) ;;\n")
    return BASH.format(first=first, values=values, commands="".join(rows))


def quoted(text):
    return "'" + text.replace("'", "'\\''") + "'"


def escaped(text):
    """A text within the brackets of a zsh specification, or before its colon."""
    return "".join("\\" + it if it in "\\[]:" else it for it in text)


def specification(option):
    """What zsh's _arguments takes for an option."""
    about = f"[{escaped(option.about)}]"
    if option.value:
        return quoted(f"--{option.name}={about}:{escaped(option.value)}:{'_files' if option.value == FILE else ''}")
    if option.letter:
        return f"'({option.letter} --{option.name})'{{{option.letter},--{option.name}}}{quoted(about)}"
    return quoted(f"--{option.name}{about}")


def zsh(whole, commands):
    """The completion file for zsh."""
    listed = "".join(f"    {quoted(f'{name}:{escaped(about)}')}\n" for name, about in whole.commands)
    cases = []
    for name, it in commands.items():
        words = [specification(o) for o in it.options] + (["'*:file:_files'"] if it.takes_file else [])
        cases.append(f"{name}) _arguments {' '.join(words)} ;;\n")
    cases.append("help) _describe command subcommands ;;\n")
    return ZSH.format(commands=listed, options=" ".join(specification(o) for o in whole.options), cases="".join(cases))
