#!/usr/bin/env python3
"""Writes the completions for bash, zsh and fish from the texts of help.

    python3 tools/completions.py [--check]

The texts are those of `crates/anscheck_rows/data/helps.toml`, which the gate compares with what the program prints. So
a flag that is new there is completed once this script has run. The words that help explains are those of
`crates/ans_options/src/words.rt`. With `--check` nothing is written, and the status is 1
if a file is not what it would be.
"""
import pathlib
import re
import sys
import tomllib
from typing import NamedTuple

TOP = pathlib.Path(__file__).resolve().parent.parent
HELPS = TOP / "crates/anscheck_rows/data/helps.toml"
FOLDER = TOP / "crates/anscheck/completions"
WORD = re.compile(r'^    \(\n        "([\w-]+)",$', re.MULTILINE)
OPTION = re.compile(r"^ +(?:-(\w), )?--([\w-]+)(?: <(\w+)>)? +(\S.*)$", re.MULTILINE)
COMMAND = re.compile(r"^  (\w+) +(\S.*)$", re.MULTILINE)
WORDS = TOP / "crates/ans_options/src/words.rt"
NUMBERED = [f"F{n}" for n in range(1, 26) if n != 18] + [f"N{n}" for n in range(1, 7)]
MADE = "It is made by tools/completions.py."

BASH = """\
# Completion for bash: source this file, or install it as
# /usr/share/bash-completion/completions/anscheck. {made}
_anscheck() {{
    local word=${{COMP_WORDS[COMP_CWORD]}} command=${{COMP_WORDS[1]}} before=${{COMP_WORDS[COMP_CWORD - 1]}}
    local commands="{commands}" flags="--help"
    COMPREPLY=()
    if [ "$COMP_CWORD" -eq 1 ]; then
        mapfile -t COMPREPLY < <(compgen -f -W "$commands help --help --version" -- "$word")
    elif [ "$command" = help ]; then
        mapfile -t COMPREPLY < <(compgen -W "$commands {topics}" -- "$word")
    elif [[ " {valued} " == *" $before "* ]]; then
        # a number, which nothing can complete
        return
    elif [ "${{word#-}}" != "$word" ]; then
        case $command in
{cases}
        esac
        mapfile -t COMPREPLY < <(compgen -W "$flags" -- "$word")
    else
        mapfile -t COMPREPLY < <(compgen -f -- "$word")
    fi
}}
complete -o filenames -F _anscheck anscheck
"""
ZSH = """\
#compdef anscheck
# Completion for zsh: put this file into a folder of $fpath. {made}
_anscheck() {{
    local -a commands
    commands=(
{commands}
    )
    if (( CURRENT == 2 )); then
        commands+=('help:Explain a command, a fault, a note or a word' '--help:Print help' '--version:Print version')
        _describe 'command' commands
        _files
        return
    fi
    case $words[2] in
        help)
            _describe 'command' commands
            compadd {topics}
            ;;
{cases}
    esac
}}
_anscheck "$@"
"""
FISH = """\
# Completion for fish: copy this file to ~/.config/fish/completions. {made}
set -l commands {commands} help
{lines}
complete -c anscheck -s h -l help -d 'Print help'
complete -c anscheck -n "not __fish_seen_subcommand_from $commands" -s V -l version -d 'Print version'
"""


class Option(NamedTuple):
    """An option: its letter and its value's name, each an empty word if there is none, its name, and what it is for."""
    letter: str
    name: str
    value: str
    what: str

    def spellings(self):
        """What may be typed for it."""
        return ([f"-{self.letter}"] if self.letter else []) + [f"--{self.name}"]

    def has_number(self):
        return self.value == "N"


def helps():
    """The text of each help, by its command; that of the program is the empty word's."""
    rows = tomllib.loads(HELPS.read_text(encoding="utf-8"))["row"]
    return {"".join(row["words"][:-1]): row["prints"] for row in rows if row["words"][-1:] == ["--help"]}


def topics():
    """What help explains besides the commands: the faults, the notes, and the words."""
    return NUMBERED + WORD.findall(WORDS.read_text(encoding="utf-8"))


def section(text, title):
    """The lines of a help below a title, up to an empty one."""
    return text.partition(f"\n{title}:\n")[2].partition("\n\n")[0]


def options(text):
    """The options of a help except its own."""
    return [option for option in map(Option._make, OPTION.findall(section(text, "Options"))) if option.name != "help"]


def quoted(text):
    """A text between single quotes, for each of the three shells."""
    return text.replace("'", r"'\''")


def bash(commands, flags):
    valued = sorted({f"--{option.name}" for named in flags.values() for option in named if option.has_number()})
    cases = [
        f'            {command}) flags="{" ".join(word for option in named for word in option.spellings())} --help" ;;'
        for command, named in flags.items() if named
    ]
    return BASH.format(
        made=MADE, commands=" ".join(commands), topics=" ".join(topics()), valued=" ".join(valued), cases="\n".join(cases))


def zsh_flags(option):
    """An option for each of its spellings. Its value is a number, which nothing completes, or the name of a file."""
    what = quoted(option.what.replace("[", r"\[").replace("]", r"\]").replace(":", r"\:"))
    value = f":{option.value}:{' ' if option.has_number() else '_files'}" if option.value else ""
    return [f"'{word}[{what}]{value}'" for word in option.spellings()]


def zsh(commands, flags):
    listed = "\n".join(f"        '{name}:{quoted(what)}'" for name, what in commands.items())
    cases = []
    for command, named in flags.items():
        words = [word for option in named for word in zsh_flags(option)]
        words += ["'--help[Print help]'", "'*:file:_files'"]
        cases.append(f"        {command})\n            _arguments " + " \\\n                ".join(words) + "\n            ;;")
    return ZSH.format(made=MADE, commands=listed, topics=" ".join(topics()), cases="\n".join(cases))


def fish(commands, flags):
    first = 'complete -c anscheck -n "not __fish_seen_subcommand_from $commands"'
    lines = [f"{first} -a {name} -d '{quoted(what)}'" for name, what in commands.items()]
    lines.append(f"{first} -a help -d 'Explain a command, a fault, a note or a word'")
    for words in (" ".join(commands), " ".join(topics())):
        lines.append(f"complete -c anscheck -n \"__fish_seen_subcommand_from help\" -f -a '{words}'")
    for command, named in flags.items():
        for option in named:
            letter = f" -s {option.letter}" if option.letter else ""
            takes = (" -x" if option.has_number() else " -r -F") if option.value else ""
            lines.append(f'complete -c anscheck -n "__fish_seen_subcommand_from {command}"{letter} -l {option.name}{takes}'
                         f" -d '{quoted(option.what)}'")
    return FISH.format(made=MADE, commands=" ".join(commands), lines="\n".join(lines))


def main(words):
    texts = helps()
    commands = dict(COMMAND.findall(section(texts[""], "Commands")))
    flags = {command: options(texts[command]) for command in commands}
    made = {"anscheck.bash": bash(commands, flags), "_anscheck": zsh(commands, flags), "anscheck.fish": fish(commands, flags)}
    others = [name for name, text in made.items() if (FOLDER / name).read_text(encoding="utf-8") != text]
    for name in others:
        if "--check" in words:
            print(f"{name} is not what tools/completions.py makes")
        else:
            (FOLDER / name).write_text(made[name], encoding="utf-8")
    return bool(others) and "--check" in words


if __name__ == "__main__":
    sys.exit(main(sys.argv[1:]))
