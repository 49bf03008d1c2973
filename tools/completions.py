#!/usr/bin/env python3
"""Compares the completions that a program prints with those that its help gives, and tries them.

    tools/completions.py PROGRAM          compares and tries the completions of each shell
    tools/completions.py PROGRAM SHELL    prints those of bash, zsh or fish, as the help gives them

The commands, options and values are read from the help of PROGRAM; all else that is printed are the
fixed texts below. A shell has to find no fault in the syntax of its completions, and bash and fish
have to complete some lines as `TRIES` says. Of a shell that is not installed, the completions are
only compared. Prints what differs. The exit status is 1 if something does.
"""
import argparse
import pathlib
import re
import shutil
import subprocess
import sys
import tempfile
from typing import NamedTuple

sys.dont_write_bytecode = True
from options import arguments_in, commands_of, help_of, options_in, status_of

# the endings of the names of files that the program reads
ENDINGS = ["msc", "mmd", "mermaid", "md", "markdown"]

# Words of a command line in a folder with these files and folders, and what the last word can be.
# bash takes `=` and `>` as words of their own.
FILES = ["chart.msc", "diagram.mmd", "notes.txt", "pages/page.md"]
TRIES = [
    (["msc", "ch"], "check"),
    (["msc", "re"], "read ready report reverse"),
    (["msc", "-"], "--help --version"),
    (["msc", "help", "f"], "follow"),
    (["msc", "check", "--qu"], "--queues --quiet"),
    (["msc", "check", "-"], None),
    (["msc", "check", "--queues", "p"], "pair"),
    (["msc", "check", "--queues", "pair", "--allow", "o"], "overtaken"),
    (["msc", "check", "--most", ""], ""),
    (["msc", "check", ""], "chart.msc diagram.mmd pages"),
    (["msc", "check", "n"], ""),
    (["msc", "s"], "scan"),
    (["msc", "scan", "--no"], "--no-accept"),
    (["msc", "scan", "--queues", "own", "--queues", "a"], "all"),
    (["msc", "scan", "--skip", ""], ""),
    (["msc", "scan", "pages", ""], "chart.msc diagram.mmd pages"),
    (["msc", "ready", "--format", "l"], "lines"),
    (["msc", "draw", "--sv"], "--svg"),
    (["msc", "import", "--cross", "a"], "arrives"),
    (["msc", "scan", "--jo"], "--jobs"),
    (["msc", "scan", "--format", "c"], "count"),
    (["msc", "scan", "chart.msc", "d"], "diagram.mmd"),
    (["msc", "completions", "z"], "zsh"),
    (["msc", "completions", ""], "bash fish zsh"),
]
BASH_TRIES = [
    (["msc", "check", "--queues", "=", "s"], "single"),
    (["msc", "check", "--queues", "="], "mailbox own pair single"),
    (["msc", "draw", "chart.msc", ">", "no"], "notes.txt"),
    (["msc", "read", "--", "--"], ""),
]


class Option(NamedTuple):
    letter: str     # what follows `-`, or ""
    name: str       # what follows `--`
    value: str      # what the help shows for its value, or ""
    values: list    # the words that its value is one of, if it is one of some
    repeats: bool
    help: str


class Argument(NamedTuple):
    name: str       # as in the help
    values: list    # the words that it is one of, if it is one of some


class Command(NamedTuple):
    name: str
    about: str
    options: list
    arguments: list


HELP = Option("h", "help", "", [], False, "Print help")


def option(form, text):
    """An option, from the two parts of its row in a help."""
    letter, name, value = re.fullmatch(r"(?:-(\w), )?--([\w-]+)(?: <(.*)>)?", form).groups("")
    values = value.split("|") if value.islower() else []
    return Option(letter, name, value, values, text.endswith("may be repeated"), text)


def table(program):
    """The commands but `help`, in the order of the program's help."""
    for name in commands_of(program):
        page = help_of(program, name)
        options = [option(*row) for row in options_in(page)]
        arguments = [Argument(*it) for it in arguments_in(page)]
        yield Command(name, page[0], [it for it in options if it != HELP], arguments)


# ---- bash

BASH_HEAD = """\
# Completes the words of msc in bash, as `msc completions bash` prints it.
_msc() {
  local word=${COMP_WORDS[COMP_CWORD]} before=${COMP_WORDS[COMP_CWORD - 1]}
  local options='' values='' wants=file ending
  local commands='"""
BASH_AFTER_COMMANDS = """help'
  if [ "$word" = = ]; then
    word=
  elif [ "$before" = = ]; then
    before=${COMP_WORDS[COMP_CWORD - 2]}
  elif [[ $word == *[\\<\\>] ]]; then
    before=$word word=
  fi
  case " ${COMP_WORDS[*]:1:COMP_CWORD - 1} " in
  *' -- '*) before=-- ;;
  esac
  case $COMP_CWORD:${COMP_WORDS[1]} in
  1:*)
    options='--help --version' values=$commands wants=word
    ;;
"""
BASH_TAIL = """\
  *:help)
    values=$commands wants=word
    ;;
  esac
  if [ "$before" = -- ]; then options=; fi
  if [[ $word == -* && $wants != value ]]; then values=$options wants=word; fi
  if [[ $before == *[\\<\\>] ]]; then
    compopt -o filenames
    mapfile -t COMPREPLY < <(compgen -f -- "$word")
  elif [ "$wants" != file ]; then
    mapfile -t COMPREPLY < <(compgen -W "$values" -- "$word")
  else
    compopt -o filenames
    mapfile -t COMPREPLY < <(
      compgen -d -- "$word"
      for ending in """
BASH_END = """; do compgen -f -X "!*.$ending" -- "$word"; done
    )
  fi
}
complete -F _msc msc
"""


def bash(commands):
    yield BASH_HEAD
    for command in commands:
        yield f"{command.name} "
    yield BASH_AFTER_COMMANDS
    for command in commands:
        yield f"  *:{command.name})\n    options='"
        for it in command.options:
            yield f"{'-' + it.letter + ' ' if it.letter else ''}--{it.name} "
        yield "--help'\n"
        for it in command.arguments:
            if it.values:
                yield f"    values='{' '.join(it.values)}' wants=word\n"
        yield "    case $before in\n"
        for it in command.options:
            if it.values:
                yield f"    --{it.name}) values='{' '.join(it.values)}' wants=value ;;\n"
            elif it.value:
                yield f"    --{it.name}) wants=value ;;\n"
        yield "    esac\n    ;;\n"
    yield BASH_TAIL + " ".join(ENDINGS) + BASH_END


# ---- zsh

ZSH_HEAD = """\
#compdef msc
# Completes the words of msc in zsh, as `msc completions zsh` prints it.
_msc_file() {
  _files -g '*.("""
ZSH_AFTER_ENDINGS = """)(-.)'
}
_msc_command() {
  local -a commands=(
"""
ZSH_AFTER_COMMANDS = """\
    'help:Print this message or the help of the given subcommand(s)'
  )
  _describe -t commands command commands
}
_msc() {
  if (( CURRENT == 2 )); then
    _arguments '(-)'{-h,--help}'[Print help]' '(-)'{-V,--version}'[Print version]' ':command:_msc_command'
    return
  fi
  shift words
  (( CURRENT-- ))
  case $words[1] in
"""
ZSH_TAIL = """\
  help)
    _arguments ':command:_msc_command'
    ;;
  esac
}
if [ "$funcstack[1]" = _msc ]; then _msc "$@"; else compdef _msc msc; fi
"""


def zsh_text(text):
    """A text between apostrophes."""
    return text.replace("'", r"'\''")


def zsh_option(it):
    """The lines of an option."""
    value = ""
    if it.values:
        value = f":{it.name}:({' '.join(it.values)})"
    elif it.value:
        value = f":{it.name}: "
    text = f"[{zsh_text(it.help)}]{value}"
    sign = "=" if it.value else ""
    if it.letter:
        yield f"      '(--{it.name})-{it.letter}{text}' \\\n"
        yield f"      '(-{it.letter})--{it.name}{text}' \\\n"
    else:
        yield f"      '{'*' if it.repeats else ''}--{it.name}{sign}{text}' \\\n"


def zsh(commands):
    yield ZSH_HEAD + "|".join(ENDINGS) + ZSH_AFTER_ENDINGS
    for command in commands:
        yield f"    '{command.name}:{zsh_text(command.about)}'\n"
    yield ZSH_AFTER_COMMANDS
    for command in commands:
        yield f"  {command.name})\n    _arguments -S \\\n"
        for it in [*command.options, HELP]:
            yield from zsh_option(it)
        for it in command.arguments:
            if it.values:
                yield f"      ':{it.name}:({' '.join(it.values)})' \\\n"
            elif it.name == "FILE":
                yield f"      ':{it.name}:_msc_file' \\\n"
            elif it.name == "PATH":
                yield f"      '*:{it.name}:_msc_file' \\\n"
            else:
                yield f"      ':{it.name}: ' \\\n"
        yield "      && return\n    ;;\n"
    yield ZSH_TAIL


# ---- fish

FISH_HEAD = """\
# Completes the words of msc in fish, as `msc completions fish` prints it.
function __msc_is
    set -l words (commandline -opc)
    contains -- "$words[2]" $argv
end
function __msc_file
    complete -C "'' "(commandline -ct) | string match -r '.*(?:/|\\.(?:"""
FISH_AFTER_ENDINGS = """))(?:\\t.*)?$'
end
complete -c msc -f
complete -c msc -n '__msc_is ""' -s h -l help -d 'Print help'
complete -c msc -n '__msc_is ""' -s V -l version -d 'Print version'
"""
FISH_HELP = """\
complete -c msc -n '__msc_is ""' -a help -d 'Print this message or the help of the given subcommand(s)'
"""


def fish_text(text):
    """A text between apostrophes."""
    return text.replace("\\", "\\\\").replace("'", "\\'")


def fish_names(commands, before):
    """The commands as words that follow these."""
    for it in commands:
        yield f"complete -c msc -n '__msc_is {before}' -a {it.name} -d '{fish_text(it.about)}'\n"


def fish(commands):
    yield FISH_HEAD + "|".join(ENDINGS) + FISH_AFTER_ENDINGS
    yield from fish_names(commands, '""')
    yield FISH_HELP
    for command in commands:
        begin = f"complete -c msc -n '__msc_is {command.name}'"
        for it in [*command.options, HELP]:
            letter = f" -s {it.letter}" if it.letter else ""
            value = f" -x -a '{' '.join(it.values)}'" if it.values else " -x" if it.value else ""
            yield f"{begin}{letter} -l {it.name}{value} -d '{fish_text(it.help)}'\n"
        for it in command.arguments:
            if it.values:
                yield f"{begin} -a '{' '.join(it.values)}'\n"
            elif it.name in ("FILE", "PATH"):
                yield f"{begin} -a '(__msc_file)'\n"
    yield from fish_names(commands, "help")


SHELLS = {"bash": bash, "zsh": zsh, "fish": fish}

# ---- comparisons


def run(words, folder):
    """What a command prints on both streams, and its exit status."""
    streams = {"stdin": subprocess.DEVNULL, "stdout": subprocess.PIPE, "stderr": subprocess.STDOUT}
    ended = subprocess.run(words, cwd=folder, text=True, **streams)
    return ended.stdout, ended.returncode


# Sets the words of a command line, and prints what the last one can be. `compopt` works only while
# a line is completed.
BASH_RUN = """
compopt() { :; }
. "$1"
COMP_WORDS=("${@:2}") COMP_CWORD=$(($# - 2))
_msc
printf '%s\\n' "${COMPREPLY[@]}"
"""
FISH_RUN = "source $argv[1]; complete -C (string join -- ' ' $argv[2..]) | string split -f1 \\t"


def completed(shell, file, words, folder):
    """The words that the last one of these can be, sorted."""
    if shell == "bash":
        command = ["bash", "--norc", "-c", BASH_RUN, "bash", file, *words]
    else:
        command = ["fish", "--no-config", "-c", FISH_RUN, file, *words]
    return " ".join(sorted(it.rstrip("/") for it in run(command, folder)[0].split()))


def tries_of(shell, commands):
    """The words that are tried in a shell, with what the last one can be."""
    options = next(it.options for it in commands if it.name == "check")
    for words, wanted in TRIES:
        if wanted is None:
            wanted = " ".join(sorted(["-q", "--help", *(f"--{it.name}" for it in options)]))
        # fish completes `-` to letters, too
        if shell == "bash" or words[-1] != "-":
            yield words, wanted
    if shell == "bash":
        yield from BASH_TRIES


def findings(program, commands, shell, room):
    """For each thing that is tried what is wrong with it, or None."""
    made = "".join(SHELLS[shell](commands))
    printed, status = run([program, "completions", shell], room)
    is_same = (printed, status) == (made, 0)
    yield None if is_same else f"{shell}: the program prints other completions than its help gives"
    if not shutil.which(shell):
        print(f"{shell} is not installed, so its completions were only compared")
        return
    file = str(room / shell)
    pathlib.Path(file).write_text(made)
    said, status = run([shell, "-n", file], room)
    yield f"{shell} -n: status {status}: {said}" if said or status else None
    for words, wanted in tries_of(shell, commands) if shell != "zsh" else ():
        found = completed(shell, file, words, room / "folder")
        is_found = found == " ".join(sorted(wanted.split()))
        yield None if is_found else f"{shell}: {' '.join(words)}: {found!r}, and not {wanted!r}"


def tried(program, commands):
    """The findings of all shells."""
    with tempfile.TemporaryDirectory() as name:
        room = pathlib.Path(name)
        for file in FILES:
            (room / "folder" / file).parent.mkdir(parents=True, exist_ok=True)
            (room / "folder" / file).touch()
        for shell in SHELLS:
            yield from findings(program, commands, shell, room)


def main():
    style = argparse.RawDescriptionHelpFormatter
    words = argparse.ArgumentParser(description=__doc__, formatter_class=style)
    words.add_argument("program", metavar="PROGRAM")
    words.add_argument("shell", metavar="SHELL", nargs="?", choices=SHELLS)
    options = words.parse_args()
    program = str(pathlib.Path(options.program).resolve())
    commands = [*table(program)]
    if options.shell:
        print(end="".join(SHELLS[options.shell](commands)))
        return 0
    return status_of("completions", tried(program, commands))


if __name__ == "__main__":
    sys.exit(main())
