"""What a shell completes for each command: its options, the commands of xousim, and else files. Made of --help."""

from __future__ import annotations

import pathlib
import re
from collections.abc import Iterator

from . import manual

BASH = """\
# Completion of bash for the commands of xousim, made of their --help.
_xousim() {{
    local word=${{COMP_WORDS[COMP_CWORD]}} words=
    case ${{COMP_WORDS[0]##*/}} in
{cases}
    esac
    # A word that is none of these is a file, which bash completes itself.
    case $word,$COMP_CWORD,${{COMP_WORDS[0]##*/}} in
    -*) ;;
    *,1,xousim) ;;
    *) words= ;;
    esac
    mapfile -t COMPREPLY < <(compgen -W "$words" -- "$word")
}}
complete -o bashdefault -o default -F _xousim {commands}
"""
ZSH = """\
#compdef {commands}
# Completion of zsh for the commands of xousim, made of their --help.
local -a words
case $service in
{cases}
esac
if [[ $PREFIX == -* || ( $service == xousim && $CURRENT == 2 ) ]]; then
    _describe word words
else
    _files
fi
"""


def words_of(said: manual.Help) -> Iterator[tuple[str, str]]:
    """The options, or commands of the program, that a help lists, each with its text."""
    pairs = [pair for kinds in said.sections.values() for kind, pairs in kinds if kind == "list" for pair in pairs]
    for term, text in pairs:
        option = re.search(r"--[\w-]+", term)
        if option and term.startswith("-"):
            yield option[0], text
        elif said.name == "xousim" and re.match(r"[a-z]+(?= [A-Z])", term):
            yield term.split()[0], text


def known(root: pathlib.Path, commands: list[str]) -> Iterator[tuple[str, dict[str, str]]]:
    for name in commands:
        said = manual.Help(name, manual.help_of(root, name))
        pairs = dict(words_of(said))
        pairs.setdefault("--help", "print what the command does, and end")
        pairs.setdefault("--version", "print the version, and end")
        yield name, pairs


def quoted(text: str) -> str:
    """A word of zsh's _describe, between quotes."""
    return "'" + text.replace("'", "'\\''") + "'"


def scripts(root: pathlib.Path, commands: list[str]) -> tuple[str, str]:
    """The script for bash and that for zsh."""
    found = dict(known(root, commands))
    bash = "\n".join(f'    {name}) words="{" ".join(pairs)}" ;;' for name, pairs in found.items())
    described = {name: " ".join(quoted(f"{word}:{text}") for word, text in pairs.items()) for name, pairs in found.items()}
    zsh = "\n".join(f"{name}) words=({words}) ;;" for name, words in described.items())
    names = " ".join(commands)
    return BASH.format(cases=bash, commands=names), ZSH.format(cases=zsh, commands=names)
