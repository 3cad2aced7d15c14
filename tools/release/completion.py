"""Completions for bash and zsh, of the parsers of the planner and of the help of tcm."""
from __future__ import annotations

import argparse
from typing import Dict, List

from tools import disk
from tools.main import every_verb, parser_of
from tools.release.manual import parts_of_help, read, verbs_of

BASH = """# Completion of tcm, tcm-cluster and tcm-disk for bash; made of their help.
_tcm_verb() {{
    case "$1 $2" in
{cases}
    *) words= ;;
    esac
}}

_tcm_words() {{
    local at=1 verb
    tool=tcm
    case ${{COMP_WORDS[0]##*/}} in tcm-cluster) tool=cluster ;; tcm-disk) tool=disk ;; esac
    while [ "$tool" = tcm ] && [ "$at" -lt "$COMP_CWORD" ]; do
        case ${{COMP_WORDS[at]}} in
        cluster | disk) tool=${{COMP_WORDS[at]}} ;;
        --wait) at=$((at + 1)) ;;
        --*) ;;
        *) break ;;
        esac
        at=$((at + 1))
    done
    verb=
    [ "$at" -ge "$COMP_CWORD" ] || verb=${{COMP_WORDS[at]}}
    _tcm_verb "$tool" "$verb"
}}

_tcm() {{
    local cur=${{COMP_WORDS[COMP_CWORD]}} words tool
    _tcm_words
    COMPREPLY=($(compgen -W "$words" -- "$cur"))
    [ "${{#COMPREPLY[@]}}" -gt 0 ] || COMPREPLY=($(compgen -f -- "$cur"))
}}

complete -o filenames -F _tcm tcm tcm-cluster tcm-disk
"""

ZSH = """#compdef tcm tcm-cluster tcm-disk
# Completion of tcm, tcm-cluster and tcm-disk for zsh; made of their help.
_tcm() {{
    local -a words_of
    local tool=tcm at=2 verb=
    case ${{words[1]:t}} in tcm-cluster) tool=cluster ;; tcm-disk) tool=disk ;; esac
    while [[ $tool == tcm && $at -lt $CURRENT ]]; do
        case ${{words[at]}} in
        cluster|disk) tool=${{words[at]}} ;;
        --wait) (( at++ )) ;;
        --*) ;;
        *) break ;;
        esac
        (( at++ ))
    done
    (( at < CURRENT )) && verb=${{words[at]}}
    case "$tool $verb" in
{cases}
    esac
    if [[ -z $verb || $PREFIX == -* ]]; then
        _describe word words_of
    else
        _files
    fi
}}

_tcm "$@"
"""


def options_of(parser: argparse.ArgumentParser) -> Dict[str, str]:
    """Returns the long options of a parser with their help."""
    return {
        name: " ".join((it.help or "").split())
        for it in parser._actions
        for name in it.option_strings
        if name.startswith("--")
    }


def words_of_tcm() -> Dict[str, str]:
    """Returns the commands and options of tcm with their help."""
    help_ = parts_of_help(read("bin", "lib", "help.txt"))
    found: Dict[str, str] = {}
    for line in help_["commands"] + help_["options"]:
        if line.startswith("  ") and not line.startswith("   "):
            found.setdefault(line.split()[0], line[28:].strip())
    return found


def words() -> Dict[str, Dict[str, str]]:
    """Returns the words that may come next, by the tool and its verb."""
    found = {"tcm ": words_of_tcm()}
    for tool, parser in (("cluster", parser_of(every_verb())), ("disk", disk.parser_of())):
        verbs = verbs_of(parser)
        found[f"{tool} "] = {
            **{name: " ".join((it.description or "").split()).rstrip(".") for name, it in verbs.items()},
            **options_of(parser),
        }
        for name, verb in verbs.items():
            found[f"{tool} {name}"] = options_of(verb)
    return found


def bash() -> str:
    """Returns the completion for bash."""
    return BASH.format(cases="\n".join(f'    "{it}") words="{" ".join(of)}" ;;' for it, of in words().items()))


def zsh() -> str:
    """Returns the completion for zsh."""
    cases: List[str] = []
    for head, of in words().items():
        quoted = " ".join("'" + f"{it}:{about}".replace("'", "'\\''") + "'" for it, about in of.items())
        cases.append(f'    "{head}") words_of=({quoted}) ;;')
    return ZSH.format(cases="\n".join(cases))
