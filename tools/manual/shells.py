"""Writes the completions for bash and zsh from the help texts. Begin with `bash_of`, `zsh_of`."""

from __future__ import annotations

import re
from typing import Iterator

from helps import Command, Option

# The kind of what stands in the place of a placeholder. All other placeholders are any word.
KINDS = {"DIR": "folder", "RUN": "folder", "FILE": "file", "JOBS": "file", "CMD": "program",
         "COMMAND": "program"}
RUNNERS = ("amo_jobs", "amo_share")  # take a command of the user after --
NOTE = "# Written by tools/man from the help texts of the programs.\n"

BASH = """\
# Completions for bash of {programs}.
{note}# Source this file, or install it as share/bash-completion/completions/amo, with a link to it from
# the name of each other program.

# Prints the commands and the options of a call, by its program and command.
_amo_words() {{
    case $1 in
{words}
    esac
}}

# Prints what the value of an option is, by the program and the option: file, folder, program, word,
# or the words themselves. Prints nothing if the option takes no value.
_amo_value() {{
    case $1 in
{values}
    esac
}}

# Prints what each argument of a call is, by its program and command, in the same way.
_amo_places() {{
    case $1 in
{places}
    esac
}}

# Adds to COMPREPLY what is of these kinds and begins with a text.
_amo_offer() {{
    local kind found
    for kind in ${{1//,/ }}; do
        case $kind in
            word) found= ;;
            file) found=$(compgen -f -- "$2") ;;
            folder) found=$(compgen -d -- "$2") ;;
            program) found=$(compgen -c -- "$2"; compgen -f -- "$2") ;;
            *) found=$(compgen -W "$kind" -- "$2") ;;
        esac
        case $kind in file | folder | program) compopt -o filenames 2> /dev/null ;; esac
        [ -z "$found" ] || mapfile -t -O "${{#COMPREPLY[@]}}" COMPREPLY <<< "$found"
    done
}}

# Reads the words before the word that is completed. Sets `call` to the program with its command,
# and `option` to an option whose value is due. Sets `place` to the number of arguments, and `after`
# to the number of words from -- on.
_amo_read() {{
    local it at program=$call
    for ((at = 1; at < COMP_CWORD; at++)); do
        it=${{COMP_WORDS[at]}}
        if [ "$it" = -- ] && [[ " {runners} " = *" $program "* ]]; then
            after=$((COMP_CWORD - at))
            return
        elif [ "$it" != = ]; then # bash splits --run=DIR there
            _amo_read_word
        fi
    done
}}

# Reads one of these words.
_amo_read_word() {{
    if [ -n "$option" ]; then
        option=''
    elif [[ $it = -* ]]; then
        [ -z "$(_amo_value "$program $it")" ] || option=$it
    elif [ "$call" = "$program" ] && [ -n "$(_amo_words "$program $it")" ]; then
        call="$program $it"
    else
        place=$((place + 1))
    fi
}}

# Completes the word COMP_CWORD of COMP_WORDS.
_amo() {{
    local call=${{1##*/}} current=$2 option='' place=0 after=0
    local -a kinds
    COMPREPLY=()
    _amo_read
    if [ "$after" -gt 0 ]; then
        kinds=([1]='program')
        _amo_offer "${{kinds[after]-file}}" "$current"
    elif [ -n "$option" ]; then
        _amo_offer "$(_amo_value "${{call%% *}} $option")" "${{current#=}}"
    else
        read -r -a kinds <<< "$(_amo_places "$call")"
        [[ $current = -* ]] || _amo_offer "${{kinds[place]-}}" "$current"
        [[ $current != -* && $call = *' '* && ${{#COMPREPLY[@]}} -gt 0 ]] ||
            _amo_offer "$(_amo_words "$call")" "$current"
    fi
}}

complete -F _amo {programs}
"""

ZSH = """\
#compdef {programs}
{note}# Put the folder of this file into `fpath` before you call compinit.

# Completes the name of a program, or the path of one.
_amo_program() {{
  _alternative 'files:file:_files' 'commands:command:_command_names -e'
}}

# Sets `inner` to the commands of a program, with what each does.
_amo_commands() {{
  case $1 in
{commands}
  esac
}}

# Sets `specs` to the options and arguments of a call, as _arguments takes them.
_amo_specs() {{
  case $1 in
{specs}
  esac
}}

_amo() {{
  local program=${{service:t}} call=${{service:t}} at=${{words[(i)--]}}
  local -a inner specs
  if (( at < CURRENT )) && [[ " {runners} " == *" $program "* ]]; then
    shift $at words
    (( CURRENT -= at ))
    _normal
    return
  fi
  _amo_commands $program
  if (( CURRENT > 2 && ${{inner[(I)${{words[2]}}:*]}} )); then
    call="$program $words[2]"
    shift words
    (( CURRENT-- ))
  elif (( CURRENT == 2 )); then
    _describe -t commands command inner
  fi
  _amo_specs $call
  _arguments -S : $specs
}}

_amo "$@"
"""


def listed(text: str) -> list[str]:
    """Returns the words of a list such as `failed, doubt or open` in a text, if it ends so."""
    found = re.search(r"((?:[a-z-]+, )*[a-z-]+) or ([a-z-]+)(?: lines\b|$)", text)
    return [*found[1].split(", "), found[2]] if found else []


def kind_of(name: str, text: str) -> str:
    """Returns what stands in the place of a placeholder, by its name and by what the help says."""
    if name == "VERDICT" or name == "KIND":
        return ",".join(listed(text.partition(", for `")[0]))
    return KINDS.get(name, "word")


def call_of(command: Command) -> str:
    return f"{command.program} {command.name}".strip()


def every(programs: dict[str, list[Command]]) -> Iterator[Command]:
    for commands in programs.values():
        yield from commands


def places_of(command: Command) -> list[tuple[str, str]]:
    """Returns the name and the kind of each argument of a call, in the order of the call. In
    `amo_jobs answer` the list stands before the words, unless --run is given."""
    texts = {it.name: it.text for it in command.arguments}
    if "WORD" in texts:
        verdict = ("VERDICT", kind_of("VERDICT", texts["WORD"].rpartition("and ")[2]))
        return [("JOBS", "file"), ("WORD", "word"), ("WORD", "word"), verdict, verdict]
    order = [it for it in re.findall(r"[A-Z]+", command.usages[0] if command.usages else "")
             if it in texts] if command.program == "amo_worker" else list(texts)
    return [(it, kind_of(it, texts[it])) for it in order]


# ---- bash

def rows(cases: dict[str, list[str]]) -> str:
    """Returns the rows of a `case` in bash: what each prints, and for which words."""
    lines = []
    for printed, words in cases.items():
        lines += ["        " + " | ".join(f"'{it}'" for it in words) + ")",
                  f"            echo '{printed}' ;;"]
    return "\n".join(lines)


def words_of(command: Command, programs: dict[str, list[Command]]) -> list[str]:
    """Returns the commands and options that may stand in a call."""
    inner = [it.name for it in programs[command.program] if it.name] if not command.name else []
    return [*inner, *(name for it in command.options for name in it.names)]


def bash_of(programs: dict[str, list[Command]]) -> str:
    """Returns the completions for bash."""
    words: dict[str, list[str]] = {}
    values: dict[str, list[str]] = {}
    places: dict[str, list[str]] = {}
    for command in every(programs):
        found = ",".join(words_of(command, programs)) or "word"
        words.setdefault(found, []).append(call_of(command))
        for it in (it for it in command.options if it.value):
            names = values.setdefault(kind_of(it.value, it.text), [])
            names += [name for name in (f"{command.program} {part}" for part in it.names)
                      if name not in names]
        kinds = " ".join(kind for _, kind in places_of(command))
        if kinds:
            places.setdefault(kinds, []).append(call_of(command))
    return BASH.format(programs=" ".join(programs), note=NOTE, runners=" ".join(RUNNERS),
                       words=rows(words), values=rows(values), places=rows(places))


# ---- zsh

def quoted(text: str) -> str:
    """Returns a text as a word of the shell."""
    return "'" + text.replace("'", "'\\''") + "'"


def described(text: str) -> str:
    """Returns what the help says, without the marks that _arguments reads."""
    return re.sub(r"([\[\]\\])", r"\\\1", text.replace("`", "")).rstrip(".")


def action(name: str, kind: str) -> str:
    """Returns how _arguments completes a placeholder."""
    known = {"file": "_files", "folder": "_path_files -/", "program": "_amo_program", "word": " "}
    return f"{name}:" + known.get(kind, f"({kind.replace(',', ' ')})")


def option_specs(option: Option) -> Iterator[str]:
    """Yields an option as _arguments takes it, each of its names alone."""
    for name in option.names:
        others = f"({' '.join(option.names)})" if len(option.names) > 1 else ""
        value = f":{action(option.value, kind_of(option.value, option.text))}"
        yield quoted(f"{others}{name}{'=' * bool(option.value)}[{described(option.text)}]"
                     f"{value * bool(option.value)}")


def zsh_specs(command: Command) -> list[str]:
    """Returns the options and arguments of a call, as _arguments takes them."""
    specs = [it for option in command.options for it in option_specs(option)]
    for place, (name, kind) in enumerate(places_of(command), 1):
        specs.append(quoted(f"{place}:{action(name, kind)}"))
    return specs


def zsh_of(programs: dict[str, list[Command]]) -> str:
    """Returns the completions for zsh."""
    names, specs = [], []
    for program, found in programs.items():
        about = [quoted(f"{it.name}:{it.about.rstrip('.')}") for it in found if it.name]
        names += [f"    {program})", "      inner=(",
                  *(f"        {it}" for it in about), "      ) ;;"]
    for command in every(programs):
        specs += [f"    '{call_of(command)}')", "      specs=(",
                  *(f"        {it}" for it in zsh_specs(command)), "      ) ;;"]
    return ZSH.format(programs=" ".join(programs), note=NOTE, runners=" ".join(RUNNERS),
                      commands="\n".join(names), specs="\n".join(specs))
