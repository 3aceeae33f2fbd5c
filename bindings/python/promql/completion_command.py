"""promql-rules completion: prints what a shell completes its words by, as in `eval "$(promql-rules completion bash)"`."""

from __future__ import annotations

import argparse
from typing import Any, Callable, Dict, Iterator, List, NamedTuple

from .options import PROGRAM

# The name of the function in a shell.
_FUNCTION = "_promql_rules"


class Option(NamedTuple):
    """An option of a command: its spellings, what it does, and the name of its value, or nothing where it has none."""

    words: List[str]
    help: str
    value: str
    choices: List[str]


class Command(NamedTuple):
    """A command: its first argument is one of these words, or a file, or it has none."""

    name: str
    help: str
    options: List[Option]
    choices: List[str]
    has_files: bool


def add_parser(subparsers: Any) -> None:
    parser = subparsers.add_parser("completion", help="print what a shell completes words by", description=__doc__)
    parser.add_argument("shell", choices=tuple(SCRIPTS), help="the shell")
    parser.set_defaults(run=lambda arguments: _run(arguments.shell, subparsers))


def _run(shell: str, subparsers: Any) -> int:
    helps = {action.dest: action.help for action in subparsers._choices_actions}
    commands = [_command(name, helps[name], parser) for name, parser in subparsers.choices.items()]
    print("\n".join(SCRIPTS[shell](commands)))
    return 0


def _command(name: str, text: str, parser: argparse.ArgumentParser) -> Command:
    options, choices, has_files = [], [], False
    for action in parser._actions:
        words = [str(word) for word in action.choices or ()]
        if not action.option_strings:
            choices += words
            has_files = not words
            continue
        told = parser._get_formatter()._expand_help(action)
        value = "" if action.nargs == 0 else str(action.metavar or action.dest)
        options.append(Option(list(action.option_strings), told, value, words))
    return Command(name, text, options, choices, has_files)


def _quoted(text: str) -> str:
    """A word of a shell, of a text that does not end with a backslash: the same in all three."""
    return "'" + text.replace("'", "'\\''") + "'"


def _bash(commands: List[Command]) -> Iterator[str]:
    names = " ".join(command.name for command in commands)
    yield f"{_FUNCTION}() {{"
    yield "    local word=${COMP_WORDS[COMP_CWORD]} before=${COMP_WORDS[COMP_CWORD - 1]} words="
    yield '    case "$COMP_CWORD ${COMP_WORDS[1]} $before" in'
    yield f"    '1 '*) words={_quoted(names + ' --help --version')} ;;"
    for command in commands:
        if command.choices:
            yield f"    '2 {command.name} {command.name}') words={_quoted(' '.join(command.choices))} ;;"
        for option in command.options:
            if option.choices:
                patterns = " | ".join(f"*' {command.name} {word}'" for word in option.words)
                yield f"    {patterns}) words={_quoted(' '.join(option.choices))} ;;"
        words = " ".join(word for option in command.options for word in option.words)
        yield f"    *' {command.name} '*) case $word in -*) words={_quoted(words)} ;; esac ;;"
    yield "    esac"
    yield '    mapfile -t COMPREPLY < <(compgen -W "$words" -- "$word")'
    yield "}"
    yield f"complete -o default -F {_FUNCTION} {PROGRAM}"


def _zsh(commands: List[Command]) -> Iterator[str]:
    yield f"#compdef {PROGRAM}"
    yield f"{_FUNCTION}() {{"
    yield "  local -a commands=("
    for command in commands:
        yield f"    {_quoted(command.name + ':' + command.help)}"
    yield "  )"
    yield "  if (( CURRENT == 2 )); then _describe command commands; return; fi"
    yield "  shift words; (( CURRENT -= 1 ))"
    yield "  case $words[1] in"
    for command in commands:
        specifications = [*map(_zsh_option, command.options)]
        if command.choices:
            specifications.append(f"1:word:({' '.join(command.choices)})")
        elif command.has_files:
            specifications.append("*:file:_files")
        yield f"  {command.name}) _arguments {' '.join(map(_quoted, specifications))} ;;"
    yield "  esac"
    yield "}"
    yield f'if [ "$funcstack[1]" = {_FUNCTION} ]; then {_FUNCTION} "$@"; else compdef {_FUNCTION} {PROGRAM}; fi'


def _zsh_option(option: Option) -> str:
    """A specification of `_arguments`, for the last spelling of an option."""
    told = option.help.replace("[", "(").replace("]", ")").replace(":", ",")
    value = f":{option.value.replace(':', ',')}:({' '.join(option.choices)})" if option.value else ""
    return f"{option.words[-1]}[{told}]{value}"


def _fish(commands: List[Command]) -> Iterator[str]:
    names = " ".join(command.name for command in commands)
    first = f"complete -c {PROGRAM} -n {_quoted(f'not __fish_seen_subcommand_from {names}')} -f"
    for command in commands:
        yield f"{first} -a {command.name} -d {_quoted(command.help)}"
    for command in commands:
        later = f"complete -c {PROGRAM} -n {_quoted(f'__fish_seen_subcommand_from {command.name}')}"
        if not command.has_files:
            yield f"{later} -f -a {_quoted(' '.join(command.choices))}"
        for option in command.options:
            words = " ".join(f"-l {word[2:]}" if word.startswith("--") else f"-s {word[1:]}" for word in option.words)
            value = f" -x -a {_quoted(' '.join(option.choices))}" if option.choices else " -x" if option.value else ""
            yield f"{later} {words}{value} -d {_quoted(option.help)}"


SCRIPTS: Dict[str, Callable[[List[Command]], Iterator[str]]] = {"bash": _bash, "zsh": _zsh, "fish": _fish}
