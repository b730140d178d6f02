#!/usr/bin/env python3
"""Writes the completions of `ftd` for a shell to standard output, of what its help says: commands, options, values that are fixed, and files.

    package/completions.py PROGRAM bash|zsh|fish
"""

import os
import sys

from help_texts import Help

# What is said of `help`, which the program's help names without words of its own.
HELP = "Print the help of a command"
MADE = "# Made of what the help of ftd says, by package/completions.py."

BASH = """{made}
_ftd() {{
    local word=${{COMP_WORDS[COMP_CWORD]}} before=${{COMP_WORDS[COMP_CWORD - 1]}} command= place=0 number it options= words= files=
    COMPREPLY=()
    # bash takes --db=FILE for three words
    [ "$word" = = ] && word=
    [ "$before" = = ] && before=${{COMP_WORDS[COMP_CWORD - 2]}}
    for ((number = 1; number < COMP_CWORD; number++)); do
        it=${{COMP_WORDS[number]}}
        case $it in
            {valued})
                number=$((number + 1))
                [ "${{COMP_WORDS[number]}}" = = ] && number=$((number + 1))
                ;;
            -*) ;;
            *) if [ -z "$command" ]; then command=$it; else place=$((place + 1)); fi ;;
        esac
    done
    case $command in
        '') options='{top}' words='{names} help' ;;
        help) words='{names}' ;;
{options}
    esac
    case "$command $before" in
{values}
        *) case "$command $place" in
{places}
        esac ;;
    esac
    if [[ $word == -* ]] || [ -z "$words$files" ]; then words=$options files=; fi
    if [ -n "$files" ]; then
        compopt -o filenames 2> /dev/null
        mapfile -t COMPREPLY < <(compgen -f -- "$word")
    else
        mapfile -t COMPREPLY < <(compgen -W "$words" -- "$word")
    fi
}}
complete -F _ftd ftd
"""

ZSH = """#compdef ftd
{made}
_ftd() {{
    local -a commands=(
{names}
    )
    if (( CURRENT == 2 )); then
        commands+=({help})
        if [[ $PREFIX == -* ]]; then _arguments {top}; else _describe -t commands command commands; fi
        return
    fi
    local command=$words[2]
    shift words
    (( CURRENT-- ))
    case $command in
        help) (( CURRENT == 2 )) && _describe -t commands command commands ;;
{commands}
    esac
}}
if [ "$funcstack[1]" = _ftd ]; then _ftd "$@"; else compdef _ftd ftd; fi
"""

FISH = """{made}
# The command of the line, and how many words stand behind it that are no options and no values of options.
function __ftd_words
    set -l skips no
    for word in (commandline -opc)[2..]
        if test $skips = yes
            set skips no
        else if contains -- $word {valued}
            set skips yes
        else if not string match -q -- '-*' $word
            echo -- $word
        end
    end
end
function __ftd_is
    set -l words (__ftd_words)
    test "$words[1]" = "$argv[1]"
end
function __ftd_at
    set -l words (__ftd_words)
    test "$words[1]" = $argv[1]; and test (count $words) = $argv[2]
end
complete -c ftd -f
{lines}
"""


def quoted(text):
    """A text as a word of a shell."""
    return "'" + text.replace("'", "'\\''") + "'"


def typed(option):
    """The forms in which an option is typed."""
    return ([option.short] if option.short else []) + [option.name]


def options_of(said):
    """Each option with the command that it is of."""
    return [(command, option) for command in said.commands for option in command.options]


def valued(said):
    """The options that take a value, each once. One that takes none with another command would be read in a wrong way."""
    with_value = {option.name for _, option in options_of(said) if option.value}
    flags = {option.name for _, option in options_of(said) if not option.value}
    if with_value & flags:
        sys.exit(f"an option takes a value with one command and none with another: {with_value & flags}")
    return sorted(with_value)


# ---- bash


def bash_values(said):
    """What is offered behind an option with a value: files, its fixed values, or nothing. It is said once where it is the same for each command."""
    offered, cases = {}, {}
    for command, option in options_of(said):
        if option.value:
            its = "files=yes options=" if option.is_file() else f"words={quoted(' '.join(option.values()))} options=" if option.values() else "return"
            offered.setdefault(option.name, {}).setdefault(its, []).append(f"'{command.name} {option.name}'")
    for name, ways in offered.items():
        for its, patterns in ways.items():
            cases.setdefault(its, []).extend([f"*' {name}'"] if len(ways) == 1 else patterns)
    return [f"        {' | '.join(patterns)}) {its} ;;" for its, patterns in cases.items()]


def bash_places(said):
    """What is offered in the place of a word."""
    for command in said.commands:
        for place, word in enumerate(command.words):
            if word.is_file():
                yield f"            '{command.name} {place}') files=yes ;;"
            elif word.values():
                yield f"            '{command.name} {place}') words={quoted(' '.join(word.values()))} ;;"


def bash(said):
    flat = lambda options: " ".join(form for it in options for form in typed(it))
    return BASH.format(
        made=MADE,
        valued=" | ".join(valued(said)),
        top=flat(said.options),
        names=" ".join(it.name for it in said.commands),
        options="\n".join(f"        {it.name}) options='{flat(it.options)}' ;;" for it in said.commands),
        values="\n".join(bash_values(said)),
        places="\n".join(bash_places(said)),
    )


# ---- zsh


def explained(text):
    """What is said of a word, within brackets."""
    return "".join(f"\\{it}" if it in "[]:\\" else it for it in text)


def zsh_action(word):
    return "_files" if word.is_file() else f"({' '.join(word.values())})" if word.values() else " "


def zsh_option(option):
    """An option as `_arguments` reads it."""
    said = quoted(f"[{explained(option.said)}]")
    if option.value:
        return quoted(f"{option.name}=[{explained(option.said)}]:{option.value}:{zsh_action(option)}")
    return f"'({' '.join(typed(option))})'{{{','.join(typed(option))}}}{said}" if option.short else quoted(f"{option.name}[{explained(option.said)}]")


def zsh_word(place, word):
    return quoted(f"{'*' if word.is_many else place}:{word.name}:{zsh_action(word)}")


def zsh_command(command):
    its = [*map(zsh_option, command.options), *(zsh_word(place, word) for place, word in enumerate(command.words, 1))]
    return f"        {command.name}) _arguments \\\n" + " \\\n".join(f"            {it}" for it in its) + " ;;"


def zsh(said):
    described = lambda name, about: quoted(f"{name}:{explained(about)}")
    return ZSH.format(
        made=MADE,
        help=described("help", HELP),
        names="\n".join(f"        {described(it.name, it.about)}" for it in said.commands),
        top=" ".join(map(zsh_option, said.options)),
        commands="\n".join(map(zsh_command, said.commands)),
    )


# ---- fish


def fish_option(condition, option):
    short = f" -s {option.short.lstrip('-')}" if option.short else ""
    value = " -r -F" if option.is_file() else f" -x -a {quoted(' '.join(option.values()))}" if option.values() else " -x" if option.value else ""
    return f"complete -c ftd -n {quoted(condition)}{short} -l {option.name.lstrip('-')}{value} -d {fish_quoted(option.said)}"


def fish_quoted(text):
    """A text as a word of fish, in which a backslash stands before a quote."""
    return "'" + text.replace("\\", "\\\\").replace("'", "\\'") + "'"


def fish_lines(said):
    """A line for each command, option, and word that has fixed values or is a file."""
    for command in said.commands:
        yield f"complete -c ftd -n '__ftd_is \"\"' -a {command.name} -d {fish_quoted(command.about)}"
    yield f"complete -c ftd -n '__ftd_is \"\"' -a help -d {fish_quoted(HELP)}"
    yield f"complete -c ftd -n '__ftd_at help 1' -a {quoted(' '.join(it.name for it in said.commands))}"
    yield from (fish_option('__ftd_is ""', it) for it in said.options)
    for command in said.commands:
        yield from (fish_option(f"__ftd_is {command.name}", it) for it in command.options)
        for place, word in enumerate(command.words, 1):
            offered = "-F" if word.is_file() else f"-a {quoted(' '.join(word.values()))}" if word.values() else None
            if offered:
                yield f"complete -c ftd -n '__ftd_at {command.name} {place}' {offered} -d {fish_quoted(word.said)}"


def fish(said):
    return FISH.format(made=MADE, valued=" ".join(valued(said)), lines="\n".join(fish_lines(said)))


SHELLS = {"bash": bash, "zsh": zsh, "fish": fish}


def main():
    if len(sys.argv) != 3 or sys.argv[2] not in SHELLS:
        sys.exit(__doc__.split("\n\n")[1])
    print(SHELLS[sys.argv[2]](Help(os.path.abspath(sys.argv[1]))), end="")


if __name__ == "__main__":
    main()
