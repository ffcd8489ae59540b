#!/usr/bin/env python3
"""Prints what completes the words of a program in a shell: its commands, options and files, as tools/commands.py knows
them. `./build --prefix` installs all."""
from command_line import parser, run
from commands import OPTIONS, PROGRAMS, VALUES, commands

MADE = "# Completes the words of {0} in {1}. Made by tools/completions.py."
BASH = """{made}
_{name}() {{
    local word=${{COMP_WORDS[COMP_CWORD]}} before=${{COMP_WORDS[COMP_CWORD - 1]}} words=
    if [ "$COMP_CWORD" -eq 1 ]; then
        words="{commands}"
    else
        case $before in
{values}
        *)
            case ${{COMP_WORDS[1]}}:$word in
{options}
            *) compopt -o default; return ;;
            esac
            ;;
        esac
    fi
    mapfile -t COMPREPLY < <(compgen -W "$words" -- "$word")
}}
complete -F _{name} {name}
"""
ZSH = """#compdef {name}
{made}
_{name}() {{
    local curcontext=$curcontext state line
    typeset -A opt_args
    local -a commands
    commands=(
{commands}
    )
    _arguments -C '1:command:->command' '*::word:->words'
    case $state in
    command) _describe command commands ;;
    words)
        case $words[1] in
{forms}
        esac
        ;;
    esac
}}
_{name} "$@"
"""


def patterns(found):
    """The commands that take each group of options, as a pattern of a shell has them."""
    groups = {}
    for it in found:
        if it.options():
            groups.setdefault(tuple(it.options()), []).append(it.name)
    return groups.items()


def for_bash(program):
    found = commands(program)
    taken = {it for command in found for it in command.options()}
    values = [f"        {it}) words=\"{' '.join(VALUES[it])}\" ;;" for it in sorted(taken & set(VALUES))]
    if numbers := sorted(taken - set(VALUES)):
        values.append(f"        {' | '.join(numbers)}) ;;")
    options = [
        f"            {' | '.join(f'{name}:-*' for name in names)}) words=\"{' '.join(taken)}\" ;;"
        for taken, names in patterns(found)
    ]
    return BASH.format(
        made=MADE.format(program, "bash"), name=program, commands=" ".join(it.name for it in found),
        values="\n".join(values), options="\n".join(options),
    )


def quoted(text):
    """A text in single quotes, for zsh and fish."""
    return "'" + text.replace("'", "'\\''") + "'"


def zsh_words(command):
    """What _arguments of zsh takes for the words of a command."""
    for place, (word, needed) in enumerate(command.words(), 1):
        yield quoted(f"{place}:{'' if needed else ':'}{word}:{'' if word == 'N' else '_files'}")
    for option in command.options():
        value, text = OPTIONS[option]
        yield quoted(f"{option}=[{text}]:{value}:({' '.join(VALUES.get(option, []))})")


def for_zsh(program):
    found = commands(program)
    lines = [f"        {quoted(it.name + ':' + it.line.replace(':', chr(92) + ':'))}" for it in found]
    forms = [f"        {it.name}) _arguments {' '.join(zsh_words(it))} ;;" for it in found if it.words()]
    return ZSH.format(
        made=MADE.format(program, "zsh"), name=program, commands="\n".join(lines), forms="\n".join(forms)
    )


def for_fish(program):
    found = commands(program)
    start = f"complete -c {program}"
    lines = [MADE.format(program, "fish")]
    lines += [f"{start} -n __fish_use_subcommand -f -a {it.name} -d {quoted(it.line)}" for it in found]
    for it in found:
        if not {word for word, _ in it.words()} - {"N"}:
            lines.append(f"{start} -n '__fish_seen_subcommand_from {it.name}' -f")
    for taken, names in patterns(found):
        for option in taken:
            values = f" -a {quoted(' '.join(VALUES[option]))}" if option in VALUES else ""
            seen = f"'__fish_seen_subcommand_from {' '.join(names)}'"
            lines.append(f"{start} -n {seen} -l {option[2:]} -x{values} -d {quoted(OPTIONS[option][1])}")
    return "\n".join(lines) + "\n"


SHELLS = {"bash": for_bash, "zsh": for_zsh, "fish": for_fish}


def options():
    words = parser(__doc__)
    words.add_argument("shell", choices=SHELLS, help="the shell")
    words.add_argument("program", choices=PROGRAMS, help="the program")
    return words.parse_args()


def main():
    given = options()
    print(SHELLS[given.shell](given.program), end="")
    return 0


if __name__ == "__main__":
    run(main)
