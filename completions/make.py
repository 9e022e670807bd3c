#!/usr/bin/env python3
"""Write the completions of cborn for bash, zsh and fish, from what the program says of itself.

    make.py PROGRAM FOLDER

Commands, options and their descriptions are those of `cborn -h` and `cborn COMMAND -h`; the values of an option are those
that the program names when it refuses another one. FOLDER gets `cborn.bash`, `_cborn` (zsh) and `cborn.fish`.
"""
import dataclasses
import pathlib
import re
import subprocess
import sys

FILE = "FILE"

@dataclasses.dataclass
class Option:
    """An option: its names, the name of its value or none, the values that there are, and what it says of itself. The value
    FILE is the name of a file."""

    names: list
    value: str
    values: list
    told: str


@dataclasses.dataclass
class Command:
    """A command, what it says of itself, its options, the names of its files, and whether there may be more of the last."""

    name: str
    told: str
    options: list
    files: list
    is_many: bool


def said(program, *words):
    """What the program prints, to either stream."""
    done = subprocess.run([program, *words], stdout=subprocess.PIPE, stderr=subprocess.STDOUT, text=True, check=False)
    return done.stdout


def rows(text, heading):
    """The rows of a chapter of a short help: the name at the start, and the text after it, of all its lines."""
    chapter = text.partition(f"\n{heading}:\n")[2].partition("\n\n")[0]
    for row in re.split(r"\n(?= {2,6}\S)", chapter.rstrip()):
        name, _, told = row.strip().partition("  ")
        yield name, re.sub(r" \[default: .*\]$", "", " ".join(told.split()))


def options_of(program, command, text):
    """The options of a command, or of the program itself where it is none."""
    for names, told in rows(text, "Options"):
        listed, _, value = names.partition(" <")
        listed, value = listed.split(", "), value.rstrip(">")
        # any name is one of a file
        refused = said(program, *command, listed[-1], "?") if value not in ("", FILE) else ""
        values = re.search(r"\[possible values: (.*)\]", refused)
        yield Option(listed, value, values[1].split(", ") if values else [], re.sub(r" \(see more .*\)$", "", told))


def commands_of(program):
    """The commands of the program, and the options that stand before any command."""
    text = said(program, "-h")
    found = []
    for name, told in rows(text, "Commands"):
        own = said(program, name, "-h")
        usage = re.search(r"^Usage: .*", own, re.MULTILINE)[0]
        files = re.findall(r"\bFILE\w*", usage)
        found.append(Command(name, told, list(options_of(program, [name], own)), files, usage.endswith("...")))
    return found, list(options_of(program, [], text))


def names_of(options):
    return " ".join(name for option in options for name in reversed(option.names))


def for_bash(commands, own):
    yield from (
        "# Completion of cborn for bash.",
        "_cborn() {",
        "    local word=${COMP_WORDS[COMP_CWORD]} before=${COMP_WORDS[COMP_CWORD - 1]} offered= at",
        "    COMPREPLY=()",
        "    # bash cuts --option=value into three words",
        '    if [[ $word == "=" ]]; then',
        "        word=",
        '    elif [[ $before == "=" ]]; then',
        "        before=${COMP_WORDS[COMP_CWORD - 2]}",
        "    fi",
        "    for ((at = 1; at < COMP_CWORD; at++)); do",
        "        # behind -- there are files alone",
        "        [[ ${COMP_WORDS[at]} == -- ]] && return",
        "    done",
        "    if ((COMP_CWORD == 1)); then",
        f'        offered="{" ".join(it.name for it in commands)}"',
        f'        [[ $word == -* ]] && offered="{names_of(own)}"',
        '        COMPREPLY=($(compgen -W "$offered" -- "$word"))',
        "        compopt +o default +o bashdefault",
        "        return",
        "    fi",
        "    case ${COMP_WORDS[1]}:$before in",
    )
    for command in commands:
        for option in command.options:
            if option.value == FILE:
                yield f"    {'|'.join(f'{command.name}:{name}' for name in option.names)}) return ;;"
            elif option.value:
                yield f'    {command.name}:{option.names[-1]}) offered="{" ".join(option.values)}" ;;'
    yield '    *) [[ $word == -* ]] || return; case ${COMP_WORDS[1]} in'
    for command in commands:
        yield f'        {command.name}) offered="{names_of(command.options)}" ;;'
    yield from (
        "    esac ;;",
        "    esac",
        '    COMPREPLY=($(compgen -W "$offered" -- "$word"))',
        "    compopt +o default +o bashdefault",
        "}",
        "complete -o bashdefault -o default -F _cborn cborn",
    )


def quoted(text):
    """A text as the shells read it between single quotes."""
    return "'" + text.replace("'", "'\\''") + "'"


def zsh_option(option):
    told = re.sub(r"([\[\]\\])", r"\\\1", option.told)
    if option.value == FILE:
        names = (f"{name}=" if name.startswith("--") else name for name in option.names)
        return " ".join(quoted(f"{name}[{told}]:{option.value}:_files") for name in names)
    if option.value:
        values = f"({' '.join(option.values)})" if option.values else " "
        return quoted(f"{option.names[-1]}=[{told}]:{option.value}:{values}")
    alone = "(- *)" if len(option.names) > 1 else ""
    return " ".join(quoted(f"{alone}{name}[{told}]") for name in option.names)


def for_zsh(commands, own):
    yield from (
        "#compdef cborn",
        "# Completion of cborn for zsh.",
        "",
        '_cborn() {',
        '    local curcontext="$curcontext" state line',
        "    local -a commands",
        "    _arguments -C \\",
        *(f"        {zsh_option(option)} \\" for option in own),
        "        '1: :->command' '*:: :->rest'",
        "    case $state in",
        "    command)",
        "        commands=(",
        *(f"            {quoted(f'{command.name}:{command.told}')}" for command in commands),
        "        )",
        "        _describe -t commands command commands",
        "        ;;",
        "    rest)",
        "        case $line[1] in",
    )
    for command in commands:
        yield f"        {command.name})"
        yield "            _arguments \\"
        yield from (f"                {zsh_option(option)} \\" for option in command.options)
        files = ["*"] if command.is_many else range(1, len(command.files) + 1)
        yield "                " + " ".join(quoted(f"{at}:{name}:_files") for at, name in zip(files, command.files))
        yield "            ;;"
    yield from ("        esac", "        ;;", "    esac", "}", "", '_cborn "$@"')


def fish_quoted(text):
    return "'" + text.replace("\\", "\\\\").replace("'", "\\'") + "'"


def fish_option(option, where):
    names = " ".join(f"-l {name[2:]}" if name.startswith("--") else f"-s {name[1:]}" for name in option.names)
    value = f" -x -a {fish_quoted(' '.join(option.values))}" if option.values else " -x" if option.value else ""
    value = " -r -F" if option.value == FILE else value
    return f"complete -c cborn -n {fish_quoted(where)} {names}{value} -d {fish_quoted(option.told)}"


def for_fish(commands, own):
    yield from (
        "# Completion of cborn for fish.",
        "function __cborn_is --description 'Whether the command is this one, or that there is none yet'",
        "    set -l words (commandline -opc)",
        '    test "$words[2]" = "$argv[1]"',
        "end",
        "",
        "complete -c cborn -n '__cborn_is' -f",
    )
    yield from (f"complete -c cborn -n '__cborn_is' -a {it.name} -d {fish_quoted(it.told)}" for it in commands)
    yield from (fish_option(option, "__cborn_is") for option in own)
    for command in commands:
        yield from (fish_option(option, f"__cborn_is {command.name}") for option in command.options)


WRITERS = {"cborn.bash": for_bash, "_cborn": for_zsh, "cborn.fish": for_fish}


def main():
    program, folder = str(pathlib.Path(sys.argv[1]).resolve()), pathlib.Path(sys.argv[2])
    commands, own = commands_of(program)
    if not commands or not all(it.options for it in commands):
        print("the help of the program has no commands with options", file=sys.stderr)
        return 1
    folder.mkdir(parents=True, exist_ok=True)
    for name, lines in WRITERS.items():
        text, file = "\n".join(lines(commands, own)) + "\n", folder / name
        # what is as it should be stays untouched, since others may be reading it
        if not file.exists() or file.read_text() != text:
            file.write_text(text)
    return 0


if __name__ == "__main__":
    sys.exit(main())
