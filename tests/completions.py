#!/usr/bin/env python3
"""Ask the completions of each shell that is there what they offer, and hold that against the long help of the program.

    completions.py PROGRAM FOLDER

FOLDER is that of `make completions`, which reads the short help. This would see a command or an option that a shell doesn't
offer, one that the program hasn't got, and a file that a shell can't read.
"""
import pathlib
import re
import shutil
import subprocess
import sys

ORDERS, KINDS, WRITTEN = ["bytewise", "length-first"], ["wire", "notation", "notation-2"], ["wire", "notation"]
VALUES = {"--order": ORDERS, "--from": KINDS, "--from-a": KINDS, "--from-b": KINDS, "--to": WRITTEN}

# zsh's own helpers say what they are given, in the place of offering it
IN_ZSH = """
source_of=$1 place=$2 command=$3
_describe() { print -rl -- ${commands%%:*} }
_arguments() {
    local one
    if [[ $1 == -C ]]; then
        shift
        state=$place line=($command)
        [[ $place == own ]] || return
    elif [[ $place == own ]]; then
        return
    fi
    for one; do
        one=${one#'(- *)'}
        [[ $one == -* ]] && print -r -- $one
    done
}
source $source_of
"""


def said(*words):
    return subprocess.run(words, stdout=subprocess.PIPE, stderr=subprocess.DEVNULL, text=True, check=False).stdout


def options_in(text):
    """The options of a long help, those without a value and those with one."""
    found = re.findall(r"^ +(?:(-\w), )?(--[\w-]+)( <\w+>)?$", text, re.MULTILINE)
    return {name for short, long, _ in found for name in (short, long) if name}, {long for _, long, value in found if value}


def in_bash(file, words):
    script = 'source "$0"; COMP_WORDS=("$@"); COMP_CWORD=$(($# - 1)); _cborn; printf "%s\\n" "${COMPREPLY[@]}"'
    return set(said("bash", "--norc", "-c", script, str(file), *words).split())


def in_fish(file, words):
    asked = f"source {file}; complete -C '{' '.join(words)}'"
    return {line.split("\t")[0] for line in said("fish", "--no-config", "-c", asked).splitlines()}


def in_zsh(file, words):
    """What zsh itself offers for these words: options, or the values of one."""
    place = ("own" if words[-1] == "-" else "command") if len(words) == 2 else "rest"
    told = said("zsh", "-f", "-c", IN_ZSH, "zsh", str(file), place, words[1]).splitlines()
    if words[-2] in VALUES:
        (mine,) = [line for line in told if line.startswith(f"{words[-2]}=[")]
        return set(re.search(r":\((.*)\)$", mine)[1].split())
    return {re.split(r"[=\[]", line)[0] for line in told}


# bash cuts a word at "=", and takes its parts for words
CUT = {"bash": [(["cborn", "show", "--from", "=", "no"], {"notation", "notation-2"}), (["cborn", "show", "--", "-"], set())], "zsh": [], "fish": []}
# after an option with the name of a file no options are offered, and files by the shell itself
for shell in ("bash", "fish"):
    CUT[shell] += [(["cborn", "normalise", option, "-"], set()) for option in ("-o", "--output")]
SHELLS = {"bash": ("cborn.bash", in_bash), "zsh": ("_cborn", in_zsh), "fish": ("cborn.fish", in_fish)}


def cases(program):
    """Words of a command line, the last one to be completed, with what is to be offered."""
    text = said(program, "--help")
    commands = set(re.findall(r"^  (\w+)  ", text.partition("\nCommands:\n")[2].partition("\n\n")[0], re.MULTILINE))
    yield ["cborn", ""], commands
    yield ["cborn", "-"], options_in(text)[0]
    for command in sorted(commands):
        options, valued = options_in(said(program, command, "--help"))
        yield ["cborn", command, "-"], options
        yield from ((["cborn", command, option, ""], set(VALUES[option])) for option in sorted(valued & set(VALUES)))


def main():
    program, folder = str(pathlib.Path(sys.argv[1]).resolve()), pathlib.Path(sys.argv[2])
    wanted = list(cases(program))
    passed = failed = 0
    for shell, (name, offers) in SHELLS.items():
        if shutil.which(shell) is None:
            print(f"{shell}: not tried, since it isn't there")
            continue
        if subprocess.run([shell, "-n", str(folder / name)], check=False).returncode:
            failed += 1
            print(f"{shell} can't read {name}")
        for words, offered in wanted + CUT[shell]:
            got = offers(folder / name, words)
            passed, failed = passed + (got == offered), failed + (got != offered)
            if got != offered:
                print(f"{shell}: {words}: {sorted(got)}, not {sorted(offered)}")
    print(f"{passed} completions passed, {failed} failed")
    return 1 if failed or not passed else 0


if __name__ == "__main__":
    sys.exit(main())
