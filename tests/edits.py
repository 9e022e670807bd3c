#!/usr/bin/env python3
"""Fails where a must-fail edit can't be made, or none shows what a public function promises.

An edit is a file crates/CRATE/must-fail/NAME.edit: a line 'file: ' with a file of the crate, then pairs of lines 'old: ' and
'new: '. Each old text stands once in that file, as the pairs before have left it. `rt ci` tries each edit, and the prover has
to refuse it; one that can't be made it passes over.

An edit shows a function that it turns, and each that calls one which it shows. Each public function of a library has one, but
for those that have no clause, the laws, and the methods of a trait, which stand at the types that have them. Calls are found
by name, within the crate: of a method by that of its type, or after a dot in a file that names the type.
"""
import re
import sys

from promises import CRATES, FUNCTION, OWNER, ROOT, public

CALL = re.compile(r"(?:(\w+)(?:::<[^()]*?>)?::)?(\.)?\b(\w+)(?:::<[^()]*?>)?\(")
TRAIT = re.compile(r"^pub trait (\w+)", re.M)


def turned(edit):
    """The lines that an edit changes, each as a file of the crate and a number from 0."""
    path, old, texts = None, None, {}
    for line in edit.read_text(encoding="utf-8").splitlines():
        word, _, rest = line.partition(":")
        rest = rest.removeprefix(" ")
        if word == "file":
            path = edit.parents[1] / rest
            texts.setdefault(path, path.read_text(encoding="utf-8"))
        elif word == "old":
            old = rest
        elif word == "new" and old and path:
            if texts[path].count(old) != 1:
                raise ValueError(f"stands {texts[path].count(old)} times in {path.name}, and not once: {old}")
            texts[path], old = texts[path].replace(old, rest), None
        else:
            raise ValueError(f"is no line of an edit: {line}")
    # an old and a new text are one line each, so that all lines keep their numbers
    pairs = {it: zip(it.read_text(encoding="utf-8").splitlines(), text.splitlines()) for it, text in texts.items()}
    lines = {(it, number) for it, both in pairs.items() for number, (was, now) in enumerate(both) if was != now}
    if not lines:
        raise ValueError("changes nothing")
    return lines


def functions(file):
    """Yields the functions of a file: the type that each belongs to, its name, and the numbers of its lines."""
    owner, lines = "", file.read_text(encoding="utf-8").splitlines()
    for number, line in enumerate(lines):
        if found := OWNER.match(line):
            owner = found[3]
        elif line == "}":
            owner = ""
        elif found := FUNCTION.match(line):
            end = next((at for at in range(number, len(lines)) if lines[at] == f"{found[1]}}}"), number)
            yield owner, found[3], range(number, end + 1)


def calls(caller, text, all_of):
    """The functions that one of them calls. The text is that of its file."""
    own, _, lines = caller
    named = {it[1] for it in all_of if it[1] and it[1] in text}
    found = set()
    for of, dot, name in CALL.findall("\n".join(text.splitlines()[lines.start : lines.stop])):
        if of[:1].isupper():
            owners = {own if of == "Self" else of}
        else:
            owners = named if dot else {""}
        found |= {it for it in all_of if it[2] == name and it[1] in owners}
    return found


def unshown(crate, edits):
    """The public functions of a crate that none of its edits shows. The edits are the lines that each turns."""
    source = ROOT / "crates" / crate / "src"
    files = {it: (it.read_text(encoding="utf-8"), list(functions(it))) for it in sorted(source.glob("*.rt"))}
    all_of = {(file, owner, name) for file, (_, listed) in files.items() for owner, name, _ in listed}
    uses, shown = {}, set()
    for file, (text, listed) in files.items():
        for one in listed:
            uses.setdefault((file, *one[:2]), set()).update(calls(one, text, all_of))
        for at in {number for lines in edits for it, number in lines if it == file}:
            shown |= {(file, *it[:2]) for it in listed if at in it[2]}
    while more := {it for it, used in uses.items() if used & shown} - shown:
        shown |= more
    traits = {it for text, _ in files.values() for it in TRAIT.findall(text)}
    for module, name, _, clauses in public(crate):
        owner, _, short = name.rpartition("::")
        if clauses and module != "laws" and owner not in traits and (source / f"{module}.rt", owner, short) not in shown:
            yield name


def main():
    count, wrong = 0, []
    for crate in CRATES:
        edits = []
        for edit in sorted(ROOT.glob(f"crates/{crate}/must-fail/*")):
            count += 1
            try:
                edits.append(turned(edit))
            except (ValueError, OSError, AttributeError) as why:
                wrong.append(f"{edit.relative_to(ROOT)}: {why}")
        wrong += [f"crates/{crate}: no must-fail edit turns {it}, or what it calls" for it in unshown(crate, edits)]
    print(*wrong, f"{count} must-fail edits; {len(wrong)} failed", sep="\n")
    return 1 if wrong else 0


if __name__ == "__main__":
    sys.exit(main())
