#!/usr/bin/env python3
"""Makes the lists of docs/PROMISES.md from the sources: each public function of each library and of the program, and its clauses by name. Of a function that a user calls, the list has the first sentence of the docstring. Of a law, that sentence is the theorem.

A function is public if its module is, or if the crate's root file names it, or the type or trait that it belongs to, in a `pub use`. A single clause has no name, and the list doesn't mention it. Where a function has no clause, the list says so.

    python3 tests/promises.py           writes the lists after the page's introduction
    python3 tests/promises.py --check   fails if the page isn't what the sources say
"""
import itertools
import re
import sys
from pathlib import Path

ROOT = Path(__file__).resolve().parent.parent
PAGE = ROOT / "docs/PROMISES.md"
# the order of the chapters: from the calls that a user makes down to what they stand on
CRATES = """cborn_engine cborn_c cborn cborn_model cborn_wire cborn_det cborn_judge cborn_lex cborn_edn
    cborn_explain""".split()
# those whose list says what each function does; the lists of the crates below them go by module
CALLED = {"cborn_engine", "cborn_c", "cborn"}
# the file of each crate that names its modules
ROOTS = [it for it in sorted(ROOT.glob("crates/*/src/*.rt")) if it.name in ("lib.rt", "main.rt")]
MADE = "<!-- from here on made by tests/promises.py -->\n"
PUBLIC = re.compile(r"pub use (?!cborn_)\w+::(?:\{([^}]*)\}|(\w+));")
FUNCTION = re.compile(r'^( *)(pub )?(?:pub\(crate\) )?(?:const )?(?:unsafe )?(?:extern "C" )?fn (\w+)')
OWNER = re.compile(r"^(?:pub )?(impl|trait)(?:<[^{]*?>)? (?:([\w<>&]+) for )?(\w+)")
CLAUSE = re.compile(r"^ +ensures(?: (\w+))? \{")


def exported(root_file):
    """The modules that a crate makes public as a whole, and the names that it makes public."""
    text = root_file.read_text()
    modules = set(re.findall(r"^pub mod (\w+);", text, re.M))
    names = set(re.findall(r'^pub (?:extern "C" )?fn (\w+)', text, re.M))
    for listed, one in PUBLIC.findall(text):
        names |= {name.strip() for name in (listed or one).split(",") if name.strip()}
    return modules, names


def first_sentence(lines):
    """The first sentence of a docstring on one line, without links, sources and what follows a colon."""
    text = re.sub(r"\[(`[^`]*`)\]", r"\1", " ".join(line.strip() for line in lines).split("  ")[0])
    text = re.sub(r" \((?:RFC|section)[^)]*\)", "", text)
    return re.match(r"(.*?)(?:[.:;](?: |$)|$)", text).group(1).replace("|", "\\|")


def functions(file, modules, names):
    """The public functions of a file: name, first sentence, names of clauses."""
    owner, of_trait, said, all_of = "", False, [], []
    is_listed = False
    for line in file.read_text().splitlines():
        text = line.strip()
        if match := OWNER.match(line):
            owner, of_trait = match.group(3), bool(match.group(2))
            is_trait = match.group(1) == "trait"
        elif line == "}":
            owner, is_listed = "", False
        if text.startswith("///"):
            said.append(text[3:])
        elif match := FUNCTION.match(line):
            indent, is_pub, name = match.groups()
            if indent:
                is_listed = owner in names and not of_trait and bool(is_pub or is_trait)
            else:
                is_listed = bool(is_pub) and (file.stem in modules or name in names)
            if is_listed:
                all_of.append((f"{owner}::{name}" if indent else name, first_sentence(said), []))
            said = []
        elif is_listed and (match := CLAUSE.match(line)):
            all_of[-1][2].append(match.group(1) or "")
        elif text and not text.startswith("#["):
            said = []
    return all_of


def told(name, clauses):
    """A function, and its clauses by name."""
    named = ", ".join(f"`{clause}`" for clause in clauses if clause)
    return f"`{name}`" + (f" ({named})" if named else "" if clauses else " (none)")


def public(crate):
    """The public functions of a crate, each with the module in which it stands."""
    source = ROOT / "crates" / crate / "src"
    modules, names = exported(next(it for it in ROOTS if it.parent == source))
    return [(file.stem, *it) for file in sorted(source.glob("*.rt")) for it in functions(file, modules, names)]


def chapter(crate, listed):
    """The chapter of one crate: its functions, its types and modules with theirs, its laws."""
    free, by_place, laws = [], {}, []
    for module, name, sentence, clauses in listed:
        owner, _, method = name.rpartition("::")
        if module == "laws":
            laws.append(f"- {told(name, clauses)}: {sentence}")
        elif owner or crate not in CALLED:
            by_place.setdefault(owner or f"{module}.rt", []).append(told(method, clauses))
        else:
            free.append(f"- {told(name, clauses)}: {sentence}")
    lines = [*free, *(f"- `{place}`: {', '.join(of_it)}" for place, of_it in by_place.items())]
    parts = ["\n".join(lines) + "\n"] * bool(lines) + ["Laws:\n\n" + "\n".join(laws) + "\n"] * bool(laws)
    return f"## `{crate}`\n\n" + "\n".join(parts)


def main():
    page = PAGE.read_text()
    introduction = page.partition(MADE)[0]
    crates = {it.parents[1].name for it in ROOTS if not it.parents[1].name.endswith("_tests")}
    if crates != set(CRATES):
        print(f"CRATES of tests/promises.py isn't what crates/ has: {sorted(crates ^ set(CRATES))}")
        return 1
    found = {crate: public(crate) for crate in CRATES}
    made = introduction + MADE + "\n" + "\n".join(itertools.starmap(chapter, found.items()))
    if "--check" in sys.argv[1:]:
        if page != made:
            print("docs/PROMISES.md isn't what the sources say: python3 tests/promises.py makes it anew")
            return 1
        print(f"docs/PROMISES.md: {sum(map(len, found.values()))} functions, as the sources have them")
        return 0
    PAGE.write_text(made)
    return 0


if __name__ == "__main__":
    sys.exit(main())
