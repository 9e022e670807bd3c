#!/usr/bin/env python3
"""Counts the lines of definitions that a reader has to believe: those that the clauses of normalise, check and compare reach, those that the clause `headline` of normalise reaches, and those that the headline of bytes alone reaches.

From the clauses of these calls and laws, of the traits that they name and from both orders of keys, it follows each name through the `use` lines to its declaration, and from there on. Comments, blank lines and `use` lines are not counted. A name counts wherever it stands, also where a variable only looks like it: the number is never too small. The enums and structs of the code that are reached, and the types of their fields, are counted by themselves, and so is what is reached in the kit: its std, its ports, and the few words of the logic that std passes on. A name that is brought in and leads to no declaration fails the count, unless the logic has it built in.

    python3 tests/believed.py           a table of files, and the sums; fails if README.md or docs/DEFINITIONS.md says others, or a name is lost
    python3 tests/believed.py -v        each declaration too
"""
import collections
import re
import shutil
import sys
from pathlib import Path

ROOT = Path(__file__).resolve().parent.parent
CRATES = ROOT / "crates"
KIT = Path(shutil.which("rt") or "rt").resolve().parent.parent / "rattle"
ORDERS = {"cborn_model/src/orders.rt": ["trait KeyOrder"], "cborn_model/specs/Orders.antt": ["bytewise", "length_first"]}
CALLS = {
    "cborn_engine/src/conversions.rt": ["fn normalise"],
    "cborn_engine/src/checks.rt": ["fn check"],
    "cborn_engine/src/comparisons.rt": ["fn compare"],
    "cborn_engine/src/sources.rt": ["trait Source"],
    "cborn_engine/src/sinks.rt": ["trait Sink"],
    **ORDERS,
}
HEADLINE = {"cborn_engine/src/conversions.rt": ["fn normalise: headline"], **ORDERS}
BYTES = {"cborn_engine/src/laws.rt": ["fn headline_of_bytes"], "cborn_engine/src/slices.rt": ["fn normalise_slice: bytes"], **ORDERS}
# how many of the figures, the largest first, each document says
SAID_IN = {"README.md": 2, "docs/DEFINITIONS.md": 5}
CHAPTERS = {"First chapter: bytes": "bytes", "Second chapter: notation": "headline"}
USE = re.compile(r"(?:unfoldable )?(?:pub )?use ([\w.-]+?)(?:\.\{([^}]*)\}| as ([\w-]+))?;?$")
HEAD = re.compile(r"(?:(?:abbrev|pub|unfoldable|opaque) )*(?:(?:record|data) )?([^\s(){}]+)")
ROW = re.compile(r"^\| `(\w+/specs/\w+\.antt)` \| (\d+) \|", re.M)
NAME = re.compile(r"[^\s(){}\[\],;]+")
TYPE = re.compile(r"pub(?:\(crate\))? (?:enum|struct|const) (\w+)")
RUST_USE = re.compile(r"(?:pub )?use (crate|cborn_\w+)::(?:\w+::)*(?:\{([^}]*)\}|(\w+));$")
STD = ["std", "core", "std_alloc", "std_io", "std_collections"]
LOGIC = {"lib": "logic/Lib", "mathlib": "antt/port/mathlib/src", "denote": "logic/Denote", "base": "logic/Base", "mir": "logic/Mir"}
# what the logic has built in, and has no definition of
BUILT_IN = ("Prim.",)
LOST = set()


def first(files):
    return next((file for file in files if file.exists()), None)


def type_file(crate, name, within=()):
    """The file of the code that declares a type: in this module, if one of that name is, else in another."""
    found = []
    for source in [CRATES / crate / "src", KIT / crate / "src", *(KIT / part / "src" for part in STD if crate in STD)]:
        found += [file for file in sorted(source.rglob("*.rt")) if re.search(rf"^\s*pub(\(crate\))? (enum|struct) {name}\b", file.read_text(), re.M)]
    return next((file for file in found if set(within) <= {file.stem, *(part.name for part in file.parents)}), None) or (found[0] if found else None)


def file_of(path):
    """The file of a module that a `use` line names, and the type if it is one that the code declares."""
    parts = path.split(".")
    if parts[0] != "Rattle":
        return first([KIT / LOGIC.get(parts[0], "-") / ("/".join(parts[1:]) + ".antt")]), None
    crate, kind, rest = parts[1], parts[2] if len(parts) > 2 else "", parts[3:]
    if kind not in ("specs", "proofs") or not rest:
        return None, None
    if rest[-1] == "TheConstants":
        return first([top / crate / "src" / ("/".join(rest[1:-1]) + ".rt") for top in (CRATES, KIT)]), None
    if kind == "specs" and rest[0] == "declared":
        *within, name = [part for part in rest[1:] if part != "TheVariants"]
        return type_file(crate, name, within), name
    below = "/".join(rest) + ".antt"
    return first([CRATES / crate / kind / below, *(KIT / part / kind / below for part in [crate, *STD])]), None


def parts_of(name):
    """The words by which a name is written: an operator is written by its parts."""
    return [part for part in name.split("◌") if part] if "◌" in name else [name]


def imports(lines):
    """Names, and names of whole modules, that `use` lines bring in."""
    names, modules = {}, {}
    for path, listed, alias in (found.groups() for found in map(USE.match, lines) if found):
        file, of_type = file_of(path)
        file = file or path
        if listed is None:
            modules[alias or path.split(".")[-1]] = (file, of_type)
        for entry in (listed or "").split(","):
            name, _, other = entry.strip().partition(" as ")
            for part in parts_of(other.strip() or name):
                names[part] = (file, of_type or name)
    return names, modules


class Declaration:
    def __init__(self, file, name, context):
        self.file, self.name, self.context, self.lines = file, name, context, []
        is_ours = file.is_relative_to(CRATES)
        self.kind = "kit" if not is_ours else "types" if file.suffix == ".rt" else "definitions"
        self.path = str(file.relative_to(CRATES if is_ours else KIT))


class Module:
    """A file of definitions: its declarations, and where its other names come from."""

    def __init__(self, file):
        lines = [line.split("--")[0].rstrip() for line in file.read_text().split("\n")]
        lines = [line for line in lines if line]
        self.file, self.declared, self.constructors, self.contexts = file, {}, {}, []
        self.names, self.modules = imports([line.strip() for line in lines])
        self.read([line for line in lines if not re.match(r"(unfoldable )?(pub )?(use|mod) ", line.strip())])

    def read(self, lines):
        open_contexts, current = [], None
        for line in lines:
            indent = len(line) - len(line.lstrip())
            text = line.strip()
            while open_contexts and indent <= open_contexts[-1][0]:
                open_contexts.pop()
            base = open_contexts[-1][0] + 2 if open_contexts else 0
            if indent > base and current is not None:
                current.lines.append(text)
                self.constructor(current, text)
            elif re.match(r"module |(abbrev )?(pub )?mutual$", text):
                context = Declaration(self.file, text, [])
                context.lines.append(text)
                self.contexts.append(context)
                open_contexts.append((indent, context))
                current = None
            elif found := HEAD.match(text):
                new = Declaration(self.file, found[1], [c for _, c in open_contexts])
                current = self.declared.setdefault(found[1], new)
                current.lines.append(text)
        self.operators = {part: d for name, d in self.declared.items() if "◌" in name for part in parts_of(name)}

    def constructor(self, current, text):
        if re.match(r"(pub )?data ", current.lines[0]) and " : " in text:
            self.constructors.update(dict.fromkeys(text.split(" : ")[0].split(), current))

    def lookup(self, name):
        return self.declared.get(name) or self.constructors.get(name) or self.operators.get(name)

    def reaches(self, word):
        """What a word of a definition here names."""
        return [self.lookup(word.split(".")[0]), resolve(self.names, self.modules, word)]


class Types:
    """A file of the code: the types that it declares. Comments and attributes are left out."""

    def __init__(self, file):
        self.file, self.contexts, self.declared, self.brought = file, [], {}, {}
        crate = file.relative_to(CRATES).parts[0] if file.is_relative_to(CRATES) else "core"
        current = None
        for line in file.read_text().split("\n"):
            text = line.split("//")[0].strip()
            brought, head = RUST_USE.match(text), TYPE.match(text)
            for entry in (brought[2] or brought[3]).split(",") if brought else []:
                self.brought[entry.strip()] = crate if brought[1] == "crate" else brought[1]
            if head:
                current = self.declared.setdefault(head[1], Declaration(file, head[1], []))
            if current and text and not text.startswith("#["):
                current.lines.append(text)
            if current and (line.startswith("}") or (head and text.endswith((";", "}")))):
                current = None

    def lookup(self, name):
        return self.declared.get(name)

    def reaches(self, word):
        """The type that a word in a type names."""
        for name in re.findall(r"\w+", word):
            if name in self.declared:
                yield self.declared[name]
            elif name in self.brought:
                file = type_file(self.brought[name], name)
                yield file and module(file).lookup(name)


MODULES = {}


def module(file):
    if file not in MODULES:
        MODULES[file] = Types(file) if file.suffix == ".rt" else Module(file)
    return MODULES[file]


def resolve(names, modules, word):
    """The declaration that a word of a clause or a definition names."""
    parts = word.rstrip(".").split(".")
    if parts[0] in modules and len(parts) > 1:
        file, of_type = modules[parts[0]]
        return declaration(file, of_type or parts[1])
    if parts[0] in names:
        return declaration(*names[parts[0]])
    return None


def declaration(file, name):
    """The declaration of a name in a file, or in the one that passes it on from there. A name is lost where neither has one."""
    if isinstance(file, str):
        if not file.startswith(BUILT_IN):
            LOST.add(f"{file}: {name}")
        return None
    here = module(file)
    found = here.lookup(name) or next((d for d in (here.lookup(part) for part in parts_of(name)) if d), None)
    if found is None and isinstance(here, Module):
        for part in parts_of(name):
            if part in here.names and here.names[part] != (file, name):
                return declaration(*here.names[part])
    if found is None:
        LOST.add(f"{file.name}: {name}")
    return found


def clauses(file, heads):
    """What the clauses of some functions name (after a colon: the clause of that name), and all that a trait says; or the definitions of these names."""
    if file.suffix == ".antt":
        yield from (module(file).lookup(head) for head in heads)
        return
    lines = file.read_text().split("\n")
    names, modules = imports([line.strip().removeprefix("ghost ") for line in lines])
    for head, _, only in (head.partition(": ") for head in heads):
        start = next(i for i, line in enumerate(lines) if re.search(rf"\bpub {head}\b", line))
        end = next(i for i in range(start, len(lines)) if lines[i] in ("}", "{}"))
        depth = 0
        for line in lines[start:end]:
            text = line.strip()
            if depth or re.match(rf"ensures {only} \{{" if only else r"(ensures|requires|ghost) ", text):
                depth += text.count("{") - text.count("}")
                for word in NAME.findall(text):
                    yield resolve(names, modules, word)


def reached(calls):
    """The declarations that clauses reach."""
    todo = [d for path, heads in calls.items() for d in clauses(CRATES / path, heads) if d]
    seen = []
    while todo:
        found = todo.pop()
        if found in seen:
            continue
        seen.append(found)
        here = module(found.file)
        for text in found.lines + [line for c in found.context for line in c.lines]:
            for word in NAME.findall(text):
                todo += [d for d in here.reaches(word) if d]
        todo += found.context
    return seen


def counted(found, kind):
    """How many lines of each file are reached."""
    counts = collections.Counter()
    for d in found:
        if d.kind == kind:
            counts[d.path] += len(d.lines)
    return counts


def show(found, counts, base):
    for name, count in sorted(counts.items(), key=lambda row: (-row[1], row[0])):
        here = module(base / name)
        whole = sum(len(d.lines) for d in [*here.declared.values(), *here.contexts])
        print(f"{count:5} of {whole:4}  {name}")
        if "-v" in sys.argv:
            for d in sorted((d for d in found if d.file == here.file), key=lambda d: -len(d.lines)):
                print(f"            {len(d.lines):4} {d.name}")


def misprinted(text, chapter, counts):
    """The files of which a chapter's table says another count, or none."""
    rows = {it: int(count) for it, count in ROW.findall(text.partition(f"\n## {chapter}\n")[2].partition("\n## ")[0])}
    for name in sorted({*rows, *counts}):
        if rows.get(name) != counts.get(name):
            yield f"docs/DEFINITIONS.md, {chapter}: {rows.get(name)} for {name}, not {counts.get(name)}"


def main():
    found = {"calls": reached(CALLS), "headline": reached(HEADLINE), "bytes": reached(BYTES)}
    every = list({id(d): d for ds in found.values() for d in ds}.values())
    counts = {name: counted(ds, "definitions") for name, ds in found.items()}
    sums = {name: rows.total() for name, rows in counts.items()}
    show(every, counted(every, "definitions"), CRATES)
    for kind, base in (("types", CRATES), ("kit", KIT)):
        print(f"\n{kind}:")
        show(every, counted(every, kind), base)
    print()
    for name, ds in found.items():
        types, kit = (counted(ds, kind).total() for kind in ("types", "kit"))
        print(f"{name}: {sums[name]:,} lines in {len(counts[name])} files, {types} of declared types, {kit} of the kit")
    types, kit = (counted(every, kind).total() for kind in ("types", "kit"))
    print(f"{sums['calls']:,} lines for normalise/check/compare, {sums['headline']:,} for the headline, {sums['bytes']:,} for the headline of bytes alone, {types:,} of declared types, {kit:,} of the kit")
    told = [f"{sums[name]:,} lines{' of definitions' if name == 'calls' else ''} in {len(rows)} files" for name, rows in counts.items()]
    told += [f"{types:,} lines of types", f"{kit:,} lines of the kit's own"]
    texts = {name: (ROOT / name).read_text() for name in SAID_IN}
    wrong = [f"{name} doesn't say: {words}" for name, text in texts.items() for words in told[: SAID_IN[name]] if words not in text]
    wrong += [f"leads to no declaration: {name}" for name in sorted(LOST)]
    for chapter, name in CHAPTERS.items():
        wrong += misprinted(texts["docs/DEFINITIONS.md"], chapter, counts[name])
    if wrong:
        sys.exit("\n".join(wrong))


if __name__ == "__main__":
    main()
