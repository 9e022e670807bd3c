#!/usr/bin/env python3
"""Whether the documents are short, lead somewhere, and say the same.

    words.py        fails if a document or all of them have more words than their limit, if a paragraph or an item of a list
                    has too many, if a link or a target for make leads nowhere, if a definition isn't in the file that
                    docs/DEFINITIONS.md names for it, or if the README has another order of keys than the guide for a
                    format, or names of Python that there aren't
    words.py -v     tells the words of each document, too

Words are counted as `wc -w` does, those of tables, of code and of what a script makes too. A paragraph is what stands
between empty lines, headings, tables and code; of a list each item is one.
"""
import ast
import pathlib
import re
import sys

ALL = 24_000
PARAGRAPH = 90
LIMITS = {
    "README.md": 1_100,
    "CHANGELOG.md": 1_050,
    "CONTRIBUTING.md": 1_060,
    "docs/ARCHITECTURE.md": 1_650,
    "docs/DECISIONS.md": 2_200,
    "docs/DEFINITIONS.md": 2_500,
    "docs/FORMATS.md": 3_600,
    "docs/GUIDE.md": 3_400,
    "docs/LIBRARY.md": 2_600,
    "docs/PERFORMANCE.md": 2_000,
    "docs/PROMISES.md": 3_000,
    "docs/PROVED.md": 1_200,
}
ROOT = pathlib.Path(__file__).resolve().parent.parent
ITEM = re.compile(r"\s*(?:-|\d+\.) ")
APART = re.compile(r"#|\||<!--|```| {4}")


def paragraphs(text):
    """The paragraphs of a page, and the items of its lists, each with the line that it begins in."""
    begun, words, is_fenced = 0, [], False
    for number, line in enumerate([*text.splitlines(), ""], 1):
        is_fenced ^= line.startswith("```")
        is_apart = is_fenced or not line.strip() or (APART.match(line) and not ITEM.match(line))
        if words and (is_apart or ITEM.match(line)):
            yield begun, words
            words = []
        if not is_apart:
            begun = begun if words else number
            words = words + line.split()


def too_long(pages):
    """What has more words than it may."""
    counts = {name: len(text.split()) for name, text in pages.items()}
    for name in sorted({*counts} ^ {*LIMITS}):
        yield f"{name}: a document without a limit, or a limit without a document"
    for name in sorted({*counts} & {*LIMITS}):
        if counts[name] > LIMITS[name]:
            yield f"{name}: {counts[name]:,} words, and at most {LIMITS[name]:,} are wanted"
    if sum(counts.values()) > ALL:
        yield f"all documents: {sum(counts.values()):,} words, and at most {ALL:,} are wanted"
    for name, text in pages.items():
        for line, words in paragraphs(text):
            if len(words) > PARAGRAPH:
                yield f"{name}:{line}: a paragraph of {len(words)} words, and at most {PARAGRAPH} are wanted"


def slug(heading):
    """What a link to a heading ends with."""
    return re.sub(r"[^\w -]", "", heading.lower()).strip().replace(" ", "-")


def dead_links(page):
    """The links of a page, within the repository, that lead nowhere."""
    for link in re.findall(r"\]\(([^)\s]+)\)", page.read_text()):
        path, _, anchor = link.partition("#")
        if "://" in link:
            continue
        target = page.parent / path if path else page
        if not target.exists():
            yield link
        elif anchor and anchor not in map(slug, re.findall(r"^#+ (.*)", target.read_text(), re.MULTILINE)):
            yield link


def lost(pages):
    """The links that lead nowhere, the files that are named and aren't there, and the targets for make that there are none of."""
    rules = "".join((ROOT / name).read_text() for name in ("Makefile", "bindings/library.mk", "bindings/release.mk"))
    targets = set(re.findall(r"^([a-z-]+):", rules, re.MULTILINE))
    for name, text in pages.items():
        yield from (f"{name}: {link} leads nowhere" for link in dead_links(ROOT / name))
        named = re.findall(r"`make ([a-z-]+)|^    make ([a-z-]+)", text, re.MULTILINE)
        yield from (f"{name}: no target {target}" for target in sorted({"".join(it) for it in named} - targets))


def strays(text):
    """The definitions that aren't in the file which the list of all definitions names."""
    rows = re.findall(r"^- (`cborn\w*/[^:]*): (.*)$", text.partition("\n## All definitions\n")[2], re.MULTILINE)
    if not rows:
        yield "docs/DEFINITIONS.md lists no definition"
    for places, said in rows:
        crate, *names = re.findall(r"\w+", places)
        files = [ROOT / "crates" / crate / "specs" / f"{name}.antt" for name in names]
        told = "\n".join(file.read_text() for file in files if file.exists())
        yield from (f"docs/DEFINITIONS.md: there is no {file.relative_to(ROOT)}" for file in files if not file.exists())
        for name in re.findall(r"`(\w+)`", said.partition(":")[0]):
            if not re.search(rf"^ *(?:(?:abbrev|pub|unfoldable|opaque|record|data) )+{name}\b", told, re.MULTILINE):
                yield f"docs/DEFINITIONS.md: there is no {name} in {places}"


def table(text, heading):
    """The rows of the first table below a heading."""
    lines = text.partition(f"\n## {heading}\n")[2].partition("\n## ")[0].splitlines()
    return [[cell.strip() for cell in line.strip("|").split(" | ")] for line in lines if line.startswith("|")][2:]


def other_orders(pages):
    """The formats for which the README has another order of keys than the guide. A format there may have an aspect after a colon."""
    guide = [(set(re.findall(r"[\w.-]+", f"{row[0]} {row[2]}")), row[1]) for row in table(pages["docs/GUIDE.md"], "Which format asks for which order")]
    rows = table(pages["README.md"], "Which order of keys")
    if not rows or not guide:
        yield "README.md, or the guide, has no table of the orders of keys"
    for formats, order in rows:
        names, _, aspect = formats.partition(": ")
        for name in names.split(", "):
            wanted = {*re.findall(r"[\w.-]+", f"{name} {aspect}")}
            told = [of_guide for words, of_guide in guide if wanted <= words]
            if not told or any(it.split(",")[0] != order.split(",")[0] for it in told):
                yield f"README.md has {order} for {name}, and the guide {told}"


def no_python(text):
    """The names of Python in the README that the package doesn't have, and arguments that its functions don't take."""
    package = ROOT / "bindings/python/cborn"
    names = next(ast.literal_eval(it.value) for it in ast.parse((package / "__init__.py").read_text()).body if isinstance(it, ast.Assign) and it.targets[0].id == "__all__")
    used = re.findall(r"\bcborn\.(\w+)\b(?=[(,`]| |$)", text.partition("**From Python:**")[2].partition("\n\n[")[0], re.MULTILINE)
    if not used:
        yield "README.md has no lines of Python"
    yield from (f"README.md: Python's cborn has no {name}" for name in sorted({*used} - {*names}))


def main():
    names = [path.relative_to(ROOT).as_posix() for path in (*ROOT.glob("*.md"), *ROOT.glob("docs/*.md"))]
    pages = {name: (ROOT / name).read_text() for name in sorted(names)}
    if sys.argv[1:] == ["-v"]:
        for name, text in pages.items():
            print(f"{len(text.split()):7,} of {LIMITS.get(name, 0):6,}  {name}")
    wrong = [*too_long(pages), *lost(pages), *strays(pages["docs/DEFINITIONS.md"]), *other_orders(pages), *no_python(pages["README.md"])]
    for line in wrong:
        print(line)
    print(f"{sum(len(text.split()) for text in pages.values()):,} words in {len(pages)} documents, of {ALL:,}; {len(wrong)} failed")
    return 1 if wrong else 0


if __name__ == "__main__":
    sys.exit(main())
