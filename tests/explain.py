#!/usr/bin/env python3
"""Run the built program on random inputs with --explain and without, and follow the paths that it tells.

    explain.py PROGRAM [COUNT]

Of each input the first line and the status have to be the same with --explain and without it, and the path has to lead to
the place of the first line: a walker of its own, over bytes or tokens, says which path stands there. Of bytes that are
well-formed the path is also followed in the notation that `show` writes, to the text that `show` writes of the part alone.

Then compare random inputs, and again what they are with what `normalise` makes of them. The path has to lead to where the
deterministic encodings of tests/reading.py, or the bytes, first differ, and in each input the place to what is told of it.
"""
import itertools
import os
import random
import re
import sys
import tempfile

import shared
from reading import WIDTHS, Bytes, canonical, head

SEED = 8949
# the end of a path whose further steps aren't known
CUT = ".."
COUNT = 500
# what has parts, by its major type
KINDS = {2: "chunk", 3: "chunk", 4: "array", 5: "map"}
PLACE = re.compile(r"offset (\d+): (.*)")
STEP = re.compile(
    r"(?:(?P<tag>\d+)\(\)|\(_ #(?P<chunk>\d+)\)|\[(?P<array>\d+)\]|<<(?P<embedded>\d+)>>|\{key #(?P<key>\d+)\}|\{.*? #(?P<value>\d+)\})"
    r"(?:\*(\d+))?(?: |$)",
    re.DOTALL,
)
TOKEN = re.compile(
    r"(?P<blank>[ \t\r\n]+|/[^/]*/)"
    r"|(?P<string>(?:h|b64)?'(?:\\.|[^'\\])*'|\"(?:\\.|[^\"\\])*\")(?:_\w*)?"
    r"|(?P<tag>\d\w*)\((?!_\w)"
    r"|(?P<simple>simple)\("
    r"|(?P<open>\(_|<<|\[|\{)(?:(?<=[\[{])_\w*)?"
    r"|(?P<close>>>|\]|\}|\))(?:(?<=>>)_\w*)?"
    r"|(?P<comma>,)|(?P<colon>:)|(?P<item>[-\w.]+)",
    re.DOTALL,
)


def random_item(choice, depth):
    """The bytes of a random item: sometimes with long heads, indefinite lengths and keys in any order."""
    kind = choice.randrange(12 if depth else 6)
    width = choice.choice([None, None, None, 1, 2, 4, 8])
    if kind < 3:
        return head(choice.choice([0, 0, 1]), choice.choice([0, 1, 5, 23]), width)
    if kind == 3:
        return head(2, 3, width) + choice.randbytes(3)
    if kind == 4:
        text = choice.choice(["a", "é", "\u202e", '"\\', "ab" * 30]).encode()
        return head(3, len(text), width or (1 if len(text) > 23 else None)) + text
    if kind == 5:
        return choice.choice([b"\xf4", b"\xf6", b"\xf8\x20", b"\x5f\x41\x01\x40\xff", b"\x7f\x61a\xff", b"\xc2\x41\x01", b"\x5f\xff"])
    if kind < 8:
        return container(choice, 4, [random_item(choice, depth - 1) for _ in range(choice.randrange(4))], width)
    if kind < 11:
        keys = [random_item(choice, depth - 1 if not choice.randrange(4) else 0) for _ in range(choice.randrange(4))]
        return container(choice, 5, [key + random_item(choice, depth - 1) for key in keys], width)
    return head(6, choice.choice([0, 2, 3, 24, 1000]), None) + random_item(choice, depth - 1)


def container(choice, major, parts, width):
    """An array or a map, now and then of indefinite length."""
    if choice.randrange(3):
        return head(major, len(parts), width) + b"".join(parts)
    return bytes([major << 5 | 31]) + b"".join(parts) + b"\xff"


def mutated(choice, content):
    """The same with some byte changed, dropped or put in, or cut off."""
    content = bytearray(content)
    for _ in range(choice.randrange(1, 3)):
        at = choice.randrange(len(content) + 1)
        how = choice.randrange(4)
        if how == 0 and at < len(content):
            content[at] = choice.choice([0, 0x18, 0x1C, 0x3F, 0x41, 0x5F, 0x61, 0x80, 0xA1, 0xC2, 0xF8, 0xF9, 0xFF, choice.randrange(256)])
        elif how == 1 and at < len(content):
            del content[at]
        elif how == 2:
            content.insert(at, choice.randrange(256))
        else:
            del content[at:]
    return bytes(content)


def path_in_bytes(content, place):
    """The path to the head at a place, or that holds it: the item's index and (kind, index or number) for each step."""
    items, levels, at = 0, [], 0
    while at < place and at < len(content):
        major, info = content[at] >> 5, content[at] & 31
        width = WIDTHS.get(info, 0)
        number = int.from_bytes(content[at + 1 : at + 1 + width], "big") if width else info
        length = 1 + width + (number if major in (2, 3) and info != 31 else 0)
        if at + length > min(place, len(content)):
            break
        at += length
        parts = None if info == 31 and major in KINDS else {4: number, 5: 2 * number, 6: 1}.get(major, 0)
        if parts != 0:
            levels.append([KINDS.get(major, number), 0, parts])
            continue
        if info == 31 and major == 7:
            levels.pop()
        while levels:
            levels[-1][1] += 1
            if levels[-1][2] is None or levels[-1][1] < levels[-1][2]:
                break
            levels.pop()
        else:
            items += 1
    return items, [step_of(kind, parts) for kind, parts, _ in levels]


def step_of(kind, parts):
    if kind == "map":
        return ("value" if parts % 2 else "key", parts // 2)
    return ("tag", kind) if isinstance(kind, int) else (kind, parts)


def path_in_text(text, place):
    """The same of a text: the path to the token at a place. It ends with CUT before a bracket with a wrong comma or colon."""
    items, levels, at, is_whole = 0, [], 0, False
    while at < place:
        found = TOKEN.match(text, at)
        if not found or found.end() > place and not found["blank"]:
            break
        at = found.end()
        if found["tag"]:
            digits = found["tag"].split("_")[0]
            levels.append([int(digits, 0), 0, False])
        elif found["simple"]:
            levels.append([None, 0, False])
        elif found["open"]:
            levels.append([{"(_": "chunk", "<<": "embedded", "[": "array", "{": "map"}[found["open"]], 0, False])
        elif found["close"] and levels:
            levels.pop()
        elif found["comma"] or found["colon"]:
            if levels:
                kind, parts, _ = levels[-1]
                is_after_key = kind == "map" and parts % 2 == 0
                if is_after_key and found["comma"] or found["colon"] and not (is_after_key and is_whole):
                    levels[-1][2] = True
                levels[-1][1] += 1
            elif found["comma"]:
                items += 1
        if not found["blank"]:
            is_whole = bool(found["close"] or found["string"] or found["item"])
    wrong = next((index for index, level in enumerate(levels) if level[2]), len(levels))
    steps = [step_of(kind, parts) for kind, parts, _ in levels[:wrong] if kind is not None]
    return items, steps + [CUT] * (wrong < len(levels))


def told_path(line):
    """The same, as the line of a path tells it."""
    line, cut = line.removesuffix(f" {CUT}"), line.endswith(f" {CUT}")
    found = re.match(r"item (\d+)(?: |$)", line)
    item, at, steps = int(found[1]), found.end(), []
    while at < len(line):
        found = STEP.match(line, at)
        if not found:
            raise ValueError(f"no step at {at} of {line!r}")
        steps += [(kind, int(number)) for kind, number in found.groupdict().items() if number] * int(found[7] or 1)
        at = found.end()
    return item, steps + [CUT] * cut


def end_of(content, place):
    """Where the item ends that begins at a place of well-formed bytes."""
    return next(end for end in range(place + 1, len(content) + 1) if path_in_bytes(content[place:end], end - place) == (1, []))


def parsed(text, at):
    """A part of the fixed notation: where it begins and ends, and its own parts."""
    found = following(text, at)
    start, parts = found.start(), []
    if found["tag"] or found["open"] or found["simple"]:
        at = found.end()
        while not following(text, at)["close"]:
            part = parsed(text, at)
            parts.append(part)
            separator = following(text, part[1])
            at = separator.end() if separator["comma"] or separator["colon"] else part[1]
        return start, following(text, at).end(), parts
    return start, found.end(), parts


def following(text, at):
    """The next token that isn't blank."""
    found = TOKEN.match(text, at)
    return following(text, found.end()) if found["blank"] else found


def followed(text, path):
    """The part of the fixed notation of some items that a path leads to."""
    item, steps = path
    node = parsed(text, 0)
    for _ in range(item):
        node = parsed(text, node[1] + 1)
    for kind, number in steps:
        index = {"key": 2 * number, "value": 2 * number + 1, "tag": 0}.get(kind, number)
        node = node[2][index]
    return text[node[0] : node[1]]


def differences(served, words, content):
    """What is wrong with how a command explains an input."""
    done = served.run(words, content)
    out, err, status = done.stdout, done.stderr, done.status
    explained = served.run([*words, "--explain"], content)
    if status not in (0, 1, 2):
        yield f"status {status}"
    if (explained.stdout, explained.status) != (out, status) or not explained.stderr.startswith(err):
        yield f"with the option {explained}, without {done}"
        return
    told = PLACE.search((err or out).decode()) if status else None
    if not told:
        return
    labels = dict(line.strip().split(maxsplit=1) for line in explained.stderr[len(err) :].decode().split("\n") if line[:2] == "  " and len(line.split()) > 1)
    place, is_text = int(told[1]), "--from" in words
    front = content[:place].decode(errors="replace")
    wanted = path_in_text(front, len(front)) if is_text else path_in_bytes(content, place)
    path = told_path(labels["path"])
    # where a text isn't UTF-8, a token before that may be wrong, and the path ends there
    before = PLACE.search(served.run(words, content[:place]).stderr.decode()) if is_text and told[2] == "not UTF-8" else None
    if path != wanted and not (before and int(before[1]) < place):
        yield f"the path is {path}, not {wanted}"
    shown = None if is_text else served.run(["show", "--depth", "1024"], content)
    if shown and shown.status == 0 and place < len(content):
        part = served.run(["show", "--depth", "1024"], content[place : end_of(content, place)]).stdout
        there = followed(shown.stdout.decode(), path)
        if f"{there}\n" != part.decode():
            yield f"the path leads to {there!r}, and there stands {part!r}"
    if not labels.get("why"):
        yield "no sentence"
    if any(ord(c) < 32 and c != "\n" for c in explained.stderr.decode()):
        yield "a control character"


def inputs(choice, count):
    """Command lines, each with an input."""
    for _ in range(count):
        items = b"".join(random_item(choice, 4) for _ in range(choice.randrange(1, 3)))
        yield ["check"], items
        yield [choice.choice(["show", "normalise", "check"])], mutated(choice, items)
        yield ["show", "--depth", str(choice.randrange(1, 4))], items


# what `compare` tells of a side: of bytes the offset, of a text line and column too
SIDE = re.compile(r"(?:\[(?P<index>\d+)\] )?(?:of the (?P<of>first|second) )?at (?:\d+:\d+ \()?offset (?P<place>\d+)\)?: (?P<what>.*)")
AROUND = re.compile(r"^(?:the key |an? (?:array|map) of \d+: )?(.*?)(?:, which the (?:first|second|other map) lacks)?$")


def to_key(path):
    """A path up to the first key on it."""
    item, steps = path
    keys = [at + 1 for at, (kind, _) in enumerate(steps) if kind == "key"]
    return item, steps[: keys[0]] if keys else steps


def place_of(content, path):
    """Where the part begins that a path leads to."""
    return next(place for place in range(len(content) + 1) if path_in_bytes(content, place) == path)


def fixed(served, content, *words):
    """The fixed notation of the deterministic encoding of an item, as it is quoted."""
    return served.run(["normalise", "--to", "notation", *words], content).stdout.decode().removesuffix("\n").replace("\u202e", "\\u202e")


def named(served, content, path):
    """The line of a path, with the keys of pairs in the place of their indexes."""
    item, steps = path
    texts = []
    for at, (kind, number) in enumerate(steps):
        text = {"array": f"[{number}]", "tag": f"{number}()", "chunk": f"(_ #{number})", "key": "{key}"}.get(kind)
        if kind == "value":
            key = place_of(content, (item, [*steps[:at], ("key", number)]))
            text = "{%s}" % fixed(served, content[key : end_of(content, key)])
        texts.append(text)
    counted = ((text, len(list(same))) for text, same in itertools.groupby(texts))
    return " ".join([f"item {item}", *(f"{text}*{times}" if times > 1 else text for text, times in counted)])


def told_part(served, content, is_text, line):
    """The part of an input that a line of `compare` tells of: its place, where it ends, and whether the line says what it is."""
    found = SIDE.fullmatch(line)
    place, told = int(found["place"]), AROUND.match(found["what"])[1]
    if is_text:
        text, start = content.decode(), len(content[:place].decode())
        item = fixed(served, text[start : parsed(text, start)[1]].encode(), "--from", "notation")
    else:
        item = fixed(served, content[place : end_of(content, place)])
    return place, told == item or ".." in told or len(item) > 40


def difference_faults(served, files, is_text, told):
    """What is wrong with where two inputs are told to differ. The second may be the text of bytes."""
    encodings = [b"".join(canonical(content)) for content in files]
    # of byte strings too it is what they have in common at their start
    at = len(os.path.commonprefix(encodings))
    wanted = named(served, encodings[0], to_key(path_in_bytes(encodings[0], at)))
    path = told["path"][0]
    if ".." in path or len(wanted) > 40:
        return
    if path != wanted:
        yield f"the path is {path}, not {wanted}"
    for name, content, text in zip(("first", "second"), files, (None, is_text)):
        lines = [line for label in (name, "part", "key") for line in told.get(label, []) if label == name or f"of the {name} " in line]
        for line in lines:
            if line.startswith("nothing: the items end at"):
                if not text and int(line.split()[-1]) != len(content):
                    yield f"{line}, and not {len(content)}"
                continue
            if not SIDE.fullmatch(line):
                yield f"no place: {line}"
                continue
            place, is_right = told_part(served, text or content, bool(text), line)
            if not is_right:
                yield f"there isn't what is told: {line}"
            index, own_line = SIDE.fullmatch(line)["index"], line is lines[0]
            inside = "" if own_line else " {key}" if index is None else f" [{index}]"
            there = None if text else named(served, content, to_key(path_in_bytes(content, place)))
            if there and there != path + inside and "*" not in there:
                yield f"at {place} is {there}, not {path}{inside}"
    for kind, label in (("an array of", "part"), ("a map of", "key")):
        if all(f": {kind}" in told[name][0] for name in ("first", "second")) and not told.get(label):
            yield f"no line on a {label}"


def spelling_faults(files, text, told):
    """What is wrong with where the bytes of two inputs that are the same are told to differ. The second may be a text."""
    path = path_in_bytes(files[0], len(os.path.commonprefix(files)))
    wanted = to_key(path) if told.get("why") else path
    if told_path(told["path"][0]) != wanted:
        yield f"the path is {told['path'][0]}, not {wanted}"
        return
    for name, content, own_text in zip(("first", "second"), files, (None, text)):
        found = SIDE.fullmatch(told[name][0])
        place, (quoted, _, how) = int(found["place"]), found["what"].partition(", ")
        if own_text:
            before = own_text[:place].decode()
            # the end of the chunks is told at the string
            if path_in_text(before, len(before)) != wanted and how != "the end of the chunks":
                yield f"in the text there isn't what is told: {told[name][0]}"
            place = place_of(content, wanted)
        if place != place_of(content, wanted) or not content[place:].startswith(bytes.fromhex(quoted.removesuffix(" .."))):
            yield f"there isn't what is told: {told[name][0]}"
        reader = Bytes(content)
        reader.items()
        defects = {(place, words) for place, _, words in reader.defects}
        for words, defect in (("a long head", "long head"), ("an indefinite", "indefinite length"), ("a bignum that", "loose bignum")):
            if how.startswith(words) and (place, defect) not in defects:
                yield f"no {defect} at {place}"


def comparison_faults(served, folder, files, is_notation):
    """What is wrong with how `compare` explains two inputs, the second as a text if asked for."""
    text = served.run(["show"], files[1]).stdout if is_notation else None
    for name, content in zip("ab", (files[0], text or files[1])):
        with open(os.path.join(folder, name), "wb") as file:
            file.write(content)
    words = ["compare", *(["--from-b", "notation"] if text else [])]
    plain, explained = (served.run([*words, *more, "a", "b"], folder=folder) for more in ([], ["--explain"]))
    if plain.status not in (0, 1):
        return
    if (explained.stdout, explained.status) != (plain.stdout, plain.status) or plain.stderr:
        yield f"with the option {explained}, without {plain}"
    told = {}
    for line in explained.stderr.decode().splitlines():
        label, rest = line.split(maxsplit=1)
        told.setdefault(label, []).append(rest)
    if bool(told) != (files[0] != files[1]):
        yield f"it is told {told}"
    elif plain.status:
        yield from difference_faults(served, files, text, told)
    elif told:
        yield from spelling_faults(files, text, told)


def changed(choice, parts):
    """The same parts with one put in, left out or replaced, or all of them shuffled."""
    at, how = choice.randrange(len(parts) + 1), choice.randrange(5)
    if how == 4:
        return choice.sample(parts, len(parts))
    return parts[:at] + [random_item(choice, 1)] * (how != 1) + parts[at + (how > 0) :]


def pairs_of_inputs(choice, count):
    """Two inputs that are alike but for the parts of one array or map, and whether the second shall be a text."""
    for _ in range(count):
        major, around = choice.choice([4, 5]), choice.randrange(4)
        before, after, key = (random_item(choice, 1) for _ in range(3))
        parts = [random_item(choice, 2) for _ in range(choice.randrange(5))]
        values = [random_item(choice, 0) for _ in range(6)] if major == 5 else [b""] * 6
        inputs = []
        for own in (parts, changed(choice, parts)):
            inside = container(choice, major, [part + value for part, value in zip(own, values)], None)
            if around == 1:
                inside = container(choice, 4, [before, inside, after], None)
            elif around == 2:
                inside = container(choice, 5, [after + before, key + head(6, 99) + inside], None)
            elif around == 3:
                inside = before + inside + after
            inputs.append(inside)
        yield inputs, not choice.randrange(3)


def compared(served, those):
    """Pairs of inputs, each way round, and each with what is the same in other bytes: a name for each, and what is wrong."""
    with tempfile.TemporaryDirectory() as folder:
        for (left, right), is_text in those:
            in_order = [served.run(["normalise", "--order", order], left).stdout for order in ("bytewise", "length-first")]
            for files in ([left, right], [right, left], *([left, other] for other in in_order)):
                name = f"compare {files[0].hex()} {files[1].hex()} {'in notation' * is_text}"
                yield name, 1, list(comparison_faults(served, folder, files, is_text))


def explained(served, those):
    """The same of command lines, each with its input, and with a text made of an input where it can be shown."""
    for asked, given in those:
        runs = [(asked, given)]
        shown = served.run(["show"], given) if asked == ["check"] else None
        if shown and shown.status == 0:
            runs.append((["normalise", "--from", "notation"], mutated(random.Random(given), shown.stdout)))
        for words, content in runs:
            name = f"{' '.join(words)}: {content if '--from' in words else content.hex(' ')}"
            yield name, 1, list(differences(served, words, content))


def main():
    program, count = sys.argv[1], int(sys.argv[2]) if len(sys.argv) > 2 else COUNT
    runs = failed = 0
    for find, made in ((explained, inputs), (compared, pairs_of_inputs)):
        some, wrong, _, lines = shared.served_over_processors(find, made(random.Random(SEED), count), program, "serve.c", at_once=64)
        runs, failed = runs + some, failed + wrong
        print(*lines, sep="\n", end="\n" if lines else "")
    print(f"{runs - failed} explanations passed, {failed} failed")
    return 1 if failed or failed == runs else 0


if __name__ == "__main__":
    sys.exit(main())
