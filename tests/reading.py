"""What the tests expect of bytes that are read, computed from RFC 8949 alone: their deterministic encoding (bytewise), and
their first defect.

Only bytes that are read and valid are given here: which ones are refused, and where, the tests have from tables.
"""
DIRECT, INDEFINITE = 24, 31
# how many bytes follow the initial byte, by additional information
WIDTHS = {24: 1, 25: 2, 26: 4, 27: 8}
BREAK = 0xFF
BYTES, TEXT, ARRAY, MAP, TAG, SIMPLE = 2, 3, 4, 5, 6, 7
POSITIVE_BIGNUM, NEGATIVE_BIGNUM = 2, 3


def head(major, number, least=None):
    """The head of a number: the shortest, or the shortest of those whose argument has at least so many bytes."""
    shortest = 0 if number < DIRECT else next(width for width in WIDTHS.values() if number >> 8 * width == 0)
    width = max(shortest, least or 0)
    if width == 0:
        return bytes([major << 5 | number])
    return bytes([major << 5 | 23 + width.bit_length()]) + number.to_bytes(width, "big")


def embedded(levels, item=b""):
    """What `<<` and `>>` around the text of an item stand for, so many times in one another."""
    for _ in range(levels):
        item = head(BYTES, len(item)) + item
    return item


def chunked(levels):
    """What `(_ ''<<` and `>>)` stand for, so many times in one another."""
    item = b""
    for _ in range(levels):
        item = b"\x5f" + head(BYTES, len(item)) + item + b"\xff"
    return item


class Bytes:
    """Reads well-formed bytes. `defects` gets (place, rank, words) of whatever isn't deterministic, lowest first when sorted."""

    def __init__(self, content):
        self.content, self.place, self.defects = content, 0, []

    def head(self):
        """Major type and argument of the next head: no argument where the length is indefinite."""
        place, first = self.place, self.content[self.place]
        major, info = first >> 5, first & 31
        self.place += 1
        if info == INDEFINITE:
            self.defects.append((place, 2, "indefinite length"))
            return major, None
        width = WIDTHS.get(info, 0)
        number = int.from_bytes(self.content[self.place : self.place + width], "big") if width else info
        self.place += width
        # the second byte of a simple value is no argument: it has one form
        if major != SIMPLE and head(major, number) != self.content[place : self.place]:
            self.defects.append((place, 1, "long head"))
        return major, number

    def string(self, length):
        """The bytes of a string, its chunks joined."""
        if length is None:
            chunks = b""
            while self.content[self.place] != BREAK:
                chunks += self.string(self.head()[1])
            self.place += 1
            return chunks
        self.place += length
        return self.content[self.place - length : self.place]

    def times(self, count):
        """Counts up to `count`, or to the break."""
        if count is not None:
            yield from range(count)
            return
        while self.content[self.place] != BREAK:
            yield None
        self.place += 1

    def pairs(self, count):
        pairs, before = {}, b""
        for _ in self.times(count):
            place = self.place
            key = self.item()
            if pairs and key <= before:
                self.defects.append((place, 4, "key order"))
            pairs[key] = self.item()
            before = key
        return pairs

    def tagged(self, place, number):
        if number not in (POSITIVE_BIGNUM, NEGATIVE_BIGNUM):
            return head(TAG, number) + self.item()
        magnitude = self.string(self.head()[1])
        if len(magnitude) <= 8 or magnitude[0] == 0:
            self.defects.append((place, 3, "loose bignum"))
        return integer(int.from_bytes(magnitude, "big"), number == NEGATIVE_BIGNUM)

    def item(self):
        """The deterministic encoding of the next item."""
        place = self.place
        major, number = self.head()
        if major in (BYTES, TEXT):
            content = self.string(number)
            return head(major, len(content)) + content
        if major == ARRAY:
            elements = [self.item() for _ in self.times(number)]
            return head(ARRAY, len(elements)) + b"".join(elements)
        if major == MAP:
            pairs = self.pairs(number)
            return head(MAP, len(pairs)) + b"".join(key + pairs[key] for key in sorted(pairs))
        if major == TAG:
            return self.tagged(place, number)
        return head(major, number)

    def items(self):
        found = []
        while self.place < len(self.content):
            found.append(self.item())
        return found


def integer(size, is_negative):
    """The deterministic encoding of the number `size`, or of -1 - `size`."""
    if size < 1 << 64:
        return head(int(is_negative), size)
    magnitude = size.to_bytes((size.bit_length() + 7) // 8, "big")
    return head(TAG, NEGATIVE_BIGNUM if is_negative else POSITIVE_BIGNUM) + head(BYTES, len(magnitude)) + magnitude


def canonical(content):
    """The deterministic encoding of each of the items."""
    return Bytes(content).items()


def first_defect(content):
    """What `check` prints of valid bytes."""
    reader = Bytes(content)
    reader.items()
    if not reader.defects:
        return b"deterministic\n"
    place, _, words = min(reader.defects)
    return f"offset {place}: {words}\n".encode()
