"""Packs: read, cut at each byte, with single bytes changed, and written to a disk whose calls fail one after the other."""

from .spelling import EMPTY_BLOB, HELLO, HELLO_RECORD, TEST, TEST_RECORD, changed, cut_rows, hex_row, name, record, u32, u64

BLANK_RECORD = record("blob", b"")
# In the order of their names.
THREE_RECORDS = [HELLO_RECORD, TEST_RECORD, BLANK_RECORD]
assert [name(whole) for whole in THREE_RECORDS] == sorted([HELLO, TEST, EMPTY_BLOB])


def item_fields(wholes):
    return [field for whole in wholes for field in (name(whole), u32(len(whole)), whole)]


def item_begins(wholes):
    """Where the item of each record begins, and where the index does."""
    places = [8]
    for whole in wholes:
        places.append(places[-1] + 24 + len(whole))
    return places


def fields(wholes):
    places = item_begins(wholes)
    index = [field for whole, place in zip(wholes, places) for field in (name(whole), u64(place))]
    return [b"GTP1", u32(len(wholes)), *item_fields(wholes), *index, u64(places[-1])]


def pack(wholes):
    return b"".join(fields(wholes))


def bad(at):
    return f"BadPack {{ at: {at} }}"


def found(wholes):
    """Place and length of the record of each item."""
    return [(place + 24, len(whole)) for whole, place in zip(wholes, item_begins(wholes))]


def index_lines(wholes):
    yield "pack None None"
    for whole, (place, length) in zip(wholes, found(wholes)):
        yield f"  {name(whole).hex()} {place} {length} Some(({place}, {length}))"


# The place of a byte of the three records' pack, what stands there instead, and where that is refused.
CHANGES = [
    # The magic; a record more, whose name would be the index's first; a record less.
    (3, b"2", 0),
    (7, b"\x04", 128),
    (7, b"\x02", 97),
    # The second name below the first, the first once more, and names that aren't those of the index.
    (52, b"\x3a", 52),
    (52, HELLO, 52),
    (52, b"\x3c", 156),
    (97, b"\xd7", 184),
    (128, b"\x3c", 128),
    # A record that isn't one: its type, its own length, and the lengths before it.
    (32, b"c", 32),
    (38, b"3", 32),
    (31, b"\x13", 32),
    (28, b"\x01", 32),
    # Places of items, and the place of the index.
    (155, b"\x09", 148),
    (183, b"\x33", 176),
    (211, b"\x60", 204),
    (219, b"\x81", 212),
]


def read_rows():
    many = sorted((record("blob", b"%d" % i) for i in range(200)), key=name)
    for wholes in ([], [HELLO_RECORD], THREE_RECORDS, many):
        yield hex_row("pack", pack(wholes), *index_lines(wholes))
    yield from cut_rows("pack", fields([HELLO_RECORD]), bad)
    yield from cut_rows("pack", fields(THREE_RECORDS), bad)
    three = pack(THREE_RECORDS)
    for place, value, at in CHANGES:
        yield hex_row("pack", changed(three, place, value), bad(at))
    for wholes in ([], [HELLO_RECORD], THREE_RECORDS):
        yield hex_row("pack", pack(wholes) + b"\0", bad(len(pack(wholes))))


def build_row(call, wholes, first, faults, again, read, stops):
    """A pack of these records, written twice to a disk whose call of this number fails."""
    words = " ".join([str(call), *(whole.hex() for whole in wholes)])
    return f"build {words}", [f"{first} {faults} {again}", *(f"  {line}" for line in [read, *stops])]


def build_rows():
    digits = pack(THREE_RECORDS).hex()
    last = found(THREE_RECORDS)[-1]
    good = f"Ok(Some(({last[0]}, {last[1]})))"
    # The head, three records, the index and its sync; then the same once more, and a call that isn't made.
    for call in range(6):
        yield build_row(call, THREE_RECORDS, "Err(Failed)", 1, good, digits, [digits] * 3)
    # A failed write leaves five bytes of the head. A stop leaves the file absent, so, or with the one byte 0xff.
    yield build_row(6, THREE_RECORDS, good, 1, "Err(Failed)", pack(THREE_RECORDS)[:5].hex(), ["absent", pack(THREE_RECORDS)[:5].hex(), "ff"])
    yield build_row(99, THREE_RECORDS, good, 0, good, digits, [digits] * 3)
    # After the twelve calls of both, the first one of the reader.
    yield build_row(12, THREE_RECORDS, good, 0, good, "Failed", [digits] * 3)
    yield build_row(99, [], "Ok(None)", 0, "Ok(None)", pack([]).hex(), [pack([]).hex()] * 3)
    # The second record's name is lower, so it isn't taken, and no index is written.
    half = b"".join([b"GTP1", u32(2), *item_fields([TEST_RECORD])])
    yield build_row(99, [TEST_RECORD, HELLO_RECORD], "Ok(None)", 0, "Ok(None)", half.hex(), ["absent", half.hex(), "ff"])


def rows():
    yield from read_rows()
    yield from build_rows()
