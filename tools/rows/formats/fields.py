"""A field of each kind, and lists."""

from .spelling import cut_rows, digits, hex_row, text, true, u8, u16, u32, u64, changed

NAME = bytes(range(1, 21))
MAGIC = b"GTF1"

# One of each field: a byte, a short, a word, a long, a name and a text.
VALUES = [
    (0xAB, 0x0102, 0x01020304, 0x0102030405060708, NAME, b"a.git"),
    (0, 0, 0, 0, bytes(20), b""),
    (0xFF, 0xFFFF, 0xFFFFFFFF, 0xFFFFFFFFFFFFFFFF, b"\xff" * 20, b"\xff" * 257),
]


def spelled(byte, short, word, long, name, value):
    return [u8(byte), u16(short), u32(word), u64(long), name, text(value), MAGIC]


def wanted(byte, short, word, long, name, value):
    end = len(b"".join(spelled(byte, short, word, long, name, value)))
    value = value.hex() if b"\xff" in value else value.decode()
    return f"{byte} {short} {word} {long} {name.hex()} {value} true {end}"


def bad(at):
    return f"BadField {{ at: {at} }}"


def field_rows():
    for values in VALUES:
        yield hex_row("fields", b"".join(spelled(*values)), wanted(*values))
    fields = spelled(*VALUES[0])
    whole = b"".join(fields)
    assert len(whole) == 46
    yield from cut_rows("fields", fields, bad)
    yield hex_row("fields", whole + b"\0", wanted(*VALUES[0]))
    for place in range(42, 46):
        yield hex_row("fields", changed(whole, place, b"\0"), bad(42))
    # A text of one byte more ends within the word behind it, and one of ten more has too few bytes.
    yield hex_row("fields", changed(whole, 36, b"\x06"), bad(43))
    yield hex_row("fields", changed(whole, 36, b"\x0a"), bad(35))


def list_rows():
    for count in (1, 2, 1023, 1024, 1025):
        items = bytes(i % 251 for i in range(count))
        last = items[-1]
        yield hex_row("list", items, f"{count} Some({items[0]}) None true Some({last}) {digits(items[:-1])} {true(False)}")
    yield hex_row("list", b"", "0 None None true None - true")
    yield hex_row("room", b"\x03\x05\x07", "0305")


def rows():
    yield from field_rows()
    yield from list_rows()
