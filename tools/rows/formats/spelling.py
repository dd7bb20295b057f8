"""How rows are spelled, and the objects that many rows name."""

import hashlib
import struct


def row(kind, value, *wanted):
    """A row of this kind: the value as text where a line can hold it safely, else in hex."""
    text = value.decode("latin-1")
    if text and text.isascii() and text.isprintable() and text == text.strip():
        return f"{kind} {text}", list(wanted)
    return hex_row(kind, value, *wanted)


def hex_row(kind, value, *wanted):
    return f"hex {kind} {value.hex() or '-'}", list(wanted)


def shown(text):
    """Bytes as the program shows a text: as it is, or in hex where it isn't ASCII."""
    return text.decode() if text.isascii() else text.hex()


def digits(value):
    return value.hex() or "-"


def true(value):
    return "true" if value else "false"


# ---- fields: numbers with the greatest byte first


def u8(number):
    return struct.pack(">B", number)


def u16(number):
    return struct.pack(">H", number)


def u32(number):
    return struct.pack(">I", number)


def u64(number):
    return struct.pack(">Q", number)


def text(value):
    return u16(len(value)) + value


def begins(fields):
    """Where each field begins, and the end of the last."""
    places = [0]
    for field in fields:
        places.append(places[-1] + len(field))
    return places


def cut_rows(kind, fields, refusal):
    """The file cut at each byte: it is refused where the field begins that is cut."""
    whole = b"".join(fields)
    for cut in range(len(whole)):
        place = max(begin for begin in begins(fields) if begin <= cut)
        yield hex_row(kind, whole[:cut], refusal(place))


def changed(whole, place, value):
    """The bytes with others at this place."""
    assert place + len(value) <= len(whole)
    return whole[:place] + value + whole[place + len(value) :]


# ---- objects


def record(kind, content):
    return b"%s %d\0%s" % (kind.encode(), len(content), content)


def name(whole):
    return hashlib.sha1(whole).digest()


HELLO_RECORD = record("blob", b"hello world\n")
TEST_RECORD = record("blob", b"test content\n")
HELLO = name(HELLO_RECORD)
TEST = name(TEST_RECORD)
EMPTY_BLOB = name(record("blob", b""))
EMPTY_TREE = name(record("tree", b""))
ZERO = bytes(20)

# The names that Git gives them.
assert HELLO.hex() == "3b18e512dba79e4c8300dd08aeb37f8e728b8dad"
assert TEST.hex() == "d670460b4b4aece5915caf5c68d12f560a9fe3e4"
assert EMPTY_BLOB.hex() == "e69de29bb2d1d6434b8b29ae775ad8c2e48c5391"
assert EMPTY_TREE.hex() == "4b825dc642cb6eb9a060e54bf8d69288fbee4904"
