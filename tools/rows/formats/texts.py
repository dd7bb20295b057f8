"""Files of references."""

import hashlib

from .spelling import HELLO, TEST, ZERO, digits, hex_row, true

HEADER = b"# pack-refs with: peeled fully-peeled sorted \n"


def packed_line(value, name):
    return value.hex().encode() + b" " + name + b"\n"


def peeled_line(value):
    return b"^" + value.hex().encode() + b"\n"


def lines(refs, whole):
    """What is printed of references: whether these bytes are their one spelling; a name, a value, a peeled name or none."""
    first = f"{len(refs)} references {true(spelled(refs) == whole)}"
    return [first, *(f"  {name.decode()} {value.hex()} {digits(peeled)}" for name, value, peeled in refs)]


def spelled(refs):
    """The one spelling of references."""
    parts = [packed_line(value, name) + (peeled_line(peeled) if peeled else b"") for name, value, peeled in refs]
    return HEADER + b"".join(parts)


REFS = [(b"refs/heads/main", TEST, b""), (b"refs/tags/t", HELLO, TEST)]
MANY = [(b"refs/heads/b%05d" % i, hashlib.sha1(b"%d" % i).digest(), b"") for i in range(1100)]


def loose_rows():
    file = HELLO.hex().encode() + b"\n"
    for value in (HELLO, TEST, ZERO):
        yield hex_row("loose", value.hex().encode() + b"\n", f"{value.hex()} true")
    for cut in range(len(file)):
        yield hex_row("loose", file[:cut], "BadLine { line: 1 }")
    for bad in (b"3B" + file[2:], file[:-1] + b" ", file + b"\n"):
        yield hex_row("loose", bad, "BadLine { line: 1 }")


def good_row(whole, refs):
    return hex_row("packed", whole, *lines(refs, whole))


def good_rows():
    for refs in ([], REFS, MANY):
        yield good_row(spelled(refs), refs)
    yield good_row(b"", [])
    # Any order and any header; a peeled name of zeros.
    refs = [(b"refs/a", TEST, b""), (b"refs/b", HELLO, ZERO)]
    yield good_row(b"#\n" + packed_line(HELLO, b"refs/b") + peeled_line(ZERO) + packed_line(TEST, b"refs/a"), refs)
    yield good_row(b"".join(packed_line(value, name) for name, value, _ in reversed(MANY)), MANY)


def cut_rows():
    """A file that is cut is refused at the line that is cut, or is the file of its whole lines."""
    whole = spelled(REFS)
    assert len(whole) == 198
    for cut in range(len(whole)):
        front = whole[:cut]
        if cut and front[-1:] != b"\n":
            yield hex_row("packed", front, bad(front.count(b"\n") + 1))
        else:
            tag = [(b"refs/tags/t", HELLO, b"")]
            yield good_row(front, [*REFS[:1], *tag][: max(front.count(b"\n") - 1, 0)])


def bad(line):
    return f"BadLine {{ line: {line} }}"


def bad_rows():
    first, second = packed_line(HELLO, b"refs/a"), packed_line(TEST, b"refs/b")
    cases = [
        (b"\n", 1),
        (b"#\n#\n", 2),
        (peeled_line(HELLO), 1),
        (b"#\n" + peeled_line(HELLO), 2),
        (HELLO.hex().encode() + b"\n", 1),
        (packed_line(HELLO, b" refs/a"), 1),
        (b"3B" + first[2:], 1),
        (packed_line(HELLO, b"refs/a.lock"), 1),
        (packed_line(ZERO, b"refs/a"), 1),
        (first + second + first, 3),
        (first + peeled_line(HELLO) * 2, 3),
        (first + second + b"\n", 3),
        (b"".join(packed_line(value, name) for name, value, _ in MANY) + packed_line(TEST, MANY[0][0]), 1101),
    ]
    for whole, line in cases:
        yield hex_row("packed", whole, bad(line))


def rows():
    yield from loose_rows()
    yield from good_rows()
    yield from cut_rows()
    yield from bad_rows()
