"""Entries of a log: each kind of change, cut at each byte, and with single bytes changed."""

from .spelling import (
    EMPTY_BLOB, EMPTY_TREE, HELLO, HELLO_RECORD, TEST, TEST_RECORD, ZERO,
    begins, changed, cut_rows, digits, hex_row, text, true, u8, u32, u64,
)


class Entry:
    """An entry: its fields one behind the other, and the lines that are printed of its change."""

    def __init__(self, position, path, change, magic=b"GTE1"):
        self.position, self.path = position, path
        fields, self.lines = change
        self.fields = [magic, u64(position), text(path), *fields]
        self.bytes = b"".join(self.fields)

    def wanted(self):
        return [f"{self.position} {self.path.decode()} true", *(f"  {line}" for line in self.lines)]


def create(pool):
    return [u8(1), u8(pool)], [f"create pool {true(pool)}"]


def delete():
    return [u8(2)], ["delete"]


def link(pool):
    return [u8(3), text(pool)], [f"link {pool.decode()}"]


def names(names):
    return [u32(len(names)), *names]


def packing(kind, word, file, dropped):
    return [u8(kind), u64(file), *names(dropped)], [f"{word} {file}", *(f"drops {name.hex()}" for name in dropped)]


def of_file(kind, word, file):
    return [u8(kind), u64(file)], [f"{word} {file}"]


def update_fields(second, name, old, new):
    if new is None:
        return [text(name), old, u8(0)]
    return [text(name), old, *([u8(1)] if second else []), new]


def write(refs, needed, added, second=False):
    fields = [u8(4), u32(len(refs)), *(field for ref in refs for field in update_fields(second, *ref)), *names(needed)]
    fields += [u32(len(added)), *(field for name, whole in added for field in (name, u32(len(whole)), whole))]
    lines = [f"write {len(refs)} {len(needed)} {len(added)}"]
    lines += [f"ref {name.decode()} {old.hex()} {digits(new or b'')}" for name, old, new in refs]
    lines += [f"needs {name.hex()}" for name in needed]
    lines += [f"adds {name.hex()} {whole.hex()}" for name, whole in added]
    return fields, lines


GIT = b"a.git"
ONE = bytes(19) + b"\x01"

CREATE = Entry(1, GIT, create(False))
POOL = Entry(0x0102030405060708, b"p.git", create(True))
DELETE = Entry(2, GIT, delete())
LINK = Entry(3, GIT, link(b"p.git"))
# Deletes a tag, creates a branch, relies on two objects, and adds two.
WRITE = Entry(2, GIT, write(
    [(b"refs/tags/t", HELLO, ZERO), (b"refs/heads/m", ZERO, TEST)],
    [EMPTY_TREE, EMPTY_BLOB],
    [(HELLO, HELLO_RECORD), (TEST, TEST_RECORD)],
))
NOTHING = Entry(1, GIT, write([], [], []))
CHECK = Entry(3, GIT, write([(b"refs/tags/t", HELLO, None)], [], [], second=True), b"GTE2")
# Two updates and a check between them.
BOTH = Entry(4, GIT, write([(b"refs/a", ONE, HELLO), (b"refs/b", TEST, None), (b"refs/c", HELLO, ZERO)], [ONE], [], second=True), b"GTE2")
REPACK = Entry(5, GIT, packing(5, "repack", 7, [HELLO, TEST]))
PRUNE = Entry(6, GIT, packing(6, "prune", 8, [HELLO]))
PACK_REFS = Entry(7, GIT, of_file(7, "packrefs", 9))
UNLINK = Entry(8, GIT, of_file(8, "unlink", 10))
ENTRIES = [CREATE, POOL, DELETE, LINK, WRITE, NOTHING, CHECK, BOTH, REPACK, PRUNE, PACK_REFS, UNLINK]
MANY = Entry(9, GIT, packing(5, "repack", 11, [u32(i) * 5 for i in range(1025)]))

# An entry, the place of a byte, what stands there instead, and where that is refused.
CHANGES = [
    # The magic, the path, the kind, the flag, and a byte behind the last field.
    (CREATE, 0, b"g", 0),
    (CREATE, 3, b"3", 0),
    (CREATE, 3, b"2", 19),
    (CREATE, 13, b"\x04", 12),
    (CREATE, 14, b"A", 12),
    (CREATE, 19, b"\x00", 19),
    (CREATE, 19, b"\x09", 19),
    (CREATE, 19, b"\x02", 20),
    (CREATE, 20, b"\x02", 20),
    # The path of the pool.
    (LINK, 22, b"P", 20),
    # Another version; a reference less and more; bad references.
    (WRITE, 3, b"2", 58),
    (WRITE, 23, b"\x01", 101),
    (WRITE, 23, b"\x03", 131),
    (WRITE, 26, b"R", 24),
    (WRITE, 90, b"/", 77),
    # Names and records: a count that is one off, a wrong order, and a name that stands twice.
    (WRITE, 134, b"\x01", 183),
    (WRITE, 134, b"\x03", 175),
    (WRITE, 135, b"\xe7", 155),
    (WRITE, 155, EMPTY_TREE, 155),
    (WRITE, 178, b"\x01", 223),
    (WRITE, 178, b"\x03", 268),
    (WRITE, 179, b"\xd7", 223),
    (WRITE, 223, HELLO, 223),
    # A record that is cut or isn't one.
    (WRITE, 199, b"\x01", 203),
    (WRITE, 202, b"\x13", 203),
    (WRITE, 203, b"c", 203),
    (WRITE, 209, b"3", 203),
    (WRITE, 246, b"\x14", 247),
    (WRITE, 246, b"\x16", 247),
    # No check; not a write; counts and flags that are off.
    (NOTHING, 3, b"2", 0),
    (CHECK, 3, b"1", 57),
    (CHECK, 19, b"\x01", 19),
    (CHECK, 23, b"\x00", 48),
    (CHECK, 23, b"\x02", 58),
    (CHECK, 57, b"\x01", 58),
    (CHECK, 57, b"\x02", 57),
    (CHECK, 61, b"\x01", 62),
    (CHECK, 65, b"\x01", 66),
    # Flags, and a reference that stands twice.
    (BOTH, 52, b"\x02", 52),
    (BOTH, 101, b"\x01", 122),
    (BOTH, 109, b"a", 102),
    (BOTH, 109, b"b", 102),
    # Names that are dropped.
    (REPACK, 31, b"\x01", 52),
    (REPACK, 31, b"\x03", 72),
    (REPACK, 32, b"\xd7", 52),
    (REPACK, 52, HELLO, 52),
    (PRUNE, 31, b"\x02", 52),
    (PACK_REFS, 19, b"\x05", 28),
]


def bad(at):
    return f"BadEntry {{ at: {at} }}"


def changed_rows():
    for entry, place, value, at in CHANGES:
        yield hex_row("entry", changed(entry.bytes, place, value), bad(at))
    # Whether a record has its name isn't looked at.
    other = b"\x3c" + HELLO[1:]
    renamed = Entry(2, GIT, write(
        [(b"refs/tags/t", HELLO, ZERO), (b"refs/heads/m", ZERO, TEST)],
        [EMPTY_TREE, EMPTY_BLOB],
        [(other, HELLO_RECORD), (TEST, TEST_RECORD)],
    ))
    assert renamed.bytes == changed(WRITE.bytes, 179, b"\x3c")
    yield hex_row("entry", renamed.bytes, *renamed.wanted())
    # Each other kind of change, and each other magic.
    for byte in [0, *range(9, 256)]:
        yield hex_row("entry", changed(DELETE.bytes, 19, bytes([byte])), bad(19))
    for place in range(4):
        yield hex_row("entry", changed(CREATE.bytes, place, b"\0"), bad(0))


def longer_rows():
    for entry in ENTRIES:
        yield hex_row("entry", entry.bytes + b"\0", bad(len(entry.bytes)))
    # They come before the missing check.
    yield hex_row("entry", changed(NOTHING.bytes, 3, b"2") + b"\0", bad(len(NOTHING.bytes)))


def rows():
    # The worked example of docs/FORMATS.md.
    assert CREATE.bytes.hex() == "4754453100000000000000010005612e6769740100"
    assert begins(WRITE.fields)[-1] == 268
    for entry in [*ENTRIES, MANY]:
        yield hex_row("entry", entry.bytes, *entry.wanted())
    for entry in ENTRIES:
        yield from cut_rows("entry", entry.fields, bad)
    yield from changed_rows()
    yield from longer_rows()
