"""Records, by their contents and whole, and what they need."""

from .spelling import EMPTY_TREE, HELLO, hex_row, name, record

TREE_NAME = "397571aa300775d469c544823d9bf91545f5831f"
PARENTS = ["dea928ad760fb0fd4d9415928c1b945d7f9599c4", "025ec52e0105353c169a6361bc0a5781a2f4a0ac"]
SUBMODULE = bytes.fromhex("11f6ad8ec52a2984abaafd7c3b516503785c2072")

# A file, a submodule, a folder and the file again.
TREE_ENTRIES = [
    b"100644 README\0" + HELLO,
    b"160000 kit\0" + SUBMODULE,
    b"40000 src\0" + EMPTY_TREE,
    b"100755 test.sh\0" + HELLO,
]
TREE = b"".join(TREE_ENTRIES)

COMMIT_LINE = f"tree {TREE_NAME}\n".encode()
PARENT_LINES = [f"parent {parent}\n".encode() for parent in PARENTS]

# Two parents and a signature; the message begins as a parent line does.
COMMIT = (
    COMMIT_LINE
    + b"".join(PARENT_LINES)
    + b"author A U Thor <author@example.com> 1112911995 -0700\n"
    + b"committer C O Mitter <committer@example.com> 1112911995 -0700\n"
    + b"gpgsig -----BEGIN PGP SIGNATURE-----\n \n iQEzBAABCAAdFiEE\n =abcd\n -----END PGP SIGNATURE-----\n"
    + b"\nparent of none\n"
)
COMMIT_NAME = "af977bf91c990e37d623bec5d05e11b31802ab5f"

TAG_LINE = f"object {COMMIT_NAME}\n".encode()
TAG = (
    TAG_LINE
    + b"type commit\ntag v1.0\ntagger C O Mitter <committer@example.com> 1112911996 -0700\n\nthe first release\n"
)

# A kind, a content, the name that `git hash-object` gives it, and what it needs.
VECTORS = [
    ("blob", b"hello world\n", "3b18e512dba79e4c8300dd08aeb37f8e728b8dad", []),
    ("blob", b"test content\n", "d670460b4b4aece5915caf5c68d12f560a9fe3e4", []),
    ("blob", b"", "e69de29bb2d1d6434b8b29ae775ad8c2e48c5391", []),
    ("tree", b"", "4b825dc642cb6eb9a060e54bf8d69288fbee4904", []),
    ("tree", TREE, TREE_NAME, [HELLO.hex(), EMPTY_TREE.hex()]),
    ("commit", COMMIT, COMMIT_NAME, [TREE_NAME, *PARENTS]),
    ("tag", TAG, "a6f149c364142047c0f069d8c46df83e397ace6b", [COMMIT_NAME]),
]

A, B, C, D, E = (letter * 20 for letter in (b"a", b"b", b"c", b"d", b"e"))
TREE_LINE = COMMIT_LINE.decode()
OBJECT_LINE = f"object {TREE_NAME}\n".encode()

# A kind, a content, and where it is refused in the content.
BAD_CONTENTS = [
    ("tree", b"1", 0),
    ("tree", b" a\0" + A, 0),
    ("tree", b"8 a\0" + A, 0),
    ("tree", b"1 \0" + A, 0),
    ("tree", b"1 a", 0),
    ("tree", b"1 a\0" + A[:19], 0),
    ("tree", b"00000001 a\0" + A, 0),
    ("tree", b"1 a\0" + A + b"1 b", 24),
    ("tree", b"1 a\0" + A + b"1 b\0" + B + b"9", 48),
    ("commit", b"", 0),
    ("commit", COMMIT_LINE[:-1], 0),
    ("commit", COMMIT_LINE[:44] + b"F\n", 0),
    ("commit", COMMIT_LINE[:43] + b"\n1f", 0),
    ("commit", b"tree  " + COMMIT_LINE[6:], 0),
    ("commit", COMMIT_LINE + b"parent ", 46),
    ("commit", COMMIT_LINE + b"parent " + COMMIT_LINE[5:] + b"parent 3\n", 94),
    ("tag", OBJECT_LINE[:-1] + b" \n", 0),
    ("tag", OBJECT_LINE, 48),
    ("tag", OBJECT_LINE + b"type commits\n", 48),
    ("tag", OBJECT_LINE + b"type blob", 48),
]

# A kind, a content of it, and what that needs.
GOOD_CONTENTS = [
    ("blob", b"\0", []),
    ("blob", COMMIT_LINE, []),
    ("tree", b"0000001 a\0" + A, [A.hex()]),
    # A submodule with a leading zero, a mode that isn't one, and the greater name first.
    ("tree", b"0160000 a\0" + A + b"1600000 b\0" + C + b"7 b\0" + B, [C.hex(), B.hex()]),
    ("tree", b"".join(b"7 f\0" + object for object in (A, B, C, A, D)) + b"160000 g\0" + E, [A.hex(), B.hex(), C.hex(), D.hex()]),
    ("commit", COMMIT_LINE, [TREE_NAME]),
    ("commit", COMMIT_LINE + b"parent", [TREE_NAME]),
    ("commit", COMMIT_LINE + b"author\nparent 3\n", [TREE_NAME]),
    ("tag", OBJECT_LINE + b"type blob\n", [TREE_NAME]),
    ("tag", OBJECT_LINE + b"type tree\n", [TREE_NAME]),
    ("tag", OBJECT_LINE + b"type tag\n", [TREE_NAME]),
]

# A whole record, and where it is refused.
BAD_RECORDS = [
    (b"", 0),
    (b"blob", 0),
    (b"blob 0", 0),
    (b"blob \0", 0),
    (b"blob 00\0", 0),
    (b"blob 01\0a", 0),
    (b"blob +1\0a", 0),
    (b"blob 2\0a", 0),
    (b"Blob 1\0a", 0),
    (b"blobs 0\0", 0),
    (b"tree 1\x001", 7),
    (b"commit 3\0abc", 9),
]


def bad(at):
    return f"BadObject {{ at: {at} }}"


def lines(kind, content, needs):
    """What is printed of a record."""
    whole = record(kind, content)
    first = f"{kind.capitalize()} {name(whole).hex()} {len(whole)} {len(content)}"
    return [first, *(f"  needs {need}" for need in needs)]


def content_rows():
    for kind, content, known, needs in VECTORS:
        assert name(record(kind, content)).hex() == known
        yield hex_row(kind, content, *lines(kind, content, needs))
        yield hex_row("record", record(kind, content), *lines(kind, content, needs))
    for kind, content, needs in GOOD_CONTENTS:
        yield hex_row(kind, content, *lines(kind, content, needs))
    for kind, content, at in BAD_CONTENTS:
        yield hex_row(kind, content, bad(at))
        whole = record(kind, content)
        yield hex_row("record", whole, bad(len(whole) - len(content) + at))


def cut_contents():
    """Where the tree, the commit and the tag are refused when they are cut at each byte, or what they then need."""
    ends = [sum(map(len, TREE_ENTRIES[:count])) for count in range(5)]
    needs = [[], [HELLO.hex()], [HELLO.hex()], [HELLO.hex(), EMPTY_TREE.hex()], [HELLO.hex(), EMPTY_TREE.hex()]]
    for cut in range(len(TREE)):
        entry = sum(end <= cut for end in ends) - 1
        yield "tree", TREE[:cut], needs[entry] if cut in ends else ends[entry]
    for cut in range(len(COMMIT)):
        whole_parents = min(max(cut - 46, 0) // 48, 2)
        line = 46 + 48 * whole_parents
        in_parent = whole_parents < 2 and cut - line >= len(b"parent ")
        yield "commit", COMMIT[:cut], 0 if cut < 46 else line if in_parent else [TREE_NAME, *PARENTS[:whole_parents]]
    for cut in range(len(TAG)):
        yield "tag", TAG[:cut], 0 if cut < 48 else 48 if cut < 60 else [COMMIT_NAME]


def cut_rows():
    for kind, content, wanted in cut_contents():
        yield hex_row(kind, content, *(lines(kind, content, wanted) if isinstance(wanted, list) else [bad(wanted)]))
    whole = record("blob", b"hello world\n")
    for cut in range(len(whole)):
        yield hex_row("record", whole[:cut], bad(0))


def size_rows():
    """The header of 16,777,202 bytes has 14: together they are 16,777,216. A tree that is too large and bad is too large."""
    yield "zeros blob 16777202", ["16777216 16777202"]
    yield "zeros blob 16777203", ["TooLarge"]
    yield "zeros tree 16777203", ["TooLarge"]
    yield "zeros tree 16777202", [bad(0)]


def rows():
    yield from content_rows()
    yield hex_row("record", b"blob 0\0", *lines("blob", b"", []))
    for whole, at in BAD_RECORDS:
        yield hex_row("record", whole, bad(at))
    yield from cut_rows()
    yield from size_rows()
