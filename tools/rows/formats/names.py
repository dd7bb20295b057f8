"""Names of references, paths of repositories, and names of objects."""

import hashlib
import importlib.machinery
import importlib.util
import itertools
import pathlib

from .spelling import row, hex_row, shown, true

# A text, the number of the first broken rule, and its place. For each rule: names that break it alone, and some that break a
# later one too.
BAD_REFS = [
    (b"HEAD", 2, 0),
    (b"heads/main", 2, 0),
    (b"", 2, 0),
    (b"head:s", 2, 0),
    (b"@", 2, 0),
    (b"refs/heads/a b", 3, 12),
    (b"refs/tags/v1\x7f", 3, 12),
    (b"refs/he ad//x", 3, 7),
    (b"refs/a~/.x", 3, 6),
    (b"refs/a\\b\x00c", 3, 6),
    (b"refs/heads//main", 4, 11),
    (b"refs/heads/", 4, 11),
    (b"refs//.a", 4, 5),
    (b"refs/a//b.lock", 4, 7),
    (b"refs/", 4, 5),
    (b"refs/.hidden", 5, 5),
    (b"refs/heads/.x/y", 5, 11),
    (b"refs/..x", 5, 5),
    (b"refs/.a@{", 5, 5),
    (b"refs/.lock", 5, 5),
    (b"refs/heads/a..b", 6, 12),
    (b"refs/a..b/c..d", 6, 6),
    (b"refs/a..b.lock", 6, 6),
    (b"refs/a..", 6, 6),
    (b"refs/heads/a@{1", 7, 12),
    (b"refs/@{u}", 7, 5),
    (b"refs/x.lock/a@{", 7, 13),
    (b"refs/a@{b.", 7, 6),
    (b"refs/heads/main.lock", 8, 11),
    (b"refs/a.lock/b", 8, 5),
    (b"refs/a.lock/b.", 8, 5),
    (b"refs/x.lock/y/z.", 8, 5),
    (b"refs/heads/main.", 9, 15),
    (b"refs/x.", 9, 6),
    (b"refs/".ljust(1025, b"a"), 1, 1024),
    (b"refs/heads/".ljust(2000, b"a"), 1, 1024),
    (b"heads/".ljust(1025, b"a"), 1, 1024),
    (b"refs/".ljust(1023, b"a") + b"..", 1, 1024),
]

GOOD_REFS = [
    b"refs/heads/main",
    b"refs/heads/\x80\xff",
    b"refs/tags/\xc3\xa9t\xc3\xa9",
    b"refs/@",
    b"refs/-a",
    b"refs/a@b{",
    b"refs/a{@",
    b"refs/a.b./c",
    b"refs/a.lock.b",
    b"refs/heads/lock",
    b"refs/heads/alock",
    b"refs/a.LOCK",
    b"refs/".ljust(1024, b"a"),
]

PIECES = [b"a", b".", b"/", b"@", b"{", b".lock", b"lock", b" ", b"*", b"\x7f", b"\x80"]

# A path and the place where it is refused, or None.
PATHS = [
    (b"a.git", None),
    (b".git", None),
    (b"team/a-b_c.0.git", None),
    (b"a/.git", None),
    (b"", 0),
    (b"A.git", 0),
    (b"a b.git", 1),
    (b"a/../B", 5),
    (b"a//b.git", 2),
    (b"/a.git", 0),
    (b"./a.git", 0),
    (b"a/../b.git", 2),
    (b"a.git/", 6),
    (b"a/..", 2),
    (b"a.gi", 4),
    (b"\xc3\xa9.git", 0),
    (b".git".rjust(255, b"a"), None),
    (b".git".rjust(256, b"a"), 255),
]

DIGITS = b"a9993e364706816aba3e25717850c26c9cd0d89d"

# A text that is no name, and its first bad place.
BAD_NAMES = [
    (b"", 0),
    (b"a9993e", 6),
    (b"A9993e364706816aba3e25717850c26c9cd0d89d", 0),
    (b"a9993e364706816aba3e25717850c26c9cd0d89D", 39),
    (b"a9993e364706816aba3e25717850c26c9cd0d89d0", 40),
    (b"a9993e364706816gba3e25717850c26c9cd0d89d!", 15),
]


def nine_rules():
    """The rules as tools/check-ref-format has them, which holds them against Git."""
    path = pathlib.Path(__file__).resolve().parents[2] / "check-ref-format"
    loader = importlib.machinery.SourceFileLoader("check_ref_format", str(path))
    module = importlib.util.module_from_spec(importlib.util.spec_from_loader(loader.name, loader))
    loader.exec_module(module)
    return module.broken_rule


def ref_rows():
    broken_rule = nine_rules()
    for name, rule, at in BAD_REFS:
        assert broken_rule(name) == (rule, at), name
        yield row("ref", name, f"BadRef {{ rule: {rule}, at: {at} }}")
    for name in GOOD_REFS:
        assert broken_rule(name) is None, name
        yield row("ref", name, shown(name))
    for byte in range(256):
        name = b"refs/a" + bytes([byte]) + b"b"
        bad = byte < 0x20 or byte == 0x7F or byte in b" ~^:?*[\\"
        yield row("ref", name, "BadRef { rule: 3, at: 6 }" if bad else shown(name))
    for count in range(3):
        for pieces in itertools.product(PIECES, repeat=count):
            name = b"refs/x/" + b"".join(pieces)
            broken = broken_rule(name)
            yield row("ref", name, f"BadRef {{ rule: {broken[0]}, at: {broken[1]} }}" if broken else shown(name))


def path_rows():
    for path, at in PATHS:
        yield row("path", path, path.decode() if at is None else f"BadPath {{ at: {at} }}")
    for byte in range(256):
        path = b"a" + bytes([byte]) + b"b.git"
        good = byte in b"abcdefghijklmnopqrstuvwxyz0123456789._-/"
        yield row("path", path, path.decode() if good else "BadPath { at: 1 }")


def name_rows():
    for message in (b"abc", b"", b"blob 0\0"):
        digits = hashlib.sha1(message).hexdigest()
        yield row("digest", message, digits)
        yield row("name", digits.encode(), f"{digits} {digits}")
    yield row("name", b"0" * 40, f"{'0' * 40} {'0' * 40}")
    for text, at in BAD_NAMES:
        yield row("name", text, f"BadName {{ at: {at} }}")
    for length in range(40):
        yield row("name", DIGITS[:length], f"BadName {{ at: {length} }}")
    for byte in range(256):
        text = DIGITS[:20] + bytes([byte]) + DIGITS[21:]
        wanted = f"{text.decode()} {text.decode()}" if byte in b"0123456789abcdef" else "BadName { at: 20 }"
        yield row("name", text, wanted)


# Two references, or two paths: the first byte that differs decides, and where one begins the other, the shorter is less.
ORDERS = [
    ("refs/a", "refs/a", "Equal"),
    ("refs/a", "refs/a/b", "Less"),
    ("refs/b", "refs/a/zzz", "Greater"),
    ("refs/z", "refs/\x80", "Less"),
    ("b.git", "a/zzz.git", "Greater"),
    ("a.git", "a.git", "Equal"),
    ("a.git", "a.git.git", "Less"),
]


def key_rows():
    for left, right, wanted in ORDERS:
        yield f"order {left} {right}", [f"{wanted} {true(wanted == 'Equal')}"]
    yield "keys refs/b refs/a refs/b", ["Some(2) None"]
    yield "keys a.git b.git a.git c.git", ["None Some(3)"]
    many = [f"refs/k{i % 700}" for i in range(1025)]
    yield "keys " + " ".join(many), ["Some(700) None"]


def rows():
    yield from ref_rows()
    yield from path_rows()
    yield from name_rows()
    yield from key_rows()
