"""Lines of scripts: the request of each, or the place where it is refused."""

from .spelling import HELLO, ZERO, hex_row, row

H = HELLO.hex().encode()
BIG = H.upper()
Z = ZERO.hex().encode()


def items(value):
    return "[" + ", ".join(map(str, value)) + "]"


def word(value):
    return f"ListOf {{ items: {items(value)} }}"


def name(value):
    return f"Name({items(value)})"


def form(variant, **values):
    """A form as Rust's derived `Debug` writes it."""
    inside = ", ".join(f"{field}: {value}" for field, value in values.items())
    return f"{variant} {{ {inside} }}" if values else variant


# A line without its line feed, and its form; the session is the first word.
GOOD = [
    (b"1 create a.git", form("Create", path=word(b"a.git"), near="None")),
    (b"2 create m.git near p.git", form("Create", path=word(b"m.git"), near=f"Some({word(b'p.git')})")),
    (b"1 pool p.git", form("Pool", path=word(b"p.git"))),
    (b"1 delete \xff", form("Delete", path=word(b"\xff"))),
    (b"1 link m.git p.git", form("Link", path=word(b"m.git"), pool=word(b"p.git"))),
    (b"128 begin a.git", form("Begin", path=word(b"a.git"), **{"from": "None"})),
    (b"1 begin from from 4294967295", form("Begin", path=word(b"from"), **{"from": "Some(4294967295)"})),
    (b"1 begin a.git from 0", form("Begin", path=word(b"a.git"), **{"from": "Some(0)"})),
    (b"1 put blob 68656c6c6f20776f726c640a", form("Put", kind="Blob", content=word(b"68656c6c6f20776f726c640a"))),
    (b"1 put tree -", form("Put", kind="Tree", content=word(b"-"))),
    (b"1 put commit 0f", form("Put", kind="Commit", content=word(b"0f"))),
    (b"1 put tag a9", form("Put", kind="Tag", content=word(b"a9"))),
    (b"1 set refs/tags/t %s %s" % (Z, H), form("Set", name=word(b"refs/tags/t"), old=f"Some({name(ZERO)})", new=name(HELLO))),
    (b"1 set * * %s" % H, form("Set", name=word(b"*"), old="None", new=name(HELLO))),
    (b"1 verify refs/tags/t %s" % H, form("Verify", name=word(b"refs/tags/t"), old=f"Some({name(HELLO)})")),
    (b"1 verify refs/tags/t *", form("Verify", name=word(b"refs/tags/t"), old="None")),
    (b"1 get refs/tags/t", form("Get", name=word(b"refs/tags/t"))),
    (b"1 list", form("List", prefix=word(b""))),
    (b"1 list refs/", form("List", prefix=word(b"refs/"))),
    (b"1 cat %s" % H, form("Cat", name=name(HELLO))),
    (b"1 commit", form("Commit")),
    (b"1 abort", form("Abort")),
    (b"1 house repack a.git", form("House", job="Repack", path=word(b"a.git"))),
    (b"1 house prune a.git", form("House", job="Prune", path=word(b"a.git"))),
    (b"1 house refs a.git", form("House", job="PackRefs", path=word(b"a.git"))),
    (b"1 house unlink a.git", form("House", job="Unlink", path=word(b"a.git"))),
    (b"1 step 1", form("Step", n=1)),
    (b"1 step 65536", form("Step", n=65536)),
    (b"1 close", form("Close")),
    (b"1 apply 1 16", form("Apply", partition=1, n=16)),
    (b"1 apply 8 1", form("Apply", partition=8, n=1)),
    (b"1 trim 8", form("Trim", partition=8)),
    (b"1 sweep 1", form("Sweep", partition=1)),
    (b"1 restart", form("Restart")),
]

# Each word of each form wrong, missing and too many, by the place that is bad; without the line feed at the end.
BAD = [
    (b"", 0),
    (b" ", 0),
    (b"0 commit", 0),
    (b"129 commit", 0),
    (b"01 commit", 0),
    (b"+1 commit", 0),
    (b"1x commit", 0),
    (b"x commit", 0),
    (b" 1 commit", 0),
    (b"1", 1),
    (b"1 ", 2),
    (b"1  commit", 2),
    (b"1 Commit", 2),
    (b"1 commits", 2),
    (b"1 comm", 2),
    (b"1 create", 8),
    (b"1 create  a.git", 9),
    (b"1 create a.git ", 15),
    (b"1 create a.git b.git", 15),
    (b"1 create a.git Near b.git", 15),
    (b"1 create a.git near", 19),
    (b"1 create a.git near  b.git", 20),
    (b"1 create a.git near b.git c.git", 26),
    (b"1 pool", 6),
    (b"1 pool ", 7),
    (b"1 pool a.git b.git", 13),
    (b"1 delete", 8),
    (b"1 delete  a.git", 9),
    (b"1 delete a.git b.git", 15),
    (b"1 link", 6),
    (b"1 link a.git", 12),
    (b"1 link a.git  p.git", 13),
    (b"1 link  p.git", 7),
    (b"1 link a.git p.git x", 19),
    (b"1 begin", 7),
    (b"1 begin  a.git", 8),
    (b"1 begin a.git x", 14),
    (b"1 begin a.git from", 18),
    (b"1 begin a.git from ", 19),
    (b"1 begin a.git from x", 19),
    (b"1 begin a.git from -1", 19),
    (b"1 begin a.git from 00", 19),
    (b"1 begin a.git from 4294967296", 19),
    (b"1 begin a.git from 18446744073709551616", 19),
    (b"1 begin a.git from :", 19),
    (b"1 begin a.git from 7 x", 21),
    (b"1 put", 5),
    (b"1 put blob", 10),
    (b"1 put blobs 00", 6),
    (b"1 put Blob 00", 6),
    (b"1 put blob 0", 11),
    (b"1 put blob 0A", 11),
    (b"1 put blob 0g", 11),
    (b"1 put blob 000", 11),
    (b"1 put blob --", 11),
    (b"1 put blob ", 11),
    (b"1 put blob 00 00", 14),
    (b"1 set", 5),
    (b"1 set refs/a", 12),
    (b"1 set refs/a *", 14),
    (b"1 set  * %s" % H, 6),
    (b"1 set refs/a ** %s" % H, 13),
    (b"1 set refs/a h %s" % H, 13),
    (b"1 set refs/a * *", 15),
    (b"1 set refs/a %s %s" % (H, BIG), 54),
    (b"1 set refs/a %s %s" % (BIG, H), 13),
    (b"1 set refs/a %s %s %s" % (Z, H, H), 95),
    (b"1 verify", 8),
    (b"1 verify refs/a", 15),
    (b"1 verify  *", 9),
    (b"1 verify refs/a %s0" % H, 16),
    (b"1 verify refs/a * *", 18),
    (b"1 get", 5),
    (b"1 get  refs/a", 6),
    (b"1 get refs/a refs/b", 13),
    (b"1 list ", 7),
    (b"1 list refs/ refs/", 13),
    (b"1 cat", 5),
    (b"1 cat *", 6),
    (b"1 cat %s" % H[:39], 6),
    (b"1 cat %sD" % H[:39], 6),
    (b"1 cat %s %s" % (H, H), 47),
    (b"1 commit now", 9),
    (b"1 commit ", 9),
    (b"1 abort now", 8),
    (b"1 house", 7),
    (b"1 house prune", 13),
    (b"1 house pack a.git", 8),
    (b"1 house prune  a.git", 14),
    (b"1 house prune a.git x", 20),
    (b"1 step", 6),
    (b"1 step 0", 7),
    (b"1 step 65537", 7),
    (b"1 step 01", 7),
    (b"1 step 1 1", 9),
    (b"1 close now", 8),
    (b"1 apply", 7),
    (b"1 apply 1", 9),
    (b"1 apply 0 1", 8),
    (b"1 apply 9 1", 8),
    (b"1 apply 1 0", 10),
    (b"1 apply 1 17", 10),
    (b"1 apply 1 16 1", 13),
    (b"1 trim", 6),
    (b"1 trim 0", 7),
    (b"1 trim 9", 7),
    (b"1 trim 1 1", 9),
    (b"1 sweep", 7),
    (b"1 sweep 9", 8),
    (b"1 sweep 1 1", 10),
    (b"1 restart now", 10),
]

# Whole inputs whose line feed is missing, or isn't the only one.
UNENDED = [
    (b"", 0),
    (b"1 commit", 8),
    (b"1 begin a.git", 13),
    (b"1 begin", 7),
    (b"1 begin  a.git", 8),
    (b"1 create a.git\n1 commit\n", 9),
    (b"1 commit\n\n", 2),
    (b"1 commit \n\n", 9),
]


def bad(at):
    return f"BadLine {{ at: {at} }}"


def line_row(line, wanted):
    """The line as it stands, where it is printed text; else in hex, with its line feed."""
    found = row("line", line, wanted)
    return hex_row("line", line + b"\n", wanted) if found[0].startswith("hex") else found


def sessions():
    for session in range(1, 129):
        yield line_row(b"%d commit" % session, f"Request {{ session: {session}, form: Commit }}")


def rows():
    for line, wanted in GOOD:
        session = line.split(b" ")[0].decode()
        yield line_row(line, f"Request {{ session: {session}, form: {wanted} }}")
        # Without a line feed each is refused at its end.
        yield hex_row("line", line, bad(len(line)))
    yield from sessions()
    for line, at in BAD:
        yield line_row(line, bad(at))
    for line, at in UNENDED:
        yield hex_row("line", line, bad(at))
