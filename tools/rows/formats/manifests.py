"""Manifests in both spellings: cut at each byte, with single bytes changed, and with lists of many items."""

from .spelling import changed, cut_rows, hex_row, text, true, u8, u32, u64

EPOCH, APPLIED = 1, 2


class Repo:
    """The files of a repository."""

    def __init__(self, path, is_pool=False, pool=b"", packs=(), packed=0, loose=(), lasts=(0, 0)):
        self.path, self.is_pool, self.pool, self.packs, self.packed, self.loose = path, is_pool, pool, packs, packed, loose
        self.lasts = lasts

    def fields(self, second):
        numbers = [u32(len(self.packs)), *map(u64, self.packs), u64(self.packed)]
        loose = [u32(len(self.loose)), *(field for name, file in self.loose for field in (text(name), u64(file)))]
        return [text(self.path), u8(self.is_pool), text(self.pool), *numbers, *loose, *(map(u64, self.lasts) if second else ())]

    def lines(self):
        packs = ", ".join(map(str, self.packs))
        numbers = f"[{packs}] {self.packed} {self.lasts[0]} {self.lasts[1]}"
        first = f"  {self.path.decode()} {true(self.is_pool)} {self.pool.decode() or '-'} {numbers}"
        return [first, *(f"    {name.decode()} {file}" for name, file in self.loose)]


def fields(next_file, repos, second=True):
    head = [b"GTM2" if second else b"GTM1", u64(EPOCH), u64(APPLIED), u64(next_file), u32(len(repos))]
    return head + [field for repo in repos for field in repo.fields(second)]


def lines(next_file, repos, second=True):
    # What is written is the second spelling.
    first = f"epoch {EPOCH} applied {APPLIED} next {next_file} {true(second)}"
    return [first, *(line for repo in repos for line in repo.lines())]


def bad(at):
    return f"BadManifest {{ at: {at} }}"


# One repository with pack 1 and a tag in file 2; a pool and its member, without files; and one with all that there may be.
ONE = [Repo(b"a.git", packs=[1], loose=[(b"refs/tags/t", 2)])]
MEMBER = [Repo(b"a.git", is_pool=True), Repo(b"b.git", pool=b"a.git")]
FULL = [
    Repo(b"a.git", packs=[5, 3], packed=4, loose=[(b"refs/heads/a", 2), (b"refs/heads/b", 7)], lasts=(1, 2)),
    Repo(b"b.git", pool=b"c.git", packs=[6], lasts=(2, 0)),
    Repo(b"c.git", is_pool=True, packs=[1]),
]

SECOND = b"".join(fields(3, ONE))
MEMBER_BYTES = b"".join(fields(1, MEMBER))

# The bytes, the place of one, what stands there instead, and where that is refused.
CHANGES = [
    (SECOND, 3, b"3", 0),
    (SECOND, 27, b"\x00", 20),
    (SECOND, 34, b"A", 32),
    (SECOND, 39, b"\x02", 39),
    (SECOND, 41, b"\x01", 40),
    (SECOND, 53, b"\x00", 46),
    (SECOND, 53, b"\x03", 46),
    (SECOND, 53, b"\x02", 79),
    (SECOND, 61, b"\x01", 54),
    (SECOND, 68, b"R", 66),
    (SECOND, 94, b"\x03", 87),
    (SECOND, 102, b"\x03", 95),
    # The pool of a member isn't a pool, is one of its own, isn't there, and is the member; a path that stands twice.
    (MEMBER_BYTES, 39, b"\x00", 82),
    (MEMBER_BYTES, 81, b"\x01", 82),
    (MEMBER_BYTES, 84, b"0", 82),
    (MEMBER_BYTES, 84, b"b", 82),
    (MEMBER_BYTES, 76, b"a", 74),
]


def good_rows():
    for next_file, repos in [(3, ONE), (1, MEMBER), (8, FULL), (1, [])]:
        yield hex_row("manifest", b"".join(fields(next_file, repos)), *lines(next_file, repos))
    yield hex_row("manifest", b"".join(fields(3, ONE, second=False)), *lines(3, ONE, second=False))
    for count in (1023, 1024, 1025):
        repos = [Repo(b"a.git", packs=range(1, count + 1))]
        yield hex_row("manifest", b"".join(fields(count + 1, repos)), *lines(count + 1, repos))
    repos = [Repo(b"a%04d.git" % i) for i in range(1025)]
    yield hex_row("manifest", b"".join(fields(1, repos)), *lines(1, repos))


def rows():
    first = b"".join(fields(3, ONE, second=False))
    assert (len(first), len(SECOND)) == (87, 103)
    # The worked example of docs/FORMATS.md.
    assert first.hex() == (
        "47544d3100000000000000010000000000000002000000000000000300000001" "0005612e676974000000"
        "000000010000000000000001" "0000000000000000" "00000001" "000b726566732f746167732f74" "0000000000000002"
    )
    yield from good_rows()
    yield from cut_rows("manifest", fields(3, ONE, second=False), bad)
    for next_file, repos in [(3, ONE), (8, FULL)]:
        yield from cut_rows("manifest", fields(next_file, repos), bad)
    for whole, place, value, at in CHANGES:
        yield hex_row("manifest", changed(whole, place, value), bad(at))
    for whole in (first, SECOND, MEMBER_BYTES):
        yield hex_row("manifest", whole + b"\0", bad(len(whole)))
