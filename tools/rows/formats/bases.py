"""What the files of a disk recover to, or the first damage: each file read by the rules of docs/FORMATS.md, byte by byte."""

import re

from .names import nine_rules
from .spelling import ZERO

BROKEN_RULE = nine_rules()
PATH = re.compile(rb"[a-z0-9._/-]+")
RECORD = re.compile(rb"(?:blob|tree|commit|tag) (0|[1-9][0-9]*)\0")
LINE = re.compile(rb"([0-9a-f]{40}) (.*)", re.DOTALL)
PEELED = re.compile(rb"\^([0-9a-f]{40})")
LOOSE = re.compile(rb"([0-9a-f]{40})\n")

TURN, MANIFEST, PACK, PACKED, LOOSE_KIND = 2, 3, 5, 6, 7
USUAL = 4_294_967_295


class Bad(Exception):
    """A file may not have what stands at this place."""


class Fields:
    """Fields from left to right: one that is cut or isn't good is refused at its begin."""

    def __init__(self, whole):
        self.whole, self.at = whole, 0

    def take(self, length, good=lambda value: True, begin=None):
        begin = self.at if begin is None else begin
        value = self.whole[self.at : self.at + length]
        if len(value) < length or not good(value):
            raise Bad(begin)
        self.at += length
        return value

    def number(self, length, good=lambda number: True):
        return int.from_bytes(self.take(length, lambda value: good(int.from_bytes(value, "big"))), "big")

    def text(self, good):
        begin = self.at
        length = int.from_bytes(self.take(2), "big")
        return self.take(length, good, begin)

    def end(self):
        if self.at < len(self.whole):
            raise Bad(self.at)


def good_path(path):
    parts = path.split(b"/")
    return len(path) <= 255 and bool(PATH.fullmatch(path)) and not {b"", b".", b".."} & set(parts) and path.endswith(b".git")


def manifest_of(whole):
    """The epoch, the applied position, the next number, and each repository: path, flag, pool, packs, packed file, loose files."""
    it = Fields(whole)
    magic = it.take(4, lambda value: value in (b"GTM1", b"GTM2"))
    epoch, applied = it.number(8), it.number(8)
    next_file = it.number(8, lambda number: number >= 1)
    repos, rules, last = [], [], None
    for _ in range(it.number(4)):
        path = it.text(lambda value: good_path(value) and (last is None or last < value))
        flag = it.number(1, lambda number: number <= 1)
        rules.append((it.at, "pool", len(repos)))
        pool = it.text(lambda value: not value or good_path(value))
        packs = []
        for _ in range(it.number(4)):
            rules.append((it.at, "number", it.number(8)))
            packs.append(rules[-1][2])
        begin, packed = it.at, it.number(8)
        if packed:
            rules.append((begin, "number", packed))
        loose = []
        for _ in range(it.number(4)):
            name = it.text(lambda value: BROKEN_RULE(value) is None and (not loose or loose[-1][0] < value))
            rules.append((it.at, "number", it.number(8)))
            loose.append((name, rules[-1][2]))
        if magic == b"GTM2":
            for _ in range(2):
                it.number(8, lambda number: number <= applied)
        repos.append((path, flag, pool, packs, packed, loose))
        last = path
    it.end()
    over_the_list(rules, repos, next_file)
    return epoch, applied, next_file, repos


def over_the_list(rules, repos, next_file):
    """Numbers are below the next one, none twice, and a member's pool is a pool of the list."""
    pools, seen = {path for path, flag, *_ in repos if flag}, set()
    for at, kind, value in rules:
        if kind == "pool":
            _, flag, pool, *_ = repos[value]
            if pool and (flag or pool not in pools):
                raise Bad(at)
        elif not 1 <= value < next_file or value in seen:
            raise Bad(at)
        else:
            seen.add(value)


def is_record(value):
    """Whether these bytes are a record; the trees, commits and tags here have nothing wrong in them."""
    head = RECORD.match(value)
    return bool(head) and len(value) - head.end() == int(head[1])


def pack_of(whole):
    """The records of a pack: name, place and length of each."""
    it = Fields(whole)
    it.take(4, lambda value: value == b"GTP1")
    items, last = [], None
    for _ in range(it.number(4)):
        begin = it.at
        name = it.take(20, lambda value: last is None or last < value)
        length = it.number(4)
        items.append((name, begin, it.at, length))
        it.take(length, is_record)
        last = name
    index = it.at
    for name, begin, *_ in items:
        it.take(20, lambda value: value == name)
        it.number(8, lambda number: number == begin)
    it.number(8, lambda number: number == index)
    it.end()
    return [(name, at, length) for name, _, at, length in items]


def packed_of(whole):
    """The references of a packed file, ascending: a name, its value and what it is peeled to."""
    refs, at, may_peel = {}, 0, None
    while at < len(whole):
        end = whole.find(b"\n", at)
        line = whole[at : end if end >= 0 else len(whole)]
        ref, peeled = LINE.fullmatch(line), PEELED.fullmatch(line)
        if end < 0:
            raise Bad(at)
        if at == 0 and line[:1] == b"#":
            may_peel = None
        elif peeled and may_peel:
            refs[may_peel][1] = peeled[1]
            may_peel = None
        elif ref and ref[1] != ZERO.hex().encode() and BROKEN_RULE(ref[2]) is None and ref[2] not in refs:
            may_peel = ref[2]
            refs[may_peel] = [ref[1], b""]
        else:
            raise Bad(at)
        at = end + 1
    return [(name, *refs[name]) for name in sorted(refs)]


def loose_of(whole):
    """The digits of a loose file, which is refused at its begin."""
    found = LOOSE.fullmatch(whole)
    if not found:
        raise Bad(0)
    return found[1]


class Damaged(Exception):
    """This file is damaged at this place."""


def read(files, kind, number, reader):
    if (kind, number) not in files:
        raise Damaged(kind, number, 0)
    try:
        return reader(files[kind, number])
    except Bad as bad:
        raise Damaged(kind, number, bad.args[0]) from None


def repo_words(files, repo):
    path, flag, pool, packs, packed, loose = repo
    yield f"repo {path.decode()} {'true' if flag else 'false'} {pool.decode() or '-'} packs"
    for number in packs:
        yield f"{number}:{len(read(files, PACK, number, pack_of))}"
    yield "packed"
    for name, value, peeled in read(files, PACKED, packed, packed_of) if packed else ():
        yield f"{name.decode()}={value.decode()}^{peeled.decode()}"
    yield "loose"
    for name, number in loose:
        yield f"{name.decode()}={read(files, LOOSE_KIND, number, loose_of).decode()}"


def base_words(files, gate, epochs):
    epoch = len(files.get((TURN, 0), b""))
    if epoch > epochs:
        raise Damaged(TURN, 0, epochs)
    applied, next_file, repos = 0, 1, []
    if epoch:
        found, applied, next_file, repos = read(files, MANIFEST, epoch, manifest_of)
        if found != epoch:
            raise Damaged(MANIFEST, epoch, 4)
        if applied > gate:
            raise Damaged(MANIFEST, epoch, 12)
    yield f"base {epoch} {applied} {next_file} {len(repos)}"
    for repo in repos:
        yield from repo_words(files, repo)


def loaded(files, gate, epochs=USUAL):
    """The line of a load."""
    try:
        return " ".join(base_words(files, gate, epochs))
    except Damaged as damaged:
        kind, number, at = damaged.args
        return f"damaged {kind}-{number} {at}"
