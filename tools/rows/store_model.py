"""A plain model of the store: a disk in memory that fails by a list, and scripts that are done over it.

It is written from docs/FORMATS.md and keeps whole contents, one for each position. It knows which calls of the disk a request
makes, so it tells the answers of a run in which calls fail, and what each stop leaves.
"""
import hashlib
import struct
from typing import NamedTuple

from formats.bases import LOOSE_KIND, MANIFEST, PACK, PACKED, Bad, loose_of, manifest_of, pack_of, packed_of
from store_checkpoint import ZERO, Checkpoint, Shelf, text

GATE, TURN = (1, 0), (2, 0)


def hex_name(record):
    return hashlib.sha1(record).hexdigest()


class Failed(Exception):
    """A call of the disk failed."""


class Ends(Exception):
    """The run ends with this status."""


# ---- disk

class File:
    """What a read shows of a file, and what a stop may leave of it."""

    def __init__(self, shown=None):
        self.shown, self.synced, self.more, self.loose = shown, shown, 0, False

    def copy(self):
        other = File()
        other.__dict__.update(self.__dict__)
        return other

    def is_synced(self):
        return not self.loose and not self.more

    def left(self, choice):
        if choice == "most":
            return self.shown
        if self.loose:
            return None if choice == "least" else b"\xff"
        if choice == "least" or not self.more:
            return self.synced
        return (self.synced or b"") + b"\xaa" * ((self.more + 1) // 2)


class Disk:
    def __init__(self, files=None, faults=()):
        self.files = {key: File(bytes_) for key, bytes_ in (files or {}).items()}
        self.faults, self.calls, self.failed = dict(faults), 0, 0
        self.moments, self.pending = [], set()
        self.note()

    def note(self):
        self.moments.append({key: file.copy() for key, file in self.files.items()})

    def tick(self):
        return len(self.moments) - 1

    def kept(self):
        """What is kept of the piece of this call, where it is to fail."""
        kept = self.faults.get(self.calls)
        self.calls += 1
        if kept is not None:
            self.failed += 1
        return kept

    def read_call(self):
        if self.kept() is not None:
            raise Failed

    def shown(self, key):
        return self.files[key].shown if key in self.files else None

    def len(self, key):
        self.read_call()
        shown = self.shown(key)
        return None if shown is None else len(shown)

    def read_at(self, key, at, count):
        self.read_call()
        return (self.shown(key) or b"")[at:at + count]

    def write(self, key, piece):
        kept = self.kept()
        file = self.files.setdefault(key, File())
        file.shown = piece if kept is None else piece[:kept]
        file.loose = True
        self.changed(key, kept)

    def append(self, key, piece):
        kept = self.kept()
        file = self.files.setdefault(key, File())
        file.shown = (file.shown or b"") + (piece if kept is None else piece[:kept])
        file.more += len(piece)
        self.changed(key, kept)

    def changed(self, key, kept):
        self.pending.add(key)
        self.note()
        if kept is not None:
            raise Failed

    def sync(self, key):
        self.read_call()
        if key in self.pending:
            self.pending.remove(key)
            self.files[key] = File(self.files[key].shown)
            self.note()

    def stopped(self, tick, choice):
        """The files that a stop at a moment leaves."""
        left = {key: file.left(choice) for key, file in self.moments[tick].items()}
        return {key: bytes_ for key, bytes_ in left.items() if bytes_ is not None}

    def at_end(self, choice="most"):
        return self.stopped(self.tick(), choice)


# ---- entries

class Entry:
    def __init__(self, position, path, change, refs=(), needed=(), added=()):
        self.position, self.path, self.change = position, path, change
        self.refs, self.needed, self.added = list(refs), list(needed), list(added)
        self.places = {}
        self.fields = []
        self.bytes = self.spell()
        SPELLED[self.bytes] = self

    def spell(self):
        """The bytes of the entry; `fields` gets the place of each field, and `places` that of each record."""
        checks = any(new is None for _, _, new in self.refs)
        out = bytearray()

        def field(piece):
            self.fields.append(len(out))
            out.extend(piece)

        field(b"GTE2" if checks else b"GTE1")
        field(struct.pack(">Q", self.position))
        field(text(self.path))
        field(bytes([{"create": 1, "delete": 2, "write": 4}[self.change]]))
        if self.change == "create":
            field(b"\0")
        if self.change == "write":
            self.spell_write(field, out, checks)
        return bytes(out)

    def spell_write(self, field, out, checks):
        field(struct.pack(">I", len(self.refs)))
        for name, old, new in self.refs:
            field(text(name))
            field(bytes.fromhex(old))
            if checks:
                field(b"\0" if new is None else b"\1")
            if new is not None:
                field(bytes.fromhex(new))
        field(struct.pack(">I", len(self.needed)))
        for name in self.needed:
            field(bytes.fromhex(name))
        field(struct.pack(">I", len(self.added)))
        for name, record in self.added:
            field(bytes.fromhex(name))
            field(struct.pack(">I", len(record)))
            self.places[name] = (len(out), len(record))
            field(record)


SPELLED = {}


class Repo:
    """The references and the objects of a repository: each object's file, place and length."""

    def __init__(self, refs=None, objects=None):
        self.refs, self.objects = dict(refs or {}), dict(objects or {})

    def after(self, entry):
        after = Repo(self.refs, self.objects)
        for name, _, new in entry.refs:
            if new == ZERO:
                after.refs.pop(name, None)
            elif new is not None:
                after.refs[name] = new
        for name, _ in entry.added:
            after.objects[name] = ((4, entry.position), *entry.places[name])
        return after


def fits(content, entry):
    if entry.change == "create":
        return entry.path not in content
    if entry.path not in content:
        return False
    repo = content[entry.path]
    return all(repo.refs.get(name, ZERO) == old for name, old, _ in entry.refs) and not any(
        name in repo.objects for name, _ in entry.added)


def after(content, entry):
    content = dict(content)
    if entry.change == "create":
        content[entry.path] = Repo()
    elif entry.change == "delete":
        del content[entry.path]
    else:
        content[entry.path] = content[entry.path].after(entry)
    return content


# ---- objects

def needs(kind, content):
    """What an object mentions, each once."""
    found = []
    if kind == "tree":
        at = 0
        while at < len(content):
            space, end = content.index(b" ", at), content.index(b"\0", at)
            if int(content[at:space], 8) != 0o160000:
                found.append(content[end + 1:end + 21].hex())
            at = end + 21
    if kind == "commit":
        for line in content.split(b"\n"):
            if not line.startswith((b"tree ", b"parent ")):
                break
            found.append(line.split(b" ")[1].decode())
    if kind == "tag":
        found.append(content[7:47].decode())
    return list(dict.fromkeys(found))


# ---- a partition

class Partition:
    def __init__(self, disk, limits):
        self.disk, self.limits = disk, limits
        self.mount()

    def mount(self):
        self.doubt, self.turn_doubt, self.live = None, None, 0
        try:
            self.disk.sync(GATE)
            count = self.disk.len(GATE) or 0
            if count > self.limits.positions:
                raise Ends(damaged(GATE, self.limits.positions))
            self.checkpoint, content = self.load(count)
            self.base, self.next_file = self.checkpoint.applied, self.checkpoint.next_file
            self.contents, self.log = [content], []
            for position in range(self.base + 1, count + 1):
                self.read(position)
        except Failed:
            raise Ends(DISK_FAULT) from None

    def load(self, gate):
        """What the manifest of the epoch says, and the content that its files have."""
        self.disk.sync(TURN)
        epoch = self.disk.len(TURN) or 0
        if epoch > self.limits.epochs:
            raise Ends(damaged(TURN, self.limits.epochs))
        if epoch == 0:
            return Checkpoint(), {}
        key = (MANIFEST, epoch)
        found, applied, next_file, repos = self.parsed(key, manifest_of)
        if found != epoch:
            raise Ends(damaged(key, 4))
        if applied > gate:
            raise Ends(damaged(key, 12))
        shelves = {path.decode(): Shelf(packs, packed, {name.decode(): n for name, n in loose}) for path, _, _, packs, packed, loose in repos}
        return Checkpoint(epoch, applied, next_file, shelves), {repo[0].decode(): self.load_repo(repo) for repo in repos}

    def load_repo(self, repo):
        """The first pack that has a name counts, a loose value hides a packed one, and 40 zeros are none."""
        _, _, _, packs, packed, loose = repo
        objects, refs = {}, {}
        for number in packs:
            for name, at, length in self.parsed((PACK, number), pack_of):
                objects.setdefault(name.hex(), ((PACK, number), at, length))
        if packed:
            refs = {name.decode(): value.decode() for name, value, _ in self.parsed((PACKED, packed), packed_of)}
        for name, number in loose:
            refs[name.decode()] = self.parsed((LOOSE_KIND, number), loose_of).decode()
        return Repo({name: value for name, value in refs.items() if value != ZERO}, objects)

    def whole(self, key):
        length = self.disk.len(key)
        if length is None:
            raise Ends(damaged(key, 0))
        return self.disk.read_at(key, 0, length)

    def parsed(self, key, reader):
        try:
            return reader(self.whole(key))
        except Bad as bad:
            raise Ends(damaged(key, bad.args[0])) from None

    def read(self, position):
        key = (4, position)
        entry = SPELLED.get(self.whole(key))
        assert entry, "the model reads whole entries alone"
        if entry.position != position:
            raise Ends(damaged(key, 4))
        if not fits(self.contents[-1], entry):
            raise Ends(damaged(key, 0))
        self.enter(entry)

    def enter(self, entry):
        self.log.append(entry)
        self.contents.append(after(self.contents[-1], entry))

    def front(self):
        return self.base + len(self.log)

    def settle(self):
        if self.doubt:
            self.disk.sync(GATE)
            if self.disk.len(GATE) > self.front():
                self.enter(self.doubt)
            self.doubt = None

    def settle_turn(self):
        if self.turn_doubt:
            self.disk.sync(TURN)
            if (self.disk.len(TURN) or 0) > self.checkpoint.epoch:
                self.checkpoint = self.turn_doubt
            self.turn_doubt = None

    def apply(self, count):
        self.settle()
        self.settle_turn()
        begin = self.checkpoint.applied - self.base
        entries = self.log[begin:begin + count]
        if entries:
            if self.checkpoint.epoch >= self.limits.epochs:
                return "epochfull"
            self.advance(entries)
        return f"ok apply {self.checkpoint.applied}"

    def advance(self, entries):
        """Each new file lasts, then the manifest does, and then its byte in turn. From that one on the numbers are given out."""
        now = self.checkpoint
        following, files = Checkpoint(now.epoch, now.applied, self.next_file, now.shelves).after(entries)
        for key, (first, *rest) in [*files, (following.key(), [following.spell()])]:
            self.disk.write(key, first)
            for piece in rest:
                self.disk.append(key, piece)
            self.disk.sync(key)
        self.turn_doubt, self.next_file = following, following.next_file
        self.disk.append(TURN, b"\x01")
        self.disk.sync(TURN)
        self.checkpoint, self.turn_doubt = following, None

    def add(self, entry, done):
        """Adds an entry, and answers `done` with its position."""
        key = (4, entry.position)
        self.disk.write(key, entry.bytes)
        self.disk.sync(key)
        try:
            self.disk.append(GATE, b"\x01")
            self.disk.sync(GATE)
        except Failed:
            self.doubt = entry
            return f"unsure {entry.position}"
        self.enter(entry)
        return f"ok {done} {entry.position}"

    def is_full(self):
        return self.front() >= self.limits.positions

    def create(self, path):
        self.settle()
        if path in self.contents[-1]:
            return "exists"
        if self.is_full():
            return "logfull"
        return self.add(Entry(self.front() + 1, path, "create"), "create")

    def delete(self, path):
        self.settle()
        if path not in self.contents[-1]:
            return "norepository"
        if self.is_full():
            return "logfull"
        return self.add(Entry(self.front() + 1, path, "delete"), "delete")

    def begin(self, path, seen):
        self.settle()
        if self.front() < seen:
            return f"behind {seen} {self.front()}", None
        if self.live >= self.limits.pins:
            return "pinsfull", None
        if path not in self.contents[-1]:
            return "norepository", None
        self.live += 1
        return f"ok begin {self.front()}", (path, self.front())

    def commit(self, passed, stage):
        """The answer, and whether the transaction is at its end."""
        path, position = passed
        if not stage.refs and not stage.records:
            return f"ok done {position}", True
        self.settle()
        refusal = self.refusal(path, stage)
        if refusal:
            return refusal, True
        if self.is_full():
            return "logfull", False
        return self.add(self.entry_of(path, stage), "commit"), True

    def refusal(self, path, stage):
        repo = self.contents[-1].get(path)
        if repo is None:
            return "gone"
        for name, (old, _) in stage.refs.items():
            actual = repo.refs.get(name, ZERO)
            if actual != old:
                return f"conflict {name} expected {old} actual {actual}"
        laid = dict(repo.refs)
        laid.update({name: new for name, (_, new) in stage.refs.items() if new is not None})
        laid = {name for name, value in laid.items() if value != ZERO}
        for name, (_, new) in stage.refs.items():
            if new not in (None, ZERO):
                clashes = sorted(clashing(laid, name))
                if clashes:
                    return f"directory {name} with {clashes[0]}"
        return self.missing(repo, stage)

    def missing(self, repo, stage):
        there = repo.objects.keys() | stage.records.keys()
        for name, (_, new) in stage.refs.items():
            if new not in (None, ZERO) and new not in there:
                return f"missing {new} for {name}"
        for name in sorted(stage.records.keys() - repo.objects.keys()):
            for need in stage.records[name][1]:
                if need not in there:
                    return f"missing {need} for {name}"
        return None

    def entry_of(self, path, stage):
        repo = self.contents[-1][path]
        added = sorted(stage.records.keys() - repo.objects.keys())
        needed = stage.records.keys() | {new for _, new in stage.refs.values() if new not in (None, ZERO)}
        needed.update(need for name in added for need in stage.records[name][1])
        refs = [(name, old, new) for name, (old, new) in stage.refs.items()]
        records = [(name, stage.records[name][0]) for name in added]
        return Entry(self.front() + 1, path, "write", refs, sorted(needed - set(added)), records)

    def repo_at(self, passed):
        path, position = passed
        return self.contents[position - self.base][path]

    def cat(self, passed, name):
        place = self.repo_at(passed).objects.get(name)
        if place is None:
            return f"absent {name}"
        file, at, length = place
        record = self.disk.read_at(file, at, length)
        if hex_name(record) != name:
            return f"damaged {file[0]}-{file[1]} {at}"
        return f"object {spelled(record)}"


def clashing(names, name):
    """The names that would be a folder of this one, or in it. One without folders below `refs/` has few."""
    parts = name.split("/")
    fronts = {"/".join(parts[:count]) for count in range(1, len(parts))}
    below = {other for other in names if other.startswith(name + "/")} if len(names) < 5000 else set()
    return (fronts & names) | below


def spelled(record):
    head, content = record.split(b"\0", 1)
    return f"{head.split(b' ')[0].decode()} {content.hex() or '-'}"


def damaged(key, at):
    return f"gitstore: damaged 1 {key[0]}-{key[1]} {at}\n= 6"


DONE = "= 0"
DISK_FAULT = "gitstore: disk 1 fault\n= 5"


# ---- sessions

class Stage:
    def __init__(self):
        self.refs, self.records = {}, {}


class Session:
    def __init__(self):
        self.passed, self.stage = None, Stage()


class Limits(NamedTuple):
    """How many positions a log may have, how many transactions may be open, and how many epochs there may be."""

    positions: int = 4_294_967_295
    pins: int = 64
    epochs: int = 4_294_967_295


USUAL = Limits()


class Script:
    """A run of a script over a disk."""

    def __init__(self, disk, lines, limits=USUAL):
        self.disk, self.limits = disk, limits
        self.answers = []
        self.sessions = {}
        self.status = self.run(lines)

    def text(self):
        return "".join(answer + "\n" for answer in self.answers)

    def run(self, lines):
        try:
            self.partition = Partition(self.disk, self.limits)
            for line in lines:
                self.answers.append(self.request(line.split(" ")))
        except Ends as status:
            return str(status)
        return DONE

    def request(self, words):
        session = self.sessions.setdefault(words[0], Session())
        if words[1] == "restart":
            self.sessions = {}
            self.partition.mount()
            return "ok restart"
        try:
            return self.ask(session, words[1], words[2:])
        except Failed:
            return "devicefault"

    def ask(self, session, verb, words):
        if verb == "apply":
            return self.partition.apply(int(words[1]))
        if verb in ("create", "delete"):
            return bad_path(words[0]) or getattr(self.partition, verb)(words[0])
        if verb == "begin":
            return self.begin(session, words[0], int(words[2]) if words[1:] else 0)
        if session.passed is None:
            return "notopen"
        return getattr(self, verb)(session, *words)

    def begin(self, session, path, seen):
        # What a session has seen of a log that only grows is never past its front, so the position that a line names decides.
        if session.passed is not None:
            return "alreadyopen"
        if bad_path(path):
            return bad_path(path)
        answer, session.passed = self.partition.begin(path, seen)
        session.stage = Stage()
        return answer

    def ended(self, session):
        session.passed = None
        self.partition.live -= 1

    def commit(self, session):
        answer, is_over = self.partition.commit(session.passed, session.stage)
        if is_over:
            self.ended(session)
        return answer

    def abort(self, session):
        self.ended(session)
        return "ok abort"

    def put(self, session, kind, word):
        content = b"" if word == "-" else bytes.fromhex(word)
        if kind == "tree" and content == b"1":
            return "badobject 0"
        record = f"{kind} {len(content)}".encode() + b"\0" + content
        if len(record) > 16_777_216:
            return "toolarge"
        name = hex_name(record)
        staged = sum(len(record) for record, _ in session.stage.records.values())
        if name not in session.stage.records:
            if staged + len(record) > 33_554_432:
                return "stagefull"
            session.stage.records[name] = (record, needs(kind, content))
        return f"name {name}"

    def value(self, session, name):
        """The value that a session sees, zeros for none."""
        staged = session.stage.refs.get(name)
        if staged and staged[1] is not None:
            return staged[1]
        return self.partition.repo_at(session.passed).refs.get(name, ZERO)

    def set(self, session, name, old, new):
        return self.staged(session, name, old, new, "ok set")

    def verify(self, session, name, old):
        return self.staged(session, name, old, None, "ok verify")

    def staged(self, session, name, old, new, done):
        if name.endswith(".lock"):
            return f"badref 8 {name.rindex('/') + 1}"
        if old == "*":
            old = self.value(session, name)
        refs = session.stage.refs
        if name in refs:
            first, last = refs[name]
            refs[name] = (first, last if new is None else new)
        elif len(refs) == 10_000:
            return "stagefull"
        else:
            refs[name] = (old, new)
        return done

    def get(self, session, name):
        value = self.value(session, name)
        return "noref" if value == ZERO else f"ref {value}"

    def list(self, session, prefix=""):
        values = dict(self.partition.repo_at(session.passed).refs)
        values.update({name: new for name, (_, new) in session.stage.refs.items() if new is not None})
        values = {name: new for name, new in values.items() if new != ZERO and name.startswith(prefix)}
        return " ".join([f"refs {len(values)}", *(f"{values[name]} {name}" for name in sorted(values))])

    def cat(self, session, name):
        if name in session.stage.records:
            return f"object {spelled(session.stage.records[name][0])}"
        return self.partition.cat(session.passed, name)


def bad_path(path):
    """The scripts of the rows have one bad kind of path: a byte in upper case."""
    bad = next((at for at, byte in enumerate(path) if byte.isupper()), None)
    return None if bad is None else f"badpath {bad}"
