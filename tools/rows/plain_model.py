"""What tools/rows/plain_rows and tools/rows/job_rows have in common: records, contents as dictionaries, what an entry makes of
them, as docs/DEFINITIONS.md has it, and the rows that are written. Names come from hashlib, places in an entry's file from
struct (docs/FORMATS.md)."""

import hashlib
import pathlib
import struct
import sys

ZERO = "0" * 40
LONGEST = 2000


# ---- objects


class Record:
    """A record: what it is, its name, and the names that it mentions. Those that were made are kept by their names."""

    made = {}

    def __init__(self, kind, content, deps=()):
        self.kind, self.content, self.deps = kind, content, list(deps)
        self.whole = b"%s %d\0" % (kind.encode(), len(content)) + content
        self.name = hashlib.sha1(self.whole).hexdigest()
        Record.made[self.name] = self

    def words(self):
        return f"{self.kind} {self.content.hex() or '-'}"


def blob(content):
    return Record("blob", content)


def tree(*entries):
    content = b"".join(b"100644 " + name + b"\0" + bytes.fromhex(record.name) for name, record in entries)
    return Record("tree", content, [record.name for _, record in entries])


H, T, V, E = blob(b"hello world\n"), blob(b"test content\n"), blob(b"version 1\n"), blob(b"")
D, K, W = tree((b"test.txt", V)), tree((b"a", V), (b"b", T)), tree()
N = Record("commit", b"tree " + W.name.encode() + b"\n\n", [W.name])
OBJECTS = dict(h=H, t=T, v=V, e=E, d=D, k=K, w=W, n=N)
NAMES = {letter: record.name for letter, record in OBJECTS.items()} | {"0": ZERO}

# What `git hash-object` and `git write-tree` give.
FROM_GIT = dict(
    h="3b18e512dba79e4c8300dd08aeb37f8e728b8dad", t="d670460b4b4aece5915caf5c68d12f560a9fe3e4",
    v="83baae61804e65cc73a7201a7252750c76066a30", e="e69de29bb2d1d6434b8b29ae775ad8c2e48c5391",
    d="d8329fc1cc938780ffdd9f94e0d364e0ea74f579", k="006d1533969ad5e677a93212a91cd0a003bf36f0",
    w="4b825dc642cb6eb9a060e54bf8d69288fbee4904", n="8d7ff291d28b7f1109200d31f87a6f98fe7df90e")
assert all(NAMES[letter] == name for letter, name in FROM_GIT.items())


def updates(words):
    """References, each with the letter of its old value and that of its new one, or `-` for a check."""
    words = words.split()
    return [(name, NAMES[old], None if new == "-" else NAMES[new]) for name, (old, new) in zip(words[::2], words[1::2])]


def records(letters):
    return [OBJECTS[letter] for letter in letters]


# ---- the model: contents, and what entries make of them


class Repo:
    def __init__(self, is_pool=False, pool=None, refs=None, own=None):
        self.is_pool, self.pool, self.refs, self.own = is_pool, pool, dict(refs or {}), dict(own or {})

    def copy(self):
        return Repo(self.is_pool, self.pool, self.refs, self.own)


class Entry:
    def __init__(self, position, kind, path, word, refs, names, added):
        self.position, self.kind, self.path, self.word = position, kind, path, word
        self.refs, self.names, self.added = refs, names, added

    def front(self):
        """A write's bytes before its first record."""
        checks = any(new is None for _, _, new in self.refs)
        out = (b"GTE2" if checks else b"GTE1") + struct.pack(">QH", self.position, len(self.path)) + self.path.encode() + b"\4"
        out += struct.pack(">I", len(self.refs))
        for name, old, new in self.refs:
            out += struct.pack(">H", len(name)) + name.encode() + bytes.fromhex(old)
            out += (b"\0" if new is None else b"\1") if checks else b""
            out += bytes.fromhex(new or "")
        out += struct.pack(">I", len(self.names)) + b"".join(bytes.fromhex(name) for name in self.names)
        return out + struct.pack(">I", len(self.added))

    def places(self):
        """Each added record's file, place and length."""
        at = len(self.front())
        for record in self.added:
            at += 24
            yield record.name, (4, self.position, at, len(record.whole))
            at += len(record.whole)


def value(content, path, name):
    return content[path].refs.get(name) if path in content else None


def seen(content, path, name):
    """The place of the record that is seen under a name: the own one, else the pool's."""
    if path not in content:
        return None
    repo = content[path]
    if name in repo.own or repo.pool is None or repo.pool not in content:
        return repo.own.get(name)
    return content[repo.pool].own.get(name)


def members(content, pool):
    return sorted(path for path, repo in content.items() if repo.pool == pool)


def in_folders(one, other):
    return one.startswith(other + "/") or other.startswith(one + "/")


def clash(refs, name, gone=()):
    return min((other for other in refs if in_folders(name, other) and other not in gone), default=None)


def fits(content, entry):
    repo = content.get(entry.path)
    if entry.kind in ("create", "pool"):
        return repo is None
    if repo is None:
        return False
    if entry.kind == "delete":
        return not members(content, entry.path)
    if entry.kind == "link":
        pool = content.get(entry.word)
        return pool is not None and pool.is_pool and not repo.is_pool and repo.pool is None
    if entry.kind == "write":
        return (all(repo.refs.get(name, ZERO) == old for name, old, _ in entry.refs)
                and all(seen(content, entry.path, record.name) is None for record in entry.added))
    if entry.kind in ("repack", "prune"):
        return all(name in repo.own for name in entry.names)
    return entry.kind == "packrefs" or repo.pool is not None


def lay(refs, changes):
    """References with updates made."""
    refs = dict(refs)
    for name, _, new in changes:
        if new == ZERO:
            refs.pop(name, None)
        elif new is not None:
            refs[name] = new
    return refs


def after(content, entry):
    content = dict(content)
    path = entry.path
    if entry.kind in ("create", "pool"):
        content[path] = Repo(entry.kind == "pool")
        return content
    if path not in content:
        return content
    if entry.kind == "delete":
        del content[path]
        return content
    repo = content[path] = content[path].copy()
    if entry.kind == "link":
        repo.pool = entry.word
    elif entry.kind == "write":
        repo.refs = lay(repo.refs, entry.refs)
        repo.own.update(entry.places())
    elif entry.kind in ("repack", "prune"):
        for name in entry.names:
            repo.own.pop(name, None)
    elif entry.kind == "unlink":
        if repo.pool in content:
            repo.own = content[repo.pool].own | repo.own
        repo.pool = None
    return content


# ---- rows


def shown_names(names):
    return " ".join([str(len(names)), *names])


def yes(is_so):
    return "yes" if is_so else "no"


class Rows:
    """What the program is given, and what it must print."""

    def __init__(self):
        self.given, self.wanted = [], []

    def row(self, line, answer=None):
        self.given.append(line)
        if answer is not None:
            raw = answer.encode()
            self.wanted.append(answer if len(raw) <= LONGEST else f"{len(raw)} bytes, SHA-1 {hashlib.sha1(raw).hexdigest()}")

    def title(self, text):
        self.row(f"# {text}", f"# {text}")


def write_all(name, rows):
    """Writes the rows of a driver. With `--check` nothing is written, and the answer is 1 where the stored files are others."""
    crate = pathlib.Path(__file__).resolve().parents[2] / "crates" / name
    files = {"stdin": rows.given, "stdout": rows.wanted}
    texts = {crate / file: "".join(line + "\n" for line in lines) for file, lines in files.items()}
    if "--check" in sys.argv[1:]:
        other = [path for path, text in texts.items() if not path.exists() or path.read_text() != text]
        for path in other:
            print(f"{name}: {path} is another than what is written")
        return 1 if other else 0
    for path, text in texts.items():
        path.write_text(text)
    print(f"{name}: {len(rows.given):,} rows, {len(rows.wanted):,} answers")
    return 0
