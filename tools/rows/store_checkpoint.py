"""What an application of entries writes, by the rules of docs/FORMATS.md: the files that it adds, and the manifest that names them."""
import struct

from formats.bases import LOOSE_KIND, MANIFEST, PACK

ZERO = "0" * 40


def text(word):
    return struct.pack(">H", len(word)) + word.encode()


class Shelf:
    """The files of a repository: its packs in their order, that of its packed references, and that of each loose reference."""

    def __init__(self, packs=(), packed=0, loose=()):
        self.packs, self.packed, self.loose = list(packs), packed, dict(loose)

    def with_pack(self, number):
        return Shelf([*self.packs, number], self.packed, self.loose)

    def with_loose(self, name, number):
        return Shelf(self.packs, self.packed, {**self.loose, name: number})

    def spell(self):
        numbers = struct.pack(f">I{len(self.packs)}QQ", len(self.packs), *self.packs, self.packed)
        loose = b"".join(text(name) + struct.pack(">Q", self.loose[name]) for name in sorted(self.loose))
        # No pool, and nothing was repacked or packed.
        return bytes(3) + numbers + struct.pack(">I", len(self.loose)) + loose + bytes(16)


class Checkpoint:
    """What a manifest says, and the next free number."""

    def __init__(self, epoch=0, applied=0, next_file=1, shelves=()):
        self.epoch, self.applied, self.next_file, self.shelves = epoch, applied, next_file, dict(shelves)

    def spell(self):
        """The bytes of the manifest, in the second spelling."""
        head = b"GTM2" + struct.pack(">QQQI", self.epoch, self.applied, self.next_file, len(self.shelves))
        return head + b"".join(text(path) + self.shelves[path].spell() for path in sorted(self.shelves))

    def key(self):
        return MANIFEST, self.epoch

    def after(self, entries):
        """The next checkpoint, and the new files in order: the pieces of each, of which the first is written and each other appended."""
        shelves, files, number = dict(self.shelves), [], self.next_file
        for path in sorted({entry.path for entry in entries}):
            for own in lives([entry for entry in entries if entry.path == path]):
                shelf = Shelf() if own[0].change == "create" else shelves[path]
                for reference, pieces in contents(own):
                    files.append(((LOOSE_KIND if reference else PACK, number), pieces))
                    shelf = shelf.with_loose(reference, number) if reference else shelf.with_pack(number)
                    number += 1
                shelves[path] = shelf
                if own[-1].change == "delete":
                    del shelves[path]
        return Checkpoint(self.epoch + 1, self.applied + len(entries), number, shelves), files


def lives(entries):
    """The entries of one path, those of each repository that stands there in the course of time."""
    found = [[]]
    for entry in entries:
        found[-1].append(entry)
        if entry.change == "delete":
            found.append([])
    return [own for own in found if own]


def contents(entries):
    """The pieces of each file that one repository gets: its pack first, which is no reference's, and then each reference's."""
    records = {name: record for entry in entries for name, record in entry.added}
    values = {name: new for entry in entries for name, _, new in entry.refs if new is not None}
    packs = [(None, pack_pieces(records))] if records else []
    return packs + [(name, [f"{values[name]}\n".encode()]) for name in sorted(values)]


def pack_pieces(records):
    """The head of a pack, each record with its name and length, and the index."""
    head, items, index, at = b"GTP1" + struct.pack(">I", len(records)), [], b"", 8
    for name in sorted(records):
        digest = bytes.fromhex(name)
        items.append(digest + struct.pack(">I", len(records[name])) + records[name])
        index += digest + struct.pack(">Q", at)
        at += len(items[-1])
    return [head, *items, index + struct.pack(">Q", at)]
