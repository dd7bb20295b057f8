"""Answers, by variant and values, and the line of each."""

import hashlib

from .spelling import HELLO, TEST, ZERO, record

MOST = 2**64 - 1
HELLO, TEST, ZERO = HELLO.hex(), TEST.hex(), ZERO.hex()

ANSWERS = [
    ("NoRepository", "norepository"),
    ("RepositoryExists", "exists"),
    ("RepositoryGone", "gone"),
    ("Behind 9 5", "behind 9 5"),
    ("PinsFull", "pinsfull"),
    (f"Absent {TEST}", f"absent {TEST}"),
    (f"ReferenceConflict refs/heads/main {ZERO} {HELLO}", f"conflict refs/heads/main expected {ZERO} actual {HELLO}"),
    ("DirectoryConflict refs/heads/a/b refs/heads/a", "directory refs/heads/a/b with refs/heads/a"),
    (f"MissingObject {HELLO} refs/heads/main", f"missing {HELLO} for refs/heads/main"),
    (f"MissingObject {HELLO} {TEST}", f"missing {HELLO} for {TEST}"),
    ("HousekeepingConflict 12", "houseconflict 12"),
    (f"PrunedObject {TEST} 5", f"pruned {TEST} 5"),
    ("LogFull", "logfull"),
    ("EpochFull", "epochfull"),
    ("MapFull", "mapfull"),
    ("StageFull", "stagefull"),
    ("TooLarge", "toolarge"),
    ("BadObject 0", "badobject 0"),
    ("BadRef 8 11", "badref 8 11"),
    ("BadPath 255", "badpath 255"),
    ("IsPool", "ispool"),
    ("NotPool", "notpool"),
    ("AlreadyLinked", "linked"),
    ("NotLinked", "notlinked"),
    ("PoolInUse m.git", "poolinuse m.git"),
    ("OtherPartition", "elsewhere"),
    ("NotOpen", "notopen"),
    ("AlreadyOpen", "alreadyopen"),
    ("NoJob", "nojob"),
    ("NotReady", "notready"),
    ("DeviceFault", "devicefault"),
    ("Unsure 6", "unsure 6"),
    (f"MapUnsure {MOST}", f"mapunsure {MOST}"),
    ("Damaged 4 1 20", "damaged 4-1 20"),
    (f"Damaged 255 {MOST} {MOST}", f"damaged 255-{MOST} {MOST}"),
    ("Memory", "memory"),
    ("Created 1 false", "ok create 1"),
    ("Created 1 true", "ok pool 1"),
    ("Deleted 2", "ok delete 2"),
    ("Linked 4", "ok link 4"),
    ("Begun 0", "ok begin 0"),
    ("Committed 10", "ok commit 10"),
    ("Finished 1", "ok done 1"),
    ("HouseOpen 4", "ok house 4"),
    ("HouseDone 5", "ok close 5"),
    (f"Applied {MOST}", f"ok apply {MOST}"),
    ("Trimmed 3", "ok trim 3"),
    ("Value -", "noref"),
    (f"Value {HELLO}", f"ref {HELLO}"),
    (f"Value {ZERO}", f"ref {ZERO}"),
    (f"Named {TEST}", f"name {TEST}"),
    ("Staged", "ok set"),
    ("Checked", "ok verify"),
    ("Aborted", "ok abort"),
    ("Step false", "more"),
    ("Step true", "ready"),
    ("Swept", "ok sweep"),
    ("Restarted", "ok restart"),
]

CONTENTS = [("blob", b"hello world\n"), ("tree", b""), ("tag", b"object af977bf91c990e37d623bec5d05e11b31802ab5f\ntype blob\n")]

LISTS = [
    [],
    [("refs/heads/main", TEST), ("refs/tags/t", HELLO)],
    [(f"refs/heads/b{i:05}", hashlib.sha1(b"%d" % i).hexdigest()) for i in range(10_000)],
]


def rows():
    for words, line in ANSWERS:
        yield f"answer {words}", [line]
    for kind, content in CONTENTS:
        yield f"answer Object {record(kind, content).hex()}", [f"object {kind} {content.hex() or '-'}"]
    for refs in LISTS:
        pairs = ";".join(f"{name} {value}" for name, value in refs)
        yield f"answer Refs {pairs or '-'}", [" ".join(["refs", str(len(refs)), *(f"{value} {name}" for name, value in refs)])]
