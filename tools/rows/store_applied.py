"""Worked scripts with applications: each line with its answer."""
from store_worked import (
    COMMIT, COMMIT_WORD, EMPTY, HELLO, HELLO_WORD, MAIN, PUSH, TAG, TEST, TEST_WORD, TREE, TREE_WORD, ZERO)

ALL = "1 apply 1 16"
OTHER = "refs/tags/u"


def begin(position, session=1):
    return (f"{session} begin a.git", f"ok begin {position}")


RESTART = ("1 restart", "ok restart")
HAS_HELLO = [
    (f"1 get {TAG}", f"ref {HELLO}"),
    ("1 list", f"refs 1 {HELLO} {TAG}"),
    (f"1 cat {HELLO}", f"object blob {HELLO_WORD}"),
    (f"1 cat {TEST}", f"absent {TEST}"),
]
IS_EMPTY = [("1 list", "refs 0"), (f"1 cat {HELLO}", f"absent {HELLO}"), ("1 commit", "ok done 4")]

# What session 1 stages and commits from a position on: the test in place of what the tag has.
MOVED = [
    begin(2),
    (f"1 put blob {TEST_WORD}", f"name {TEST}"),
    (f"1 set {TAG} {HELLO} {TEST}", "ok set"),
    (f"1 set {OTHER} {ZERO} {HELLO}", "ok set"),
    ("1 commit", "ok commit 3"),
]
HAS_MOVED = [
    ("1 list", f"refs 2 {TEST} {TAG} {HELLO} {OTHER}"),
    (f"1 cat {HELLO}", f"object blob {HELLO_WORD}"),
    (f"1 cat {TEST}", f"object blob {TEST_WORD}"),
]

APPLIED = {
    # The content is as before, and so it is after a restart. Nothing is left to apply.
    "applied": PUSH + [(ALL, "ok apply 2"), begin(2), *HAS_HELLO, RESTART, begin(2), *HAS_HELLO, (ALL, "ok apply 2")],
    # Entries one by one, with commits and a restart between.
    "one_by_one": PUSH + [
        ("1 apply 1 1", "ok apply 1"), *MOVED, ("1 apply 1 1", "ok apply 2"), RESTART, begin(3), *HAS_MOVED,
        ("2 apply 1 1", "ok apply 3"), ("1 commit", "ok done 3"), RESTART, begin(3), *HAS_MOVED,
    ],
    # A transaction reads its position through applications, and a stage outlives them.
    "open_meanwhile": PUSH + [
        begin(2, 2), (f"2 put blob {TEST_WORD}", f"name {TEST}"), (f"2 set {OTHER} {ZERO} {TEST}", "ok set"),
        begin(2, 3), begin(2), (f"1 set {TAG} {HELLO} {ZERO}", "ok set"), (ALL, "ok apply 2"), (f"1 get {TAG}", "noref"),
        ("1 commit", "ok commit 3"), (ALL, "ok apply 3"), (f"3 get {TAG}", f"ref {HELLO}"), (f"3 cat {HELLO}", f"object blob {HELLO_WORD}"),
        ("2 commit", "ok commit 4"), ("2 apply 1 1", "ok apply 4"), RESTART, ("3 list", "notopen"), begin(4),
        ("1 list", f"refs 1 {TEST} {OTHER}"), (f"1 cat {HELLO}", f"object blob {HELLO_WORD}"),
        (f"1 cat {TEST}", f"object blob {TEST_WORD}"),
    ],
    # A deletion and a creation in one batch: what the first repository had is gone.
    "made_again": PUSH + [
        ("1 delete a.git", "ok delete 3"), ("1 create a.git", "ok create 4"), (ALL, "ok apply 4"), begin(4), *IS_EMPTY,
        RESTART, begin(4), *IS_EMPTY, begin(4), (f"1 put blob {HELLO_WORD}", f"name {HELLO}"),
        (f"1 set {TAG} {ZERO} {HELLO}", "ok set"), ("1 commit", "ok commit 5"), (ALL, "ok apply 5"), RESTART, begin(5), *HAS_HELLO,
    ],
    # A deletion alone, of what is applied and of what isn't.
    "deleted": PUSH + [
        ("1 apply 1 1", "ok apply 1"), ("1 delete a.git", "ok delete 3"), (ALL, "ok apply 3"), ("1 begin a.git", "norepository"),
        RESTART, ("1 begin a.git", "norepository"), ("1 create a.git", "ok create 4"), (ALL, "ok apply 4"), RESTART, begin(4), *IS_EMPTY,
    ],
    # A reference that is deleted and set again, and one that is set and deleted in one batch.
    "deleted_reference": PUSH + [
        (ALL, "ok apply 2"), begin(2), (f"1 set {TAG} {HELLO} {ZERO}", "ok set"), (f"1 set {OTHER} {ZERO} {HELLO}", "ok set"),
        ("1 commit", "ok commit 3"), begin(3), (f"1 set {OTHER} {HELLO} {ZERO}", "ok set"), ("1 commit", "ok commit 4"),
        (ALL, "ok apply 4"), RESTART, begin(4), ("1 list", "refs 0"), (f"1 get {TAG}", "noref"),
        (f"1 cat {HELLO}", f"object blob {HELLO_WORD}"), (f"1 set {TAG} {ZERO} {HELLO}", "ok set"), ("1 commit", "ok commit 5"),
        (ALL, "ok apply 5"), RESTART, begin(5), *HAS_HELLO,
    ],
    # A check has no file, and what it found stands.
    "checked": PUSH + [
        (ALL, "ok apply 2"), begin(2), (f"1 verify {TAG} {HELLO}", "ok verify"), (f"1 verify {OTHER} {ZERO}", "ok verify"),
        ("1 commit", "ok commit 3"), (ALL, "ok apply 3"), RESTART, begin(3), *HAS_HELLO,
    ],
    # A blob, its tree and its commit in one pack, and nothing is added twice.
    "usual_push_applied": [
        ("1 create a.git", "ok create 1"), begin(1), (f"1 put blob {HELLO_WORD}", f"name {HELLO}"),
        (f"1 put tree {TREE_WORD}", f"name {TREE}"), (f"1 put commit {COMMIT_WORD}", f"name {COMMIT}"),
        (f"1 set {MAIN} {ZERO} {COMMIT}", "ok set"), ("1 commit", "ok commit 2"), (ALL, "ok apply 2"), RESTART, begin(2),
        (f"1 cat {HELLO}", f"object blob {HELLO_WORD}"), (f"1 cat {TREE}", f"object tree {TREE_WORD}"),
        (f"1 cat {COMMIT}", f"object commit {COMMIT_WORD}"), (f"1 put blob {HELLO_WORD}", f"name {HELLO}"),
        (f"1 put blob -", f"name {EMPTY}"), (f"1 set {TAG} {ZERO} {EMPTY}", "ok set"), ("1 commit", "ok commit 3"),
        (ALL, "ok apply 3"), RESTART, begin(3), (f"1 cat {HELLO}", f"object blob {HELLO_WORD}"), (f"1 cat {EMPTY}", "object blob -"),
    ],
    # Repositories in order of their paths, whatever the order of the entries.
    "two_applied": [
        ("1 create b.git", "ok create 1"), ("1 create a.git", "ok create 2"), ("1 begin b.git", "ok begin 2"),
        (f"1 put blob {HELLO_WORD}", f"name {HELLO}"), (f"1 set {TAG} {ZERO} {HELLO}", "ok set"), ("1 commit", "ok commit 3"),
        begin(3), (f"1 put blob {HELLO_WORD}", f"name {HELLO}"), (f"1 put blob {TEST_WORD}", f"name {TEST}"),
        (f"1 set {TAG} {ZERO} {HELLO}", "ok set"), (f"1 set {MAIN} {ZERO} {TEST}", "ok set"), ("1 commit", "ok commit 4"),
        (ALL, "ok apply 4"), RESTART, begin(4), ("1 list", f"refs 2 {TEST} {MAIN} {HELLO} {TAG}"),
        ("2 begin b.git", "ok begin 4"), ("2 list", f"refs 1 {HELLO} {TAG}"), (f"2 cat {TEST}", f"absent {TEST}"),
        (f"2 cat {HELLO}", f"object blob {HELLO_WORD}"),
    ],
    "nothing_to_apply": [
        (ALL, "ok apply 0"), ("1 create a.git", "ok create 1"), ("128 apply 1 1", "ok apply 1"), (ALL, "ok apply 1"), RESTART,
        (ALL, "ok apply 1"), begin(1), ("1 list", "refs 0"),
    ],
}

# An application that fails from its append to turn on is in doubt, and the next one finds out. The opening makes the calls 0 to 3, a
# creation 4 to 7; an application of it the manifest's write 8 and its sync 9, turn's append 10 and its sync 11.
DOUBTFUL = ["1 create a.git", "1 apply 1 1", "1 create b.git", "1 apply 1 1", "1 apply 1 1"]
DOUBTFUL_FAULTS = [
    # Nothing counts, and the same entry is applied.
    ({8: 0}, ["ok create 1", "devicefault", "ok create 2", "ok apply 1", "ok apply 2"]),
    ({9: 0}, ["ok create 1", "devicefault", "ok create 2", "ok apply 1", "ok apply 2"]),
    ({10: 0}, ["ok create 1", "devicefault", "ok create 2", "ok apply 1", "ok apply 2"]),
    # It counts.
    ({10: 1}, ["ok create 1", "devicefault", "ok create 2", "ok apply 2", "ok apply 2"]),
    ({11: 0}, ["ok create 1", "devicefault", "ok create 2", "ok apply 2", "ok apply 2"]),
    # Finding out fails too: the sync, then the length. A creation doesn't ask.
    ({10: 1, 15: 0}, ["ok create 1", "devicefault", "ok create 2", "devicefault", "ok apply 2"]),
    ({10: 1, 16: 0}, ["ok create 1", "devicefault", "ok create 2", "devicefault", "ok apply 2"]),
    ({10: 0, 15: 0}, ["ok create 1", "devicefault", "ok create 2", "devicefault", "ok apply 1"]),
    # The creation's gate and the turn are both in doubt.
    ({11: 0, 15: 0}, ["ok create 1", "devicefault", "unsure 2", "ok apply 2", "ok apply 2"]),
]

# What a stop leaves is read, applied to the end, and read after a restart.
GOES_ON = ["2 create front.git", "2 apply 1 1", "2 apply 1 16", "2 restart", "1 begin a.git", "1 list"] + [
    f"1 cat {name}" for name in (HELLO, TEST, EMPTY, TREE, COMMIT)]
