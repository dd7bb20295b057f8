"""Worked scripts of the store: each line with its answer. The names are those that Git gives the contents."""

HELLO = "3b18e512dba79e4c8300dd08aeb37f8e728b8dad"
TEST = "d670460b4b4aece5915caf5c68d12f560a9fe3e4"
EMPTY = "e69de29bb2d1d6434b8b29ae775ad8c2e48c5391"
TREE = "c19764ffafd06f9f21aeec56ff1065621b4ca480"
COMMIT = "5b8ab50e74e147f2fe6ee494927bbbba40c6cb57"
ROOTLESS = "8d7ff291d28b7f1109200d31f87a6f98fe7df90e"
NO_TREE = "4b825dc642cb6eb9a060e54bf8d69288fbee4904"
ZERO = "0" * 40

HELLO_WORD = b"hello world\n".hex()
TEST_WORD = b"test content\n".hex()
TREE_WORD = (b"100644 README\0" + bytes.fromhex(HELLO)).hex()
COMMIT_WORD = (
    f"tree {TREE}\nauthor A <a@b.c> 1700000000 +0100\ncommitter A <a@b.c> 1700000000 +0100\n"
    "gpgsig -----BEGIN PGP SIGNATURE-----\n \n x\n -----END PGP SIGNATURE-----\n\nA message\n"
).encode().hex()
ROOTLESS_WORD = f"tree {NO_TREE}\n\n".encode().hex()

TAG = "refs/tags/t"
MAIN = "refs/heads/main"

PUSH = [
    ("1 create a.git", "ok create 1"),
    ("1 begin a.git", "ok begin 1"),
    (f"1 put blob {HELLO_WORD}", f"name {HELLO}"),
    (f"1 set {TAG} {ZERO} {HELLO}", "ok set"),
    ("1 commit", "ok commit 2"),
]

WORKED = {
    "pushed_and_read": PUSH + [
        ("2 begin a.git", "ok begin 2"),
        (f"2 get {TAG}", f"ref {HELLO}"),
        (f"2 cat {HELLO}", f"object blob {HELLO_WORD}"),
        ("2 list", f"refs 1 {HELLO} {TAG}"),
        ("2 commit", "ok done 2"),
        ("2 restart", "ok restart"),
        ("1 begin a.git", "ok begin 2"),
        (f"1 get {TAG}", f"ref {HELLO}"),
    ],
    "second_conflicts": [
        ("1 create a.git", "ok create 1"),
        ("1 begin a.git", "ok begin 1"),
        ("2 begin a.git", "ok begin 1"),
        (f"1 put blob {HELLO_WORD}", f"name {HELLO}"),
        (f"1 set {MAIN} {ZERO} {HELLO}", "ok set"),
        ("1 commit", "ok commit 2"),
        (f"2 put blob {TEST_WORD}", f"name {TEST}"),
        (f"2 set {MAIN} {ZERO} {TEST}", "ok set"),
        ("2 commit", f"conflict {MAIN} expected {ZERO} actual {HELLO}"),
        ("2 begin a.git", "ok begin 2"),
        (f"2 get {MAIN}", f"ref {HELLO}"),
    ],
    "own_stage_first": PUSH + [
        ("1 begin a.git", "ok begin 2"),
        ("2 begin a.git", "ok begin 2"),
        ("1 put blob -", f"name {EMPTY}"),
        (f"1 set {TAG} {HELLO} {EMPTY}", "ok set"),
        (f"1 get {TAG}", f"ref {EMPTY}"),
        (f"2 get {TAG}", f"ref {HELLO}"),
        (f"1 cat {EMPTY}", "object blob -"),
        (f"2 cat {EMPTY}", f"absent {EMPTY}"),
        ("2 commit", "ok done 2"),
        ("1 abort", "ok abort"),
        ("2 begin a.git", "ok begin 2"),
        (f"2 get {TAG}", f"ref {HELLO}"),
        ("2 abort", "ok abort"),
        ("2 abort", "notopen"),
    ],
    "first_old_last_new": PUSH + [
        ("1 begin a.git", "ok begin 2"),
        (f"1 put blob {TEST_WORD}", f"name {TEST}"),
        ("1 put blob -", f"name {EMPTY}"),
        (f"1 set {TAG} * {TEST}", "ok set"),
        (f"1 set {TAG} {TEST} {EMPTY}", "ok set"),
        ("1 commit", "ok commit 3"),
    ],
    "usual_push": [
        ("1 create a.git", "ok create 1"),
        ("1 begin a.git", "ok begin 1"),
        (f"1 put blob {HELLO_WORD}", f"name {HELLO}"),
        (f"1 put tree {TREE_WORD}", f"name {TREE}"),
        (f"1 put commit {COMMIT_WORD}", f"name {COMMIT}"),
        (f"1 set {MAIN} {ZERO} {COMMIT}", "ok set"),
        ("1 commit", "ok commit 2"),
        ("1 begin a.git", "ok begin 2"),
        (f"1 cat {HELLO}", f"object blob {HELLO_WORD}"),
        (f"1 cat {TREE}", f"object tree {TREE_WORD}"),
        (f"1 cat {COMMIT}", f"object commit {COMMIT_WORD}"),
    ],
    "missing_tree": [
        ("1 create a.git", "ok create 1"),
        ("1 begin a.git", "ok begin 1"),
        (f"1 put commit {ROOTLESS_WORD}", f"name {ROOTLESS}"),
        (f"1 set {MAIN} {ZERO} {ROOTLESS}", "ok set"),
        ("1 commit", f"missing {NO_TREE} for {ROOTLESS}"),
        (f"1 get {MAIN}", "notopen"),
    ],
    "folders": [
        ("1 create a.git", "ok create 1"),
        ("1 begin a.git", "ok begin 1"),
        (f"1 put blob {HELLO_WORD}", f"name {HELLO}"),
        (f"1 set refs/heads/a {ZERO} {HELLO}", "ok set"),
        ("1 commit", "ok commit 2"),
        ("1 begin a.git", "ok begin 2"),
        (f"1 set refs/heads/a/b {ZERO} {HELLO}", "ok set"),
        ("1 commit", "directory refs/heads/a/b with refs/heads/a"),
        ("1 begin a.git", "ok begin 2"),
        (f"1 set refs/heads/a {HELLO} {ZERO}", "ok set"),
        (f"1 set refs/heads/a/b {ZERO} {HELLO}", "ok set"),
        ("1 commit", "ok commit 3"),
        ("1 begin a.git", "ok begin 3"),
        ("1 list", f"refs 1 {HELLO} refs/heads/a/b"),
    ],
    "deleted_meanwhile": PUSH + [
        ("1 begin a.git", "ok begin 2"),
        (f"1 set {TAG} {HELLO} {ZERO}", "ok set"),
        ("2 delete a.git", "ok delete 3"),
        (f"1 get {TAG}", "noref"),
        ("1 commit", "gone"),
        ("2 begin a.git", "norepository"),
        ("2 create a.git", "ok create 4"),
        ("2 begin a.git", "ok begin 4"),
        ("2 list", "refs 0"),
        (f"2 cat {HELLO}", f"absent {HELLO}"),
    ],
    "stale_check": PUSH + [
        ("1 begin a.git", "ok begin 2"),
        ("2 begin a.git", "ok begin 2"),
        ("1 put blob -", f"name {EMPTY}"),
        (f"1 set {TAG} {HELLO} {EMPTY}", "ok set"),
        ("1 commit", "ok commit 3"),
        (f"2 verify {TAG} *", "ok verify"),
        (f"2 put blob {TEST_WORD}", f"name {TEST}"),
        (f"2 set refs/tags/u {ZERO} {TEST}", "ok set"),
        ("2 commit", f"conflict {TAG} expected {HELLO} actual {EMPTY}"),
    ],
    "check_alone": PUSH + [
        ("1 begin a.git", "ok begin 2"),
        (f"1 verify {TAG} {HELLO}", "ok verify"),
        ("1 commit", "ok commit 3"),
    ],
    "refusals": [
        ("1 create a.git", "ok create 1"),
        ("1 begin a.git", "ok begin 1"),
        ("1 commit", "ok done 1"),
        ("1 begin a.git", "ok begin 1"),
        (f"1 set refs/heads/x.lock {ZERO} {HELLO}", "badref 8 11"),
        ("1 put tree 31", "badobject 0"),
        ("1 get refs/heads/none", "noref"),
        ("1 begin b.git", "alreadyopen"),
        ("1 abort", "ok abort"),
        ("1 begin b.git", "norepository"),
        ("1 create A.git", "badpath 0"),
        ("1 create a.git", "exists"),
        ("1 delete b.git", "norepository"),
        ("1 delete A.git", "badpath 0"),
        ("1 list", "notopen"),
        (f"128 set refs/heads/a {ZERO} {ZERO}", "notopen"),
    ],
    "lists": PUSH + [
        ("1 begin a.git", "ok begin 2"),
        (f"1 set refs/tags/u * {HELLO}", "ok set"),
        ("1 list", f"refs 2 {HELLO} {TAG} {HELLO} refs/tags/u"),
        ("1 list refs/tags/u", f"refs 1 {HELLO} refs/tags/u"),
        (f"1 set {TAG} {HELLO} {ZERO}", "ok set"),
        ("1 list", f"refs 1 {HELLO} refs/tags/u"),
        (f"1 get {TAG}", "noref"),
        ("1 commit", "ok commit 3"),
        ("2 begin a.git", "ok begin 3"),
        ("2 list", f"refs 1 {HELLO} refs/tags/u"),
    ],
}

# Scripts that are played whole, without a fault or a stop.
MORE = {
    "old_position": PUSH + [
        ("1 begin a.git", "ok begin 2"),
        ("2 begin a.git", "ok begin 2"),
        (f"1 put blob {TEST_WORD}", f"name {TEST}"),
        (f"1 set refs/tags/u {ZERO} {TEST}", "ok set"),
        (f"1 set {TAG} {HELLO} {ZERO}", "ok set"),
        ("1 commit", "ok commit 3"),
        (f"2 get {TAG}", f"ref {HELLO}"),
        ("2 get refs/tags/u", "noref"),
        ("2 list", f"refs 1 {HELLO} {TAG}"),
        (f"2 cat {TEST}", f"absent {TEST}"),
        (f"2 cat {HELLO}", f"object blob {HELLO_WORD}"),
        ("2 commit", "ok done 2"),
        ("2 begin a.git", "ok begin 3"),
        (f"2 get {TAG}", "noref"),
        ("2 list", f"refs 1 {TEST} refs/tags/u"),
        (f"2 cat {TEST}", f"object blob {TEST_WORD}"),
    ],
    "from_a_position": PUSH + [
        ("1 create b.git", "ok create 3"),
        ("1 create c.git", "ok create 4"),
        ("1 create d.git", "ok create 5"),
        ("1 begin a.git from 9", "behind 9 5"),
        ("1 list", "notopen"),
        ("1 begin a.git from 6", "behind 6 5"),
        ("1 begin a.git from 5", "ok begin 5"),
        ("1 begin a.git from 9", "alreadyopen"),
        ("1 list", f"refs 1 {HELLO} {TAG}"),
        ("1 abort", "ok abort"),
        ("2 begin a.git from 2", "ok begin 5"),
        ("3 begin a.git from 0", "ok begin 5"),
        # The position is looked at before the repository, and the path before the position.
        ("4 begin z.git from 6", "behind 6 5"),
        ("4 begin z.git from 5", "norepository"),
        ("4 begin A.git from 6", "badpath 0"),
        ("2 restart", "ok restart"),
        ("2 begin a.git from 6", "behind 6 5"),
        ("2 begin a.git from 5", "ok begin 5"),
        ("3 create e.git", "ok create 6"),
        ("3 begin e.git from 6", "ok begin 6"),
        ("4 begin e.git from 4294967295", "behind 4294967295 6"),
        ("2 begin e.git from 6", "alreadyopen"),
    ],
    # The 65th live transaction is refused, and so is one from a position that isn't there yet, before it.
    "pins_are_full": PUSH + [(f"{session} begin a.git", "ok begin 2") for session in range(1, 65)] + [
        ("65 begin a.git", "pinsfull"),
        ("65 begin a.git from 2", "pinsfull"),
        ("65 begin a.git from 3", "behind 3 2"),
        ("65 begin z.git", "pinsfull"),
        ("7 abort", "ok abort"),
        ("65 begin a.git", "ok begin 2"),
        ("66 begin a.git", "pinsfull"),
        ("1 list", f"refs 1 {HELLO} {TAG}"),
    ],
    "two_repositories": PUSH + [
        ("1 create b.git", "ok create 3"),
        ("2 begin b.git", "ok begin 3"),
        ("2 list", "refs 0"),
        (f"2 cat {HELLO}", f"absent {HELLO}"),
        (f"2 set {TAG} {ZERO} {HELLO}", "ok set"),
        ("2 commit", f"missing {HELLO} for {TAG}"),
        ("2 begin b.git", "ok begin 3"),
        (f"2 put blob {HELLO_WORD}", f"name {HELLO}"),
        (f"2 set {TAG} {ZERO} {HELLO}", "ok set"),
        ("2 commit", "ok commit 4"),
        ("2 delete a.git", "ok delete 5"),
        ("2 begin b.git", "ok begin 5"),
        (f"2 cat {HELLO}", f"object blob {HELLO_WORD}"),
        ("2 create a.git", "ok create 6"),
        ("1 begin a.git", "ok begin 6"),
        (f"1 get {TAG}", "noref"),
    ],
    # A restart ends each transaction, and so does a commit that is refused; one that is given up leaves nothing staged.
    "ended": PUSH + [
        ("1 begin a.git", "ok begin 2"),
        ("128 begin a.git", "ok begin 2"),
        (f"1 set {TAG} {HELLO} {ZERO}", "ok set"),
        (f"1 get {TAG}", "noref"),
        ("1 begin A.git", "alreadyopen"),
        ("2 restart", "ok restart"),
        (f"1 get {TAG}", "notopen"),
        ("128 abort", "notopen"),
        ("1 begin a.git", "ok begin 2"),
        (f"1 get {TAG}", f"ref {HELLO}"),
        (f"1 set {TAG} {HELLO} {ZERO}", "ok set"),
        ("1 abort", "ok abort"),
        ("1 begin a.git", "ok begin 2"),
        (f"1 get {TAG}", f"ref {HELLO}"),
        ("1 commit", "ok done 2"),
        ("1 begin a.git", "ok begin 2"),
        (f"1 verify {TAG} {EMPTY}", "ok verify"),
        ("1 commit", f"conflict {TAG} expected {EMPTY} actual {HELLO}"),
        ("1 begin a.git", "ok begin 2"),
        (f"1 verify {TAG} *", "ok verify"),
        (f"1 get {TAG}", f"ref {HELLO}"),
        (f"1 set {TAG} * {ZERO}", "ok set"),
        (f"1 get {TAG}", "noref"),
        ("1 list", "refs 0"),
        ("1 commit", "ok commit 3"),
    ],
    "restarted": [
        ("1 create a.git", "ok create 1"),
        ("1 create a.git", "exists"),
        ("1 restart", "ok restart"),
        ("2 create b.git", "ok create 2"),
    ],
    "sessions": [("128 create A.git", "badpath 0"), ("128 create a/b-c.git", "ok create 1")],
    "nothing": [],
}

# Over a store of epoch 1 at position 2, whose repository has a tag and its object.
BASED = [
    ("1 create a.git", "exists"),
    ("1 begin a.git", "ok begin 2"),
    (f"1 get {TAG}", f"ref {HELLO}"),
    ("1 list", f"refs 1 {HELLO} {TAG}"),
    (f"1 cat {HELLO}", f"object blob {HELLO_WORD}"),
    (f"1 cat {TEST}", f"absent {TEST}"),
    (f"1 put blob {HELLO_WORD}", f"name {HELLO}"),
    (f"1 put blob {TEST_WORD}", f"name {TEST}"),
    (f"1 set {TAG} {ZERO} {TEST}", "ok set"),
    ("1 commit", f"conflict {TAG} expected {ZERO} actual {HELLO}"),
    ("1 begin a.git", "ok begin 2"),
    ("2 begin a.git", "ok begin 2"),
    (f"1 set refs/tags/t/u {ZERO} {HELLO}", "ok set"),
    ("1 commit", "directory refs/tags/t/u with refs/tags/t"),
    ("1 begin a.git", "ok begin 2"),
    # The object of the base isn't added again.
    (f"1 put blob {HELLO_WORD}", f"name {HELLO}"),
    (f"1 put blob {TEST_WORD}", f"name {TEST}"),
    (f"1 set {TAG} {HELLO} {TEST}", "ok set"),
    (f"1 set {MAIN} {ZERO} {HELLO}", "ok set"),
    ("1 commit", "ok commit 3"),
    (f"2 get {TAG}", f"ref {HELLO}"),
    (f"2 cat {TEST}", f"absent {TEST}"),
    ("2 commit", "ok done 2"),
    ("1 restart", "ok restart"),
    ("1 begin a.git", "ok begin 3"),
    ("1 list", f"refs 2 {HELLO} {MAIN} {TEST} {TAG}"),
    (f"1 cat {HELLO}", f"object blob {HELLO_WORD}"),
    (f"1 cat {TEST}", f"object blob {TEST_WORD}"),
    (f"1 set {TAG} {TEST} {ZERO}", "ok set"),
    ("1 commit", "ok commit 4"),
    ("1 delete a.git", "ok delete 5"),
    ("1 create a.git", "ok create 6"),
    ("1 begin a.git", "ok begin 6"),
    ("1 list", "refs 0"),
    (f"1 cat {HELLO}", f"absent {HELLO}"),
]

# Reads what any of these leaves: the references and each object, and by a creation the front.
READING = ["1 begin a.git", "1 list"] + [
    f"1 cat {name}" for name in (HELLO, TEST, EMPTY, TREE, COMMIT, ROOTLESS)
] + ["2 create front.git"]

# Five repositories; then a commit at the front 5, tried twice, and one commit more.
FIVE = [(f"1 create {name}.git", f"ok create {at}") for at, name in enumerate("abcde", 1)]
COMMITS = [
    "1 begin a.git", f"1 put blob {HELLO_WORD}", f"1 set {TAG} {ZERO} {HELLO}", "1 commit", "1 commit",
    "1 begin a.git", f"1 get {TAG}", f"1 put blob {HELLO_WORD}", f"1 set refs/tags/u * {HELLO}", "1 commit",
]
STAGED = ["ok begin 5", f"name {HELLO}", "ok set"]
COMMITS_IN = STAGED + ["unsure 6", "notopen", "ok begin 6", f"ref {HELLO}", f"name {HELLO}", "ok set", "ok commit 7"]
COMMITS_OUT = STAGED + ["unsure 6", "notopen", "ok begin 5", "noref", f"name {HELLO}", "ok set", "ok commit 6"]
COMMITS_OPEN = STAGED + ["devicefault", "ok commit 6", "ok begin 6", f"ref {HELLO}", f"name {HELLO}", "ok set", "ok commit 7"]

# The mounting makes the calls 0 to 13: a sync and a length of the gate, the same of turn, and two for each entry. The commit's
# are the entry's write 14 and its sync 15, the gate's append 16 and its sync 17.
COMMIT_FAULTS = [
    ({14: 0}, COMMITS_OPEN), ({14: None}, COMMITS_OPEN), ({15: 0}, COMMITS_OPEN),
    ({16: 0}, COMMITS_OUT), ({16: 1}, COMMITS_IN), ({17: 0}, COMMITS_IN),
]

# A creation, a deletion and a beginning, each tried twice. To settle takes a sync of the gate and its length.
TWICE = ["1 create f.git"] * 2 + ["1 delete f.git"] * 2 + ["1 begin a.git"] * 2
TWICE_FAULTS = [
    ({16: 1}, ["unsure 6", "exists", "ok delete 7", "norepository", "ok begin 7", "alreadyopen"]),
    ({16: 1, 17: 0}, ["unsure 6", "devicefault", "ok delete 7", "norepository", "ok begin 7", "alreadyopen"]),
    ({16: 0, 18: 0}, ["unsure 6", "devicefault", "norepository", "norepository", "ok begin 5", "alreadyopen"]),
    ({16: 1, 17: 0, 18: 0, 19: 0, 20: 0}, ["unsure 6"] + ["devicefault"] * 4 + ["ok begin 6"]),
]

# Inputs that are no script, or none that is done yet, and what standard error says of each.
BAD_INPUTS = [
    ([""], "bad input 1 0"), (["129 restart"], "bad input 1 0"), (["1 creat a.git"], "bad input 1 2"),
    (["1 begin  a.git"], "bad input 1 8"), (["1 restart", "1 restart", "1 create", "2"], "bad input 3 8"),
    (["1 begin a.git", "1 restart again"], "bad input 2 10"), (["1 commit", "0 commit"], "bad input 2 0"),
    (["1 put blob 1"], "bad input 1 11"), (["1 commit "], "bad input 1 9"),
]
NOT_YET = [
    (["1 create a.git", "1 pool p.git", "1 commit"], "not yet 2"), (["1 create a.git near b.git"], "not yet 1"),
    (["1 begin a.git from 1", "1 trim 1"], "not yet 2"), (["1 trim 1"], "not yet 1"),
]

# Five entries, and six of another store.
STORE = PUSH + [
    ("1 begin a.git", "ok begin 2"),
    (f"1 put blob {TEST_WORD}", f"name {TEST}"),
    (f"1 set {TAG} {HELLO} {TEST}", "ok set"),
    ("1 commit", "ok commit 3"),
    ("1 begin a.git", "ok begin 3"),
    (f"1 verify {TAG} {TEST}", "ok verify"),
    ("1 commit", "ok commit 4"),
    ("1 delete a.git", "ok delete 5"),
]
OTHER = [
    "1 create b.git", "1 create a.git",
    "1 begin a.git", f"1 put blob {HELLO_WORD}", f"1 set refs/tags/u {ZERO} {HELLO}", "1 commit",
    "1 begin a.git", "1 put blob -", f"1 set refs/tags/u {HELLO} {EMPTY}", "1 commit",
    "1 create c.git", "1 create d.git",
]
# Shows the front: whether a.git is there, and the position behind it.
ASKED = ["1 begin a.git", "2 create z.git"]
