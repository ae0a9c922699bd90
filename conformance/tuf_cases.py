"""Cases of a TUF client, over HTTP. (No script: conformance/cases runs them.)

They are written here from what the specification asks and from what tuf-conformance says that it tests; that suite's own cases
are its own. A case has a repository whose owner, or who stands before it, may do anything, and a client with the suite's
command line; it tells of each call whether it has to go well, and which versions the client's folder has then.
"""
import json
import pathlib
import sys
import urllib.parse

sys.path.insert(0, str(pathlib.Path(__file__).resolve().parent.parent / "suite"))
from documents import FAR, PAST, Repository

CASES = {}
ROLES = ("root", "timestamp", "snapshot", "targets")


def case(function):
    CASES[function.__name__.replace("_", "-")] = function
    return function


def of_download(function):
    """A case that is of downloads: left out where a client has none."""
    function.downloads = True
    return case(function)


# ---- a refresh


@case
def init_and_refresh(world):
    world.init()
    world.refresh(True)
    world.has(root=1, timestamp=5, snapshot=4, targets=3)
    world.has_asked("metadata/timestamp.json", "metadata/4.snapshot.json", "metadata/3.targets.json")


@case
def refresh_of_nothing_new(world):
    world.init()
    world.refresh(True)
    world.refresh(True, "the second refresh")
    world.has(root=1, timestamp=5, snapshot=4, targets=3)


@case
def refresh_of_next_state(world):
    world.init()
    world.refresh(True)
    world.next_state()
    world.refresh(True, "the second refresh")
    world.has(root=1, timestamp=6, snapshot=5, targets=4)


@case
def names_without_versions(world):
    world.repository.consistent = False
    world.init()
    world.refresh(True)
    world.has(root=1, timestamp=5, snapshot=4, targets=3)


@case
def names_change_with_a_root(world):
    world.repository.consistent = False
    world.init()
    world.refresh(True)
    world.repository.last = 2
    world.repository.change("content", "root 2", lambda it: {**it, "consistent_snapshot": True})
    world.repository.consistent = True
    # (the first root says as before that names have no versions)
    world.repository.change("content", "root 1", lambda it: {**it, "consistent_snapshot": False})
    world.next_state()
    world.refresh(True, "behind the next root")
    world.has(root=2, timestamp=6, snapshot=5, targets=4)


@case
def pins_without_digests(world):
    world.repository.whole_pins = False
    world.init()
    world.refresh(True)
    world.has(root=1, timestamp=5, snapshot=4, targets=3)


@case
def members_that_nobody_knows(world):
    for kind in ("root 1", *ROLES[1:]):
        world.repository.change("content", kind, lambda it: {**it, "x-new": {"a": [1, "two", None]}})
    world.init()
    world.refresh(True)


@case
def specification_of_a_later_minor_version(world):
    world.repository.change("content", "timestamp", lambda it: {**it, "spec_version": "1.99.0"})
    world.init()
    world.refresh(True)


@case
def specification_of_two_parts(world):
    world.repository.change("content", "timestamp", lambda it: {**it, "spec_version": "1.0"})
    world.init()
    world.refresh(True)


@case
def specification_of_another_major_version(world):
    world.repository.change("content", "timestamp", lambda it: {**it, "spec_version": "2.0.0"})
    world.init()
    world.refresh(False)
    world.has(timestamp=None)


def sorts_of_keys(sort):
    def tried(world):
        world.repository = Repository("tuf", "sorts", sort, sorts=dict.fromkeys(ROLES, sort))
        world.init()
        world.refresh(True)
        world.has(root=1, timestamp=5, snapshot=4, targets=3)
    return tried


for SORT in ("ed25519", "p256", "p384", "rsa"):
    CASES[f"keys-of-{SORT}"] = sorts_of_keys(SORT)


@case
def ids_that_are_no_digests(world):
    repository = world.repository
    repository.signers = {role: [one.called(f"{role} key") for one in signers] for role, signers in repository.signers.items()}
    world.init()
    world.refresh(True)


@case
def folder_without_root(world):
    world.publish()
    (world.folder / "metadata").mkdir()
    world.refresh(False)


@case
def folder_with_garbage(world):
    world.init()
    world.refresh(True)
    for role in ROLES[1:]:
        (world.folder / "metadata" / f"{role}.json").write_bytes(b"garbage")
    world.refresh(True, "over garbage")
    world.has(root=1, timestamp=5, snapshot=4, targets=3)


@case
def folder_with_what_nobody_signed(world):
    """What lies in the client's folder counts only where it is signed: here a timestamp of a high number."""
    world.init()
    world.refresh(True)
    at = world.folder / "metadata" / "timestamp.json"
    document = json.loads(at.read_bytes())
    document["signed"]["version"] = 1000
    at.write_text(json.dumps(document))
    world.refresh(True, "over a forged timestamp")
    world.has(timestamp=5)


# ---- what has ended


def expired(role, **has):
    def tried(world):
        world.init()
        world.refresh(True)
        world.repository.expires[role] = PAST
        world.next_state()
        world.refresh(False, f"the {role} has ended")
        world.has(**has)
        world.repository.expires[role] = FAR
        world.next_state()
        world.refresh(True, "behind it")
        world.has(root=1, timestamp=7, snapshot=6, targets=5)
    return tried


CASES["timestamp-ended"] = expired("timestamp", root=1, timestamp=5, snapshot=4, targets=3)
CASES["snapshot-ended"] = expired("snapshot", root=1, timestamp=6, snapshot=4, targets=3)
CASES["targets-ended"] = expired("targets", root=1, timestamp=6, snapshot=5, targets=3)


@case
def root_ended(world):
    world.init()
    world.refresh(True)
    world.repository.last = 2
    world.repository.expires["root 2"] = PAST
    world.next_state()
    world.refresh(False, "the last root has ended")
    world.has(root=2, timestamp=5)
    world.repository.last = 3
    world.next_state()
    world.refresh(True, "behind it")
    world.has(root=3, timestamp=7)


@case
def root_on_the_way_ended(world):
    world.repository.expires |= {"root 1": PAST, "root 2": PAST}
    world.init()
    world.repository.last = 3
    world.publish()
    world.refresh(True)
    world.has(root=3)


@case
def delegated_role_ended(world):
    """A refresh is of the top-level documents alone."""
    world.repository.delegate("role", paths=["*"])
    world.repository.expires["role"] = PAST
    world.init()
    world.refresh(True)


# ---- keys and thresholds


def rotated(role):
    def tried(world):
        world.init()
        world.refresh(True)
        world.rotate(role)
        world.next_state()
        world.refresh(True, f"behind other keys of {role}")
        world.has(root=2, timestamp=6, snapshot=5, targets=4)
    return tried


for ROLE in ROLES:
    CASES[f"keys-of-{ROLE}-rotated"] = rotated(ROLE)


@case
def keys_rotated_thrice(world):
    world.init()
    for role in ("root", "timestamp", "root"):
        world.rotate(role)
    world.publish()
    world.refresh(True)
    world.has(root=4, timestamp=5)
    world.has_asked("metadata/2.root.json", "metadata/3.root.json", "metadata/4.root.json", "metadata/timestamp.json", "metadata/4.snapshot.json", "metadata/3.targets.json")


@case
def next_root_by_new_keys_alone(world):
    world.init()
    world.rotate("root")
    world.repository.change("signers", "root 2", lambda it: world.repository.rotated[2]["root"])
    world.publish()
    world.refresh(False)
    world.has(root=1, timestamp=None)


@case
def next_root_by_old_keys_alone(world):
    world.init()
    world.rotate("root")
    world.repository.change("signers", "root 2", lambda it: world.repository.signers["root"])
    world.publish()
    world.refresh(False)
    world.has(root=1, timestamp=None)


def with_threshold(kind, signers, goes_well):
    def tried(world):
        world.repository = Repository("tuf", "threshold", kind, signers, count=3, threshold=2)
        if kind == "root":
            world.repository.last = 2
        world.repository.change("signers", "root 2" if kind == "root" else kind, lambda it: it[:signers])
        world.init()
        world.refresh(goes_well)
        world.has(root=2 if kind == "root" and goes_well else 1, targets=3 if goes_well else None)
    return tried


for ROLE in ROLES:
    CASES[f"{ROLE}-by-one-of-two-keys"] = with_threshold(ROLE, 1, False)
    CASES[f"{ROLE}-by-two-of-three-keys"] = with_threshold(ROLE, 2, True)


@case
def timestamp_by_a_key_taken_back(world):
    world.init()
    world.refresh(True)
    old = world.repository.signers["timestamp"]
    world.rotate("timestamp")
    world.repository.change("signers", "timestamp", lambda it: old)
    world.next_state()
    world.refresh(False)
    world.has(root=2, timestamp=5)


def unsigned(kind, has):
    def tried(world):
        world.repository.change("signatures", kind, lambda it: [])
        world.init()
        world.refresh(False)
        world.has(**has)
    return tried


CASES["timestamp-unsigned"] = unsigned("timestamp", {"root": 1, "timestamp": None})
CASES["snapshot-unsigned"] = unsigned("snapshot", {"root": 1, "timestamp": 5, "snapshot": None})
CASES["targets-unsigned"] = unsigned("targets", {"root": 1, "timestamp": 5, "snapshot": 4, "targets": None})


@case
def signature_doubled(world):
    """One signature that stands twice never counts for two."""
    world.repository = Repository("tuf", "doubled", count=2, threshold=2)
    world.repository.change("signatures", "timestamp", lambda it: [it[0], it[0]])
    world.init()
    world.refresh(False)
    world.has(timestamp=None)


@case
def key_under_two_ids(world):
    """The threshold is a number of keys: one key under two ids is one."""
    world.repository = Repository("tuf", "two ids", count=2, threshold=2)
    first = world.repository.signers["timestamp"][0]
    world.repository.signers["timestamp"] = [first, first.called("ab" * 32)]
    world.init()
    world.refresh(False)
    world.has(timestamp=None)


@case
def signature_of_a_stranger_beside(world):
    stranger = world.repository.signer("stranger", 0)
    for kind in ROLES[1:]:
        world.repository.change("signers", kind, lambda it: [stranger, *it])
    world.init()
    world.refresh(True)


@case
def role_that_root_doesnt_name(world):
    world.repository.change("content", "root 1", lambda it: {**it, "roles": {name: one for name, one in it["roles"].items() if name != "snapshot"}})
    pinned = world.publish()
    at = world.folder / "pinned.json"
    at.write_bytes(pinned)
    # (which of both calls notices it, is the client's)
    went = world.run("init", at) == 0 and world.run("refresh") == 0
    world.expect("init and refresh", went, False)


# ---- numbers


@case
def next_root_skips_a_number(world):
    world.init()
    world.repository.last = 2
    world.repository.change("content", "root 2", lambda it: {**it, "version": 3})
    world.publish()
    world.refresh(False)
    world.has(root=1)


@case
def next_root_of_the_same_number(world):
    world.init()
    world.repository.last = 2
    world.repository.change("content", "root 2", lambda it: {**it, "version": 1})
    world.publish()
    world.refresh(False)
    world.has(root=1)


def falls(role, steps, has):
    """The client sees some versions and then others, of which one is lower."""
    def tried(world):
        world.init()
        world.publish(**steps[0])
        world.refresh(True)
        world.publish(**steps[1])
        world.refresh(False, f"the number of {role} falls")
        world.has(**has)
    return tried


CASES["timestamp-falls"] = falls("timestamp", [{"timestamp": 9}, {"timestamp": 8}], {"timestamp": 9})
CASES["snapshot-falls"] = falls("snapshot", [{"timestamp": 6, "snapshot": 9}, {"timestamp": 7, "snapshot": 8}], {"timestamp": 6, "snapshot": 9})
CASES["targets-fall"] = falls("targets", [{"timestamp": 6, "snapshot": 5, "targets": 9}, {"timestamp": 7, "snapshot": 6, "targets": 8}], {"snapshot": 5, "targets": 9})


@case
def numbers_leap(world):
    world.init()
    world.refresh(True)
    world.publish(timestamp=2**31, snapshot=2**32, targets=2**40)
    world.refresh(True, "over a leap")
    world.has(timestamp=2**31, snapshot=2**32, targets=2**40)


@case
def timestamp_of_the_same_number(world):
    """A timestamp of the number that is in force says nothing new, whatever is in it."""
    world.init()
    world.refresh(True)
    world.publish(snapshot=9)
    world.refresh(True, "another timestamp of the same number")
    world.has(timestamp=5, snapshot=4)


@case
def snapshot_of_another_number_than_its_pin(world):
    world.repository.whole_pins = False
    world.repository.change("content", "snapshot", lambda it: {**it, "version": it["version"] + 1})
    world.init()
    world.refresh(False)
    world.has(timestamp=5, snapshot=None)


@case
def targets_of_another_number_than_their_pin(world):
    world.repository.whole_pins = False
    world.repository.change("content", "targets", lambda it: {**it, "version": it["version"] + 1})
    world.init()
    world.refresh(False)
    world.has(snapshot=4, targets=None)


@case
def role_vanishes_from_snapshot(world):
    world.repository.change("content", "snapshot", lambda it: {**it, "meta": {**it["meta"], **({"retired.json": {"version": 1}} if it["version"] == 4 else {})}})
    world.init()
    world.refresh(True)
    world.next_state()
    world.refresh(False, "a role is missing")
    world.has(snapshot=4)


def recovery(role, rotates, steps):
    """A number was raised without end; a next root names other keys, and lower numbers count again."""
    def tried(world):
        world.init()
        world.publish(**steps[0])
        world.refresh(True, "the raised number")
        world.publish(**steps[1])
        world.refresh(False, "lower ones before the next root")
        for name in rotates:
            world.rotate(name)
        # (numbers that the client may have taken meanwhile are passed over)
        after = {name: number + 1 for name, number in steps[1].items()}
        world.publish(**after)
        world.refresh(True, "behind the next root")
        world.has(**{role: after[role]})
    return tried


CASES["timestamp-recovers"] = recovery("timestamp", ["timestamp"], [{"timestamp": 99999}, {"timestamp": 6}])
CASES["snapshot-recovers"] = recovery("snapshot", ["snapshot", "timestamp"], [{"timestamp": 6, "snapshot": 99999}, {"timestamp": 7, "snapshot": 5}])
CASES["targets-recover"] = recovery("targets", ["snapshot"], [{"timestamp": 6, "snapshot": 5, "targets": 99999}, {"timestamp": 7, "snapshot": 6, "targets": 4}])


@case
def thirty_next_roots(world):
    world.init()
    world.repository.last = 31
    world.publish()
    world.refresh(True)
    world.has(root=31)


@case
def many_next_roots(world):
    """More than some clients follow in one run: a second run goes on behind them."""
    world.init()
    world.repository.last = 45
    world.publish()
    first = world.run("refresh")
    if first != 0:
        world.refresh(True, "the second refresh")
    world.has(root=45)


# ---- lengths and digests


def other_layout(octets):
    return octets.replace(b"\n ", b"  ", 1)


def served_otherwise(kind, change, has):
    def tried(world):
        world.repository.change("served", kind, change)
        world.init()
        world.refresh(False)
        world.has(**has)
    return tried


NO_SNAPSHOT, NO_TARGETS = {"timestamp": 5, "snapshot": None}, {"snapshot": 4, "targets": None}
for WHAT, CHANGE in (("of-another-digest", other_layout), ("longer-than-listed", lambda it: it + b"\n"), ("shorter-than-listed", lambda it: it[:-1]), ("absent", lambda it: None)):
    CASES[f"snapshot-{WHAT}"] = served_otherwise("snapshot", CHANGE, NO_SNAPSHOT)
    CASES[f"targets-{WHAT}"] = served_otherwise("targets", CHANGE, NO_TARGETS)
CASES["timestamp-absent"] = served_otherwise("timestamp", lambda it: None, {"root": 1, "timestamp": None})
CASES["timestamp-no-json"] = served_otherwise("timestamp", lambda it: b"<html></html>", {"root": 1, "timestamp": None})
CASES["timestamp-too-long"] = served_otherwise("timestamp", lambda it: it + b" " * 200_000, {"root": 1, "timestamp": None})


@case
def timestamp_of_another_type(world):
    world.repository.change("content", "timestamp", lambda it: {**it, "_type": "snapshot"})
    world.init()
    world.refresh(False)
    world.has(timestamp=None)


@case
def timestamp_without_snapshot(world):
    world.repository.change("content", "timestamp", lambda it: {**it, "meta": {}})
    world.init()
    world.refresh(False)


@case
def number_with_a_fraction(world):
    world.repository.change("content", "timestamp", lambda it: {**it, "x-weight": 1.5})
    world.init()
    world.refresh(False)


@case
def fetch_stops_at_garbage_of_a_root(world):
    world.init()
    world.refresh(True)
    world.repository.last = 2
    world.repository.change("served", "root 2", lambda it: b"garbage")
    world.next_state()
    world.refresh(False)
    world.has(root=1, timestamp=5)


# ---- targets and delegations


NAMES = ("plain.txt", "with blank.txt", "a/b/c.txt", "percent%20.txt", "\u00fcmlaut.txt")


def target_named(path):
    def tried(world):
        octets = f"What is at {path}.\n".encode()
        world.repository.targets[path] = octets
        world.init()
        world.refresh(True)
        world.download(path, True, octets)
        world.download("not there", False)
    tried.downloads = True
    return tried


for NUMBER, NAME in enumerate(NAMES):
    CASES[f"target-{NUMBER}-named-{ascii(NAME)[1:-1]}"] = target_named(NAME)


@of_download
def target_without_digest_in_its_name(world):
    world.repository.consistent = False
    world.repository.targets["file"] = b"octets"
    world.init()
    world.download("file", True, b"octets")


@of_download
def target_of_another_digest(world):
    world.repository.targets["file"] = b"octets"
    world.repository.change("served", "target file", lambda it: b"0ctets")
    world.init()
    world.download("file", False)


@of_download
def target_longer_than_listed(world):
    world.repository.targets["file"] = b"octets"
    world.repository.change("served", "target file", lambda it: it + b".")
    world.init()
    world.download("file", False)


@of_download
def target_shorter_than_listed(world):
    world.repository.targets["file"] = b"octets"
    world.repository.change("served", "target file", lambda it: it[:-1])
    world.init()
    world.download("file", False)


@of_download
def target_of_delegated_role(world):
    world.repository.delegate("role", paths=["files/*"], targets={"files/one": b"one"})
    world.init()
    world.download("files/one", True, b"one")
    world.download("files/two", False)


@of_download
def target_outside_the_delegation(world):
    world.repository.delegate("role", paths=["files/*"], targets={"other/one": b"one"})
    world.init()
    world.download("other/one", False)


@of_download
def target_behind_a_terminating_role(world):
    world.repository.delegate("first", paths=["*"], terminating=True)
    world.repository.delegate("second", paths=["*"], targets={"one": b"one"})
    world.init()
    world.download("one", False)


@of_download
def target_of_the_first_of_two_roles(world):
    world.repository.delegate("first", paths=["*"], targets={"one": b"first"})
    world.repository.delegate("second", paths=["*"], targets={"one": b"second"})
    world.init()
    world.download("one", True, b"first")


@of_download
def target_of_an_ended_role(world):
    world.repository.delegate("role", paths=["*"], targets={"one": b"one"})
    world.repository.expires["role"] = PAST
    world.init()
    world.download("one", False)


@of_download
def target_of_a_role_by_strangers(world):
    world.repository.delegate("role", paths=["*"], targets={"one": b"one"})
    world.repository.change("signers", "role", lambda it: [world.repository.signer("stranger", 1).called(it[0].id)])
    world.init()
    world.download("one", False)


@of_download
def target_that_is_there_already(world):
    world.repository.targets["file"] = b"octets"
    world.init()
    world.download("file", True, b"octets")
    world.download("file", True, b"octets")


def role_named(name):
    """A role whose name leads astray in a path or a URL; a refresh isn't about it, and a download finds it."""
    def prepared(world):
        file = f"{urllib.parse.quote(name, safe='')}.json"
        world.repository.delegate(name, paths=["*"], targets={"one": b"one"}, file=file)
        world.init()

    def refreshes(world):
        prepared(world)
        world.refresh(True)
        world.has(root=1, timestamp=5, snapshot=4, targets=3)

    def downloads(world):
        prepared(world)
        world.download("one", True, b"one")
    downloads.downloads = True
    return refreshes, downloads


for NUMBER, NAME in enumerate(("?", "#", "/", "../up", ".", "a/b", " ", "\u00fc", "%2e")):
    CASES[f"role-{NUMBER}-named-{ascii(NAME)[1:-1]}"], CASES[f"target-of-role-{NUMBER}-named-{ascii(NAME)[1:-1]}"] = role_named(NAME)
