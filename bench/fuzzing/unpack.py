"""Fuzzes scripts/unpack: an archive, which is a stranger's.

Always: the status is 0, and nothing is said; or it is 1, and one line says why. Nothing is written but regular files and folders below the
repository and the store, under names that these have, each with octets that stand in the archive, and not more of them than it holds.
"""
import re
import shutil

from guided import NUMBERS, changed
from scripts import TOP, Script, process, tree, wants, wants_lines

SCRIPT = TOP / "scripts" / "unpack"
FILES = [SCRIPT]
MOST = 40_000
SCRIPT_RUN = Script(SCRIPT)
NAME = re.compile(r"store/root_history/[0-9]+\.root\.json|repository/targets/([0-9a-f]+\.)?trusted_root\.json|repository/([0-9]+\.)?[\w.~%-]*\.json", re.ASCII)
FOLDERS = {"archive", "store", "store/root_history", "repository", "repository/targets"}
FOLDER = None
WORDS = [b'{"signed": {"version": 7}}', b'{"signed": {"version": true}}', b'"version": 1.0', b"1.root", b"timestamp", b"targets", b"..", b"/", b"\0\0\0\0", b"\1"]
DOCUMENT = b'{"signed": {"version": 1}}'


def counted(octets):
    return len(octets).to_bytes(4, "big") + octets


def archive(roots, roles, timestamp=DOCUMENT, snapshot=DOCUMENT, file=b"{}"):
    listed = [counted(name) + counted(by) + (b"\0" if document is None else b"\1" + counted(document)) for name, by, document in roles]
    parts = [len(roots).to_bytes(4, "big"), *map(counted, roots), counted(timestamp), counted(snapshot), len(roles).to_bytes(4, "big"), *listed]
    return b"SIGCHAIN1\n" + b"".join(parts) + counted(file)


def begin(folder, _keep):
    global FOLDER
    FOLDER = folder
    versions = [b'{"signed": {"version": %d}}' % number for number in range(1, 4)]
    targets = (b"targets", b"snapshot", DOCUMENT)
    yield archive(versions, [targets])
    yield archive(versions[:1], [targets, (b"a/b\xc3\xbc%", b"targets", versions[2]), (b"absent", b"targets", None)], file=bytes(300))
    yield archive(versions, [targets, (b"timestamp", b"targets", DOCUMENT), (b"1.root", b"targets", b"[]"), (b"." * 300, b"targets", DOCUMENT)])
    yield archive([b"x", b'{"signed": {"version": -1}}', b"[" * 3000], [], b"\xff", b"[]")
    for count in (100, 101):
        yield archive([b"{}", b"{}", *versions], [(b"%d" % number, b"targets", b"{}") for number in range(count)])


def judge(octets, ended, folder):
    wants(not ended.out, "output: nothing is written there", ended)
    wants_lines(ended, 1)
    wants((ended.status, bool(ended.err)) in ((0, False), (1, True)), "status: it is 0, or 1 with a line", ended)
    written, places = 0, set()
    for name, what in tree(folder).items():
        if name in FOLDERS:
            continue
        wants(NAME.fullmatch(name), f"name: {name!r}", ended)
        wants(what[0] == "file" and what[1] in octets, f"octets: {name!r} has others", ended)
        inode = (folder / name).stat().st_ino
        written += 0 if inode in places else len(what[1])
        places.add(inode)
    wants(written <= len(octets), f"much: {written} octets are written", ended)
    return {ended.err[:20], len(places).bit_length()}


def places(octets):
    folder = FOLDER / "run"
    shutil.rmtree(folder, ignore_errors=True)
    folder.mkdir()
    (folder / "archive").write_bytes(octets)
    return folder, [str(folder / name) for name in ("archive", "repository", "store")]


def run(octets):
    folder, words = places(octets)
    return judge(octets, SCRIPT_RUN.run(words), folder)


def whole(octets):
    folder, words = places(octets)
    judge(octets, process([SCRIPT, *words]), folder)


def change(octets, other, source):
    """Another archive: numbers of four octets are changed too."""
    if source.random() < 0.3:
        at = source.randrange(max(len(octets) - 4, 1))
        value = source.choice((*NUMBERS, int.from_bytes(octets[at : at + 4], "big") + source.choice((-1, 1, 4))))
        octets = octets[:at] + (value % 2**32).to_bytes(4, "big") + octets[at + 4 :]
    return changed(octets, other, WORDS, source, MOST)
