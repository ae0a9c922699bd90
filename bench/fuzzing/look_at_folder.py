"""Fuzzes scripts/look_at_folder: a folder whose names, and what stands under them, are a stranger's.

An input is entries with a line feed between them: a letter for what it is (a file, a folder, a pipe, a socket, a link to somewhere, to
itself or to a file), and the name's octets in hexadecimal. Always: the status is 0, nothing stands on standard error, there are at most
eight lines, each of printable ASCII, and the last one tells as many artifacts and bundles as the folder has.
"""
import os
import re
import shutil
import socket

from guided import changed
from scripts import TOP, Script, process, wants

SCRIPT = TOP / "scripts" / "look_at_folder"
FILES = [SCRIPT]
MOST = 6000
SCRIPT_RUN = Script(SCRIPT)
FOLDER = None
SUFFIX = b".sigstore.json"
# (an empty one is to the entry itself)
LINKS = {b"l": b"nowhere", b"o": b"", b"t": b"/dev/null"}
WORDS = [b"f", b"d", b"p", b"s", b"l", b"o", b"t", b"\n", SUFFIX.hex().encode(), b"0a", b"1b5b33316d", b"c3bc", b"ff", b"5c", b"20", b"2d2d"]
SEEDS = [["f61", "f61" + SUFFIX.hex()], ["d61"], ["p61", "s62", "l63", "o64", "t65", "f66"], ["fff", "f0a61", "f1b5b", "fc3bc"], ["f" + SUFFIX.hex()], []]


def begin(folder, _keep):
    global FOLDER
    FOLDER = folder
    yield from ("\n".join(seed).encode() for seed in SEEDS)
    yield "\n".join(f"d{number:04x}" for number in range(40, 60)).encode()


def make_entry(letter, path):
    if letter == b"d":
        os.mkdir(path)
    elif letter == b"p":
        os.mkfifo(path)
    elif letter == b"s":
        with socket.socket(socket.AF_UNIX) as it:
            it.bind(path)
    elif letter in LINKS:
        os.symlink(LINKS[letter] or os.path.basename(path), path)
    else:
        os.close(os.open(path, os.O_CREAT | os.O_EXCL))


def lay_out(octets):
    """Makes the entries, and gives the names of those that are files."""
    place = os.fsencode(FOLDER / "run")
    shutil.rmtree(place, ignore_errors=True)
    os.mkdir(place)
    files = set()
    for entry in octets.split(b"\n"):
        spelled = re.sub(rb"[^0-9a-f]", b"", entry[1:])
        name = bytes.fromhex(spelled[: len(spelled) // 2 * 2].decode()).replace(b"\0", b"").replace(b"/", b"")
        try:
            make_entry(entry[:1], os.path.join(place, name))
        except OSError:
            continue
        if entry[:1] not in (b"d", b"p", b"s", *LINKS):
            files.add(name)
    return files


def is_text(name):
    try:
        name.decode()
    except UnicodeDecodeError:
        return False
    return True


def judge(files, ended):
    wants(ended.status == 0 and not ended.err, "status: it is 0, and nothing is said", ended)
    lines = ended.out.split(b"\n")[:-1]
    wants(ended.out == b"".join(line + b"\n" for line in lines) and 1 <= len(lines) <= 8, "lines: at most eight", ended)
    wants(all(32 <= octet < 127 for line in lines for octet in line), "unprintable: a line", ended)
    named = {name for name in files if is_text(name)}
    bundles = sum(name.endswith(SUFFIX) for name in named)
    told = re.match(rb"(\d+) artifacts?, (\d+) bundles?(,|\Z)", lines[-1])
    wants(told and (int(told[1]), int(told[2])) == (len(named) - bundles, bundles), f"count: {len(named)} files, {bundles} bundles", ended)
    return {re.sub(rb".*: |\d+", b"", line) for line in lines}


def run(octets):
    files = lay_out(octets)
    return judge(files, SCRIPT_RUN.run([str(FOLDER / "run")]))


def whole(octets):
    files = lay_out(octets)
    judge(files, process([SCRIPT, FOLDER / "run"]))


def change(octets, other, source):
    entries, others = octets.split(b"\n"), other.split(b"\n")
    at = source.randrange(len(entries))
    if source.random() < 0.5:
        entries.insert(at, source.choice(others))
    entries[at] = changed(entries[at], source.choice(others), WORDS, source)
    return b"\n".join(entries)[:MOST]
