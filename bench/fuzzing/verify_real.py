"""Fuzzes verify-real, as far as it reads what a stranger gives: bundles, policies, archives, checkpoints and folders, the words, and what
comes of them by way of the programs, which lines of standard output and of questions are.

The scripts lie as they are installed, and programs of a few lines stand in for the proved ones: they write what the input says, since
what they make of a file is proved. An input is parts with DIVIDER between them: the bytes of `Manner`, and for each letter of PARTS a
part. Signs of what was reached are the forms of the lines on standard error.

Always: the status and standard output are those of the program that verifies, or 70, or 2 where words are wrong. Standard error has lines of
printable ASCII, of which none is a fault of the shell or of a tool. It ends within its time, and leaves nothing behind: not among
temporary files, and not in the folder of the documents.
"""
import os
import re
import shutil

from guided import changed
from scripts import ENVIRONMENT, TOP, process, tree, wants

FILES = []
MOST = 8000
DIVIDER = b"\xff\xfe|\xff"
COMMANDS = (None, "gate", "archive", "check", "download", "audit")
# policy, bundle, root, what verifies says, questions of the first round and of later ones, details, further words, the archive, a name
PARTS = "pbrsqldwan"
# A line that no script of this repository writes, but a shell or a tool whose part in it went wrong.
FAULT = re.compile(rb"\S*(/[\w-]+|\bsh): \d+: |([gm]?awk|grep|sed|cat|head|tail|wc|cmp|fold|mktemp|rmdir|rm|tr|dirname|sort|find|cut|touch|printf|expr|date): |Usage: ")
LIBRARY = ("ratmanganese", "verify-real", "proved.sh", "openssl", "scripts", "docs")
PROGRAM = """#!/bin/sh
cat "$FUZZED/said"
exit "$(cat "$FUZZED/status")"
"""
QUESTIONS = """#!/bin/sh
if [ "$1" = verify ]; then cat "$FUZZED/details"; exit; fi
if [ -e "$FUZZED/later" ]; then cat "$FUZZED/questions2"; else cat "$FUZZED/questions1"; fi
: >"$FUZZED/later"
exit "$(cat "$FUZZED/asked")"
"""
FOLDER = None
SEEDS = {
    "p": [b"keyless\n", b"key MCowBQYDK2VwAyEA\n", b"keyless\nidentity email a@b\nor\nkeyless\nlogs 300\n", b"keyless\nsigned before 2025\n", b"x"],
    "b": [b'{"mediaType": "application/vnd.dev.sigstore.bundle.v0.3+json"}', b"{}", b"\0\xff\n"],
    "r": [b'{"signed": {"_type": "root"}}', b"{}", b'{"_type"\n:"root"}'],
    "s": [b"accepted\nroot 1\n", b"refused tuf 12 Expired\n", b"refused verify 1 IdentityMismatch\nor 12 UnknownLog\nor 5 X\n", b"usage policy\n",
          b"input root\n", b"input folder count\n", b"admit a b\ndeny c 4 ArtifactMismatch\ndeny Z\\xc3 1,23 IdentityMismatch,UnsupportedBundle\n",
          b"usage\n", b"", b"SIGCHAIN1\n\0\0\0\1\0", (TOP / "crates" / "program_verify" / "stdout").read_bytes()],
    "q": [b"", b"# none\n", b"accept ED25519 - - -\n", b"accept ECDSA_P256_SHA256 AAAA AAAA AAAA\naccept ED25519 - - AA==\n", b"armor key AAAA AAAA\n", b"x\n"],
    "l": [b"", b"accept ED25519 - AAAA -\n"],
    "d": [b"", b"refused tuf 12 Expired\nrole \\x1b targets\n", b"refused verify 1 IdentityMismatch\nx"],
    "w": [b"", b"--now=2025-01-01T00:00:00Z", b"--digest=sha256:00", b"--root=-n", b"--policy=*", b"--bundle=a b\n--store=%s", b"--json=1\nx",
          b"--\x1b[31m=x", b"--policy=\xff\n--bundle=\xc3\xbc"],
    "a": [b"", b"SIGCHAIN1\n" + bytes(20), b"SIGCHAIN2\n"],
    "n": [b"a b", b"--", b"*", b"\x1b[31m", b"\xff", b"a\\", b"%s"],
}
WORDS = [word for texts in SEEDS.values() for text in texts for word in text.split(b"\n") if word] + [b"\n", b"%n", b"$(x)", b"`x`", b"'", b'"', b"\\", b"\r"]


class Manner:
    """The command, and the statuses of both programs."""

    def __init__(self, octets):
        told = iter(octets.ljust(4, b"\0"))
        self.command, self.json = COMMANDS[next(told) % len(COMMANDS)], next(told) % 4 == 1
        self.status, self.asked = next(told) % 6, (0, 0, 0, 2, 3, 5, 70)[next(told) % 7]


def begin(folder, _keep):
    global FOLDER
    FOLDER = folder
    (folder / "lib" / "programs").mkdir(parents=True)
    for name in LIBRARY:
        (shutil.copytree if (TOP / name).is_dir() else shutil.copy)(TOP / name, folder / "lib" / name)
    for name, text in (("program_verify", PROGRAM), ("program_questions", QUESTIONS)):
        (folder / "lib" / "programs" / name).write_text(text)
        (folder / "lib" / "programs" / name).chmod(0o755)
    first = [SEEDS[letter][0] for letter in PARTS]
    for command in range(len(COMMANDS)):
        for status in range(6):
            yield DIVIDER.join([bytes([command, 0, status, 0]), *first])
    for place, letter in enumerate(PARTS):
        for text in SEEDS[letter]:
            parts = [*first[:place], text, *first[place + 1 :]]
            status = 2 if text.startswith(b"usage") else 3 if text.startswith(b"input") else 0 if text.startswith(b"acc") else 1
            yield from (DIVIDER.join([bytes([command, json, status, 0]), *parts]) for command in (0, 1) for json in (0, 1))


def lay_out(manner, parts):
    """Makes the folders of a run, and gives its words."""
    world, said = FOLDER / "world", FOLDER / "said"
    for folder in (world, said, FOLDER / "temporary"):
        shutil.rmtree(folder, ignore_errors=True)
        folder.mkdir()
    for name in ("repository", "folder", "tiles/tile", "store"):
        (world / name).mkdir(parents=True)
    name = parts["n"].replace(b"\0", b"").replace(b"/", b"")[:200]
    files = {"policy": "p", "bundle": "b", "root": "r", "archive": "a", "first": "b", "second": "p"}
    for file, letter in files.items():
        (world / file).write_bytes(parts[letter])
    (world / "repository" / "timestamp.json").write_bytes(b"{}")
    (world / "artifact").write_bytes(b"hello")
    if name not in (b"", b".", b".."):
        with open(os.path.join(os.fsencode(world / "folder"), name), "wb") as file:
            file.write(b"x")
    for file, octets in (("said", parts["s"]), ("questions1", parts["q"]), ("questions2", parts["l"]), ("details", parts["d"])):
        (said / file).write_bytes(octets)
    (said / "status").write_text(f"{manner.status}\n")
    (said / "asked").write_text(f"{manner.asked}\n")
    words = {None: "root repository store bundle artifact policy", "gate": "root repository store folder policy", "archive": "root repository store",
             "check": "root archive", "download": "root repository store", "audit": "first second tiles"}[manner.command].split()
    more = [word for word in parts["w"].replace(b"\0", b"").split(b"\n") if word]
    given = [f"--{word}={world / word}".encode() for word in words if not any(other.startswith(f"--{word}=".encode()) for other in more)]
    given += {"download": [b"--target=x", f"--out={world / 'out'}".encode()], "audit": [b"--key=" + parts["p"].replace(b"\0", b"")[:200]]}.get(manner.command, [])
    return [*([manner.command] if manner.command else []), *given, *(["--json"] if manner.json else []), *more], world, said


def judge(ended, manner, parts, before, world):
    lines = ended.err.split(b"\n")
    wants(lines[-1] == b"", "unended-line on standard error", ended)
    wants(all(32 <= octet < 127 for line in lines for octet in line), "unprintable on standard error", ended)
    for line in lines:
        wants(not FAULT.match(line), f"fault of a shell or a tool: {line!r}", ended)
    wants(not os.listdir(FOLDER / "temporary"), "temporary: a file is left", ended)
    wants(tree(world) == before, "world: a file is changed", ended)
    is_help = any(word in (b"--help", b"-h") for word in parts["w"].split(b"\n"))
    wants(ended.status in (manner.status, 70, *([5] if manner.asked == 5 else []), *([0] if is_help else [])), "status: it isn't the program's", ended)
    if ended.status != 70 and not manner.json and not is_help and b"--json" not in parts["w"]:
        wants(ended.out == (b"" if ended.status == 5 and manner.asked == 5 else parts["s"]), "output: it isn't the program's", ended)
    wants(ended.status != 70 or not ended.out, "output: nothing is written with status 70", ended)
    return {re.sub(rb"/\S*|\d+|`[^`]*`", b"_", line)[:60] for line in lines} | {(manner.command, ended.status)}


def run(octets):
    first, *texts = octets.split(DIVIDER)
    manner = Manner(first)
    parts = {letter: text for letter, text in zip(PARTS, [*texts, *[b""] * len(PARTS)])}
    words, world, said = lay_out(manner, parts)
    before = tree(world)
    env = {**ENVIRONMENT, "FUZZED": str(said), "TMPDIR": str(FOLDER / "temporary"), "HOME": str(world)}
    return judge(process([FOLDER / "lib" / "verify-real", *words], cwd=said, env=env), manner, parts, before, world)


def change(octets, other, source):
    parts, others = octets.split(DIVIDER), other.split(DIVIDER)
    at = source.randrange(len(parts))
    if source.random() < 0.25:
        manner = bytearray(parts[0].ljust(4, b"\0"))
        manner[source.randrange(4)] = source.randrange(8)
        parts[0] = bytes(manner)
    elif at and source.random() < 0.3:
        parts[at] = others[at] if at < len(others) else b""
    elif at:
        lines = parts[at].split(b"\n")
        place = source.randrange(len(lines))
        if source.random() < 0.4:
            lines.insert(place, source.choice(WORDS))
        lines[place] = changed(lines[place], source.choice(others), WORDS, source, 400)
        parts[at] = b"\n".join(lines)
    return DIVIDER.join(parts)[:MOST]
