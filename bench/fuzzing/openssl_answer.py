"""Fuzzes openssl/answer: lines of questions, whose keys, subjects, signatures and PEM texts are a stranger's.

Always: the status is 0, or 2 where a line is outside the grammar, and then nothing is written. What is written are the lines that
hold, as they were asked and in their order. Of PEM these are the ones that a pattern of RFC 7468 accepts. Of signatures they are the
ones that libcrypto accepts when the C host asks it (host/answer.c), and none but a signature that the seeds' maker made: a changed
key, subject or signature is never good, but for the other s of ECDSA and a digest that is equal up to the group's length.
"""
import base64
import ctypes
import itertools
import json
import os
import re
import subprocess
import sys

from guided import changed
from scripts import TOP, Script, process, wants, wants_lines

sys.path.insert(0, str(TOP / "host"))
import rows

SCRIPT = TOP / "openssl" / "answer"
FILES = [SCRIPT]
MOST = 16_000
SCHEMES = [f"ECDSA_P{curve}_SHA{bits}" for curve in (256, 384) for bits in (256, 384)] + ["ED25519"]
SCHEMES += [f"RSA_{padding}_SHA{bits}" for padding in ("PKCS1", "PSS") for bits in (256, 384, 512)]
FIELD = rb"(-|(?:[A-Za-z0-9+/]{4})*(?:[A-Za-z0-9+/]{4}|[A-Za-z0-9+/][AQgw]==|[A-Za-z0-9+/]{2}[AEIMQUYcgkosw048]=))"
ACCEPT = re.compile(rb"accept (" + "|".join([*SCHEMES, "ML_DSA_44", "ML_DSA_65", "ML_DSA_87"]).encode() + rb") " + b" ".join([FIELD] * 3))
ARMOR = re.compile(rb"armor (key|certificate) " + FIELD + rb" " + FIELD)
# RFC 7468, figure 3, where the first line that begins with BEGIN opens the block.
END = rb"(?:\r\n|\r(?!\n)|\n)"
PEM = rb"\A(?:(?!-----BEGIN )[^\r\n]*" + END + rb")*-----BEGIN LABEL-----" + END
PEM += rb"((?:[^\r\n]{64}" + END + rb")*?(?:[^\r\n]{1,64}" + END + rb")?)-----END LABEL-----(?:\Z|" + END + rb")"
HOST = None
GOOD = set()
FAILED = re.compile(rb"error:[0-9A-F]+:[^:]*:[^:]*:[^:]*")


def octets_of(field):
    return b"" if field == b"-" else base64.b64decode(field)


def known(line):
    """What a line is about, up to what the standards let change."""
    name, key, subject, signature = ACCEPT.fullmatch(line).groups()
    name, key, subject, signature = name.decode(), *map(octets_of, (key, subject, signature))
    if name.startswith("ECDSA"):
        family = name.rpartition("_")[0]
        r, s = rows.integers(signature)
        return family, key, subject[: 32 if family.endswith("P256") else 48], r, min(s, rows.ORDERS[family] - s)
    return name, key, subject, signature


def under_all(line):
    """A row under each scheme."""
    for scheme in SCHEMES if line.startswith("accept ") and line.count(" ") == 4 else []:
        word, _, rest = line.partition(" ")
        yield f"{word} {scheme} {rest.partition(' ')[2]}".encode("latin-1")


def cases_of(folder, keep):
    """Rows, and whether each is good; their keys are the same each time that one folder is kept."""
    path = keep / "rows"
    if not path.exists():
        # (longer keys are made slowly, and reach nothing else)
        cases = itertools.takewhile(lambda case: not case[0].startswith("RSA of"), rows.rows(folder))
        path.write_text(json.dumps([[line, good] for _, line, good in cases]))
    return json.loads(path.read_text())


def begin(folder, keep):
    global HOST
    library = folder / "answer.so"
    words = ["cc", "-shared", "-fPIC", "-O1", "-o", library, TOP / "host" / "answer.c", "-lcrypto"]
    subprocess.run(words, check=True)
    HOST = ctypes.CDLL(str(library))
    HOST.is_good.argtypes, HOST.is_good.restype = [ctypes.c_char_p, ctypes.c_size_t], ctypes.c_bool
    # (one command at a time, so that no run takes all processors)
    os.cpu_count = lambda: 1
    armors = [line.encode("latin-1") for line in rows.answer.HELD.splitlines()]
    for label, sort in ((b"PUBLIC KEY", "key"), (b"CERTIFICATE", "certificate")):
        for text in (rows.answer.block(label.decode(), "A" * 64, "AQID"), rows.answer.block(label.decode())):
            armors += [rows.answer.armor(sort, text, octets)[:-1].encode() for octets in (b"\1\2\3", bytes(48) + b"\1\2\3", b"")]
    cases = cases_of(folder, keep)
    GOOD.update(known(line.encode()) for line, good in cases if good)
    # (a row that is bad under its scheme may be good under another, as where the padding is that of the other)
    GOOD.update(known(other) for line, _ in cases for other in under_all(line) if HOST.is_good(other, len(other)))
    return [b"", b"# a comment\n\n", *(line + b"\n" for line in armors), *(line.encode("latin-1") + b"\n" for line, _ in cases)]


# ---- what has to hold


def holds_of_pem(sort, text, octets):
    label = {b"key": b"PUBLIC KEY", b"certificate": b"CERTIFICATE"}[sort]
    found = re.match(PEM.replace(b"LABEL", label), text)
    spelled = found and re.sub(rb"[\r\n]", b"", found[1])
    return bool(found) and (not spelled or re.fullmatch(FIELD, spelled) is not None and spelled != b"-") and base64.b64decode(spelled) == octets


def is_of_grammar(line):
    if armor := ARMOR.fullmatch(line):
        return not octets_of(armor[2]).startswith(b"der:")
    return ACCEPT.fullmatch(line) is not None


def is_held(line):
    if armor := ARMOR.fullmatch(line):
        return holds_of_pem(armor[1], octets_of(armor[2]), octets_of(armor[3]))
    good = HOST.is_good(line, len(line))
    wants(not good or known(line) in GOOD, f"forged: the C host accepts {line!r}")
    return good


def judge(octets, ended):
    wants_lines(ended, 8)
    lines = [line for line in octets.split(b"\n") if line and not line.startswith(b"#")]
    if octets and not octets.endswith(b"\n") or not all(map(is_of_grammar, lines)):
        wants(ended.status == 2 and not ended.out, "grammar: a line outside it has to end with 2 and no output", ended)
        return
    wants(ended.status == 0, "status: it has to be 0", ended)
    held = ended.out.split(b"\n")[:-1]
    wants(ended.out == b"".join(line + b"\n" for line in held), "unended output", ended)
    for line in held:
        wants(not line.startswith(b"accept") or known(line) in GOOD, f"forged: {line!r} came out", ended)
    # (none of ML-DSA where this OpenSSL doesn't have it, and the C host judges none)
    wanted = [line for line in lines if is_held(line)]
    wants(held == wanted, f"difference: wanted were {wanted!r}"[:900], ended)


class Spy:
    """Runs the command, and notes what it says, as a sign of what was reached within it."""

    def __init__(self, run):
        self.run, self.signs = run, set()

    def __call__(self, words, **how):
        done = self.run(words, **how)
        self.signs.update(FAILED.findall(done.stderr)[:3])
        self.signs.add((done.returncode, done.stdout[:40]))
        return done


SCRIPT_RUN = Script(SCRIPT)


def run(octets):
    spy, kept = Spy(subprocess.run), subprocess.run
    subprocess.run = spy
    try:
        ended = SCRIPT_RUN.run([], octets)
    finally:
        subprocess.run = kept
    judge(octets, ended)
    return spy.signs


def whole(octets):
    judge(octets, process([SCRIPT], octets))


# ---- changes


def changed_field(field, other, source):
    """Another field: its octets changed, where it has some, or its text."""
    if source.random() < 0.1:
        return changed(field, other, [b"-", b"=", b"=="], source, MOST)
    try:
        octets, others = (b"" if it == b"-" else base64.b64decode(it) for it in (field, other))
    except ValueError:
        return field
    words = [b"\r\n", b"\n", b"-----BEGIN ", b"-----END ", b"PUBLIC KEY-----", b"CERTIFICATE-----", b"\2\1\0", b"\x30\x80", b"\0"]
    return base64.b64encode(changed(octets, others, words, source, MOST // 3)) or b"-"


def change(octets, other, source):
    lines, others = octets.split(b"\n")[:-1], other.split(b"\n")[:-1]
    if not lines or not others:
        return octets + other
    place, line = source.randrange(len(lines)), source.choice(others).split(b" ")
    words = lines[place].split(b" ")
    chosen = source.randrange(10)
    if chosen == 0:
        lines.insert(place, b" ".join(line))
    elif chosen == 1 and len(words) > 1:
        words[1] = source.choice([*SCHEMES, "ML_DSA_65", "key", "certificate"]).encode()
    elif chosen == 2 and len(words) == len(line):
        at = source.randrange(len(words))
        words[at] = line[at]
    elif len(words) > 2:
        at = source.randrange(2, len(words))
        words[at] = changed_field(words[at], line[min(at, len(line) - 1)], source)
    lines[place] = b" ".join(words)
    # (each line is a command, so that few are tried at once)
    return b"\n".join(lines[:3])[:MOST] + b"\n"
