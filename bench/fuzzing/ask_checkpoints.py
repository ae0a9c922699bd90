"""Fuzzes scripts/ask_checkpoints: two checkpoints of a log, which are a stranger's, and the word that should be the log's key.

An input is the key, DIVIDER, the first checkpoint, DIVIDER, the second. Always: the status is 0, nothing stands on standard error, there
are at most 200 lines, each once, and each is one that openssl/answer reads (else it would answer none of them), about a text that stands
in one of both checkpoints or its digest.
"""
import base64
import hashlib
import re

from guided import changed
from scripts import TOP, Script, module, process, wants

SCRIPT = TOP / "scripts" / "ask_checkpoints"
FILES = [SCRIPT]
MOST = 80_000
SCRIPT_RUN = Script(SCRIPT)
DIVIDER = b"\xff\xfe|\xff"
FOLDER = ANSWER = None
HEADS = ["3059301306072a8648ce3d020106082a8648ce3d030107034200", "3076301006072a8648ce3d020106052b81040022036200", "302a300506032b6570032100"]
HEADS += ["30820532300b06096086480165030403110382052100", "30820122300d06092a864886f70d01010105000382010f00"]
WORDS = [b"\n\n", b"\n", b" ", b"=", b"\xe2\x80\x94 ", b"-", *(base64.b64encode(bytes.fromhex(head)) for head in HEADS)]


def checkpoint(key, count):
    hint = hashlib.sha256(base64.b64decode(key)).digest()[:4]
    lines = b"".join(b"\xe2\x80\x94 log.example " + base64.b64encode(hint + bytes([number]) * 64) + b"\n" for number in range(count))
    return b"log.example\n10\nAAAA\n\n" + lines


def begin(folder, _keep):
    global FOLDER, ANSWER
    FOLDER, ANSWER = folder, module("openssl_answer_script", TOP / "openssl" / "answer")
    for head in HEADS:
        for size in (0, 1, 32, 64, 96, 270, 1312):
            key = base64.b64encode(bytes.fromhex(head) + bytes([4] * size))
            yield DIVIDER.join([key, checkpoint(key, 1), checkpoint(key, 3)])
    yield DIVIDER.join([key, checkpoint(key, 99), checkpoint(key, 102)])
    yield DIVIDER.join([b"", b"", b""])


def read_input(octets):
    key, *texts = octets.split(DIVIDER, 2)
    paths = []
    for number, text in enumerate(texts):
        paths.append(FOLDER / str(number))
        paths[-1].write_bytes(text)
    # (a word has no NUL, and other octets than UTF-8 are such characters)
    return [key.replace(b"\0", b"").decode("utf-8", "surrogateescape"), *map(str, paths), *["nowhere"] * (2 - len(texts))]


def judge(octets, ended):
    wants(ended.status == 0 and not ended.err, "status: it is 0, and nothing is said", ended)
    lines = ended.out.split(b"\n")[:-1]
    wants(ended.out == b"".join(line + b"\n" for line in lines) and len(lines) <= 200 and len(set(lines)) == len(lines), "lines: at most 200", ended)
    texts = [text.partition(b"\n\n")[0] + b"\n" for text in octets.split(DIVIDER, 2)[1:]]
    subjects = [subject for text in texts for subject in (text, hashlib.sha256(text).digest(), hashlib.sha384(text).digest())]
    try:
        asked = [question for _, question in ANSWER.questions_of(ended.out)]
    except ANSWER.Misread as fault:
        wants(False, f"unread: {fault}", ended)
    wants(all(question.subject in subjects for question in asked), "subject: another text's", ended)
    return {line.split(b" ")[1] for line in lines} | {len(lines).bit_length()}


def run(octets):
    return judge(octets, SCRIPT_RUN.run(read_input(octets)))


def whole(octets):
    judge(octets, process([SCRIPT, *read_input(octets)]))


def change(octets, other, source):
    """Another key or another text. Where a key changes, its hint in the lines mostly does too."""
    parts, others = octets.split(DIVIDER, 2), other.split(DIVIDER, 2)
    at = source.randrange(len(parts))
    parts[at] = changed(parts[at], source.choice(others), WORDS, source, MOST)
    if at == 0 and source.random() < 0.7:
        try:
            key = base64.b64decode(parts[0], validate=True)
        except ValueError:
            return DIVIDER.join(parts)
        hint = base64.b64encode(hashlib.sha256(key).digest()[:3])
        parts[1:] = [re.sub(rb" [A-Za-z0-9+/]{4}", b" " + hint, part) for part in parts[1:]]
    return DIVIDER.join(parts)
