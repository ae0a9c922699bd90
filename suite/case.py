"""What all cases have in common: the shapes of bundles, and what adds a case. (No script: suite/cases.py has the cases.)

A case changes one thing of a draft (suite/draft.py), and tells what has to be answered then, why, and by which rule: a
standard's section, or `choice: ..` where the standards leave it open and another client may answer otherwise. The answer was
worked out by hand from the change and the tables of docs/REFUSALS.md, and never taken from a program.
"""
import collections

from cryptography.hazmat.primitives.asymmetric.utils import decode_dss_signature, encode_dss_signature
from draft import NAMES, PROMISED
from instance import SIGNED

# The cases by the file that adds them, in its order.
ADDED = collections.defaultdict(list)
EMAIL, URI = NAMES["email"], NAMES["uri"]


def year(number):
    return SIGNED.replace(year=number)


# ---- shapes


def shapes():
    """Each way in which a bundle may be in order."""
    for signer in ("p256", "p384", "rsa", "ed25519", "email", "uri"):
        for content in ("message", "envelope"):
            kinds = [None, "hashedrekord-0.0.1"] if content == "message" else [None, "dsse-0.0.1", "intoto-0.0.2"]
            # (the program knows entries of the second version by keys on P-256 alone)
            if signer in ("p256", "email", "uri"):
                kinds.append("hashedrekord-0.0.2")
            for entry in kinds:
                for token in (False, True):
                    keyless = signer in NAMES
                    if keyless and not token and entry not in PROMISED or signer == "ed25519" and content == "message":
                        continue
                    # (on that curve clients differ in the digest: cases of their own)
                    if signer == "p384" and content == "envelope":
                        continue
                    yield {"signer": signer, "content": content, "entry": entry, "token": token}


SHAPES = list(shapes())
TUF = [
    {"label": "plain"},
    {"label": "flat", "consistent": False},
    {"label": "short pins", "whole_pins": False},
    {"label": "rotated", "last": 3, "rotated": ("root", "timestamp")},
    {"label": "thresholds", "count": 3, "threshold": 2},
    {"label": "curves", "sorts": {"root": "p256", "targets": "p384", "snapshot": "p256"}, "last": 2, "rotated": ("targets",)},
    {"label": "rsa", "sorts": {"root": "rsa", "timestamp": "p256"}},
    {"label": "delegated", "delegated": "registry.example"},
    {"label": "delegated flat", "consistent": False, "delegated": "registry.example", "whole_pins": False},
]


# An envelope under a key on P-384; and a file under an Ed25519 key, which isn't in order here.
BY_P384 = [{"signer": "p384", "content": "envelope", "entry": entry, "token": True} for entry in (None, "dsse-0.0.1", "intoto-0.0.2")]
BY_ED25519 = [{"signer": "ed25519", "content": "message", "entry": None, "token": token} for token in (True, False)]


class Case:
    def __init__(self, answer, name, why, rule, change, shapes_of_it, tuf, times):
        self.answer, self.name, self.why, self.rule, self.change = answer, name, why, rule, change
        self.shapes, self.tuf, self.times = shapes_of_it, tuf or TUF, times


def case(answer, why, rule, where=lambda it: True, tuf=None, times=3, of=None):
    """Adds a case: its answer (`accepted` or `tuf N`, `verify N`), the shapes that it is for, the styles of repository, and
    how many worlds are made of it."""
    def added(change):
        name = change.__name__.replace("_", "-")
        found = [it for it in of or SHAPES if where(it)]
        # (a client needs no repository where nothing is judged by the trust file)
        if answer.startswith("tuf "):
            found = [it for it in found if trusting(it)]
        ADDED[change.__module__].append(Case(answer, name, why, rule, change, found, tuf, times))
        return change
    return added


def keyless(it):
    return it["signer"] in NAMES


def workflow(it):
    return it["signer"] == "uri"


def by_key(it):
    return not keyless(it) and it["signer"] != "ed25519"


def logged(it):
    return it["entry"] is not None


def promised(it):
    return it["entry"] in PROMISED


def message(it):
    return it["content"] == "message"


def envelope(it):
    return it["content"] == "envelope"


def both(*tests):
    return lambda it: all(test(it) for test in tests)


def stamped(it):
    return it["token"]


def unstamped(it):
    return not it["token"]


def timed(it):
    """Whether something tells when it was signed."""
    return it["token"] or promised(it)


def trusting(it):
    """Whether something of the bundle is judged by the trust file: a client needs it for nothing else."""
    return keyless(it) or logged(it) or stamped(it)


def first_version(it):
    return it["entry"] == "hashedrekord-0.0.1"


def second_version(it):
    return it["entry"] == "hashedrekord-0.0.2"


def of_kind(*kinds):
    return lambda it: it["entry"] in kinds


def styles(*labels):
    return [it for it in TUF if it["label"] in labels]


def flipped(octets_of_it, place=-1):
    changed = bytearray(octets_of_it)
    changed[place] ^= 1
    return bytes(changed)


def without(*names):
    def changed(value):
        return {name: it for name, it in value.items() if name not in names}
    return changed


def with_members(**members):
    return lambda value: {**value, **members}


def malleated(signature):
    """Another signature that is good where this one is: of the two numbers the second, taken from the curve's order. (P-256)"""
    r, s = decode_dss_signature(signature)
    return encode_dss_signature(r, 0xFFFFFFFF00000000FFFFFFFFFFFFFFFFBCE6FAADA7179E84F3B9CAC2FC632551 - s)


def of_payload(body):
    return body["spec"].get("content", body["spec"])["payloadHash"]


def asked(d, word, text_of_it):
    d.policy = [f"{word} {text_of_it}" if line.startswith(f"{word} ") else line for line in d.policy]
