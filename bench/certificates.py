"""Certificates for the built program, whose signatures are 01 and good by rows of its provider file."""
import hashlib

from der import algorithm, integer, name_of, sequence, tlv
from signed import spelled

CURVE = bytes.fromhex("301306072a8648ce3d020106082a8648ce3d030107")
SIGNED = b"\1"
WINDOW = (b"200101000000Z", b"400101000000Z")


def key(number):
    """A raw key of P-256."""
    return b"\4" + number.to_bytes(64, "big")


def spki_of(raw):
    """Its SubjectPublicKeyInfo (RFC 5480, section 2)."""
    return sequence(CURVE, tlv(3, b"\0" + raw))


def accept_by(raw, message):
    """The provider's row for the signature 01 of a message by a key."""
    subject = spelled(hashlib.sha256(message).digest())
    return f"accept ECDSA_P256_SHA256 {spelled(raw)} {subject} {spelled(SIGNED)}"


def signed_part(name, issuer, raw, *extensions, serial=1, window=WINDOW):
    """What is signed of a certificate (RFC 5280, section 4.1); without a name the subject is empty."""
    validity = sequence(*(tlv(23, moment) for moment in window))
    subject = name_of(name) if name else sequence()
    parts = [tlv(0xA0, integer(2)), integer(serial), algorithm("ecdsa_sha256"), name_of(issuer), validity, subject, spki_of(raw)]
    return sequence(*parts, tlv(0xA3, sequence(*extensions)))


def certificate(rows, name, issuer, raw, by, *extensions, **more):
    """A certificate of a key, signed by another, with the row of its signature."""
    part = signed_part(name, issuer, raw, *extensions, **more)
    rows.append(accept_by(by, part))
    return sequence(part, algorithm("ecdsa_sha256"), tlv(3, b"\0" + SIGNED))
