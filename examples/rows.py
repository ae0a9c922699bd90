"""Rows of the provider file for what is signed beside the documents of a world: certificates, tokens of time-stamp
authorities, what logs sign. (No script: examples/make_world writes its file `true` by it.)
"""
import base64
import hashlib
import subprocess

# By the length of a key on a curve: what signs with it, and the digest.
SCHEMES = {65: ("ECDSA_P256_SHA256", hashlib.sha256), 97: ("ECDSA_P384_SHA384", hashlib.sha384)}


def spelled(octets):
    return base64.b64encode(octets).decode()


def members(octets):
    """The tags, the contents and the octets of the parts that stand one behind the other (X.690, section 8.1)."""
    while octets:
        size, begin = octets[1], 2
        if size >= 128:
            begin = 2 + size - 128
            size = int.from_bytes(octets[2:begin], "big")
        yield octets[0], octets[begin : begin + size], octets[: begin + size]
        octets = octets[begin + size :]


def within(octets):
    """The parts of the one part that these octets are."""
    ((_, contents, _),) = members(octets)
    return list(members(contents))


def row(spki, message, signature):
    """The row of a signature of a message, by a key on P-256 or P-384 as its curve asks for."""
    raw = spki[spki.index(b"\x00\x04") + 1 :]
    scheme, digest = SCHEMES[len(raw)]
    return f"accept {scheme} {spelled(raw)} {spelled(digest(message).digest())} {spelled(signature)}"


def key_in(certificate):
    """The SubjectPublicKeyInfo of a certificate."""
    words = ["x509", "-inform", "DER", "-noout", "-pubkey"]
    text = subprocess.run(["openssl", *words], input=certificate, capture_output=True, check=True).stdout
    return base64.b64decode(b"".join(text.splitlines()[1:-1]))


def certificate_row(certificate, issuer):
    """A certificate has the signed part, an algorithm, and the signature behind the count of unused bits (RFC 5280, section
    4.1)."""
    part, _, signature = within(certificate)
    return row(key_in(issuer), part[2], signature[1][1:])


def token_row(response, signer):
    """The signature of a token is over its attributes, written as a SET (RFC 3161, section 2.4.2; RFC 5652, section 5.4)."""
    _, token = within(response)
    _, held = list(members(token[1]))
    ((_, signed_data, _),) = members(held[1])
    *_, infos = list(members(signed_data))
    ((_, info, _),) = members(infos[1])
    _, _, _, attributes, _, signature = list(members(info))[:6]
    return row(key_in(signer), b"\x31" + attributes[2][1:], signature[1])
