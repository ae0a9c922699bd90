"""An instance of Sigstore that a number gives: certificate authorities, logs, time-stamp authorities, the trust file.
(No script: suite/make and conformance/cases make their worlds by it.)

Everything is in the form of the standards: certificates by RFC 5280 and Fulcio's specification, timestamps of certificate
logs by RFC 6962, tokens by RFC 3161 with the attribute of RFC 5816, checkpoints by C2SP tlog-checkpoint. A world that is
to be refused has one thing changed, by the words of the makers here.
"""
import datetime
import hashlib
import json
import pathlib
import sys

sys.path.insert(0, str(pathlib.Path(__file__).resolve().parent.parent / "bench"))
from der import OIDS, algorithm, extension, integer, name_of, octets, oid, sequence, set_of, tlv
from keys import Key, drawn, drawn_number, spelled

OIDS.setdefault("signing_certificate", "1.2.840.113549.1.9.16.2.47")
OIDS.setdefault("unknown", "1.3.6.1.4.1.99999.1")
KIND = "application/vnd.dev.sigstore.trustedroot+json;version=0.1"
UTC = datetime.timezone.utc
# When all was signed, and the years in which authorities and logs count. (A world is judged by the clock of whoever runs it.)
SIGNED = datetime.datetime(2025, 6, 15, 12, 0, tzinfo=UTC)
YEARS = datetime.datetime(2020, 1, 1, tzinfo=UTC), datetime.datetime(2040, 1, 1, tzinfo=UTC)
MINUTE = datetime.timedelta(minutes=1)
# Bits of a key usage: keyCertSign and cRLSign, digitalSignature (RFC 5280, section 4.2.1.3).
ISSUES, SIGNS = b"\x01\x06", b"\x07\x80"
TAGS = {"email": 0x81, "uri": 0x86}
ALGORITHMS = {"p256": "ecdsa_sha256", "p384": "ecdsa_sha384"}
IS_CA = extension("basic_constraints", sequence(tlv(1, b"\xff")), True)
ISSUES_NO_CA = extension("basic_constraints", sequence(tlv(1, b"\xff"), integer(0)), True)
DETAILS = {"p256": "PKIX_ECDSA_P256_SHA_256", "p384": "PKIX_ECDSA_P384_SHA_384", "rsa": "PKIX_RSA_PKCS1V15_2048_SHA256", "ed25519": "PKIX_ED25519"}


def told(moment):
    return moment.strftime("%Y-%m-%dT%H:%M:%SZ")


def armored(label, der):
    """A text in PEM (RFC 7468)."""
    body = spelled(der)
    lines = [body[start : start + 64] for start in range(0, len(body), 64)]
    return "\n".join([f"-----BEGIN {label}-----", *lines, f"-----END {label}-----", ""]).encode()


def identifier_of(key):
    return hashlib.sha1(key.point).digest()


def key_identifiers(key, issuer):
    return [extension("key_identifier", octets(identifier_of(key))), extension("issuer_key_identifier", sequence(tlv(0x80, identifier_of(issuer))))]


def usage(bits, *purposes, critical=False):
    told_purposes = [extension("extended_usage", sequence(*map(oid, purposes)), critical)] if purposes else []
    return [extension("key_usage", tlv(3, bits), True), *told_purposes]


def signed_part(issuer, window, subject, spki, extensions, serial, algorithm_name, version=2):
    moments = sequence(*(tlv(23, moment.strftime("%y%m%d%H%M%SZ").encode()) for moment in window))
    begin = [tlv(0xA0, integer(version))] if version else []
    rest = [tlv(0xA3, sequence(*extensions))] if version else []
    return sequence(*begin, integer(serial), algorithm(algorithm_name), issuer, moments, subject, spki, *rest)


def certificate_of(part, issuer):
    return sequence(part, algorithm(ALGORITHMS[issuer.sort]), tlv(3, b"\0", issuer.sign(part)))


def serial(*labels):
    return int.from_bytes(b"\x01" + drawn(18, "serial", *labels), "big")


class Authority:
    """A certificate authority: a root and an intermediate."""

    def __init__(self, *labels, sort="p384", root_more=(), names=None):
        self.labels = labels
        named = names or (f"root {labels[-1]}", f"intermediate {labels[-1]}")
        self.top, self.key = Key(sort, "ca root", *labels), Key(sort, "ca intermediate", *labels)
        self.root_name, self.name = map(name_of, named)
        more = [*usage(ISSUES), IS_CA, *key_identifiers(self.top, self.top), *root_more]
        self.root = certificate_of(signed_part(self.root_name, YEARS, self.root_name, self.top.spki, more, serial("root", *labels), ALGORITHMS[sort]), self.top)
        more = [*usage(ISSUES, "code_signing"), ISSUES_NO_CA, *key_identifiers(self.key, self.top)]
        self.intermediate = certificate_of(
            signed_part(self.root_name, YEARS, self.name, self.key.spki, more, serial("intermediate", *labels), ALGORITHMS[sort]), self.top)

    def declared(self, start=YEARS[0], end=None, chain=None):
        certificates = [self.intermediate, self.root] if chain is None else chain
        window = {"start": told(start), **({"end": told(end)} if end else {})}
        return {"subject": {"organization": "example.com", "commonName": f"root {self.labels[-1]}"}, "uri": "https://ca.example.com",
                "certChain": {"certificates": [{"rawBytes": spelled(it)} for it in certificates]}, "validFor": window}

    def issue(self, key, logs, *labels, sort="email", name="someone@example.com", issuer="https://issuer.example.com", begin=SIGNED - MINUTE,
              minutes=10, purposes=("code_signing",), claims=None, more=(), is_ca=False, version=2, spki=None, names=None, false_logs=(), subject=None):
        """A certificate for a signer's key, as Fulcio's; `logs` promise it, and `false_logs` sign wrongly what they promise.
        What no certificate of Fulcio's is has a word of its own."""
        window = (begin, begin + minutes * MINUTE)
        extensions = usage(SIGNS, *purposes)
        if is_ca:
            extensions.append(IS_CA)
        extensions += key_identifiers(key, self.key)
        if names is None and name is not None:
            names = sequence(tlv(TAGS[sort], name.encode()))
        if names is not None:
            extensions.append(extension("alternative_name", names, True))
        if issuer is not None:
            extensions.append(extension("old_issuer", issuer.encode()))
            extensions.append(extension("new_issuer", tlv(12, issuer.encode())))
        for number, value in sorted((claims or {}).items()):
            extensions.append(extension(f"claim_{number}", value.encode() if number < 8 else tlv(12, value.encode())))
        extensions += more
        given = [self.name, window, subject or sequence(), spki or key.spki]
        own = serial("signer", *labels, *self.labels)
        name_of_algorithm = ALGORITHMS[self.key.sort]
        promised = signed_part(*given, extensions, own, name_of_algorithm, version)
        stamps = [log.timestamp(promised, self.key.spki, begin, log not in false_logs) for log in logs]
        if stamps:
            listed = b"".join(behind_length(2, stamp) for stamp in stamps)
            extensions.append(extension("log_timestamps", octets(behind_length(2, listed))))
        return certificate_of(signed_part(*given, extensions, own, name_of_algorithm, version), self.key)


def behind_length(size, contents):
    return len(contents).to_bytes(size, "big") + contents


class CertificateLog:
    """A log of certificates (RFC 6962, section 3.2)."""

    def __init__(self, *labels):
        self.key, self.other = Key("p256", "ct", *labels), Key("p256", "not ct", *labels)
        self.id = hashlib.sha256(self.key.spki).digest()

    def declared(self, start=YEARS[0], end=None, spki=None):
        window = {"start": told(start), **({"end": told(end)} if end else {})}
        key = {"rawBytes": spelled(spki or self.key.spki), "keyDetails": DETAILS["p256"], "validFor": window}
        return {"baseUrl": "https://ct.example.com", "hashAlgorithm": "SHA2_256", "publicKey": key, "logId": {"keyId": spelled(self.id)}}

    def timestamp(self, part, issuer_spki, moment, is_true=True):
        when = int(moment.timestamp() * 1000).to_bytes(8, "big")
        entry = hashlib.sha256(issuer_spki).digest() + behind_length(3, part)
        signed = b"\0\0" + when + b"\0\1" + entry + behind_length(2, b"")
        signature = (self.key if is_true else self.other).sign(signed)
        # SHA-256 and ECDSA (RFC 5246, section 7.4.1.4.1)
        return b"\0" + self.id + when + behind_length(2, b"") + b"\4\3" + behind_length(2, signature)


def leaf(body):
    return hashlib.sha256(b"\x00" + body).digest()


def node(left, right):
    return hashlib.sha256(b"\x01" + left + right).digest()


def half_of(hashes):
    """How many leaves stand in the left part of a tree (RFC 6962, section 2.1)."""
    return 1 << (len(hashes) - 1).bit_length() - 1


def root_hash(hashes):
    if len(hashes) == 1:
        return hashes[0]
    half = half_of(hashes)
    return node(root_hash(hashes[:half]), root_hash(hashes[half:]))


def path_to(index, hashes):
    """The hashes that lead from a leaf to the root (RFC 6962, section 2.1.1)."""
    if len(hashes) == 1:
        return []
    half = half_of(hashes)
    if index < half:
        return [*path_to(index, hashes[:half]), root_hash(hashes[half:])]
    return [*path_to(index - half, hashes[half:]), root_hash(hashes[:half])]


class Log:
    """A transparency log."""

    def __init__(self, *labels, name="log.example.com", sort="p256"):
        self.key, self.other, self.name, self.labels = Key(sort, "log", *labels), Key(sort, "not log", *labels), name, labels
        self.id = hashlib.sha256(self.key.spki).digest()
        # (under Ed25519 the id of C2SP signed-note: of the name, the sort and the key)
        if sort == "ed25519":
            self.id = hashlib.sha256(f"{name}\n\x01".encode() + self.key.spki[-32:]).digest()

    def declared(self, start=YEARS[0], end=None, spki=None, identifier=None):
        window = {"start": told(start), **({"end": told(end)} if end else {})}
        key = {"rawBytes": spelled(spki or self.key.spki), "keyDetails": DETAILS[self.key.sort], "validFor": window}
        return {"baseUrl": f"https://{self.name}", "hashAlgorithm": "SHA2_256", "publicKey": key, "logId": {"keyId": spelled(identifier or self.id)}}

    def checkpoint(self, size, root, origin=None, before=(), by=None, hint=None, changed=None):
        """The checkpoint of a tree, with the lines of others before the log's own (C2SP tlog-checkpoint)."""
        signed = f"{origin or self.name}\n{size}\n{spelled(root)}\n"
        own = (by or self.key).sign((changed or signed).encode())
        lines = [*before, f"\u2014 {self.name} {spelled((hint or self.id[:4]) + own)}\n"]
        return f"{signed}\n" + "".join(lines)

    def origin(self, is_first_version):
        """The first line of its checkpoints. The log of the first version names its tree there, by which clients know it."""
        return f"{self.name} - {1 + drawn_number(2**62, 'tree', *self.labels)}" if is_first_version else self.name

    def promise(self, body, seconds, index, by=None, identifier=None):
        """The signed entry timestamp: a signature over JSON in its canonical form (RFC 8785)."""
        promised = {"body": spelled(body), "integratedTime": seconds, "logID": (self.id if identifier is None else identifier).hex(), "logIndex": index}
        return (by or self.key).sign(json.dumps(promised, sort_keys=True, separators=(",", ":")).encode())


class Stamper:
    """A time-stamp authority (RFC 3161)."""

    def __init__(self, *labels, window=YEARS):
        self.labels, self.top, self.key, self.other = labels, Key("p256", "tsa root", *labels), Key("p256", "tsa", *labels), Key("p256", "not tsa", *labels)
        self.root_name, self.name = name_of(f"time root {labels[-1]}"), name_of(f"time {labels[-1]}")
        more = [*usage(ISSUES), IS_CA, *key_identifiers(self.top, self.top)]
        self.root = certificate_of(signed_part(self.root_name, YEARS, self.root_name, self.top.spki, more, serial("tsa root", *labels), "ecdsa_sha256"), self.top)
        self.serial = serial("tsa", *labels)
        more = [*usage(SIGNS, "time_stamping", critical=True), *key_identifiers(self.key, self.top)]
        self.own = certificate_of(signed_part(self.root_name, window, self.name, self.key.spki, more, self.serial, "ecdsa_sha256"), self.top)

    def declared(self, start=YEARS[0], end=None, chain=None):
        window = {"start": told(start), **({"end": told(end)} if end else {})}
        certificates = [self.own, self.root] if chain is None else chain
        return {"subject": {"organization": "example.com", "commonName": f"time {self.labels[-1]}"}, "uri": "https://time.example.com",
                "certChain": {"certificates": [{"rawBytes": spelled(it)} for it in certificates]}, "validFor": window}

    def token(self, message, moment=SIGNED, is_bare=False, by=None, imprint=None, told_digest=None, granted=0):
        """A response with a token over a message, or the token alone."""
        digest = imprint or hashlib.sha256(message).digest()
        parts = [integer(1), oid("policy"), sequence(algorithm("sha256", tlv(5)), octets(digest)), integer(drawn_number(2**32, "token", message.hex()))]
        content = sequence(*parts, tlv(24, moment.strftime("%Y%m%d%H%M%SZ").encode()))
        certificate = sequence(sequence(sequence(octets(hashlib.sha256(self.own).digest()))))
        attributes = [
            sequence(oid("content_type"), set_of(oid("tst_info"))),
            sequence(oid("message_digest"), set_of(octets(told_digest or hashlib.sha256(content).digest()))),
            sequence(oid("signing_certificate"), set_of(certificate)),
        ]
        signature = (by or self.key).sign(set_of(*attributes))
        issuer = sequence(self.root_name, integer(self.serial))
        signer = sequence(integer(1), issuer, algorithm("sha256"), tlv(0xA0, *sorted(attributes)), algorithm("ecdsa_sha256"), octets(signature))
        data = sequence(integer(3), set_of(algorithm("sha256")), sequence(oid("tst_info"), tlv(0xA0, octets(content))), set_of(signer))
        token = sequence(oid("signed_data"), tlv(0xA0, data))
        return token if is_bare else sequence(sequence(integer(granted)), token)


def trust_file(logs=(), certificate_logs=(), authorities=(), stampers=()):
    """The trust file, as a value."""
    trust = {"mediaType": KIND}
    for name, members in (("tlogs", logs), ("ctlogs", certificate_logs), ("certificateAuthorities", authorities), ("timestampAuthorities", stampers)):
        if members:
            trust[name] = list(members)
    return trust
