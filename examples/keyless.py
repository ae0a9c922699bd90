"""Certificates of a keyless signer, made anew. (No script: examples/make_world makes its keyless worlds by it.)

An authority has a root and an intermediate (P-384, RFC 5280). It issues a certificate for a signer's key as Fulcio does
(Fulcio's certificate specification): without a subject, for ten minutes, for code signing, with who signed as the one
alternative name, and with who vouched for them in both of Fulcio's forms. A log of certificates promises before that to
take it in, by a timestamp that the certificate carries (RFC 6962, sections 3.2 and 3.3). Each value is written in DER
here and each signature made by OpenSSL, which then has to find them good.
"""
import base64
import datetime
import hashlib
import os
import pathlib
import subprocess
import sys

sys.path.insert(0, str(pathlib.Path(__file__).resolve().parent.parent / "bench"))
from der import algorithm, extension, integer, name_of, octets, oid, sequence, tlv
from rows import row

IDENTITIES = {
    "email": "releaser@example.com",
    "uri": "https://example.com/project/.github/workflows/release.yml@refs/tags/v1.0.0",
}
ISSUER = "https://issuer.example.com"
WINDOW = datetime.timedelta(minutes=10)
# An authority's years, and the bits of its key usage: keyCertSign and cRLSign (RFC 5280, section 4.2.1.3).
YEARS = tuple(datetime.datetime(year, 1, 1, tzinfo=datetime.timezone.utc) for year in (2020, 2036))
ISSUES, SIGNS = b"\x01\x06", b"\x07\x80"
NAME_TAGS = {"email": 0x81, "uri": 0x86}


def openssl(*words, given=b""):
    done = subprocess.run(["openssl", *words], input=given, capture_output=True, check=True)
    return done.stdout


def spelled(octets_of_it):
    return base64.b64encode(octets_of_it).decode()


def armored(certificate):
    """A certificate as a text (RFC 7468, section 5)."""
    return openssl("x509", "-inform", "DER", given=certificate)


class Pair:
    """A pair of keys on a curve, in files of a folder that isn't kept."""

    def __init__(self, folder, name, curve, digest):
        self.path, self.public, self.digest = pathlib.Path(folder, name), pathlib.Path(folder, f"{name}.public"), digest
        self.path.write_bytes(openssl("genpkey", "-algorithm", "EC", "-pkeyopt", f"ec_paramgen_curve:{curve}"))
        self.public.write_bytes(openssl("pkey", "-in", str(self.path), "-pubout"))
        self.spki = openssl("pkey", "-in", str(self.path), "-pubout", "-outform", "DER")

    def sign(self, message):
        """A signature that OpenSSL finds good."""
        signature = openssl("dgst", f"-{self.digest}", "-sign", str(self.path), given=message)
        made = self.path.with_name("signature")
        made.write_bytes(signature)
        openssl("dgst", f"-{self.digest}", "-verify", str(self.public), "-signature", str(made), given=message)
        return signature


def identifier_of(spki):
    """What identifies a key: the SHA-1 value of the key's octets (RFC 5280, section 4.2.1.2), which begin with 04."""
    return hashlib.sha1(spki[spki.index(b"\x00\x04") + 1 :]).digest()


def usages(bits, *more):
    return [extension("key_usage", tlv(3, bits), True), *more]


def identifiers(spki, issuer_spki):
    issuer = sequence(tlv(0x80, identifier_of(issuer_spki)))
    return [extension("key_identifier", octets(identifier_of(spki))), extension("issuer_key_identifier", issuer)]


def signed_part(issuer, window, subject, spki, extensions, serial):
    moments = sequence(*(tlv(23, moment.strftime("%y%m%d%H%M%SZ").encode()) for moment in window))
    begin = [tlv(0xA0, integer(2)), integer(serial), algorithm("ecdsa_sha384"), issuer]
    return sequence(*begin, moments, subject, spki, tlv(0xA3, sequence(*extensions)))


def certificate_of(part, issuer):
    """A certificate: the signed part with the signature of the issuer's pair."""
    return sequence(part, algorithm("ecdsa_sha384"), tlv(3, b"\0", issuer.sign(part)))


def number():
    """A serial number, in twenty octets."""
    return int.from_bytes(b"\x01" + os.urandom(19), "big")


class Authority:
    """An authority: the certificate of its root, that of its intermediate, and the pairs of their keys. All authorities
    have the same two names, so that only the keys tell which of them issued a certificate."""

    ROOT, INTERMEDIATE = name_of("root"), name_of("intermediate")

    def __init__(self, secret, name):
        self.folder = pathlib.Path(secret, name)
        self.folder.mkdir()
        top, self.pair = (Pair(self.folder, which, "P-384", "sha384") for which in ("root", "intermediate"))
        issues = [extension("basic_constraints", sequence(tlv(1, b"\xff")), True)]
        extensions = [*usages(ISSUES), *issues, *identifiers(top.spki, top.spki)]
        self.root = certificate_of(signed_part(self.ROOT, YEARS, self.ROOT, top.spki, extensions, number()), top)
        # (it issues no authorities, and certificates for code signing alone)
        issues = [extension("basic_constraints", sequence(tlv(1, b"\xff"), integer(0)), True)]
        purpose = extension("extended_usage", sequence(oid("code_signing")))
        extensions = [*usages(ISSUES, purpose), *issues, *identifiers(self.pair.spki, top.spki)]
        part = signed_part(self.ROOT, YEARS, self.INTERMEDIATE, self.pair.spki, extensions, number())
        self.intermediate = certificate_of(part, top)
        for which, certificate in (("root", self.root), ("intermediate", self.intermediate)):
            (self.folder / f"{which}.pem").write_bytes(armored(certificate))
        self.verify(self.folder / "intermediate.pem", YEARS[0])

    def verify(self, path, moment):
        """OpenSSL finds a path from a certificate to the root at a moment, or this ends."""
        words = ["verify", "-x509_strict", "-CAfile", str(self.folder / "root.pem"), "-untrusted", str(self.folder / "intermediate.pem")]
        openssl(*words, "-purpose", "any", "-attime", str(int(moment.timestamp())), str(path))

    def declared(self, until, linked=True):
        """The authority as a trust file declares it, until a moment; where it isn't linked, without its intermediate."""
        chain = [self.intermediate, self.root] if linked else [self.root]
        certificates = [{"rawBytes": spelled(certificate)} for certificate in chain]
        names = {"organization": "example.com", "commonName": "root"}
        window = {"start": "2020-01-01T00:00:00Z", "end": until}
        return {"subject": names, "uri": "https://ca.example.com", "certChain": {"certificates": certificates}, "validFor": window}

    def issue(self, spki, sort, begin, log):
        """A certificate for a signer's key, whose identity is of that sort, from a moment on; the log promises it."""
        window = (begin, begin + WINDOW)
        name = tlv(NAME_TAGS[sort], IDENTITIES[sort].encode())
        extensions = usages(SIGNS, extension("extended_usage", sequence(oid("code_signing"))))
        extensions += [*identifiers(spki, self.pair.spki), extension("alternative_name", sequence(name), True)]
        # The older form is the bare text, the newer one a UTF8String.
        extensions.append(extension("old_issuer", ISSUER.encode()))
        extensions.append(extension("new_issuer", tlv(12, ISSUER.encode())))
        given = [self.INTERMEDIATE, window, sequence(), spki]
        serial = number()
        promised = signed_part(*given, extensions, serial)
        # (a promise isn't of a moment to come, also where the certificate is)
        moment = min(begin, datetime.datetime.now(datetime.timezone.utc))
        extensions.append(extension("log_timestamps", octets(log.timestamps(promised, self.pair.spki, moment))))
        certificate = certificate_of(signed_part(*given, extensions, serial), self.pair)
        path = self.folder / "signer.pem"
        path.write_bytes(armored(certificate))
        self.verify(path, begin + WINDOW / 2)
        told = openssl("x509", "-in", str(path), "-noout", "-text").decode()
        if any(part not in told for part in (IDENTITIES[sort], "Signed Certificate Timestamp:", "ecdsa-with-SHA256")):
            sys.exit("OpenSSL doesn't find the certificate's name or its log's timestamp")
        return certificate


def behind_length(size, contents):
    """Contents behind their length in so many octets, as TLS writes them (RFC 5246, section 4.3)."""
    return len(contents).to_bytes(size, "big") + contents


class CertificateLog:
    """A log of certificates: its key and its id (RFC 6962, section 3.2). One that is false names itself, and signs by
    another key."""

    def __init__(self, secret, is_true=True):
        self.pair = Pair(secret, "certificate_log", "P-256", "sha256")
        self.signs = self.pair if is_true else Pair(secret, "false_log", "P-256", "sha256")
        self.id = hashlib.sha256(self.pair.spki).digest()
        self.rows = []

    def declared(self):
        key = {"rawBytes": spelled(self.pair.spki), "keyDetails": "PKIX_ECDSA_P256_SHA_256"}
        key["validFor"] = {"start": "2020-01-01T00:00:00Z"}
        where = {"baseUrl": "https://ct.example.com", "hashAlgorithm": "SHA2_256"}
        return {**where, "publicKey": key, "logId": {"keyId": spelled(self.id)}}

    def timestamps(self, part, issuer_spki, moment):
        """The list of the one timestamp for a certificate, whose signed part is given without that list."""
        when = int(moment.timestamp() * 1000).to_bytes(8, "big")
        # version 1, a certificate's timestamp; the moment; an entry of a precertificate; no extensions
        entry = hashlib.sha256(issuer_spki).digest() + behind_length(3, part)
        signed = b"\0\0" + when + b"\0\1" + entry + behind_length(2, b"")
        signature = self.signs.sign(signed)
        self.rows.append(row(self.signs.spki, signed, signature))
        # SHA-256 and ECDSA (RFC 5246, section 7.4.1.4.1)
        one = b"\0" + self.id + when + behind_length(2, b"") + b"\4\3" + behind_length(2, signature)
        return behind_length(2, behind_length(2, one))
