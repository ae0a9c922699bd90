"""Whether the signature of a row is good, by the package `cryptography`. Nothing here is proved: a wrong answer is a forged
signature. What can't be decided isn't good."""
import base64
import binascii

from cryptography.hazmat.primitives import hashes, serialization
from cryptography.hazmat.primitives.asymmetric import ec, ed25519, padding, rsa, utils

_HASHES: dict[str, type[hashes.SHA256] | type[hashes.SHA384] | type[hashes.SHA512]] = {
    "SHA256": hashes.SHA256, "SHA384": hashes.SHA384, "SHA512": hashes.SHA512,
}
# The curve, and the bytes of a point in its long form.
_CURVES: dict[str, tuple[type[ec.SECP256R1] | type[ec.SECP384R1], int]] = {"P256": (ec.SECP256R1, 65), "P384": (ec.SECP384R1, 97)}
_SCHEMES = {f"ECDSA_{curve}_{name}" for curve in _CURVES for name in ("SHA256", "SHA384")}
_SCHEMES |= {f"RSA_{kind}_{name}" for kind in ("PKCS1", "PSS") for name in _HASHES}
_MOST_OF_RSA_KEY = 2048


def field(text: bytes) -> bytes:
    """The bytes of a field: of a dash none, and else of strict base64."""
    if text == b"-":
        return b""
    octets = binascii.a2b_base64(text)
    if not text or base64.b64encode(octets) != text:
        raise ValueError("a field is neither a dash nor base64")
    return octets


def _rsa_key(der: bytes) -> rsa.RSAPublicKey:
    """The key of an RSAPublicKey in DER (RFC 8017, A.1.1)."""
    key = serialization.load_der_public_key(der) if len(der) < _MOST_OF_RSA_KEY else None
    # (a key has one spelling, with nothing behind it)
    if not isinstance(key, rsa.RSAPublicKey) or key.public_bytes(serialization.Encoding.DER, serialization.PublicFormat.PKCS1) != der:
        raise ValueError("no RSAPublicKey in DER")
    # (RFC 8017, 3.1)
    if (exponent := key.public_numbers().e) < 3 or exponent % 2 == 0:
        raise ValueError("no exponent of RSA")
    return key


def _verify(scheme: str, key: bytes, subject: bytes, signature: bytes) -> None:
    """Raises unless the signature is good."""
    if not signature:
        raise ValueError("no signature")
    if scheme == "ED25519":
        ed25519.Ed25519PublicKey.from_public_bytes(key).verify(signature, subject)
        return
    if scheme not in _SCHEMES:
        raise ValueError("no such scheme")
    algorithm, kind, name = scheme.split("_")
    digest = _HASHES[name]()
    if len(subject) != digest.digest_size:
        raise ValueError("no digest by that hash")
    prehashed = utils.Prehashed(digest)
    if algorithm == "ECDSA":
        curve, size = _CURVES[kind]
        if len(key) != size or key[0] != 4:
            raise ValueError("no point in its long form")
        # (each signature has one spelling)
        if utils.encode_dss_signature(*utils.decode_dss_signature(signature)) != signature:
            raise ValueError("a signature that isn't DER")
        ec.EllipticCurvePublicKey.from_encoded_point(curve(), key).verify(signature, subject, ec.ECDSA(prehashed))
        return
    way: padding.AsymmetricPadding = padding.PKCS1v15()
    if kind == "PSS":
        way = padding.PSS(mgf=padding.MGF1(digest), salt_length=digest.digest_size)
    _rsa_key(key).verify(signature, subject, way, prehashed)


def is_good(line: bytes) -> bool:
    """Whether the signature of a line `accept SCHEME KEY SUBJECT SIGNATURE`, without its end, is good. One outside the grammar, or
    of a scheme that isn't there, isn't."""
    try:
        word, scheme, key, subject, signature = line.split(b" ")
        if word != b"accept":
            return False
        _verify(scheme.decode("ascii"), field(key), field(subject), field(signature))
    except Exception:
        return False
    return True
