"""Keys that a number gives, and what they sign. (No script: suite/make and conformance/cases make their worlds by it.)

A key is drawn from a number and its name, so that the same number gives the same keys: a world can be made again where it
was found to differ. None of them is a secret, and none may be used for anything else. Signatures are made by the package
`cryptography`, by ECDSA with the nonce of RFC 6979 where that package has it (else each run makes other signatures, and
everything else is the same), by RSA-PSS with a salt that the message gives.
"""
import base64
import functools
import hashlib

from cryptography.exceptions import UnsupportedAlgorithm
from cryptography.hazmat.primitives import hashes
from cryptography.hazmat.primitives.asymmetric import ec, ed25519, padding, rsa
from cryptography.hazmat.primitives.serialization import Encoding, PublicFormat

DIGESTS = {"sha256": hashes.SHA256, "sha384": hashes.SHA384, "sha512": hashes.SHA512}
# The sorts of keys on a curve: the curve, its order's length in octets, and the digest.
CURVES = {"p256": (ec.SECP256R1, 32, "sha256"), "p384": (ec.SECP384R1, 48, "sha384"), "k256": (ec.SECP256K1, 32, "sha256")}
RSA_BITS, EXPONENT = 2048, 65537


def drawn(size, *labels):
    """Octets that these labels give, of which the first is mostly the number."""
    return hashlib.shake_256("\n".join(map(str, labels)).encode()).digest(size)


def drawn_number(most, *labels):
    """A number from 0 to one less than `most`."""
    return int.from_bytes(drawn(16, *labels), "big") % most


def spelled(octets):
    return base64.b64encode(octets).decode()


def is_prime(candidate, *labels):
    """Whether a number passes the test of Miller and Rabin for forty bases, which are drawn."""
    odd, twos = candidate - 1, 0
    while odd % 2 == 0:
        odd, twos = odd // 2, twos + 1
    for turn in range(40):
        power = pow(2 + drawn_number(candidate - 3, candidate, turn, *labels), odd, candidate)
        if power in (1, candidate - 1):
            continue
        for _ in range(twos - 1):
            power = power * power % candidate
            if power == candidate - 1:
                break
        else:
            return False
    return True


SMALL = [n for n in range(3, 2000, 2) if all(n % m for m in range(3, int(n**0.5) + 1, 2))]


def prime(*labels):
    """A prime of half the bits of a modulus, whose two highest bits are set."""
    size = RSA_BITS // 16
    candidate = int.from_bytes(drawn(size, "prime", *labels), "big") | 3 << 8 * size - 2 | 1
    while any(candidate % small == 0 for small in SMALL) or candidate % EXPONENT == 1 or not is_prime(candidate):
        candidate += 2
    return candidate


@functools.lru_cache(maxsize=None)
def rsa_key(*labels):
    p, q = prime("p", *labels), prime("q", *labels)
    d = pow(EXPONENT, -1, (p - 1) * (q - 1))
    public = rsa.RSAPublicNumbers(EXPONENT, p * q)
    return rsa.RSAPrivateNumbers(p, q, d, d % (p - 1), d % (q - 1), pow(q, -1, p), public).private_key()


class Key:
    """A pair of keys: `sort` is one of the curves, `ed25519` or `rsa`."""

    def __init__(self, sort, *labels):
        self.sort = sort
        if sort in CURVES:
            curve, size, self.digest = CURVES[sort]
            # (a number below the order, whose highest octet isn't full)
            self.secret = ec.derive_private_key(1 + int.from_bytes(drawn(size - 1, sort, *labels), "big"), curve())
        elif sort == "ed25519":
            self.secret, self.digest = ed25519.Ed25519PrivateKey.from_private_bytes(drawn(32, sort, *labels)), None
        else:
            self.secret, self.digest = rsa_key(*labels), "sha256"
        public = self.secret.public_key()
        self.spki = public.public_bytes(Encoding.DER, PublicFormat.SubjectPublicKeyInfo)
        self.pem = public.public_bytes(Encoding.PEM, PublicFormat.SubjectPublicKeyInfo).decode()
        # What of the SubjectPublicKeyInfo is the key's point, behind the count of unused bits; of a curve.
        self.point = self.spki[self.spki.index(b"\x00\x04") + 1 :] if sort in CURVES else None

    def sign(self, message, digest=None):
        """A signature by the sort's usual scheme (ECDSA, Ed25519, RSA with PKCS1 padding), with a digest other than the
        usual one where it is named."""
        if self.sort == "ed25519":
            return self.secret.sign(message)
        taken = DIGESTS[digest or self.digest]()
        if self.sort == "rsa":
            return self.secret.sign(message, padding.PKCS1v15(), taken)
        try:
            return self.secret.sign(message, ec.ECDSA(taken, deterministic_signing=True))
        except (TypeError, UnsupportedAlgorithm):
            return self.secret.sign(message, ec.ECDSA(taken))

    def sign_pss(self, message):
        """RSA-PSS by SHA-256, with a salt as long as the digest (RFC 8017, section 9.1.1)."""
        size, salt = RSA_BITS // 8, drawn(32, "salt", message.hex())
        digest = hashlib.sha256(bytes(8) + hashlib.sha256(message).digest() + salt).digest()
        data = bytes(size - 32 - 1 - 1 - 32) + b"\x01" + salt
        mask = b"".join(hashlib.sha256(digest + turn.to_bytes(4, "big")).digest() for turn in range(size // 32 + 1))
        masked = bytearray(a ^ b for a, b in zip(data, mask))
        masked[0] &= 0x7F
        numbers = self.secret.private_numbers()
        encoded = int.from_bytes(bytes(masked) + digest + b"\xbc", "big")
        return pow(encoded, numbers.d, numbers.public_numbers.n).to_bytes(size, "big")
