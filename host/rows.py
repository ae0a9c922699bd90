"""Rows that a host is asked, good and wrong, with what each has to be answered; bench/embed asks them, and bench/answer most.

What is right is worked out from the schemes' standards (FIPS 186-5, RFC 8017, RFC 8032, X.690), over keys and signatures that the
command of OpenSSL makes. Python's standard library is all that is used besides.
"""
import base64
import hashlib
import importlib.machinery
import importlib.util
import pathlib

TOP = pathlib.Path(__file__).resolve().parent.parent
loader = importlib.machinery.SourceFileLoader("answer", str(TOP / "bench" / "answer"))
answer = importlib.util.module_from_spec(importlib.util.spec_from_loader("answer", loader))
loader.exec_module(answer)
openssl, row, made = answer.openssl, answer.row, answer.made

# The orders of the groups (FIPS 186-5 and SP 800-186; RFC 8032, section 5.1).
ORDERS = {
    "ECDSA_P256": 0xFFFFFFFF00000000FFFFFFFFFFFFFFFFBCE6FAADA7179E84F3B9CAC2FC632551,
    "ECDSA_P384": 0xFFFFFFFFFFFFFFFFFFFFFFFFFFFFFFFFFFFFFFFFFFFFFFFFC7634D81F4372DDF581A0DB248B0A77AECEC196ACCC52973,
    "ED25519": 2**252 + 27742317777372353535851937790883648493,
}
# What stands before a digest in EMSA-PKCS1-v1_5 (RFC 8017, 9.2, note 1), and the same without the NULL.
PREFIXES = {
    "SHA256": ("3031300d060960864801650304020105000420", "302f300b0609608648016503040201 0420"),
    "SHA384": ("3041300d060960864801650304020205000430", "303f300b0609608648016503040202 0430"),
    "SHA512": ("3051300d060960864801650304020305000440", "304f300b0609608648016503040203 0440"),
}


def integer(number, more=b""):
    octets = more + number.to_bytes(number.bit_length() // 8 + 1, "big")
    return b"\x02" + length(len(octets)) + octets


def length(count):
    if count < 128:
        return bytes([count])
    octets = count.to_bytes((count.bit_length() + 7) // 8, "big")
    return bytes([128 + len(octets)]) + octets


def sequence(*parts):
    octets = b"".join(parts)
    return b"\x30" + length(len(octets)) + octets


def integers(der):
    """The INTEGERs of a SEQUENCE of two, whose lengths take one byte or three."""
    found, at = [], 2 if der[1] < 128 else 2 + der[1] - 128
    while at < len(der):
        count = der[at + 1] if der[at + 1] < 128 else int.from_bytes(der[at + 2 : at + 2 + der[at + 1] - 128], "big")
        at += 2 if der[at + 1] < 128 else 2 + der[at + 1] - 128
        found.append(int.from_bytes(der[at : at + count], "big"))
        at += count
    return found


def of_ecdsa(name, key, subject, signature):
    order, size = ORDERS[name.rpartition("_")[0]], len(key) // 2
    r, s = integers(signature)
    yield "the other of both numbers s", key, subject, sequence(integer(r), integer(order - s)), True
    yield "r and s turned round", key, subject, sequence(integer(s), integer(r)), False
    yield "r 0", key, subject, sequence(integer(0), integer(s)), False
    yield "s 0", key, subject, sequence(integer(r), integer(0)), False
    yield "r and the order", key, subject, sequence(integer(r + order), integer(s)), False
    yield "s and the order", key, subject, sequence(integer(r), integer(s + order)), False
    yield "s negative", key, subject, sequence(integer(r), b"\x02" + length(size) + (2 ** (8 * size) - s).to_bytes(size, "big")), False
    yield "a zero before r", key, subject, sequence(integer(r, b"\0"), integer(s)), False
    yield "a zero before s", key, subject, sequence(integer(r), integer(s, b"\0")), False
    yield "a length in the long form", key, subject, b"\x30\x81" + bytes([len(signature) - 2]) + signature[2:], False
    yield "an indefinite length", key, subject, b"\x30\x80" + signature[2:] + b"\0\0", False
    yield "an octet behind s", key, subject, sequence(integer(r), integer(s), b"\0"), False
    yield "a third number", key, subject, sequence(integer(r), integer(s), integer(1)), False
    yield "a SET", key, subject, b"\x31" + signature[1:], False
    yield "r and s as octets", key, subject, r.to_bytes(size, "big") + s.to_bytes(size, "big"), False
    yield "a compressed point", bytes([2 + key[-1] % 2]) + key[1 : size + 1], subject, signature, False
    yield "a hybrid point", bytes([6 + key[-1] % 2]) + key[1:], subject, signature, False
    yield "the point at infinity", b"\0", subject, signature, False
    yield "a point of zeros", b"\4" + bytes(2 * size), subject, signature, False
    yield "an octet behind the point", key + b"\0", subject, signature, False


def of_ed25519(key, message, signature):
    s = int.from_bytes(signature[32:], "little")
    yield "s and the order", key, message, signature[:32] + (s + ORDERS["ED25519"]).to_bytes(32, "little"), False
    yield "an octet behind the message", key, message + b"\0", signature, False
    yield "an octet behind the key", key + b"\0", message, signature, False
    yield "zeros as a signature", key, message, bytes(64), False


def raw(folder, octets):
    """These octets, as a number, by the secret key."""
    (folder / "raw").write_bytes(octets)
    # (the command signs nothing that is longer than a digest)
    return openssl("pkeyutl", "-decrypt", "-inkey", str(folder / "secret"), "-in", str(folder / "raw"), "-pkeyopt", "rsa_padding_mode:none")


def padded(size, contents, filling=None):
    """EMSA-PKCS1-v1_5 of contents, with as much filling as there is room for, or so much and zeros behind."""
    count = size - 3 - len(contents) if filling is None else filling
    return (b"\0\1" + b"\xff" * count + b"\0" + contents).ljust(size, b"\0")


def of_pkcs1(folder, name, key, subject, size):
    right, without = (bytes.fromhex(text) + subject for text in PREFIXES[name.rpartition("_")[2]])
    yield "by hand", key, subject, raw(folder, padded(size, right)), True
    yield "an identifier without NULL", key, subject, raw(folder, padded(size, without)), False
    yield "octets behind the digest", key, subject, raw(folder, padded(size, right, 8)), False
    yield "padding of type 2", key, subject, raw(folder, b"\0\2" + padded(size, right)[2:]), False
    yield "another octet in the padding", key, subject, raw(folder, padded(size, right).replace(b"\xff\xff\0", b"\xff\xfe\0", 1)), False
    yield "the digest alone", key, subject, raw(folder, padded(size, subject)), False
    yield "an exponent of 1", sequence(integer(integers(key)[0]), integer(1)), subject, padded(size, right), False


def by_openssl(folder, subject, *options):
    (folder / "given").write_bytes(subject)
    words = [word for option in options for word in ("-pkeyopt", option)]
    return openssl("pkeyutl", "-sign", "-inkey", str(folder / "secret"), "-in", str(folder / "given"), *words)


def of_pss(folder, name, key, subject):
    digest = name.rpartition("_")[2].lower()
    sign = lambda *options: by_openssl(folder, subject, "rsa_padding_mode:pss", f"digest:{digest}", *options)
    yield "another salt", key, subject, sign("rsa_pss_saltlen:digest"), True
    yield "no salt", key, subject, sign("rsa_pss_saltlen:0"), False
    yield "a shorter salt", key, subject, sign("rsa_pss_saltlen:20"), False
    yield "the longest salt", key, subject, sign("rsa_pss_saltlen:max"), False
    yield "MGF1 by SHA-1", key, subject, sign("rsa_pss_saltlen:digest", "rsa_mgf1_md:sha1"), False
    yield "the other padding", key, subject, by_openssl(folder, subject, f"digest:{digest}", "rsa_padding_mode:pkcs1"), False


def of_rsa(folder, name, key, subject, signature):
    modulus, exponent = integers(key)
    size = (modulus.bit_length() + 7) // 8
    yield "a zero before the signature", key, subject, b"\0" + signature, False
    yield "the signature and the modulus", key, subject, (int.from_bytes(signature, "big") + modulus).to_bytes(size + 1, "big"), False
    yield "an octet behind the key", key + b"\0", subject, signature, False
    yield "an octet behind the exponent", sequence(integer(modulus), integer(exponent), b"\0"), subject, signature, False
    yield "a zero before the modulus", sequence(integer(modulus, b"\0"), integer(exponent)), subject, signature, False
    yield "a zero before the exponent", sequence(integer(modulus), integer(exponent, b"\0")), subject, signature, False
    negative = b"\x02" + length(size) + modulus.to_bytes(size, "big")
    yield "a negative modulus", sequence(negative, integer(exponent)), subject, signature, False
    contents = integer(modulus) + integer(exponent)
    yield "a length with a zero before it", b"\x30\x83\0" + len(contents).to_bytes(2, "big") + contents, subject, signature, False
    yield "an indefinite length", b"\x30\x80" + contents + b"\0\0", subject, signature, False
    whole = openssl("pkey", "-in", str(folder / "secret"), "-pubout", "-outform", "DER")
    yield "a SubjectPublicKeyInfo", whole, subject, signature, False
    yield "PEM", openssl("rsa", "-in", str(folder / "secret"), "-RSAPublicKey_out"), subject, signature, False
    yield from of_pkcs1(folder, name, key, subject, size) if "PKCS1" in name else of_pss(folder, name, key, subject)


def sized(folder, bits):
    """An RSA key of another size, and a signature by it."""
    openssl("genpkey", "-algorithm", "RSA", "-pkeyopt", f"rsa_keygen_bits:{bits}", "-out", str(folder / "secret"))
    key = openssl("rsa", "-in", str(folder / "secret"), "-RSAPublicKey_out", "-outform", "DER")
    subject = hashlib.sha256(b"hello").digest()
    return key, subject, by_openssl(folder, subject, "digest:sha256", "rsa_padding_mode:pkcs1")


def spellings(line):
    """A good line in other spellings, none of which is in the grammar."""
    word, name, key, subject, signature = line.split(" ")
    decoded = base64.b64decode(subject)
    yield "two blanks", f"{word}  {name} {key} {subject} {signature}"
    yield "a blank before", f" {line}"
    yield "a blank behind", f"{line} "
    yield "a tab", f"{word}\t{name} {key} {subject} {signature}"
    yield "CR", f"{line}\r"
    yield "another word", f"Accept {name} {key} {subject} {signature}"
    yield "small letters", f"{word} {name.lower()} {key} {subject} {signature}"
    yield "another scheme", f"{word} {name}X {key} {subject} {signature}"
    yield "no scheme", f"{word}  {key} {subject} {signature}"
    yield "a part of the scheme", f"{word} {name[:-1]} {key} {subject} {signature}"
    yield "six fields", f"{line} -"
    yield "four fields", f"{word} {name} {key} {subject}"
    if subject.endswith("="):
        yield "other bits in the padding", f"{word} {name} {key} {subject[:-2] + chr(ord(subject[-2]) + 1)}= {signature}"
        yield "no padding", f"{word} {name} {key} {subject.rstrip('=')} {signature}"
    parts = (base64.b64encode(part).decode() for part in (decoded[:1], decoded[1:]))
    yield "padding in the middle", f"{word} {name} {key} {''.join(parts)} {signature}"
    yield "padding that isn't needed", f"{word} {name} {key} {subject}==== {signature}"
    yield "a letter outside", f"{word} {name} {key} *{subject[1:]} {signature}"
    yield "a NUL", f"{word} {name} {key} \0{subject[1:]} {signature}"
    yield "an octet above 7F", f"{word} {name} {key} \xff{subject[1:]} {signature}"
    yield "a dash and more", f"{word} {name} {key} -{subject[1:]} {signature}"
    yield "hexadecimal", f"{word} {name} {key} {decoded.hex()} {signature}"
    yield "nothing", ""


def changes(folder, name, parts):
    """Other rows of a scheme, whose secret key lies in the folder: titles, their parts, and whether each is good."""
    if name == "ED25519":
        return of_ed25519(*parts)
    return of_ecdsa(name, *parts) if name.startswith("EC") else of_rsa(folder, name, *parts)


def rows(folder):
    """Titles, lines without their ends, and whether each is good."""
    names = [f"ECDSA_{curve}_{digest}" for curve in ("P256", "P384") for digest in ("SHA256", "SHA384")]
    names += [f"RSA_{padding}_SHA{bits}" for padding in ("PSS", "PKCS1") for bits in (256, 384, 512)]
    for name in [*names, "ED25519"]:
        parts = made(folder, name)
        yield f"{name}, as made", row(name, *parts)[:-1], True
        yield from ((f"{name}, wrong {number}", line[:-1], False) for number, line in enumerate(answer.wrong_rows(name, *parts)))
        yield from ((f"{name}, under {other}", row(other, *parts)[:-1], False) for other in [*names, "ED25519", "ML_DSA_44"] if other != name)
        yield from ((f"{name}, {title}", row(name, *it)[:-1], wanted) for title, *it, wanted in changes(folder, name, parts))
        yield from ((f"{name}, {title}", line, False) for title, line in spellings(row(name, *parts)[:-1]))
    for bits in (3072, 4096, 8192):
        yield f"RSA of {bits} bits", row("RSA_PKCS1_SHA256", *sized(folder, bits))[:-1], True


def asked(host, cases):
    """What is wrong with a host's answers to rows. A host writes of the lines that it is given those that are good."""
    came = host("".join(f"{line}\n" for _, line, _ in cases).encode("latin-1")).decode("latin-1")
    found = set(came.splitlines())
    wrong = [f"{title} is {'bad' if good else 'good'}" for title, line, good in cases if (line in found) != good]
    if not wrong and came != "".join(f"{line}\n" for _, line, good in cases if good):
        wrong = ["other lines came out, or in another order"]
    return wrong
