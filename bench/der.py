"""Values in DER (X.690), with the identifiers that the scripts here write."""
OIDS = {
    "sha1": "1.3.14.3.2.26",
    "sha224": "2.16.840.1.101.3.4.2.4",
    "sha256": "2.16.840.1.101.3.4.2.1",
    "sha384": "2.16.840.1.101.3.4.2.2",
    "sha512": "2.16.840.1.101.3.4.2.3",
    "data": "1.2.840.113549.1.7.1",
    "signed_data": "1.2.840.113549.1.7.2",
    "content_type": "1.2.840.113549.1.9.3",
    "message_digest": "1.2.840.113549.1.9.4",
    "tst_info": "1.2.840.113549.1.9.16.1.4",
    "ecdsa_sha256": "1.2.840.10045.4.3.2",
    "ecdsa_sha384": "1.2.840.10045.4.3.3",
    "common_name": "2.5.4.3",
    "basic_constraints": "2.5.29.19",
    "name_constraints": "2.5.29.30",
    "key_identifier": "2.5.29.14",
    "key_usage": "2.5.29.15",
    "alternative_name": "2.5.29.17",
    "issuer_key_identifier": "2.5.29.35",
    "extended_usage": "2.5.29.37",
    "time_stamping": "1.3.6.1.5.5.7.3.8",
    "code_signing": "1.3.6.1.5.5.7.3.3",
    "policy": "1.2.3.4.1",
    "log_timestamps": "1.3.6.1.4.1.11129.2.4.2",
    "old_issuer": "1.3.6.1.4.1.57264.1.1",
    "new_issuer": "1.3.6.1.4.1.57264.1.8",
}
# What Fulcio claims of the run that signed, by its number.
OIDS.update({f"claim_{number}": f"1.3.6.1.4.1.57264.1.{number}" for number in (*range(2, 7), *range(9, 23))})


def tlv(tag, *parts):
    body = b"".join(parts)
    size = len(body)
    if size < 128:
        return bytes([tag, size]) + body
    digits = size.to_bytes((size.bit_length() + 7) // 8, "big")
    return bytes([tag, 128 + len(digits)]) + digits + body


def sequence(*parts):
    return tlv(0x30, *parts)


def set_of(*parts):
    return tlv(0x31, *sorted(parts))


def integer(number):
    return tlv(2, number.to_bytes(number.bit_length() // 8 + 1, "big"))


def octets(value):
    return tlv(4, value)


def oid(name):
    arcs = [int(arc) for arc in OIDS[name].split(".")]
    out = bytearray([40 * arcs[0] + arcs[1]])
    for arc in arcs[2:]:
        digits = [arc & 127]
        while arc := arc >> 7:
            digits.insert(0, 128 | arc & 127)
        out += bytes(digits)
    return tlv(6, bytes(out))


def algorithm(name, *parameters):
    return sequence(oid(name), *parameters)


def name_of(text):
    return sequence(set_of(sequence(oid("common_name"), tlv(12, text.encode()))))


def extension(name, value, critical=False):
    return sequence(oid(name), tlv(1, b"\xff") if critical else b"", octets(value))
