//! Whether the signature of a row is good.

use crate::field::field;

/// A row `accept SCHEME KEY SUBJECT SIGNATURE`.
#[derive(Clone, Debug, PartialEq, Eq)]
pub struct Row {
    /// The scheme's name, as `ECDSA_P256_SHA256`.
    pub scheme: String,
    /// A point in its long form, an RSAPublicKey in DER, or the 32 bytes of Ed25519.
    pub key: Vec<u8>,
    /// The message's digest by the scheme's hash, and for Ed25519 the message.
    pub subject: Vec<u8>,
    /// The signature.
    pub signature: Vec<u8>,
}

impl Row {
    /// The row of a line without its end; none where it is outside the grammar.
    pub fn read(line: &[u8]) -> Option<Row> {
        let words: Vec<&[u8]> = line.split(|&octet| octet == b' ').collect();
        match words[..] {
            [b"accept", scheme, key, subject, signature] => Some(Row {
                scheme: std::str::from_utf8(scheme).ok()?.to_owned(),
                key: field(key)?,
                subject: field(subject)?,
                signature: field(signature)?,
            }),
            _ => None,
        }
    }
}

/// What decides signatures: a wrong answer is a forged signature.
pub trait Decider {
    /// Whether the row's signature is good, by the scheme's own rules under that key. What can't be decided isn't.
    fn is_good(&self, row: &Row) -> bool;
}

#[cfg(feature = "openssl")]
pub use by_openssl::OpenSsl;

#[cfg(feature = "openssl")]
mod by_openssl {
    use super::{Decider, Row};
    use crate::ffi::openssl_calls::set_digest;
    use openssl::bn::BigNumContext;
    use openssl::ec::{EcGroup, EcKey, EcPoint};
    use openssl::ecdsa::EcdsaSig;
    use openssl::error::ErrorStack;
    use openssl::md::{Md, MdRef};
    use openssl::nid::Nid;
    use openssl::pkey::{Id, PKey};
    use openssl::pkey_ctx::PkeyCtx;
    use openssl::rsa::{Padding, Rsa};
    use openssl::sign::Verifier;

    /// OpenSSL's libcrypto.
    #[derive(Clone, Copy, Debug, Default)]
    pub struct OpenSsl;

    const MOST_OF_RSA_KEY: usize = 2048;

    impl Decider for OpenSsl {
        fn is_good(&self, row: &Row) -> bool {
            !row.signature.is_empty() && decide(row).unwrap_or(false)
        }
    }

    fn digest_of(name: &str) -> Option<&'static MdRef> {
        match name {
            "SHA256" => Some(Md::sha256()),
            "SHA384" => Some(Md::sha384()),
            "SHA512" => Some(Md::sha512()),
            _ => None,
        }
    }

    fn decide(row: &Row) -> Result<bool, ErrorStack> {
        let words: Vec<&str> = row.scheme.split('_').collect();
        let (family, kind, digest) = match words[..] {
            ["ED25519"] => return ed25519(row),
            [family, kind, digest] => (family, kind, digest),
            _ => return Ok(false),
        };
        let digest = match digest_of(digest) {
            Some(digest) if digest.size() == row.subject.len() => digest,
            _ => return Ok(false),
        };
        match (family, kind) {
            ("ECDSA", _) if row.subject.len() > 48 => Ok(false),
            ("ECDSA", "P256") => ecdsa(row, Nid::X9_62_PRIME256V1, 65),
            ("ECDSA", "P384") => ecdsa(row, Nid::SECP384R1, 97),
            ("RSA", "PKCS1") => rsa(row, digest, Padding::PKCS1),
            ("RSA", "PSS") => rsa(row, digest, Padding::PKCS1_PSS),
            _ => Ok(false),
        }
    }

    fn ed25519(row: &Row) -> Result<bool, ErrorStack> {
        let key = PKey::public_key_from_raw_bytes(&row.key, Id::ED25519)?;
        let mut verifier = Verifier::new_without_digest(&key)?;
        verifier.verify_oneshot(&row.signature, &row.subject)
    }

    fn ecdsa(row: &Row, curve: Nid, size: usize) -> Result<bool, ErrorStack> {
        if row.key.len() != size || row.key[0] != 4 {
            return Ok(false);
        }
        let group = EcGroup::from_curve_name(curve)?;
        let point = EcPoint::from_bytes(&group, &row.key, &mut *BigNumContext::new()?)?;
        let key = EcKey::from_public_key(&group, &point)?;
        key.check_key()?;
        let signature = EcdsaSig::from_der(&row.signature)?;
        // (each signature has one spelling)
        Ok(signature.to_der()? == row.signature && signature.verify(&row.subject, &key)?)
    }

    fn rsa(row: &Row, digest: &MdRef, padding: Padding) -> Result<bool, ErrorStack> {
        if row.key.len() >= MOST_OF_RSA_KEY {
            return Ok(false);
        }
        let key = Rsa::public_key_from_der_pkcs1(&row.key)?;
        // (a key has one spelling, and an exponent that is odd and not 1: RFC 8017, 3.1)
        let exponent = key.e().to_vec();
        if key.public_key_to_der_pkcs1()? != row.key || exponent == [1] || exponent.last().map_or(true, |last| last % 2 == 0) {
            return Ok(false);
        }
        let key = PKey::from_rsa(key)?;
        let mut ctx = PkeyCtx::new(&key)?;
        ctx.verify_init()?;
        ctx.set_rsa_padding(padding)?;
        if !set_digest(&mut ctx, digest, padding == Padding::PKCS1_PSS) {
            return Ok(false);
        }
        if padding == Padding::PKCS1_PSS {
            ctx.set_rsa_mgf1_md(digest)?;
        }
        ctx.verify(&row.subject, &row.signature)
    }
}
