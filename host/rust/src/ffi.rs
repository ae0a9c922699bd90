//! The call of the C library, and two of OpenSSL's that its crate lacks: all that isn't safe is in this module.
#![allow(unsafe_code)]

use crate::{File, Request};

#[repr(C)]
#[derive(Clone, Copy)]
struct Bytes {
    at: *const u8,
    length: usize,
}

#[repr(C)]
struct CFile {
    name: Bytes,
    bytes: Bytes,
}

/// A pointer and how many entries stand there.
#[repr(C)]
struct Several<T> {
    at: *const T,
    length: usize,
}

#[repr(C)]
struct CRequest {
    root: Bytes,
    bundle: Bytes,
    artifact: Bytes,
    policy: Bytes,
    repository: Several<CFile>,
    absent: Several<Bytes>,
    store: Several<CFile>,
    good: Bytes,
    bad: Bytes,
    seconds: i64,
    nanoseconds: u32,
    whole: bool,
}

#[repr(C)]
struct Lengths {
    out: usize,
    kept: usize,
}

extern "C" {
    fn ratmanganese_verify(
        request: *const CRequest,
        out: *mut u8,
        out_length: usize,
        kept: *mut u8,
        kept_length: usize,
        lengths: *mut Lengths,
    ) -> u32;
}

const SHORT: u32 = 4;

// (the pointer of an empty slice isn't null and is aligned)
fn bytes(octets: &[u8]) -> Bytes {
    Bytes { at: octets.as_ptr(), length: octets.len() }
}

fn several<T>(entries: &[T]) -> Several<T> {
    Several { at: entries.as_ptr(), length: entries.len() }
}

fn files(files: &[File]) -> Vec<CFile> {
    let of = |file: &File| CFile { name: bytes(&file.name), bytes: bytes(&file.bytes) };
    files.iter().map(of).collect()
}

/// What a call says: its status and its two texts.
pub struct Said {
    pub status: u32,
    pub out: Vec<u8>,
    pub kept: Vec<u8>,
}

/// Calls the library, over buffers that are made anew until both texts fit. None where it says that more is text than there is.
pub fn call(request: &Request<'_>, rows: [&[u8]; 2], repository: &[File], absent: &[Vec<u8>], store: &[File]) -> Option<Said> {
    let (repository, store) = (files(repository), files(store));
    let absent: Vec<Bytes> = absent.iter().map(|name| bytes(name)).collect();
    let asked = CRequest {
        root: bytes(request.root),
        bundle: bytes(request.bundle),
        artifact: bytes(request.artifact),
        policy: bytes(request.policy),
        repository: several(&repository),
        absent: several(&absent),
        store: several(&store),
        good: bytes(rows[0]),
        bad: bytes(rows[1]),
        seconds: request.seconds,
        nanoseconds: request.nanoseconds,
        whole: request.whole.is_some(),
    };
    let (mut out, mut kept) = (vec![0; 1 << 16], vec![0; 1 << 20]);
    loop {
        let mut lengths = Lengths { out: 0, kept: 0 };
        // SAFETY: each pointer is that of a slice which outlives the call and that nobody writes to meanwhile, with its length; the
        // buffers and the lengths are apart from each other and from all that is asked.
        let status = unsafe { ratmanganese_verify(&asked, out.as_mut_ptr(), out.len(), kept.as_mut_ptr(), kept.len(), &mut lengths) };
        if lengths.out <= out.len() && lengths.kept <= kept.len() {
            out.truncate(lengths.out);
            kept.truncate(lengths.kept);
            return Some(Said { status, out, kept });
        }
        if status != SHORT {
            return None;
        }
        out.resize(out.len().max(lengths.out), 0);
        kept.resize(kept.len().max(lengths.kept), 0);
    }
}

#[cfg(feature = "openssl")]
pub mod openssl_calls {
    use foreign_types::ForeignTypeRef;
    use openssl::md::MdRef;
    use openssl::pkey::Public;
    use openssl::pkey_ctx::PkeyCtxRef;
    use openssl_sys::{EVP_PKEY_CTX_set_rsa_pss_saltlen, EVP_MD, EVP_PKEY_CTX};
    use std::os::raw::c_int;

    extern "C" {
        fn EVP_PKEY_CTX_set_signature_md(ctx: *mut EVP_PKEY_CTX, md: *const EVP_MD) -> c_int;
    }

    const SALT_AS_LONG_AS_DIGEST: c_int = -1;

    /// By which hash the subject is a digest; under PSS the salt is as long as it. False where it can't be set.
    pub fn set_digest(ctx: &mut PkeyCtxRef<Public>, digest: &MdRef, pss: bool) -> bool {
        // SAFETY: both are objects of OpenSSL that outlive the calls.
        unsafe {
            EVP_PKEY_CTX_set_signature_md(ctx.as_ptr(), digest.as_ptr()) == 1
                && (!pss || EVP_PKEY_CTX_set_rsa_pss_saltlen(ctx.as_ptr(), SALT_AS_LONG_AS_DIGEST) == 1)
        }
    }
}
