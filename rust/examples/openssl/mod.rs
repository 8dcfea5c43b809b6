//! A `Verifier` by OpenSSL's libcrypto. A site in Rust may have one by another library.
use garvoeng::{Algorithm, Key, Verifier};
use std::ffi::{c_int, c_long, c_void};
use std::ptr::{null, null_mut};

#[link(name = "crypto")]
extern "C" {
    fn d2i_PUBKEY(key: *mut *mut c_void, bytes: *mut *const u8, size: c_long) -> *mut c_void;
    fn EVP_PKEY_free(key: *mut c_void);
    fn EVP_MD_CTX_new() -> *mut c_void;
    fn EVP_MD_CTX_free(context: *mut c_void);
    fn EVP_sha256() -> *const c_void;
    fn EVP_DigestVerifyInit(
        context: *mut c_void,
        key_context: *mut *mut c_void,
        hash: *const c_void,
        engine: *mut c_void,
        key: *mut c_void,
    ) -> c_int;
    fn EVP_DigestVerify(context: *mut c_void, signature: *const u8, size: usize, message: *const u8, length: usize) -> c_int;
}

/// An element of DER (X.690, section 8.1).
fn element(tag: u8, parts: &[&[u8]]) -> Vec<u8> {
    let content = parts.concat();
    let size = content.len();
    let length = match size {
        0..=127 => vec![size as u8],
        128..=255 => vec![0x81, size as u8],
        _ => vec![0x82, (size >> 8) as u8, size as u8],
    };
    [&[tag], length.as_slice(), content.as_slice()].concat()
}

fn unsigned(number: &[u8]) -> Vec<u8> {
    let sign: &[u8] = if number[0] >= 0x80 { &[0] } else { &[] };
    element(2, &[sign, number])
}

/// The key as a SubjectPublicKeyInfo (RFC 5280, section 4.1; RFC 5480, RFC 8410, RFC 3279).
fn public_key_info(key: &Key) -> Vec<u8> {
    let (algorithm, bits): (&[u8], Vec<u8>) = match key.algorithm {
        Algorithm::Es256 => (b"\x06\x07\x2a\x86\x48\xce\x3d\x02\x01\x06\x08\x2a\x86\x48\xce\x3d\x03\x01\x07", [&[4], &key.x[..], &key.y].concat()),
        Algorithm::EdDsa => (b"\x06\x03\x2b\x65\x70", key.x.clone()),
        Algorithm::Rs256 => {
            (b"\x06\x09\x2a\x86\x48\x86\xf7\x0d\x01\x01\x01\x05\x00", element(0x30, &[&unsigned(&key.x), &unsigned(&key.y)]))
        }
    };
    element(0x30, &[&element(0x30, &[algorithm]), &element(3, &[&[0], &bits])])
}

pub struct OpenSsl;

impl Verifier for OpenSsl {
    fn is_valid(&self, key: &Key, message: &[u8], signature: &[u8]) -> bool {
        let info = public_key_info(key);
        let mut at = info.as_ptr();
        // SAFETY: the bytes have the sizes that are told; what is made is freed, and null is taken by both frees.
        unsafe {
            let public = d2i_PUBKEY(null_mut(), &mut at, info.len() as c_long);
            let context = EVP_MD_CTX_new();
            let hash = if key.algorithm == Algorithm::EdDsa { null() } else { EVP_sha256() };
            let is_valid = !public.is_null()
                && !context.is_null()
                && EVP_DigestVerifyInit(context, null_mut(), hash, null_mut(), public) == 1
                && EVP_DigestVerify(context, signature.as_ptr(), signature.len(), message.as_ptr(), message.len()) == 1;
            EVP_MD_CTX_free(context);
            EVP_PKEY_free(public);
            is_valid
        }
    }
}
