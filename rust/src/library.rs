//! The calls and structs of c/passkey.h.
use std::ptr::null;

/// Bytes, lent for the time of a call.
#[repr(C)]
#[derive(Clone, Copy)]
pub struct Bytes {
    data: *const u8,
    size: usize,
}

impl Bytes {
    pub const NONE: Bytes = Bytes { data: null(), size: 0 };

    pub fn of(bytes: &[u8]) -> Bytes {
        Bytes { data: bytes.as_ptr(), size: bytes.len() }
    }
}

#[repr(C)]
#[derive(Clone, Copy)]
pub struct Key {
    pub algorithm: i32,
    pub x: Bytes,
    pub y: Bytes,
}

impl Key {
    pub const NONE: Key = Key { algorithm: 0, x: Bytes::NONE, y: Bytes::NONE };
}

#[repr(C)]
pub struct KeyOut {
    pub algorithm: i32,
    pub x_size: usize,
    pub x: [u8; 512],
    pub y_size: usize,
    pub y: [u8; 32],
}

impl KeyOut {
    pub const NONE: KeyOut = KeyOut { algorithm: 0, x_size: 0, x: [0; 512], y_size: 0, y: [0; 32] };
}

#[repr(C)]
pub struct Party {
    pub rp_id: Bytes,
    pub origins: *const Bytes,
    pub origin_count: usize,
    pub profile: u8,
    pub top_origins: *const Bytes,
    pub top_origin_count: usize,
}

#[repr(C)]
pub struct Verified {
    pub key: Key,
    pub message: Bytes,
    pub signature: Bytes,
}

impl Verified {
    pub const NONE: Verified = Verified { key: Key::NONE, message: Bytes::NONE, signature: Bytes::NONE };
}

#[repr(C)]
pub struct SignInSession {
    pub challenge: Bytes,
    pub user_verification: u8,
    pub has_user: u8,
    pub user: Bytes,
    pub allow: *const Bytes,
    pub allow_count: usize,
}

impl SignInSession {
    pub const NONE: SignInSession =
        SignInSession { challenge: Bytes::NONE, user_verification: 0, has_user: 0, user: Bytes::NONE, allow: null(), allow_count: 0 };
}

#[repr(C)]
pub struct Credential {
    pub id: Bytes,
    pub user: Bytes,
    pub key: Key,
    pub sign_count: u32,
    pub is_eligibility_known: u8,
    pub eligible: u8,
    pub retired: u8,
}

impl Credential {
    pub const NONE: Credential =
        Credential { id: Bytes::NONE, user: Bytes::NONE, key: Key::NONE, sign_count: 0, is_eligibility_known: 0, eligible: 0, retired: 0 };
}

#[repr(C)]
#[derive(Clone, Copy)]
pub struct AssertionResponse {
    pub credential: Bytes,
    pub has_user: u8,
    pub user: Bytes,
    pub auth_data: Bytes,
    pub signature: Bytes,
    pub client_data: Bytes,
}

impl AssertionResponse {
    pub const NONE: AssertionResponse = AssertionResponse {
        credential: Bytes::NONE,
        has_user: 0,
        user: Bytes::NONE,
        auth_data: Bytes::NONE,
        signature: Bytes::NONE,
        client_data: Bytes::NONE,
    };
}

#[repr(C)]
pub struct AssertionCall {
    pub party: Party,
    pub has_session: u8,
    pub session: SignInSession,
    pub has_credential: u8,
    pub credential: Credential,
    pub response: AssertionResponse,
    pub has_verified: u8,
    pub verified: Verified,
}

#[repr(C)]
#[derive(Default)]
pub struct AssertionOut {
    pub sign_count: u32,
    pub eligible: bool,
    pub backed_up: bool,
    pub user_verified: bool,
    pub flags: u8,
    pub extensions_size: usize,
}

#[repr(C)]
pub struct RegistrationSession {
    pub challenge: Bytes,
    pub user: Bytes,
    pub user_verification: u8,
    pub offers_es256: u8,
    pub offers_eddsa: u8,
    pub offers_rs256: u8,
    pub conditional: u8,
    pub attestation: u8,
}

impl RegistrationSession {
    pub const NONE: RegistrationSession = RegistrationSession {
        challenge: Bytes::NONE,
        user: Bytes::NONE,
        user_verification: 0,
        offers_es256: 0,
        offers_eddsa: 0,
        offers_rs256: 0,
        conditional: 0,
        attestation: 0,
    };
}

#[repr(C)]
#[derive(Clone, Copy)]
pub struct RegistrationResponse {
    pub object: Bytes,
    pub client_data: Bytes,
}

impl RegistrationResponse {
    pub const NONE: RegistrationResponse = RegistrationResponse { object: Bytes::NONE, client_data: Bytes::NONE };
}

#[repr(C)]
pub struct RegistrationCall {
    pub party: Party,
    pub accept_none: u8,
    pub accept_self: u8,
    pub has_session: u8,
    pub session: RegistrationSession,
    pub response: RegistrationResponse,
    pub is_free: u8,
    pub raw_id: Bytes,
    pub is_full: u8,
    pub has_verified: u8,
    pub verified: Verified,
}

#[repr(C)]
pub struct RegistrationOut {
    pub id_size: usize,
    pub id: [u8; 1023],
    pub key: KeyOut,
    pub sign_count: u32,
    pub eligible: bool,
    pub backed_up: bool,
    pub user_verified: bool,
    pub flags: u8,
    pub aaguid: [u8; 16],
    pub format: u32,
    pub extensions_size: usize,
}

impl RegistrationOut {
    pub const NONE: RegistrationOut = RegistrationOut {
        id_size: 0,
        id: [0; 1023],
        key: KeyOut::NONE,
        sign_count: 0,
        eligible: false,
        backed_up: false,
        user_verified: false,
        flags: 0,
        aaguid: [0; 16],
        format: 0,
        extensions_size: 0,
    };
}

#[repr(C)]
pub struct SignatureCall {
    pub is_registration: u8,
    pub profile: u8,
    pub registration: RegistrationResponse,
    pub assertion: AssertionResponse,
    pub key: Key,
    pub attestation: u8,
}

#[repr(C)]
pub struct SignatureOut {
    pub is_asked: bool,
    pub key: KeyOut,
    pub message_size: usize,
    pub signature_size: usize,
}

impl SignatureOut {
    pub const NONE: SignatureOut = SignatureOut { is_asked: false, key: KeyOut::NONE, message_size: 0, signature_size: 0 };
}

extern "C" {
    pub fn passkey_assertion_5(call: *const AssertionCall, out: *mut AssertionOut) -> u32;
    pub fn passkey_registration_5(call: *const RegistrationCall, out: *mut RegistrationOut) -> u32;
    pub fn passkey_signature_asked_5(
        call: *const SignatureCall,
        message: *mut u8,
        message_room: usize,
        signature: *mut u8,
        signature_room: usize,
        out: *mut SignatureOut,
    ) -> u32;
    pub fn passkey_challenge_5(session: u64, words: *const u8, words_size: usize, challenge: *mut u8, challenge_size: usize) -> bool;
    pub fn passkey_challenge_text_5(challenge: *const u8, challenge_size: usize, text: *mut u8, text_size: usize) -> bool;
    pub fn passkey_key_from_cose_5(bytes: *const u8, size: usize, out: *mut KeyOut) -> bool;
    pub fn passkey_key_to_cose_5(key: *const Key, room: *mut u8, room_size: usize) -> usize;
    pub fn passkey_refusal_text_5(is_registration: u32, answer: u32, text: *mut u8, room: usize) -> usize;
    pub fn passkey_version() -> u32;
}
