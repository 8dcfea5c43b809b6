//! A passkey relying party (WebAuthn Level 2 and 3, sections 7.1 and 7.2) whose steps are proved code, called by its C interface.
//!
//! A [`RelyingParty`] keeps nothing: the site stores the sessions and credentials, and provides the mathematics of signatures, a
//! [`Verifier`].
//! What was verified is passed to the library here, and nowhere else: no call of a site can claim that a signature is valid.
//!
//! ```compile_fail
//! let verified = garvoeng::Verified { key: todo!(), message: Vec::new(), signature: Vec::new() };
//! ```
#![warn(missing_docs)]

mod library;

use library::Bytes;
use std::fmt;
use std::ptr::null;

/// A signature scheme, by its number (RFC 9053, RFC 8812).
#[derive(Clone, Copy, Debug, PartialEq, Eq)]
pub enum Algorithm {
    /// ECDSA over P-256 with SHA-256.
    Es256 = -7,
    /// EdDSA over Ed25519.
    EdDsa = -8,
    /// RSA with PKCS #1 v1.5 and SHA-256.
    Rs256 = -257,
}

/// Which responses a relying party accepts.
#[derive(Clone, Copy, Debug, PartialEq, Eq)]
pub enum Profile {
    /// No extension data, and ids of 1 to 64 bytes.
    Strict = 0,
    /// Also extension data, and ids of up to 1,023 bytes.
    Open = 1,
    /// Like `Open`, by the steps of WebAuthn Level 3.
    Level3 = 2,
}

/// A public key, big-endian: its coordinates; for RSA its modulus and its exponent.
#[derive(Clone, Debug, PartialEq, Eq)]
pub struct Key {
    /// Its scheme.
    pub algorithm: Algorithm,
    /// 32 bytes; for RSA 256, 384 or 512.
    pub x: Vec<u8>,
    /// 32 bytes for ES256, none for EdDSA; for RSA 1 to 4.
    pub y: Vec<u8>,
}

/// The mathematics of signatures.
pub trait Verifier {
    /// Whether a signature of a message is valid under a key. If the key is not a point of its curve, no signature is valid.
    fn is_valid(&self, key: &Key, message: &[u8], signature: &[u8]) -> bool;
}

/// A registered credential in the form that a site stores.
#[derive(Clone, Debug, PartialEq, Eq)]
pub struct Credential {
    /// 1 to 1,023 bytes.
    pub id: Vec<u8>,
    /// The user handle of its account, 1 to 64 bytes.
    pub user: Vec<u8>,
    /// Its public key.
    pub key: Key,
    /// The signature counter received last.
    pub sign_count: u32,
    /// For backup; `None` if it is not known.
    pub eligible: Option<bool>,
    /// It can no longer sign in.
    pub retired: bool,
}

/// What a registration that has begun expects. It accepts one response; then the site deletes it.
#[derive(Clone, Debug, PartialEq, Eq)]
pub struct RegistrationSession {
    /// 32 bytes that no other session has.
    pub challenge: [u8; 32],
    /// The user handle of the account.
    pub user: Vec<u8>,
    /// Whether user verification is required.
    pub user_verification: bool,
    /// The algorithms that were offered.
    pub algorithms: Vec<Algorithm>,
    /// Whether it was begun as a conditional create.
    pub conditional: bool,
    /// Whether an attestation was asked for.
    pub attestation: bool,
}

/// What a sign-in that has begun expects. It accepts one response; then the site deletes it.
#[derive(Clone, Debug, PartialEq, Eq)]
pub struct SignInSession {
    /// 32 bytes that no other session has.
    pub challenge: [u8; 32],
    /// The user handle of the account, if it is known beforehand.
    pub user: Option<Vec<u8>>,
    /// The ids of the credentials that may answer; empty for any.
    pub allow: Vec<Vec<u8>>,
    /// Whether user verification is required.
    pub user_verification: bool,
}

/// A client's response to a registration.
#[derive(Clone, Copy, Debug)]
pub struct RegistrationResponse<'a> {
    /// `rawId`.
    pub raw_id: &'a [u8],
    /// `response.attestationObject`.
    pub object: &'a [u8],
    /// `response.clientDataJSON`.
    pub client_data: &'a [u8],
}

/// A client's response to a sign-in.
#[derive(Clone, Copy, Debug)]
pub struct AssertionResponse<'a> {
    /// `rawId`.
    pub credential: &'a [u8],
    /// `response.userHandle`.
    pub user: Option<&'a [u8]>,
    /// `response.authenticatorData`.
    pub auth_data: &'a [u8],
    /// `response.signature`.
    pub signature: &'a [u8],
    /// `response.clientDataJSON`.
    pub client_data: &'a [u8],
}

/// Why a response is refused: the number of a step, of a limit (100 and up), or of out of memory (127), as in c/passkey.h.
#[derive(Clone, Copy, Debug, PartialEq, Eq)]
pub struct Refusal {
    /// Whether it is of a registration, and not of a sign-in.
    pub is_registration: bool,
    /// The answer of the library, never 0.
    pub number: u32,
}

impl Refusal {
    /// The text, for a log.
    pub fn text(&self) -> String {
        let mut room = [0; 128];
        // SAFETY: the room has the given size.
        let size = unsafe { library::passkey_refusal_text_5(self.is_registration.into(), self.number, room.as_mut_ptr(), room.len()) };
        String::from_utf8_lossy(&room[..size]).into_owned()
    }
}

impl fmt::Display for Refusal {
    fn fmt(&self, out: &mut fmt::Formatter) -> fmt::Result {
        write!(out, "{}{}: {}", if self.is_registration { "G" } else { "W" }, self.number, self.text())
    }
}

impl std::error::Error for Refusal {}

/// The result of an accepted sign-in. The site stores `credential` in place of the row that it looked up.
#[derive(Clone, Debug, PartialEq, Eq)]
pub struct SignedIn {
    /// With the counter that was received.
    pub credential: Credential,
    /// UV.
    pub user_verified: bool,
    /// BS.
    pub backed_up: bool,
    /// The flags of the authenticator data.
    pub flags: u8,
    /// The map of extensions in CBOR, or nothing.
    pub extensions: Vec<u8>,
}

/// How a credential is attested.
#[derive(Clone, Copy, Debug, PartialEq, Eq)]
pub enum Format {
    /// Not at all.
    None,
    /// By a packed statement with a signature of its own key.
    PackedSelf,
}

/// The result of an accepted registration. The site stores `credential`.
#[derive(Clone, Debug, PartialEq, Eq)]
pub struct Registered {
    /// The new one.
    pub credential: Credential,
    /// The model of the authenticator, as it reports it.
    pub aaguid: [u8; 16],
    /// How it is attested.
    pub format: Format,
    /// UV.
    pub user_verified: bool,
    /// BS.
    pub backed_up: bool,
    /// The flags of the authenticator data.
    pub flags: u8,
    /// The map of extensions in CBOR, or nothing.
    pub extensions: Vec<u8>,
}

/// A relying party. Several threads may call it at once.
#[derive(Clone, Debug)]
pub struct RelyingParty {
    /// Its domain, such as `example.com`.
    pub rp_id: String,
    /// The origins of its pages, such as `https://example.com`; compared as texts.
    pub origins: Vec<String>,
    /// The pages of other sites that may frame its own; used only in [`Profile::Level3`].
    pub top_origins: Vec<String>,
    /// Which responses it accepts.
    pub profile: Profile,
    /// Whether registrations without attestation are accepted.
    pub accept_none: bool,
    /// Whether registrations with self attestation are accepted.
    pub accept_self: bool,
}

fn lent<T: AsRef<[u8]>>(values: &[T]) -> Vec<Bytes> {
    values.iter().map(|value| Bytes::of(value.as_ref())).collect()
}

fn first(values: &[Bytes]) -> *const Bytes {
    if values.is_empty() { null() } else { values.as_ptr() }
}

fn lent_key(key: &Key) -> library::Key {
    library::Key { algorithm: key.algorithm as i32, x: Bytes::of(&key.x), y: Bytes::of(&key.y) }
}

fn told_key(key: &library::KeyOut) -> Option<Key> {
    let algorithm = [Algorithm::Es256, Algorithm::EdDsa, Algorithm::Rs256].into_iter().find(|one| *one as i32 == key.algorithm)?;
    Some(Key { algorithm, x: key.x.get(..key.x_size)?.to_vec(), y: key.y.get(..key.y_size)?.to_vec() })
}

fn last(bytes: &[u8], size: usize) -> Vec<u8> {
    bytes[bytes.len().saturating_sub(size)..].to_vec()
}

/// A key, a message and a signature that a [`Verifier`] found to be valid; only `verified` makes one.
struct Verified {
    key: Key,
    message: Vec<u8>,
    signature: Vec<u8>,
}

impl Verified {
    fn lend(&self) -> library::Verified {
        library::Verified { key: lent_key(&self.key), message: Bytes::of(&self.message), signature: Bytes::of(&self.signature) }
    }
}

/// Has the signature of a response verified, if there is one. Returns the library's answer if it can't say which.
fn verified(call: &library::SignatureCall, message_room: usize, signature_room: usize, verifier: &impl Verifier) -> Result<Option<Verified>, u32> {
    let (mut message, mut signature) = (vec![0; message_room], vec![0; signature_room]);
    let mut out = library::SignatureOut::NONE;
    // SAFETY: what the call lends lives as long as its lender's borrows; the rooms have the given sizes, and are apart.
    let answer = unsafe {
        library::passkey_signature_asked_5(call, message.as_mut_ptr(), message.len(), signature.as_mut_ptr(), signature.len(), &mut out)
    };
    if answer != 0 {
        return Err(answer);
    }
    let key = match told_key(&out.key) {
        Some(key) if out.is_asked => key,
        _ => return Ok(None),
    };
    message.truncate(out.message_size);
    signature.truncate(out.signature_size);
    Ok(verifier.is_valid(&key, &message, &signature).then_some(Verified { key, message, signature }))
}

impl RelyingParty {
    /// One with the profile `Level3`, which accepts registrations without attestation and with self attestation.
    pub fn new(rp_id: &str, origins: &[&str]) -> RelyingParty {
        RelyingParty {
            rp_id: rp_id.to_string(),
            origins: origins.iter().map(|origin| origin.to_string()).collect(),
            top_origins: Vec::new(),
            profile: Profile::Level3,
            accept_none: true,
            accept_self: true,
        }
    }

    fn lend(&self, origins: &[Bytes], top_origins: &[Bytes]) -> library::Party {
        library::Party {
            rp_id: Bytes::of(self.rp_id.as_bytes()),
            origins: first(origins),
            origin_count: origins.len(),
            profile: self.profile as u8,
            top_origins: first(top_origins),
            top_origin_count: top_origins.len(),
        }
    }

    /// Verifies a sign-in (section 7.2) in a session, `None` if none is open, for the credential that was found for the response's id,
    /// `None` if there is none. Returns the result, or the first step that it does not pass.
    pub fn verify_assertion(
        &self,
        session: Option<&SignInSession>,
        credential: Option<&Credential>,
        response: &AssertionResponse,
        verifier: &impl Verifier,
    ) -> Result<SignedIn, Refusal> {
        const BAD_SIGNATURE: u32 = 14;
        let (origins, top_origins) = (lent(&self.origins), lent(&self.top_origins));
        let allow = session.map_or(Vec::new(), |session| lent(&session.allow));
        let answered = library::AssertionResponse {
            credential: Bytes::of(response.credential),
            has_user: response.user.is_some().into(),
            user: response.user.map_or(Bytes::NONE, Bytes::of),
            auth_data: Bytes::of(response.auth_data),
            signature: Bytes::of(response.signature),
            client_data: Bytes::of(response.client_data),
        };
        let mut call = library::AssertionCall {
            party: self.lend(&origins, &top_origins),
            has_session: session.is_some().into(),
            session: session.map_or(library::SignInSession::NONE, |session| library::SignInSession {
                challenge: Bytes::of(&session.challenge),
                user_verification: session.user_verification.into(),
                has_user: session.user.is_some().into(),
                user: session.user.as_deref().map_or(Bytes::NONE, Bytes::of),
                allow: first(&allow),
                allow_count: allow.len(),
            }),
            has_credential: credential.is_some().into(),
            credential: credential.map_or(library::Credential::NONE, |credential| library::Credential {
                id: Bytes::of(&credential.id),
                user: Bytes::of(&credential.user),
                key: lent_key(&credential.key),
                sign_count: credential.sign_count,
                is_eligibility_known: credential.eligible.is_some().into(),
                eligible: (credential.eligible == Some(true)).into(),
                retired: credential.retired.into(),
            }),
            response: answered,
            has_verified: 0,
            verified: library::Verified::NONE,
        };
        let refused = |number| Refusal { is_registration: false, number };
        let mut out = library::AssertionOut::default();
        // SAFETY: each thing that the call lends is borrowed for longer than it takes.
        let mut answer = unsafe { library::passkey_assertion_5(&call, &mut out) };
        let found;
        if answer == BAD_SIGNATURE {
            let asked = library::SignatureCall {
                is_registration: 0,
                profile: self.profile as u8,
                registration: library::RegistrationResponse::NONE,
                assertion: answered,
                key: call.credential.key,
                attestation: 0,
            };
            found = verified(&asked, response.auth_data.len() + 32, response.signature.len(), verifier).map_err(refused)?;
            if let Some(found) = &found {
                call.has_verified = 1;
                call.verified = found.lend();
                // SAFETY: as above.
                answer = unsafe { library::passkey_assertion_5(&call, &mut out) };
            }
        }
        match credential {
            Some(before) if answer == 0 => Ok(SignedIn {
                credential: Credential { sign_count: out.sign_count, eligible: Some(out.eligible), ..before.clone() },
                user_verified: out.user_verified,
                backed_up: out.backed_up,
                flags: out.flags,
                extensions: last(response.auth_data, out.extensions_size),
            }),
            _ => Err(refused(answer)),
        }
    }

    /// Verifies a registration (section 7.1) in a session, `None` if none is open. `is_free`: the site looked `raw_id` up, and no
    /// credential has it, retired or not; `is_full`: it has no room for another.
    pub fn verify_registration(
        &self,
        session: Option<&RegistrationSession>,
        response: &RegistrationResponse,
        is_free: bool,
        is_full: bool,
        verifier: &impl Verifier,
    ) -> Result<Registered, Refusal> {
        const BAD_STATEMENT: u32 = 13;
        let (origins, top_origins) = (lent(&self.origins), lent(&self.top_origins));
        let answered = library::RegistrationResponse { object: Bytes::of(response.object), client_data: Bytes::of(response.client_data) };
        let mut call = library::RegistrationCall {
            party: self.lend(&origins, &top_origins),
            accept_none: self.accept_none.into(),
            accept_self: self.accept_self.into(),
            has_session: session.is_some().into(),
            session: session.map_or(library::RegistrationSession::NONE, |session| library::RegistrationSession {
                challenge: Bytes::of(&session.challenge),
                user: Bytes::of(&session.user),
                user_verification: session.user_verification.into(),
                offers_es256: session.algorithms.contains(&Algorithm::Es256).into(),
                offers_eddsa: session.algorithms.contains(&Algorithm::EdDsa).into(),
                offers_rs256: session.algorithms.contains(&Algorithm::Rs256).into(),
                conditional: session.conditional.into(),
                attestation: session.attestation.into(),
            }),
            response: answered,
            is_free: is_free.into(),
            raw_id: Bytes::of(response.raw_id),
            is_full: is_full.into(),
            has_verified: 0,
            verified: library::Verified::NONE,
        };
        let refused = |number| Refusal { is_registration: true, number };
        let mut out = library::RegistrationOut::NONE;
        // SAFETY: each thing that the call lends is borrowed for longer than it takes.
        let mut answer = unsafe { library::passkey_registration_5(&call, &mut out) };
        let found;
        if answer == BAD_STATEMENT {
            let asked = library::SignatureCall {
                is_registration: 1,
                profile: self.profile as u8,
                registration: answered,
                assertion: library::AssertionResponse::NONE,
                key: library::Key::NONE,
                attestation: call.session.attestation,
            };
            found = verified(&asked, response.object.len() + 32, response.object.len(), verifier).map_err(refused)?;
            if let Some(found) = &found {
                call.has_verified = 1;
                call.verified = found.lend();
                // SAFETY: as above.
                answer = unsafe { library::passkey_registration_5(&call, &mut out) };
            }
        }
        match (session, told_key(&out.key)) {
            (Some(session), Some(key)) if answer == 0 => Ok(Registered {
                credential: Credential {
                    id: out.id[..out.id_size].to_vec(),
                    user: session.user.clone(),
                    key,
                    sign_count: out.sign_count,
                    eligible: Some(out.eligible),
                    retired: false,
                },
                aaguid: out.aaguid,
                format: if out.format == 0 { Format::None } else { Format::PackedSelf },
                user_verified: out.user_verified,
                backed_up: out.backed_up,
                flags: out.flags,
                extensions: last(response.object, out.extensions_size),
            }),
            _ => Err(refused(answer)),
        }
    }
}

/// A challenge, from the session's number and 24 random bytes of the site's.
pub fn challenge(session: u64, words: &[u8; 24]) -> [u8; 32] {
    let mut made = [0; 32];
    // SAFETY: the sizes are those of the arrays; with them it is written.
    unsafe { library::passkey_challenge_5(session, words.as_ptr(), words.len(), made.as_mut_ptr(), made.len()) };
    made
}

/// A challenge in base64url, as in the options.
pub fn challenge_text(challenge: &[u8; 32]) -> String {
    let mut text = [0; 43];
    // SAFETY: as above.
    unsafe { library::passkey_challenge_text_5(challenge.as_ptr(), challenge.len(), text.as_mut_ptr(), text.len()) };
    String::from_utf8_lossy(&text).into_owned()
}

/// The key in COSE_Key bytes (RFC 9052, section 7), as other libraries store them, in canonical CBOR.
pub fn key_from_cose(bytes: &[u8]) -> Option<Key> {
    let mut out = library::KeyOut::NONE;
    // SAFETY: the size is that of the bytes.
    let is_told = unsafe { library::passkey_key_from_cose_5(bytes.as_ptr(), bytes.len(), &mut out) };
    is_told.then(|| told_key(&out)).flatten()
}

/// The COSE_Key bytes of a key; `None` if it is out of its limits.
pub fn key_to_cose(key: &Key) -> Option<Vec<u8>> {
    let mut room = vec![0; key.x.len() + key.y.len() + 32];
    // SAFETY: the room has the given size, and the key is lent for the call.
    let size = unsafe { library::passkey_key_to_cose_5(&lent_key(key), room.as_mut_ptr(), room.len()) };
    room.truncate(size);
    (size > 0).then_some(room)
}

/// The library's version: major * 10,000 + minor * 100 + patch.
pub fn version() -> u32 {
    // SAFETY: it takes nothing.
    unsafe { library::passkey_version() }
}
