// The structs of c/passkey.h, whose pointers have 64 bits: the offset of each member in bytes.
const U8 = { sizeOf: 1, alignment: 1 };
const I32 = { sizeOf: 4, alignment: 4 };
const U32 = I32;
const SIZE = { sizeOf: 8, alignment: 8 };
const POINTER = SIZE;
const room = (size) => ({ sizeOf: size, alignment: 1 });

function struct(members) {
  const made = { alignment: 1 };
  let end = 0;
  const align = (alignment) => Math.ceil(end / alignment) * alignment;
  for (const [name, type] of Object.entries(members)) {
    made[name] = align(type.alignment);
    made.alignment = Math.max(made.alignment, type.alignment);
    end = made[name] + type.sizeOf;
  }
  made.sizeOf = align(made.alignment);
  return Object.freeze(made);
}

export const BYTES = struct({ data: POINTER, size: SIZE });

export const KEY = struct({ algorithm: I32, x: BYTES, y: BYTES });

export const KEY_OUT = struct({ algorithm: I32, x_size: SIZE, x: room(512), y_size: SIZE, y: room(32) });

export const PARTY = struct({
  rp_id: BYTES, origins: POINTER, origin_count: SIZE, profile: U8, top_origins: POINTER, top_origin_count: SIZE,
});

export const VERIFIED = struct({ key: KEY, message: BYTES, signature: BYTES });

export const SIGN_IN_SESSION = struct({
  challenge: BYTES, user_verification: U8, has_user: U8, user: BYTES, allow: POINTER, allow_count: SIZE,
});

export const CREDENTIAL = struct({
  id: BYTES, user: BYTES, key: KEY, sign_count: U32, is_eligibility_known: U8, eligible: U8, retired: U8,
});

export const ASSERTION_RESPONSE = struct({
  credential: BYTES, has_user: U8, user: BYTES, auth_data: BYTES, signature: BYTES, client_data: BYTES,
});

export const ASSERTION_CALL = struct({
  party: PARTY, has_session: U8, session: SIGN_IN_SESSION, has_credential: U8, credential: CREDENTIAL,
  response: ASSERTION_RESPONSE, has_verified: U8, verified: VERIFIED,
});

export const ASSERTION_OUT = struct({
  sign_count: U32, eligible: U8, backed_up: U8, user_verified: U8, flags: U8, extensions_size: SIZE,
});

export const REGISTRATION_SESSION = struct({
  challenge: BYTES, user: BYTES, user_verification: U8, offers_es256: U8, offers_eddsa: U8, offers_rs256: U8, conditional: U8,
  attestation: U8,
});

export const REGISTRATION_RESPONSE = struct({ object: BYTES, client_data: BYTES });

export const REGISTRATION_CALL = struct({
  party: PARTY, accept_none: U8, accept_self: U8, has_session: U8, session: REGISTRATION_SESSION,
  response: REGISTRATION_RESPONSE, is_free: U8, raw_id: BYTES, is_full: U8, has_verified: U8, verified: VERIFIED,
});

export const REGISTRATION_OUT = struct({
  id_size: SIZE, id: room(1023), key: KEY_OUT, sign_count: U32, eligible: U8, backed_up: U8, user_verified: U8, flags: U8,
  aaguid: room(16), format: U32, extensions_size: SIZE,
});

export const SIGNATURE_CALL = struct({
  is_registration: U8, profile: U8, registration: REGISTRATION_RESPONSE, assertion: ASSERTION_RESPONSE, key: KEY, attestation: U8,
});

export const SIGNATURE_OUT = struct({ is_asked: U8, key: KEY_OUT, message_size: SIZE, signature_size: SIZE });
