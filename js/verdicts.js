// The calls of c/passkey.h: each verifies one response from its arguments alone.
import { BadInput, NoMemory, Refused } from "./errors.js";
import { EDDSA, ES256, FORMATS, RS256 } from "./limits.js";
import {
  ASSERTION_CALL, ASSERTION_OUT, ASSERTION_RESPONSE, CREDENTIAL, KEY, KEY_OUT, PARTY, REGISTRATION_CALL, REGISTRATION_OUT,
  REGISTRATION_RESPONSE, REGISTRATION_SESSION, SIGNATURE_CALL, SIGNATURE_OUT, SIGN_IN_SESSION, VERIFIED,
} from "./layout.js";
import { Image, Room } from "./module.js";

export const ACCEPTED = 0;
/** A registration's step. */
export const BAD_STATEMENT = 13;
/** A sign-in's step. */
export const BAD_SIGNATURE = 14;
// Inputs out of their limits have the numbers from here on, up to the number of out of memory; steps have lower ones.
const FIRST_LIMIT = 100;
const NO_MEMORY = 127;
const MOST_OF_A_TEXT = 128;
const MOST_OF_A_COSE_KEY = 13 + 512 + 4;


function party(image, at, { rpId, origins, profile, topOrigins }) {
  image.lend(at + PARTY.rp_id, rpId);
  image.lendList(at + PARTY.origins, at + PARTY.origin_count, origins);
  image.u8(at + PARTY.profile, profile);
  image.lendList(at + PARTY.top_origins, at + PARTY.top_origin_count, topOrigins);
}

function key(image, at, { algorithm, x, y }) {
  image.i32(at + KEY.algorithm, algorithm);
  image.lend(at + KEY.x, x);
  image.lend(at + KEY.y, y);
}

function verified(image, at, signature) {
  key(image, at + VERIFIED.key, signature);
  image.lend(at + VERIFIED.message, signature.message);
  image.lend(at + VERIFIED.signature, signature.signature);
}

function registrationResponse(image, at, { attestationObject, clientData }) {
  image.lend(at + REGISTRATION_RESPONSE.object, attestationObject);
  image.lend(at + REGISTRATION_RESPONSE.client_data, clientData);
}

function assertionResponse(image, at, { rawId, user, authData, signature, clientData }) {
  image.lend(at + ASSERTION_RESPONSE.credential, rawId);
  image.flag(at + ASSERTION_RESPONSE.has_user, user !== null);
  if (user !== null) image.lend(at + ASSERTION_RESPONSE.user, user);
  image.lend(at + ASSERTION_RESPONSE.auth_data, authData);
  image.lend(at + ASSERTION_RESPONSE.signature, signature);
  image.lend(at + ASSERTION_RESPONSE.client_data, clientData);
}

/** A registration to verify, in the form of `passkey_registration_call`. */
export function registrationImage(of, session, response, { rawId, isRegistered, isFull }) {
  const image = new Image(REGISTRATION_CALL.sizeOf);
  party(image, REGISTRATION_CALL.party, of);
  image.flag(REGISTRATION_CALL.accept_none, of.acceptNone);
  image.flag(REGISTRATION_CALL.accept_self, of.acceptSelf);
  if (session !== null) {
    const at = REGISTRATION_CALL.session;
    image.flag(REGISTRATION_CALL.has_session, true);
    image.lend(at + REGISTRATION_SESSION.challenge, session.challenge);
    image.lend(at + REGISTRATION_SESSION.user, session.user);
    image.flag(at + REGISTRATION_SESSION.user_verification, session.userVerification);
    image.flag(at + REGISTRATION_SESSION.offers_es256, session.algorithms.includes(ES256));
    image.flag(at + REGISTRATION_SESSION.offers_eddsa, session.algorithms.includes(EDDSA));
    image.flag(at + REGISTRATION_SESSION.offers_rs256, session.algorithms.includes(RS256));
    image.flag(at + REGISTRATION_SESSION.conditional, session.conditional);
    image.flag(at + REGISTRATION_SESSION.attestation, session.attestation);
  }
  registrationResponse(image, REGISTRATION_CALL.response, response);
  image.flag(REGISTRATION_CALL.is_free, !isRegistered);
  image.lend(REGISTRATION_CALL.raw_id, rawId);
  image.flag(REGISTRATION_CALL.is_full, isFull);
  return image;
}

/** A sign-in to verify, in the form of `passkey_assertion_call`. */
export function assertionImage(of, session, credential, response) {
  const image = new Image(ASSERTION_CALL.sizeOf);
  party(image, ASSERTION_CALL.party, of);
  if (session !== null) {
    const at = ASSERTION_CALL.session;
    image.flag(ASSERTION_CALL.has_session, true);
    image.lend(at + SIGN_IN_SESSION.challenge, session.challenge);
    image.flag(at + SIGN_IN_SESSION.user_verification, session.userVerification);
    image.flag(at + SIGN_IN_SESSION.has_user, session.user !== null);
    if (session.user !== null) image.lend(at + SIGN_IN_SESSION.user, session.user);
    image.lendList(at + SIGN_IN_SESSION.allow, at + SIGN_IN_SESSION.allow_count, session.allow);
  }
  if (credential !== null) {
    const at = ASSERTION_CALL.credential;
    image.flag(ASSERTION_CALL.has_credential, true);
    image.lend(at + CREDENTIAL.id, credential.id);
    image.lend(at + CREDENTIAL.user, credential.user);
    key(image, at + CREDENTIAL.key, credential);
    image.u32(at + CREDENTIAL.sign_count, credential.signCount);
    image.flag(at + CREDENTIAL.is_eligibility_known, credential.eligible !== null);
    image.flag(at + CREDENTIAL.eligible, credential.eligible);
    image.flag(at + CREDENTIAL.retired, credential.retired);
  }
  assertionResponse(image, ASSERTION_CALL.response, response);
  return image;
}

/** Adds the signature that was found to be valid. */
export function handIn(image, isRegistration, signature) {
  const call = isRegistration ? REGISTRATION_CALL : ASSERTION_CALL;
  image.flag(call.has_verified, true);
  verified(image, call.verified, signature);
}

function keyIn(room, at) {
  return {
    algorithm: room.i32(at + KEY_OUT.algorithm),
    x: room.copy(at + KEY_OUT.x, room.u32(at + KEY_OUT.x_size)),
    y: room.copy(at + KEY_OUT.y, room.u32(at + KEY_OUT.y_size)),
  };
}

function flagsIn(room, out) {
  return {
    signCount: room.u32(out.sign_count),
    eligible: room.u8(out.eligible) !== 0,
    backedUp: room.u8(out.backed_up) !== 0,
    userVerified: room.u8(out.user_verified) !== 0,
    flags: room.u8(out.flags),
    extensionsSize: room.u32(out.extensions_size),
  };
}

function registeredIn(room) {
  const out = REGISTRATION_OUT;
  return {
    ...flagsIn(room, out),
    id: room.copy(out.id, room.u32(out.id_size)),
    ...keyIn(room, out.key),
    aaguid: room.copy(out.aaguid, 16),
    format: FORMATS[room.u32(out.format)],
  };
}

function judge(module, name, image, out, read) {
  const [at, behind] = module.place(image, out.sizeOf);
  const answer = module.call(name, BigInt(at), BigInt(behind));
  return { at, answer, asked: null, told: answer === ACCEPTED ? read(new Room(module, behind), out) : null };
}

/** The answer to a registration, its results if it is accepted, and where the call is in memory. */
export function judgeRegistration(module, image) {
  return judge(module, "passkey_registration", image, REGISTRATION_OUT, registeredIn);
}

/** The same for a sign-in. */
export function judgeAssertion(module, image) {
  return judge(module, "passkey_assertion", image, ASSERTION_OUT, flagsIn);
}

// The answer, and the signature to verify; null if there is none. `fill` copies parts of an earlier call, with their pointers, into this
// one: the pointers still hold. No part that is lent has more bytes than `size`.
function asked(module, size, fill) {
  const out = SIGNATURE_CALL.sizeOf, message = out + SIGNATURE_OUT.sizeOf, signature = message + size + 32;
  const at = module.take(signature + size), bytes = module.bytes();
  bytes.fill(0, at, at + out);
  fill(bytes, at);
  const answer = module.call("passkey_signature_asked", BigInt(at), BigInt(at + message), BigInt(size + 32), BigInt(at + signature),
                             BigInt(size), BigInt(at + out));
  const room = new Room(module, at);
  if (answer !== ACCEPTED || room.u8(out + SIGNATURE_OUT.is_asked) === 0) return { answer, signature: null };
  const made = keyIn(room, out + SIGNATURE_OUT.key);
  made.message = room.copy(message, room.u32(out + SIGNATURE_OUT.message_size));
  made.signature = room.copy(signature, room.u32(out + SIGNATURE_OUT.signature_size));
  return { answer, signature: made };
}

function copyPart(bytes, to, from, { sizeOf }) {
  bytes.copyWithin(to, from, from + sizeOf);
}

/** The signature to verify for a registration whose call is at this address. */
export function askedOfRegistration(module, call, { profile }, session, response) {
  return asked(module, response.attestationObject.length, (bytes, at) => {
    bytes[at + SIGNATURE_CALL.is_registration] = 1;
    bytes[at + SIGNATURE_CALL.profile] = profile;
    bytes[at + SIGNATURE_CALL.attestation] = session?.attestation ? 1 : 0;
    copyPart(bytes, at + SIGNATURE_CALL.registration, call + REGISTRATION_CALL.response, REGISTRATION_RESPONSE);
  });
}

/** The signature to verify for a sign-in whose call is at this address. */
export function askedOfAssertion(module, call, response) {
  return asked(module, Math.max(response.authData.length, response.signature.length), (bytes, at) => {
    copyPart(bytes, at + SIGNATURE_CALL.assertion, call + ASSERTION_CALL.response, ASSERTION_RESPONSE);
    copyPart(bytes, at + SIGNATURE_CALL.key, call + ASSERTION_CALL.credential + CREDENTIAL.key, KEY);
  });
}

/** The text for an answer; empty if it has none. */
export function refusalText(module, isRegistration, answer) {
  return module.within(() => {
    const at = module.take(MOST_OF_A_TEXT);
    const size = module.call("passkey_refusal_text", Number(isRegistration), answer, BigInt(at), BigInt(MOST_OF_A_TEXT));
    return String.fromCharCode(...new Room(module, at).copy(0, Number(size)));
  });
}

/** Throws the error for an answer; does nothing if it is an acceptance. */
export function checkAnswer(module, isRegistration, answer) {
  if (answer === ACCEPTED) return;
  if (answer === NO_MEMORY) throw new NoMemory();
  const text = refusalText(module, isRegistration, answer);
  if (answer < FIRST_LIMIT) throw new Refused(isRegistration, answer, text);
  throw new BadInput(text, answer);
}

/** Whether the bytes are exactly one value in canonical CBOR (CTAP 2.1). */
export function isCanonical(module, value) {
  return module.within(() => module.call("passkey_is_canonical", BigInt(module.lend(value)), BigInt(value.length)) !== 0);
}

/** The algorithm, x and y of COSE_Key bytes (RFC 9052, section 7); null if they are not a key in canonical CBOR. */
export function keyFromCose(module, value) {
  return module.within(() => {
    const at = module.lend(value), out = module.take(KEY_OUT.sizeOf);
    const is = module.call("passkey_key_from_cose", BigInt(at), BigInt(value.length), BigInt(out));
    return is === 0 ? null : keyIn(new Room(module, out), 0);
  });
}

/** COSE_Key bytes; empty if the key is out of its limits, or there was no memory. */
export function keyToCose(module, parts) {
  return module.within(() => {
    const image = new Image(KEY.sizeOf);
    key(image, 0, parts);
    const [at, behind] = module.place(image, MOST_OF_A_COSE_KEY);
    image.end();
    const size = module.call("passkey_key_to_cose", BigInt(at), BigInt(behind), BigInt(MOST_OF_A_COSE_KEY));
    return new Room(module, behind).copy(0, Number(size));
  });
}
