// The bytes that each step looks at: what the response says beside what is expected. They are shown, and judge nothing.
import { hexOf } from "./cbor.mjs";
import { algorithmText } from "./decoded.mjs";

const NOT_THERE = "not there";

// A value of JSON in one spelling, in which letters that look alike do not.
function jsonText(value) {
  if (value === undefined) return NOT_THERE;
  return JSON.stringify(value).replace(/[^\x20-\x7e]/g, (letter) => `\\u${letter.charCodeAt(0).toString(16).padStart(4, "0")}`);
}

const text = (of, value) => ({ of, text: value, hex: null });
const json = (of, value) => text(of, jsonText(value));
const bytes = (of, value) => ({ of, text: value === null ? NOT_THERE : null, hex: value === null ? null : hexOf(value) });
const number = (of, value) => ({ of, text: String(value), hex: value === null ? null : value.toString(16).padStart(8, "0") });
const flags = (of, { auth }) => ({ of, text: auth.flags === null ? NOT_THERE : auth.flags.text, hex: auth.flags?.hex ?? null });

function said(name, { clientData }) {
  return json(`the client data's ${name}`, clientData.members?.[name]);
}

function listed(of, values) {
  return values.length === 0 ? [text(of, "none")] : values.map((value) => (value instanceof Uint8Array ? bytes(of, value) : json(of, value)));
}

const session = ({ given }) => [text("the session", given.session === null ? "none is open" : "open, for this kind of response")];
const readable = ({ parts }) => [bytes("clientDataJSON", parts.clientDataJSON)];
const type = (wanted) => (facts) => [said("type", facts), json("expected", wanted)];
const challenge = (facts) => [said("challenge", facts), json("the session's", facts.challenge)];
const origin = (facts) => [said("origin", facts), ...listed("an origin of the site's", facts.given.origins)];
const topOrigin = (facts) => [said("topOrigin", facts), ...listed("a top origin that may frame the site", facts.given.topOrigins)];
const frames = (facts) => [said("crossOrigin", facts), ...topOrigin(facts)];
const binding = (facts) => [said("tokenBinding", facts), text("the profile", facts.given.profile)];
const party = (facts) => [bytes("rpIdHash of the authenticator data", facts.auth.rp_id_hash),
                          bytes(`SHA-256 of ${jsonText(facts.given.rpId)}`, facts.rpIdHash)];
const present = (facts) => [flags("the flags of the authenticator data", facts)];
const verified = (facts) => [...present(facts), text("user verification", facts.given.session?.userVerification ? "required" : "not required")];

// What the library asked to be verified, and what was found.
function signature({ asked, parts }, other) {
  if (asked === null) return [bytes("signature", other), text("the verifier", "was not asked")];
  const { algorithm, x, y, message, signature: own, valid } = asked;
  return [text("the key's algorithm", algorithmText(algorithm)), bytes("the key's x", x), ...(y.length === 0 ? [] : [bytes("the key's y", y)]),
          bytes("the message: authenticator data, then SHA-256 of the client data", message),
          bytes("SHA-256 of the client data", message.slice(-32)), bytes("clientDataJSON", parts.clientDataJSON), bytes("the signature", own),
          text("the verifier", valid ? "the signature is valid" : "the signature is not valid")];
}

const REGISTRATION = {
  SessionNotOpen: session,
  UnreadableClientData: readable,
  WrongType: type("webauthn.create"),
  WrongChallenge: challenge,
  WrongOrigin: origin,
  CrossOrigin: frames,
  WrongTopOrigin: topOrigin,
  TokenBinding: binding,
  BadAttestationObject: ({ parts }) => [bytes("attestationObject", parts.attestationObject)],
  WrongRelyingParty: party,
  UserNotPresent: (facts) => [...present(facts), text("the session", facts.given.session?.conditional ? "begun as conditional" : "not begun as conditional")],
  UserNotVerified: verified,
  AlgorithmNotOffered: ({ auth, given }) => [
    text("the key's algorithm", auth.attested?.key.algorithm ?? NOT_THERE),
    text("offered", given.session === null ? NOT_THERE : given.session.algorithms.map(algorithmText).join(", ")),
  ],
  OtherId: ({ auth, parts }) => [bytes("rawId", parts.rawId), bytes("the attested credential's id", auth.attested?.id ?? null)],
  UnknownFormat: ({ attestation, given }) => [
    text("the format", attestation.format ?? NOT_THERE), text("an attestation", given.session?.attestation ? "was asked for" : "was not asked for"),
  ],
  BadStatement: (facts) => [
    text("the format", facts.attestation.format ?? NOT_THERE), text("the statement", facts.attestation.statement ?? NOT_THERE),
    ...signature(facts, facts.attestation.signature),
  ],
  AttestationNotAccepted: ({ given, attestation }) => [
    text("the format", attestation.format ?? NOT_THERE), text("the site accepts no attestation", given.acceptNone ? "yes" : "no"),
    text("the site accepts self attestation", given.acceptSelf ? "yes" : "no"),
  ],
  CredentialRegistered: ({ given, parts }) => [
    bytes("the id", parts.rawId), text("a credential with this id", given.registered ? "is registered" : "is not registered"),
  ],
  TableFull: ({ given }) => [text("room for another credential", given.full ? "none" : "there is room")],
};

const SIGN_IN = {
  SessionNotOpen: session,
  CredentialNotAllowed: ({ parts, given }) => [bytes("rawId", parts.rawId), ...listed("a credential that the session allows", given.session?.allow ?? [])],
  UnknownCredential: ({ parts, given: { credential } }) => [
    bytes("rawId", parts.rawId), bytes("the row's id", credential?.id ?? null),
    text("the row", credential === null ? "none" : credential.retired ? "retired" : "not retired"),
  ],
  OtherUser: ({ parts, given: { credential, session: begun } }) => [
    bytes("the session's user handle", begun?.user ?? null), bytes("the response's user handle", parts.userHandle),
    bytes("the row's user handle", credential?.user ?? null),
  ],
  UnreadableClientData: readable,
  WrongType: type("webauthn.get"),
  WrongChallenge: challenge,
  WrongOrigin: origin,
  CrossOrigin: frames,
  WrongTopOrigin: topOrigin,
  TokenBinding: binding,
  BadAuthenticatorData: (facts) => [bytes("authenticatorData", facts.parts.authenticatorData), flags("the flags", facts)],
  WrongRelyingParty: party,
  UserNotPresent: present,
  UserNotVerified: verified,
  BadSignature: (facts) => signature(facts, facts.parts.signature),
  CounterNotGreater: ({ auth, given: { credential } }) => [
    number("the counter received", auth.sign_count), number("the counter stored", credential?.signCount ?? null),
  ],
  EligibilityChanged: (facts) => [
    flags("the flags of the authenticator data", facts),
    text("the row", facts.given.credential === null || facts.given.credential.eligible === null ? "it is not known whether it was eligible (BE)"
      : facts.given.credential.eligible ? "it was eligible (BE)" : "it was not eligible (BE)"),
  ],
};

/** What a step of this name looks at, as texts and as digits; nothing of a step that stands in neither table. */
export function comparedAt(name, facts) {
  const table = facts.kind === "registration" ? REGISTRATION : SIGN_IN;
  return Object.hasOwn(table, name) ? table[name](facts) : [];
}
