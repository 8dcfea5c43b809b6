// The options of a relying party and of its calls, and those for a page: PublicKeyCredentialCreationOptionsJSON and
// PublicKeyCredentialRequestOptionsJSON (WebAuthn Level 3, section 5.1).
import { BadInput } from "./errors.js";
import { descriptor, toText } from "./forms.js";
import { PROFILES, checkFlag, checkFunction, checkOneOf, checkOrigins, checkText, checkWhole, optionsIn, ownOf, shown } from "./limits.js";

const REQUIREMENTS = [true, false, "required", "preferred", "discouraged"];
const ATTACHMENTS = ["platform", "cross-platform"];
const ATTESTATIONS = ["none", "indirect", "direct", "enterprise"];
const HINTS = ["security-key", "client-device", "hybrid"];
const OF_BOTH = ["userVerification", "timeout", "hints", "extensions"];
const OF_REGISTRATION = ["displayName", "exclude", "algorithms", "residentKey", "authenticatorAttachment", "attestation", "conditional", ...OF_BOTH];
const OF_SIGN_IN = ["user", "allow", ...OF_BOTH];
const PARTY = ["rpName", "acceptNone", "acceptSelf", "profile", "topOrigins", "verify"];

/** The options of a relying party, checked, with `isValid` for signatures; a class of servers may have some more. */
export function partyOptionsIn(options, call, { rpId, isValid, more = [] }) {
  const own = optionsIn(options, call, [...PARTY, ...more]);
  const { rpName = rpId, acceptNone = true, acceptSelf = true, profile = "level3", topOrigins = [], verify = isValid } = own;
  if (acceptNone === false && acceptSelf === false) throw new BadInput("acceptNone and acceptSelf are both false: then no attestation is accepted");
  return Object.assign(own, {
    rpName: checkText(rpName, "rpName"), acceptNone: checkFlag(acceptNone, "acceptNone"), acceptSelf: checkFlag(acceptSelf, "acceptSelf"),
    profile: checkOneOf(profile, "profile", PROFILES), topOrigins: checkOrigins(topOrigins, "topOrigins"),
    verify: checkFunction(verify, "verify", "(algorithm, x, y, message, signature) => true or false"),
  });
}

export function registrationOptionsIn(options, more = []) {
  return optionsIn(options, "registerBegin", [...OF_REGISTRATION, ...more]);
}

export function signInOptionsIn(options) {
  return optionsIn(options, "authenticateBegin", OF_SIGN_IN);
}

export function checkAttestation(value) {
  return checkOneOf(value, "attestation", ATTESTATIONS);
}

// True means `required`; a text stands for itself.
function requirementOf(value, what, ifFalse) {
  checkOneOf(value, what, REQUIREMENTS);
  return value === true ? "required" : value === false ? ifFalse : value;
}

/** False means `preferred`. */
export function userVerificationOf(value) {
  return requirementOf(value, "userVerification", "preferred");
}

/** False means `discouraged`. */
export function residentKeyOf(value) {
  return requirementOf(value, "residentKey", "discouraged");
}

// What both kinds may also have: `timeout` in milliseconds, `hints`, and `extensions`, which go to the page unchanged.
function more(how) {
  const { timeout, hints, extensions } = ownOf(how), made = {};
  if (timeout !== undefined) made.timeout = checkWhole(timeout, "timeout, in milliseconds,", 1, 0xffffffff);
  if (hints !== undefined) {
    if (!Array.isArray(hints)) throw new BadInput(`hints is ${shown(hints)}: write an array, as ["hybrid"]`);
    made.hints = hints.map((hint) => checkOneOf(hint, "a hint", HINTS));
  }
  if (extensions !== undefined) {
    if (typeof extensions !== "object" || extensions === null || Array.isArray(extensions))
      throw new BadInput(`extensions is ${shown(extensions)}: write an object, as { credProps: true }`);
    made.extensions = extensions;
  }
  return made;
}

/** The options of a registration. `session` is a `RegistrationSession`. */
export function creationOptions(rp, session, userName, exclude, how) {
  const { userVerification, residentKey, authenticatorAttachment, attestation = "none", displayName } = ownOf(how);
  const authenticatorSelection = {
    residentKey,
    requireResidentKey: residentKey === "required",
    userVerification,
  };
  if (authenticatorAttachment !== undefined)
    authenticatorSelection.authenticatorAttachment = checkOneOf(authenticatorAttachment, "authenticatorAttachment", ATTACHMENTS);
  return {
    rp,
    user: { id: toText(session.user), name: checkText(userName, "userName"), displayName: checkText(displayName ?? userName, "displayName") },
    challenge: toText(session.challenge),
    pubKeyCredParams: session.algorithms.map((alg) => ({ type: "public-key", alg })),
    excludeCredentials: exclude.map(descriptor),
    authenticatorSelection,
    attestation: checkAttestation(attestation),
    ...more(how),
  };
}

/** The options of a sign-in. `session` is a `SignInSession`. */
export function requestOptions(rpId, session, allow, userVerification, how) {
  return {
    challenge: toText(session.challenge),
    rpId,
    allowCredentials: allow.map(descriptor),
    userVerification,
    ...more(how),
  };
}
