// The server's calls of SimpleWebAuthn 13 over the proved steps, so that a site moves over by changing one import. docs/COMING.md says what
// SimpleWebAuthn accepts and the steps refuse.
import { randomBytes } from "node:crypto";
import { RegistrationSession, Server, SignInSession, coseKeyOf, credentialFromCose } from "./index.js";
import { BadInput, Refused } from "./errors.js";
import { fromText, toText, uuidOf } from "./forms.js";
import { ALGORITHMS, checkBytes, checkFlag, checkText, checkUser, checkWhole, optionsIn, shown } from "./limits.js";
import { userVerificationOf } from "./options.js";

const CHALLENGE = 32;
const TIMEOUT = 60_000;
const ATTACHMENTS = { securityKey: "cross-platform", localDevice: "platform", remoteDevice: "cross-platform" };
const HINTS = { securityKey: "security-key", localDevice: "client-device", remoteDevice: "hybrid" };
// The steps at which another rp id of a list may still match the response, and those for a signature that is not valid.
const OTHER_RP_ID = ["G8", "W11"];
const NOT_VALID = ["G13", "W14"];
const ANY_USER = new Uint8Array(1);

export const supportedCOSEAlgorithmIdentifiers = ALGORITHMS;

// The caller's challenge, as bytes or as a text in UTF-8; a new one if there is none.
function challengeOf(challenge) {
  const bytes = challenge === undefined ? randomBytes(CHALLENGE) : typeof challenge === "string" ? new TextEncoder().encode(challenge) : checkBytes(challenge, "challenge");
  if (bytes.length !== CHALLENGE) throw new BadInput(`challenge has ${bytes.length} bytes: write ${CHALLENGE} random ones, or none`);
  return toText(bytes);
}

function listed(credentials, what) {
  if (!Array.isArray(credentials)) throw new BadInput(`${what} is ${shown(credentials)}: write an array`);
  return credentials.map(({ id, transports }) => ({ id: toText(fromText(id, `an id of ${what}`)), type: "public-key", ...(transports === undefined ? {} : { transports }) }));
}

function attachmentOf(preferred) {
  if (preferred === undefined) return { hints: [], selection: {} };
  if (!Object.hasOwn(HINTS, preferred)) throw new BadInput(`preferredAuthenticatorType is ${shown(preferred)}: write ${Object.keys(HINTS).join(", ")}`);
  return { hints: [HINTS[preferred]], selection: { authenticatorAttachment: ATTACHMENTS[preferred] } };
}

const OF_REGISTRATION = ["rpName", "rpID", "userName", "userID", "challenge", "userDisplayName", "timeout", "attestationType", "excludeCredentials", "authenticatorSelection", "extensions",
                         "supportedAlgorithmIDs", "preferredAuthenticatorType"];

/** PublicKeyCredentialCreationOptionsJSON. */
export async function generateRegistrationOptions(options) {
  const { rpName, rpID, userName, userID = randomBytes(CHALLENGE), challenge, userDisplayName = "", timeout = TIMEOUT, attestationType = "none", excludeCredentials = [],
          authenticatorSelection = { residentKey: "preferred", userVerification: "preferred" }, extensions, supportedAlgorithmIDs = ALGORITHMS, preferredAuthenticatorType } =
    optionsIn(options, "generateRegistrationOptions", OF_REGISTRATION);
  const { hints, selection } = attachmentOf(preferredAuthenticatorType), { residentKey = "preferred", userVerification = "preferred", ...more } = authenticatorSelection;
  return {
    challenge: challengeOf(challenge), rp: { name: checkText(rpName, "rpName"), id: checkText(rpID, "rpID") },
    user: { id: toText(checkUser(userID)), name: checkText(userName, "userName"), displayName: checkText(userDisplayName, "userDisplayName") },
    pubKeyCredParams: algorithmsOf(supportedAlgorithmIDs).map((alg) => ({ alg, type: "public-key" })), timeout: checkWhole(timeout, "timeout", 1),
    attestation: checkText(attestationType, "attestationType"), excludeCredentials: listed(excludeCredentials, "excludeCredentials"),
    authenticatorSelection: { ...more, residentKey, requireResidentKey: residentKey === "required", userVerification, ...selection }, extensions: { ...extensions, credProps: true }, hints,
  };
}

/** PublicKeyCredentialRequestOptionsJSON. */
export async function generateAuthenticationOptions(options) {
  const { rpID, allowCredentials, challenge, timeout = TIMEOUT, userVerification = "preferred", extensions } =
    optionsIn(options, "generateAuthenticationOptions", ["rpID", "allowCredentials", "challenge", "timeout", "userVerification", "extensions"]);
  return { rpId: checkText(rpID, "rpID"), challenge: challengeOf(challenge), allowCredentials: allowCredentials && listed(allowCredentials, "allowCredentials"),
           timeout: checkWhole(timeout, "timeout", 1), userVerification: checkText(userVerification, "userVerification"), extensions };
}

// The items of the list that the steps know, in its order.
function algorithmsOf(ids) {
  const found = Array.isArray(ids) ? ids.filter((id) => ALGORITHMS.includes(id)) : [];
  if (found.length === 0) throw new BadInput(`supportedAlgorithmIDs has none of ${ALGORITHMS.join(", ")}`);
  return found;
}

function seen(response) {
  try {
    return JSON.parse(new TextDecoder("utf-8", { fatal: true }).decode(fromText(response.response.clientDataJSON, "clientDataJSON")));
  } catch (error) {
    throw error instanceof BadInput ? error : new BadInput("clientDataJSON is not JSON", 0);
  }
}

// The expected challenge, as bytes: if the caller gives a function, the response's challenge once the function returns true.
async function expectedChallengeOf(expected, response) {
  if (typeof expected !== "function") return fromText(expected, "expectedChallenge");
  const { challenge } = seen(response), isExpected = await expected(checkText(challenge, "the response's challenge"));
  if (!checkFlag(isExpected, "what expectedChallenge answered")) throw new BadInput("expectedChallenge answered false");
  return fromText(challenge, "the response's challenge");
}

// A list of one text or more.
function textsOf(value, what) {
  const texts = Array.isArray(value) ? value : [value];
  if (texts.length === 0) throw new BadInput(`${what} is empty: write one or more`);
  return texts.map((text) => checkText(text, what));
}

// The result of `judge` for the first rp id that is the response's; the origins are those that a page of it may have.
async function judgedBy(expectedRPID, expectedOrigin, judge) {
  const ids = textsOf(expectedRPID, "expectedRPID"), origins = textsOf(expectedOrigin, "expectedOrigin");
  for (const [at, rpID] of ids.entries()) {
    try {
      return await judge(new Server(rpID, origins), rpID);
    } catch (error) {
      const mayBeAnother = error instanceof Refused && OTHER_RP_ID.includes(error.name) && at < ids.length - 1;
      if (!mayBeAnother) throw error;
    }
  }
}

// What both results have of an acceptance.
function accepted({ userVerified, backedUp, credential }, rpID, response) {
  return { userVerified, credentialDeviceType: credential.eligible ? "multiDevice" : "singleDevice", credentialBackedUp: backedUp, origin: seen(response).origin, rpID };
}

function checkType(expectedType, type) {
  if (expectedType !== undefined && !textsOf(expectedType, "expectedType").includes(type)) throw new BadInput(`expectedType is ${shown(expectedType)}: write ${type}`);
}

const OF_RESPONSE = ["response", "expectedChallenge", "expectedOrigin", "expectedRPID", "expectedType", "requireUserVerification"];

/** Verifies a registration: `{ verified, registrationInfo }`. Throws `Refused` and `BadInput`; `verified` is false if the attestation's
 *  signature is not valid. */
export async function verifyRegistrationResponse(options) {
  const { response, expectedChallenge, expectedOrigin, expectedRPID, expectedType, requireUserVerification = true, requireUserPresence = true, supportedAlgorithmIDs = ALGORITHMS,
          attestationType = "none", attestationSafetyNetEnforceCTSCheck } =
    optionsIn(options, "verifyRegistrationResponse", [...OF_RESPONSE, "requireUserPresence", "supportedAlgorithmIDs", "attestationType", "attestationSafetyNetEnforceCTSCheck"]);
  checkType(expectedType, "webauthn.create");
  if (attestationSafetyNetEnforceCTSCheck !== undefined) checkFlag(attestationSafetyNetEnforceCTSCheck, "attestationSafetyNetEnforceCTSCheck");
  const session = new RegistrationSession({
    challenge: await expectedChallengeOf(expectedChallenge, response), user: ANY_USER, userVerification: checkFlag(requireUserVerification, "requireUserVerification"),
    algorithms: algorithmsOf(supportedAlgorithmIDs), conditional: !checkFlag(requireUserPresence, "requireUserPresence"), attestation: attestationType !== "none",
  });
  try {
    return await judgedBy(expectedRPID, expectedOrigin, async (server, rpID) => {
      const registered = await server.registerComplete(session, response, { isRegistered: () => false }), { credential, format, aaguid } = registered;
      const { id, signCount, transports } = credential;
      return { verified: true, registrationInfo: {
        fmt: format, aaguid: uuidOf(aaguid), credential: { id: toText(id), publicKey: coseKeyOf(credential), counter: signCount, transports }, credentialType: "public-key",
        attestationObject: fromText(response.response.attestationObject, "attestationObject"), ...accepted(registered, rpID, response),
      } };
    });
  } catch (error) {
    if (error instanceof Refused && NOT_VALID.includes(error.name)) return { verified: false };
    throw error;
  }
}

// The caller's credential, and the session's user: if the user handle is known, it is checked; otherwise it is not looked at.
function storedOf(credential, response) {
  const { id, publicKey, counter, webauthnUserID } = Object(credential), handle = response?.response?.userHandle ?? null;
  const user = webauthnUserID !== undefined ? fromText(webauthnUserID, "webauthnUserID") : handle !== null ? fromText(handle, "userHandle") : ANY_USER;
  const coseKey = checkBytes(publicKey, "publicKey of the credential");
  return { user, stored: credentialFromCose({ id: fromText(id, "id of the credential"), user, signCount: counter, coseKey }) };
}

/** Verifies a sign-in: `{ verified, authenticationInfo }`. Throws `Refused` and `BadInput`; `verified` is false if the signature is not
 *  valid. */
export async function verifyAuthenticationResponse(options) {
  const { response, expectedChallenge, expectedOrigin, expectedRPID, expectedType, requireUserVerification = true, credential, advancedFIDOConfig } =
    optionsIn(options, "verifyAuthenticationResponse", [...OF_RESPONSE, "credential", "advancedFIDOConfig"]);
  checkType(expectedType, "webauthn.get");
  const { userVerification } = optionsIn(advancedFIDOConfig, "advancedFIDOConfig", ["userVerification"]);
  const isRequired = userVerification === undefined ? checkFlag(requireUserVerification, "requireUserVerification") : userVerificationOf(userVerification) === "required";
  const { user, stored } = storedOf(credential, response);
  const session = new SignInSession({ challenge: await expectedChallengeOf(expectedChallenge, response), user, userVerification: isRequired });
  const infoOf = (counter, more) => ({ newCounter: counter, credentialID: toText(stored.id), ...more });
  try {
    return await judgedBy(expectedRPID, expectedOrigin, async (server, rpID) => {
      const signedIn = await server.authenticateComplete(session, response, { credential: () => stored });
      return { verified: true, authenticationInfo: infoOf(signedIn.credential.signCount, accepted(signedIn, rpID, response)) };
    });
  } catch (error) {
    if (error instanceof Refused && NOT_VALID.includes(error.name)) return { verified: false, authenticationInfo: infoOf(stored.signCount, {}) };
    throw error;
  }
}
