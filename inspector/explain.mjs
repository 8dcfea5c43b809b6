// What the library says of one response: the step of WebAuthn, section 7.1 or 7.2, that refuses it, with the bytes that each step looks
// at. The verdict is the library's; what is decoded here is shown beside it.
import { comparedAt } from "./compared.mjs";
import { hexOf } from "./cbor.mjs";
import { attestationOf, authenticatorDataOf, clientDataOf, shallow } from "./decoded.mjs";
import { keyFromSpki } from "./spki.mjs";

export const REGISTRATION = "registration";
export const SIGN_IN = "sign-in";

const PARTS = ["clientDataJSON", "attestationObject", "authenticatorData", "signature", "userHandle"];
const NOTHING = new Uint8Array(0);

function isObject(value) {
  return typeof value === "object" && value !== null && !Array.isArray(value);
}

/** What a response answers; null where it is none. */
export function kindOf(response) {
  const parts = isObject(response) ? response.response : null;
  if (!isObject(parts)) return null;
  if (parts.attestationObject !== undefined) return REGISTRATION;
  return parts.signature === undefined && parts.authenticatorData === undefined ? null : SIGN_IN;
}

// The bytes of a response's members as far as they are base64url; null of the others.
function partsOf(response, library) {
  const read = (text) => {
    try {
      return library.fromText(text);
    } catch {
      return null;
    }
  };
  const parts = { rawId: read(response.rawId) };
  for (const name of PARTS) parts[name] = read(response.response[name]);
  return parts;
}

function registrationSession(session, { RegistrationSession }) {
  return RegistrationSession.fromJSON({ user: "", user_verification: false, algorithms: [-7, -8, -257], ...session });
}

function signInSession(session, { SignInSession }) {
  return SignInSession.fromJSON({ user: null, allow: [], user_verification: false, ...session });
}

// The row of a sign-in, in the names of JSON; its key as COSE_Key bytes, as a browser gives it, or by its numbers.
async function rowOf(row, { BadInput, Credential, credentialFromCose, fromText }) {
  const { id, user = "", cose_key, spki_key, algorithm, x, y = "", sign_count = 0, eligible = null, retired = false } = row;
  const rest = { id: fromText(id, "credential.id"), user: fromText(user, "credential.user"), signCount: sign_count, eligible, retired };
  if (cose_key !== undefined) return credentialFromCose({ ...rest, coseKey: fromText(cose_key, "credential.cose_key") });
  if (spki_key !== undefined) {
    const key = await keyFromSpki(fromText(spki_key, "credential.spki_key"), fromText);
    if (key === null) throw new BadInput("spki_key is not the SubjectPublicKeyInfo of a key of ES256, EdDSA or RS256");
    return new Credential({ ...rest, ...key });
  }
  return new Credential({ ...rest, algorithm, x: fromText(x, "credential.x"), y: fromText(y, "credential.y") });
}

const OF_REGISTRATION = ["challenge", "user", "user_verification", "algorithms", "conditional", "attestation"];
const OF_SIGN_IN = ["challenge", "user", "user_verification", "allow"];
const OF_ROW = ["id", "user", "cose_key", "spki_key", "algorithm", "x", "y", "sign_count", "eligible", "retired"];
const MEMBERS = ["response", "rp_id", "origins", "top_origins", "profile", "accept_none", "accept_self", "session", "registered", "full", "credential"];

function checkNames(value, what, names, { BadInput }) {
  if (!isObject(value)) throw new BadInput(`${what} is no object`);
  for (const name of Object.keys(value)) if (!names.includes(name)) throw new BadInput(`${what} has no member ${name}: it has ${names.join(", ")}`);
}

// What is given beside the response, in the library's own values. Throws `BadInput`.
async function givenIn(input, kind, library) {
  checkNames(input, "what is given", MEMBERS, library);
  const { rp_id, origins, top_origins = [], profile = "level3", accept_none = true, accept_self = true, session = null, registered = false,
          full = false, credential = null } = input;
  if (session !== null) checkNames(session, "session", kind === REGISTRATION ? OF_REGISTRATION : OF_SIGN_IN, library);
  if (credential !== null) checkNames(credential, "credential", OF_ROW, library);
  const begun = session === null ? null : (kind === REGISTRATION ? registrationSession : signInSession)(session, library);
  return { rpId: rp_id, origins, topOrigins: top_origins, profile, acceptNone: accept_none, acceptSelf: accept_self, session: begun, registered, full,
           credential: credential === null || kind === REGISTRATION ? null : await rowOf(credential, library) };
}

// What a server of the library answers, and the signature that it asked to be verified, with what was found.
async function judged(input, kind, given, library) {
  const { rpId, origins, topOrigins, profile, acceptNone, acceptSelf, session } = given;
  let asked = null;
  const verify = async (algorithm, x, y, message, signature) => {
    const valid = await library.isValid(algorithm, x, y, message, signature);
    asked = { algorithm, x, y, message, signature, valid };
    return valid;
  };
  const answer = async () => {
    const server = new library.Server(rpId, origins, { topOrigins, profile, acceptNone, acceptSelf, verify });
    return kind === REGISTRATION
      ? server.registerComplete(session, input.response, { isRegistered: () => given.registered, isFull: given.full })
      : server.authenticateComplete(session, input.response, { credential: () => given.credential });
  };
  return { ...(await answer().then((told) => ({ told }), (error) => ({ error }))), asked };
}

const isTold = (error, { BadInput, NoMemory, RowDamaged }) =>
  error instanceof BadInput || error instanceof NoMemory || error instanceof RowDamaged || error?.name === "NotSupportedError";

// The steps with their states: those before the one that refuses are passed, and those after it not reached.
function statesOf(steps, verdict, number) {
  const failed = verdict === "refused" ? steps.findIndex((step) => step.number === number) : verdict === "accepted" ? steps.length : -1;
  if (verdict === "refused" && failed === -1) throw new Error(`the steps have none of the number ${number}`);
  return steps.map((_, index) => (failed === -1 || index > failed ? "not reached" : index < failed ? "passed" : "failed"));
}

// A value in JSON: bytes as digits.
function inJson(value) {
  if (value instanceof Uint8Array) return hexOf(value);
  if (typeof value === "bigint") return String(value);
  if (Array.isArray(value)) return value.map(inJson);
  return isObject(value) ? Object.fromEntries(Object.entries(value).map(([name, one]) => [name, inJson(one)])) : value;
}

// What is to be stored where the response is accepted, in the form of `credential` of the input.
function storedIn({ credential }, { toText }) {
  const { id, user, algorithm, x, y, signCount, eligible, retired } = credential;
  return { id: toText(id), user: toText(user), algorithm, x: toText(x), y: toText(y), sign_count: signCount, eligible, retired };
}

// What the client says beside the parts that are judged.
function clientOf({ response: { response, ...rest } }, kind, parts) {
  const made = { id: parts.rawId, attachment: shallow(rest.authenticatorAttachment ?? null), transports: shallow(response.transports ?? null),
                 extension_results: shallow(rest.clientExtensionResults ?? null) };
  return kind === REGISTRATION ? made : { ...made, user_handle: parts.userHandle, signature: parts.signature };
}

async function factsOf(input, kind, given, asked, library) {
  const parts = partsOf(input.response, library), isCanonical = (value) => library.isCanonical(value);
  const attestation = kind === REGISTRATION ? attestationOf(parts.attestationObject ?? NOTHING, isCanonical) : null;
  const authData = (kind === REGISTRATION ? attestation.auth_data : parts.authenticatorData) ?? NOTHING;
  return {
    kind, given, asked, parts, attestation, clientData: clientDataOf(parts.clientDataJSON ?? NOTHING), auth: authenticatorDataOf(authData, isCanonical),
    challenge: given === null || given.session === null ? undefined : library.toText(given.session.challenge),
    rpIdHash: given === null ? null : new Uint8Array(await crypto.subtle.digest("SHA-256", new TextEncoder().encode(given.rpId))),
  };
}

const NO_RESPONSE = Object.freeze({
  kind: null, verdict: "not judged", refusal: null, credential: null, decoded: null, steps: [],
  fault: "this is no response of a registration or a sign-in: its member response has neither attestationObject nor signature",
});

// What stands in the response, in values of JSON.
function decodedIn(input, kind, { parts, clientData, auth, attestation }) {
  return inJson({ client: clientOf(input, kind, parts), client_data: clientData, authenticator_data: auth, attestation });
}

// The steps as they are told, with what each looks at where there is a verdict.
function stepsTold(steps, verdict, number, facts) {
  const states = statesOf(steps, verdict, number);
  return steps.map(({ text, ...step }, index) => {
    const { code, name, standard, asks, when, advice } = step, bytes = verdict === "not judged" ? [] : comparedAt(name, facts);
    return { number: step.number, code, name, standard, asks, state: states[index], refusal: text, when, advice, bytes };
  });
}

/** What is told of a response, as values of JSON. `input` has `response`, `rp_id`, `origins`, `session`, of a sign-in `credential`, and more
 *  where it is not as usual; `library` is of `libraryOf`, `steps` of `stepsInPages`. Told are `kind`, `verdict` (accepted, refused, or not judged,
 *  and then `fault` says why), `refusal`, `steps`, each with `number`, `name`, `asks`, `state` (passed, failed or not reached) and `bytes`,
 *  which are `of` what, as `text` or in `hex`; `credential`, which is to be stored; and what is `decoded`. */
export async function explain(input, library, steps) {
  const kind = kindOf(isObject(input) ? input.response : null);
  if (kind === null) return NO_RESPONSE;
  let given = null, result;
  try {
    given = await givenIn(input, kind, library);
    result = await judged(input, kind, given, library);
  } catch (error) {
    result = { error, asked: null };
  }
  const { told = null, error = null, asked } = result, isRefused = error instanceof library.Refused;
  if (error !== null && !isRefused && !isTold(error, library)) throw error;
  const verdict = told !== null ? "accepted" : isRefused ? "refused" : "not judged", facts = await factsOf(input, kind, given, asked, library);
  return {
    kind, verdict, fault: verdict === "not judged" ? error.message : null, steps: stepsTold(steps[kind], verdict, error?.number, facts),
    refusal: isRefused ? { number: error.number, code: error.name, name: error.step, text: error.text } : null,
    credential: told === null ? null : storedIn(told, library), decoded: decodedIn(input, kind, facts),
  };
}
