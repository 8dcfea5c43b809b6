// The limits of a relying party and its sessions. A value out of its limits is refused with `BadInput` at once, and not at each visitor's
// response.
import { BadInput } from "./errors.js";

export const ES256 = -7;
export const EDDSA = -8;
export const RS256 = -257;
export const ALGORITHMS = Object.freeze([ES256, EDDSA, RS256]);

/** The greatest number of credential ids in a list. Browsers accept no longer one. */
export const MAX_LIST = 64;
/** The same for a `StoredServer` with the profile `strict`. */
export const MAX_STRICT_LIST = 8;
/** The greatest total size, in bytes, of the ids listed if a site gives no list, so that a line has room for them. */
const MAX_OWN = 32_768;
/** The greatest length of a user handle, in bytes (WebAuthn Level 2, section 5.4.3). */
export const MAX_USER = 64;
/** The greatest length of a credential id, in bytes (WebAuthn Level 2, section 4). */
export const MAX_ID = 1023;

/** The greatest signature counter (WebAuthn Level 2, section 6.1). */
export const MAX_COUNT = 0xffffffff;

/** How many seconds a visitor stays signed in by default. */
export const SIGNED_IN_FOR = 14 * 24 * 3600;

/** How a credential is attested, in the order of the library's numbers. */
export const FORMATS = Object.freeze(["none", "packed"]);

/** Which responses a relying party accepts, in the order of the library's numbers. */
export const PROFILES = Object.freeze(["strict", "open", "level3"]);

const DOMAIN = /^[a-z0-9_](?:[a-z0-9_-]*[a-z0-9_])?(?:\.[a-z0-9_](?:[a-z0-9_-]*[a-z0-9_])?)*$/;
const ORIGIN = /^([a-z][a-z0-9+.-]*):\/\/([a-z0-9._-]+|\[[0-9a-f:]+\])(?::([1-9][0-9]{0,4}))?$/;
const ANDROID = /^android:apk-key-hash:[A-Za-z0-9_-]+$/;
const DEFAULT_PORTS = { https: "443", http: "80" };
const TRANSPORT = /^[a-z0-9-]{1,32}$/;
const MAX_TRANSPORTS = 16;
const NO_ALGORITHMS = "algorithms are ES256 (-7), EDDSA (-8) and RS256 (-257)";

// The kind of typed array that a value is, from any realm; undefined for any other value.
const kindOfArray = Object.getOwnPropertyDescriptor(Object.getPrototypeOf(Uint8Array.prototype), Symbol.toStringTag).get;

export function isBytes(value) {
  return kindOfArray.call(value) === "Uint8Array";
}

/** What is excluded if a site gives no list: the first of an account's credentials, as many as a list of this length and a line have room
 *  for. */
export function fitting(rows, most = MAX_LIST) {
  let size = 0;
  return rows.slice(0, most).filter(({ id }) => (size += id.length) <= MAX_OWN);
}

/** What is listed if a site gives no list: all of an account's credentials, or none, so that any of them may answer. */
export function allowed(rows, most = MAX_LIST) {
  return fitting(rows, most).length === rows.length ? rows : [];
}

/** A value in the form that errors show. */
export function shown(value) {
  if (typeof value === "string") return JSON.stringify(value.length > 40 ? `${value.slice(0, 40)}..` : value);
  if (["undefined", "boolean", "number"].includes(typeof value) || value === null) return String(value);
  return typeof value === "object" ? "an object" : `a ${typeof value}`;
}

function either(texts) {
  const listed = texts.map((text) => JSON.stringify(text));
  return listed.length === 1 ? listed[0] : `${listed.slice(0, -1).join(", ")} or ${listed.at(-1)}`;
}

/** The members that a value has itself, without any that another program added to Object.prototype. */
export function ownOf(value) {
  return Object.assign(Object.create(null), value);
}

/** The options with these names that a call was given itself. */
export function optionsIn(options, call, names) {
  if (options !== undefined && (typeof options !== "object" || options === null || Array.isArray(options)))
    throw new BadInput(`the options of ${call} are ${shown(options)}: write an object, as { ${names[0]}: .. }`);
  const own = ownOf(options);
  for (const name of Object.keys(own))
    if (!names.includes(name)) throw new BadInput(`${call} has no option ${shown(name)}: write ${names.join(", ")}`);
  return own;
}

/** A member of a value from the host, its own or its class's. */
export function memberOf(value, name) {
  const found = value[name];
  return found === Object.prototype[name] && !Object.hasOwn(value, name) ? undefined : found;
}

export function checkFlag(value, what) {
  if (typeof value !== "boolean") throw new BadInput(`${what} is ${shown(value)}: write true or false`);
  return value;
}

export function checkFunction(value, what, as) {
  if (typeof value !== "function") throw new BadInput(`${what} is ${shown(value)}: write a function, as ${what}: ${as}`);
  return value;
}

export function checkText(value, what) {
  if (typeof value !== "string") throw new BadInput(`${what} is ${shown(value)}: write a text`);
  return value;
}

export function checkWhole(value, what, least, most = Number.MAX_SAFE_INTEGER) {
  if (!Number.isSafeInteger(value) || value < least || value > most)
    throw new BadInput(`${what} is ${shown(value)}: write a whole number from ${least} ${most === Number.MAX_SAFE_INTEGER ? "on" : `to ${most}`}`);
  return value;
}

// A domain as browsers write it: 1 to 253 characters, and not an IP address (WebAuthn Level 2, section 4).
function checkRpId(rpId) {
  if (typeof rpId === "string" && /^[a-z]+:\/\//i.test(rpId)) throw new BadInput(`the rp id is ${shown(rpId)}: write its domain alone, as "example.com"`);
  if (typeof rpId === "string" && /:[0-9]*$/.test(rpId))
    throw new BadInput(`the rp id is ${shown(rpId)}, with a port: write the domain alone, as "localhost", and the port in an origin, as "http://localhost:8080"`);
  if (typeof rpId !== "string" || rpId.length > 253 || !DOMAIN.test(rpId))
    throw new BadInput(`the rp id is ${shown(rpId)}: write a domain in lower case, as "example.com"`);
  if (/^[0-9]+$/.test(rpId.split(".").at(-1))) throw new BadInput("the rp id is an IP address");
}

// The host of an origin as browsers write it (RFC 6454, section 6.2); empty for an app's.
function hostOf(origin) {
  if (typeof origin !== "string") throw new BadInput(`an origin is ${shown(origin)}: write a text, as "https://example.com"`);
  if (ANDROID.test(origin)) return "";
  const found = ORIGIN.exec(origin);
  if (found === null) throw new BadInput(`'${origin}' is not an origin in lower case and without a path, as https://example.com`);
  const [, scheme, host, port] = found, usual = Object.hasOwn(DEFAULT_PORTS, scheme) ? DEFAULT_PORTS[scheme] : null;
  if (port !== undefined && (Number(port) > 65_535 || port === usual))
    throw new BadInput(`'${origin}' has a port that browsers do not write`);
  return usual === null ? "" : host;
}

/** Checks the origins of a relying party. If there are web origins, the host of at least one is the rp id or ends in it. */
export function checkParty(rpId, origins) {
  checkRpId(rpId);
  if (!Array.isArray(origins) || origins.length === 0) throw new BadInput(`origins is ${shown(origins)}: write a list of one text or more, as ["https://example.com"]`);
  const listed = [...origins], hosts = listed.map(hostOf).filter((host) => host !== "");
  if (hosts.length > 0 && !hosts.some((host) => host === rpId || host.endsWith("." + rpId)))
    throw new BadInput(`the rp id ${rpId} is neither the host of an origin nor what it ends in, as of https://${rpId} or https://www.${rpId}`);
  return Object.freeze(listed);
}

/** Checks origins of pages other than the site's: those of `topOrigins` may have it in a frame (WebAuthn Level 3, section 5.8.1,
 *  `topOrigin`). */
export function checkOrigins(value, what) {
  if (!Array.isArray(value)) throw new BadInput(`${what} is ${shown(value)}: write a list of texts, as ["https://example.com"]`);
  value.forEach(hostOf);
  return Object.freeze([...value]);
}

/** A copy of bytes, which the host can no longer change. */
export function checkBytes(value, what) {
  if (!isBytes(value)) throw new BadInput(`${what} is ${shown(value)}, and not a Uint8Array: fromText reads base64url, new Uint8Array(..) an ArrayBuffer`);
  return new Uint8Array(value);
}

export function checkUser(user) {
  const bytes = checkBytes(user, "a user handle");
  if (bytes.length < 1 || bytes.length > MAX_USER) throw new BadInput(`a user handle has 1 to ${MAX_USER} bytes`);
  return bytes;
}

/** The transports that a page sent. Items that are not transports are left out. */
export function transportsIn(value) {
  const listed = Array.isArray(value) ? value.slice(0, MAX_TRANSPORTS) : [];
  return Object.freeze(listed.filter((one) => typeof one === "string" && TRANSPORT.test(one)));
}

/** A credential id. */
export function checkId(value) {
  const id = checkBytes(value, "a credential id");
  if (id.length < 1 || id.length > MAX_ID) throw new BadInput(`a credential id has 1 to ${MAX_ID} bytes`);
  return id;
}

/** The text of a session that a visitor sends back; null if there is none. No session is open for a text that no begin returned. */
export function checkSession(session) {
  if (session !== undefined && session !== null && typeof session !== "string")
    throw new BadInput(`session is ${shown(session)}: write the text that the begin gave, or null`);
  return session ?? null;
}

/** The `{ id, transports }` of a list of ids, or of values with these members. */
export function checkIds(ids, most = MAX_LIST) {
  if (!Array.isArray(ids)) throw new BadInput(`a list of credential ids is ${shown(ids)}: write an array of ids, or of credentials`);
  if (ids.length > most) throw new BadInput(`a list has at most ${most} credential ids`);
  return ids.map((one) => {
    const isId = isBytes(one), id = checkId(isId || typeof one !== "object" || one === null ? one : one.id);
    return { id, transports: isId ? [] : transportsIn(one.transports) };
  });
}

export function checkAlgorithms(algorithms) {
  if (!Array.isArray(algorithms) || algorithms.length === 0 || !algorithms.every((one) => ALGORITHMS.includes(one)))
    throw new BadInput(`${NO_ALGORITHMS}: write a list of one or more`);
  return Object.freeze([...algorithms]);
}

/** One of some texts. */
export function checkOneOf(value, what, texts) {
  if (!texts.includes(value)) throw new BadInput(`${what} is ${shown(value)}: write ${either(texts)}`);
  return value;
}

/** Checks the sizes of a public key's parts. */
export function checkKey({ algorithm, x, y }) {
  if (!ALGORITHMS.includes(algorithm)) throw new BadInput(`algorithm is ${shown(algorithm)}: ${NO_ALGORITHMS}`);
  const fits = algorithm === RS256 ? [256, 384, 512].includes(x.length) && y.length >= 1 && y.length <= 4 : x.length === 32 && y.length === (algorithm === ES256 ? 32 : 0);
  if (!fits) throw new BadInput("the key is out of its limits: x and y have 32 bytes of ES256, 32 and none of EdDSA, 256, 384 or 512 and 1 to 4 of RS256");
}

/** Checks a stored credential's values before they are written in fewer bits. */
export function checkCredential({ algorithm, signCount }) {
  if (!ALGORITHMS.includes(algorithm)) throw new BadInput(`algorithm is ${shown(algorithm)}: ${NO_ALGORITHMS}`);
  if (["string", "bigint"].includes(typeof signCount)) throw new BadInput(`signCount is ${shown(signCount)}, and no number: write Number(..), since pg gives a bigint as text`);
  checkWhole(signCount, "signCount", 0, MAX_COUNT);
}
