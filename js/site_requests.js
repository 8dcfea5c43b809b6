// A visitor's request in the form of the core, and the checks before it is handled.
import { BadInput } from "./errors.js";
import { isBytes, ownOf } from "./limits.js";

/** The largest visitor's request, in bytes. */
export const MAX_BODY = 128 * 1024;
/** The cookies for a sign-in, for an open registration, and for an open sign-in ceremony. */
export const SIGNED_IN = "garvoeng";
export const REGISTRATION = "garvoeng_registration";
export const SIGN_IN = "garvoeng_sign_in";
// The longest cookie that is read, in characters.
const MAX_COOKIE = 4096;
// The most digits of a number: no request needs more.
const MAX_DIGITS = 64;
const MAX_NAME = 64;
const PRINTABLE = /^(?:[^\p{C}\p{Z}]| )+$/u;
const NAME = /^(?=.*[^\u200c\u200d])(?:[^\p{C}\p{Z}]|[ \u200c\u200d]){1,64}$/u;
// The strings, the signs and the other words of a JSON text.
const WORDS = /"(?:[^"\\]|\\.)*"|[{}[\],:]|[^\s{}[\],:"]+/g;

/** The host has made it impossible to answer. */
export class HostFault extends Error {}

export const isPrintable = (text) => PRINTABLE.test(text);

/** Whether a value is an object whose members are all its own. */
export function isPlain(value) {
  if (typeof value !== "object" || value === null || Array.isArray(value) || isBytes(value)) return false;
  const kind = Object.getPrototypeOf(value);
  return kind === null || Object.getPrototypeOf(kind) === null;
}

/** A browser accepts `__Host-` only from this very host, by https (RFC 6265bis, section 4.1.3.2). */
export const cookieName = (name, isSecure) => (isSecure ? `__Host-${name}` : name);

/** The line of a cookie; null ends it. */
export function cookieLine(name, value, isSecure) {
  const made = `${cookieName(name, isSecure)}=${value ?? ""}; HttpOnly; Path=/; SameSite=Lax${isSecure ? "; Secure" : ""}`;
  return value === null ? `${made}; Max-Age=0; Expires=Thu, 01 Jan 1970 00:00:00 GMT` : made;
}

/** The value of the first cookie with this name; null if there is none that may be ours. */
export function cookieIn(header, name) {
  const front = `${name}=`, found = (header ?? "").split(";").map((one) => one.trim()).find((one) => one.startsWith(front))?.slice(front.length);
  return found && found.length <= MAX_COOKIE && /^[\x21-\x7e]+$/.test(found) ? found : null;
}

/** Whether a request that changes something comes from one of the site's own pages, by the headers of browsers (Fetch, section 3.2; Fetch
 *  Metadata, section 2.4). A request with neither is not from a browser that has passkeys. */
export function isOfSite(headers, origins) {
  const origin = headers.get("origin"), site = headers.get("sec-fetch-site");
  return origin === null ? site === null || ["same-origin", "none"].includes(site) : origins.includes(origin);
}

/** Checks a request before its body is read. Only JSON is accepted: a form of another site can't send it. */
export function checkHead(headers) {
  const type = headers.get("content-type") ?? "", length = headers.get("content-length") ?? "";
  if (type.split(";")[0].trim().toLowerCase() !== "application/json") throw new BadInput("the body is not application/json");
  if (length !== "" && !/^[0-9]{1,18}$/.test(length)) throw new BadInput("Content-Length is not a number");
  if (Number(length) > MAX_BODY) throw new BadInput("the body is too long");
}

// Refuses what JSON.parse accepts: a repeated member, and numbers without end.
function checkMembers(text) {
  const open = [];
  let isName = false;
  for (const [word] of text.matchAll(WORDS)) {
    if (word === "{" || word === "[") open.push(word === "{" ? new Set() : null);
    else if (word === "}" || word === "]") open.pop();
    else if (isName && open.at(-1) && word !== ",") {
      const name = JSON.parse(word);
      if (open.at(-1).has(name)) throw new BadInput("a member of the body stands twice");
      open.at(-1).add(name);
    } else if (word.length > MAX_DIGITS && /^-?[0-9]+$/.test(word)) throw new BadInput("a number of the body is too long");
    isName = word === "{" || word === ",";
  }
}

function parsed(text) {
  try {
    return JSON.parse(text);
  } catch {
    return null;
  }
}

function decoded(bytes) {
  try {
    return new TextDecoder("utf-8", { fatal: true, ignoreBOM: true }).decode(bytes);
  } catch {
    return "";
  }
}

/** The JSON object in a body (RFC 8259): in UTF-8, each member only once. Takes text or bytes, or the object that the host has read. */
export function objectIn(body) {
  if (typeof body !== "string" && !isBytes(body)) {
    if (!isPlain(body)) throw new BadInput("the body is no JSON object");
    return ownOf(body);
  }
  if (body.length > MAX_BODY) throw new BadInput("the body is too long");
  const text = typeof body === "string" ? body : decoded(body), value = parsed(text);
  if (!isPlain(value)) throw new BadInput("the body is no JSON object");
  checkMembers(text);
  return ownOf(value);
}

/** The name of an account or a passkey: 1 to 64 characters that can be printed, or join those around them. */
export function nameIn({ name }) {
  if (typeof name !== "string" || !NAME.test(name)) throw new BadInput(`a name has 1 to ${MAX_NAME} characters that can be printed`);
  return name;
}
