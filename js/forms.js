// The forms of JSON that pages and sites exchange (WebAuthn Level 3, section 5.1). All bytes are in base64url without padding.
import { BadInput } from "./errors.js";
import { isBytes, memberOf, ownOf, shown } from "./limits.js";

/** The greatest length of a response's members together, in characters. */
export const MAX_RESPONSE = 65_536;

/** The longest text of a session of `StoredServer`, in characters. */
const MAX_SESSION = 2_875;

export const REGISTRATION_MEMBERS = ["clientDataJSON", "attestationObject"];
export const SIGN_IN_MEMBERS = ["clientDataJSON", "authenticatorData", "signature"];

const LETTERS = "ABCDEFGHIJKLMNOPQRSTUVWXYZabcdefghijklmnopqrstuvwxyz0123456789-_";
const ZERO = LETTERS.charCodeAt(0);
const SEXTETS = new Uint8Array(256).fill(255);
for (let index = 0; index < 64; index++) SEXTETS[LETTERS.charCodeAt(index)] = index;
const CODES = Uint8Array.from(LETTERS, (letter) => letter.charCodeAt(0));
// The true properties of a byte array, whatever members a class of the host's has.
const [bufferOf, offsetOf, lengthOf] = ["buffer", "byteOffset", "byteLength"].map((name) => Object.getOwnPropertyDescriptor(Object.getPrototypeOf(Uint8Array.prototype), name).get);
// Node's buffers are ten times as fast; a bundler's may lack this form.
const { Buffer } = globalThis, hasBase64url = Buffer?.isEncoding?.("base64url") === true;

// The character codes of a value's letters.
function codesOf(value) {
  const { length } = value, codes = new Uint8Array(Math.ceil((length * 4) / 3)), whole = length - (length % 3);
  let at = 0, made = 0;
  while (at < whole) {
    const first = value[at++], second = value[at++], third = value[at++];
    codes[made++] = CODES[first >> 2];
    codes[made++] = CODES[((first & 3) << 4) | (second >> 4)];
    codes[made++] = CODES[((second & 15) << 2) | (third >> 6)];
    codes[made++] = CODES[third & 63];
  }
  if (at === length) return codes;
  const first = value[at], second = length - at === 2 ? value[at + 1] : 0;
  codes[made++] = CODES[first >> 2];
  codes[made++] = CODES[((first & 3) << 4) | (second >> 4)];
  if (length - at === 2) codes[made] = CODES[(second & 15) << 2];
  return codes;
}

/** Base64url without padding. Throws `BadInput` if the value is not a Uint8Array. */
export function toText(value) {
  if (!isBytes(value)) throw new BadInput(`toText takes a Uint8Array, and not ${shown(value)}: write new Uint8Array(..) of an ArrayBuffer`);
  const length = lengthOf.call(value);
  if (length === 0) return "";
  return hasBase64url ? Buffer.from(bufferOf.call(value), offsetOf.call(value), length).toString("base64url") : new TextDecoder().decode(codesOf(new Uint8Array(value)));
}

function sizeOf(text) {
  return (text.length * 3) >> 2;
}

// Writes the bytes of a text from an offset on. Returns whether it is canonical base64url.
function readInto(value, made, text) {
  const { length } = text, whole = length - (length % 4);
  let wrong = length % 4 === 1 ? 255 : 0, at = 0;
  for (; at < whole; at += 4) {
    const first = text.charCodeAt(at), second = text.charCodeAt(at + 1), third = text.charCodeAt(at + 2), fourth = text.charCodeAt(at + 3);
    const a = SEXTETS[first & 255], b = SEXTETS[second & 255], c = SEXTETS[third & 255], d = SEXTETS[fourth & 255];
    wrong |= a | b | c | d | ((first | second | third | fourth) & ~127);
    value[made++] = (a << 2) | (b >> 4);
    value[made++] = (b << 4) | (c >> 2);
    value[made++] = (c << 6) | d;
  }
  // Two or three letters are left. Their last bits belong to no byte and must be 0.
  if (length - at >= 2) {
    const first = text.charCodeAt(at), second = text.charCodeAt(at + 1), third = length - at === 3 ? text.charCodeAt(at + 2) : ZERO;
    const a = SEXTETS[first & 255], b = SEXTETS[second & 255], c = SEXTETS[third & 255];
    wrong |= a | b | c | ((first | second | third) & ~127) | ((length - at === 3 ? c & 3 : b & 15) === 0 ? 0 : 255);
    value[made++] = (a << 2) | (b >> 4);
    if (length - at === 3) value[made] = (b << 4) | (c >> 2);
  }
  return wrong <= 63;
}

/** The bytes of canonical base64url text without padding (RFC 4648, sections 3.5 and 5). Throws `BadInput`. */
export function fromText(text, what = "the text") {
  if (typeof text !== "string") throw new BadInput(`${what} is not a text`);
  const value = new Uint8Array(sizeOf(text));
  if (!readInto(value, 0, text)) throw new BadInput(`${what} is not base64url`);
  return value;
}

/** The text of a session. A text that is not a session's becomes empty, which is an unknown session to the program. */
export function sealed(session) {
  if (session === null || session.length > MAX_SESSION) return "";
  return readInto(new Uint8Array(sizeOf(session)), 0, session) ? session : "";
}

function isObject(value) {
  return typeof value === "object" && value !== null && !Array.isArray(value);
}

function textIn(value, name) {
  const text = memberOf(value, name);
  if (text === undefined || text === null) throw new BadInput(`${name} is missing`);
  if (typeof text !== "string") throw new BadInput(`${name} is not a text`);
  return text;
}

// Checks what the standard requires of a response besides its parts.
function checkEnvelope(response) {
  if (textIn(response, "id") !== textIn(response, "rawId")) throw new BadInput("id is not rawId");
  if (textIn(response, "type") !== "public-key") throw new BadInput("type is not public-key");
  const results = memberOf(response, "clientExtensionResults"), attachment = memberOf(response, "authenticatorAttachment") ?? null;
  if (results !== undefined && !isObject(results)) throw new BadInput("clientExtensionResults is not an object");
  if (attachment !== null && typeof attachment !== "string")
    throw new BadInput("authenticatorAttachment is not a text");
}

/** `rawId` and the members with these names of a RegistrationResponseJSON or an AuthenticationResponseJSON, as texts. An optional member
 *  that is null counts as absent; members with other names are ignored. Throws `BadInput`. */
export function textsIn(response, names, optional = []) {
  const parts = isObject(response) ? memberOf(response, "response") : undefined;
  if (!isObject(parts)) throw new BadInput("response is missing");
  checkEnvelope(response);
  const texts = ownOf({ rawId: textIn(response, "rawId") });
  for (const name of names) texts[name] = textIn(parts, name);
  for (const name of optional) if ((memberOf(parts, name) ?? null) !== null) texts[name] = textIn(parts, name);
  let size = 0;
  for (const name in texts) size += texts[name].length;
  if (size > MAX_RESPONSE) throw new BadInput("the response is too long");
  return texts;
}

/** The same as bytes, all in one buffer: making one for each takes longer than reading it. */
export function bytesIn(response, names, optional) {
  const parts = textsIn(response, names, optional);
  let size = 0, at = 0;
  for (const name in parts) size += sizeOf(parts[name]);
  const all = new Uint8Array(size);
  for (const name in parts) {
    const text = parts[name], end = at + sizeOf(text);
    if (!readInto(all, at, text)) throw new BadInput(`${name} is not base64url`);
    parts[name] = all.subarray(at, end);
    at = end;
  }
  return parts;
}

/** The same as a response with these members alone, each of which is base64url. */
export function handedOn(response, names, optional) {
  const { rawId, ...parts } = textsIn(response, names, optional);
  fromText(rawId, "rawId");
  for (const name of Object.keys(parts)) fromText(parts[name], name);
  return { id: rawId, rawId, type: "public-key", response: parts };
}

/** The transports in a response, whatever they are. */
export function transportsOf(response) {
  return memberOf(response.response, "transports");
}

/** A PublicKeyCredentialDescriptorJSON of `{ id, transports }`. */
export function descriptor({ id, transports }) {
  const made = { type: "public-key", id: toText(id) };
  return transports.length === 0 ? made : { ...made, transports };
}

/** The 16 bytes of an aaguid as UUIDs are written. */
export function uuidOf(aaguid) {
  const digits = Array.from(aaguid, (byte) => byte.toString(16).padStart(2, "0")).join("");
  return digits.replace(/^(.{8})(.{4})(.{4})(.{4})(.{12})$/, "$1-$2-$3-$4-$5");
}
