// What stands in a response, as it is shown. Nothing here judges it: that is the library's.
import { Entries, diagnostic, hexOf, itemAt } from "./cbor.mjs";

// What nests deeper is no readable client data either.
const DEEPEST = 126;
const FLAGS = [["UP", "user present"], ["RFU1", "reserved"], ["UV", "user verified"], ["BE", "eligible for backup"],
               ["BS", "backed up now"], ["RFU2", "reserved"], ["AT", "a credential is attested"], ["ED", "extensions follow"]];
const KEY_TYPES = { 1: "OKP", 2: "EC2", 3: "RSA" };
const ALGORITHMS = { "-7": "ES256", "-8": "EdDSA", "-35": "ES384", "-36": "ES512", "-37": "PS256", "-257": "RS256", "-65535": "RS1" };
const CURVES = { 1: "P-256", 2: "P-384", 3: "P-521", 6: "Ed25519", 7: "Ed448" };

/** What a COSE key or a statement names an algorithm by, in diagnostic notation, with its name. */
export function algorithmText(number) {
  return Object.hasOwn(ALGORITHMS, number) ? `${ALGORITHMS[number]} (${number})` : String(number);
}

function algorithmIn(value) {
  return value === undefined ? null : algorithmText(diagnostic(value));
}

function nests(value, depth) {
  return typeof value === "object" && value !== null && (depth === 0 || Object.values(value).some((one) => nests(one, depth - 1)));
}

/** A value of JSON as it is shown: null in place of one that nests deeper than can be shown. */
export function shallow(value) {
  return nests(value, DEEPEST) ? null : value;
}

/** The client data: its text, what it says where it is an object of JSON, and what is wrong with it where it is none. */
export function clientDataOf(bytes) {
  const made = { size: bytes.length, text: null, members: null, fault: null };
  try {
    made.text = new TextDecoder("utf-8", { fatal: true, ignoreBOM: true }).decode(bytes);
  } catch {
    return { ...made, fault: "it is not UTF-8" };
  }
  try {
    const said = JSON.parse(made.text);
    if (typeof said !== "object" || said === null || Array.isArray(said)) return { ...made, fault: "it is not an object of JSON" };
    return nests(said, DEEPEST + 1) ? { ...made, fault: "it nests too deep" } : { ...made, members: said };
  } catch {
    return { ...made, fault: "it is not JSON" };
  }
}

/** The flags that are set, by their names. */
export function flagsText(byte) {
  const set = FLAGS.filter((_, bit) => (byte >> bit) & 1).map(([name]) => name);
  return set.length === 0 ? "none is set" : set.join(", ");
}

function flagsOf(byte) {
  return { hex: hexOf([byte]), text: flagsText(byte), bits: FLAGS.map(([name, means], bit) => ({ name, means, set: ((byte >> bit) & 1) === 1 })) };
}

function keyMember(label, value, isRsa) {
  const shown = value instanceof Uint8Array ? hexOf(value) : diagnostic(value);
  if (label === 1) return { name: "key type", value: KEY_TYPES[shown] ?? shown };
  if (label === 3) return { name: "algorithm", value: algorithmText(shown) };
  if (label === -1 && !isRsa) return { name: "curve", value: CURVES[shown] ?? shown };
  const names = isRsa ? { "-1": "modulus", "-2": "exponent" } : { "-2": "x", "-3": "y" };
  return { name: Object.hasOwn(names, String(label)) ? names[label] : `label ${diagnostic(label)}`, value: shown };
}

function keyOf(bytes, value, isCanonical) {
  const pairs = value instanceof Entries ? value.pairs : [], isRsa = value instanceof Entries && value.get(1) === 3;
  return { size: bytes.length, cose: bytes, canonical: isCanonical(bytes), algorithm: value instanceof Entries ? algorithmIn(value.get(3)) : null,
           members: pairs.map(([label, one]) => keyMember(label, one, isRsa)), diagnostic: diagnostic(value) };
}

// What is attested, from byte 37 of authenticator data on, and where it ends.
function attestedOf(bytes, isCanonical) {
  if (bytes.length < 55) throw new Error(`at byte ${bytes.length} it ends, before the credential id`);
  const size = (bytes[53] << 8) | bytes[54], end = 55 + size;
  if (end > bytes.length) throw new Error(`at byte ${bytes.length} it ends, within the credential id of ${size} bytes`);
  const key = itemAt(bytes, end);
  return { end: key.end, made: { aaguid: bytes.slice(37, 53), id: bytes.slice(55, end), key: keyOf(bytes.slice(end, key.end), key.value, isCanonical) } };
}

/** Authenticator data as far as they can be read, and what is wrong where they can't. `isCanonical` is the library's. */
export function authenticatorDataOf(bytes, isCanonical) {
  const made = { size: bytes.length, rp_id_hash: null, flags: null, sign_count: null, attested: null, extensions: null, fault: null };
  if (bytes.length < 37) return { ...made, fault: `they have ${bytes.length} bytes, and not 37 or more` };
  const byte = bytes[32];
  let end = 37;
  Object.assign(made, { rp_id_hash: bytes.slice(0, 32), flags: flagsOf(byte), sign_count: new DataView(bytes.buffer, bytes.byteOffset + 33, 4).getUint32(0) });
  try {
    if (byte & 0x40) {
      const attested = attestedOf(bytes, isCanonical);
      made.attested = attested.made;
      ({ end } = attested);
    }
    if (byte & 0x80) {
      const item = itemAt(bytes, end), own = bytes.slice(end, item.end);
      made.extensions = { size: own.length, canonical: isCanonical(own), diagnostic: diagnostic(item.value) };
      ({ end } = item);
    }
    if (end < bytes.length) made.fault = `${bytes.length - end} bytes follow: ${hexOf(bytes.subarray(end))}`;
  } catch (error) {
    made.fault = error.message;
  }
  return made;
}

function pem(bytes) {
  const text = btoa(String.fromCharCode(...bytes));
  return `-----BEGIN CERTIFICATE-----\n${text.replace(/(.{64})(?!$)/g, "$1\n")}\n-----END CERTIFICATE-----`;
}

/** An attestation object as far as it can be read: its format and statement, with its certificates as they are, and where its
 *  authenticator data lie. */
export function attestationOf(bytes, isCanonical) {
  const made = { size: bytes.length, canonical: isCanonical(bytes), format: null, statement: null, algorithm: null, signature: null, certificates: [],
                 auth_data: null, fault: null };
  try {
    const { value, end } = itemAt(bytes, 0);
    if (!(value instanceof Entries)) return { ...made, fault: "it is no map" };
    const format = value.get("fmt"), statement = value.get("attStmt"), authData = value.get("authData");
    const own = statement instanceof Entries ? statement : new Entries([]), algorithm = own.get("alg"), signature = own.get("sig");
    const listed = Array.isArray(own.get("x5c")) ? own.get("x5c").filter((one) => one instanceof Uint8Array) : [];
    return {
      ...made, format: format === undefined ? null : diagnostic(format), statement: statement === undefined ? null : diagnostic(statement),
      algorithm: algorithmIn(algorithm), signature: signature instanceof Uint8Array ? signature : null,
      certificates: listed.map((one) => ({ size: one.length, pem: pem(one) })), auth_data: authData instanceof Uint8Array ? authData : null,
      fault: end < bytes.length ? `${bytes.length - end} bytes follow it` : null,
    };
  } catch (error) {
    return { ...made, fault: error.message };
  }
}
