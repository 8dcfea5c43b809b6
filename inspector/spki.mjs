// Public keys as a browser's getPublicKey() gives them (SubjectPublicKeyInfo; RFC 5280, section 4.1), read by WebCrypto.
import { EDDSA, ES256, RS256 } from "../js/limits.js";

const KINDS = [
  [ES256, { name: "ECDSA", namedCurve: "P-256" }, ["x", "y"]],
  [EDDSA, { name: "Ed25519" }, ["x"]],
  [RS256, { name: "RSASSA-PKCS1-v1_5", hash: "SHA-256" }, ["n", "e"]],
];

/** The algorithm, x and y of such bytes; null where they are a key of none of the three. */
export async function keyFromSpki(bytes, fromText) {
  for (const [algorithm, parameters, [x, y]] of KINDS) {
    try {
      const key = await crypto.subtle.exportKey("jwk", await crypto.subtle.importKey("spki", bytes, parameters, true, ["verify"]));
      return { algorithm, x: fromText(key[x]), y: y === undefined ? new Uint8Array(0) : fromText(key[y]) };
    } catch {
      // It is a key of another kind, or none.
    }
  }
  return null;
}
