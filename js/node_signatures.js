// Signatures by node:crypto: whether one is valid for a message under a public key.
import { createPublicKey, verify } from "node:crypto";
import { EDDSA, ES256, RS256 } from "./limits.js";
import { toText } from "./forms.js";

// Making a key's object takes most of a verification of ES256, so the most recently used ones are kept, up to this number, by the algorithm
// and the exact bytes of the key.
const MOST = 4_096;
/** The keys' objects, with the least recently used one first. */
export const kept = new Map();

function formOf(algorithm, x, y) {
  if (algorithm === ES256) return { kty: "EC", crv: "P-256", x: toText(x), y: toText(y) };
  if (algorithm === EDDSA) return { kty: "OKP", crv: "Ed25519", x: toText(x) };
  return { kty: "RSA", n: toText(x), e: toText(y) };
}

function keyOf(algorithm, x, y) {
  const name = `${algorithm} ${toText(x)} ${toText(y)}`, found = kept.get(name) ?? createPublicKey({ key: formOf(algorithm, x, y), format: "jwk" });
  // Put back at the end.
  kept.delete(name);
  kept.set(name, found);
  if (kept.size > MOST) kept.delete(kept.keys().next().value);
  return found;
}

/** Whether the signature is valid: ES256 over P-256, in DER, EdDSA over Ed25519, or RS256, which is PKCS #1 v1.5 with SHA-256; for RS256 x
 *  is the modulus and y the public exponent. */
export function isValid(algorithm, x, y, message, signature) {
  if (algorithm !== ES256 && algorithm !== EDDSA && algorithm !== RS256) return false;
  try {
    return verify(algorithm === EDDSA ? null : "sha256", message, keyOf(algorithm, x, y), signature);
  } catch {
    return false;
  }
}
