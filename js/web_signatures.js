// Signatures by WebCrypto: whether one is valid for a message under a public key.
import { EDDSA, ES256, RS256 } from "./limits.js";
import { toText } from "./forms.js";

const PARAMETERS = {
  [ES256]: { name: "ECDSA", namedCurve: "P-256", hash: "SHA-256" },
  [EDDSA]: { name: "Ed25519" },
  [RS256]: { name: "RSASSA-PKCS1-v1_5", hash: "SHA-256" },
};

function keyOf(algorithm, x, y) {
  if (algorithm === RS256) return ["jwk", { kty: "RSA", n: toText(x), e: toText(y), alg: "RS256" }];
  return ["raw", algorithm === EDDSA ? x : new Uint8Array([4, ...x, ...y])];
}

// A DER INTEGER at an offset, in 32 bytes, and where it ends; null if there is none in the only form that DER allows.
function integerAt(value, at) {
  const size = value[at + 1], end = at + 2 + size;
  if (value[at] !== 2 || size < 1 || size > 33 || end > value.length) return null;
  const [first, second = 0] = value.subarray(at + 2, end);
  if (first > 127 || (first === 0 && size > 1 && second < 128) || (size === 33 && first !== 0)) return null;
  const made = new Uint8Array(32), digits = value.subarray(size === 33 ? at + 3 : at + 2, end);
  made.set(digits, 32 - digits.length);
  return { made, end };
}

// The two numbers of an ECDSA signature, 64 bytes, from their DER SEQUENCE (RFC 3279, section 2.2.3); null if it is not one.
function numbersOf(value) {
  if (value[0] !== 0x30 || value[1] !== value.length - 2) return null;
  const r = integerAt(value, 2), s = r === null ? null : integerAt(value, r.end);
  return s === null || s.end !== value.length ? null : new Uint8Array([...r.made, ...s.made]);
}

/** Resolves to whether the signature is valid, like `isValid` of Node. Rejects if the platform does not have the algorithm. */
export async function isValid(algorithm, x, y, message, signature) {
  if (!Object.hasOwn(PARAMETERS, algorithm)) return false;
  const parameters = PARAMETERS[algorithm], bytes = algorithm === ES256 ? numbersOf(signature) : signature;
  if (bytes === null) return false;
  try {
    const key = await crypto.subtle.importKey(...keyOf(algorithm, x, y), parameters, false, ["verify"]);
    return await crypto.subtle.verify(parameters, key, bytes, message);
  } catch (error) {
    if (error?.name === "NotSupportedError") throw error;
    return false;
  }
}
