// The package without Node: signatures by WebCrypto. Call `load` first.
import { isValid } from "./web_signatures.js";
import { isBytes } from "./limits.js";
import { keepingOver } from "./keeping.js";
import { helpersOver, serverOver } from "./server.js";
import { moduleOf, take } from "./web_module.js";

async function compiled(source) {
  if (source instanceof WebAssembly.Module) return source;
  if (isBytes(source) || source instanceof ArrayBuffer) return WebAssembly.compile(source);
  const answer = source instanceof Response ? source : await fetch(source);
  return WebAssembly.compile(await answer.arrayBuffer());
}

/** Loads passkey.wasm: from beside this file, or from a URL, a `Response`, bytes or a `WebAssembly.Module`. */
export async function load(source = new URL("./passkey.wasm", import.meta.url)) {
  take(await compiled(source));
}

function randomBytes(size) {
  return crypto.getRandomValues(new Uint8Array(size));
}

export const Server = serverOver(moduleOf, randomBytes, isValid);
export const KeepingServer = keepingOver(randomBytes);
export const { isCanonical, credentialFromCose, coseKeyOf } = helpersOver(moduleOf);
export { BadInput, NoMemory, Refused, RowDamaged, SessionDamaged, StoreFailed } from "./errors.js";
export { fromText, toText } from "./forms.js";
export { EDDSA, ES256, MAX_LIST, RS256 } from "./limits.js";
export { MemoryStore } from "./memory.js";
export { Credential, KeptCredential, Registered, RegistrationSession, SignInSession, SignedIn } from "./records.js";
