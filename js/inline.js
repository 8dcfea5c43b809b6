// The same as `garvoeng/web`, with the module as text: nothing has to be loaded, and a bundle needs no other file.
import { take } from "./web_module.js";
import { WASM } from "./wasm_text.js";

take(new WebAssembly.Module(Uint8Array.from(atob(WASM), (letter) => letter.charCodeAt(0))));

export { BadInput, Credential, EDDSA, ES256, KeepingServer, KeptCredential, MAX_LIST, MemoryStore, NoMemory, RS256, Refused, Registered, RegistrationSession, RowDamaged, Server, SessionDamaged,
         SignInSession, SignedIn, StoreFailed, coseKeyOf, credentialFromCose, fromText, isCanonical, toText } from "./web.js";
