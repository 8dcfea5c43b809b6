// The package in Node: signatures by node:crypto.
import { randomBytes } from "node:crypto";
import { readFileSync } from "node:fs";
import { isValid } from "./node_signatures.js";
import { keepingOver } from "./keeping.js";
import { Module } from "./module.js";
import { helpersOver, serverOver } from "./server.js";

const module_ = new Module(new WebAssembly.Module(readFileSync(new URL("./passkey.wasm", import.meta.url))));
const moduleOf = () => module_;

export const Server = serverOver(moduleOf, randomBytes, isValid);
export const KeepingServer = keepingOver(randomBytes);
export const { isCanonical, credentialFromCose, coseKeyOf } = helpersOver(moduleOf);
export { BadInput, NoMemory, Refused, RowDamaged, SessionDamaged, StoreFailed } from "./errors.js";
export { fromText, toText } from "./forms.js";
export { EDDSA, ES256, MAX_LIST, RS256 } from "./limits.js";
export { MemoryStore } from "./memory.js";
export { Credential, KeptCredential, Registered, RegistrationSession, SignInSession, SignedIn } from "./records.js";
export { StoredServer } from "./stored.js";
