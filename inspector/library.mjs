// The library as the inspector calls it: the package for JavaScript, with signatures by WebCrypto.
import { Module } from "../js/module.js";
import { helpersOver, serverOver } from "../js/server.js";
import { isValid } from "../js/web_signatures.js";
import { BadInput, NoMemory, Refused, RowDamaged } from "../js/errors.js";
import { REGISTRATION_MEMBERS, SIGN_IN_MEMBERS, fromText, toText } from "../js/forms.js";
import { ALGORITHMS, PROFILES } from "../js/limits.js";
import { Credential, RegistrationSession, SignInSession } from "../js/records.js";

function randomBytes(size) {
  return crypto.getRandomValues(new Uint8Array(size));
}

/** The library over passkey.wasm, compiled. */
export function libraryOf(compiled) {
  const module = new Module(compiled), moduleOf = () => module;
  return {
    Server: serverOver(moduleOf, randomBytes, isValid), ...helpersOver(moduleOf), isValid, BadInput, NoMemory, Refused, RowDamaged,
    REGISTRATION_MEMBERS, SIGN_IN_MEMBERS, fromText, toText, ALGORITHMS, PROFILES, Credential, RegistrationSession, SignInSession,
  };
}
