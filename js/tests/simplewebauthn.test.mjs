// SimpleWebAuthn's calls, over what Chromium recorded, and with each of their options wrong.
import assert from "node:assert/strict";
import { readFileSync } from "node:fs";
import { createRequire } from "node:module";
import { test } from "node:test";
import { BadInput, Refused, fromText, toText } from "garvoeng";
import {
  generateAuthenticationOptions, generateRegistrationOptions, supportedCOSEAlgorithmIdentifiers, verifyAuthenticationResponse, verifyRegistrationResponse,
} from "garvoeng/compat/simplewebauthn";

const { origin, visits } = JSON.parse(readFileSync(process.env.RECORDED.split(":")[0]));
const rpID = "localhost";

const toRegister = ({ session, response }) => ({ response, expectedChallenge: session.challenge, expectedOrigin: origin, expectedRPID: rpID, requireUserVerification: session.user_verification,
                                                 supportedAlgorithmIDs: session.algorithms });
const toSignIn = ({ session, response }, credential) => ({ response, credential, expectedChallenge: session.challenge, expectedOrigin: origin, expectedRPID: rpID,
                                                           requireUserVerification: session.user_verification });
const isRefused = (name) => (error) => error instanceof Refused && error.name === name;
const isBad = (text) => (error) => error instanceof BadInput && error.message.includes(text);

// A copy of a response with a part of it changed.
function changed(response, name, change) {
  const bytes = fromText(response.response[name]);
  change(bytes);
  return { ...response, response: { ...response.response, [name]: toText(bytes) } };
}

test("what Chromium recorded registers and signs in", async () => {
  let signIns = 0;
  for (const { registration, sign_ins } of visits) {
    const { verified, registrationInfo } = await verifyRegistrationResponse(toRegister(registration));
    assert.equal(verified, true);
    const { credential, aaguid, credentialType, attestationObject, fmt, ...rest } = registrationInfo;
    assert.match(aaguid, /^[0-9a-f]{8}(-[0-9a-f]{4}){3}-[0-9a-f]{12}$/);
    assert.deepEqual([credential.id, credentialType, fmt, toText(attestationObject)], [registration.response.id, "public-key", "none", registration.response.response.attestationObject]);
    assert.deepEqual([rest.origin, rest.rpID, credential.transports], [origin, rpID, registration.response.response.transports]);
    let stored = credential;
    for (const signIn of sign_ins) {
      const told = await verifyAuthenticationResponse(toSignIn(signIn, stored)), counter = new DataView(fromText(signIn.response.response.authenticatorData).buffer).getUint32(33);
      assert.deepEqual([told.verified, told.authenticationInfo.newCounter, told.authenticationInfo.credentialID], [true, counter, credential.id]);
      assert.equal(told.authenticationInfo.credentialDeviceType, rest.credentialDeviceType);
      stored = { ...stored, counter };
      signIns++;
    }
  }
  assert.deepEqual([visits.length, signIns], [32, 64]);
});

const [{ registration, sign_ins: [signIn] }] = visits;
const registered = async () => (await verifyRegistrationResponse(toRegister(registration))).registrationInfo.credential;

test("a registration with one thing wrong", async () => {
  const right = toRegister(registration), other = toText(new Uint8Array(32));
  for (const [more, name] of [
    [{ expectedChallenge: other }, "G4"], [{ expectedOrigin: "http://localhost:1" }, "G5"], [{ expectedOrigin: "https://example.com", expectedRPID: "example.com" }, "G5"],
    [{ supportedAlgorithmIDs: [-257] }, "G11"], [{ response: signIn.response }, null], [{ response: changed(registration.response, "attestationObject", (bytes) => (bytes[60] ^= 1)) }, "G8"],
  ]) await assert.rejects(verifyRegistrationResponse({ ...right, ...more }), name === null ? isBad("attestationObject") : isRefused(name), JSON.stringify(more));
  for (const [more, text] of [
    [{ expectedRPID: undefined }, "expectedRPID"], [{ expectedRPID: [] }, "expectedRPID"], [{ expectedOrigin: undefined }, "expectedOrigin"], [{ expectedChallenge: undefined }, "expectedChallenge"],
    [{ expectedChallenge: () => false }, "answered false"], [{ expectedChallenge: () => "yes" }, "true or false"], [{ expectedChallenge: async () => ({}) }, "true or false"],
    [{ requireUserVerification: 0 }, "requireUserVerification"], [{ requireUserPresence: "no" }, "requireUserPresence"], [{ supportedAlgorithmIDs: [] }, "supportedAlgorithmIDs"],
    [{ expectedType: "webauthn.get" }, "expectedType"], [{ expectedOrigins: origin }, "no option"], [{ response: null }, ""],
  ]) await assert.rejects(verifyRegistrationResponse({ ...right, ...more }), (error) => (error instanceof BadInput || error instanceof TypeError) && error.message.includes(text), JSON.stringify(more));
});

test("a sign-in with one thing wrong", async () => {
  const credential = await registered(), right = toSignIn(signIn, credential), [, { registration: another }] = visits;
  const theirs = (await verifyRegistrationResponse(toRegister(another))).registrationInfo.credential;
  for (const [more, name] of [
    [{ expectedChallenge: toText(new Uint8Array(32)) }, "W7"], [{ expectedOrigin: "http://localhost:1" }, "W8"], [{ credential: theirs }, "W3"], [{ credential: { ...credential, counter: 2 ** 31 } }, "W15"],
    [{ credential: { ...credential, webauthnUserID: toText(new Uint8Array(8)) } }, "W4"], [{ response: changed(signIn.response, "authenticatorData", (bytes) => (bytes[0] ^= 1)) }, "W11"],
    [{ response: changed(signIn.response, "authenticatorData", (bytes) => (bytes[32] &= ~1)) }, "W12"],
  ]) await assert.rejects(verifyAuthenticationResponse({ ...right, ...more }), isRefused(name), JSON.stringify(more));
  for (const [more, text] of [
    [{ credential: undefined }, "publicKey"], [{ credential: { ...credential, publicKey: new Uint8Array(3) } }, "COSE_Key"], [{ credential: { ...credential, counter: "0" } }, ""], [{ requireUserVerification: null }, "requireUserVerification"],
    [{ expectedChallenge: async () => 1 }, "true or false"],
    [{ advancedFIDOConfig: { userVerification: "Required" } }, "userVerification"], [{ advancedFIDOConfig: { userverification: "required" } }, "no option"], [{ advancedFIDOConfig: "required" }, "advancedFIDOConfig"],
  ]) await assert.rejects(verifyAuthenticationResponse({ ...right, ...more }), (error) => (error instanceof BadInput || error instanceof TypeError || error.name === "RowDamaged") && error.message.includes(text), JSON.stringify(more));
});

test("a signature that is not valid is not verified, whichever byte changed", async () => {
  const credential = await registered(), right = toSignIn(signIn, credential), { length } = fromText(signIn.response.response.signature);
  for (const at of [0, 1, 5, length - 1]) {
    const { verified, authenticationInfo } = await verifyAuthenticationResponse({ ...right, response: changed(signIn.response, "signature", (bytes) => (bytes[at] ^= 1)) });
    assert.deepEqual([verified, authenticationInfo.newCounter], [false, credential.counter]);
  }
  const { verified } = await verifyAuthenticationResponse({ ...right, response: changed(signIn.response, "clientDataJSON", (bytes) => (bytes[bytes.length - 2] ^= 32)) }).catch(({ name }) => ({ verified: name }));
  assert.notEqual(verified, true);
});

test("user verification is required if nothing else is said", async () => {
  const { requireUserVerification, ...rest } = toSignIn(signIn, await registered());
  const bare = { ...rest, response: changed(signIn.response, "authenticatorData", (bytes) => (bytes[32] &= ~4)) };
  await assert.rejects(verifyAuthenticationResponse(bare), isRefused("W13"));
  assert.equal((await verifyAuthenticationResponse({ ...bare, requireUserVerification: false })).verified, false, "W14, since the data changed");
  await assert.rejects(verifyAuthenticationResponse({ ...bare, requireUserVerification: false, advancedFIDOConfig: { userVerification: "required" } }), isRefused("W13"));
});

test("of several rp ids the response's is found", async () => {
  const { verified, registrationInfo } = await verifyRegistrationResponse({ ...toRegister(registration), expectedOrigin: [origin, "https://example.com"], expectedRPID: ["example.com", rpID] });
  assert.deepEqual([verified, registrationInfo.rpID], [true, rpID]);
  await assert.rejects(verifyRegistrationResponse({ ...toRegister(registration), expectedOrigin: [origin, "https://example.com"], expectedRPID: ["example.com"] }), isRefused("G8"));
});

test("a function says whether the challenge is expected", async () => {
  const asked = [];
  const { verified } = await verifyRegistrationResponse({ ...toRegister(registration), expectedChallenge: async (challenge) => asked.push(challenge) === 1 });
  assert.deepEqual([verified, asked], [true, [registration.session.challenge]]);
});

test("options", async () => {
  const creation = await generateRegistrationOptions({ rpName: "Site", rpID, userName: "anna", userID: fromText("AQID"), attestationType: "direct", excludeCredentials: [{ id: "AQ", transports: ["usb"] }],
                                                       authenticatorSelection: { residentKey: "required" }, preferredAuthenticatorType: "securityKey" });
  assert.deepEqual({ ...creation, challenge: fromText(creation.challenge).length }, {
    challenge: 32, rp: { name: "Site", id: rpID }, user: { id: "AQID", name: "anna", displayName: "" },
    pubKeyCredParams: supportedCOSEAlgorithmIdentifiers.map((alg) => ({ alg, type: "public-key" })), timeout: 60_000, attestation: "direct",
    excludeCredentials: [{ id: "AQ", type: "public-key", transports: ["usb"] }],
    authenticatorSelection: { residentKey: "required", requireResidentKey: true, userVerification: "preferred", authenticatorAttachment: "cross-platform" },
    extensions: { credProps: true }, hints: ["security-key"],
  });
  assert.notEqual(creation.challenge, (await generateRegistrationOptions({ rpName: "Site", rpID, userName: "anna" })).challenge);
  const request = await generateAuthenticationOptions({ rpID, challenge: "abcdefghijklmnopqrstuvwxyz012345", allowCredentials: [{ id: "AQ" }] });
  assert.deepEqual(request, { rpId: rpID, challenge: "YWJjZGVmZ2hpamtsbW5vcHFyc3R1dnd4eXowMTIzNDU", allowCredentials: [{ id: "AQ", type: "public-key" }], timeout: 60_000, userVerification: "preferred", extensions: undefined });
  for (const [call, options, text] of [
    [generateRegistrationOptions, { rpName: "Site", rpID, userName: "anna", userID: "anna" }, "user"], [generateRegistrationOptions, { rpName: "Site", rpID, userName: "anna", challenge: "short" }, "32"],
    [generateRegistrationOptions, { rpName: "Site", rpId: rpID, userName: "anna" }, "no option"], [generateRegistrationOptions, { rpName: "Site", rpID, userName: "anna", preferredAuthenticatorType: "phone" }, "securityKey"],
    [generateAuthenticationOptions, { rpID, allowCredentials: "AQ" }, "array"], [generateAuthenticationOptions, {}, "rpID"],
  ]) await assert.rejects(call(options), isBad(text));
});

test("CommonJS has the same calls", () => {
  const common = createRequire(import.meta.url)("garvoeng/compat/simplewebauthn");
  assert.deepEqual(Object.keys(common).sort(), ["generateAuthenticationOptions", "generateRegistrationOptions", "supportedCOSEAlgorithmIdentifiers", "verifyAuthenticationResponse", "verifyRegistrationResponse"]);
});
