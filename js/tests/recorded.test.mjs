// What Chromium and Firefox made (RECORDED, files of JSON): accepted by each form of the package with the verdict of the platform's
// mathematics, and never without it, nor with another byte of what is signed.
import assert from "node:assert/strict";
import { readFileSync } from "node:fs";
import { createRequire } from "node:module";
import { generateKeyPairSync, sign, webcrypto } from "node:crypto";
import { test } from "node:test";
import * as node from "garvoeng";
import * as web from "garvoeng/web";
import { changed } from "./device.mjs";

globalThis.crypto ??= webcrypto; // which Node 18 does not have by itself
await web.load(readFileSync(createRequire(import.meta.url).resolve("garvoeng/passkey.wasm")));
const FORMS = { esModules: node, commonJs: createRequire(import.meta.url)("garvoeng"), webCrypto: web };
const made = process.env.RECORDED.split(":").map((file) => JSON.parse(readFileSync(file, "utf8")));
const visits = made.flatMap(({ origin, visits }) => visits.map((visit) => ({ origin, ...visit })));

function registered(form, visit, how) {
  const server = new form.Server("localhost", [visit.origin], how), { session, response } = visit.registration;
  return server.registerComplete(form.RegistrationSession.fromJSON(session), response, { isRegistered: async () => false });
}

function signIn(form, visit, { session, response }, credential, how) {
  const server = new form.Server("localhost", [visit.origin], how);
  return server.authenticateComplete(form.SignInSession.fromJSON(session), response, { credential: async () => credential });
}

const data = (text) => Buffer.from(text, "base64url");

test("there are enough", () => {
  assert.equal(visits.length, 48);
  assert.equal(visits.flatMap((visit) => visit.sign_ins).length, 96);
});

for (const [name, form] of Object.entries(FORMS)) {
  test(`${name}: each is accepted, and once where the key counts`, async () => {
    let counted = 0;
    for (const visit of visits) {
      let { credential } = await registered(form, visit);
      for (const line of visit.sign_ins) {
        await assert.rejects(signIn(form, visit, line, credential, { verify: () => false }), { name: "W14" });
        const said = await signIn(form, visit, line, credential);
        assert.deepEqual(said.before, credential);
        credential = said.credential;
        if (data(line.response.response.authenticatorData).readUInt32BE(33) === 0) continue;
        await assert.rejects(signIn(form, visit, line, credential), { name: "W15", step: "CounterNotGreater", number: 15 });
        counted++;
      }
    }
    assert.ok(counted >= 64, `${counted}`);
  });

  test(`${name}: what is told is that of the bytes`, async () => {
    for (const visit of visits) {
      const made = await registered(form, visit), { response } = visit.registration;
      const sent = data(response.response.authenticatorData ?? "");
      assert.deepEqual(made.credential.user, Uint8Array.from(data(visit.registration.session.user)));
      if (sent.length > 0) {
        const key = form.coseKeyOf(made.credential);
        assert.deepEqual(sent.subarray(55), Buffer.concat([made.credential.id, key, made.extensions]));
        assert.deepEqual([made.flags, made.userVerified, made.backedUp], [sent[32], (sent[32] & 4) !== 0, (sent[32] & 16) !== 0]);
        assert.deepEqual(Buffer.from(made.aaguid), sent.subarray(37, 53));
      }
      for (const line of visit.sign_ins) {
        const said = await signIn(form, visit, line, made.credential), signed = data(line.response.response.authenticatorData);
        assert.deepEqual([said.flags, said.userVerified, said.backedUp], [signed[32], (signed[32] & 4) !== 0, (signed[32] & 16) !== 0]);
        assert.deepEqual(signed, Buffer.concat([signed.subarray(0, 37), said.extensions]));
        assert.equal(said.credential.signCount, signed.readUInt32BE(33));
      }
    }
  });
}

test("no altered byte of what is signed is accepted", async () => {
  let tried = 0;
  for (const visit of visits.filter((_, index) => index % 6 === 0)) {
    const { credential } = await registered(node, visit), line = visit.sign_ins[0];
    for (const name of ["authenticatorData", "clientDataJSON", "signature"]) {
      for (let at = 0; at < data(line.response.response[name]).length; at++) {
        const response = changed(line.response, name, (value) => (value[at] ^= 1, value));
        await assert.rejects(signIn(node, visit, { ...line, response }, credential), node.Refused);
        tried++;
      }
    }
  }
  assert.ok(tried > 2_000, `${tried}`);
});

test("what the host verified by mistake is refused", async () => {
  const flip = (value) => (value[value.length - 1] ^= 1, true);
  const mistakes = [(a, x) => flip(x), (a, x, y, message) => flip(message), (a, x, y, m, signature) => flip(signature)];
  const answers = [1, "true", {}, [true], null, undefined, Promise.resolve(1), { then: (resolve) => resolve("true") }];
  for (const visit of visits.slice(0, 4)) {
    const { credential } = await registered(node, visit), line = visit.sign_ins[0];
    for (const verify of [...mistakes, ...answers.map((answer) => () => answer)])
      await assert.rejects(signIn(node, visit, line, credential, { verify }), { name: "W14" });
    await signIn(node, visit, line, credential, { verify: async () => true });
    await assert.rejects(signIn(node, visit, line, credential, { verify: () => Promise.reject(new Error("no mathematics")) }),
                         { message: "no mathematics" });
  }
});

test("an algorithm that WebCrypto does not have is no verdict", async (context) => {
  const { isValid } = await import(new URL("../node_modules/garvoeng/web_signatures.js", import.meta.url));
  const key = [node.EDDSA, new Uint8Array(32), new Uint8Array(0), new Uint8Array(1), new Uint8Array(64)], { subtle } = crypto;
  context.after(() => delete subtle.importKey);
  for (const [name, wanted] of [["NotSupportedError", "NotSupportedError"], ["DataError", false], ["OperationError", false]]) {
    subtle.importKey = async () => Promise.reject(new DOMException("none", name));
    assert.deepEqual(await isValid(...key).catch((error) => error.name), wanted);
  }
});

test("a signature of ES256 has one form in DER, by WebCrypto as by node:crypto", async () => {
  const { isValid } = await import(new URL("../node_modules/garvoeng/web_signatures.js", import.meta.url));
  const forms = await import(new URL("../node_modules/garvoeng/node_signatures.js", import.meta.url));
  const { privateKey, publicKey } = generateKeyPairSync("ec", { namedCurve: "P-256" }), { x, y } = publicKey.export({ format: "jwk" });
  const message = Buffer.from("message"), key = [node.ES256, data(x), data(y), message];
  for (let round = 0; round < 20; round++) {
    const good = sign("sha256", message, privateKey), size = good[3], rest = good.subarray(4);
    assert.deepEqual([await isValid(...key, good), forms.isValid(...key, good)], [true, true]);
    for (const bad of [Buffer.concat([good, Buffer.alloc(1)]), Buffer.concat([[0x30, good[1] + 1], good.subarray(2), [0]].map((part) => Buffer.from(part))),
                       good.subarray(0, -1), Buffer.from([0x30, 0x81, ...good.subarray(1)]), Buffer.from([0x30, good[1] + 1, 2, size + 1, 0, ...rest]),
                       Buffer.from([0x31, ...good.subarray(1)]), Buffer.from([0x30, good[1], 3, ...good.subarray(3)]), Buffer.alloc(0), Buffer.alloc(64)]) {
      const found = [await isValid(...key, bad), forms.isValid(...key, bad)];
      assert.deepEqual(found, [false, false], bad.toString("hex"));
    }
  }
});
