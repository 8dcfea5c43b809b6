// What the inspector tells of responses of browsers and of malformed ones: the step that is told as failed is the one that the library
// refuses by, with node:crypto for the signatures; all before it are passed, and none after it is reached.
import assert from "node:assert/strict";
import { createPublicKey } from "node:crypto";
import { readFileSync } from "node:fs";
import { test } from "node:test";
import * as garvoeng from "../../js/index.js";
import { explain } from "../explain.mjs";
import { libraryIn, stepsInPages } from "../tools.mjs";
import { accepted, notJudged, refused } from "./cases.mjs";

const library = await libraryIn(), steps = await stepsInPages(), { fromText } = garvoeng;
const told = (input) => explain(input, library, steps);
const recorded = ["../../python/tests/recorded.json", "../../c/machines/firefox.json"].map((file) => JSON.parse(readFileSync(new URL(file, import.meta.url))));

function rowBySpki({ id, user, spki_key, sign_count, eligible, retired }) {
  const { kty, x, y = "", n, e } = createPublicKey({ key: Buffer.from(spki_key, "base64url"), type: "spki", format: "der" }).export({ format: "jwk" });
  const algorithm = { EC: garvoeng.ES256, OKP: garvoeng.EDDSA, RSA: garvoeng.RS256 }[kty];
  return new garvoeng.Credential({ id: fromText(id), user: fromText(user), algorithm, x: fromText(x ?? n), y: fromText(e ?? y), signCount: sign_count, eligible, retired });
}

// The verdict of the package for Node, by the same case: null where it is accepted, the step's code, or the error's text.
async function verdictOf({ response, rp_id, origins, session, credential = null, ...how }) {
  const { top_origins: topOrigins = [], profile, accept_none: acceptNone, accept_self: acceptSelf, registered = false, full = false } = how;
  const options = Object.fromEntries(Object.entries({ topOrigins, profile, acceptNone, acceptSelf }).filter(([, value]) => value !== undefined));
  try {
    const server = new garvoeng.Server(rp_id, origins, options);
    if (response.response.attestationObject !== undefined) {
      const begun = session === null ? null : garvoeng.RegistrationSession.fromJSON(session);
      await server.registerComplete(begun, response, { isRegistered: () => registered, isFull: full });
    } else {
      const { spki_key } = credential ?? {}, row = credential === null ? null : spki_key !== undefined ? rowBySpki(credential) : new garvoeng.Credential({
        ...Object.fromEntries(["id", "user", "x", "y"].map((name) => [name, fromText(credential[name])])), algorithm: credential.algorithm,
        signCount: credential.sign_count, eligible: credential.eligible, retired: credential.retired });
      await server.authenticateComplete(session === null ? null : garvoeng.SignInSession.fromJSON(session), response, { credential: () => row });
    }
    return null;
  } catch (error) {
    return error instanceof garvoeng.Refused ? error.name : error.message;
  }
}

// The states of the steps are those of a verdict: of the code of a step, or null.
function checkStates({ kind, steps: listed }, code) {
  const order = steps[kind].map((step) => step.code), failed = code === null ? order.length : order.indexOf(code);
  assert.deepEqual(listed.map((step) => step.code), order);
  assert.deepEqual(listed.map(({ state }) => state), order.map((_, index) => (index < failed ? "passed" : index === failed ? "failed" : "not reached")));
}

function checkRefused(found, code) {
  assert.deepEqual([found.verdict, found.refusal?.code, found.fault], ["refused", code, null]);
  checkStates(found, code);
  const failed = found.steps.find((step) => step.code === code);
  assert.ok(failed.bytes.length > 0 && failed.asks.endsWith("?") && failed.advice !== "" && failed.refusal === found.refusal.text);
}

test("the responses of browsers are accepted, and each step is passed", async () => {
  let tried = 0;
  for (const { origin, visits } of recorded) {
    for (const { registration, sign_ins } of visits) {
      const party = { rp_id: "localhost", origins: [origin] }, first = await told({ ...party, ...registration });
      let { credential } = first;
      assert.equal(first.verdict, "accepted");
      checkStates(first, null);
      const user = credential.user;
      for (const signIn of sign_ins) {
        const input = { ...party, ...signIn, credential }, found = await told(input);
        assert.deepEqual([found.verdict, found.credential.user, await verdictOf(input)], ["accepted", user, null]);
        checkStates(found, null);
        checkRefused(await told({ ...input, session: null }), "W1");
        ({ credential } = found);
        tried++;
      }
      tried++;
    }
  }
  assert.equal(tried, 144);
});

test("what is told of a browser's response is what stands in it", async () => {
  for (const { origin, visits } of recorded) {
    for (const { registration } of visits) {
      const { decoded, credential } = await told({ rp_id: "localhost", origins: [origin], ...registration }), { response } = registration.response;
      const sent = Buffer.from(response.authenticatorData ?? "", "base64url"), { attested, flags, rp_id_hash, sign_count, extensions, fault } = decoded.authenticator_data;
      assert.deepEqual([decoded.client_data.members.origin, decoded.client_data.fault, fault], [origin, null, null]);
      assert.equal(Buffer.from(attested.id, "hex").toString("base64url"), credential.id);
      assert.deepEqual(library.credentialFromCose({ id: fromText(credential.id), user: fromText(credential.user), signCount: 0, coseKey: Buffer.from(attested.key.cose, "hex") }).x,
                       fromText(credential.x));
      if (sent.length === 0) continue;
      assert.deepEqual([rp_id_hash, flags.hex, sign_count, attested.aaguid],
                       [sent.subarray(0, 32).toString("hex"), sent.subarray(32, 33).toString("hex"), sent.readUInt32BE(33), sent.subarray(37, 53).toString("hex")]);
      assert.equal(extensions !== null, (sent[32] & 0x80) !== 0);
    }
  }
});

for (const [what, input] of Object.entries(accepted)) {
  test(`accepted: ${what}`, async () => {
    const found = await told(input);
    assert.deepEqual([found.verdict, await verdictOf(input)], ["accepted", null]);
    checkStates(found, null);
  });
}

test("there are enough, and each step refuses one", () => {
  assert.ok(refused.length >= 100, `${refused.length}`);
  assert.deepEqual(new Set(refused.map(([, , code]) => code)), new Set([...steps.registration, ...steps["sign-in"]].map(({ code }) => code)));
});

for (const [what, input, code] of refused) {
  test(`${code}: ${what}`, async () => {
    assert.equal(await verdictOf(input), code);
    checkRefused(await told(input), code);
  });
}

for (const [what, input, words] of notJudged) {
  test(`not judged: ${what}`, async () => {
    const found = await told(input);
    assert.equal(found.verdict, "not judged");
    assert.ok(found.fault.includes(words), found.fault);
    assert.ok(found.steps.every(({ state }) => state === "not reached"));
  });
}

test("what is told is JSON, and the same twice", async () => {
  for (const [, input] of refused) {
    const text = JSON.stringify(await told(input));
    assert.equal(JSON.stringify(JSON.parse(text)), text);
    assert.equal(JSON.stringify(await told(input)), text);
  }
});

test("the steps are those that have words", () => {
  const words = JSON.parse(readFileSync(new URL("../questions.json", import.meta.url)));
  for (const kind of ["registration", "sign-in"]) assert.deepEqual(new Set(steps[kind].map(({ name }) => name)), new Set(Object.keys(words[kind])));
});
