// Objects of keys that are kept: a bounded number, by the algorithm and the exact bytes; and base64url with and without Node's buffers.
import assert from "node:assert/strict";
import { generateKeyPairSync, randomBytes, sign } from "node:crypto";
import { test } from "node:test";
import { EDDSA, ES256, RS256, toText } from "garvoeng";
import { isValid, kept } from "../node_modules/garvoeng/node_signatures.js";
import { Device } from "./device.mjs";

const message = Buffer.from("a message");

test("a key that is kept verifies as at first, and no other in its place", () => {
  const devices = [ES256, EDDSA, RS256].flatMap((algorithm) => [new Device(algorithm), new Device(algorithm)]), signed = devices.map((device) => device.sign(message));
  for (let time = 0; time < 3; time++)
    for (const [index, { algorithm, x, y }] of devices.entries())
      for (const [other, signature] of signed.entries()) assert.equal(isValid(algorithm, x, y, message, signature), index === other, `${time} ${index} ${other}`);
  const [{ x, y }] = devices, changed = Buffer.from(x);
  for (const [algorithm, first, second] of [[EDDSA, x, y], [ES256, y, x], [ES256, x, Buffer.alloc(32)], [ES256, Buffer.concat([x, y]), new Uint8Array(0)], [RS256, x, y], [7, x, y], ["-7", x, y], [`${ES256} `, x, y]])
    assert.equal(isValid(algorithm, first, second, message, signed[0]), false);
  assert.equal(isValid(ES256, changed, y, message, signed[0]), true);
  changed[0] ^= 1;
  assert.equal(isValid(ES256, changed, y, message, signed[0]), false, "the bytes, and not the array");
  assert.equal(isValid(ES256, new Uint8Array(x), new Uint8Array(y), message, signed[0]), true);
});

test("at most 4,096 keys are kept, those that were used last, and none that is no key", () => {
  const before = kept.size, used = new Device(EDDSA), signature = used.sign(message);
  for (let time = 0; time < 50; time++) assert.equal(isValid(ES256, randomBytes(32), randomBytes(32), message, signature), false);
  assert.equal(kept.size, before, "no points of the curve");
  for (let time = 0; time < 4_300; time++) {
    isValid(EDDSA, randomBytes(32), new Uint8Array(0), message, signature);
    if (time % 1_000 === 0) assert.equal(isValid(EDDSA, used.x, used.y, message, signature), true);
  }
  const nameOf = ({ algorithm, x, y }) => `${algorithm} ${toText(x)} ${toText(y)}`;
  assert.deepEqual([kept.size, kept.has(nameOf(used)), [...kept.keys()].indexOf(nameOf(used))], [4_096, true, 4_096 - 300], "the key that was used last but for 299");
  const { publicKey, privateKey } = generateKeyPairSync("rsa", { modulusLength: 2048 }), { n, e } = publicKey.export({ format: "jwk" });
  assert.equal(isValid(RS256, Buffer.from(n, "base64url"), Buffer.from(e, "base64url"), message, sign("sha256", message, privateKey)), true);
  assert.equal(kept.size, 4_096);
});

test("base64url with Node's buffers and without them", async () => {
  const { Buffer: own } = globalThis;
  class Lying extends Uint8Array {
    get length() {
      return 1e9;
    }
  }
  const values = [0, 1, 2, 3, 4, 5, 6, 31, 32, 33, 1_023, 70_000].flatMap((size) => [randomBytes(size), new Uint8Array(randomBytes(size + 9)).subarray(4, size + 4), new Uint8Array(size).fill(255)]);
  for (const Kind of [undefined, { isEncoding: () => false }, {}]) {
    globalThis.Buffer = Kind;
    const { toText: alone } = await import(`../node_modules/garvoeng/forms.js?${Kind}${Math.random()}`).finally(() => (globalThis.Buffer = own));
    for (const value of values) {
      const wanted = own.from(value).toString("base64url");
      assert.ok(alone(value) === wanted && toText(value) === wanted, `${value.length}`);
    }
    assert.deepEqual([alone(new Lying(3)), toText(new Lying(3)), alone(new Uint8Array(0))], ["AAAA", "AAAA", ""]);
  }
});
