// `garvoeng/extensions`: the inputs in options, and what a client answers, in its form and in others.
import assert from "node:assert/strict";
import { test } from "node:test";
import { BadInput, Server, toText } from "garvoeng";
import { credProps, largeBlobRead, largeBlobSupport, largeBlobWrite, prf, resultsOf } from "garvoeng/extensions";

const FIRST = Uint8Array.from({ length: 32 }, (_, index) => index), SECOND = new Uint8Array(32), SHORT = Uint8Array.of(98);
const bytes = (text) => new TextEncoder().encode(text), VALUES = [undefined, null, true, 0, 1.5, NaN, "", "AA", [], {}, [1], { length: 32 }, () => {}, Symbol("s"), 1n, new Date(), new ArrayBuffer(4)];
const response = (results) => ({ id: "AA", rawId: "AA", type: "public-key", response: {}, clientExtensionResults: results });
const NOTHING = { discoverable: null, prfEnabled: null, prfFirst: null, prfSecond: null, largeBlobSupported: null, largeBlob: null, largeBlobWritten: null };

test("inputs", () => {
  assert.deepEqual({ ...credProps(), ...prf(), ...largeBlobSupport() }, { credProps: true, prf: {}, largeBlob: { support: "preferred" } });
  assert.deepEqual([largeBlobSupport(true), largeBlobRead(), largeBlobWrite(Uint8Array.of(255, 254))], [{ largeBlob: { support: "required" } }, { largeBlob: { read: true } }, { largeBlob: { write: "__4" } }]);
  const both = { first: toText(FIRST), second: "Yg" };
  assert.deepEqual([prf(FIRST, SHORT), prf(new Uint8Array(0))], [{ prf: { eval: both } }, { prf: { eval: { first: "" } } }]);
  assert.deepEqual(prf(undefined, undefined, { byCredential: new Map([[Uint8Array.of(251), [FIRST]], [bytes("id"), [FIRST, SHORT]]]) }),
    { prf: { evalByCredential: { "-w": { first: toText(FIRST) }, aWQ: both } } });
  const { options } = new Server("example.com", ["https://example.com"]).registerBegin(bytes("account"), "ada", { extensions: { ...credProps(), ...prf(FIRST) } });
  assert.deepEqual(JSON.parse(JSON.stringify(options)).extensions, { credProps: true, prf: { eval: { first: toText(FIRST) } } });
});

test("inputs that are none", () => {
  for (const value of VALUES) {
    assert.throws(() => prf(value, SHORT), BadInput);
    assert.throws(() => largeBlobWrite(value), BadInput);
    assert.throws(() => prf(undefined, undefined, { byCredential: new Map([[SHORT, [value]]]) }), BadInput);
    if (typeof value !== "boolean" && value !== undefined) assert.throws(() => largeBlobSupport(value), BadInput);
    if (value !== undefined) assert.throws(() => prf(undefined, undefined, { byCredential: value }), BadInput);
  }
  for (const wrong of [[new Uint8Array(0), [FIRST]], [new Uint8Array(1024), [FIRST]], ["id", [FIRST]], [SHORT, []], [SHORT, [FIRST, FIRST, FIRST]], [SHORT, FIRST]])
    assert.throws(() => prf(undefined, undefined, { byCredential: new Map([wrong]) }), BadInput);
});

test("results", () => {
  for (const given of [response({}), {}, response({ appid: true, credProps: null, prf: {}, largeBlob: {} }), { clientExtensionResults: null }]) assert.deepEqual(resultsOf(given), NOTHING);
  const found = resultsOf(response({ credProps: { rk: true, authenticatorDisplayName: "x" }, largeBlob: { supported: false, blob: "__4", written: true },
                                     prf: { enabled: true, results: { first: toText(FIRST), second: toText(SECOND) } } }));
  assert.deepEqual(found, { discoverable: true, prfEnabled: true, prfFirst: FIRST, prfSecond: SECOND, largeBlobSupported: false, largeBlob: Uint8Array.of(255, 254), largeBlobWritten: true });
  assert.equal(resultsOf(response({ prf: { results: { first: toText(FIRST), second: null } } })).prfSecond, null);
});

test("results that are none", () => {
  const first = toText(FIRST), output = (value) => ({ prf: { results: value } });
  const wrong = [...[true, 1, "rk", []].map((value) => ({ credProps: value })), ...[1, "true", [], {}].map((value) => ({ credProps: { rk: value } })),
    { prf: { enabled: "yes" } }, { prf: [] }, output("AA"), output({ second: first }), ...[1, "", "A", "AA", toText(new Uint8Array(31)), toText(new Uint8Array(33)), `${first}=`, [0], {}].map((value) => output({ first: value })),
    output({ first, second: "AA" }), { largeBlob: 1 }, ...[0, "true", []].flatMap((value) => [{ largeBlob: { supported: value } }, { largeBlob: { written: value } }]),
    ...[1, "A", "AA==", "+w", [1]].map((value) => ({ largeBlob: { blob: value } }))];
  for (const results of wrong) assert.throws(() => resultsOf(response(results)), (error) => error instanceof BadInput && error.message.includes("clientExtensionResults"), JSON.stringify(results));
  for (const value of VALUES)
    for (const given of [value, { clientExtensionResults: value }, response({ prf: value, credProps: value }), response({ largeBlob: { blob: value } })]) {
      try {
        resultsOf(given);
      } catch (error) {
        assert.ok(error instanceof BadInput, String(error));
      }
    }
  Object.prototype.prf = { enabled: true };
  try {
    assert.deepEqual(resultsOf(response({})), NOTHING);
  } finally {
    delete Object.prototype.prf;
  }
});
