// `garvoeng/browser` and the script of page.html, with calls in the place of a browser's.
import assert from "node:assert/strict";
import { readFileSync } from "node:fs";
import { afterEach, test } from "node:test";
import { autofill, canAutofill, isSupported, register, signIn, signalAllAccepted, signalUnknownCredential, signalUserDetails } from "garvoeng/browser";

const CREATION = { challenge: "AAAA", user: { id: "AQ", name: "ada" } }, REQUEST = { challenge: "AAAA", rpId: "localhost" };
const made = { toJSON: () => ({ id: "AQ" }) }, sleep = (milliseconds) => new Promise((resolve) => setTimeout(resolve, milliseconds));
const kept = ["navigator", "PublicKeyCredential", "fetch", "document"].map((name) => [name, Object.getOwnPropertyDescriptor(globalThis, name)]);
afterEach(() => kept.forEach(([name, was]) => (was === undefined ? delete globalThis[name] : Object.defineProperty(globalThis, name, was))));

function given(name, value) {
  Object.defineProperty(globalThis, name, { value, configurable: true, writable: true });
}

// A browser whose calls are answered by `answer(options)`; what it was asked.
function browser(answer = async () => made, { isAutofilling = true } = {}) {
  const asked = [], call = (name) => (options) => (asked.push([name, options.mediation, options.signal instanceof AbortSignal]), answer(options));
  given("PublicKeyCredential", { isConditionalMediationAvailable: async () => isAutofilling });
  given("navigator", { credentials: { create: call("create"), get: call("get") } });
  return asked;
}

const untilEnded = ({ signal }) => new Promise((_, reject) => {
  if (signal.aborted) reject(signal.reason);
  signal.addEventListener("abort", () => reject(signal.reason));
});

test("a browser without passkeys", async () => {
  assert.equal(isSupported(), false);
  assert.equal(await canAutofill(), false);
  for (const call of [register(CREATION), signIn(REQUEST), autofill(async () => REQUEST)]) await assert.rejects(call, { name: "NotSupportedError", message: "this browser has no passkeys" });
  browser();
  assert.deepEqual([isSupported(), await canAutofill()], [true, true]);
});

test("mediation is handed on, at a registration too", async () => {
  const asked = browser();
  assert.deepEqual(await register(CREATION, { mediation: "conditional" }), { id: "AQ" });
  await register(CREATION);
  await signIn(REQUEST, { mediation: "silent" });
  await signIn(REQUEST);
  assert.deepEqual(asked, [["create", "conditional", true], ["create", undefined, true], ["get", "silent", true], ["get", undefined, true]]);
});

test("inputs of extensions in a browser without JSON calls", async () => {
  let given;
  browser(async (options) => ((given = options.publicKey.extensions), made));
  const bytes = (...values) => Uint8Array.from(values), extensions = { credProps: true, prf: { eval: { first: "AQ", second: "Ag" } }, largeBlob: { support: "required" } };
  await register({ ...CREATION, extensions });
  assert.deepEqual(given, { credProps: true, prf: { eval: { first: bytes(1), second: bytes(2) } }, largeBlob: { support: "required" } });
  await signIn({ ...REQUEST, extensions: { prf: { evalByCredential: { AA: { first: "-_8" } } }, largeBlob: { write: "Aw" } } });
  assert.deepEqual(given, { prf: { evalByCredential: { AA: { first: bytes(251, 255) } } }, largeBlob: { write: bytes(3) } });
  await signIn({ ...REQUEST, extensions: { prf: {}, appid: "https://localhost" } });
  assert.deepEqual(given, { prf: {}, appid: "https://localhost" });
  await signIn(REQUEST);
  assert.equal(given, undefined);
});

test("what authenticators are told, where the browser has that", async () => {
  const told = { rpId: "localhost" }, calls = [["signalUnknownCredential", signalUnknownCredential], ["signalAllAcceptedCredentials", signalAllAccepted], ["signalCurrentUserDetails", signalUserDetails]], heard = [];
  for (const [, call] of calls) assert.equal(await call(told), false, "no passkeys");
  browser();
  for (const [, call] of calls) assert.equal(await call(told), false, "no such call");
  for (const [name] of calls) PublicKeyCredential[name] = async (one) => void heard.push([name, one]);
  for (const [, call] of calls) assert.equal(await call(told), true);
  assert.deepEqual(heard, calls.map(([name]) => [name, told]));
  PublicKeyCredential.signalUnknownCredential = () => Promise.reject(new TypeError("no base64url"));
  await assert.rejects(signalUnknownCredential(told), TypeError);
});

test("autofill asks anew for options before they are old, and ends by its signal or by another call", async () => {
  let begins = 0;
  const begin = async () => (begins++, REQUEST);
  let asked = browser(async (options) => (asked.length < 3 ? untilEnded(options) : made));
  assert.deepEqual(await autofill(begin, { milliseconds: 30 }), { id: "AQ" });
  assert.deepEqual([begins, asked], [3, Array(3).fill(["get", "conditional", true])]);
  browser(untilEnded);
  const controller = new AbortController(), ended = autofill(begin, { signal: controller.signal, milliseconds: 20 });
  setTimeout(() => controller.abort(new Error("enough")), 70);
  await assert.rejects(ended, { message: "enough" });
  assert.ok(begins >= 5);
  await assert.rejects(autofill(begin, { signal: AbortSignal.abort(new Error("before")) }), { message: "before" });
  const waits = autofill(begin), count = begins;
  await sleep(10);
  browser();
  await signIn(REQUEST);
  await assert.rejects(waits, { name: "AbortError" });
  await sleep(60);
  assert.ok(begins <= count + 1, "it does not begin anew");
  await assert.rejects(autofill(() => Promise.reject(new Error("no site"))), { message: "no site" });
  browser(() => Promise.reject(new DOMException("no", "NotAllowedError")));
  const timeout = globalThis.setTimeout, waited = [];
  globalThis.setTimeout = (...words) => (waited.push(words[1]), timeout(...words));
  await assert.rejects(autofill(begin), { name: "NotAllowedError" });
  globalThis.setTimeout = timeout;
  assert.deepEqual(waited, [240_000], "before the 300 seconds of a session are over");
});

test("autofill ends no call that began while the site answered", async () => {
  const asked = browser(async (options) => {
    await sleep(40);
    options.signal.throwIfAborted();
    return made;
  });
  const waits = autofill(async () => (await sleep(20), REQUEST)), signs = signIn(REQUEST);
  await assert.rejects(waits, { name: "AbortError" });
  assert.deepEqual([await signs, asked], [{ id: "AQ" }, [["get", undefined, true]]]);
});

test("the page begins anew where the session of its autofill had ended", async () => {
  const answers = [[403, { error: "SessionNotOpen", refusal: "W1" }], [403, { error: "SessionNotOpen", refusal: "W1" }], [200, { user: "QQ" }]], paths = [], elements = {};
  browser();
  given("document", { getElementById: (name) => (elements[name] ??= { value: "ada", textContent: "" }) });
  given("fetch", async (path) => {
    paths.push(path);
    const [status, told] = path.endsWith("/begin") ? [200, path.startsWith("/passkeys/sign-in") ? REQUEST : CREATION] : answers.shift();
    return { ok: status === 200, json: async () => told };
  });
  const [, script] = /<script type="module">\nimport \{[^}]*\} from "\/passkeys\/browser\.js";\n([^]*)<\/script>/.exec(readFileSync(new URL("../page.html", import.meta.url), "utf8"));
  const run = Object.getPrototypeOf(async () => {}).constructor;
  await new run("autofill", "canAutofill", "register", "signIn", script)(autofill, canAutofill, register, signIn);
  await sleep(50);
  assert.deepEqual(paths, Array(3).fill(["/passkeys/sign-in/begin", "/passkeys/sign-in/finish"]).flat());
  assert.equal(elements.said.textContent, "sign-in: QQ");
  answers.push([200, { user: "QQ" }], [403, { error: "WrongOrigin: no", refusal: "W8" }]);
  await elements.register.onclick();
  assert.equal(elements.said.textContent, "register: QQ");
  await elements["sign-in"].onclick();
  assert.deepEqual([elements.said.textContent, paths.length], ["sign-in: WrongOrigin: no", 10]);
});
