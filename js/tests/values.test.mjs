// `Credential`, `KeptCredential`, `Registered` and `SignedIn` as JSON and back, and hostile JSON in their place. Python's
// test_values_in_json.py has the same texts.
import assert from "node:assert/strict";
import { test } from "node:test";
import { BadInput, Credential, EDDSA, ES256, KeptCredential, RS256, Registered, RegistrationSession, SignInSession, SignedIn } from "garvoeng";

const bytes = (text) => new Uint8Array(Buffer.from(text)), zeros = (size) => new Uint8Array(size);
const es = new Credential({ id: bytes("id"), user: bytes("user"), algorithm: ES256, x: zeros(32), y: zeros(32), signCount: 7, eligible: null, retired: true, transports: ["usb", "nfc"] });
const ed = new Credential({ id: zeros(1023), user: zeros(64), algorithm: EDDSA, x: zeros(32), y: zeros(0), signCount: 2 ** 32 - 1, eligible: false });
const rsa = new Credential({ id: zeros(1), user: zeros(1), algorithm: RS256, x: zeros(256), y: bytes("\u0001\0\u0001"), signCount: 0, eligible: true });
const kept = new KeptCredential({ ...es, aaguid: zeros(16), backedUp: true, createdAt: 1, usedAt: 2 });
const registered = new Registered({ credential: es, aaguid: zeros(16), format: "packed", userVerified: true, backedUp: false, flags: 255, extensions: bytes("x") });
const signedIn = new SignedIn({ credential: es, before: ed, userVerified: true, backedUp: false, flags: 1, extensions: zeros(0) });
const values = [es, ed, rsa, kept, new KeptCredential({ ...ed }), registered, new Registered({ ...registered, credential: rsa, format: "none", flags: 0 }), signedIn,
                new SignedIn({ ...signedIn, before: null, flags: 29 })];
const text = `{"credential":{"id":"aWQ","user":"dXNlcg","algorithm":-8,"x":"${"A".repeat(43)}","y":"","sign_count":1,"eligible":null,"retired":false,"transports":["usb"]},` +
  '"before":null,"user_verified":true,"backed_up":false,"flags":5,"extensions":""}';
const hostile = [null, 7, -1, 1.5, 2 ** 63, "", "A", "AA==", "\u00e9", "required", [], [null], ["A"], {}, { x: 1 }, true, false, [true], "x".repeat(70_000), "[", undefined, 7n, Symbol("a"),
                 () => 1, new Proxy({}, { get() { return "AA"; } })];

test("there and back", () => {
  for (const value of values) {
    const kind = value.constructor, said = value.toJSON();
    for (const form of [said, JSON.stringify(value), JSON.parse(JSON.stringify(value)), { ...said, more: 1 }, JSON.parse(JSON.stringify({ ...said, more: 1 }).replace('"more"', '"__proto__"'))]) {
      const read = kind.fromJSON(form);
      assert.deepEqual(read, value);
      assert.ok(Object.isFrozen(read) && Object.getPrototypeOf(read) === kind.prototype);
    }
  }
});

test("the words are those of Python", () => {
  const read = SignedIn.fromJSON(text);
  assert.deepEqual(read.credential, new Credential({ id: bytes("id"), user: bytes("user"), algorithm: EDDSA, x: zeros(32), y: zeros(0), signCount: 1, transports: ["usb"] }));
  assert.equal(JSON.stringify(read), text);
  assert.deepEqual(Object.keys(kept.toJSON()).slice(-4), ["aaguid", "backed_up", "created_at", "used_at"]);
  assert.deepEqual(Object.keys(registered.toJSON()), ["credential", "aaguid", "format", "user_verified", "backed_up", "flags", "extensions"]);
});

test("each member of another kind, or left out, is refused, or is the value that it says", () => {
  for (const value of values) {
    const kind = value.constructor, said = JSON.parse(JSON.stringify(value));
    let taken = 0;
    for (const name of Object.keys(said)) {
      const { [name]: _, ...without } = said;
      assert.throws(() => kind.fromJSON(without), BadInput, `${kind.name} without ${name}`);
      for (const other of hostile) {
        const form = { ...said, [name]: other };
        let read;
        try {
          read = kind.fromJSON(form);
        } catch (error) {
          assert.ok(error instanceof BadInput, `${kind.name}.${name} ${error}`);
          continue;
        }
        taken++;
        assert.deepEqual(JSON.parse(JSON.stringify(read)), JSON.parse(JSON.stringify(form)));
      }
    }
    assert.ok(taken <= 2 * Object.keys(said).length + 6, `${taken}`);
    for (const whole of ["", "{", "[]", "null", "7", null, undefined, 7, [], {}, "[".repeat(100_000), Symbol("a"), () => said, true, new Uint8Array(4), [said]])
      assert.throws(() => kind.fromJSON(whole), BadInput, String(whole).slice(0, 40));
  }
});

test("members out of their limits", () => {
  const rows = [["id", ""], ["id", "A".repeat(1368)], ["user", ""], ["user", "A".repeat(88)], ["x", "A".repeat(42)], ["x", "A".repeat(44)], ["y", ""], ["y", "A".repeat(44)], ["algorithm", -9],
                ["algorithm", "-7"], ["algorithm", true], ["sign_count", 2 ** 32], ["sign_count", true], ["sign_count", "7"], ["eligible", 0], ["retired", null], ["retired", 0], ["transports", "usb"],
                ["transports", null], ["transports", ["USB"]], ["transports", Array(17).fill("usb")], ["transports", { usb: 1 }], ["transports", ["a,b"]]];
  for (const [name, value] of rows)
    for (const [kind, whole] of [[Credential, es], [KeptCredential, kept]]) assert.throws(() => kind.fromJSON({ ...whole.toJSON(), [name]: value }), BadInput, name);
  for (const [name, value] of [["aaguid", "AAAA"], ["aaguid", null], ["format", "fido-u2f"], ["format", null], ["format", ["none"]], ["flags", 256], ["flags", -1], ["flags", true], ["user_verified", 1],
                               ["backed_up", null], ["extensions", null], ["credential", null], ["credential", JSON.stringify(es)]])
    assert.throws(() => Registered.fromJSON({ ...registered.toJSON(), [name]: value }), BadInput, name);
  for (const before of ["x", [], {}, undefined, 7]) assert.throws(() => SignedIn.fromJSON({ ...signedIn.toJSON(), before }), BadInput);
  for (const bad of [{ backedUp: 1 }, { createdAt: -1 }, { createdAt: "1" }, { usedAt: 1.5 }, { usedAt: 1n }, { aaguid: "AA" }, { retiredAt: 1 }, { signCounts: 1 }])
    assert.throws(() => new KeptCredential({ ...es, ...bad }), BadInput);
});

test("one for another, and sessions", () => {
  for (const value of values)
    for (const kind of [Credential, KeptCredential, Registered, SignedIn])
      if (!(value instanceof kind) && !(kind === Credential && value instanceof Credential)) assert.throws(() => kind.fromJSON(value.toJSON()), BadInput);
  assert.equal(Object.getPrototypeOf(Credential.fromJSON(kept.toJSON())), Credential.prototype);
  const registration = { challenge: "AA", user: "AA", user_verification: false, algorithms: [-7] }, signIn = { challenge: "AA", user: null, allow: [], user_verification: false };
  assert.ok(RegistrationSession.fromJSON(registration) && SignInSession.fromJSON(signIn));
  for (const [kind, whole] of [[RegistrationSession, registration], [SignInSession, signIn]])
    for (const name of Object.keys(whole)) {
      const { [name]: _, ...without } = whole;
      assert.throws(() => kind.fromJSON(without), BadInput, name);
    }
  for (const algorithms of [[], [7], "-7", null, [-7.5], ["-7"]]) assert.throws(() => RegistrationSession.fromJSON({ ...registration, algorithms }), BadInput);
});

test("what another program added to Object.prototype is no member", (context) => {
  const names = ["aaguid", "backed_up", "before", "retired", "eligible", "flags", "kind", "conditional"];
  context.after(() => names.forEach((name) => delete Object.prototype[name]));
  for (const name of names) Object.prototype[name] = name === "flags" ? 5 : true;
  const { retired, eligible, ...rest } = JSON.parse(JSON.stringify(es));
  assert.throws(() => Credential.fromJSON({ ...rest, eligible }), BadInput);
  assert.throws(() => Credential.fromJSON({ ...rest, retired }), BadInput);
  assert.throws(() => KeptCredential.fromJSON(es.toJSON()), BadInput);
  const { before, flags, ...more } = signedIn.toJSON();
  assert.throws(() => SignedIn.fromJSON({ ...more, before: null }), BadInput);
  assert.throws(() => SignedIn.fromJSON({ ...more, flags }), BadInput);
  assert.deepEqual(KeptCredential.fromJSON(kept.toJSON()), kept);
});

test("a getter that throws is thrown, and its value read once", () => {
  const said = signedIn.toJSON();
  let reads = 0;
  Object.defineProperty(said, "flags", { enumerable: true, get() { reads++; throw new Error("a getter"); } });
  assert.throws(() => SignedIn.fromJSON(said), { message: "a getter" });
  assert.equal(reads, 1);
  const turning = { ...es.toJSON() };
  let told = 0;
  Object.defineProperty(turning, "sign_count", { enumerable: true, get: () => (told++ === 0 ? 5 : "x") });
  assert.deepEqual([Credential.fromJSON(turning).signCount, told], [5, 1]);
});
