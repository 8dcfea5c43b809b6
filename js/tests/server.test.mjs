// Registrations and sign-ins by `Server`: accepted, refused at each step, and what hosts hand in by mistake.
import assert from "node:assert/strict";
import { randomBytes } from "node:crypto";
import { readFileSync } from "node:fs";
import { test } from "node:test";
import {
  BadInput, Credential, EDDSA, ES256, RS256, Refused, RegistrationSession, RowDamaged, Server, SignInSession, coseKeyOf, credentialFromCose, fromText,
  isCanonical, toText,
} from "garvoeng";
import { AT, BE, BS, Device, ED, UP, UV, changed } from "./device.mjs";

const inner = (name) => import(new URL(`../node_modules/garvoeng/${name}`, import.meta.url));
const { Module } = await inner("module.js"), { checkAnswer } = await inner("verdicts.js"), { serverOver } = await inner("server.js"), { isValid } = await inner("node_signatures.js");
const file = readFileSync(new URL("../node_modules/garvoeng/passkey.wasm", import.meta.url));

// In the open profile, which looks at each step of Level 2; level3.test.mjs has that of Level 3.
class OpenServer extends Server {
  constructor(rpId, origins, how) {
    super(rpId, origins, { profile: "open", ...how });
  }
}

const user = Buffer.from("account 7"), server = new OpenServer("example.com", ["https://example.com"]);
const free = () => false;
const outputs = "a16b6372656450726f7465637402";
const of = (session, more) => Object.assign(Object.create(Object.getPrototypeOf(session)), session, more);
const partsOf = ({ rawId, response: { authenticatorData, signature, clientDataJSON } }) =>
  ({ rawId: fromText(rawId), authData: fromText(authenticatorData), signature: fromText(signature), clientData: fromText(clientDataJSON) });
const withText = (response, name, text) => ({ ...response, response: { ...response.response, [name]: text } });

async function registered(device, how, on = server) {
  const { options, session } = on.registerBegin(user, "name");
  return on.registerComplete(session, device.register(options, how), { isRegistered: free });
}

for (const algorithm of [ES256, EDDSA, RS256]) {
  for (const isPacked of [false, true]) {
    test(`registration and sign-ins of ${algorithm}, ${isPacked ? "packed" : "none"}`, async () => {
      const device = new Device(algorithm), made = await registered(device, { isPacked });
      const { id, x, y, aaguid } = device, { credential } = made;
      assert.deepEqual(credential, new Credential({ id, user, algorithm, x, y, signCount: 0, eligible: false }));
      assert.deepEqual({ ...made, credential: null }, {
        credential: null, aaguid: Uint8Array.from(aaguid), format: isPacked ? "packed" : "none", userVerified: true, backedUp: false,
        flags: UP | UV | AT, extensions: new Uint8Array(0),
      });
      let now = credential;
      for (const count of [1, 2, 3]) {
        const { options, session } = server.authenticateBegin({ user, allow: [now], userVerification: "required" });
        const said = await server.authenticateComplete(session, device.signIn(options), { credential: async () => now });
        assert.equal(said.before, now);
        assert.deepEqual(said.credential, new Credential({ ...now, signCount: count }));
        now = said.credential;
      }
      assert.deepEqual(coseKeyOf(credential), Uint8Array.from(device.coseKey()));
      assert.deepEqual(credentialFromCose({ id, user, coseKey: device.coseKey(), signCount: 0, eligible: false }), credential);
    });
  }
}

test("a registration is refused at each step", async () => {
  const device = new Device(), { options, session } = server.registerBegin(user, "name", { userVerification: "required" });
  const good = device.register(options);
  const complete = (response = good, { on = server, begun = session, isRegistered = free, isFull = false } = {}) =>
    on.registerComplete(begun, response, { isRegistered, isFull });
  const text = (change) => changed(good, "clientDataJSON", (value) => Buffer.from(change(value.toString())));
  const binding = ',"tokenBinding":{"status":"present","id":"x"}}';
  const packed = device.register(options, { isPacked: true });
  const rows = [
    ["G1", complete(good, { begun: null })], ["G1", server.registerComplete(undefined, good, { isRegistered: free })],
    ["G2", complete(text(() => "{"))], ["G3", complete(text((said) => said.replace("create", "get")))],
    ["G4", complete(good, { begun: of(session, { challenge: new Uint8Array(32) }) })],
    ["G5", complete(good, { on: new OpenServer("example.com", ["https://www.example.com"]) })],
    ["G6", complete(text((said) => said.slice(0, -1) + binding))],
    ["G7", complete(changed(good, "attestationObject", (value) => value.subarray(0, -1)))],
    ["G8", complete(good, { on: new OpenServer("other.com", ["https://other.com", "https://example.com"]) })],
    ["G9", complete(device.register(options, { flags: UV | AT }))], ["G10", complete(device.register(options, { flags: UP | AT }))],
    ["G11", complete(good, { begun: of(session, { algorithms: [EDDSA, RS256] }) })],
    ["G12", complete(changed(good, "attestationObject", (value) => Buffer.from(value.toString("latin1").replace("dnone", "dnonf"), "latin1")))],
    ["G13", complete(changed(packed, "clientDataJSON", (value) => Buffer.from(value.toString().replace("false", "true"))))],
    ["G14", complete(good, { on: new OpenServer("example.com", ["https://example.com"], { acceptNone: false }) })],
    ["G14", complete(packed, { on: new OpenServer("example.com", ["https://example.com"], { acceptSelf: false }) })],
    ["G15", complete(good, { isRegistered: async () => true })],
    ["G16", complete(good, { isFull: true })],
  ];
  for (const [name, asked] of rows) await assert.rejects(asked, { name, isRegistration: true });
  await complete();
});

test("a sign-in is refused at each step", async () => {
  const device = new Device(), { credential } = await registered(device);
  const { options, session } = server.authenticateBegin({ user, allow: [device.id], userVerification: "required" });
  const good = device.signIn(options);
  const complete = (response = good, { on = server, begun = session, found = credential } = {}) =>
    on.authenticateComplete(begun, response, { credential: () => found });
  const text = (change) => changed(good, "clientDataJSON", (value) => Buffer.from(change(value.toString())));
  const other = Buffer.from("another"), binding = ',"tokenBinding":{"status":"present","id":"x"}}';
  const rows = [
    ["W1", complete(good, { begun: null })], ["W2", complete(good, { begun: of(session, { allow: [other] }) })],
    ["W3", complete(good, { found: null })], ["W3", server.authenticateComplete(session, good, { credential: () => undefined })],
    ["W3", complete(good, { found: { ...credential, retired: true } })], ["W3", complete(good, { found: { ...credential, id: other } })],
    ["W4", complete(good, { found: { ...credential, user: other } })], ["W4", complete(good, { begun: of(session, { user: null }) })],
    ["W4", complete(withText(good, "userHandle", ""))], ["W4", complete(good, { begun: of(session, { user: new Uint8Array(0) }) })],
    ["W4", complete(withText(good, "userHandle", toText(user)), { begun: of(session, { user: new Uint8Array(0) }) })],
    ["W5", complete(text(() => "{"))], ["W6", complete(text((said) => said.replace(".get", ".create")))],
    ["W7", complete(good, { begun: of(session, { challenge: new Uint8Array(32) }) })],
    ["W8", complete(good, { on: new OpenServer("example.com", ["https://www.example.com"]) })],
    ["W9", complete(text((said) => said.slice(0, -1) + binding))],
    ["W10", complete(changed(good, "authenticatorData", (value) => Buffer.concat([value, Buffer.alloc(1)])))],
    ["W11", complete(good, { on: new OpenServer("other.com", ["https://other.com", "https://example.com"]) })],
    ["W12", complete(device.signIn(options, { flags: UV }))], ["W13", complete(device.signIn(options, { flags: UP }))],
    ["W14", complete(changed(good, "signature", (value) => (value[10] ^= 1, value)))],
    ["W14", complete(good, { found: { ...credential, x: new Uint8Array(32) } })],
    ["W15", complete(good, { found: { ...credential, signCount: 9 } })],
    ["W16", complete(device.signIn(options, { flags: UP | UV | BE }))],
  ];
  for (const [name, asked] of rows) await assert.rejects(asked, { name, isRegistration: false });
  const unknown = await complete(device.signIn(options, { flags: UP | UV | BE | BS }), { found: { ...credential, eligible: null } });
  assert.deepEqual([unknown.backedUp, unknown.credential.eligible], [true, true]);
  const eligible = await complete(device.signIn(options, { flags: UP | UV | BE }), { found: { ...credential, eligible: true } });
  assert.deepEqual([eligible.backedUp, eligible.credential.eligible], [false, true]);
  assert.equal((await complete()).credential.signCount, 1);
});

test("counters up to 2^32 - 1", async () => {
  const device = new Device(), { credential } = await registered(device), { options, session } = server.authenticateBegin({ user });
  const signs = (count, signCount) => {
    device.count = count - 1;
    return server.authenticateComplete(session, device.signIn(options), { credential: () => ({ ...credential, signCount }) });
  };
  for (const [count, signCount] of [[2 ** 31, 2 ** 31 - 1], [2 ** 31 + 1, 2 ** 31], [2 ** 32 - 1, 2 ** 32 - 2], [2 ** 32 - 1, 1]])
    assert.equal((await signs(count, signCount)).credential.signCount, count);
  for (const [count, signCount] of [[1, 2 ** 31], [2 ** 31, 2 ** 31], [2 ** 31 - 1, 2 ** 31], [2 ** 32 - 1, 2 ** 32 - 1], [1, 2 ** 32 - 1]])
    await assert.rejects(signs(count, signCount), { name: "W15" });
});

test("extensions and the strict profile", async () => {
  const strict = new OpenServer("example.com", ["https://example.com"], { profile: "strict" }), device = new Device();
  const how = { flags: UP | UV | AT | ED, outputs };
  await assert.rejects(registered(device, how, strict), { name: "G7" });
  const { credential, extensions } = await registered(device, how);
  assert.equal(Buffer.from(extensions).toString("hex"), outputs);
  const { options, session } = server.authenticateBegin({ user }), response = device.signIn(options, { flags: UP | ED, outputs });
  await assert.rejects(strict.authenticateComplete(session, response, { credential: () => credential }), { name: "W10" });
  const said = await server.authenticateComplete(session, response, { credential: () => credential });
  assert.deepEqual([Buffer.from(said.extensions).toString("hex"), said.userVerified], [outputs, false]);
});

test("options of a registration", () => {
  const named = new OpenServer("example.com", ["https://example.com"], { rpName: "A site" });
  const one = { id: Buffer.from("one"), transports: ["usb", "internal"] };
  const { options, session } = named.registerBegin(user, "name", {
    displayName: "Display Name", exclude: [one, Buffer.from("two")], userVerification: "required", residentKey: "preferred",
    timeout: 60_000, hints: ["security-key"], authenticatorAttachment: "platform", extensions: { credProps: true }, algorithms: [EDDSA],
  });
  assert.deepEqual(options, {
    rp: { id: "example.com", name: "A site" }, user: { id: toText(user), name: "name", displayName: "Display Name" },
    challenge: toText(session.challenge), pubKeyCredParams: [{ type: "public-key", alg: -8 }],
    excludeCredentials: [{ type: "public-key", id: "b25l", transports: ["usb", "internal"] }, { type: "public-key", id: "dHdv" }],
    authenticatorSelection: { residentKey: "preferred", requireResidentKey: false, userVerification: "required",
                              authenticatorAttachment: "platform" },
    attestation: "none", timeout: 60_000, hints: ["security-key"], extensions: { credProps: true },
  });
  assert.deepEqual(session, new RegistrationSession({ challenge: session.challenge, user, userVerification: true, algorithms: [EDDSA], attestation: false }));
  const plain = server.registerBegin(user, "name");
  assert.deepEqual(plain.options.authenticatorSelection, { residentKey: "required", requireResidentKey: true, userVerification: "preferred" });
  assert.equal(plain.options.user.displayName, "name");
  assert.deepEqual(plain.session.algorithms, [ES256, EDDSA, RS256]);
  assert.equal(plain.session.userVerification, false);
});

test("options of a sign-in", () => {
  const allow = [Buffer.from("one"), { id: Buffer.from("two"), transports: ["hybrid"] }];
  const { options, session } = server.authenticateBegin({ user, allow, userVerification: "required", timeout: 1, hints: [], extensions: {} });
  assert.deepEqual(options, {
    challenge: toText(session.challenge), rpId: "example.com",
    allowCredentials: [{ type: "public-key", id: "b25l" }, { type: "public-key", id: "dHdv", transports: ["hybrid"] }],
    userVerification: "required", timeout: 1, hints: [], extensions: {},
  });
  assert.deepEqual(session, new SignInSession({ challenge: session.challenge, user, allow: allow.map((one) => one.id ?? one), userVerification: true }));
  const plain = server.authenticateBegin();
  assert.deepEqual(plain.options, { challenge: toText(plain.session.challenge), rpId: "example.com", allowCredentials: [], userVerification: "preferred" });
  assert.deepEqual([plain.session.user, plain.session.allow, plain.session.userVerification], [null, [], false]);
});

test("challenges: 32 bytes, of which none is ever the same", () => {
  for (const begin of [() => server.registerBegin(user, "name"), () => server.authenticateBegin()]) {
    const made = new Set(Array.from({ length: 100 }, () => begin().options.challenge));
    assert.equal(made.size, 100);
    for (const text of made) assert.equal(fromText(text, "it").length, 32);
  }
});

test("sessions as JSON", () => {
  for (const [kind, { session }] of [
    [RegistrationSession, server.registerBegin(user, "name", { userVerification: "required" })],
    [SignInSession, server.authenticateBegin({ user, allow: [user] })], [SignInSession, server.authenticateBegin()]]) {
    const text = JSON.stringify(session);
    assert.deepEqual(kind.fromJSON(text), session);
    assert.deepEqual(kind.fromJSON(JSON.parse(text)), session);
    for (const bad of ["", "{", "null", "7", "[]", "{}", null, undefined, text.replace("false", '"no"').replace("true", "1"),
                       text.replace(/"challenge":"./, '"challenge":"*')]) assert.throws(() => kind.fromJSON(bad), BadInput);
  }
});

test("a session that was kept has all of its ids, and each of them signs in", async () => {
  const devices = [EDDSA, ES256, EDDSA].map((algorithm, index) => new Device(algorithm, { id: Buffer.from(`key ${index}`) })), made = [];
  for (const device of devices) made.push((await registered(device)).credential);
  const { options, session } = server.authenticateBegin({ user, allow: made, userVerification: "required" }), kept = SignInSession.fromJSON(JSON.stringify(session));
  assert.deepEqual(kept.allow, made.map(({ id }) => id));
  for (const [index, device] of devices.entries())
    assert.equal((await server.authenticateComplete(kept, device.signIn(options), { credential: () => made[index] })).credential.signCount, 1);
  const other = new Device(EDDSA, { id: Buffer.from("key 3") }), { credential } = await registered(other);
  await assert.rejects(server.authenticateComplete(kept, other.signIn(options), { credential: () => credential }), { name: "W2" });
});

test("an id that is not the attested one", async () => {
  const device = new Device(), { options, session } = server.registerBegin(user, "name"), response = device.register(options);
  response.id = response.rawId = toText(Buffer.from("another id"));
  const refused = await server.registerComplete(session, response, { isRegistered: free }).then(() => null, (error) => error);
  assert.ok(refused instanceof Refused);
  assert.deepEqual([refused.name, refused.number, refused.isRegistration], ["G19", 19, true]);
  const elsewhere = new Server("example.com", ["https://www.example.com"]);
  for (const [name, of, how] of [["G5", elsewhere, { isRegistered: free }], ["G19", server, { isRegistered: () => true }], ["G19", server, { isRegistered: free, isFull: true }]])
    await assert.rejects(of.registerComplete(session, response, how), { name });
  const made = new Refused(true, 19, "the response's id is not the attested credential's");
  assert.deepEqual([made.name, made.step, made.message], ["G19", "OtherId", "OtherId: the response's id is not the attested credential's"]);
});

test("an answer of the module below 100 is a step, also one that has no name here", () => {
  for (const [number, isRegistration, name] of [[18, true, "G18"], [19, true, "G19"], [19, false, "W19"], [99, true, "G99"]])
    assert.throws(() => checkAnswer(new Module(new WebAssembly.Module(file)), isRegistration, number), (error) => error instanceof Refused && error.name === name && error.number === number);
  for (const number of [100, 105, 126, 128]) assert.throws(() => checkAnswer(new Module(new WebAssembly.Module(file)), true, number), { name: "BadInput", number });
});

test("a module of another version is refused", () => {
  const { exports } = new WebAssembly.Instance(new WebAssembly.Module(file), {}), { Instance } = WebAssembly;
  for (const version of [4, 6]) {
    WebAssembly.Instance = function () {
      return { exports: { ...exports, passkey_abi_version: () => version } };
    };
    try {
      assert.throws(() => new Module(new WebAssembly.Module(file)), /another version/);
    } finally {
      WebAssembly.Instance = Instance;
    }
  }
});

test("a session of another kind is none", async () => {
  const device = new Device(), { credential } = await registered(device);
  const { options, session } = server.authenticateBegin({ user });
  const registration = server.registerBegin(user, "name");
  // A text is none: a page's visitor may have written it, whatever it says.
  for (const text of ["", "text", JSON.stringify(registration.session), "0".repeat(32)]) {
    await assert.rejects(server.registerComplete(text, device.register(registration.options), { isRegistered: free }), { name: "G1" });
    await assert.rejects(server.authenticateComplete(text === "" ? text : JSON.stringify(session), device.signIn(options), { credential: () => credential }), { name: "W1" });
  }
  for (const begun of [session, JSON.parse(JSON.stringify(registration.session)), { ...registration.session }, 7, new String("text"), true])
    await assert.rejects(server.registerComplete(begun, device.register(registration.options), { isRegistered: free }), BadInput);
  for (const begun of [registration.session, JSON.parse(JSON.stringify(session)), 7])
    await assert.rejects(server.authenticateComplete(begun, device.signIn(options), { credential: () => credential }), BadInput);
});

test("transports are handed on as they can be", async () => {
  const device = new Device(), { options, session } = server.registerBegin(user, "name"), good = device.register(options);
  for (const [transports, wanted] of [[["usb", "internal"], ["usb", "internal"]], [undefined, []], ["usb", []], [{ length: 1, 0: "usb" }, []],
                                      [["usb", 7, null, "A", "x".repeat(33), "<b>", "nfc"], ["usb", "nfc"]], [Array(99).fill("usb"), Array(16).fill("usb")]]) {
    const { credential } = await server.registerComplete(session, withText(good, "transports", transports), { isRegistered: free });
    assert.deepEqual(credential.transports, wanted);
  }
});

test("what hosts hand in by mistake", async () => {
  const device = new Device(), { credential } = await registered(device), { options, session } = server.authenticateBegin({ user });
  const response = device.signIn(options);
  for (const bad of [{ signCount: -1 }, { signCount: 2 ** 32 }, { signCount: "1" }, { signCount: 1n }, { signCount: 0.5 }, { signCount: NaN },
                     { signCount: null }, { algorithm: -9 }, { algorithm: "-7" }, { algorithm: 2 ** 32 - 7 }, { x: "text" }, { id: null },
                     { y: [1] }, { user: undefined }, { retired: 0 }, { retired: "false" }, { retired: null }, { eligible: 1 }, { eligible: "true" }]) {
    const found = { ...credential, ...bad };
    await assert.rejects(server.authenticateComplete(session, response, { credential: () => found }), (error) => error instanceof RowDamaged && toText(error.id) === toText(device.id));
    await assert.rejects(server.authenticateCompleteParts(session, found, partsOf(response)), BadInput);
  }
  for (const [bad, number] of [[{ x: new Uint8Array(31) }, 105], [{ y: new Uint8Array(33) }, 106]]) {
    await assert.rejects(server.authenticateComplete(session, response, { credential: () => ({ ...credential, ...bad }) }), ({ name, cause }) => name === "RowDamaged" && cause.number === number);
    await assert.rejects(server.authenticateCompleteParts(session, { ...credential, ...bad }, partsOf(response)), { number, name: "BadInput" });
  }
  await assert.rejects(server.authenticateComplete(of(session, { challenge: user }), response, { credential: () => credential }), { number: 103 });
  await assert.rejects(server.authenticateComplete(session, response, { credential: () => Promise.reject(new Error("no rows")) }), { message: "no rows" });
  for (const value of ["text", [1, 2], null, new ArrayBuffer(3), new Uint16Array(3)])
    await assert.rejects(server.authenticateCompleteParts(session, credential, { rawId: value, authData: user, signature: user, clientData: user }), BadInput);
  const rows = [
    () => server.registerBegin("account 7", "name"), () => server.registerBegin(new Uint8Array(0), "name"),
    () => server.registerBegin(new Uint8Array(65), "name"), () => server.registerBegin(user), () => server.registerBegin(user, 7),
    () => server.registerBegin(user, "name", { displayName: 7 }), () => server.registerBegin(user, "name", { exclude: user }),
    () => server.registerBegin(user, "name", { exclude: [new Uint8Array(0)] }), () => server.registerBegin(user, "name", { exclude: [new Uint8Array(1024)] }),
    () => server.registerBegin(user, "name", { exclude: Array(65).fill(user) }), () => server.registerBegin(user, "name", { exclude: ["b25l"] }),
    () => server.registerBegin(user, "name", { exclude: [null] }), () => server.registerBegin(user, "name", { algorithms: [-258] }), () => server.registerBegin(user, "name", { algorithms: [] }),
    () => server.registerBegin(user, "name", { algorithms: -7 }), () => server.registerBegin(user, "name", { residentKey: 1 }),
    () => server.registerBegin(user, "name", { userVerification: "true" }), () => server.registerBegin(user, "name", { userVerification: "yes" }),
    () => server.registerBegin(user, "name", { timeout: 0 }), () => server.registerBegin(user, "name", { timeout: "1" }),
    () => server.registerBegin(user, "name", { hints: ["none"] }), () => server.registerBegin(user, "name", { hints: "hybrid" }),
    () => server.registerBegin(user, "name", { authenticatorAttachment: "any" }), () => server.registerBegin(user, "name", { extensions: [] }),
    () => server.authenticateBegin({ user: "7" }), () => server.authenticateBegin({ allow: "7" }),
    () => server.authenticateBegin({ userVerification: null }), () => server.authenticateBegin({ timeout: 2 ** 32 }),
    () => isCanonical("a0"), () => coseKeyOf({ ...credential, x: new Uint8Array(3) }), () => coseKeyOf({ ...credential, algorithm: -9 }),
    () => credentialFromCose({ ...credential, coseKey: Buffer.concat([device.coseKey(), Buffer.alloc(1)]) }),
  ];
  for (const call of rows) assert.throws(call, BadInput, `${call}`);
  assert.ok(Object.isFrozen(credential) && Object.isFrozen(session) && Object.isFrozen(session.allow));
  assert.ok(isCanonical(Buffer.from("a10102", "hex")) && !isCanonical(Buffer.from("a1010200", "hex")) && !isCanonical(Buffer.from("1801", "hex")));
});

test("base64url has one spelling", () => {
  for (const text of ["AA==", "AA=", "A", "AB", "AAB", "A A", "AA\n", "+A", "/A", "\uff21A", "AAAAA", "=", "AA-_=", "\u0141A", "AA\0"])
    assert.throws(() => fromText(text, "it"), BadInput, text);
  for (let size = 0; size < 70; size++)
    for (const value of [Buffer.alloc(size), Buffer.alloc(size, 255), Buffer.from([...Array(size).keys()])]) {
      assert.equal(toText(value), value.toString("base64url"));
      assert.deepEqual(fromText(toText(value), "it"), Uint8Array.from(value));
    }
  const letters = "ABCDEFGHIJKLMNOPQRSTUVWXYZabcdefghijklmnopqrstuvwxyz0123456789-_";
  let taken = 0;
  for (let code = 0; code < 0x10000; code += code < 300 ? 1 : 251)
    for (const text of [`${String.fromCharCode(code)}AAA`, `AA${String.fromCharCode(code)}`, `A${String.fromCharCode(code)}`])
      try {
        assert.equal(toText(fromText(text, "it")), text);
        taken++;
      } catch (error) {
        if (!(error instanceof BadInput)) throw error;
      }
  assert.equal(taken, 64 + 16 + 4, letters);
});

test("the size of a response", async () => {
  const { options, session } = server.registerBegin(user, "name"), made = new Device().register(options);
  const rest = made.rawId.length + made.response.attestationObject.length, fits = ((65_536 - rest) >> 2) * 4;
  await assert.rejects(server.registerComplete(session, withText(made, "clientDataJSON", "A".repeat(fits)), { isRegistered: free }), Refused);
  await assert.rejects(server.registerComplete(session, withText(made, "clientDataJSON", "A".repeat(fits + 4)), { isRegistered: free }),
                       { text: "the response is too long" });
});

test("rp ids and origins that are none", () => {
  for (const rpId of ["https://example.com", "example.com/", "Example.com", "", "example.com:443", "example..com", ".com", "127.0.0.1", "a".repeat(254),
                      "ex\u00e4mple.com", "example.com.", null, undefined, 7, "-a.com", "a b", "example.com\n"])
    assert.throws(() => new Server(rpId, ["https://example.com"]), BadInput, `${rpId}`);
  for (const origins of [[], "https://example.com", ["https://example.com/"], ["https://Example.com"], ["HTTPS://example.com"], ["example.com"], [""],
                         [null], ["https://example.com:443"], ["http://example.com:80"], ["https://example.com:0443"], ["https://example.com:70000"],
                         ["https://user@example.com"], ["https://example.com?x"], ["null"], ["*"], ["https://*.example.com"], ["https://other.com"],
                         ["https://notexample.com"], ["https://example.com.evil.com"], ["https://com"], ["https://example.com", "https://example.com/"],
                         ["https://example.com\n"], undefined, null])
    assert.throws(() => new OpenServer("example.com", origins), BadInput, `${origins}`);
  for (const [rpId, origins] of [["example.com", ["https://example.com:8443"]], ["example.com", ["https://a.b.example.com"]],
                                 ["localhost", ["http://localhost:8080"]], ["example.com", ["android:apk-key-hash:abc-_"]],
                                 ["example.com", ["https://example.com", "https://example.org"]], ["intern", ["https://intern"]]])
    assert.deepEqual(new Server(rpId, origins).origins, origins);
});
