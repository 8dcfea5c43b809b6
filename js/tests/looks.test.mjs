// What hosts write wrong: flags that are none, options that no call has, values that look-ups answer; and what each error says to write.
// Classes and bytes of another copy, and what another program adds to Object.prototype.
import assert from "node:assert/strict";
import { readdirSync } from "node:fs";
import { createRequire } from "node:module";
import { test } from "node:test";
import { fileURLToPath } from "node:url";
import { runInNewContext } from "node:vm";
import * as own from "garvoeng";
import { passkeys } from "garvoeng/http";
import { RateLimit } from "garvoeng/site";
import { SqlServer, SqlWebStore } from "garvoeng/sql";
import { Device } from "./device.mjs";

const { BadInput, Credential, Refused, RegistrationSession, RowDamaged, Server, SignInSession, StoredServer, credentialFromCose, fromText, toText } = own;
const common = createRequire(import.meta.url)("garvoeng"), origins = ["https://example.com"], user = Buffer.from("account 7"), secret = "s".repeat(32);
const server = new Server("example.com", origins), stored = new StoredServer("/none", "none.db", "example.com", origins, { logger: () => {} });
const pool = { connect: () => Promise.reject(new Error("none")), listenerCount: () => 1 }, sql = new SqlServer(server, pool);
const [challenge, id] = [new Uint8Array(32), new Uint8Array([1, 2, 3])];
const members = { id, user, algorithm: own.ES256, x: new Uint8Array(32), y: new Uint8Array(32), signCount: 0 };
const NO_FLAGS = [0, 1, "", "false", "true", null, [], {}, NaN, Symbol("a"), () => true];

// Registers, and gives what a sign-in takes.
async function visitor(on = server, device = new Device()) {
  const begun = on.registerBegin(user, "name"), { credential } = await on.registerComplete(begun.session, device.register(begun.options), { isRegistered: () => false });
  const { options, session } = on.authenticateBegin({ user });
  return { device, begun, credential, options, session };
}

async function said(call) {
  try {
    await call();
  } catch (error) {
    return error;
  }
  return null;
}

test("flags are true or false alone", async () => {
  const { device, begun } = await visitor(), response = device.register(begun.options), isRegistered = () => false;
  const rows = [
    ["acceptNone", (value) => new Server("example.com", origins, { acceptNone: value })], ["acceptSelf", (value) => new Server("example.com", origins, { acceptSelf: value })],
    ["acceptNone", (value) => new StoredServer("p", "f", "example.com", origins, { acceptNone: value })],
    ["existing", (value) => new StoredServer("p", "f", "example.com", origins, { existing: value })], ["wary", (value) => new StoredServer("p", "f", "example.com", origins, { wary: value })],
    ["conditional", (value) => server.registerBegin(user, "name", { conditional: value })], ["conditional", (value) => stored.registerBegin(user, "name", { conditional: value })],
    ["conditional", (value) => new RegistrationSession({ challenge, user, conditional: value })], ["attestation", (value) => new RegistrationSession({ challenge, user, attestation: value })],
    ["userVerification", (value) => new RegistrationSession({ challenge, user, userVerification: value })], ["userVerification", (value) => new SignInSession({ challenge, userVerification: value })],
    ["isFull", (value) => server.registerComplete(begun.session, response, { isRegistered, isFull: value })],
    ["isFull", (value) => server.registerCompleteParts(begun.session, { attestationObject: id, clientData: id }, { rawId: id, isRegistered: false, isFull: value })],
    ["isRegistered", (value) => server.registerCompleteParts(begun.session, { attestationObject: id, clientData: id }, { rawId: id, isRegistered: value })],
    ["what isRegistered answered", (value) => server.registerComplete(begun.session, response, { isRegistered: () => value })],
    ["what isRegistered answered", (value) => server.registerComplete(begun.session, response, { isRegistered: async () => value })],
    ["retired", (value) => new Credential({ ...members, retired: value })], ["eligible", (value) => value === null || new Credential({ ...members, eligible: value })],
    ["retired", (value) => credentialFromCose({ id, user, coseKey: device.coseKey(), signCount: 0, retired: value })],
    ["retired", (value) => value === null || server.signalAllAccepted(user, [{ id, retired: value }])],
  ];
  for (const [name, call] of rows)
    for (const value of NO_FLAGS) {
      if (value === null && ["eligible", "retired"].includes(name) && (await said(() => call(null))) === null) continue; // not known, and not said
      const error = await said(() => call(value));
      assert.ok(error instanceof BadInput && error.message.startsWith(`${name} is `) && error.message.endsWith(": write true or false"), `${name} ${String(value)}: ${error}`);
    }
  const forgotten = await said(() => server.registerComplete(begun.session, response, { isRegistered: () => {} }));
  assert.equal(forgotten?.message, "what isRegistered answered is undefined: write true or false", "a forgotten return");
  await server.registerComplete(begun.session, response, { isRegistered });
});

test("functions are functions", async () => {
  const { device, begun, session, options, credential } = await visitor(), response = device.register(begun.options);
  for (const value of [null, true, "verify", {}, credential, new Map()]) {
    const rows = [
      ["verify", () => new Server("example.com", origins, { verify: value })], ["verify", () => new StoredServer("p", "f", "example.com", origins, { verify: value })],
      ["logger", () => new StoredServer("p", "f", "example.com", origins, { logger: value })], ["logger", () => new SqlServer(server, pool, { logger: value })],
      ["logger", () => passkeys(stored, { secret, logger: value })],
      ["isRegistered", () => server.registerComplete(begun.session, response, { isRegistered: value })],
      ["credential", () => server.authenticateComplete(session, device.signIn(options), { credential: value })],
    ];
    for (const [name, call] of rows) {
      const error = await said(call);
      assert.ok(error instanceof BadInput && error.message.startsWith(`${name} is `) && error.message.includes(`: write a function, as ${name}: (`), `${name} ${String(value)}: ${error}`);
    }
  }
});

test("an option that no call has is named", async () => {
  const { device, begun, session, options } = await visitor(), response = device.register(begun.options);
  const rows = [
    ["topOrigin", (how) => new Server("example.com", origins, how)], ["isExisting", (how) => new StoredServer("p", "f", "example.com", origins, how)],
    ["lifeTime", (how) => new SqlServer(server, pool, how)], ["signOuts", (how) => passkeys(stored, { secret, ...how })], ["secure", (how) => passkeys(stored, how)],
    ["signin", (how) => sql.registerBegin(user, "name", how)], ["signIn", (how) => stored.registerBegin(user, "name", how)], ["signIn", (how) => server.registerBegin(user, "name", how)],
    ["userVerfication", (how) => server.registerBegin(user, "name", how)], ["excludeCredentials", (how) => server.registerBegin(user, "name", how)],
    ["excludeCredentials", (how) => stored.registerBegin(user, "name", how)], ["excludeCredentials", (how) => sql.registerBegin(user, "name", how)],
    ["allowCredentials", (how) => server.authenticateBegin(how)], ["allowCredentials", (how) => stored.authenticateBegin(how)], ["allowCredentials", (how) => sql.authenticateBegin(how)],
    ["full", (how) => server.registerComplete(begun.session, response, { isRegistered: () => false, ...how })],
    ["credentials", (how) => server.authenticateComplete(session, device.signIn(options), { credential: () => null, ...how })],
    ["authenticatorData", (how) => server.authenticateCompleteParts(session, null, { rawId: id, authData: id, signature: id, clientData: id, ...how })],
    ["clientDataJSON", (how) => server.registerCompleteParts(begun.session, { attestationObject: id, clientData: id, ...how }, { rawId: id, isRegistered: false })],
    ["freeId", (how) => server.registerCompleteParts(begun.session, { attestationObject: id, clientData: id }, { rawId: id, isRegistered: false, ...how })],
    ["presence", (how) => new RegistrationSession({ challenge, user, ...how })], ["allowed", (how) => new SignInSession({ challenge, ...how })],
    ["isRetired", (how) => new Credential({ ...members, ...how })], ["isRetired", (how) => credentialFromCose({ id, user, coseKey: device.coseKey(), signCount: 0, ...how })],
  ];
  for (const [name, call] of rows) {
    const error = await said(() => call({ [name]: true }));
    assert.ok(error instanceof BadInput && error.message.includes(` has no option "${name}": write `), `${name}: ${error}`);
    const polluted = await said(() => withPrototype({ [name]: true }, () => call({})));
    assert.ok(!String(polluted).includes(name), `${name} of Object.prototype: ${polluted}`);
  }
  for (const how of [null, 7, "x", [], true])
    for (const call of [() => new Server("example.com", origins, how), () => server.registerBegin(user, "name", how), () => stored.authenticateBegin(how), () => passkeys(stored, how),
                        () => new Credential(how), () => server.registerComplete(begun.session, response, how)])
      assert.ok((await said(call)) instanceof BadInput, `${call} ${how}`);
});

// What a call does while another program's members stand in Object.prototype.
async function withPrototype(added, call) {
  Object.assign(Object.prototype, added);
  try {
    return await call();
  } finally {
    for (const name of Object.keys(added)) delete Object.prototype[name];
  }
}

test("what stands in Object.prototype is no option, no member, and ends no sign-in", async () => {
  const added = {
    conditional: true, profile: "open", userVerification: "required", acceptNone: false, isFull: true, retired: true, eligible: true, verify: () => true, exclude: [id], allow: [id],
    timeout: 5, transports: ["usb"], clientExtensionResults: 7, authenticatorAttachment: 7, userHandle: "AAAA", rawId: id, isRegistered: false, error: "x", failed: "x", zzz: { enumerable: true }, attestation: "direct", displayName: "x", authenticatorSelection: 7,
    rpName: "x", secret: "t".repeat(32), webStore: {}, signIn: "x", lifetime: 9, accepted: {}, data: "x", user: "AAAA", user_verification: true,
  };
  const { device } = await visitor(), other = new Device(undefined, { id: Buffer.from("other") });
  await withPrototype(added, async () => {
    const { begun, credential, options, session } = await visitor(new Server("example.com", origins), other);
    assert.deepEqual([begun.session.conditional, begun.session.attestation, begun.session.userVerification, credential.retired, credential.transports.length], [false, false, false, false, 0]);
    assert.deepEqual([Object.hasOwn(begun.options, "timeout"), begun.options.excludeCredentials, options.allowCredentials], [false, [], []]);
    const plain = { ...members, x: other.x, y: other.y, id: other.id, extra: "of the site" };
    const told = await server.authenticateComplete(session, other.signIn(options, { user: null }), { credential: () => plain });
    assert.deepEqual([told.credential.retired, told.credential.signCount], [false, 1]);
    const wrong = server.authenticateBegin({ user }), response = device.signIn(wrong.options, { user: null });
    response.id = response.rawId = toText(other.id);
    await assert.rejects(new Server("example.com", origins).authenticateComplete(wrong.session, response, { credential: () => plain }), { name: "W14" });
    const kept = JSON.parse(JSON.stringify(wrong.session));
    delete kept.user;
    assert.throws(() => SignInSession.fromJSON(kept), BadInput);
    assert.equal(RegistrationSession.fromJSON(JSON.stringify(begun.session)).conditional, false);
  });
});

test("classes of another copy of the package, and bytes of another realm", async () => {
  for (const [one, two] of [[own, common], [common, own]]) {
    const on = new one.Server("example.com", origins), { device, begun, credential, session, options } = await visitor(on), isRegistered = () => false;
    const there = new two.Server("example.com", origins);
    const made = await there.registerComplete(begun.session, device.register(begun.options), { isRegistered });
    assert.ok(made.credential instanceof one.Credential && begun.session instanceof two.RegistrationSession && session instanceof two.SignInSession && !(session instanceof two.RegistrationSession));
    assert.equal((await there.authenticateComplete(session, device.signIn(options), { credential: () => credential })).credential.signCount, 1);
    const refused = await said(() => on.authenticateComplete(null, device.signIn(options), { credential: () => null }));
    assert.ok(refused instanceof two.Refused && refused instanceof Error && !(refused instanceof two.BadInput));
    assert.deepEqual([refused.name, refused.code], ["W1", "GARVOENG_REFUSED"]);
    const bad = await said(() => on.registerBegin(user));
    assert.ok(bad instanceof two.BadInput && !(bad instanceof two.Refused));
    assert.deepEqual([bad.name, bad.code], ["BadInput", "GARVOENG_BAD_INPUT"]);
    class Mine extends one.Refused {}
    assert.deepEqual([new Mine(true, 1, "x") instanceof two.Refused, refused instanceof Mine, new Mine(true, 1, "x") instanceof Mine], [true, false, true]);
    for (const name of ["StoreFailed", "RowDamaged", "NoMemory"]) assert.ok(new one[name](id, "x") instanceof two[name] && !(new one[name](id, "x") instanceof two.BadInput), name);
    for (const value of [null, undefined, 7, "x", {}, new Error("x")]) assert.equal(value instanceof one.Refused, false);
  }
  const foreign = (bytes) => runInNewContext("Uint8Array.from(bytes)", { bytes: [...bytes] }), device = new Device();
  assert.equal(foreign(user) instanceof Uint8Array, false);
  const begun = server.registerBegin(foreign(user), "name", { exclude: [foreign(id), { id: foreign(id) }] });
  assert.deepEqual([toText(foreign(user)), begun.options.excludeCredentials.length], [toText(user), 2]);
  const { credential } = await server.registerComplete(begun.session, device.register(begun.options), { isRegistered: () => false });
  const { options, session } = server.authenticateBegin({ user: foreign(user) }), row = { ...credential };
  for (const name of ["id", "user", "x", "y"]) row[name] = foreign(row[name]);
  assert.equal((await server.authenticateComplete(session, device.signIn(options), { credential: () => row })).credential.signCount, 1);
});

test("an error says what to write", async () => {
  const { device, begun, session, options, credential } = await visitor(), response = device.register(begun.options), signIn = device.signIn(options);
  const rows = [
    [() => server.registerComplete(begun.session, response), /^isRegistered is undefined: write a function, as isRegistered: \(id\) => true or false$/],
    [() => server.authenticateComplete(session, signIn, { credential }), /^credential is an object: write a function, as credential: \(id\) => the credential of this id, or null$/],
    [() => server.authenticateComplete(JSON.parse(JSON.stringify(session)), signIn, { credential: () => credential }), /^the session is an object, and no SignInSession: SignInSession\.fromJSON\(\.\.\)/],
    [() => server.authenticateComplete(begun.session, signIn, { credential: () => credential }), /^the session is a RegistrationSession, and no SignInSession/],
    [() => server.authenticateComplete(session, signIn, { credential: () => ({ ...credential, signCount: "0" }) }), /signCount is "0", and no number: write Number\(\.\.\), since pg gives a bigint as text$/],
    [() => server.authenticateComplete(session, signIn, { credential: () => ({ ...credential, signCount: 2 ** 32 }) }), /signCount is 4294967296: write a whole number from 0 to 4294967295$/],
    [() => server.authenticateBegin({ userVerification: "yes" }), /^userVerification is "yes": write true, false, "required", "preferred" or "discouraged"$/],
    [() => server.registerBegin(user, "name", { attestation: "packed" }), /^attestation is "packed": write "none", "indirect", "direct" or "enterprise"$/],
    [() => server.registerBegin(user, "name", { algorithms: [] }), /: write a list of one or more$/],
    [() => server.registerBegin("account 7", "name"), /^a user handle is "account 7", and not a Uint8Array: fromText reads base64url/],
    [() => server.registerBegin(user.buffer, "name"), /^a user handle is an object, and not a Uint8Array: .* new Uint8Array\(\.\.\) an ArrayBuffer$/],
    [() => server.registerBegin(user), /^userName is undefined: write a text$/],
    [() => server.registerBegin(user, "name", { timeout: "60" }), /^timeout, in milliseconds, is "60": write a whole number from 1 to 4294967295$/],
    [() => server.registerBegin(user, "name", { hints: "hybrid" }), /^hints is "hybrid": write an array, as \["hybrid"\]$/],
    [() => server.registerBegin(user, "name", { extensions: [] }), /^extensions is an object: write an object, as/],
    [() => server.registerBegin(user, "name", { exclude: "AAAA" }), /^a list of credential ids is "AAAA": write an array of ids, or of credentials$/],
    [() => server.signalUserDetails(user, 7), /^userName is 7: write a text$/], [() => server.signalAllAccepted(user, "x"), /^a list of credential ids is "x": write an array/],
    [() => fromText("a"), /^the text is not base64url$/], [() => fromText(7), /^the text is not a text$/], [() => fromText("a", "id"), /^id is not base64url$/],
    [() => new Server("localhost:8080", ["http://localhost:8080"]), /^the rp id is "localhost:8080", with a port: write the domain alone, as "localhost", and the port in an origin/],
    [() => new Server("https://example.com", origins), /^the rp id is "https:\/\/example\.com": write its domain alone/],
    [() => new Server("Example.com", origins), /^the rp id is "Example\.com": write a domain in lower case/],
    [() => new Server("example.com", "https://example.com"), /^origins is "https:\/\/example\.com": write a list of one text or more/],
    [() => new Server("example.com", [7]), /^an origin is 7: write a text/], [() => new Server("example.org", origins), /^the rp id example\.org is neither the host of an origin/],
    [() => new Server("example.com", origins, { topOrigins: "https://a.com" }), /^topOrigins is "https:\/\/a\.com": write a list of texts/],
    [() => new Server("example.com", origins, { profile: "level4" }), /^profile is "level4": write "strict", "open" or "level3"$/],
    [() => new StoredServer("p", "f", "example.com", origins, { acceptNone: false, acceptSelf: false }), /^acceptNone and acceptSelf are both false/],
    [() => new StoredServer("p", undefined, "example.com", origins), /^the file's path is undefined: write a text$/],
    [() => new StoredServer("p", "f", "example.com", origins, { lifetime: "300" }), /^lifetime, in seconds, is "300": write a whole number from 1 to 1000000$/],
    [() => new SqlServer(pool, server), /^a SqlServer is over a Server: write new SqlServer\(new Server\(\.\.\), pool\)$/],
    [() => new SqlServer(server, "postgresql://"), /^a SqlServer is over a pool of pg/], [() => sql.abandon(7), /^session is 7: write the text that the begin gave, or null$/],
    [() => passkeys(stored, { secret: "short" }), /^secret is too short: write 32 random characters or more$/], [() => passkeys(stored, { secret: null }), /^secret is null: write 32/],
    [() => passkeys(stored).signedIn(new Request("https://example.com")), /^the request is one of fetch: passkeys of garvoeng\/site takes it$/], [() => passkeys(stored).signedIn(), /^the request is undefined: hand in that of the framework$/],
    [() => passkeys(stored, { trustedOrigins: ["https://shop.example/"] }), /^'https:\/\/shop.example\/' is not an origin/], [() => passkeys(stored, { trustedOrigins: "*" }), /^trustedOrigins is "\*"/],
    [() => new SqlWebStore(sql, { looksup: true }), /^SqlWebStore has no option "looksup": write looksUp$/], [() => new SqlWebStore(sql, { looksUp: 1 }), /^looksUp is 1: write true or false$/],
    [() => new RateLimit({ rates: 1 }), /^RateLimit has no option "rates": write rate, burst/],
    [() => new Server("example.com", origins, { acceptNone: false, acceptSelf: false }), /^acceptNone and acceptSelf are both false/],
    [() => new StoredServer("p", "f", "example.com", origins, { timeout: 2 ** 31 }), /^timeout, in milliseconds, is 2147483648: write a whole number from 1 to 2147483647$/],
    [() => new StoredServer("p", "f", "example.com", origins, { maxCredentials: 1_000_001 }), /^maxCredentials is 1000001: write a whole number from 1 to 1000000$/],
    [() => passkeys(stored, { base: "passkeys/" }), /^base is "passkeys\/": write the path below which the acts stand, as "\/passkeys"$/],
    [() => passkeys(stored, { registration: { exclude: [] } }), /^exclude of registration is the core's$/], [() => new SqlWebStore(server), /^a SqlWebStore is over a SqlServer: write new SqlWebStore/],
    [() => toText("AAAA"), /^toText takes a Uint8Array, and not "AAAA": write new Uint8Array\(\.\.\) of an ArrayBuffer$/],
  ];
  for (const [call, wanted] of rows) {
    const error = await said(call);
    assert.ok((error instanceof BadInput || error instanceof RowDamaged) && wanted.test(error.message), `${call}: ${error}`);
  }
});

test("each module of CommonJS exports what that of ES modules does", async () => {
  const folder = new URL("../node_modules/garvoeng/", import.meta.url), names = readdirSync(new URL("cjs/", folder)).filter((name) => name.endsWith(".cjs"));
  assert.ok(names.length > 30);
  for (const name of names) {
    const made = createRequire(import.meta.url)(fileURLToPath(new URL(`cjs/${name}`, folder))), module = await import(new URL(name.replace(".cjs", ".js"), folder));
    assert.deepEqual(Object.keys(made).sort(), Object.keys(module).sort(), name);
    for (const [member, value] of Object.entries(module)) assert.equal(typeof made[member], typeof value, `${member} of ${name}`);
  }
});

test("toText takes bytes alone", () => {
  for (const value of [{ length: 1e9 }, { length: 2 ** 32 }, new ArrayBuffer(3), new DataView(new ArrayBuffer(3)), "AAAA", [300, -1], [1, 2], null, undefined, 7, 7n, new Uint16Array(3),
                       new Proxy(new Uint8Array(3), {}), Object.create(Uint8Array.prototype), { [Symbol.toStringTag]: "Uint8Array", length: 3 }])
    assert.throws(() => toText(value), BadInput, String(typeof value));
});
