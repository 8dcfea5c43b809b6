// `StoredServer` over the proved program (PROGRAM): visits, hostile responses (HOSTILE), and programs that are broken, killed or hang.
import assert from "node:assert/strict";
import { chmodSync, existsSync, mkdtempSync, readFileSync, rmSync, writeFileSync } from "node:fs";
import { tmpdir } from "node:os";
import { join } from "node:path";
import { after, test } from "node:test";
import { BadInput, Credential, EDDSA, ES256, RS256, Server, SignedIn, StoreFailed, StoredServer, fromText, toText } from "garvoeng";
import { AT, Device, ED, UP, UV, changed } from "./device.mjs";
import { refusesHostileLines } from "./hostile_lines.mjs";

const { PROGRAM } = process.env, folder = mkdtempSync(join(tmpdir(), "stored-")), user = Buffer.from("account 7");
after(() => rmSync(folder, { recursive: true }));
const path = (name) => join(folder, name), quiet = { logger: () => {} };
const serving = (name, how) => new StoredServer(PROGRAM, path(name), "example.com", ["https://example.com"], { ...quiet, ...how });
const children = () => readFileSync(`/proc/self/task/${process.pid}/children`, "utf8").trim().split(" ").filter((one) => one !== "").map(Number);
const sleep = (milliseconds) => new Promise((resolve) => setTimeout(resolve, milliseconds));
const until = async (call) => { for (let time = 0; time < 600 && !call(); time++) await sleep(50); };
const numberOf = ({ challenge }) => Buffer.from(challenge, "base64url").readBigUInt64BE();
const flipped = (value) => (value[value.length - 1] ^= 1, value);

async function registered(server, device, how) {
  const { options, session } = await server.registerBegin(user, "name");
  return server.registerComplete(session, device.register(options, how));
}

// A program that does this in place of the proved one.
function script(name, body) {
  writeFileSync(path(name), `#!${process.execPath}\nconst { stdin, stdout } = process;\n${body}\n`);
  chmodSync(path(name), 0o755);
  return path(name);
}

const broken = (name, body, how) => new StoredServer(script(name, body), path("none.db"), "example.com", ["https://example.com"], { timeout: 60_000, ...quiet, ...how });

test("visits", async () => {
  const server = serving("visits.db");
  let device, response;
  for (const [index, algorithm] of [ES256, EDDSA, RS256].entries()) {
    device = new Device(algorithm, { id: Buffer.from(`${index}`) });
    const { id, x, y, aaguid } = device, made = await registered(server, device, { isPacked: index === 1 });
    assert.deepEqual(made.credential, new Credential({ id, user, algorithm, x, y, signCount: 0, eligible: false }));
    assert.deepEqual({ ...made, credential: null }, { credential: null, aaguid: Uint8Array.from(aaguid), format: "none", userVerified: true,
                                                      backedUp: false, flags: UP | UV | AT, extensions: new Uint8Array(0) });
    const { options, session } = await server.authenticateBegin({ user, allow: [made.credential] });
    response = device.signIn(options, { user });
    await assert.rejects(server.authenticateComplete(session, changed(response, "signature", flipped)), { name: "W14" });
    assert.deepEqual(await server.authenticateComplete(session, response), new SignedIn({
      credential: new Credential({ id, user, algorithm, x, y, signCount: 1, eligible: false }), before: null, userVerified: true, backedUp: false, flags: UP | UV, extensions: new Uint8Array(0) }));
    await assert.rejects(server.authenticateComplete(session, response), { name: "W1", isRegistration: false });
  }
  assert.deepEqual((await server.rows(user)).map(({ id, signCount }) => [Buffer.from(id).toString(), signCount]), [["0", 1], ["1", 1], ["2", 1]]);
  assert.deepEqual(await server.rows(Buffer.from("nobody")), []);
  const [{ createdAt, usedAt, aaguid, transports }] = await server.rows(user), second = Date.now() / 1000;
  assert.deepEqual([aaguid, transports], [Uint8Array.from(device.aaguid), []]);
  assert.ok(second - 60 < createdAt && createdAt <= usedAt && usedAt <= second);
  // A statement whose signature is asked for: what the page told is handed in twice.
  const begun = await server.registerBegin(user, "name", { attestation: "direct" }), told = new Device(ES256, { id: Buffer.from("told") });
  const answer = told.register(begun.options, { isPacked: true }), transports3 = ["usb", "nfc", "ble"];
  const { credential, format } = await server.registerComplete(begun.session, { ...answer, response: { ...answer.response, transports: ["usb", 7, "No", "nfc", "ble"] } });
  assert.deepEqual([credential.transports, format], [transports3, "packed"]);
  const asked = await server.authenticateBegin({ allow: [device.id, told.id] });
  assert.deepEqual(asked.options.allowCredentials.map((one) => one.transports), [undefined, transports3]);
  assert.deepEqual((await server.rows()).map((row) => [row.usedAt === null, row.transports]).at(-1), [true, transports3]);
  assert.equal(await server.delete(told.id), true);
  await assert.rejects(registered(server, device), { name: "G15", isRegistration: true });
  assert.deepEqual([await server.retire(device.id), await server.retire(device.id)], [true, false]);
  assert.deepEqual((await server.rows()).map(({ retired }) => retired), [false, false, true]);
  const { options, session } = await server.authenticateBegin();
  await assert.rejects(server.authenticateComplete(session, device.signIn(options)), { name: "W3" });
  assert.deepEqual([await server.abandon(session), await server.abandon(session)], [true, false]);
  const outputs = "a16b6372656450726f7465637402", more = new Device(EDDSA, { id: Buffer.from("with extensions") });
  const made = await registered(server, more, { flags: UP | UV | AT | ED, outputs });
  assert.deepEqual([made.flags, Buffer.from(made.extensions).toString("hex")], [UP | UV | AT | ED, outputs]);
  await server.close();
  assert.equal((await server.rows()).length, 4);
  await server.close();
  await server.close();
  assert.deepEqual(children(), []);
});

test("options are those of Server, and the session is of what they ask", async () => {
  const plain = new Server("example.com", ["https://example.com"], { rpName: "A site" }), server = serving("options.db", { rpName: "A site" });
  const id = Buffer.from("one"), withOwn = (made, own) => ({ ...made, challenge: own.challenge });
  for (const how of [{}, { displayName: "Ada", exclude: [id, { id, transports: ["usb"] }], algorithms: [EDDSA], userVerification: "discouraged", residentKey: "preferred",
                           authenticatorAttachment: "platform", timeout: 60_000, hints: ["hybrid"], extensions: { credProps: true } }, { residentKey: "discouraged" }]) {
    const { options } = await server.registerBegin(user, "na\u2028me\n", how);
    assert.deepEqual(options, withOwn(plain.registerBegin(user, "na\u2028me\n", how).options, options));
    assert.equal(fromText(options.challenge, "it").length, 32);
  }
  for (const how of [{}, { user, allow: [id, { id, transports: ["nfc"] }], userVerification: "required", timeout: 1, hints: [], extensions: {} }]) {
    const { options } = await server.authenticateBegin(how);
    assert.deepEqual(options, withOwn(plain.authenticateBegin(how).options, options));
  }
  const begun = await server.registerBegin(user, "name", { algorithms: [EDDSA], userVerification: "required" });
  await assert.rejects(server.registerComplete(begun.session, new Device().register(begun.options)), { name: "G11" });
  await assert.rejects(server.registerComplete(begun.session, new Device(EDDSA).register(begun.options, { flags: UP | AT })), { name: "G10" });
  const device = new Device(EDDSA);
  await server.registerComplete(begun.session, device.register(begun.options));
  const listed = await server.authenticateBegin({ allow: [id], userVerification: "required" });
  await assert.rejects(server.authenticateComplete(listed.session, device.signIn(listed.options)), { name: "W2" });
  const second = await server.authenticateBegin({ allow: [id, device.id] });
  assert.equal((await server.authenticateComplete(second.session, device.signIn(second.options, { user }))).credential.signCount, 2);
  const verified = await server.authenticateBegin({ user, userVerification: "required" });
  await assert.rejects(server.authenticateComplete(verified.session, device.signIn(verified.options, { flags: UP })), { name: "W13" });
  const others = await server.authenticateBegin({ user: Buffer.from("somebody else") });
  await assert.rejects(server.authenticateComplete(others.session, device.signIn(others.options)), { name: "W4" });
  await server.close();
});

test("the account's own credentials are excluded and listed", async () => {
  const server = serving("own.db"), devices = Array.from({ length: 65 }, (_, index) => new Device(EDDSA, { id: Buffer.from(`${index}`) })), [first, second] = devices;
  const listed = (list) => list.map(({ id }) => Buffer.from(id, "base64url").toString()), nobody = Buffer.from("nobody");
  for (const device of devices.slice(0, 3)) {
    const begun = await server.registerBegin(user, "name"), response = device.register(begun.options);
    await server.registerComplete(begun.session, { ...response, response: { ...response.response, transports: ["usb"] } });
  }
  await server.retire(second.id);
  assert.deepEqual((await server.registerBegin(user, "name")).options.excludeCredentials.map(({ id, transports }) => [id, transports]), [["MA", ["usb"]], ["Mg", ["usb"]]]);
  assert.deepEqual(listed((await server.registerBegin(user, "name", { exclude: [second.id] })).options.excludeCredentials), ["1"]);
  assert.deepEqual(listed((await server.registerBegin(user, "name", { exclude: [] })).options.excludeCredentials), []);
  assert.deepEqual(listed((await server.registerBegin(nobody, "name")).options.excludeCredentials), []);
  const begun = await server.authenticateBegin({ user });
  assert.deepEqual(listed(begun.options.allowCredentials), ["0", "2"]);
  assert.deepEqual(listed((await server.authenticateBegin({ user, allow: [] })).options.allowCredentials), []);
  assert.deepEqual(listed((await server.authenticateBegin()).options.allowCredentials), []);
  await assert.rejects(server.authenticateComplete(begun.session, second.signIn(begun.options)), { name: "W2" });
  for (const device of devices.slice(3)) await registered(server, device);
  assert.equal((await server.authenticateBegin({ user })).options.allowCredentials.length, 64);
  await registered(server, new Device(EDDSA, { id: Buffer.from("one more") }));
  assert.deepEqual([(await server.authenticateBegin({ user })).options.allowCredentials.length, (await server.registerBegin(user, "name")).options.excludeCredentials.length], [0, 64]);
  // Retirement and the end of an account end its registrations, and no other's.
  const begins = async (account) => ({ account, device: new Device(EDDSA, { id: Buffer.from(`more ${Math.random()}`) }), ...(await server.registerBegin(account, "name")) });
  const ends = ({ session, options, device }) => server.registerComplete(session, device.register(options));
  const [one, two, others] = [await begins(user), await begins(user), await begins(nobody)];
  assert.deepEqual([await server.retire(first.id, nobody), await server.delete(first.id, nobody)], [false, false]);
  await ends(one);
  assert.equal(await server.retire(first.id, user), true);
  await assert.rejects(ends(two), { name: "G1" });
  const three = await begins(user);
  assert.equal(await server.delete(second.id, user), true);
  await assert.rejects(ends(three), { name: "G1" });
  const four = await begins(user);
  await ends(others);
  assert.equal(await server.erase(user), 66);
  await assert.rejects(ends(four), { name: "G1" });
  const five = await begins(nobody);
  assert.deepEqual([await server.retireAll(nobody), await server.retireAll(nobody)], [1, 0]);
  await assert.rejects(ends(five), { name: "G1" });
  assert.deepEqual([(await server.rows()).map(({ retired }) => retired), await server.erase(user), await server.erase(nobody)], [[true], 0, 1]);
  await server.close();
});

test("long ids: the first that a line has room for are excluded, and any may answer", async () => {
  const server = serving("long.db"), devices = Array.from({ length: 33 }, (_, index) => new Device(EDDSA, { id: Buffer.from(`${index}`.padEnd(1_023)) }));
  for (const device of devices) await registered(server, device);
  assert.deepEqual((await server.registerBegin(user, "name")).options.excludeCredentials.map(({ id }) => id), devices.slice(0, 32).map(({ id }) => toText(id)));
  assert.deepEqual((await server.authenticateBegin({ user })).options.allowCredentials, []);
  await server.close();
  const strict = serving("strict list.db", { profile: "strict" }), list = (length) => ({ allow: Array(length).fill(user) });
  assert.equal((await strict.authenticateBegin(list(8))).options.allowCredentials.length, 8);
  await assert.rejects(strict.authenticateBegin(list(9)), BadInput);
  await strict.close();
});

test("a text is of one site, one ceremony and one use, over a restart too", async () => {
  let server = serving("texts.db");
  const device = new Device(EDDSA), other = new Device(EDDSA, { id: Buffer.from("other") });
  await registered(server, device);
  const signs = await server.authenticateBegin(), makes = await server.registerBegin(user, "name"), left = await server.authenticateBegin();
  const response = device.signIn(signs.options, { user }), made = other.register(makes.options), answer = device.signIn(left.options, { user });
  const isUnknown = async (one, text) => {
    await assert.rejects(one.authenticateComplete(text, response), { name: "W1" }, String(text));
    await assert.rejects(one.registerComplete(text === signs.session ? text : makes.session === text ? null : text, made), { name: "G1" }, String(text));
  };
  const another = serving("another.db"), changes = [...signs.session].map((letter, at) => signs.session.slice(0, at) + (letter === "A" ? "B" : "A") + signs.session.slice(at + 1));
  await assert.rejects(another.authenticateComplete(signs.session, response), { name: "W1" });
  await assert.rejects(another.registerComplete(makes.session, made), { name: "G1" });
  assert.equal(await another.abandon(signs.session), false);
  await another.close();
  for (const text of [null, undefined, "", "1", "1; drop", "\ud800", "A".repeat(2_875), "A".repeat(70_000),
                      `${signs.session}=`, `${signs.session}A`, `${signs.session}\n`, signs.session.slice(1), ...changes]) {
    await isUnknown(server, text);
    assert.equal(await server.abandon(text), false);
  }
  await assert.rejects(server.authenticateComplete(makes.session, response), { name: "W1" });
  await assert.rejects(server.registerComplete(signs.session, made), { name: "G1" });
  assert.equal(await server.abandon(left.session), true);
  await server.close();
  server = serving("texts.db");
  await assert.rejects(server.authenticateComplete(left.session, answer), { name: "W1" });
  assert.equal((await server.authenticateComplete(signs.session, response)).credential.signCount, device.count - 1);
  assert.equal(toText((await server.registerComplete(makes.session, made)).credential.id), toText(other.id));
  await isUnknown(server, signs.session);
  await assert.rejects(server.registerComplete(makes.session, made), { name: "G1" });
  await server.close();
});

test("what another program added to Object.prototype is no answer", async () => {
  const server = serving("polluted.db", { log: "all" }), device = new Device(EDDSA), added = { accepted: { user: "AA", credential: "AA", sign_count: 1 }, refused: {}, verify: {}, failed: "x", error: "x", conditional: true, rows: [] };
  Object.assign(Object.prototype, added);
  try {
    await registered(server, device);
    assert.equal(await server.webStore.signedIn("none"), null);
    const { options, session } = await server.authenticateBegin({ user });
    await assert.rejects(server.authenticateComplete(`${session}A`, device.signIn(options)), { name: "W1" });
    assert.equal((await server.authenticateComplete(session, device.signIn(options))).credential.signCount, 2);
    await assert.rejects(registered(server, new Device(EDDSA, { id: user }), { flags: AT }), { name: "G9" }, "it is not conditional");
  } finally {
    for (const name of Object.keys(added)) delete Object.prototype[name];
  }
  await server.close();
});

test("a logger that throws, and one that rejects, end nothing", async () => {
  for (const logger of [() => { throw new Error("of the logger"); }, async () => { throw new Error("of the logger"); }]) {
    const server = serving("logger.db", { log: "all", logger });
    await assert.rejects(server.authenticateComplete("5", new Device().signIn({ challenge: "AA" })), { name: "W1" });
    await server.close();
  }
});

test("Level 3: the second of two pages that may frame, conditional registrations, statements, the open profile", async () => {
  const pages = ["https://one.example", "https://two.example"], frame = { crossOrigin: true, topOrigin: pages[1] };
  async function registers(server, device, how, made) {
    const { options, session } = await server.registerBegin(user, "name", how);
    return server.registerComplete(session, device.register(options, made));
  }
  for (const [index, [how, step]] of [[{}, "G17"], [{ topOrigins: pages.slice(0, 1) }, "G18"], [{ topOrigins: pages }, null], [{ profile: "open" }, null]].entries()) {
    const server = serving(`frames${index}.db`, how), framed = Object.assign(new Device(EDDSA), { said: frame });
    const call = registers(server, framed);
    await (step === null ? call : assert.rejects(call, { name: step }));
    const alone = new Device(EDDSA, { id: Buffer.from("alone") }), unseen = { flags: AT }, isOpen = how.profile === "open";
    await assert.rejects(registers(server, alone, {}, unseen), { name: "G9" });
    const waived = registers(server, alone, { conditional: true }, unseen);
    await (isOpen ? assert.rejects(waived, { name: "G9" }) : waived);
    const wrong = Object.assign(new Device(EDDSA, { id: Buffer.from("wrong") }), { sign: () => Buffer.alloc(64) });
    const unlooked = registers(server, wrong, {}, { isPacked: true });
    await (isOpen ? assert.rejects(unlooked, { name: "G13" }) : unlooked);
    const packed = await registers(server, new Device(EDDSA, { id: Buffer.from("packed") }), {}, { isPacked: true });
    assert.equal(packed.format, isOpen ? "packed" : "none");
    wrong.id = Buffer.from("other");
    await assert.rejects(registers(server, wrong, { attestation: "direct" }, { isPacked: true }), { name: "G13" });
    await server.close();
  }
});

test("what the server takes", async () => {
  for (const [name, how, isPacked, wanted] of [["none", { acceptSelf: false }, true, "G14"], ["self", { acceptNone: false }, false, "G14"], ["strict", { profile: "strict" }, null, "G7"]]) {
    const server = serving(`${name}.db`, how), device = new Device(EDDSA), { options, session } = await server.registerBegin(user, "name", { attestation: "direct" });
    const more = isPacked === null ? { flags: UP | UV | AT | ED, outputs: "a16b6372656450726f7465637402" } : { isPacked };
    await assert.rejects(server.registerComplete(session, device.register(options, more)), { name: wanted });
    await server.registerComplete(session, device.register(options, { isPacked: isPacked === false }));
    await server.close();
  }
  const two = new StoredServer(PROGRAM, path("two.db"), "example.com", ["https://example.com", "https://www.example.com"], quiet);
  for (const [index, origin] of ["https://www.example.com", "https://example.com"].entries()) await registered(two, new Device(EDDSA, { id: Buffer.from(`${index}`), origin }));
  await assert.rejects(registered(two, new Device(EDDSA, { origin: "https://other.example.com" })), { name: "G5" });
  await two.close();
  const devices = ["one", "two"].map((id) => new Device(EDDSA, { id: Buffer.from(id) })), begun = [];
  const one = serving("few.db", { maxCredentials: 1 });
  for (const device of devices) {
    const { options, session } = await one.registerBegin(user, "name");
    begun.push(one.registerComplete(session, device.register(options)));
    await Promise.allSettled(begun);
  }
  await assert.rejects(begun[1], { name: "G16" });
  const { credential: { id } } = await begun[0];
  const copy = join(folder, "copy.db");
  await one.backup(copy);
  await assert.rejects(one.backup(copy), { text: "the file was not copied: there is a file at this path" });
  assert.deepEqual([await one.delete(id), await one.delete(id), (await one.rows()).length], [true, false, 0]);
  const { credentials, registrations, registrations_refused: refused } = await one.status();
  assert.deepEqual([credentials, registrations, refused], [0, 1, { G16: 1 }]);
  const metrics = await one.metrics();
  assert.match(metrics, /^# TYPE garvoeng_info gauge\ngarvoeng_info\{version="[^"]+"\} 1\n# TYPE garvoeng_credentials gauge\ngarvoeng_credentials 0\n/);
  assert.match(metrics, /\ngarvoeng_registrations_total 1\n/);
  assert.match(metrics, /\ngarvoeng_registrations_refused_total\{step="G16"\} 1\n$/);
  const { known } = one;
  assert.deepEqual([(await one.status()).known, known > 0], [known, true]);
  await one.close();
  const older = serving("copy.db", { atLeast: known }), same = serving("few.db", { atLeast: known });
  await assert.rejects(older.rows(), StoreFailed, "the copy lacks the deletion");
  await older.close().catch(() => {});
  assert.deepEqual([await same.rows(), same.known], [[], known]);
  await same.close();
  const restored = serving("copy.db");
  assert.deepEqual((await restored.rows()).map((row) => row.id), [id]);
  await restored.close();
  const short = serving("short.db", { lifetime: 1 }), old = (await short.authenticateBegin()).session;
  await sleep(2_500);
  const young = (await short.authenticateBegin()).session;
  assert.deepEqual([await short.abandon(old), await short.abandon(young)], [false, true]);
  await short.close();
});

test("what hosts hand in by mistake", async () => {
  const server = serving("mistakes.db"), response = new Device().signIn({ challenge: "AA" }), { session } = await server.authenticateBegin();
  const rows = [
    () => server.registerBegin("account 7", "name"), () => server.registerBegin(new Uint8Array(0), "name"), () => server.registerBegin(new Uint8Array(65), "name"),
    () => server.registerBegin(user), () => server.registerBegin(user, 7), () => server.registerBegin(user, "A".repeat(70_000)), () => server.registerBegin(user, "\ud800"),
    () => server.registerBegin(user, "name", { exclude: Array(65).fill(user) }), () => server.registerBegin(user, "name", { algorithms: [] }),
    () => server.registerBegin(user, "name", { algorithms: [1] }), () => server.registerBegin(user, "name", { userVerification: 1 }),
    () => server.registerBegin(user, "name", { residentKey: 0 }), () => server.registerBegin(user, "name", { timeout: 0 }),
    () => server.authenticateBegin({ user: "7" }), () => server.authenticateBegin({ allow: [""] }), () => server.authenticateBegin({ allow: Array(65).fill(user) }),
    () => server.authenticateBegin({ hints: ["x"] }), () => server.retire("AA"), () => server.rows("x"), () => server.erase("x"), () => server.retireAll(null),
    () => server.registerComplete(session, null), () => server.authenticateComplete(session, { ...response, id: "A".repeat(70_000), rawId: "A".repeat(70_000) }),
  ];
  for (const call of rows) await assert.rejects(call(), BadInput, `${call}`);
  await assert.rejects(server.registerBegin(user, "\u00e9".repeat(40_000)), { text: "the line is too long" });
  const spied = broken("spied", 'stdin.on("data", () => stdout.write("{}\\n")); stdin.on("end", () => process.exit(0));');
  await assert.rejects(spied.registerBegin(user, "\u00e9".repeat(40_000), { exclude: [] }), { text: "the line is too long" }, "bytes are counted, and not characters");
  assert.equal(children().length, 2, "it was not asked");
  await spied.close();
  assert.equal(children().length, 1);
  assert.equal(numberOf((await server.authenticateBegin()).options), 2n, "nothing began");
  assert.equal(await server.abandon(session), true);
  await server.close();
  for (const make of [{ acceptNone: false, acceptSelf: false }, { log: "some" }, { maxCredentials: 0 }, { maxCredentials: "9" }, { lifetime: -1 }, { timeout: 0 }, { rpName: "" }, { rpName: "a\0b" }])
    assert.throws(() => serving("none.db", make), BadInput);
  for (const words of [["", "x"], [7, "x"], [PROGRAM, ""], [PROGRAM, "a\0b"], [PROGRAM, null]])
    assert.throws(() => new StoredServer(...words, "example.com", ["https://example.com"]), BadInput);
  assert.throws(() => new StoredServer(PROGRAM, "x", "example.com", "https://example.com"), BadInput);
});

test("a signature counts as valid by nothing but true", async () => {
  const answers = [1, "true", {}, [true], null, undefined, Promise.resolve(1), { then: (resolve) => resolve("true") }];
  let index = 0;
  const server = serving("verify.db", { verify: () => answers[index] }), device = new Device();
  await registered(server, device);
  const { options, session } = await server.authenticateBegin({ user }), response = device.signIn(options);
  for (index = 0; index < answers.length; index++) await assert.rejects(server.authenticateComplete(session, response), { name: "W14" });
  server.verify = () => Promise.reject(new Error("no mathematics"));
  await assert.rejects(server.authenticateComplete(session, response), { message: "no mathematics" });
  server.verify = async () => true;
  assert.equal((await server.authenticateComplete(session, response)).credential.signCount, 1);
  await server.close();
});

test("hostile values: as Server answers them, by one process", async () => {
  const server = serving("hostile.db"), device = new Device(), { options, session } = await server.registerBegin(user, "name");
  const good = device.register(options), asked = await server.authenticateBegin();
  const [first] = children();
  await refusesHostileLines(server, { registration: session, signIn: asked.session });
  for (const value of [undefined, Symbol("a"), 7n, () => ({}), new Proxy([], {}), new Date()]) await assert.rejects(server.registerComplete(session, value), { text: "response is missing" });
  await server.registerComplete(session, good);
  assert.equal((await server.authenticateComplete(asked.session, device.signIn(asked.options, { user }))).credential.signCount, 1);
  assert.deepEqual(children(), [first]);
  await server.close();
});

test("programs that answer something else, or nothing", async () => {
  const answers = {
    "no JSON": 'stdout.write("{\\n")', "no id": 'stdout.write("{\\"rows\\":[],\\"id\\":7}\\n")', "a list": 'stdout.write("[]\\n")', "a number": 'stdout.write("1\\n")', "null": 'stdout.write("null\\n")',
    "half a line": 'stdout.write("{\\"id\\":1,\\"rows\\":[]}")', "nothing": "", "bytes that are no text": "stdout.write(Buffer.from([255, 254, 10]))", "a failure": 'stdout.write("{\\"id\\":1,\\"failed\\":\\"disk\\"}\\n")',
  };
  for (const [what, body] of Object.entries(answers)) {
    const server = broken("broken", `stdin.once("data", () => { ${body}; stdin.destroy(); });`), began = Date.now();
    await assert.rejects(server.rows(), StoreFailed, what);
    assert.ok(Date.now() - began < 50_000, `${what} is not waited for`);
    await server.close().catch(() => {});
  }
  const two = broken("two", 'stdin.once("data", () => stdout.write("{\\"id\\":1,\\"rows\\":[]}\\n{\\"id\\":2,\\"rows\\":[]}\\n")); stdin.resume();');
  assert.deepEqual(await two.rows(), []);
  await until(() => children().length === 0);
  assert.deepEqual(children(), [], "one that answers what was not asked is ended");
  const pieces = broken("pieces", `stdin.once("data", () => {
    const line = Buffer.from('{"id":1,"error":"\u00e9\u00e9"}\\n'), at = line.indexOf(0xc3) + 1;
    stdout.write(line.subarray(0, at), () => setTimeout(() => stdout.write(line.subarray(at)), 100));
  });`);
  await assert.rejects(pieces.rows(), { name: "BadInput", text: "\u00e9\u00e9" });
  await pieces.close();
  const silent = broken("silent", "stdin.resume(); setTimeout(() => {}, 60_000);", { timeout: 1_000 }), began = Date.now();
  const found = await Promise.allSettled(Array.from({ length: 20 }, () => silent.rows()));
  assert.ok(found.every(({ reason }) => reason instanceof StoreFailed) && Date.now() - began < 50_000);
  assert.match(found[0].reason.message, /did not answer in 1 seconds/);
  const odd = broken("odd", 'stdin.on("data", () => stdout.write("{\\"id\\":1,\\"unknown\\":0}\\n"));');
  await assert.rejects(odd.authenticateComplete("1", new Device().signIn({ challenge: "AA" })), StoreFailed);
  await odd.close();
  const idle = serving("idle.db"), timers = () => process.getActiveResourcesInfo().filter((name) => name === "Timeout").length, before = timers();
  await idle.rows();
  assert.equal(timers(), before, "one that has answered is not ended later");
  await idle.close();
});

test("an answer of another number is nobody's", async () => {
  const lines = 'let rest = "", asked = []; stdin.setEncoding("utf8").on("data", (text) => { const all = (rest + text).split("\\n"); rest = all.pop(); for (const line of all) took(JSON.parse(line)); });';
  const answer = '(id, rows) => stdout.write(JSON.stringify({ id, rows }) + "\\n")';
  // Those of two lines change their places; one is of the line before; one of a line that is not asked yet.
  for (const took of ["(line) => asked.push(line) === 2 && [asked[1], asked[0]].forEach(({ id }) => answer(id, []))", "({ id }) => answer(id - 1, [])", "({ id }) => answer(id + 1, [])", "({ id }) => answer(String(id), [])"]) {
    const server = broken("numbers", `const answer = ${answer}, took = ${took}; ${lines}`);
    for (const { status, reason } of await Promise.allSettled([server.rows(), server.rows()]))
      assert.ok(status === "rejected" && reason instanceof StoreFailed && /what is no answer/.test(reason.message), `${took} ${status} ${reason}`);
    await server.close().catch(() => {});
  }
});

test("each answer goes to who asked, also where it has no number, by a program that reads slowly", async () => {
  // It answers each line by its own name, the second of three without a number, and takes one line in 5 milliseconds.
  const slow = broken("slow", `let rest = "", lines = [];
  stdin.setEncoding("utf8").on("data", (text) => { [...lines] = [...lines, ...(rest + text).split("\\n")]; rest = lines.pop(); }).on("end", () => process.exit(0));
  setInterval(() => {
    if (lines.length === 0) return;
    const { id, user_name } = JSON.parse(lines.shift());
    stdout.write(JSON.stringify({ ...(id % 3 === 0 ? {} : { id: id % 3 === 1 ? id : null }), error: user_name }) + "\\n");
  }, 5);`);
  const names = Array.from({ length: 60 }, (_, index) => `${index} ${"x".repeat(index % 7 === 0 ? 60_000 : 9)}`);
  const found = await Promise.all(names.map((name) => slow.registerBegin(user, name, { exclude: [] }).catch(({ text }) => text)));
  assert.deepEqual(found, names);
  await slow.close();
  // The proved program: lines that it can't read, among others.
  const server = serving("mixed.db"), device = new Device(), wrong = ["\ud800", "A".repeat(65_000), "\udc00a\ud800", "\u2028", "\0"];
  await registered(server, device);
  const calls = Array.from({ length: 60 }, async (_, index) => {
    if (index % 2 === 0) return server.registerBegin(user, wrong[index % 5]).then(() => "begun", ({ name }) => name);
    const { options, session } = await server.authenticateBegin({ allow: [Buffer.from(`${index}`)] });
    const refused = await server.authenticateComplete(session, device.signIn(options, { user })).catch(({ name }) => name);
    return [refused, Buffer.from(options.allowCredentials[0].id, "base64url").toString(), await server.abandon(session)];
  });
  for (const [index, answer] of (await Promise.all(calls)).entries())
    assert.deepEqual(answer, index % 2 === 1 ? ["W2", `${index}`, true] : index % 5 === 3 || index % 5 === 4 || index % 5 === 1 ? "begun" : "BadInput", `${index}`);
  await server.close();
});

test("what could not be started says why", async () => {
  const one = serving("cause.db"), other = serving("cause.db", { rpName: "another" });
  await one.rows();
  await assert.rejects(other.rows(), (error) => error instanceof StoreFailed && /the file is in use.*: one process has the file: make the StoredServer in the primary of node:cluster, or use a SqlServer$/.test(error.message));
  await one.close();
  assert.deepEqual(await other.rows(), [], "the next call starts it");
  await other.close();
  const absent = serving("absent.db", { existing: true });
  await assert.rejects(absent.rows(), { name: "StoreFailed", message: /there is no file at this path/ });
  assert.equal(existsSync(path("absent.db")), false);
  for (const program of ["/no/such/program", folder])
    await assert.rejects(new StoredServer(program, "x", "example.com", ["https://example.com"], quiet).rows(), { name: "StoreFailed", message: /can't be started/ });
  const cwd = process.cwd();
  process.chdir(folder);
  const dash = new StoredServer(PROGRAM, "-dash.db", "example.com", ["https://example.com"], { rpName: "-a name", ...quiet });
  assert.deepEqual(await dash.rows(), []);
  await dash.close();
  process.chdir(cwd);
  for (const wary of [false, true]) {
    const server = serving("wary.db", { wary });
    assert.deepEqual(await server.rows(), []);
    assert.equal(readFileSync(`/proc/${children().at(-1)}/cmdline`, "utf8").split("\0").includes("--wary"), wary);
    await server.close();
  }
  for (const [log, wanted] of [[false, 0], [true, 1], ["all", 1]]) {
    const said = [], server = serving(`log${log}.db`, { log, logger: (line) => said.push(line) });
    await assert.rejects(server.authenticateComplete("5", new Device().signIn({ challenge: "AA" })), { name: "W1" });
    await server.close();
    assert.equal(said.filter((line) => line.includes("sign-in refused W1 ")).length, wanted);
  }
});

test("a program that is killed or hangs: what was in flight is rejected, the next call goes on", async () => {
  const server = serving("killed.db", { timeout: 4_000 }), device = new Device();
  await registered(server, device);
  for (const [signal, message] of [["SIGKILL", /ended before it answered/], ["SIGSTOP", /did not answer in 4 seconds|ended before/]]) {
    process.kill(children().at(-1), "SIGSTOP");
    const asked = Array.from({ length: 10 }, () => server.authenticateBegin());
    await sleep(200);
    process.kill(children().at(-1), signal);
    const found = await Promise.allSettled(asked);
    assert.ok(found.some(({ status }) => status === "rejected"));
    for (const { reason } of found.filter(({ status }) => status === "rejected")) assert.match(reason.message, message);
    assert.deepEqual((await server.rows()).map(({ id }) => Buffer.from(id)), [device.id]);
  }
  const { options, session } = await server.authenticateBegin(), response = device.signIn(options, { user });
  process.kill(children().at(-1), "SIGKILL");
  await sleep(200);
  assert.equal((await server.authenticateComplete(session, response)).credential.signCount, device.count, "a session outlives the program");
  const again = await server.authenticateBegin();
  assert.equal(await server.abandon(again.session), true);
  assert.ok(numberOf(options) < numberOf(again.options), "no number comes again");
  process.kill(children().at(-1), "SIGSTOP");
  await assert.rejects(server.close(), { message: "the program could not close its file" });
  assert.deepEqual(children(), []);
  for (let time = 0; time < 10; time++) {
    await server.rows();
    const [found] = await Promise.all([server.close().then(() => server.rows()), server.rows(), server.rows()]);
    assert.equal(found.length, 1, "a run that closes its file is waited for");
  }
  const pending = Array.from({ length: 50 }, () => server.rows());
  await sleep(100);
  await server.close();
  assert.equal((await Promise.all(pending)).length, 50, "what was asked is answered before the end");
});

test("killed at random, no acceptance that was answered is lost", async (context) => {
  const server = serving("random.db"), device = new Device(), ends = Date.now() + 120_000;
  await registered(server, device);
  let accepted = 0, failed = 0, begun = 0, begunAt = 0;
  // Where some sign-ins have begun since the last: a slow machine gets on too.
  const killing = setInterval(() => {
    if (begun < begunAt + 3) return;
    begunAt = begun;
    children().forEach((pid) => process.kill(pid, "SIGKILL"));
  }, 150);
  context.after(() => clearInterval(killing));
  while (Date.now() < ends && (accepted < 30 || failed < 3)) {
    try {
      const { options, session } = await server.authenticateBegin();
      begun++;
      const response = device.signIn(options, { user });
      const answers = await Promise.allSettled([1, 2, 3].map(() => server.authenticateComplete(session, response)));
      accepted += answers.filter(({ status }) => status === "fulfilled").length;
      assert.ok(answers.filter(({ status }) => status === "fulfilled").length <= 1);
      for (const { reason } of answers) assert.ok(reason === undefined || reason instanceof StoreFailed || reason.name === "W1", String(reason));
    } catch (error) {
      if (!(error instanceof StoreFailed)) throw error;
      failed++;
    }
    const count = (await server.rows().catch(() => []))[0]?.signCount ?? device.count;
    assert.ok(count <= device.count);
  }
  clearInterval(killing);
  assert.ok(accepted >= 30 && failed >= 3, `${accepted} accepted, ${failed} failed`);
  await server.close().catch(() => {});
  const [row] = await server.rows();
  assert.ok(row.signCount >= accepted, `${row.signCount} of ${accepted}`);
  await server.close();
});
