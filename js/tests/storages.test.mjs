// One site over each storage: the same code, the same answers, the same refusals. Python's test_storages.py has the same acts.
import assert from "node:assert/strict";
import { test } from "node:test";
import { BadInput, Credential, EDDSA, ES256, KeptCredential, RS256, Registered, SignedIn, toText } from "garvoeng";
import { AT, BE, BS, Device, ED, UP, UV, changed } from "./device.mjs";
import { STORAGES, serving } from "./storages.mjs";

const user = Buffer.from("account 7"), other = Buffer.from("account 8"), nobody = Buffer.from("nobody");
const bytes = (value) => Uint8Array.from(value), textOf = ({ id }) => Buffer.from(id).toString(), flipped = (value) => ((value[value.length - 1] ^= 1), value);
const key = (id, algorithm = ES256, how = {}) => new Device(algorithm, { id: Buffer.from(id), ...how });
const outputs = Buffer.from("a16b6372656450726f7465637402", "hex");

function answerOf(device, options, how) {
  const made = device.register(options, how);
  made.response.transports = ["usb", "no text", 7, "nfc"];
  return made;
}

async function registers(server, device, account = user, how = {}) {
  const { options, session } = await server.registerBegin(account, "name", how);
  return server.registerComplete(session, answerOf(device, options));
}

async function signsIn(server, device, account = user, how = {}) {
  const { options, session } = await server.authenticateBegin(how);
  return server.authenticateComplete(session, device.signIn(options, { user: account }));
}

const storedOf = ({ id, algorithm, x, y, count }, account, eligible) =>
  new Credential({ id, user: account, algorithm, x, y, signCount: count, eligible, transports: ["usb", "nfc"] });

async function refused(promise, name) {
  await assert.rejects(promise, (error) => error.code === "GARVOENG_REFUSED" && error.name === `${error.isRegistration ? "G" : "W"}${error.number}` && (assert.equal(error.name, name), true));
}

// The ids of both lists, which the account's passkeys are in, if no other is given.
async function lists(server, account = user, ids = undefined) {
  const exclude = (await server.registerBegin(account, "name", ids === undefined ? {} : { exclude: ids })).options.excludeCredentials;
  const allow = (await server.authenticateBegin({ user: account, ...(ids === undefined ? {} : { allow: ids }) })).options.allowCredentials;
  return [exclude, allow].map((listed) => listed.map(({ id }) => Buffer.from(id, "base64url").toString()));
}

// What a site does, and its answers. It knows no storage.
const SITE = {
  async "a registration"(server) {
    for (const [algorithm, isPacked] of [[ES256, true], [EDDSA, false], [RS256, false]]) {
      const device = key(`${algorithm}`, algorithm), { options, session } = await server.registerBegin(user, "name", { displayName: "Display Name", attestation: "direct" });
      assert.deepEqual(options.user, { id: toText(user), name: "name", displayName: "Display Name" });
      assert.equal(typeof session, "string");
      const flags = UP | UV | AT | ED | BE | BS, made = await server.registerComplete(session, answerOf(device, options, { isPacked, flags, outputs }));
      assert.deepEqual(made, new Registered({ credential: storedOf(device, user, true), aaguid: bytes(device.aaguid), format: isPacked ? "packed" : "none",
                                              userVerified: true, backedUp: true, flags, extensions: bytes(outputs) }));
      assert.deepEqual(Registered.fromJSON(JSON.stringify(made)), made);
    }
  },

  async "a sign-in: the credential as it is stored, and nothing to be written"(server) {
    for (const algorithm of [ES256, EDDSA, RS256]) {
      const device = key(`${algorithm}`, algorithm), begun = await server.registerBegin(user, "name");
      await server.registerComplete(begun.session, answerOf(device, begun.options, { flags: UP | UV | AT | BE }));
      for (const known of [undefined, { user }, { allow: [device.id] }]) {
        const { options, session } = await server.authenticateBegin(known), flags = UP | BE | BS | ED, map = Buffer.from("a1616101", "hex");
        const told = await server.authenticateComplete(session, device.signIn(options, { user, flags, outputs: map }));
        assert.deepEqual(told, new SignedIn({ credential: storedOf(device, user, true), before: null, backedUp: true, userVerified: false, flags, extensions: bytes(map) }));
        assert.equal(Object.getPrototypeOf(told.credential), Credential.prototype);
        assert.deepEqual(SignedIn.fromJSON(JSON.stringify(told)), told);
      }
    }
  },

  async "rows, of an account or of all"(server) {
    assert.deepEqual([await server.rows(), await server.rows(user)], [[], []]);
    const devices = ["b", "a", "c"].map((id) => key(id)), before = Math.floor(Date.now() / 1000);
    for (const [at, device] of devices.entries()) await registers(server, device, at < 2 ? user : other);
    await signsIn(server, devices[0]);
    const found = await server.rows(), after = Date.now() / 1000;
    assert.deepEqual([found.map(textOf).sort(), (await server.rows(user)).map(textOf).sort(), (await server.rows(other)).map(textOf)], [["a", "b", "c"], ["a", "b"], ["c"]]);
    assert.deepEqual(await server.rows(nobody), []);
    for (const row of found) {
      const device = devices.find(({ id }) => id.equals(row.id)), isUsed = device === devices[0];
      assert.ok(row instanceof KeptCredential && before <= row.createdAt && row.createdAt <= after && [null, false].includes(row.backedUp));
      assert.ok(isUsed ? before <= row.usedAt && row.usedAt <= after : row.usedAt === null);
      const { createdAt, usedAt, backedUp } = row;
      assert.deepEqual(row, new KeptCredential({ ...storedOf(device, textOf(row) === "c" ? other : user, false), aaguid: device.aaguid, createdAt, usedAt, backedUp }));
      assert.deepEqual(KeptCredential.fromJSON(JSON.stringify(row)), row);
    }
  },

  async "an account lists its own"(server) {
    assert.deepEqual(await lists(server), [[], []]);
    for (const [id, account] of [["mine", user], ["theirs", other], ["old", user]]) await registers(server, key(id), account);
    assert.equal(await server.retire(Buffer.from("old")), true);
    assert.deepEqual([await lists(server), await lists(server, other)], [[["mine"], ["mine"]], [["theirs"], ["theirs"]]]);
    assert.deepEqual([await lists(server, user, []), await lists(server, user, [Buffer.from("x")])], [[[], []], [["x"], ["x"]]]);
    assert.deepEqual(await lists(server, user, await server.rows(other)), [["theirs"], ["theirs"]]);
    assert.deepEqual((await server.registerBegin(user, "name")).options.excludeCredentials, [{ type: "public-key", id: "bWluZQ", transports: ["usb", "nfc"] }]);
    assert.deepEqual((await server.authenticateBegin()).options.allowCredentials, []);
  },

  async "of more ids than there is room for the first are excluded, and none listed"(server) {
    const devices = Array.from({ length: 33 }, (_, at) => key(`${at}`.padStart(1023, "0"))), sizes = async () => (await lists(server)).map(({ length }) => length);
    for (const device of devices.slice(0, 32)) await registers(server, device);
    assert.deepEqual(await sizes(), [32, 32]);
    await registers(server, devices[32]);
    assert.deepEqual(await sizes(), [32, 0]);
    const stranger = key("stranger");
    await registers(server, stranger, other);
    const { options, session } = await server.authenticateBegin({ user });
    await refused(server.authenticateComplete(session, stranger.signIn(options, { user: other })), "W4");
    assert.equal(textOf((await server.authenticateComplete(session, devices[32].signIn(options, { user }))).credential), devices[32].id.toString());
  },

  async "refusals of registrations, which leave the session open"(server) {
    const device = key("key"), { options, session } = await server.registerBegin(user, "name", { userVerification: true, algorithms: [ES256] });
    const good = answerOf(device, options);
    for (const [name, response] of [
      ["G4", answerOf(device, { ...options, challenge: "AA" })], ["G5", answerOf(key("key", ES256, { origin: "https://other.com" }), options)],
      ["G8", answerOf(key("key", ES256, { rpId: "other.com" }), options)], ["G9", answerOf(device, options, { flags: UV | AT })], ["G10", answerOf(device, options, { flags: UP | AT })],
      ["G11", answerOf(key("key", EDDSA), options)], ["G19", { ...good, id: "AAAA", rawId: "AAAA" }]])
      await refused(server.registerComplete(session, response), name);
    await assert.rejects(server.registerComplete(session, {}), { name: "BadInput", text: "response is missing" });
    assert.deepEqual((await server.registerComplete(session, good)).credential.id, bytes(device.id));
    await refused(server.registerComplete(session, good), "G1");
    // Whichever of the two ids is registered, it is refused because they differ.
    const begun = await server.registerBegin(other, "name");
    for (const [attested, named] of [["new", device.id], ["key", Buffer.from("new")], ["new", Buffer.from("ne")], ["new", Buffer.from("new ")]])
      await refused(server.registerComplete(begun.session, { ...answerOf(key(attested), begun.options), id: toText(named), rawId: toText(named) }), "G19");
    await refused(registers(server, device, other), "G15");
    assert.equal(await server.retire(device.id), true);
    await refused(registers(server, device), "G15");
  },

  async "refusals of sign-ins, which leave the session open"(server) {
    const device = key("key"), another = key("another"), unknown = key("unknown");
    await registers(server, device);
    await registers(server, another, other);
    const { options, session } = await server.authenticateBegin({ user, userVerification: "required" }), good = device.signIn(options, { user });
    for (const [name, response] of [
      ["W2", another.signIn(options, { user: other })], ["W2", unknown.signIn(options, { user })], ["W4", device.signIn(options, { user: other })],
      ["W7", device.signIn({ ...options, challenge: "AA" }, { user })], ["W12", device.signIn(options, { user, flags: UV })], ["W13", device.signIn(options, { user, flags: UP })],
      ["W14", changed(good, "signature", flipped)], ["W16", device.signIn(options, { user, flags: UP | UV | BE })]])
      await refused(server.authenticateComplete(session, response), name);
    await assert.rejects(server.authenticateComplete(session, {}), { name: "BadInput", text: "response is missing" });
    assert.equal((await server.authenticateComplete(session, good)).credential.signCount, 1);
    await refused(server.authenticateComplete(session, good), "W1");
    device.count = 0;
    await refused(signsIn(server, device), "W15");
    assert.equal((await server.rows(user))[0].signCount, 1);
    await refused(signsIn(server, unknown), "W3");
    assert.equal(await server.retire(device.id), true);
    await refused(signsIn(server, device), "W3");
  },

  async "retirement and deletion: of one account, where that is named"(server) {
    for (const end of ["retire", "retireAll", "delete"]) {
      for (const [id, account] of [["mine", user], ["theirs", other]])
        if (!(await server.rows()).some((row) => textOf(row) === id)) await registers(server, key(id), account);
      const mine = await server.registerBegin(user, "name"), theirs = await server.registerBegin(other, "name", { exclude: [] }), id = Buffer.from("mine");
      const made = key("new").register(mine.options), more = key(`more ${end}`).register(theirs.options), none = Buffer.from("none");
      if (end === "retireAll") assert.deepEqual([await server.retireAll(nobody), await server.retireAll(user), await server.retireAll(user)], [0, 1, 0]);
      else {
        assert.deepEqual([await server[end](id, other), await server[end](none), await server[end](none, user)], [false, false, false]);
        assert.deepEqual([await server[end](id, user), await server[end](id, user), await server[end](id)], [true, false, false]);
      }
      assert.deepEqual((await server.rows(user)).map(({ retired }) => retired), end === "delete" ? [] : [true]);
      await refused(server.registerComplete(mine.session, made), "G1");
      await server.registerComplete(theirs.session, more);
      if (end !== "delete") assert.equal(await server.delete(id), true);
    }
  },

  async "erasure"(server) {
    const keys = ["0", "1", "2"].map((id) => key(id));
    for (const device of keys) await registers(server, device);
    await registers(server, key("theirs"), other);
    assert.equal(await server.retire(keys[1].id), true);
    const begun = await server.registerBegin(user, "name"), asked = await server.authenticateBegin({ user }), made = key("late").register(begun.options);
    assert.deepEqual([await server.erase(nobody), await server.erase(user), await server.erase(user)], [0, 3, 0]);
    assert.deepEqual([await server.rows(user), (await server.rows()).map(textOf)], [[], ["theirs"]]);
    await refused(server.registerComplete(begun.session, made), "G1");
    await assert.rejects(server.authenticateComplete(asked.session, keys[0].signIn(asked.options, { user })), ({ name }) => ["W1", "W3"].includes(name));
    for (const [at, account] of [other, user, other].entries()) assert.deepEqual((await registers(server, keys[at], account)).credential.user, bytes(account));
  },

  async "abandonment"(server) {
    const device = key("key");
    await registers(server, device);
    const { options, session } = await server.authenticateBegin(), begun = await server.registerBegin(other, "name"), found = [];
    for (const one of [session, session, begun.session, begun.session]) found.push(await server.abandon(one));
    assert.deepEqual(found, [true, false, true, false]);
    await refused(server.authenticateComplete(session, device.signIn(options, { user })), "W1");
    await refused(server.registerComplete(begun.session, key("new").register(begun.options)), "G1");
  },

  async "a text that is no open session of this kind is refused by the first step; what is no text is the site's slip"(server) {
    const device = key("key");
    await registers(server, device);
    const { options, session } = await server.authenticateBegin(), begun = await server.registerBegin(other, "name");
    const good = device.signIn(options, { user }), made = key("new").register(begun.options);
    const texts = [null, undefined, "", "0".repeat(32), "A", "=", `${session}\n`, session.slice(0, -1), `${session.toUpperCase()}0`, "\ud800", "\0".repeat(32), "' or 1=1 --", "$1", "?",
                   "x".repeat(70_000), "__proto__", "constructor", '{"challenge":"AA","user":null,"allow":[],"user_verification":false}'];
    for (const text of [...texts, begun.session]) await refused(server.authenticateComplete(text, good), "W1");
    for (const text of [...texts, session]) await refused(server.registerComplete(text, made), "G1");
    for (const text of texts) assert.equal(await server.abandon(text), false);
    const throws = { get session() { throw new Error("a getter"); }, toString() { throw new Error("a text"); } };
    for (const wrong of [0, 7, true, 1.5, 7n, Symbol("a"), new Uint8Array(0), Buffer.from(session), [session], {}, { session }, throws, new String(session), () => session, Promise.resolve(session)])
      for (const call of [() => server.authenticateComplete(wrong, good), () => server.registerComplete(wrong, made), () => server.abandon(wrong)])
        await assert.rejects(call(), (error) => error instanceof BadInput && /^session is .*: write the text that the begin gave, or null$/.test(error.text));
    assert.deepEqual((await server.authenticateComplete(session, good)).credential.id, bytes(device.id));
    assert.deepEqual((await server.registerComplete(begun.session, made)).credential.id, bytes(Buffer.from("new")));
  },

  async "wrong kinds of the host's begin and end nothing"(server) {
    const device = key("key");
    await registers(server, device);
    for (const wrong of ["text", 5, [1], {}, new ArrayBuffer(1), new Uint8Array(0), new Uint8Array(65)])
      for (const call of [() => server.rows(wrong), () => server.retireAll(wrong), () => server.erase(wrong), () => server.retire(device.id, wrong), () => server.delete(device.id, wrong),
                          () => server.authenticateBegin({ user: wrong }), () => server.registerBegin(wrong, "name")])
        await assert.rejects(call(), BadInput, `${call}`);
    for (const wrong of ["text", 5, null, undefined, [1], new Uint8Array(0), new Uint8Array(1024)])
      for (const call of [() => server.retire(wrong), () => server.delete(wrong)]) await assert.rejects(call(), BadInput);
    await assert.rejects(server.registerBegin(user, "name", { user_verification: true }), BadInput);
    assert.deepEqual((await server.rows()).map(({ retired }) => retired), [false]);
  },

  async "at once: of responses over one session one is accepted, and of registrations of one id one"(server) {
    const device = key("key"), settled = async (calls) => (await Promise.allSettled(calls)).map(({ reason }) => reason?.name ?? "accepted");
    await registers(server, device);
    for (let time = 0; time < 3; time++) {
      const { options, session } = await server.authenticateBegin(), response = device.signIn(options, { user });
      const told = await settled(Array.from({ length: 6 }, () => server.authenticateComplete(session, response)));
      assert.ok(told.filter((one) => one === "accepted").length === 1 && told.every((one) => ["accepted", "W1", "W15"].includes(one)), told);
    }
    const begun = [];
    for (let at = 0; at < 4; at++) begun.push(await server.registerBegin(user, "name", { exclude: [] }));
    const fresh = key("fresh"), told = await settled(begun.map(({ options, session }) => server.registerComplete(session, fresh.register(options))));
    assert.deepEqual([told.sort(), (await server.rows(user)).length], [["G15", "G15", "G15", "accepted"], 2]);
  },
};

for (const name of Object.keys(STORAGES))
  for (const [what, acts] of Object.entries(SITE)) test(`${name}: ${what}`, async (context) => acts(await serving(context, name)));
