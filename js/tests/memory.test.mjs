// The module's memory: after each call it is as it was at first, it stays below 64 MB, and a module that ran out goes on.
import assert from "node:assert/strict";
import { execFileSync } from "node:child_process";
import { readFileSync } from "node:fs";
import { test } from "node:test";
import { fileURLToPath } from "node:url";
import { NoMemory, RegistrationSession, SignInSession, fromText } from "garvoeng";
import { Device, changed } from "./device.mjs";

const own = (name) => import(new URL(`../node_modules/garvoeng/${name}`, import.meta.url));
const { Image, Module, MOST_LENT } = await own("module.js"), { serverOver, helpersOver } = await own("server.js"), { isValid } = await own("node_signatures.js");
const file = readFileSync(new URL("../node_modules/garvoeng/passkey.wasm", import.meta.url));
const user = Buffer.from("account 7"), MEGABYTES_64 = 64 * 1024 * 1024;

// The module's file with a limit of so many pages of 64 KiB on its memory, whose section has none.
function limited(pages) {
  const at = file.indexOf(Buffer.from([5, 3, 1, 0, 2]));
  assert.ok(at > 0 && file.indexOf(Buffer.from([5, 3, 1, 0, 2]), at + 1) < 0 && pages < 128);
  return Buffer.concat([file.subarray(0, at), Buffer.from([5, 4, 1, 1, 2, pages]), file.subarray(at + 5)]);
}

function serving(bytes = file) {
  const module = new Module(new WebAssembly.Module(bytes)), first = module.bytes().slice();
  const Server = serverOver(() => module, (size) => crypto.getRandomValues(new Uint8Array(size)), isValid);
  return { module, first, server: new Server("example.com", ["https://example.com"]), helpers: helpersOver(() => module) };
}

// What is left of the first memory, and after it: nothing.
function isAsAtFirst({ module, first }) {
  const now = Buffer.from(module.bytes());
  return now.subarray(0, first.length).equals(first) && now.subarray(first.length).every((byte) => byte === 0);
}

const padded = (size) => (value) => Buffer.from(JSON.stringify({ ...JSON.parse(value), padding: "x".repeat(size) }));
const nested = (depth) => (value) => Buffer.from(value.toString().replace(/}$/, `,"a":${'{"a":'.repeat(depth)}0${"}".repeat(depth)}}`));

async function visited(made, change = (value) => value) {
  const { server } = made, device = new Device(), begun = server.registerBegin(user, "name", { attestation: "direct" });
  const response = changed(device.register(begun.options, { isPacked: true }), "clientDataJSON", (value) => value);
  const { credential } = await server.registerComplete(begun.session, response, { isRegistered: () => false });
  assert.ok(isAsAtFirst(made), "a registration");
  const { options, session } = server.authenticateBegin({ user, allow: [credential] });
  const signed = changed(device.signIn(options), "clientDataJSON", change);
  return server.authenticateComplete(session, signed, { credential: () => credential });
}

test("nothing of a call is left", async () => {
  const made = serving(), { module, helpers } = made;
  await visited(made);
  assert.ok(isAsAtFirst(made), "a sign-in");
  for (const change of [() => Buffer.from("{"), padded(100), padded(9_000), padded(30_000), nested(20), nested(100), nested(124)]) {
    await assert.rejects(visited(made, change), { name: /^W(5|14)$/ });
    assert.ok(isAsAtFirst(made), `${change}`);
  }
  const device = new Device();
  helpers.isCanonical(device.coseKey());
  helpers.credentialFromCose({ id: user, user, coseKey: device.coseKey(), signCount: 0 });
  helpers.coseKeyOf(device);
  assert.ok(isAsAtFirst(made), "keys");
  // While a signature is verified elsewhere nothing of the response lies in the memory, nor where the module is called meanwhile.
  let seen = 0;
  const looks = (wanted) => assert.ok(isAsAtFirst(made) === wanted, `while it is verified, ${++seen}`);
  const verifiers = [
    async (...asked) => (await null, looks(true), isValid(...asked)),
    (...asked) => ({ then: (resolve) => (looks(true), resolve(isValid(...asked))) }),
    (...asked) => (looks(false), module.within(() => looks(true)), isValid(...asked)),
    (...asked) => (looks(false), helpers.coseKeyOf(device), looks(true), isValid(...asked)),
    (...asked) => (assert.throws(() => module.within(() => { throw new TypeError("of the host"); }), TypeError), isValid(...asked)),
  ];
  const served = (verify) => visited({ ...made, server: new (serverOver(() => module, (size) => crypto.getRandomValues(new Uint8Array(size)), verify))("example.com", ["https://example.com"]) });
  for (const verify of verifiers) assert.equal((await served(verify)).credential.signCount, 1);
  await assert.rejects(served(() => { throw new Error("no mathematics"); }), { message: "no mathematics" });
  assert.ok(isAsAtFirst(made));
  assert.equal(seen, 12);
});

test("an image that ended is overwritten, and is nobody's while another has it", async () => {
  for (const size of [0, 500, 2_000]) {
    const one = new Image(16), { bytes } = one;
    one.flag(0, true);
    one.u32(4, 0xffffffff);
    one.lend(0, Buffer.alloc(size, 255));
    one.lendList(0, 8, [Buffer.from("secret"), Buffer.alloc(0)]);
    const grown = one.bytes;
    one.end();
    for (const left of [bytes, grown]) assert.ok(left.every((byte) => byte === 0), `${size}`);
  }
  const [two, three] = [new Image(16), new Image(16)];
  assert.notEqual(two.bytes.buffer, three.bytes.buffer);
  two.add(Buffer.from("secret"));
  assert.ok(three.bytes.every((byte) => byte === 0));
  for (const image of [two, three]) image.end();
  assert.ok(new Image(16).bytes.every((byte) => byte === 0));
  // Sign-ins that are in flight at once, each with a verifier that answers in another order, and one of which is not valid.
  const made = serving(), kept = [], device = new Device(), accounts = ["one", "two", "three"].map((name) => Buffer.from(name));
  const Waiting = serverOver(() => made.module, (size) => crypto.getRandomValues(new Uint8Array(size)), (...asked) => new Promise((resolve) => kept.push(() => resolve(isValid(...asked)))));
  const server = new Waiting("example.com", ["https://example.com"]), { credential } = await registeredBy(made.server, device);
  const calls = accounts.map((account, index) => {
    const { options, session } = server.authenticateBegin({ user: account }), response = device.signIn(options, { user: account });
    const sent = index === 1 ? changed(response, "signature", (value) => (value[value.length - 1] ^= 1, value)) : response;
    return server.authenticateComplete(session, sent, { credential: () => ({ ...credential, user: account }) }).then((said) => [Buffer.from(said.credential.user).toString(), said.credential.signCount], ({ name }) => name);
  });
  while (kept.length < 3) await new Promise(setImmediate);
  for (const answer of [kept[2], kept[0], kept[1]]) {
    answer();
    await new Promise(setImmediate);
  }
  assert.deepEqual(await Promise.all(calls), [["one", 1], "W14", ["three", 3]]);
  assert.ok(isAsAtFirst(made));
});

test("a text that a visitor sent is nowhere in the memory", async () => {
  const made = serving(), secret = "a secret of this visitor";
  await assert.rejects(visited(made, (value) => Buffer.from(value.toString().replace(/}$/, `,"secret":"${secret}"}`))), { name: "W14" });
  assert.equal(Buffer.from(made.module.bytes()).indexOf(secret), -1);
});

test("a module that runs out of memory says so, and goes on", async () => {
  const made = serving(limited(3));
  for (let round = 0; round < 3; round++) {
    await assert.rejects(visited(made, padded(40_000)), NoMemory);
    assert.equal((await visited(made)).credential.signCount, 1);
    assert.ok(isAsAtFirst(made));
  }
  assert.ok(made.module.bytes().length <= 3 * 65_536);
  // Where there is no room for the response itself.
  const small = serving(limited(2));
  await assert.rejects(visited(small, padded(44_000)), NoMemory);
  assert.equal((await visited(small)).credential.signCount, 1);
  for (const call of [() => small.module.take(60_000), () => small.module.lend(new Uint8Array(60_000)), () => small.module.place(new Image(60_000), 8)])
    assert.throws(() => small.module.within(call), NoMemory, "an address of 0 is none");
  assert.equal((await visited(small)).credential.signCount, 1);
  assert.ok(isAsAtFirst(small));
});

test("64 MB at most", async () => {
  const made = serving(), { server, module } = made, device = new Device(), { options, session } = server.authenticateBegin({ user });
  const { response } = device.signIn(options), { credential } = await registeredBy(server);
  const parts = { rawId: credential.id, authData: fromText(response.authenticatorData, "it"), signature: fromText(response.signature, "it"),
                  clientData: fromText(response.clientDataJSON, "it") };
  let most = 0;
  for (const size of [1_000_000, MOST_LENT - 4_000, MOST_LENT + 1, 70_000_000]) {
    for (const change of [{ clientData: Buffer.from(`{"a":"${"x".repeat(size)}"}`) }, { authData: new Uint8Array(size) }, { signature: new Uint8Array(size) },
                          { clientData: Buffer.from(`{"a":${"[".repeat(size)}`) }, { clientData: Buffer.from(`{${'"a":0,'.repeat(size / 6)}"b":0}`) },
                          { clientData: Buffer.from(`{"a":"${"\\u0041".repeat(size / 6)}"}`) }]) {
      const within = module.within;
      module.within = function (calls) {
        return within.call(this, () => {
          try {
            return calls();
          } finally {
            most = Math.max(most, this.bytes().length);
          }
        });
      };
      const isNamed = ({ name }) => (name === "NoMemory" ? size > 1_000_000 : /^W/.test(name) && size < MOST_LENT);
      await assert.rejects(server.authenticateCompleteParts(session, credential, { ...parts, ...change }), isNamed, `${size}`);
      module.within = within;
    }
  }
  assert.ok(most > 2 * MOST_LENT && most <= MEGABYTES_64, `${most}`);
  await assert.rejects(server.authenticateCompleteParts(session, credential, { ...parts, clientData: Buffer.alloc(1_000_000) }), { name: "W5" });
  assert.equal((await visited(made)).credential.signCount, 1);
  assert.equal(module.bytes().length, made.first.length, "a module that had grown was let go");
});

async function registeredBy(server, device = new Device()) {
  const { options, session } = server.registerBegin(user, "name");
  return server.registerComplete(session, device.register(options), { isRegistered: () => false });
}

test("a call that the engine ends is want of memory, and the next one is served", async () => {
  const made = serving(), deep = (depth) => (depth === 0 ? made.module.within(() => made.helpers.isCanonical(user)) : deep(depth - 1) + 0);
  let ended = 0;
  for (let depth = 500; depth < 40_000; depth = Math.ceil(depth * 1.05)) {
    try {
      deep(depth);
    } catch (error) {
      assert.ok(error instanceof NoMemory || error instanceof RangeError);
      ended++;
    }
  }
  assert.ok(ended > 0);
  assert.equal((await visited(made)).credential.signCount, 1);
});

test("calls that are cut off leave nothing, on the whole stack too", () => {
  for (const [last, told] of [[new WebAssembly.RuntimeError("unreachable"), NoMemory], [new Error("of the host"), /of the host/]]) {
    const made = serving(), errors = [new WebAssembly.RuntimeError("unreachable"), last];
    const cutOff = () => {
      made.module.bytes().fill(1);
      throw errors.shift();
    };
    assert.throws(() => made.module.within(cutOff), told);
    assert.ok(errors.length === 0 && isAsAtFirst(made));
  }
});

test("memory over many sign-ins", () => {
  const times = process.env.SIGN_INS ?? "2000";
  const told = execFileSync(process.execPath, ["--expose-gc", fileURLToPath(new URL("many.mjs", import.meta.url)), times], { encoding: "utf8" });
  console.log(`# MB after each tenth of ${times}: ${told}`);
});
