// `KeepingServer` over stores that answer what is no answer, that fail, and that change between the verdict and the write. Python's
// test_keeping.py has the same.
import assert from "node:assert/strict";
import { test } from "node:test";
import { BadInput, KeepingServer, KeptCredential, MemoryStore, RowDamaged, Server, SessionDamaged, StoreFailed, toText } from "garvoeng";
import { Device } from "./device.mjs";

const user = Buffer.from("account 7"), CALLS = ["begin", "session", "register", "signIn", "abandon", "row", "rows", "retire", "retireAll", "delete", "erase"];
const party = (host = "example.com", origin = "https://example.com") => new Server(host, [origin]);

// A store of which some calls are others.
function spoilt() {
  const inner = new MemoryStore(), by = {};
  return Object.assign(Object.fromEntries(CALLS.map((name) => [name, (...words) => (Object.hasOwn(by, name) ? by[name](...words) : inner[name](...words))])), { by, inner });
}

function site() {
  const store = spoilt(), logged = [], server = new KeepingServer(party(), store, { logger: (error) => logged.push(error) });
  const registers = async (device) => {
    const { options, session } = await server.registerBegin(user, "name");
    return server.registerComplete(session, device.register(options));
  };
  const signsIn = async (device) => {
    const { options, session } = await server.authenticateBegin();
    return server.authenticateComplete(session, device.signIn(options, { user }));
  };
  return { store, server, registers, signsIn, logged };
}

test("what is no answer is the store's failure, and counts as none", async () => {
  const { store, server, registers, signsIn } = site(), device = new Device(), codes = [undefined, null, true, false, 2, -1, "0", 0n, [], {}];
  await registers(device);
  const flags = [undefined, null, 1, 0, "true", [], {}], counts = [undefined, null, true, -1, "1", 1.5, 1n], lists = [undefined, null, 7, "rows", {}, new Set()];
  const added = () => registers(new Device(undefined, { id: Buffer.from("new") })), again = () => signsIn(Object.assign(new Device(), { key: device.key, x: device.x, y: device.y }));
  for (const [call, answers, acts] of [
    ["register", codes, added], ["signIn", codes, again], ["session", [7, "x", true, () => 1], added], ["rows", lists, () => server.rows()], ["rows", lists, () => server.registerBegin(user, "name")],
    ["retire", flags, () => server.retire(device.id)], ["delete", flags, () => server.delete(device.id)], ["abandon", flags, () => server.abandon("0".repeat(32))],
    ["retireAll", counts, () => server.retireAll(user)], ["erase", counts, () => server.erase(user)]])
    for (const answer of answers)
      for (const made of [() => answer, async () => answer]) {
        store.by[call] = made;
        await assert.rejects(acts(), (error) => error instanceof StoreFailed && error.message.startsWith(`the store's ${call} answered `), `${call} ${String(answer)}`);
        delete store.by[call];
      }
  for (const row of [7, "x", true, {}, [], { ...store.row(device.id), signCount: "1" }, { ...store.row(device.id), retired: 0 }, { ...store.row(device.id), x: "AA" }]) {
    store.by.row = () => row;
    await assert.rejects(again(), (error) => error instanceof RowDamaged && toText(error.id) === toText(device.id), JSON.stringify(row));
    delete store.by.row;
  }
  assert.deepEqual(store.inner.rows(null).map(({ signCount }) => signCount), [0]);
});

test("a damaged row is left out of lists, and logged", async () => {
  const { store, server, registers, logged } = site(), device = new Device(), whole = new Device(undefined, { id: Buffer.from("whole") });
  for (const one of [device, whole]) await registers(one);
  const row = store.inner.row(device.id), sound = store.inner.row(whole.id), ids = (list) => list.map(({ id }) => (typeof id === "string" ? id : toText(id)));
  for (const bad of [7, "x", null, {}, [], { ...row, signCount: "1" }, { ...row, retired: 0 }, { ...row, x: "AA" }, { ...row, user: new Uint8Array(65) }, { ...row, algorithm: 5 }, { ...row, signCount: -1 },
                     { ...row, y: new Uint8Array(3) }, { ...row, aaguid: new Uint8Array(3) }, { ...row, id: new Uint8Array(0) }]) {
    store.by.rows = () => [bad, sound];
    logged.length = 0;
    assert.deepEqual(ids(await server.rows(user)), [toText(whole.id)], JSON.stringify(bad));
    assert.deepEqual(ids((await server.registerBegin(user, "name")).options.excludeCredentials), [toText(whole.id)]);
    assert.deepEqual(ids((await server.authenticateBegin({ user })).options.allowCredentials), [toText(whole.id)]);
    assert.ok(logged.length === 3 && logged.every((error) => error instanceof RowDamaged && error.message.includes("is damaged")));
    if (bad?.x !== undefined && bad.id.length > 0) assert.deepEqual(logged.map(({ id }) => toText(id)), Array(3).fill(toText(device.id)));
  }
});

test("a store that fails: what it throws is thrown, and nothing has changed", async () => {
  for (const call of ["begin", "session", "register", "signIn", "row", "rows"])
    for (const fails of [() => { throw new Error("none"); }, () => Promise.reject(new Error("none")), () => ({ then(_, reject) { reject(new Error("none")); } }), () => ({ get then() { throw new Error("none"); } })]) {
      const { store, server, registers, signsIn } = site(), device = new Device();
      await registers(device);
      store.by[call] = fails;
      const acts = { register: () => registers(new Device(undefined, { id: Buffer.from("new") })), rows: () => server.registerBegin(user, "name") }[call] ?? (() => signsIn(device));
      await assert.rejects(acts(), { message: "none" }, call);
      delete store.by[call];
      assert.deepEqual((await server.rows()).map(({ signCount }) => signCount), [0]);
      assert.equal((await signsIn(device)).credential.signCount, device.count);
    }
});

test("what came between the verdict and the write", async () => {
  const signCount = (store, device, count) => store.inner.signIn(beginOf(store), new KeptCredential({ ...store.inner.row(device.id), signCount: count }), 0);
  const beginOf = (store) => (store.inner.begin({ number: "f".repeat(32), kind: "sign_in", user: null, data: "", endsAt: 2 ** 40 }), "f".repeat(32));
  for (const [change, name] of [[(store, device) => store.inner.retire(device.id, null), "W15"], [(store, device) => store.inner.delete(device.id, null), "W15"], [(store) => store.inner.erase(user), "W1"],
                                [(store, device) => signCount(store, device, 9), "W15"]]) {
    const { store, server, registers } = site(), device = new Device();
    await registers(device);
    const { options, session } = await server.authenticateBegin({ user });
    store.by.signIn = (...words) => (change(store, device), store.inner.signIn(...words));
    await assert.rejects(server.authenticateComplete(session, device.signIn(options)), { name });
    const found = store.inner.row(device.id);
    assert.ok(found === null || found.retired || found.signCount === 9);
  }
  for (const [change, name] of [[(store, number) => store.inner.abandon(number), "G1"], [(store, _, row) => (beginOf(store), store.inner.register("f".repeat(32), row)), "G15"]]) {
    const { store, server } = site(), { options, session } = await server.registerBegin(user, "name");
    store.by.register = (number, row) => (change(store, number, row), store.inner.register(number, row));
    await assert.rejects(server.registerComplete(session, new Device().register(options)), { name });
  }
});

test("whatever a store gives back, a session that ended, or is another, is not open", async () => {
  const { store, server, registers } = site(), device = new Device();
  await registers(device);
  const { options, session } = await server.authenticateBegin(), good = device.signIn(options, { user }), found = store.inner.session(session);
  for (const change of [{ endsAt: found.endsAt - 301 }, { endsAt: 0 }, { endsAt: undefined }, { endsAt: NaN }, { kind: "registration" }, { kind: "sign_out" }, { kind: undefined }, { number: "0".repeat(32) }]) {
    store.by.session = () => ({ ...found, ...change });
    await assert.rejects(server.authenticateComplete(session, good), { name: "W1" }, JSON.stringify(change));
  }
  for (const none of [null, undefined]) {
    store.by.session = async () => none;
    await assert.rejects(server.authenticateComplete(session, good), { name: "W1" });
  }
  for (const data of ["", "{", "[]", "null", "{}", 7, undefined, found.data.replace('"challenge":"', '"challenge":"AAAA'), found.data.replace("false", "0")]) {
    store.by.session = () => ({ ...found, data });
    await assert.rejects(server.authenticateComplete(session, good), (error) => error instanceof SessionDamaged && error.session === session && !error.message.includes(session));
  }
  const asked = [];
  store.by.session = (number) => void asked.push(number);
  for (const text of ["", "x", "0".repeat(31), "0".repeat(33), `${session}\n`, `${session.toUpperCase()}A`, "'"]) {
    await assert.rejects(server.authenticateComplete(text, good), { name: "W1" });
    assert.equal(await server.abandon(text), false);
  }
  assert.deepEqual(asked, []);
  delete store.by.session;
  assert.ok(await server.authenticateComplete(session, good));
});

test("a row of the site's own, with members more", async () => {
  const { store, server, registers, signsIn } = site(), device = new Device(), written = [];
  await registers(device);
  const plain = () => ({ ...store.inner.row(device.id), name: "a key", toJSON: 5 });
  store.by.row = async () => plain();
  store.by.rows = async () => [plain()];
  store.by.signIn = async (number, row, count) => (written.push(row), store.inner.signIn(number, row, count));
  assert.equal((await signsIn(device)).credential.signCount, 1);
  assert.ok(written[0] instanceof KeptCredential && written[0].usedAt > 0 && !("name" in written[0]) && (await server.rows())[0] instanceof KeptCredential);
  // What the store was handed it may change: nothing of the server's is of it.
  store.by.row = (id) => (id.fill(0), plain());
  assert.equal((await signsIn(device)).credential.signCount, 2);
});

test("slips of a site", async () => {
  for (const words of [[], [party()], [party(), null], [party(), {}], [party(), MemoryStore], [new MemoryStore(), party()], [party(), new MemoryStore(), { lifetime: 0 }],
                       [party(), new MemoryStore(), { lifetime: "300" }], [party(), new MemoryStore(), { expire: 300 }], [party(), new MemoryStore(), []]])
    assert.throws(() => new KeepingServer(...words), BadInput);
  for (const name of CALLS) {
    const store = spoilt();
    delete store[name];
    assert.throws(() => new KeepingServer(party(), store), (error) => error instanceof BadInput && error.text.startsWith(`the store's ${name} is undefined`));
  }
  const calls = { get begin() { throw new Error("a getter"); } };
  assert.throws(() => new KeepingServer(party(), calls), { message: "a getter" });
});

test("sessions that have ended go at a begin", async (context) => {
  const store = new MemoryStore(), server = new KeepingServer(party(), store, { lifetime: 1 }), { now } = Date;
  context.after(() => (Date.now = now));
  const { session } = await server.authenticateBegin();
  Date.now = () => now() + 5_000;
  assert.equal(await server.abandon((await server.authenticateBegin()).session), true);
  assert.equal(store.session(session), null);
});
