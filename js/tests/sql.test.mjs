// `SqlServer` over PostgreSQL, whose address stands in the environment as libpq's programs take it: visits, races, connections that
// end, rows that no site writes, and hostile responses (HOSTILE).
import assert from "node:assert/strict";
import { createRequire } from "node:module";
import { after, beforeEach, test } from "node:test";
import { BadInput, Credential, EDDSA, ES256, KeptCredential, RS256, Registered, Server, SessionDamaged, SignedIn, StoreFailed, toText } from "garvoeng";
import { SqlServer } from "garvoeng/sql";
import { AT, Device, UP, UV, changed } from "./device.mjs";
import { refusesHostileLines } from "./hostile_lines.mjs";

const { Pool } = createRequire(import.meta.url)("pg"), user = Buffer.from("account 7");
const pool = new Pool({ max: 16 }), other = new Pool({ max: 4 });
after(() => Promise.all([pool.end(), other.end()]));
const run = async (text, ...values) => (await pool.query(text, values)).rows;
const serving = ({ verify, ...how } = {}, by = pool) => new SqlServer(new Server("example.com", ["https://example.com"], { verify }), by, { logger: () => {}, ...how });
const flipped = (value) => (value[value.length - 1] ^= 1, value);
const settled = async (...calls) => (await Promise.allSettled(calls)).map(({ reason }) => reason?.name ?? "accepted").sort();

beforeEach(async () => {
  for (const name of ["version", "credential", "session"]) await run(`drop table if exists garvoeng_${name}`);
});

async function registered(server, device, how) {
  const { options, session } = await server.registerBegin(user, "name", { attestation: "direct" });
  return server.registerComplete(session, device.register(options, how));
}

async function signIn(server, device) {
  const { options, session } = await server.authenticateBegin();
  return [session, device.signIn(options, { user })];
}

test("the tables, and what stands in them", async () => {
  const server = serving(), device = new Device(ES256, { id: Buffer.from("key") }), before = Math.floor(Date.now() / 1000);
  await Promise.all([serving().rows(), serving().rows(), serving({}, other).rows(), server.rows()]);
  const columns = await run("select table_name, column_name, data_type, is_nullable, column_default from information_schema.columns where table_name like 'garvoeng_%' order by table_name, ordinal_position");
  assert.deepEqual(columns.map((column) => Object.values(column).join(" ").replace("garvoeng_", "")), [
    "credential id bytea NO ", "credential user_handle bytea NO ", "credential public_key bytea NO ", "credential sign_count bigint NO ",
    "credential backup_eligible integer YES ", "credential retired integer NO ", "credential backed_up integer YES ", "credential transports text NO ''::text",
    "credential aaguid bytea YES ", "credential created_at bigint NO ", "credential used_at bigint YES ",
    "session id text NO ", "session data text NO ", "session expires_at bigint NO ", "version version integer NO "]);
  assert.deepEqual((await run("select indexname from pg_indexes where tablename like 'garvoeng_%' order by 1")).map(({ indexname }) => indexname),
                   ["garvoeng_credential_by_user", "garvoeng_credential_pkey", "garvoeng_session_by_expiry", "garvoeng_session_pkey"]);
  assert.deepEqual(await run("select version from garvoeng_version"), [{ version: 1 }]);
  const begun = await server.registerBegin(user, "name", { userVerification: "required", algorithms: [ES256] });
  const [kept] = await run("select * from garvoeng_session");
  assert.match(begun.session, /^[0-9a-f]{32}$/);
  assert.deepEqual([kept.id, JSON.parse(kept.data)], [begun.session, { challenge: begun.options.challenge, user: "YWNjb3VudCA3", user_verification: true, algorithms: [-7],
                                                                      conditional: false, attestation: false }]);
  assert.ok(Number(kept.expires_at) - before >= 300 && Number(kept.expires_at) - before < 310);
  const response = device.register(begun.options);
  response.response.transports = ["usb", "a,b", "nfc"];
  const { credential } = await server.registerComplete(begun.session, response);
  const [row] = await run("select * from garvoeng_credential");
  assert.ok(Number(row.created_at) - before < 10 && Number(row.created_at) >= before);
  assert.deepEqual({ ...row, created_at: 0 }, {
    id: device.id, user_handle: user, public_key: device.coseKey(), sign_count: "0", backup_eligible: 0, retired: 0, backed_up: 0, transports: "usb,nfc",
    aaguid: device.aaguid, created_at: 0, used_at: null });
  assert.deepEqual(await server.rows(), [new KeptCredential({ ...credential, aaguid: device.aaguid, backedUp: false, createdAt: Number(row.created_at) })]);
  const listed = { type: "public-key", id: "a2V5", transports: ["usb", "nfc"] };
  assert.deepEqual((await serving().authenticateBegin({ user })).options.allowCredentials, [listed]);
  assert.deepEqual((await serving().registerBegin(user, "name")).options.excludeCredentials, [listed]);
  await run("delete from garvoeng_session");
  const { options, session } = await server.authenticateBegin({ user, allow: [credential] });
  assert.deepEqual(JSON.parse((await run("select data from garvoeng_session"))[0].data),
                   { challenge: options.challenge, user: "YWNjb3VudCA3", allow: ["a2V5"], user_verification: false });
  await server.authenticateComplete(session, device.signIn(options, { flags: UP | UV }));
  const [now] = await run("select sign_count, used_at, backed_up, backup_eligible from garvoeng_credential");
  assert.deepEqual({ ...now, used_at: Number(now.used_at) >= before }, { sign_count: "1", used_at: true, backed_up: 0, backup_eligible: 0 });
  assert.deepEqual(await run("select * from garvoeng_session"), []);
  await run("update garvoeng_version set version = 2");
  const late = serving();
  await assert.rejects(late.rows(), { name: "StoreFailed", message: "the tables are of version 2, and not of 1" });
  await run("update garvoeng_version set version = 1");
  assert.equal((await late.rows()).length, 1, "the next call looks again");
  const ids = await Promise.all(Array.from({ length: 100 }, async () => (await late.authenticateBegin()).session));
  assert.equal(new Set(ids).size, 100);
  for (let at = 0; at < 32; at++) assert.ok(new Set(ids.map((id) => id[at])).size > 8, `digit ${at} of a session's id`);
});

test("visits", async () => {
  const server = serving();
  let device, response;
  for (const [index, algorithm] of [ES256, EDDSA, RS256].entries()) {
    device = new Device(algorithm, { id: Buffer.from(`${index}`) });
    const { id, x, y, aaguid } = device, made = await registered(server, device, { isPacked: index === 1 });
    assert.deepEqual(made, new Registered({ credential: new Credential({ id, user, algorithm, x, y, signCount: 0, eligible: false }), aaguid: Uint8Array.from(aaguid),
                             format: index === 1 ? "packed" : "none", userVerified: true, backedUp: false, flags: UP | UV | AT, extensions: new Uint8Array(0) }));
    const begun = await server.authenticateBegin({ user, allow: [made.credential] });
    response = device.signIn(begun.options);
    await assert.rejects(server.authenticateComplete(begun.session, changed(response, "signature", flipped)), { name: "W14" });
    assert.deepEqual(await server.authenticateComplete(begun.session, response), new SignedIn({
      credential: new Credential({ id, user, algorithm, x, y, signCount: 1, eligible: false }), before: null, userVerified: true, backedUp: false, flags: UP | UV, extensions: new Uint8Array(0) }));
    await assert.rejects(server.authenticateComplete(begun.session, response), { name: "W1" });
  }
  assert.deepEqual((await server.rows(user)).map(({ signCount }) => signCount), [1, 1, 1]);
  assert.deepEqual(await server.rows(Buffer.from("nobody")), []);
  await assert.rejects(registered(server, device), { name: "G15", isRegistration: true });
  for (const none of [null, undefined, "0".repeat(32)]) await assert.rejects(server.authenticateComplete(none, response), { name: "W1" });
  assert.deepEqual([await server.retire(device.id), await server.retire(device.id), await server.retire(user)], [true, false, false]);
  await assert.rejects(server.authenticateComplete(...await signIn(server, device)), { name: "W3" });
  await assert.rejects(registered(server, device), { name: "G15" });
  const [session] = await signIn(server, device);
  assert.deepEqual([await server.abandon(session), await server.abandon(session)], [true, false]);
  assert.deepEqual((await server.rows()).map(({ retired }) => retired).sort(), [false, false, true]);
});

test("the account's own credentials are excluded and listed", async () => {
  const server = serving(), ids = ["1", "2", "3"].map((id) => Buffer.from(id));
  for (const id of ids) await registered(server, new Device(ES256, { id }));
  await server.registerBegin(Buffer.from("nobody"), "name");
  await server.retire(ids[1]);
  const listed = (list) => list.map(({ id }) => Buffer.from(id, "base64url").toString()).sort();
  assert.deepEqual(listed((await server.registerBegin(user, "name")).options.excludeCredentials), ["1", "3"]);
  assert.deepEqual(listed((await server.registerBegin(user, "name", { exclude: [ids[1]] })).options.excludeCredentials), ["2"]);
  assert.deepEqual(listed((await server.registerBegin(user, "name", { exclude: [] })).options.excludeCredentials), []);
  assert.deepEqual(listed((await server.authenticateBegin({ user })).options.allowCredentials), ["1", "3"]);
  assert.deepEqual(listed((await server.authenticateBegin({ user, allow: [] })).options.allowCredentials), []);
  assert.deepEqual(listed((await server.authenticateBegin()).options.allowCredentials), []);
  assert.deepEqual([await server.retire(ids[0], Buffer.from("nobody")), await server.retire(ids[0], user)], [false, true]);
  const [row] = await run("select * from garvoeng_credential where id = $1", ids[2]);
  for (let count = 0; count < 64; count++) await run("insert into garvoeng_credential values ($1, $2, $3, 0, 0, 0, 0, '', null, 0, null)", Buffer.from(`more ${count}`), user, row.public_key);
  assert.equal((await server.registerBegin(user, "name")).options.excludeCredentials.length, 64);
  const begun = await server.authenticateBegin({ user });
  assert.deepEqual([begun.options.allowCredentials, JSON.parse((await run("select data from garvoeng_session where id = $1", begun.session))[0].data).user], [[], toText(user)]);
});

test("retirement and deletion end an account's registrations, its erasure all that it has open", async () => {
  const server = serving(), nobody = Buffer.from("nobody"), device = new Device(), more = (id) => new Device(ES256, { id: Buffer.from(id) });
  await registered(server, device);
  await registered(server, more("second"));
  const begins = async () => [await server.registerBegin(user, "name"), await server.authenticateBegin({ user }), await server.registerBegin(nobody, "name"), await server.authenticateBegin()];
  const open = async () => (await run("select id from garvoeng_session")).map(({ id }) => id).sort(), ids = (begun) => begun.map(({ session }) => session).sort();
  const first = await begins();
  // As Python writes it.
  await run("update garvoeng_session set data = replace(replace(data, ':', ': '), ',', ', ') where id = $1", first[0].session);
  assert.deepEqual([await server.retire(device.id, nobody), await server.delete(device.id, nobody)], [false, false]);
  assert.deepEqual(await open(), ids(first));
  assert.equal(await server.retire(device.id, user), true);
  assert.deepEqual(await open(), ids(first.slice(1)));
  await assert.rejects(server.registerComplete(first[0].session, more("third").register(first[0].options)), { name: "G1" });
  assert.equal(await server.delete(Buffer.from("none")), false);
  const again = await server.registerBegin(user, "name");
  assert.deepEqual([await server.delete(device.id, user), await server.delete(device.id)], [true, false]);
  assert.deepEqual([await open(), (await open()).includes(again.session)], [ids(first.slice(1)), false]);
  await server.registerComplete(first[2].session, more("nobody's").register(first[2].options));
  await run("delete from garvoeng_session");
  const second = await begins();
  await registered(server, device);
  assert.equal(await server.erase(user), 2);
  assert.deepEqual(await open(), ids(second.slice(2)));
  assert.deepEqual([await server.erase(user), (await server.rows()).map(({ id }) => Buffer.from(id).toString())], [0, ["nobody's"]]);
  for (const bad of ["x", null, new Uint8Array(0), new Uint8Array(65)]) await assert.rejects(server.erase(bad), BadInput);
  for (const bad of ["x", null, undefined]) await assert.rejects(server.delete(bad), BadInput);
  // All of it is one transaction: a failure changes nothing.
  const failing = serving({}, { listenerCount: () => 1, connect: async () => {
    const client = await pool.connect(), query = (text, values) => (text.startsWith("delete from garvoeng_credential") ? Promise.reject(new Error("none")) : client.query(text, values));
    return { query, on: client.on.bind(client), removeListener: client.removeListener.bind(client), release: client.release.bind(client) };
  } });
  for (const call of [() => failing.delete(Buffer.from("nobody's")), () => failing.erase(nobody)]) await assert.rejects(call(), { name: "StoreFailed" });
  assert.deepEqual([await open(), (await server.rows()).length], [ids(second.slice(2)), 1]);
});

test("deletion and sign-ins of one account at once", async () => {
  const server = serving(), second = serving({}, other);
  for (let time = 0; time < 10; time++) {
    const device = new Device();
    await registered(server, device);
    const { options, session } = await server.authenticateBegin({ user }), begun = await server.registerBegin(user, "name"), added = new Device(ES256, { id: Buffer.from(`added ${time}`) });
    const [signIn, registration] = await Promise.allSettled([second.authenticateComplete(session, device.signIn(options, { user })), server.registerComplete(begun.session, added.register(begun.options)), second.erase(user)]);
    for (const [{ status, reason }, names] of [[signIn, ["W1", "W3"]], [registration, ["G1"]]]) assert.ok(status === "fulfilled" || names.includes(reason.name), String(reason));
    assert.ok((await server.rows()).length <= (registration.status === "fulfilled" ? 1 : 0));
    await server.erase(user);
  }
});

test("a session ends, is of one ceremony, and a refusal leaves it open", async () => {
  const server = serving({ lifetime: 1 }), device = new Device(), lasting = serving();
  await registered(lasting, device);
  const [old, answer] = await signIn(server, device);
  await new Promise((resolve) => setTimeout(resolve, 2_100));
  await assert.rejects(server.authenticateComplete(old, answer), { name: "W1" });
  assert.equal(await server.abandon(old), false);
  await lasting.authenticateBegin();
  assert.equal((await run("select count(*) from garvoeng_session"))[0].count, "1", "what has ended goes at a begin");
  const [session, response] = await signIn(lasting, device), begun = await lasting.registerBegin(user, "name");
  await assert.rejects(lasting.registerComplete(session, new Device(ES256, { id: user }).register(begun.options)), { name: "G1" });
  await assert.rejects(lasting.authenticateComplete(begun.session, response), { name: "W1" });
  await assert.rejects(lasting.authenticateComplete(session, { id: "AA" }), BadInput);
  await lasting.authenticateComplete(session, response);
  await lasting.registerComplete(begun.session, new Device(ES256, { id: user }).register(begun.options));
});

test("of responses at once one is accepted", async () => {
  const server = serving(), second = serving({}, other), device = new Device();
  await registered(server, device);
  for (let time = 0; time < 20; time++) {
    const [session, response] = await signIn(server, device);
    assert.deepEqual(await settled(...[server, second, server, second].map((one) => one.authenticateComplete(session, response))), ["W1", "W1", "W1", "accepted"]);
    const count = device.count, [one, first] = await signIn(server, device);
    device.count = count;
    const [two, again] = await signIn(second, device);
    assert.deepEqual(await settled(server.authenticateComplete(one, first), second.authenticateComplete(two, again)), ["W15", "accepted"], "a copied key");
  }
  let verifies;
  const isVerifying = new Promise((resolve) => (verifies = resolve)), patient = serving({ verify: () => (verifies(), new Promise((resolve) => setTimeout(resolve, 300, true))) });
  const [one, first] = await signIn(patient, device), [two, next] = await signIn(server, device);
  const waits = patient.authenticateComplete(one, first);
  await isVerifying;
  assert.deepEqual(await settled(waits, second.authenticateComplete(two, next)), ["accepted", "accepted"], "the second waits for the first's counter");
  for (let time = 0; time < 10; time++) {
    const twin = new Device(ES256, { id: Buffer.from(`twin ${time}`) }), begun = await Promise.all([server, second].map((one) => one.registerBegin(user, "name")));
    const calls = begun.map(({ options, session }, index) => [server, second][index].registerComplete(session, twin.register(options)));
    assert.deepEqual(await settled(...calls), ["G15", "accepted"]);
  }
  assert.equal((await run("select sign_count from garvoeng_credential where id = $1", device.id))[0].sign_count, "42");
});

test("what another host did between the verdict and the write is seen", async () => {
  for (const [change, wanted] of [["delete from garvoeng_credential", "W15"], ["update garvoeng_credential set sign_count = 7", "W15"], ["update garvoeng_credential set retired = 1", "W15"]]) {
    const device = new Device(), plain = serving();
    await registered(plain, device);
    const [session, response] = await signIn(plain, device);
    // The same transaction does it, as a host that takes no lock would have.
    const meddling = { listenerCount: () => 1, connect: async () => {
      const client = await pool.connect();
      const query = async (text, values) => {
        if (text.trimStart().startsWith("update garvoeng_credential set sign_count")) await client.query(change);
        return client.query(text, values);
      };
      return { query, on: client.on.bind(client), removeListener: client.removeListener.bind(client), release: client.release.bind(client) };
    } };
    await assert.rejects(serving({}, meddling).authenticateComplete(session, response), { name: wanted });
    assert.equal((await plain.authenticateComplete(session, response)).credential.signCount, 1, "it was rolled back");
    await run("delete from garvoeng_credential");
  }
});

test("connections that end", async () => {
  const server = serving(), device = new Device();
  await registered(server, device);
  const end = "select pg_terminate_backend(pid) from pg_stat_activity where pid <> pg_backend_pid() and datname = current_database()";
  await other.query(end);
  for (let time = 0; time < 600 && pool.totalCount > 0; time++) await new Promise((resolve) => setTimeout(resolve, 50));
  assert.equal((await server.rows()).length, 1, "idle ones are replaced");
  let failed = 0, accepted = 0;
  for (let time = 0; time < 30; time++) {
    try {
      const [session, response] = await signIn(server, device);
      const [answer] = await Promise.all([server.authenticateComplete(session, response), time % 2 === 0 ? other.query(end) : null]);
      assert.equal(answer.credential.signCount, device.count);
      accepted++;
    } catch (error) {
      assert.ok(error instanceof StoreFailed, String(error));
      assert.ok(error.cause instanceof Error);
      failed++;
    }
  }
  assert.ok(accepted >= 5 && failed >= 1, `${accepted} ${failed}`);
  const count = Number((await run("select sign_count from garvoeng_credential"))[0].sign_count);
  assert.ok(count <= device.count && count >= accepted);
  const none = serving({}, new Pool({ host: "127.0.0.1", port: 1 }));
  await assert.rejects(none.authenticateBegin(), { name: "StoreFailed" });
  await assert.rejects(none.rows(), { name: "StoreFailed" });
  assert.equal(pool.waitingCount, 0);
  assert.equal(pool.totalCount, pool.idleCount, "each connection was given back");
});

test("a verify that fails gives its connection back, and changes nothing", async () => {
  const server = serving({ verify: () => Promise.reject(new Error("no mathematics")) }), device = new Device(), plain = serving();
  await registered(plain, device);
  const [session, response] = await signIn(plain, device);
  for (let time = 0; time < 20; time++) await assert.rejects(server.authenticateComplete(session, response), { message: "no mathematics" });
  assert.equal(pool.totalCount, pool.idleCount);
  await plain.authenticateComplete(session, response);
});

test("rows that no site writes are the database's failure", async () => {
  const server = serving(), device = new Device();
  await registered(server, device);
  for (const data of ["", "{", "[]", "null", '{"allow":[]}', '{"allow":[],"challenge":"*","user":null,"user_verification":false}']) {
    const [session, response] = await signIn(server, device);
    await run("update garvoeng_session set data = $1 where id = $2", data, session);
    await assert.rejects(server.authenticateComplete(session, response), (error) => error instanceof SessionDamaged && error.session === session && !error.message.includes(session), data);
    assert.equal((await run("select data from garvoeng_session where id = $1", session))[0].data, data, "it is left as it is");
  }
  // Those of another kind, and those that are bound to a sign-in of Python's, are none of a sign-in.
  const [other, answer] = await signIn(server, device), [{ data }] = await run("select data from garvoeng_session where id = $1", other);
  for (const more of [{ algorithms: [-7] }, { signed_in: 1 }, { sign_in: "0".repeat(32) }]) {
    await run("update garvoeng_session set data = $1 where id = $2", JSON.stringify({ ...JSON.parse(data), ...more }), other);
    await assert.rejects(server.authenticateComplete(other, answer), { name: "W1" });
  }

  const [session, response] = await signIn(server, device);
  for (const [column, value] of [["public_key", Buffer.from("a0", "hex")], ["public_key", Buffer.alloc(0)], ["sign_count", 2 ** 33], ["sign_count", -1]]) {
    const [{ kept }] = await run(`select ${column} as kept from garvoeng_credential`);
    await run(`update garvoeng_credential set ${column} = $1`, value);
    await assert.rejects(server.authenticateComplete(session, response), ({ name, id }) => name === "RowDamaged" && toText(id) === toText(device.id));
    await run(`update garvoeng_credential set ${column} = $1`, kept);
  }
  await server.authenticateComplete(session, response);
});

test("what hosts and visitors hand in", async () => {
  const server = serving(), device = new Device(), { options, session } = await server.registerBegin(user, "name"), made = device.register(options);
  const signed = device.signIn((await server.authenticateBegin()).options, { user });
  for (const bad of ["", "x", 7, {}, [session], session.toUpperCase() + "A", session + "\n", `${session}'`, session.slice(1), true, Symbol("a")]) {
    const why = typeof bad === "string" ? (error) => error.number === 1 : BadInput;
    await assert.rejects(server.registerComplete(bad, made), why);
    await assert.rejects(server.authenticateComplete(bad, signed), why);
    if (typeof bad === "string") assert.equal(await server.abandon(bad), false);
    else await assert.rejects(server.abandon(bad), BadInput);
  }
  for (const bad of ["AA", null, undefined, [1]]) await assert.rejects(server.retire(bad), BadInput);
  await assert.rejects(server.rows("x"), BadInput);
  await assert.rejects(server.registerBegin("account", "name"), BadInput);
  await assert.rejects(server.authenticateBegin({ allow: "x" }), BadInput);
  for (const row of [{ id: Buffer.alloc(0) }, { id: Buffer.alloc(1_024) }, { user_handle: Buffer.alloc(0) }, { user_handle: Buffer.alloc(65) }]) {
    await run("insert into garvoeng_credential values ($1, $2, $3, 0, 0, 0, 0, '', null, 0, null)", row.id ?? Buffer.from("odd"), row.user_handle ?? user, device.coseKey());
    assert.deepEqual([(await server.rows()).length, (await server.registerBegin(user, "name")).options.excludeCredentials], [0, []]);
    await run("delete from garvoeng_credential");
  }
  for (const lifetime of [0, "1", 0.5, NaN]) assert.throws(() => serving({ lifetime }), BadInput);
  const asked = await server.authenticateBegin();
  await refusesHostileLines(server, { registration: session, signIn: asked.session });
  await server.registerComplete(session, made);
  await server.authenticateComplete(asked.session, device.signIn(asked.options, { user }));
  assert.equal(pool.totalCount, pool.idleCount);
});

test("names that are given at once are all kept", async () => {
  const server = serving(), ids = Array.from({ length: 12 }, (_, at) => Buffer.from(`passkey ${at}`));
  await server.prepare();
  await Promise.all(ids.map((id) => server.webStore.rename(user, id, toText(id))));
  assert.deepEqual([...(await server.webStore.names(user))].sort(), ids.map((id) => [toText(id), toText(id)]).sort());
});
