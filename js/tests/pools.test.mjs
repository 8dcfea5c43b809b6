// `SqlServer` over what gives clients, over clients and hooks that fail in the middle, and where transactions are in each other's way.
import assert from "node:assert/strict";
import { createRequire } from "node:module";
import { after, beforeEach, test } from "node:test";
import { BadInput, Server, StoreFailed } from "garvoeng";
import { SqlServer } from "garvoeng/sql";
import { Device, changed } from "./device.mjs";

const { Client, Pool } = createRequire(import.meta.url)("pg"), user = Buffer.from("account 7"), other = Buffer.from("account 8"), pool = new Pool({ max: 4 });
after(() => pool.end());
const party = () => new Server("example.com", ["https://example.com"]), quiet = { logger: () => {} };
const key = (id) => new Device(undefined, { id: Buffer.from(id) }), run = async (text, ...values) => (await pool.query(text, values)).rows;

beforeEach(async () => {
  for (const name of ["version", "credential", "session"]) await run(`drop table if exists garvoeng_${name}`);
  await run("drop table if exists own");
  await run("create table own (id text, account bytea)");
});

async function registers(server, device, account = user) {
  const { options, session } = await server.registerBegin(account, "name");
  return server.registerComplete(session, device.register(options));
}

async function signsIn(server, device, account = user) {
  const { options, session } = await server.authenticateBegin();
  return server.authenticateComplete(session, device.signIn(options, { user: account }));
}

async function connected() {
  const client = new Client();
  await client.connect();
  return client;
}

// A client of which some queries fail: those of these numbers, or of this text. What it was given back with is kept.
function shaky(fails, error, log) {
  return async () => {
    const inner = await pool.connect(), seen = { count: 0, released: [] };
    log.push(seen);
    return {
      query(text, values) {
        if (fails(++seen.count, text)) throw error;
        return inner.query(text, values);
      },
      release(isBroken) {
        seen.released.push(isBroken);
        inner.release(isBroken);
      },
    };
  };
}

test("pools, functions and clients: the same, and each is given back", async (context) => {
  const plain = { connect: () => pool.connect() }, ended = [];
  const single = async () => {
    const client = await connected(), { query } = client;
    return { query: query.bind(client), end: async () => (ended.push(client), client.end()) };
  };
  const numbers = new Pool({ max: 2, types: { getTypeParser: (id, form) => (id === 20 ? Number : createRequire(import.meta.url)("pg").types.getTypeParser(id, form)) } });
  const serializable = new Pool({ max: 2, options: "-c default_transaction_isolation=serializable" });
  context.after(() => Promise.all([numbers.end(), serializable.end()]));
  for (const source of [pool, plain, () => pool.connect(), single, connected, numbers, serializable]) {
    await run("drop table if exists garvoeng_version, garvoeng_credential, garvoeng_session");
    const server = new SqlServer(party(), source, quiet), device = key("key");
    await registers(server, device);
    const { options, session } = await server.authenticateBegin({ user }), good = device.signIn(options), bad = changed(good, "signature", (value) => ((value[value.length - 1] ^= 1), value));
    for (let time = 0; time < 6; time++) await assert.rejects(server.authenticateComplete(session, bad), { name: "W14" });
    assert.equal((await server.authenticateComplete(session, good)).credential.signCount, 1);
    assert.deepEqual([(await Promise.all(Array.from({ length: 8 }, () => server.rows(user)))).map(({ length }) => length), await server.erase(user)], [Array(8).fill(1), 1]);
    assert.equal(pool.totalCount, pool.idleCount);
  }
  assert.ok(ended.length > 10);
});

test("what gives no client is told", async () => {
  for (const wrong of [undefined, null, "postgresql://", 7, {}, { connect: 7 }, Promise.resolve(pool)]) assert.throws(() => new SqlServer(party(), wrong, quiet), BadInput);
  for (const gives of [() => undefined, () => null, async () => 7, () => ({}), () => { throw new Error("none"); }, () => Promise.reject(new Error("none")), () => Promise.reject(undefined),
                       () => ({ get query() { throw new Error("a getter"); } })])
    await assert.rejects(new SqlServer(party(), gives, quiet).rows(), (error) => error instanceof StoreFailed || error.message === "a getter", String(gives));
});

test("clients that fail in the middle: the error is the database's, nothing has changed, and a broken one is not lent again", async () => {
  const server = new SqlServer(party(), pool, quiet), device = key("key"), error = new Error("lost"), { options, session } = await (await registers(server, device), server.authenticateBegin());
  const begun = await server.registerBegin(user, "name"), answer = device.signIn(options, { user }), made = key("new").register(begun.options);
  for (const call of [(one) => one.authenticateComplete(session, answer), (one) => one.registerComplete(begun.session, made), (one) => one.retire(device.id), (one) => one.erase(user)]) {
    const before = await server.rows();
    let told, at = 0;
    for (; at < 40 && told === undefined; at++)
      for (const isSound of [true, false]) {
        // The first call of a server makes the tables, over a client of its own.
        const log = [], number = at === 0 ? (_, text) => text === "commit" : (count) => count === at;
        const fails = (count, text) => log.length > 1 && (number(count, text) || (!isSound && text === "rollback"));
        try {
          told = await call(new SqlServer(party(), shaky(fails, error, log), quiet));
        } catch (found) {
          assert.ok(found instanceof StoreFailed && found.cause === error, String(found));
          assert.deepEqual(await server.rows(), before, `${call} ${at}`);
        }
        assert.deepEqual(log.map(({ released }) => released.length), [1, 1]);
        if (told === undefined) assert.equal(log[1].released[0], at === 1 || !isSound, `${call} ${at}`);
        if (told !== undefined) break;
      }
    assert.ok(at > 3 && told, `${call} ${at}`);
    assert.notDeepEqual(await server.rows(), before);
  }
});

test("hooks: in the transaction, awaited, and what they throw undoes all", async () => {
  const told = [], device = key("key"), server = new SqlServer(party(), pool, {
    ...quiet,
    onRegistered: async (query, made) => (told.push(made), await query("insert into own values ($1, $2)", ["registered", made.credential.user])),
    onSignedIn: (query, signedIn) => (told.push(signedIn), query("insert into own values ('signed in', $1)", [signedIn.credential.user])),
    onErased: async (query, account) => (account.fill(0), await query("delete from own where account = $1", [user]), told.push((await query("select * from own")).rows.length)),
  });
  const made = await registers(server, device), signedIn = await signsIn(server, device);
  assert.deepEqual([told, (await run("select id from own order by id")).map(({ id }) => id)], [[made, signedIn], ["registered", "signed in"]]);
  assert.deepEqual([await server.erase(user), told.at(-1), await run("select * from own")], [1, 0, []]);
  await registers(server, device);
  for (const name of ["onRegistered", "onSignedIn", "onErased"])
    for (const fails of [() => { throw new Error("none"); }, async () => { throw new Error("none"); }, async (query) => { await query("insert into own values ('x', null)"); throw new Error("none"); },
                         () => ({ then(_, reject) { reject(new Error("none")); } }), () => ({ get then() { throw new Error("none"); } }), (query) => query("no statement"),
                         // One that passes over an error of the database has lost the transaction.
                         (query) => query("no statement").catch(() => {})]) {
      const failing = new SqlServer(party(), pool, { ...quiet, [name]: fails }), before = [await server.rows(), await run("select * from own")];
      const acts = { onRegistered: () => registers(failing, key("new")), onSignedIn: () => signsIn(failing, device), onErased: () => failing.erase(user) }[name];
      await assert.rejects(acts(), (error) => error.message === "none" || error instanceof StoreFailed, `${name} ${fails}`);
      assert.deepEqual([await server.rows(), await run("select * from own")], before, `${name} ${fails}`);
    }
  for (const wrong of [null, 7, "x", {}, []]) assert.throws(() => new SqlServer(party(), pool, { onRegistered: wrong }), BadInput);
  assert.equal(pool.totalCount, pool.idleCount);
});

test("transactions that are in each other's way are made again, whole, eight times at most", async () => {
  const server = new SqlServer(party(), pool, quiet), device = key("key");
  await registers(server, device);
  for (const code of ["40001", "40P01"])
    for (const [times, isIt] of [[1, (count) => count === 3], [2, (_, text) => text === "commit"], [7, (count) => count === 2]]) {
      const log = [], hooked = [], error = Object.assign(new Error("in the way"), { code });
      let left = times;
      const source = shaky((count, text) => log.length > 1 && isIt(count, text) && left-- > 0, error, log), { options, session } = await server.authenticateBegin();
      const one = new SqlServer(party(), source, { ...quiet, onSignedIn: (_, told) => void hooked.push(told) }), told = await one.authenticateComplete(session, device.signIn(options, { user }));
      assert.deepEqual([log.length, log.map(({ released }) => released.length)], [times + 2, Array(times + 2).fill(1)]);
      assert.deepEqual([told.credential.signCount, (await server.rows())[0].signCount, hooked.at(-1)], [device.count, device.count, told]);
    }
  for (const [error, times] of [[Object.assign(new Error("in the way"), { code: "40001" }), 8], [Object.assign(new Error("unique"), { code: "23505" }), 1], [new Error("none"), 1],
                                [Object.assign(new Error("a number"), { code: 40001 }), 1]]) {
    const log = [], one = new SqlServer(party(), shaky((count) => log.length > 1 && count === 2, error, log), quiet);
    await assert.rejects(one.authenticateBegin(), (found) => found instanceof StoreFailed && found.cause === error);
    assert.equal(log.length, times + 1);
  }
});

test("hooks that lock each other out: both are accepted", async () => {
  const devices = [[key("one"), user], [key("two"), other]], calls = [];
  let arrive;
  const both = new Promise((resolve) => (arrive = resolve));
  const server = new SqlServer(party(), pool, { ...quiet, onSignedIn: async (query, { credential }) => {
    const own = Buffer.from(credential.user).equals(user) ? ["first", "second"] : ["second", "first"];
    await query("select pg_advisory_xact_lock(hashtext($1))", [own[0]]);
    if (calls.push(own) === 2) arrive();
    await both;
    await query("select pg_advisory_xact_lock(hashtext($1))", [own[1]]);
  } });
  for (const [device, account] of devices) await registers(server, device, account);
  const told = await Promise.all(devices.map(([device, account]) => signsIn(server, device, account)));
  assert.deepEqual([told.map(({ credential }) => credential.signCount), calls.length >= 3], [[1, 1], true]);
});
