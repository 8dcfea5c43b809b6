// The web core over fetch: what it keeps, what it is told by the host, and what visitors and other programs leave in its way. Python's
// test_web_accounts.py has the same of what is no matter of language.
import assert from "node:assert/strict";
import { createRequire } from "node:module";
import { after, beforeEach, test } from "node:test";
import { BadInput, KeepingServer, MemoryStore, RowDamaged, Server, StoreFailed, fromText, toText } from "garvoeng";
import { MODELS, MemoryWebStore, RateLimit, passkeys } from "garvoeng/site";
import { SqlServer, SqlWebStore } from "garvoeng/sql";
import { ORIGIN, flipped, later, logged, memory, own, registered, signedIn, sited, stored, visitor } from "./visits.mjs";

const { Pool } = createRequire(import.meta.url)("pg"), pool = new Pool({ max: 8 }), user = Buffer.from("account 7");
after(() => pool.end());
beforeEach(async () => {
  logged.length = 0;
  for (const name of ["version", "credential", "session"]) await pool.query(`drop table if exists garvoeng_${name}`);
});
const sql = (origins = [ORIGIN]) => new SqlServer(new Server("localhost", origins), pool, { logger: () => {} });
const idOf = ({ id }) => toText(id);

test("stores: who is signed in, and names, of several processes and beside another server", async (context) => {
  const kept = memory(), program = stored(), tables = sql();
  context.after(() => program.close());
  for (const [server, store, other] of [[kept, new MemoryWebStore()], [kept, new SqlWebStore(sql()), new SqlWebStore(sql())], [program, undefined], [tables, undefined]]) {
    const site = sited(server, store && { store }), second = sited(server, store && { store: other ?? store }), ask = site.visitor(), key = own(`key ${logged.length}`);
    const begun = await ask("register/begin", { name: "ada" });
    key.user = fromText(begun.told.user.id);
    const there = second.visitor(ask.jar);
    assert.equal((await there("register/finish", key.register(begun.told))).status, 200, "by another process");
    assert.equal((await site.visitor(there.jar)("list")).status, 200);
    assert.deepEqual((await there("rename", { id: idOf(key), name: "blue" })).told, { renamed: true });
    assert.deepEqual((await site.visitor(there.jar)("list")).told.map(({ name }) => name), ["blue"]);
    const made = own("late").register((await there("register/begin", { name: "ada" })).told), thief = there.copied();
    assert.equal(await server.retire(key.id, key.user), true);
    for (const one of [thief, there]) {
      assert.deepEqual([(await one("list")).status, await second.who(one), (await one("register/finish", made)).told.refusal], [401, null, "G1"]);
      assert.equal((await server.rows(key.user)).length, 1);
    }
    logged.push("one more");
  }
});

test("what a store keeps goes with its user, and each store has a secret of its own", async (context) => {
  const program = stored(), stores = [new MemoryWebStore(), new SqlWebStore(sql()), program.webStore, sql().webStore], eight = Buffer.from("account 8");
  context.after(() => program.close());
  for (const store of stores) {
    const number = await store.keepSignIn(user), other = await store.keepSignIn(eight, null, 60);
    assert.match(number, /^[0-9a-f]{32}$/);
    const { at, ...rest } = await store.signedIn(number);
    assert.deepEqual({ ...rest, user: toText(rest.user) }, { number, user: toText(user), credential: null });
    assert.ok(Math.abs(at - Date.now() / 1000) < 60 && Number.isSafeInteger(at));
    for (const name of ["x", "blue", 'algorithms', '","user":"', "__proto__", ""]) await store.rename(user, Buffer.from("x"), name);
    await store.rename(user, Buffer.from("y"), "__proto__");
    await store.rename(eight, Buffer.from("x"), "algorithms");
    assert.deepEqual([...(await store.names(user))], [[toText(Buffer.from("y")), "__proto__"]]);
    await store.erase(user);
    assert.deepEqual([await store.signedIn(number), (await store.names(user)).size, toText((await store.signedIn(other)).user), (await store.names(eight)).size], [null, 0, toText(eight), 1]);
    for (const none of ["", "x", "0".repeat(32), "secret", `names ${toText(eight)}`]) assert.deepEqual([await store.signedIn(none), await store.abandon(none)], [null, false], none);
    assert.deepEqual([await store.abandon(other), await store.abandon(other), await store.signedIn(other)], [true, false, null]);
  }
  const secrets = await Promise.all([...stores, new MemoryWebStore()].map(async (store) => toText(await store.secret())));
  assert.deepEqual([new Set(secrets).size, secrets[1], fromText(secrets[0]).length], [4, secrets[3], 32]);
});

test("a store ends the sign-in that began longest ago where there is no more room, and each by its time", async (context) => {
  const store = new MemoryWebStore(3), numbers = [];
  for (let time = 0; time < 5; time++) numbers.push(await store.keepSignIn(user, Buffer.from("x"), 60));
  assert.deepEqual(await Promise.all(numbers.map(async (one) => (await store.signedIn(one)) !== null)), [false, false, true, true, true]);
  later(context, 61);
  assert.equal(await store.signedIn(numbers[4]), null);
  for (const most of [0, -1, 1.5, "3"]) assert.throws(() => new MemoryWebStore(most), BadInput);
});

test("PostgreSQL: names go with their passkeys, and a sign-in is looked at in the transaction of its registration", async () => {
  const server = sql(), site = sited(server), ask = site.visitor(), key = own("key"), second = own("second"), names = async () => Object.fromEntries(await server.webStore.names(key.user));
  await registered(ask, key);
  await registered(ask, second);
  for (const [one, name] of [[key, "blue"], [second, "algorithms"], [key, "green"]]) assert.deepEqual((await ask("rename", { id: idOf(one), name })).told, { renamed: true });
  assert.deepEqual((await ask("rename", { id: toText(user), name: "x" })).told, { renamed: false });
  assert.deepEqual(await names(), { [idOf(key)]: "green", [idOf(second)]: "algorithms" });
  const third = own("third"), begun = await ask("register/begin", { name: "ada" }), [session] = ask.jar.garvoeng_registration.split(".");
  for (const signIn of [undefined, null, "0".repeat(32), "x"]) await assert.rejects(server.registerComplete(session, third.register(begun.told), { signIn }), { name: "G1" });
  await assert.rejects(server.registerBegin(key.user, "ada", { signIn: "0".repeat(32) }), BadInput);
  await assert.rejects(server.registerBegin(user, "ada", { signIn: ask.jar.garvoeng }), BadInput, "another user's");
  await assert.rejects(server.registerComplete(ask.jar.garvoeng, third.register(begun.told)), { name: "G1" }, "a sign-in is no session");
  const unbound = await server.registerBegin(key.user, "ada");
  await assert.rejects(server.registerComplete(unbound.session, own("fourth").register(unbound.options), { signIn: ask.jar.garvoeng }), { name: "G1" });
  assert.equal((await ask("register/finish", third.register(begun.told))).status, 200);
  const more = await ask("register/begin", { name: "ada" }), kept = { ...ask.jar };
  await server.webStore.abandon(ask.jar.garvoeng);
  await assert.rejects(server.registerComplete(kept.garvoeng_registration.split(".")[0], own("fourth").register(more.told), { signIn: kept.garvoeng }), { name: "G1" });
  await server.retire(third.id);
  assert.deepEqual(await names(), { [idOf(key)]: "green", [idOf(second)]: "algorithms" }, "a retirement ends no names");
  await server.delete(key.id);
  assert.deepEqual(await names(), { [idOf(second)]: "algorithms" });
  await server.erase(key.user);
  const { rows } = await pool.query("select id from garvoeng_session");
  assert.deepEqual([await names(), rows.map(({ id }) => id)], [{}, ["secret"]]);
  await pool.query(`insert into garvoeng_session values ('${"1".repeat(32)}', '{"signed_in":"x","user":"AAAA","credential":null}', ${2 ** 40}), ('${"2".repeat(32)}', '{"signed_in":5,"user":7}', ${2 ** 40}), ('${"3".repeat(32)}', 'null', ${2 ** 40})`);
  for (const digit of ["1", "2", "3"]) assert.equal((await sited(server).visitor({ garvoeng: digit.repeat(32) })("list")).status, 401);
});

test("a store that answers what is no answer, or fails", async () => {
  const spoilt = (by) => Object.assign(new MemoryWebStore(), by), key = own("key");
  for (const signedIn of [() => ({}), () => ({ user: "ada" }), () => 7, () => ({ user: new Uint8Array(3), credential: "x" })]) {
    const { status } = await sited(memory(), { store: spoilt({ signedIn }) }).visitor({ garvoeng: "x" })("list");
    assert.equal(status, 503);
  }
  assert.equal((await sited(memory(), { store: spoilt({ signedIn: () => undefined }) }).visitor({ garvoeng: "x" })("list")).status, 401);
  for (const keepSignIn of [() => undefined, () => 7, () => "", async () => null]) {
    const ask = sited(memory(), { store: spoilt({ keepSignIn }) }).visitor();
    assert.deepEqual([(await registered(ask, key)).status, ask.jar.garvoeng], [503, undefined]);
  }
  const ask = sited(memory(), { store: spoilt({ abandon: () => Promise.reject(new RangeError("none")) }) }).visitor();
  await registered(ask, key);
  await assert.rejects(ask("sign-out", {}), RangeError);
  assert.equal((await ask("list")).status, 200, "a sign-out that failed is none");
});

test("how often an address may post", async () => {
  const limit = new RateLimit({ rate: 1e-9, burst: 3, clock: () => 0 }), ask = sited(memory(), { rateLimit: limit }).visitor(), here = { headers: { "x-address": "192.0.2.7" } };
  const asked = [];
  for (let time = 0; time < 5; time++) asked.push((await ask("sign-in/begin", {}, here)).status);
  assert.deepEqual(asked, [200, 200, 200, 429, 429]);
  const { told, headers } = await ask("sign-in/begin", {}, here);
  assert.deepEqual([told, Number(headers.get("retry-after")) > 0, (await ask("list", undefined, here)).status], [{ error: "too many requests: try again later" }, true, 401]);
  assert.equal((await ask("sign-in/begin", {}, { headers: { "x-address": "192.0.2.8" } })).status, 200);
  const usual = sited(memory()).visitor(), statuses = [];
  for (let time = 0; time < 60; time++) statuses.push((await usual("sign-in/begin", {}, here)).status);
  assert.ok(statuses.slice(0, 50).every((one) => one === 200) && statuses.includes(429), "by default too");
  const none = sited(memory(), { rateLimit: false }).visitor();
  for (let time = 0; time < 60; time++) assert.equal((await none("sign-in/begin", {}, here)).status, 200);
  for (const rateLimit of [5, true, null, {}, () => 0]) assert.throws(() => passkeys(memory(), { rateLimit }), BadInput);
  for (const wait of [() => undefined, () => true, () => -1, () => 1.5, async () => "1", () => NaN, () => Infinity, () => 1n])
    await assert.rejects(sited(memory(), { rateLimit: { wait } }).visitor()("sign-in/begin", {}), { name: "TypeError", message: /^rateLimit\.wait answered / });
  assert.equal((await sited(memory(), { rateLimit: { wait: async () => 7 } }).visitor()("sign-in/begin", {})).headers.get("retry-after"), "7");
});

test("cookies by https are of this host alone: without __Host- none is looked at", async () => {
  const origin = "https://localhost", server = memory([ORIGIN, origin]), site = sited(server), ask = site.visitor(), key = own("key", origin);
  const made = await registered(ask, key);
  assert.deepEqual([made.status, Object.keys(ask.jar), made.cookies.every((line) => line.includes("; Secure"))], [200, ["__Host-garvoeng"], true]);
  assert.deepEqual([(await ask("list")).status, (await site.visitor({ garvoeng: ask.jar["__Host-garvoeng"] })("list")).status], [200, 401]);
  const plain = sited(memory()), other = plain.visitor();
  const lines = (await registered(other, own("key"))).cookies;
  assert.ok(lines.every((line) => /^garvoeng(_registration)?=[0-9a-f]*; HttpOnly; Path=\/; SameSite=Lax(; Max-Age=0; Expires=Thu, 01 Jan 1970 00:00:00 GMT)?$/.test(line)), lines.join("\n"));
  assert.equal((await plain.visitor({ "__Host-garvoeng": other.jar.garvoeng })("list")).status, 401);
  const cookie = (text) => plain.site.signedIn(new Request("https://localhost/", { headers: { cookie: text } })), number = other.jar.garvoeng;
  for (const text of [`garvoeng=${number}`, `a=b; garvoeng=${number};c=d`, `a=b;garvoeng=${number}`, `garvoeng=${number}; garvoeng=x`]) assert.equal(toText(await cookie(text)), toText((await plain.who(other)).user), text);
  for (const text of ["", `xgarvoeng=${number}`, `garvoeng=x; garvoeng=${number}`, `garvoeng= ${number}`, `garvoeng="${number}"`, `garvoeng=${number}A`, `Garvoeng=${number}`, `garvoeng=${number.toUpperCase()}x`])
    assert.equal(await cookie(text), null, text);
});

test("pages of the site alone may post, and of origins that it trusts", async () => {
  const ask = sited(memory(), { trustedOrigins: ["https://shop.example"] }).visitor(), from = async (headers) => (await ask("sign-in/begin", {}, { headers })).status;
  assert.deepEqual([await from({ origin: "https://shop.example" }), await from({ origin: ORIGIN }), await from({ origin: "https://shop.example.evil" }), await from({ "sec-fetch-site": "cross-site" })], [200, 200, 403, 403]);
  for (const trustedOrigins of ["https://x", [7], null, {}]) assert.throws(() => passkeys(memory(), { trustedOrigins }), BadInput);
});

test("the page, its scripts and its policy", async () => {
  const pages = ["https://shop.example", "https://other.example"], ask = sited(memory([ORIGIN], { topOrigins: pages })).visitor();
  assert.ok((await ask("")).headers.get("content-security-policy").endsWith(`frame-ancestors ${pages.join(" ")}`));
  for (const [path, part] of [["", "<!doctype html>"], ["passkeys.js", "const passkeys"], ["page.js", "element"], ["browser.js", "export const register"]]) {
    const { status, told, headers } = await ask(path);
    assert.ok(status === 200 && told.includes(part) && headers.get("content-type") === (path === "" ? "text/html; charset=utf-8" : "text/javascript; charset=utf-8"));
    assert.ok(/default-src 'none'; script-src 'self'/.test(headers.get("content-security-policy")) && headers.get("x-content-type-options") === "nosniff");
  }
  const { site } = sited(memory()), status = async (path, method = "GET", base) => (await (base ?? site)(new Request(`https://localhost${path}`, { method }))).status;
  for (const [path, method, wanted] of [["/passkeys/", "GET", 200], ["/passkeys/list", "HEAD", 401], ["/passkeys/", "HEAD", 200], ["/passkeys/?a=/list", "GET", 200], ["/", "GET", 404], ["/passkeysx", "GET", 404],
                                        ["/passkeys/toString", "POST", 404], ["/passkeys/constructor", "GET", 404], ["/passkeys/list/", "GET", 404], ["/passkeys/list", "POST", 405],
                                        ["/passkeys/retire", "GET", 405], ["/passkeys/retire", "PUT", 405], ["/passkeys/", "POST", 405], ["/passkeys/%6cist", "GET", 404], ["/x/passkeys/list", "GET", 404]])
    assert.equal(await status(path, method), wanted, `${method} ${path}`);
  for (const [base, path] of [["/passkeys", "/passkeys?a=b"], ["/passkeys", "/passkeys/"], ["", "/"], ["/a/b", "/a/b"]]) {
    const page = await passkeys(memory(), { base })(new Request(`https://localhost${path}`)), scripts = [...(await page.text()).matchAll(/src="([^"]*)"/g)].map(([, src]) => src);
    assert.deepEqual([page.status, scripts], [200, [`${base}/passkeys.js`, `${base}/page.js`]]);
    for (const script of scripts) assert.equal(await status(script, "GET", passkeys(memory(), { base })), 200);
  }
  assert.equal((await site(new Request("https://localhost/passkeys/retire"))).headers.get("allow"), "POST");
  for (const [base, path] of [["", "/list"], ["/a/b.c", "/a/b.c/list"]]) assert.equal(await status(path, "GET", passkeys(memory(), { base })), 401);
  for (const base of ["/", "/passkeys/", "passkeys", 7, null, "/a b", "//x", "/a?b"]) assert.throws(() => passkeys(memory(), { base }), BadInput, `${base}`);
});

test("models, by the table or the site's own; names that can't be printed", async () => {
  for (const [how, wanted] of [[{}, "YubiKey 5 Series with NFC"], [{ models: { "fa2b99dc-9e39-4257-8f92-4a30d23c4118": "the blue one" } }, "the blue one"], [{ models: {} }, null]]) {
    const ask = sited(memory(), how).visitor(), key = own("key");
    key.aaguid = Buffer.from("fa2b99dc9e3942578f924a30d23c4118", "hex");
    await registered(ask, key);
    assert.deepEqual((await ask("list")).told.map(({ model }) => model), [wanted]);
  }
  assert.ok(Object.keys(MODELS).length > 10 && !Object.hasOwn(MODELS, "00000000-0000-0000-0000-000000000000") && Object.isFrozen(MODELS));
  const ask = sited(memory(), { rateLimit: false }).visitor(), begins = async (name) => (await ask("register/begin", { name })).status;
  for (const name of ["ada", " ", "Ada Lovelace", "\u00e9", "\u{1f511}".repeat(64), "x".repeat(64), "\u0646\u200c\u0627", "\u{1f468}\u200d\u{1f469}"]) assert.equal(await begins(name), 200, name);
  for (const name of ["", "x".repeat(65), "\u{1f511}".repeat(65), "\n", "a\0", "\u200c\u200d", "a\u202e", "\ud800", "a\u2028", "\u00a0", "\u3000", "\ufeff", "\u{e0001}", 7, null, ["ada"], {}, true, undefined])
    assert.equal(await begins(name), 400, JSON.stringify(name));
});

test("what a begin is given, and what is out of its limits: told at once, and to no visitor", async () => {
  const ask = sited(memory(), { registration: { userVerification: true, residentKey: "preferred", hints: ["hybrid"] }, signIn: { userVerification: "discouraged", timeout: 60_000 } }).visitor();
  const begun = (await ask("register/begin", { name: "ada" })).told, options = (await ask("sign-in/begin", {})).told;
  assert.deepEqual([begun.authenticatorSelection.userVerification, begun.hints, options.userVerification, options.timeout], ["required", ["hybrid"], "discouraged", 60_000]);
  for (const how of [{ registration: { userVerification: "x" } }, { signIn: { timeout: -1 } }, { fresh: 0 }, { lifetime: -5 }, { fresh: "5" }, { secret: "short" }, { secret: 5 }, { timeout: 0 }, { timeout: 2 ** 31 }, { translate: "x" }, { logger: 7 },
                     { registration: { exclude: [] } }, { signIn: { user } }, { signIn: { allow: [] } }, { registration: { signIn: null } }, { registration: { x: 1 } }, { registration: 7 }, { models: null }, { models: "x" }, { store: {} },
                     { accounst: {} }, { store: { ...new MemoryWebStore() } }])
    assert.throws(() => passkeys(memory(), how), BadInput, JSON.stringify(how));
  for (const wrong of [new Server("localhost", [ORIGIN]), null, {}, undefined, new MemoryStore()]) assert.throws(() => passkeys(wrong), { name: "TypeError", message: /keeps passkeys/ });
});

test("texts in another language", async () => {
  const words = { "nobody is signed in": "niemand ist angemeldet" }, ask = sited(memory(), { translate: (text) => words[text] }).visitor();
  assert.deepEqual([(await ask("list")).told, (await ask("nothing")).told], [{ error: "niemand ist angemeldet" }, { error: "there is no such page" }]);
});

test("a secret of the site's: by another one an open registration is none", async () => {
  const server = memory(), store = new MemoryWebStore(), visitors = ["a".repeat(32), Buffer.from("a".repeat(32)), "b".repeat(32), undefined].map((secret) => sited(server, { store, ...(secret && { secret }) }).visitor);
  const key = own("key"), ask = visitors[0](), made = key.register((await ask("register/begin", { name: "ada" })).told);
  for (const other of [visitors[2], visitors[3]]) assert.equal((await other(ask.jar)("register/finish", made)).told.refusal, "G1");
  assert.equal((await visitors[1](ask.jar)("register/finish", made)).status, 200);
});

test("what the functions of the accounts are given, and what is no request", async () => {
  const given = [], site = passkeys(memory(), { accounts: { userOf: (request) => void given.push(request) }, logger: () => {} }), request = new Request("https://localhost/passkeys/list"), native = {};
  for (const how of [undefined, null, {}, { native }, { params: 7 }, { address: {} }]) await site(request, how);
  await site.signedIn(request);
  assert.deepEqual(given.map((one) => (one === request ? "request" : one === native ? "native" : "?")), ["request", "request", "request", "native", "request", "request", "request"]);
  for (const wrong of [undefined, null, 7, {}, { headers: {} }, { headers: { cookie: "x" } }])
    for (const call of [() => site(wrong), () => site.signedIn(wrong), () => site.visitor(wrong), () => site.fresh(wrong, 5), () => site.end(wrong)]) await assert.rejects(call, { name: "BadInput", message: /^the request is .*: hand in one of fetch$/ });
});

test("a body that the host has read is answered by a clear error, and one that breaks off ends", async () => {
  const { site } = sited(memory(), { timeout: 100 }), headers = { "content-type": "application/json" }, make = (body) => new Request("https://localhost/passkeys/sign-in/begin", { method: "POST", headers, body, duplex: "half" });
  const read = make("{}");
  await read.text();
  const locked = make("{}");
  locked.body.getReader();
  const text = "the body was read before: hand passkeys the request before it is read, or a clone of it";
  for (const request of [read, locked]) {
    const answer = await site(request);
    assert.deepEqual([answer.status, await answer.json(), logged.pop().message], [500, { error: text }, text]);
  }
  const said = async (body) => {
    const answer = await site(make(body));
    return [answer.status, (await answer.json()).error];
  };
  const broken = new ReadableStream({ pull: (controller) => controller.error(new Error("gone")) }), silent = new ReadableStream({});
  let pulled = 0;
  const endless = new ReadableStream({ pull: (controller) => (pulled++, controller.enqueue(new Uint8Array(10_000).fill(32))) });
  assert.deepEqual([await said(broken), await said(silent), await said(endless)], [[400, "the request ended early"], [400, "the body did not come in 0.1 seconds"], [400, "the body is too long"]]);
  assert.ok(pulled < 20, `${pulled}`);
  assert.deepEqual([(await said(`{"a":"${"A".repeat(131_064)}"}`))[0], await said(`{"a":"${"A".repeat(131_065)}"}`), await said("")], [200, [400, "the body is too long"], [400, "the body is no JSON object"]]);
});

test("JSON that JSON.parse takes and the core does not", async () => {
  const ask = sited(memory(), { rateLimit: false }).visitor(), said = async (raw) => (await ask("sign-in/begin", undefined, { raw })).told.error ?? "taken";
  for (const raw of ['{"a":1,"a":1}', '{"b":{"a":1,"a":2}}', '{"a":1,"\\u0061":2}', '{"b":[{"x":{},"x":[]}]}', '{"":1,"":1}', '{"__proto__":1,"__proto__":2}']) assert.equal(await said(raw), "a member of the body stands twice", raw);
  for (const raw of ['{"a":{"a":1},"b":{"a":1}}', '[{"a":1}]'.replace(/^\[|\]$/g, ""), '{"a":"a","b":"a"}', '{"a":["a","a"]}', '{"a":[{"a":1},{"a":1}]}', '{ "a" : "\\"a\\":1,\\"a\\":2" }', '{"a":"{","b":"}"}', '{"__proto__":{"again":true}}',
                     `{"a":${"9".repeat(64)}}`, `{"a":0.${"9".repeat(500)}}`, '{"a":"\\u2028\\\\"}', `{"a":${"[".repeat(60_000)}${"]".repeat(60_000)}}`]) assert.equal(await said(raw), "taken", raw.slice(0, 50));
  for (const digits of ["9".repeat(65), `-${"9".repeat(65)}`]) assert.equal(await said(`{"a":${digits}}`), "a number of the body is too long");
  assert.equal(await said(`{${Array.from({ length: 12_000 }, (_, index) => `"${index}":1`).join()}}`), "taken");
});

// Over PostgreSQL pg itself takes a `name` there for a statement's.
test("what other programs leave in Object.prototype is no option, no member and no answer", async () => {
  const servers = [memory(), stored()];
  const added = { base: "/x", fresh: 1, lifetime: 1, secret: "short", accounts: { mayRegister: () => false }, store: {}, rateLimit: 7, again: true, id: "AAAA", name: "eve", user: new Uint8Array(9), at: 5, credential: new Uint8Array(1), number: "x",
                  userOf: () => new Uint8Array(9), expected: () => new Uint8Array(9), create: () => false, signedIn: () => ({}), mayRegister: () => false, refused: () => 7, address: "192.0.2.1", native: 7, signIn: "x", sign_in: "x", zzz: 1 };
  for (const [name, value] of Object.entries(added)) Object.defineProperty(Object.prototype, name, { value, configurable: true, writable: true, enumerable: true });
  try {
    for (const server of servers) {
      const accounts = { mayRegister: async ({ headers }) => headers.get("content-type") === "application/json" }, site = passkeys(server, { accounts, logger: () => {} }), ask = visitor((path, more) => site(new Request(`https://localhost/passkeys/${path}`, more)));
      const key = own("key"), made = await registered(ask, key);
      assert.deepEqual([made.status, made.told.id], [200, idOf(key)]);
      assert.equal((await ask("register/begin", {})).status, 400, "no name");
      assert.deepEqual((await ask("sign-in/begin", {})).told.allowCredentials, [], "not again");
      assert.equal((await ask("rename", { name: "x" })).status, 400, "no id");
      assert.equal((await signedIn(ask, key, flipped)).told.refusal, "W14");
      assert.equal((await signedIn(ask, key)).told.user, toText(key.user));
      assert.deepEqual([(await registered(ask, own("second"))).status, (await ask("list")).told.length], [200, 2]);
      assert.deepEqual([(await ask("sign-out", {})).told, (await ask("list")).status], [{}, 401]);
    }
  } finally {
    for (const name of Object.keys(added)) delete Object.prototype[name];
    await servers[1].close();
  }
});

test("a logger that throws, and one that rejects, end nothing", async () => {
  const server = new KeepingServer(new Server("localhost", [ORIGIN]), new MemoryStore());
  for (const logger of [() => { throw new Error("of the logger"); }, async () => { throw new Error("of the logger"); }, () => ({ then() { throw new Error("of the logger"); } })]) {
    const ask = sited(server, { logger }).visitor(), key = own("nobody");
    for (let time = 0; time < 3; time++) assert.equal((await signedIn(ask, key)).told.refusal, "W3");
  }
});

test("a sign-out whose session can't be ended has failed; one of another storage's session has not", async (context) => {
  const server = memory(), ask = sited(server).visitor(), program = stored();
  context.after(() => program.close());
  await ask("sign-in/begin", {});
  const abandon = server.abandon;
  server.abandon = async () => { throw new StoreFailed("none"); };
  const out = await ask("sign-out", {});
  assert.deepEqual([out.status, out.cookies, logged.map(({ message }) => message)], [503, [], ["none"]]);
  server.abandon = abandon;
  const sites = [sited(server), sited(program), sited(sql())];
  for (const before of sites)
    for (const after of sites) {
      const one = before.visitor();
      await one("sign-in/begin", {});
      const { status, cookies } = await after.visitor(one.jar)("sign-out", {});
      assert.deepEqual([status, cookies.length], [200, 3]);
    }
});

test("PostgreSQL: a damaged row is logged, answers 500 to its visitor, and is in no one's way", async () => {
  const server = sql(), site = sited(server), ask = site.visitor(), key = own("key"), second = own("second");
  await registered(ask, key);
  await registered(ask, second);
  await pool.query("update garvoeng_credential set public_key = '\\xa0' where id = $1", [key.id]);
  assert.deepEqual([(await server.rows(key.user)).map(idOf), (await ask("list")).told.map(({ id }) => id)], [[idOf(second)], [idOf(second)]]);
  logged.length = 0;
  const other = site.visitor(), refused = await signedIn(other, key);
  assert.deepEqual([refused.status, refused.told, refused.cookies], [500, { error: "what is stored is damaged" }, []]);
  assert.ok(logged.length === 1 && logged[0] instanceof RowDamaged && toText(logged[0].id) === idOf(key));
  await other("sign-in/begin", {});
  await pool.query(`update garvoeng_session set data = replace(data, '"challenge":"', '"challenge":"AAAA')`);
  assert.equal((await other("sign-in/finish", second.signIn({ challenge: "AA" }, { user: key.user }))).status, 500);
  assert.equal((await signedIn(other, second)).status, 200);
});
