// Who is not signed in by a request, whose passkey answers, and what is taken as a body. Python's test_web_edges.py has the same.
import assert from "node:assert/strict";
import { test } from "node:test";
import { toText } from "garvoeng";
import { Denied, MemoryWebStore } from "garvoeng/site";
import { memory, own, registered, signedIn, sited } from "./visits.mjs";

test("who is denied is not signed in: no cookie is given, no sign-in is kept, and who was signed in before is so still", async () => {
  let isClosed = false;
  const keeps = [], store = new MemoryWebStore(), keep = store.keepSignIn.bind(store), accounts = {
    signedIn() {
      if (isClosed) throw new Denied("closed", 409);
    },
  };
  store.keepSignIn = (...words) => (keeps.push(words), keep(...words));
  const site = sited(memory(), { accounts, store }), before = site.visitor(), key = own("key"), ask = site.visitor();
  await registered(before, key);
  isClosed = true;
  keeps.length = 0;
  const { status, told } = await signedIn(ask, key);
  assert.deepEqual([status, told, ask.jar.garvoeng, await site.who(ask)], [409, { error: "closed" }, undefined, null]);
  assert.equal((await registered(site.visitor(), own("another"))).status, 409);
  assert.deepEqual([(await signedIn(before, key)).status, toText((await site.who(before)).user), keeps], [409, toText(key.user), []]);
});

test("again is for the same account: another's passkey does not answer", async () => {
  const site = sited(memory()), mine = own("mine"), theirs = own("theirs"), ask = site.visitor();
  await registered(ask, mine);
  await registered(site.visitor(), theirs, "bob");
  const options = (await ask("sign-in/begin", { again: true })).told;
  assert.deepEqual(options.allowCredentials.map(({ id }) => id), [toText(mine.id)]);
  const { told } = await ask("sign-in/finish", theirs.signIn(options, { user: theirs.user }));
  assert.ok(["W2", "W4"].includes(told.refusal) && toText((await site.who(ask)).user) === toText(mine.user));
});

test("whose page asks", async () => {
  for (const [headers, status] of [
    [{ "sec-fetch-site": "same-origin" }, 200], [{ "sec-fetch-site": "none" }, 200], [{}, 200], [{ "sec-fetch-site": "same-site" }, 403], [{ "sec-fetch-site": "cross-site" }, 403],
    [{ "sec-fetch-site": "" }, 403], [{ origin: "null" }, 403], [{ origin: "" }, 403], [{ origin: "http://localhost:8001", "sec-fetch-site": "same-origin" }, 403],
    [{ origin: "http://localhost", "sec-fetch-site": "cross-site" }, 200]])
    assert.equal((await sited(memory()).visitor()("sign-in/begin", {}, { headers })).status, status, JSON.stringify(headers));
});

test("a changed cookie of a registration is none", async () => {
  const site = sited(memory()), key = own("key"), ask = site.visitor(), other = site.visitor(), sealed = (value) => toText(new TextEncoder().encode(JSON.stringify(value)));
  await registered(ask, key);
  await registered(other, own("other"), "bob");
  const made = own("a thief's").register((await ask("register/begin", { name: "ada" })).told), [session, told, code] = ask.jar.garvoeng_registration.split(".");
  await other("register/begin", { name: "bob" });
  const { garvoeng } = other.jar, [foreign] = other.jar.garvoeng_registration.split(".");
  for (const text of [[session, sealed(["ada", null]), code], [session, sealed(["ada", garvoeng]), code], [session, sealed(["eve", null]), code], [foreign, told, code],
                      [session, told, code.slice(1)], [session, told, ""], [session, told], [session, "", code]])
    for (const jar of [{}, { garvoeng }, { garvoeng: ask.jar.garvoeng }])
      assert.equal((await site.visitor({ ...jar, garvoeng_registration: text.join(".") })("register/finish", made)).told.refusal, "G1", text.join("."));
  assert.equal((await site.server.rows()).length, 2);
  assert.equal((await ask("register/finish", made)).status, 200);
});

test("bodies", async () => {
  const nines = (count) => "9".repeat(count);
  for (const [raw, status] of [
    [`{"a": ${nines(64)}}`, 200], [`{"a": ${nines(65)}}`, 400], [`{"a": [{"b": -${nines(65)}}]}`, 400], ['{"a": 1, "a": 1}', 400], ['{"b": {"a": 1, "a": 2}}', 400], ['{"b": [{"a": 1}, {"a": 2}]}', 200],
    ['{"again": false, "again": true}', 400], ['{"again": false, "\\u0061gain": true}', 400], ['{"a": NaN}', 400], [Buffer.from("\ufeff{}"), 400], [Buffer.from('{"a": "\xff"}', "latin1"), 400], ["[]", 400], ["", 400],
    [`{}${" ".repeat(131_070)}`, 200], [`{}${" ".repeat(131_071)}`, 400]])
    assert.equal((await sited(memory()).visitor()("sign-in/begin", undefined, { raw })).status, status, String(raw).slice(0, 40));
});

test("a cookie of a name counts once: the first one", async () => {
  const site = sited(memory()), key = own("key"), ask = site.visitor();
  await registered(ask, key);
  const who = async (cookie) => (await site.site.visitor(new Request("https://localhost/", { headers: { cookie } })))?.user ?? null, mine = `garvoeng=${ask.jar.garvoeng}`;
  assert.equal(toText(await who(`a=b; ${mine}; garvoeng=planted`)), toText(key.user));
  for (const cookie of [`garvoeng=planted; ${mine}`, `garvoeng=; ${mine}`, `xgarvoeng=${ask.jar.garvoeng}`, `Garvoeng=${ask.jar.garvoeng}`, `garvoeng="${ask.jar.garvoeng}"`, `garvoeng=${"a".repeat(4097)}`])
    assert.equal(await who(cookie), null, cookie);
  const given = [], complete = site.server.authenticateComplete.bind(site.server), text = (size) => "a".repeat(size);
  site.server.authenticateComplete = (session, said) => (given.push(session), complete(session, said));
  for (const size of [4096, 4097]) assert.equal((await site.visitor({ garvoeng_sign_in: text(size) })("sign-in/finish", key.signIn({ challenge: "AA" }, { user: key.user }))).told.refusal, "W1");
  assert.deepEqual(given, [text(4096), null], "one that is too long is none");
});

test("a registration of nobody is finished by nobody: who signs in meanwhile gets no other account by it", async () => {
  const site = sited(memory()), key = own("key"), ask = site.visitor(), made = own("new").register((await ask("register/begin", { name: "new" })).told), kept = ask.copied();
  await registered(site.visitor(), key);
  assert.equal((await signedIn(ask, key)).status, 200);
  const { status, told } = await ask("register/finish", made);
  assert.deepEqual([status, told.refusal, toText((await site.who(ask)).user), (await site.server.rows()).length], [403, "G1", toText(key.user), 1]);
  assert.equal((await kept("register/finish", made)).status, 200);
});
