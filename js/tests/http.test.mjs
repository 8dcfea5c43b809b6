// `passkeys` by node:http, in Express, and by what Koa and Fastify ask of it, over the proved program (PROGRAM): visits beside hostile ones, bodies
// that the host has read, visitors who are slow, and programs that die or never answer. same_acts.py has what visitors do.
import assert from "node:assert/strict";
import { once } from "node:events";
import { chmodSync, readFileSync, writeFileSync } from "node:fs";
import { createServer } from "node:http";
import { createRequire } from "node:module";
import { connect } from "node:net";
import { join } from "node:path";
import { test } from "node:test";
import { BadInput, StoreFailed, StoredServer, toText } from "garvoeng";
import * as byHttp from "garvoeng/http";
import { changed } from "./device.mjs";
import { LIKE } from "./like.mjs";
import { flipped, folder, logged, memory, own, registered, serving, signedIn, stored } from "./visits.mjs";

const { RateLimit, passkeys } = byHttp, require = createRequire(import.meta.url), express = require("express"), common = require("garvoeng/http");
const children = () => readFileSync(`/proc/self/task/${process.pid}/children`, "utf8").trim().split(" ").filter((one) => one !== "").map(Number);
const inExpress = (...parsers) => (site) => createServer(express().use(...parsers, site).get("/else", (_, response) => response.send("else")).use((error, request, response, next) => response.status(500).json({ error: `Express has: ${error.message}` })));
const json = express.json({ limit: "1mb" });
const LISTENERS = {
  "node:http": (site) => createServer(site), Express: inExpress(), "Express, which read the body": inExpress(json),
  "Express with parsers that pass JSON over": inExpress(express.urlencoded({ extended: true }), express.text(), express.raw()),
  "Express, which read the body as text": inExpress(express.text({ type: "*/*", limit: "1mb" })), "Express, which read the body as bytes": inExpress(express.raw({ type: "*/*", limit: "1mb" })),
};

for (const [name, make] of Object.entries(LISTENERS)) {
  test(`${name}: visits`, async (context) => {
    const { site, origin, visitor } = await serving(context, stored(), make), ask = visitor(), key = own("key");
    const made = await registered(ask, key), who = (jar) => site.signedIn({ headers: { cookie: `a=b; garvoeng=${jar.garvoeng}; c=d` } });
    assert.deepEqual([made.status, made.told, toText(await who(ask.jar))], [200, { id: toText(key.id) }, toText(key.user)]);
    assert.deepEqual([(await registered(ask, own("another"))).status, (await ask("list")).told.length], [200, 2]);
    const other = visitor(), refused = await signedIn(other, key, flipped);
    assert.deepEqual([refused.status, refused.told.refusal, refused.cookies], [403, "W14", []]);
    const signed = await signedIn(other, key);
    assert.deepEqual([signed.status, signed.told, Object.keys(other.jar)], [200, { user: toText(key.user) }, ["garvoeng"]]);
    assert.equal(await site.fresh({ headers: { cookie: `garvoeng=${other.jar.garvoeng}` } }, 60), true);
    const kept = other.copied();
    assert.deepEqual([(await other("sign-out", {})).told, other.jar, await who(kept.jar)], [{}, {}, null]);
    await site.end({ headers: { cookie: `garvoeng=${ask.jar.garvoeng}` } });
    assert.deepEqual([(await ask("list")).status, await site.signedIn({ headers: {} }), await site.visitor({ headers: { cookie: "" } })], [401, null, null]);
    const browser = await fetch(`${origin}/passkeys/browser.js?1`);
    assert.deepEqual([browser.headers.get("content-type"), await browser.text()], ["text/javascript; charset=utf-8", readFileSync(require.resolve("garvoeng/browser"), "utf8")]);
    for (const [method, path, status] of [["HEAD", "/passkeys/list", 401], ["HEAD", "/passkeys/", 200], ["GET", "/passkeys", 200], ["GET", "/register/begin", 404], ["POST", "/passkeys/toString", 404], ["POST", "/passkeys/browser.js", 405], ["PUT", "/passkeys/sign-in/begin", 405]])
      assert.equal((await fetch(origin + path, { method })).status, status, path);
    if (name.startsWith("Express")) assert.equal(await (await fetch(`${origin}/else`)).text(), "else");
  });

  test(`${name}: visitors beside hostile ones`, async (context) => {
    const { visitor } = await serving(context, stored(), make), eve = visitor(), response = own("nobody").signIn({ challenge: "AA" });
    await eve("sign-in/begin", {});
    const within = (text) => JSON.stringify({ ...response, clientExtensionResults: { a: 0 } }).replace('{"a":0}', text);
    const bodies = ["[".repeat(60_000), '{"a":'.repeat(20_000), `{"a":${"[".repeat(60_000)}${"]".repeat(60_000)}}`, within("[".repeat(50_000) + "]".repeat(50_000)), within('"\\ud800"'),
                    within("1e999"), JSON.stringify({ ...response, id: "\ud800", rawId: "\ud800" }), JSON.stringify({ ...response, id: 7, rawId: 7 }).replace(/7/g, "1e999"),
                    JSON.stringify(changed(response, "signature", () => Buffer.alloc(70_000))), "A".repeat(70_000), "A".repeat(200_000), "", "null", '{"id":null}', '{"act":"rows"}\n{}'];
    const devices = Array.from({ length: 8 }, (_, index) => own(`key ${index}`)), [first] = children();
    const visitors = devices.map(async (device) => {
      const ask = visitor();
      assert.equal((await registered(ask, device)).status, 200);
      for (let time = 0; time < 8; time++) assert.equal((await signedIn(ask, device)).told.user, toText(device.user));
      return toText(device.user);
    });
    const hostile = bodies.flatMap((raw) => ["sign-in/finish", "register/finish", "register/begin"].map(async (path) => {
      const { status, told } = await eve.copied()(path, undefined, { raw });
      // What Express itself refuses is an error of Express.
      assert.ok([400, 403, 413].includes(status) || told.error?.startsWith("Express has: "), `${status} ${path} ${raw.slice(0, 50)} ${JSON.stringify(told)}`);
    }));
    assert.equal(new Set(await Promise.all(visitors)).size, devices.length);
    await Promise.all(hostile);
    assert.deepEqual(children(), [first], "the program went on");
  });
}

for (const [name, [kind, make]] of Object.entries(LIKE))
  test(`what is asked of ${name}: visits`, async (context) => {
    const { origin, visitor } = await serving(context, memory(), make, { accounts: { signedOut: () => 7 } }, kind), ask = visitor(), key = own("key");
    assert.equal((await registered(ask, key)).status, 200);
    const signed = await signedIn(ask, key);
    assert.deepEqual([signed.told, signed.headers.get("vary"), signed.headers.get("cache-control"), Object.keys(ask.jar)], [{ user: toText(key.user) }, "Cookie", "no-store", ["garvoeng"]]);
    assert.deepEqual([(await ask("list")).told.length, (await ask("retire", { id: "AA" })).told, (await ask("sign-in/begin", undefined, { raw: "{" })).status], [1, { retired: false }, 400]);
    assert.equal((await ask("sign-in/begin", undefined, { raw: `{"a":"${"A".repeat(140_000)}"}` })).status, 400);
    const failed = await ask("sign-out", {});
    assert.deepEqual([failed.status, failed.told], [500, "signedOut of the accounts answered 7, and not nothing"]);
    for (const [path, status] of [["/", 404], ["/passkeys", 200], ["/passkeys/list", 401]]) assert.equal((await fetch(origin + path)).status, status, path);
    assert.equal((await fetch(`${origin}/passkeys/sign-in/begin`, { method: "POST", headers: { "content-type": "text/plain" }, body: "{}" })).status, 400);
  });

test("the limit of requests: tokens by address", () => {
  let now = 0;
  const limit = new RateLimit({ rate: 2, burst: 3, addresses: 2, clock: () => now }), waits = (...addresses) => addresses.map((one) => limit.wait(one));
  const times = (count, address) => waits(...Array(count).fill(address));
  assert.deepEqual(times(5, "192.0.2.1"), [0, 0, 0, 1, 1]);
  now = 400;
  assert.deepEqual(times(1, "192.0.2.1"), [1]);
  now = 500;
  assert.deepEqual(times(2, "192.0.2.1"), [0, 1]);
  now = 100_000;
  assert.deepEqual(times(4, "192.0.2.1"), [0, 0, 0, 1], "no more than a burst");
  now = 50_000;
  assert.deepEqual(times(1, "192.0.2.1"), [1], "a clock that goes back gives nothing");
  assert.deepEqual(waits("2001:db8::1", "2001:db8:0:0:1:2:3:4", "2001:0DB8::", "2001:db8::ffff:5%eth0", "2001:db8:0:1::1"), [0, 0, 0, 1, 0]);
  assert.deepEqual(waits("::ffff:192.0.2.9", "192.0.2.9", "::FFFF:192.0.2.9", "192.0.2.9"), [0, 0, 0, 1]);
  assert.deepEqual(waits("::ffff:c000:20b", "192.0.2.11", "0:0:0:0:0:ffff:192.0.2.11", "192.0.2.11"), [0, 0, 0, 1]);
  assert.deepEqual(waits("2001:db8:0:2::", "2001:db8::2:0:0:0:1", "2001:db8:0:2:ffff:ffff:ffff:ffff", "2001:DB8:0:2::7"), [0, 0, 0, 1]);
  for (const own of ["127.0.0.1", "127.1.2.3", "::1", "0:0:0:0:0:0:0:1", "::ffff:127.0.0.1", "::ffff:7f00:1", "", undefined, null]) assert.deepEqual(new Set(times(20, own)), new Set([0]), String(own));
  for (const word of ["visitor 7", "127.0.0.1.example", "::1]", "x@[::1", ":", "1:2", "7%7"]) assert.deepEqual(times(4, word), [0, 0, 0, 1], "a host's own word");
  for (const wrong of [{ rate: 0 }, { burst: -1 }, { rate: "3" }, { addresses: 0 }, { rate: NaN }, { rate: Infinity }, { burst: null }, { burst: 0.5 }, { rates: 5 }, { clock: 5 }, null, 5, []])
    assert.throws(() => new RateLimit(wrong), BadInput, JSON.stringify(wrong));
});

test("the address of a request is that of the framework", async (context) => {
  const from = (site) => createServer((request, response) => site(Object.assign(request, { ip: request.headers["x-address"] }), response));
  const limit = new RateLimit({ rate: 1e-9, burst: 1, clock: () => 0 }), { visitor } = await serving(context, memory(), from, { rateLimit: limit }), ask = visitor();
  const asked = async (address) => (await ask("sign-in/begin", {}, { headers: { "x-address": address } })).status;
  assert.deepEqual([await asked("192.0.2.1"), await asked("192.0.2.1"), await asked("192.0.2.2"), await asked("192.0.2.2")], [200, 429, 200, 429]);
  assert.equal((await (await serving(context, memory(), undefined, { rateLimit: new common.RateLimit() })).visitor()("sign-in/begin", {})).status, 200);
});

// A listener that does something with a request before the site has it.
const before = (work) => (site) => createServer(async (request, response) => {
  await work(request);
  await site(request, response);
});
const all = async (request) => {
  const parts = [];
  for await (const part of request) parts.push(part);
  return Buffer.concat(parts);
};

test("a body that was read elsewhere is taken where it is handed on, and else is refused at once", async (context) => {
  const isPosted = (work) => async (request) => request.method === "POST" && work(request);
  const handedOn = {
    object: async (request) => (request.body = JSON.parse(await all(request))), text: async (request) => (request.body = (await all(request)).toString()),
    bytes: async (request) => (request.body = await all(request)), rawBody: async (request) => (request.rawBody = await all(request)),
    "rawBody beside an empty object": async (request) => Object.assign(request, { rawBody: await all(request), body: {} }),
    "nothing read": async (request) => (request.body = {}), "an object that was not read": async (request) => (request.body = { name: "" }),
  };
  for (const [what, work] of Object.entries(handedOn)) {
    const ask = (await serving(context, memory(), before(isPosted(work)))).visitor(), key = own("key");
    assert.deepEqual([(await registered(ask, key)).status, (await signedIn(ask, key)).status], [200, 200], what);
    if (what !== "object") {
      assert.deepEqual((await ask("register/begin", undefined, { raw: "{" })).told, { error: "the body is no JSON object" }, what);
      assert.deepEqual((await ask("register/begin", undefined, { raw: '{"name":"ada","name":"eve"}' })).told, { error: "a member of the body stands twice" }, what);
    }
    assert.deepEqual((await ask("register/begin", undefined, { raw: `{"name":"ada","a":"${"A".repeat(131_072)}"}` })).told, { error: "the body is too long" }, what);
  }
  const wrong = { error: "the body was read before: hand it on as request.body, or call passkeys before what reads it" };
  for (const work of [all, async (request) => (await all(request), (request.body = null)), async (request) => (await all(request), (request.body = 7)), async (request) => (request.resume(), await once(request, "end"))]) {
    const ask = (await serving(context, memory(), before(isPosted(work)))).visitor();
    logged.length = 0;
    for (const path of ["sign-in/begin", "sign-in/finish", "sign-out"]) {
      const answer = await ask(path, { a: 1 });
      assert.deepEqual([answer.status, answer.told, answer.cookies], [500, wrong, []]);
    }
    assert.deepEqual(logged.map(({ message }) => message), Array(3).fill(wrong.error), "the host is told");
  }
  for (const body of [[], [{}], new Map([["a", 1]]), new Date()]) {
    const ask = (await serving(context, memory(), before(isPosted(async (request) => (await all(request), (request.body = body)))))).visitor();
    assert.deepEqual([(await ask("sign-in/begin", {})).status, (await ask("sign-out", {})).told], [400, { error: "the body is no JSON object" }]);
  }
  const half = await serving(context, memory(), before((request) => once(request, "data")));
  assert.deepEqual((await half.visitor()("sign-in/begin", { a: 1 })).status, 500);
});

test("a request that has ended, of which nothing comes any more", async () => {
  const server = memory(), site = passkeys(server, { logger: () => {}, timeout: 200 });
  for (const [more, status, text] of [[{ destroyed: true }, 400, /the request ended early/], [{ readableEnded: true }, 500, /read before/], [{ readableDidRead: true }, 500, /read before/], [{ readableEnded: true, body: {} }, 200, /challenge/],
                                      [{}, 400, /did not come in 0.2 seconds/]]) {
    const response = { headersSent: false, setHeader() {}, appendHeader() {}, end(body) { this.body = body; } };
    const call = site({ method: "POST", url: "/passkeys/sign-in/begin", headers: { "content-type": "application/json" }, on() {}, ...more }, response);
    await Promise.race([call, new Promise((resolve) => setTimeout(resolve, 5_000))]);
    assert.equal(response.statusCode, status, JSON.stringify(more));
    assert.match(response.body, text);
  }
});

test("a function of the accounts that throws is Express's to answer, and by node:http 500 and logged", async (context) => {
  const accounts = { userOf: () => { throw new RangeError("the site's own"); } };
  for (const [make, told] of [[LISTENERS.Express, { error: "Express has: the site's own" }], [undefined, { error: "the site failed" }]]) {
    logged.length = 0;
    const { visitor } = await serving(context, memory(), make, { accounts });
    assert.deepEqual([(await visitor()("list")).told, (await visitor()("register/begin", {})).status], [told, 500]);
    assert.equal(logged.length, make === undefined ? 2 : 0);
  }
});

test("headers and cookies that the host has set stay", async (context) => {
  const own_ = (site) => createServer((request, response) => (response.setHeader("Set-Cookie", "a=b"), response.setHeader("Vary", "Origin"), site(request, response)));
  const { visitor } = await serving(context, memory(), own_), answer = await visitor()("sign-in/begin", {});
  assert.deepEqual([answer.cookies.length, answer.cookies[0], answer.headers.get("vary")], [2, "a=b", "Origin, Cookie"]);
});

test("a site of ES modules over a server of CommonJS, and the other way round", async (context) => {
  const Stored = require("garvoeng").StoredServer, here = (kind) => new kind(process.env.PROGRAM, join(folder, `copies ${kind === Stored}.db`), "localhost", ["http://localhost"], { logger: () => {} });
  for (const [kind, server] of [[byHttp, here(Stored)], [common, here(StoredServer)]]) {
    const { Denied } = kind === byHttp ? require("garvoeng/site") : await import("garvoeng/site"), { visitor } = await serving(context, server, undefined, { accounts: { create: (_, name) => { if (name === "eve") throw new Denied("no"); } } }, kind);
    const key = own("key"), ask = visitor();
    logged.length = 0;
    assert.deepEqual([(await registered(ask, key)).status, (await registered(visitor(), own("eve"), "eve")).told], [200, { error: "no" }]);
    const refused = await signedIn(ask, key, flipped);
    assert.deepEqual([refused.status, refused.told.refusal, (await ask("sign-in/finish", {})).status], [403, "W14", 400]);
    assert.deepEqual(logged.map((one) => typeof one), ["string", "string"]);
  }
});

test("visitors who are slow, or leave", async (context) => {
  const { port, visitor } = await serving(context, stored()), head = "POST /passkeys/sign-in/finish HTTP/1.1\r\nHost: localhost\r\nContent-Type: application/json\r\n";
  const slow = Array.from({ length: 20 }, (_, index) => connect(port, "localhost").on("error", () => {}).setEncoding("latin1").pause().resume()
    .on("connect", function () { if (index % 2 === 0) this.destroySoon(); }));
  for (const one of slow) one.write(`${head}Content-Length: 99\r\n\r\n{"id":`);
  const endless = connect(port, "localhost").setEncoding("latin1");
  endless.write(`${head}Transfer-Encoding: chunked\r\n\r\n`);
  const deaf = connect(port, "localhost").on("error", () => {}).pause();
  for (let time = 0; time < 200; time++) deaf.write("GET /passkeys/browser.js HTTP/1.1\r\nHost: localhost\r\n\r\n");
  const piece = setInterval(() => endless.write(`10000\r\n${"A".repeat(0x10000)}\r\n`), 5), [said] = await once(endless, "data");
  clearInterval(piece);
  endless.on("error", () => {});
  assert.match(said, /^HTTP\/1\.1 400 [^]*the body is too long/);
  const key = own("key"), ask = visitor();
  assert.deepEqual([(await registered(ask, key)).status, (await signedIn(ask, key)).told], [200, { user: toText(key.user) }]);
  for (const one of [...slow, endless, deaf]) one.destroy();
  assert.equal((await ask("sign-in/begin", {})).status, 200);
});

test("a host that has answered already", async (context) => {
  const hasty = (site) => createServer(async (request, response) => {
    const answered = site(request, response);
    if (request.headers["x-hasty"]) response.writeHead(200, { "Content-Type": "application/json" }).end('{"hasty":true}');
    await answered;
  });
  const ask = (await serving(context, memory(), hasty)).visitor();
  for (let time = 0; time < 5; time++) assert.deepEqual((await ask("sign-in/begin", {}, { headers: { "x-hasty": "1" } })).told, { hasty: true });
  assert.equal((await ask("sign-in/begin", {})).status, 200);
});

test("a program that dies, and one that never answers", async (context) => {
  const server = stored(), { visitor } = await serving(context, server), ask = visitor(), key = own("key");
  await registered(ask, key);
  process.kill(children().at(-1), "SIGSTOP");
  const begin = server.authenticateBegin, begun = [];
  server.authenticateBegin = (...words) => begun[begun.push(begin.apply(server, words)) - 1];
  const pending = Array.from({ length: 10 }, () => ask("sign-in/begin", {}));
  for (let time = 0; time < 600 && begun.length < 10; time++) await new Promise((resolve) => setTimeout(resolve, 50));
  logged.length = 0;
  process.kill(children().at(-1), "SIGKILL");
  for (const answer of await Promise.all(pending)) assert.deepEqual([answer.status, answer.told, answer.cookies], [503, { error: "the site's storage did not answer: try again" }, []]);
  assert.ok(logged.length === 10 && logged.every((error) => error instanceof StoreFailed));
  assert.equal((await signedIn(ask, key)).status, 200);
  const file = join(folder, "silent");
  writeFileSync(file, `#!${process.execPath}\nprocess.stdin.resume(); setTimeout(() => {}, 60_000);\n`);
  chmodSync(file, 0o755);
  const silent = (await serving(context, new StoredServer(file, "none.db", "localhost", ["http://localhost"], { timeout: 500, logger: () => {} }))).visitor(), began = Date.now();
  for (const answer of await Promise.all([1, 2, 3].map(() => silent("sign-in/begin", {})))) assert.equal(answer.status, 503);
  assert.ok(Date.now() - began < 50_000);
});
