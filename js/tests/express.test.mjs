// `passkeys` in Express alone: below which paths it answers and by which methods, the visitor's address, cookies, bodies, and what is Express's
// own to answer.
import assert from "node:assert/strict";
import { createServer, request as asks } from "node:http";
import { createRequire } from "node:module";
import { test } from "node:test";
import { StoreFailed, toText } from "garvoeng";
import { RateLimit } from "garvoeng/http";
import { Denied } from "garvoeng/site";
import { flipped, logged, memory, own, registered, serving, signedIn } from "./visits.mjs";

const require = createRequire(import.meta.url), express = require("express");

// The site in an app of Express, to which `work` adds before it, and which says what went past it.
const inApp = (work = () => {}, mount = (app, site) => app.use(site)) => (site) => {
  const app = express();
  work(app);
  mount(app, site);
  app.use((request, response) => response.status(404).json({ past: request.method })).use((error, request, response, next) => response.status(500).json({ express: error.message }));
  return createServer(app);
};

// The answer to a request whose path and headers are sent as they are; the body comes in pieces, without its length.
const sent = (port, { method = "POST", path = "/passkeys/sign-in/begin", headers = {}, body = ["{}"] } = {}) => new Promise((resolve, reject) => {
  const request = asks({ host: "localhost", port, method, path, headers: { "content-type": "application/json", ...headers } }, async (response) => {
    const parts = [];
    for await (const part of response) parts.push(part);
    const text = Buffer.concat(parts).toString();
    resolve({ status: response.statusCode, headers: response.headers, text, told: /^\{/.test(text) ? JSON.parse(text) : text });
  }).on("error", reject);
  if (["POST", "PUT", "PATCH"].includes(method)) for (const part of body) request.write(part);
  request.end();
});

test("below a path of the app, and in a router: what Express has cut off the path is the core's", async (context) => {
  const router = (app, site) => app.use("/account", express.Router().use("/keys", site));
  for (const [base, mount] of [["/passkeys", (app, site) => app.use("/passkeys", site)], ["/account/keys", router], ["/account/keys", (app, site) => app.use(site)]]) {
    const { port, origin } = await serving(context, memory(), inApp(undefined, mount), { base });
    assert.deepEqual([(await sent(port, { path: `${base}/sign-in/begin` })).status, (await fetch(`${origin}${base}/list`)).status, (await fetch(`${origin}${base}/`)).status], [200, 401, 200], base);
    for (const path of ["/sign-in/begin", "/list", "/account/list", "/other/keys/list"]) assert.deepEqual((await sent(port, { path })).told, { past: "POST" }, path);
  }
});

test("a path that only begins like the core's goes on to the app, with its body", async (context) => {
  const { port } = await serving(context, memory(), inApp());
  for (const path of ["/passkeysX/list", "/passkeysX", "/passkeyslist", "/passkeys.html", "/passkeys-list", "/passkeys/listX", "/passkeys//list", "/passkeys/list/", "/passkeys/sign-in", "/passkeys/sign-in/begin/", "/PASSKEYS/list", "/passkeys/List",
                      "/x/passkeys/list", "//passkeys/list", "/passkeys/%6cist", "/passkeys/x/../list", "/passkeys/constructor", "/passkeys/toString", "/passkeys/__proto__", "/?/passkeys/list", "/passkeys;/list"])
    for (const method of ["GET", "POST"]) assert.deepEqual((await sent(port, { method, path })).told, { past: method }, path);
  for (const path of ["/passkeys/list?/x", "/passkeys/list?list=/passkeys/sign-out"]) assert.equal((await sent(port, { method: "GET", path })).status, 401, path);
});

test("each act by its own method alone: nothing is begun, ended or told by another", async (context) => {
  const site = await serving(context, memory(), inApp((app) => app.use(express.json()))), ask = site.visitor(), key = own("key");
  assert.equal((await registered(ask, key)).status, 200);
  const cookie = `garvoeng=${ask.jar.garvoeng}`;
  for (const path of ["register/begin", "register/finish", "sign-in/begin", "sign-in/finish", "sign-out", "rename", "retire"])
    for (const method of ["GET", "HEAD", "PUT", "DELETE", "PATCH", "OPTIONS"]) {
      const { status, headers } = await sent(site.port, { method, path: `/passkeys/${path}`, headers: { cookie } });
      assert.deepEqual([status, headers.allow, headers["set-cookie"]], [405, "POST", undefined], `${method} ${path}`);
    }
  for (const method of ["POST", "PUT"]) assert.deepEqual((({ status, headers }) => [status, headers.allow])(await sent(site.port, { method, path: "/passkeys/list", headers: { cookie } })), [405, "GET"]);
  const head = await sent(site.port, { method: "HEAD", path: "/passkeys/list", headers: { cookie } });
  assert.deepEqual([head.status, head.text, head.headers["cache-control"], head.headers.vary, head.headers["x-content-type-options"]], [200, "", "no-store", "Cookie", "nosniff"]);
  assert.equal((await ask("list")).told.length, 1, "who is signed in is so still");
});

test("the address of a visitor is that of the connection, and that of a proxy's header where the app trusts the proxy", async (context) => {
  const headers = { "x-forwarded-for": "192.0.2.1, 192.0.2.2", forwarded: "for=192.0.2.3", "x-real-ip": "192.0.2.4" };
  for (const [trust, address] of [[false, /^(?:::1|(?:::ffff:)?127\.0\.0\.1)$/], [1, /^192\.0\.2\.2$/], [true, /^192\.0\.2\.1$/]]) {
    const seen = [], rateLimit = { wait: (one) => (seen.push(one), 0) }, site = await serving(context, memory(), inApp((app) => app.set("trust proxy", trust)), { rateLimit });
    logged.length = 0;
    assert.equal((await sent(site.port, { headers })).status, 200);
    assert.equal((await sent(site.port, { path: "/passkeys/sign-in/finish", headers, body: [JSON.stringify(own("key").signIn({ challenge: "AA" }))] })).status, 403);
    assert.ok(seen.length === 2 && seen.every((one) => address.test(one)), `${trust}: ${seen}`);
    assert.match(/ address (\S+): /.exec(logged[0])[1], address);
  }
  const rateLimit = new RateLimit({ rate: 1e-9, burst: 1, clock: () => 0 }), { port } = await serving(context, memory(), inApp((app) => app.set("trust proxy", 1)), { rateLimit });
  const asked = async (address) => (({ status, headers: { "retry-after": wait } }) => [status, Number(wait) > 0])(await sent(port, { headers: { "x-forwarded-for": `192.0.2.9, ${address}` } }));
  assert.deepEqual([await asked("192.0.2.1"), await asked("192.0.2.1"), await asked("192.0.2.2")], [[200, false], [429, true], [200, false]]);
});

test("each cookie is for this host alone, for no script, and by https alone where an origin is", async (context) => {
  for (const [origin, front, end] of [["https://localhost", "__Host-", "; Secure"], ["http://localhost", "", ""]]) {
    const { visitor } = await serving(context, memory([origin]), inApp()), ask = visitor(), key = own("key", origin), lines = [];
    const begun = await ask("register/begin", { name: "ada" });
    key.user = Buffer.from(begun.told.user.id, "base64url");
    lines.push(...begun.cookies, ...(await ask("register/finish", key.register(begun.told))).cookies);
    const options = await ask("sign-in/begin", {});
    lines.push(...options.cookies, ...(await ask("sign-in/finish", key.signIn(options.told, { user: key.user }))).cookies);
    const out = await ask("sign-out", {});
    assert.deepEqual([out.cookies.length, ask.jar], [3, {}]);
    lines.push(...out.cookies);
    assert.equal(lines.length, 9);
    for (const line of lines) assert.match(line, new RegExp(`^${front}garvoeng(?:_registration|_sign_in)?=[^;\\s]*; HttpOnly; Path=/; SameSite=Lax${end}(?:; Max-Age=0; Expires=Thu, 01 Jan 1970 00:00:00 GMT)?$`));
  }
});

test("a sign-in has ended for each copy of its cookie, and of two cookies of its name the first counts", async (context) => {
  const { visitor, site } = await serving(context, memory(), inApp()), ask = visitor(), key = own("key");
  await registered(ask, key);
  const number = ask.jar.garvoeng, who = async (cookie) => (await site.signedIn({ headers: { cookie } })) !== null;
  assert.deepEqual([await who(`garvoeng=${number}; garvoeng=planted`), await who(`garvoeng=planted; garvoeng=${number}`), await who(`garvoengX=${number}`)], [true, false, false]);
  const kept = ask.copied();
  assert.deepEqual([(await ask("sign-out", {})).told, (await kept("list")).status, (await kept("register/begin", { name: "ada" })).told.user.id === toText(key.user), await who(`garvoeng=${number}`)], [{}, 401, false, false]);
});

test("a form and a page of another site post nothing, by whichever parser", async (context) => {
  const parsers = [express.urlencoded({ extended: true }), express.json({ type: () => true, strict: false }), express.text({ type: () => true })];
  for (const parser of [null, ...parsers]) {
    const { port, visitor } = await serving(context, memory(), inApp((app) => parser && app.use(parser))), ask = visitor();
    await registered(ask, own("key"));
    const cookie = `garvoeng=${ask.jar.garvoeng}`;
    for (const type of ["text/plain", "application/x-www-form-urlencoded", "multipart/form-data; boundary=application/json", "text/plain; a=application/json", "application/jsonp", "application/json-seq", "application/jso", ""])
      assert.equal((await sent(port, { path: "/passkeys/sign-out", headers: { cookie, "content-type": type } })).status, 400, type);
    for (const headers of [{ origin: "http://evil.example" }, { origin: "http://localhost.evil.example" }, { origin: "null" }, { "sec-fetch-site": "cross-site" }, { "sec-fetch-site": "same-site" }])
      assert.equal((await sent(port, { path: "/passkeys/sign-out", headers: { cookie, ...headers } })).status, 403, JSON.stringify(headers));
    assert.equal((await ask("list")).status, 200);
    assert.equal((await sent(port, { path: "/passkeys/sign-out", headers: { cookie, "content-type": "Application/JSON ; charset=utf-8", origin: "http://localhost" } })).status, 200);
    assert.equal((await ask("list")).status, 401);
  }
});

test("a body without a length is read up to the limit, and not kept beyond it", async (context) => {
  const { port, visitor } = await serving(context, memory(), inApp()), of = (size) => ['{"a":"', ..."A".repeat(size - 8).match(/.{1,10000}/g), '"}'];
  assert.equal((await sent(port, { body: of(131_072) })).status, 200);
  for (const size of [131_073, 4_000_000]) assert.deepEqual((await sent(port, { body: of(size) })).told, { error: "the body is too long" });
  assert.deepEqual((await sent(port, { headers: { "content-length": "131073" }, body: ["A".repeat(131_073)] })).told, { error: "the body is too long" });
  assert.equal((await visitor()("sign-in/begin", {})).status, 200);
});

test("what a parser made of a body has no members but its own", async (context) => {
  const planted = { again: true, name: "eve", id: "AAAA" };
  for (const parser of [null, express.json(), express.text({ type: "*/*" }), (request, response, next) => express.json()(request, response, (error) => (Object.setPrototypeOf(request.body, Object.assign(Object.create(null), planted)), next(error)))]) {
    const { port } = await serving(context, memory(), inApp((app) => parser && app.use(parser)));
    for (const body of ['{"__proto__":{"again":true,"name":"eve","id":"AAAA"}}', '{"constructor":{"prototype":{"again":true,"name":"eve"}}}', "{}"]) {
      const said = async (path) => (await sent(port, { path: `/passkeys/${path}`, body: [body] })).status;
      assert.deepEqual([await said("sign-in/begin"), await said("register/begin")], [200, 400], body);
    }
    assert.equal({}.again, undefined);
  }
});

test("what other programs leave in Object.prototype is no header", async (context) => {
  const { port, site, visitor } = await serving(context, memory(), inApp()), ask = visitor();
  await registered(ask, own("key"));
  const added = { cookie: `garvoeng=${ask.jar.garvoeng}`, origin: "http://localhost", "content-length": "2" };
  for (const [name, value] of Object.entries(added)) Object.defineProperty(Object.prototype, name, { value, configurable: true, writable: true });
  try {
    assert.deepEqual([await site.signedIn({ headers: {} }), (await sent(port, { headers: { "sec-fetch-site": "cross-site" } })).status, (await fetch(`http://localhost:${port}/passkeys/list`)).status], [null, 403, 401]);
  } finally {
    for (const name of Object.keys(added)) delete Object.prototype[name];
  }
});

test("a refusal and a fault of the storage are answered, and not Express's; what the site throws is Express's alone", async (context) => {
  let isClosed = false;
  const server = memory(), accounts = { signedIn() { if (isClosed) throw new Denied("later", 409); } }, { visitor } = await serving(context, server, inApp(), { accounts }), ask = visitor(), key = own("key");
  await registered(ask, key);
  logged.length = 0;
  const refused = await signedIn(ask, key, flipped);
  assert.deepEqual([refused.status, refused.told], [403, { error: "W14 BadSignature: the signature is not valid", refusal: "W14" }]);
  isClosed = true;
  const denied = await signedIn(ask, key);
  assert.deepEqual([denied.status, denied.told], [409, { error: "later" }]);
  server.authenticateBegin = async () => { throw new StoreFailed("the password of the database is s3cret"); };
  const failed = await ask("sign-in/begin", {});
  assert.deepEqual([failed.status, failed.told, logged.at(-1).message], [503, { error: "the site's storage did not answer: try again" }, "the password of the database is s3cret"]);
  server.authenticateBegin = async () => { throw new TypeError("of the site"); };
  const thrown = await ask("sign-in/begin", {});
  assert.deepEqual([thrown.status, thrown.told, thrown.cookies], [500, { express: "of the site" }, []]);
});
