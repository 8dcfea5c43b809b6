// Sites in each framework that is here, and over each storage, for same_acts.py: it reads lines of JSON, `{ make, storage }`, `{ site, call, words }`
// or `{ site, end }`, and answers each by a line. Ids and user handles are hexadecimal.
import { once } from "node:events";
import { createServer } from "node:http";
import { createRequire } from "node:module";
import { createInterface } from "node:readline";
import { mkdtempSync } from "node:fs";
import { tmpdir } from "node:os";
import { join } from "node:path";
import { KeepingServer, MemoryStore, Server, StoredServer } from "garvoeng";
import * as byFastify from "garvoeng/fastify";
import * as byHttp from "garvoeng/http";
import * as byKoa from "garvoeng/koa";
import * as bySite from "garvoeng/site";
import { SqlServer } from "garvoeng/sql";
import { LIKE } from "./like.mjs";

const require = createRequire(import.meta.url), ORIGINS = ["http://localhost:8000"], party = ["localhost", ORIGINS];
const hex = (bytes) => Buffer.from(bytes ?? []).toString("hex"), bytes = (text) => Uint8Array.from(Buffer.from(text, "hex"));

function module_(name) {
  try {
    return require(name);
  } catch (error) {
    if (error.code !== "MODULE_NOT_FOUND") throw error;
    return null;
  }
}

// A request of node:http as one of fetch, and its answer.
function fetched(handler) {
  return async (request, response) => {
    const headers = Object.entries(request.headers).flatMap(([name, value]) => [value].flat().map((one) => [name, one]));
    const body = ["GET", "HEAD"].includes(request.method) ? {} : { body: request, duplex: "half" };
    const answer = await handler(new Request(`http://localhost${request.url.replace("..", "%2e%2e")}`, { method: request.method, headers, ...body }), request);
    response.writeHead(answer.status, [...answer.headers].flat()).end(Buffer.from(await answer.arrayBuffer()));
  };
}

const express = (name, ...parsers) => (server, how) => {
  const framework = module_(name), app = framework(), site = byHttp.passkeys(server, how);
  app.use(...parsers.map((make) => make(framework)), site);
  app.get("/who", (request, response, next) => site.signedIn(request).then((user) => response.type("text").send(hex(user)), next));
  return createServer(app);
};

const koa = (...parsers) => (server, how) => {
  const app = new (module_("koa"))(), site = byKoa.passkeys(server, how);
  for (const make of parsers) app.use(make());
  app.use(site).use(async (context) => {
    if (context.path === "/who") context.body = hex(await site.signedIn(context));
  });
  return createServer(app.callback());
};

// A listener that is like that of a framework: `of` makes its own request of one of node:http.
const like = (name, of) => async (server, how) => {
  const [kind, make] = LIKE[name], site = kind.passkeys(server, how), acts = await make(site);
  return createServer(async (request, response) => (request.url === "/who" ? response.end(hex(await site.signedIn(of(request)))) : acts.emit("request", request, response)));
};

// A listener of each framework, over a server and with the options of `passkeys`.
const FRAMEWORKS = {
  fetch: (server, how) => {
    const site = bySite.passkeys(server, how);
    return createServer(fetched(async (request, { socket }) => {
      const { pathname } = new URL(request.url);
      return pathname === "/who" ? new Response(hex(await site.signedIn(request))) : site(request, { address: socket.remoteAddress });
    }));
  },
  "node:http": (server, how) => {
    const site = byHttp.passkeys(server, how);
    return createServer(async (request, response) => (request.url === "/who" ? response.end(hex(await site.signedIn(request))) : site(request, response)));
  },
  express: express("express"),
  "express with parsers of other bodies": express("express", (framework) => framework.urlencoded({ extended: true }), (framework) => framework.text()),
  express5: express("express5"),
  koa: koa(),
  "koa with koa-bodyparser": koa(() => module_("koa-bodyparser")()),
  fastify: async (server, how) => {
    const app = module_("fastify")(), site = byFastify.passkeys(server, how);
    app.register(site).get("/who", async (request) => hex(await site.signedIn(request)));
    await app.ready();
    return app.server;
  },
  "what is asked of Koa": like("Koa", (request) => ({ req: request })),
  "what is asked of Fastify": like("Fastify", (request) => ({ raw: request })),
  hono: (server, how) => {
    const app = new (module_("hono").Hono)(), site = bySite.passkeys(server, how);
    app.all("/passkeys/*", (context) => site(context.req.raw)).get("/who", async (context) => context.text(hex(await site.signedIn(context.req.raw))));
    return createServer(fetched((request) => app.fetch(request)));
  },
};

// The package that a framework comes from, if it is not Node's.
const PACKAGES = { express: "express", "express with parsers of other bodies": "express", express5: "express5", koa: "koa", "koa with koa-bodyparser": "koa-bodyparser", fastify: "fastify", hono: "hono" };
const isHere = (name) => !Object.hasOwn(PACKAGES, name) || module_(PACKAGES[name]) !== null;

const STORAGES = {
  memory: () => new KeepingServer(new Server(...party), new MemoryStore()),
  program: () => new StoredServer(process.env.PROGRAM, join(mkdtempSync(join(tmpdir(), "acts-")), "site.db"), ...party, { logger: () => {} }),
  postgres: async () => {
    const pool = new (require("pg").Pool)();
    for (const table of ["version", "credential", "session"]) await pool.query(`drop table if exists garvoeng_${table}`);
    return Object.assign(new SqlServer(new Server(...party), pool, { logger: () => {} }), { close: () => pool.end() });
  },
};

// A site that listens.
async function started(make, storage) {
  const server = await STORAGES[storage](), listening = await FRAMEWORKS[make](server, { logger: () => {}, rateLimit: false });
  await once(listening.listen(0, "localhost"), "listening");
  const end = async () => {
    listening.closeAllConnections();
    listening.close();
    await server.close?.();
  };
  return { server, port: listening.address().port, end };
}

const sites = [];
const told = (value) => (Array.isArray(value) ? value.map(({ id, retired, signCount }) => ({ id: hex(id), retired, sign_count: signCount })) : value);

async function answered({ make, storage, site, call, words, end }) {
  if (make !== undefined) {
    if (!isHere(make)) return { missing: PACKAGES[make] };
    sites.push(await started(make, storage));
    return { site: sites.length - 1, port: sites.at(-1).port };
  }
  if (end) return { ended: (await sites[site].end()) ?? true };
  return { told: told(await sites[site].server[call](...words.map(bytes))) };
}

for await (const line of createInterface({ input: process.stdin })) console.log(JSON.stringify(await answered(JSON.parse(line))));
process.exit(0);
