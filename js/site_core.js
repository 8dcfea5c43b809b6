// The requests of a site with passkeys, without a framework: JSON and cookies in, JSON and cookies out. Python's `garvoeng.web` is the
// same.
import { BadInput } from "./errors.js";
import { SIGNED_IN_FOR, checkFunction, checkOrigins, checkWhole, isBytes, optionsIn, ownOf, shown } from "./limits.js";
import { RateLimit } from "./rate_limit.js";
import { serverOver } from "./server.js";
import { checkAccounts } from "./site_accounts.js";
import { METHODS, Visit } from "./site_acts.js";
import { MODELS } from "./site_models.js";
import { CALLS, memoryOver } from "./site_stores.js";

const OPTIONS = ["accounts", "store", "secret", "base", "fresh", "lifetime", "rateLimit", "trustedOrigins", "registration", "signIn", "models", "translate", "timeout", "logger"];
const SERVER = ["registerBegin", "registerComplete", "authenticateBegin", "authenticateComplete", "rows", "retire", "delete", "abandon"];
const LEAST_SECRET = 32;
// A server that keeps nothing, with which the options of begins are tried once.
const Trial = serverOver(null, (size) => new Uint8Array(size), () => false);
const OF_CORE = ["user", "exclude", "allow", "signIn"];

function secretOf(value) {
  const bytes = typeof value === "string" ? new TextEncoder().encode(value) : value;
  if (!isBytes(bytes) || bytes.length < LEAST_SECRET)
    throw new BadInput(`secret is ${isBytes(bytes) ? "too short" : shown(value)}: write ${LEAST_SECRET} random characters or more`);
  return new Uint8Array(bytes);
}

// The page loads only the site's own files, and only the `topOrigins` may have it in a frame.
function policyOf(topOrigins) {
  return "default-src 'none'; script-src 'self'; connect-src 'self'; style-src 'self'; img-src 'self'; font-src 'self'; base-uri 'none'; " +
         `form-action 'none'; frame-ancestors ${topOrigins.join(" ") || "'none'"}`;
}

function baseOf(value) {
  if (typeof value !== "string" || !/^(?:\/[\w.~-]+)*$/.test(value)) throw new BadInput(`base is ${shown(value)}: write the path below which the acts stand, as "/passkeys"`);
  return value;
}

// The parameters of a begin besides the account. They are tried once, so that a site's mistake shows before its visitors meet it.
function howOf(value, name, call, ...words) {
  for (const one of OF_CORE) if (Object.hasOwn(Object(value), one)) throw new BadInput(`${one} of ${name} is the core's`);
  new Trial("localhost", ["http://localhost"])[call](...words, value);
  return ownOf(value);
}

function checkServer(server) {
  if (typeof server?.relatedOrigins === "function" || SERVER.some((name) => typeof server?.[name] !== "function"))
    throw new TypeError("passkeys is over a server that keeps passkeys, and this one does not: write new SqlServer(new Server(..), pool), a StoredServer, or new KeepingServer(new Server(..), store)");
  return server;
}

/** The acts over a server and a site's accounts, with the WebCrypto of a platform. */
export class Core {
  #limit;

  constructor(crypto, server, options) {
    const own = optionsIn(options, "passkeys", OPTIONS), { accounts = null, secret, rateLimit = new RateLimit(), trustedOrigins = [], models = MODELS } = own;
    const { fresh = 300, lifetime = SIGNED_IN_FOR, timeout = 30_000, base = "/passkeys", translate = String, logger = console.error } = own;
    this.crypto = crypto;
    this.server = checkServer(server);
    this.accounts = checkAccounts(accounts);
    this.store = own.store ?? server.webStore ?? new (memoryOver((size) => crypto.getRandomValues(new Uint8Array(size))))();
    for (const name of CALLS) checkFunction(this.store[name], `the store's ${name}`, "that of MemoryWebStore");
    this.secret = secret === undefined ? null : secretOf(secret);
    this.base = baseOf(base);
    this.fresh = checkWhole(fresh, "fresh, in seconds,", 1);
    this.lifetime = checkWhole(lifetime, "lifetime, in seconds,", 1);
    this.timeout = checkWhole(timeout, "timeout, in milliseconds,", 1, 0x7fffffff);
    this.#limit = rateLimit === false ? { wait: () => 0 } : rateLimit;
    checkFunction(this.#limit?.wait, "rateLimit.wait", "(address) => seconds");
    this.trusted = [...server.origins, ...checkOrigins(trustedOrigins, "trustedOrigins")];
    this.isSecure = server.origins.some((origin) => origin.startsWith("https://"));
    this.policy = policyOf(server.topOrigins ?? []);
    this.registration = howOf(own.registration, "registration", "registerBegin", new Uint8Array(1), "0");
    this.signIn = howOf(own.signIn, "signIn", "authenticateBegin");
    if (typeof models !== "object" || models === null) throw new BadInput(`models is ${shown(models)}: write an object of names by their aaguid`);
    this.models = models;
    this.translate = checkFunction(translate, "translate", "(text) => text");
    this.logger = checkFunction(logger, "logger", "(told) => console.error(told)");
  }

  /** How many seconds an address has to wait. */
  async wait(address) {
    const told = await this.#limit.wait(address);
    if (!Number.isSafeInteger(told) || told < 0) throw new TypeError(`rateLimit.wait answered ${shown(told)}, and not whole seconds, 0 for none`);
    return told;
  }

  /** The part below the address of the acts, from a request's path and query; null if it is not below it, or there is no such page. */
  pathOf(url) {
    const [path] = url.split(/[?#]/), front = `${this.base}/`, below = path === this.base ? "" : path.slice(front.length);
    return path === this.base || (path.startsWith(front) && Object.hasOwn(METHODS, below)) ? below : null;
  }

  /** The status, the headers as pairs and the body of the answer to a request. `path` comes from `pathOf`, `headers` has `get(name)`, which
   *  is null if there is none, `read(most)` returns the body, and `native` is passed to the functions of the accounts. */
  async answer(request) {
    return new Visit(this, request).answered();
  }

  async visitor(request) {
    return new Visit(this, request).visitor();
  }

  async end(request) {
    await new Visit(this, request).end();
  }
}

/** The calls of an adapter besides its listener: each takes the framework's own request, from which `askedOf` makes the core's. */
export function callsOver(core, askedOf) {
  const visitor = async (request) => core.visitor(askedOf(request));
  return {
    visitor,
    signedIn: async (request) => (await visitor(request))?.user ?? null,
    fresh: async (request, seconds) => (await visitor(request))?.isFresh(checkWhole(seconds, "seconds", 0)) === true,
    end: async (request) => core.end(askedOf(request)),
  };
}
