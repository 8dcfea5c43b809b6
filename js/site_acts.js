// The visitor's requests, act by act. Python's garvoeng/web/acts.py has the same.
import { BadInput, Refused, RowDamaged, SessionDamaged, StoreFailed, logTo } from "./errors.js";
import { fromText, toText } from "./forms.js";
import { isBytes, shown } from "./limits.js";
import { Denied, Visitor, answerOf, functionOf, isHandle, visitorIn } from "./site_accounts.js";
import { FILES } from "./site_files.js";
import { modelOf } from "./site_models.js";
import { HostFault, MAX_BODY, REGISTRATION, SIGNED_IN, SIGN_IN, checkHead, cookieIn, cookieLine, cookieName, isOfSite, isPrintable, nameIn, objectIn } from "./site_requests.js";

const NOBODY = "nobody is signed in";
const SIGN_IN_AGAIN = "sign in again: a passkey is added right after a sign-in";
const PURPOSE = "garvoeng registration 1 ";
const MOST_LOGGED = 100;
const HMAC = { name: "HMAC", hash: "SHA-256" };
const SESSION_CLOSED = "the session is not open for registration";
// What is logged, and what the visitor gets.
const FAULTS = [
  [RowDamaged, 500, "what is stored is damaged"], [SessionDamaged, 500, "what is stored is damaged"], [StoreFailed, 503, "the site's storage did not answer: try again"], [HostFault, 500],
];
const utf8 = (text) => new TextEncoder().encode(text);
const isSame = (one, other) => one !== null && other !== null && toText(one) === toText(other);

// Carries the answer to the request.
class Told extends Error {
  constructor(status, text, headers = []) {
    super(text);
    this.status = status;
    this.headers = headers;
  }
}

// A visitor's text in a form fit for a log, in which nothing ends a line.
function logged(text) {
  const front = typeof text === "string" ? text.slice(0, MOST_LOGGED) : "";
  return isPrintable(front) ? front : "-";
}

function bytesOrNull(text) {
  try {
    return fromText(text);
  } catch {
    return null;
  }
}

const closed = () => new Refused(true, 1, SESSION_CLOSED);

/** The awaited result, if it comes within this many milliseconds. */
export async function within(milliseconds, what, waited) {
  let timer;
  const ended = new Promise((_, reject) => (timer = setTimeout(() => reject(new StoreFailed(`${what} in ${milliseconds / 1000} seconds`)), milliseconds)));
  try {
    return await Promise.race([waited, ended]);
  } finally {
    clearTimeout(timer);
  }
}

/** One request. */
export class Visit {
  #core;
  #server;
  #store;
  #request;
  #cookies = new Map();
  #said = {};

  constructor(core, request) {
    this.#core = core;
    this.#server = core.server;
    this.#store = core.store;
    this.#request = request;
  }

  // ---- the answer

  /** The status, the headers as pairs, and the body of the answer. */
  async answered() {
    const { path, method } = this.#request;
    let status = 200, value, more = [];
    try {
      if (path === null) throw new Told(404, "there is no such page");
      if (method !== METHODS[path] && !(method === "HEAD" && METHODS[path] === "GET")) throw new Told(405, "the method is another", [["Allow", METHODS[path]]]);
      if (Object.hasOwn(FILES, path)) return this.#file(path);
      value = await ACTS[path][1](this);
    } catch (error) {
      [status, value, more] = this.#answerTo(error);
    }
    const headers = [["Content-Type", "application/json"], ["Cache-Control", "no-store"], ["Vary", "Cookie"], ["X-Content-Type-Options", "nosniff"], ...more];
    for (const [name, set] of this.#cookies) headers.push(["Set-Cookie", cookieLine(name, set, this.#core.isSecure)]);
    return { status, headers, body: JSON.stringify(value) };
  }

  #answerTo(error) {
    const text = (said) => ({ error: this.#text(said) });
    if (error instanceof Told) return [error.status, text(error.message), error.headers];
    if (error instanceof Refused) return [403, { ...text(`${error.name} ${error.message}`), refusal: error.name }, []];
    if (error instanceof BadInput) return [400, text(error.message), []];
    if (error instanceof Denied) return [error.status, { error: error.text }, []];
    const [kind, status, said] = FAULTS.find(([one]) => error instanceof one) ?? [];
    if (kind === undefined) throw error;
    this.#log(error);
    return [status, text(said ?? error.message), []];
  }

  #text(text) {
    const said = this.#core.translate(text);
    return typeof said === "string" ? said : text;
  }

  #log(value) {
    logTo(this.#core.logger, value);
  }

  #file(path) {
    const { type, text } = FILES[path], headers = [["Content-Type", `${type}; charset=utf-8`], ["X-Content-Type-Options", "nosniff"], ["Content-Security-Policy", this.#core.policy]];
    // The page finds its scripts with and without a slash at the end of its path, whichever a framework takes.
    return { status: 200, headers, body: path === "" ? text.replaceAll('src="', `src="${this.#core.base}/`) : text };
  }

  // The JSON object of a request that changes something.
  async posted() {
    const { headers, address, read } = this.#request, wait = await this.#core.wait(address);
    if (wait > 0) throw new Told(429, "too many requests: try again later", [["Retry-After", String(wait)]]);
    if (!isOfSite(headers, this.#core.trusted)) throw new Told(403, "the request is not of a page of this site: its origin is none of the server's");
    checkHead(headers);
    this.#said = objectIn(await this.#body(read));
    return this.#said;
  }

  async #body(read) {
    try {
      return await within(this.#core.timeout, "the body did not come", read(MAX_BODY + 1));
    } catch (error) {
      throw error instanceof StoreFailed ? new BadInput(error.message) : error;
    }
  }

  #cookie(name) {
    return cookieIn(this.#request.headers.get("cookie"), cookieName(name, this.#core.isSecure));
  }

  // ---- the site's functions

  #has(name) {
    return functionOf(this.#core.accounts, name) !== null;
  }

  // The result of one of the site's functions; null if there is none.
  async #ofSite(name, ...words) {
    const asked = functionOf(this.#core.accounts, name);
    if (asked === null) return null;
    const said = await within(this.#core.timeout, `${name} of the accounts did not answer`, asked(this.#request.native, ...words));
    return name === "userOf" ? visitorIn(said) : answerOf(name, said);
  }

  // Logs a refusal (docs/OPERATING.md), and calls the site's function.
  async #refused(kind, session, error) {
    const said = error instanceof Refused ? `${error.name} ${error.step}` : "by the site";
    // Whoever has the whole session could act as the visitor, so a log shows only its front.
    this.#log(`${kind} refused ${said} session ${logged((session ?? "").slice(0, 8))} credential ${logged(this.#said.id)} ` +
              `address ${logged(this.#request.address)}: ${error.text}`);
    try {
      await this.#ofSite("refused", error);
    } catch (cause) {
      this.#log(new Error("refused of the accounts failed", { cause }));
    }
  }

  // ---- who is signed in

  // The visitor who is signed in by the core's own cookie.
  async #kept() {
    const number = this.#cookie(SIGNED_IN), found = number === null ? null : (await this.#store.signedIn(number)) ?? null;
    if (found === null) return null;
    const { user, credential = null, at = null } = found;
    if (!isHandle(user) || (credential !== null && !isBytes(credential))) throw new StoreFailed(`the store's signedIn answered ${shown(found)}, and not a sign-in`);
    if (credential !== null && !this.#store.looksUp) {
      const rows = await this.#server.rows(user);
      if (!rows.some((row) => isSame(row.id, credential) && !row.retired)) return null;
    }
    return new Visitor({ user, at, credential, number });
  }

  /** The visitor who is signed in, by the site's own function if it has one. */
  async visitor() {
    const kept = await this.#kept();
    if (!this.#has("userOf")) return kept;
    const told = await this.#ofSite("userOf");
    if (told === null || kept === null || !isSame(kept.user, told.user)) return told;
    // A sign-in that no passkey began is as old as the site says.
    const times = [told.at, kept.credential === null ? null : kept.at].filter((at) => at !== null);
    return new Visitor({ ...told, at: times.length === 0 ? null : Math.max(...times), credential: kept.credential, number: kept.number });
  }

  async #wanted() {
    const visitor = await this.visitor();
    if (visitor === null) throw new Told(401, NOBODY);
    return visitor;
  }

  // Signs the visitor in. Returns what the site adds to the answer.
  async #signsIn(user, accepted) {
    const more = await this.#ofSite("signedIn", user.slice(), accepted);
    await this.#keeps(user, accepted.credential.id);
    return more ?? {};
  }

  // Stores a sign-in in place of the one in the visitor's cookie. Returns its number.
  async #keeps(user, credential) {
    const number = await this.#store.keepSignIn(user, credential, this.#core.lifetime);
    if (typeof number !== "string" || number === "") throw new StoreFailed(`the store's keepSignIn answered ${shown(number)}, and not a number as text`);
    await this.#ends(this.#cookie(SIGNED_IN));
    this.#cookies.set(SIGNED_IN, number);
    return number;
  }

  async #ends(number) {
    if (number !== null) await this.#store.abandon(number);
  }

  // ---- registration

  async #key() {
    const { crypto, secret } = this.#core;
    return crypto.subtle.importKey("raw", secret ?? (await this.#store.secret()), HMAC, false, ["sign", "verify"]);
  }

  async #sealed(session, name, number) {
    const text = `${session}.${toText(utf8(JSON.stringify([name, number])))}`, seal = await this.#core.crypto.subtle.sign("HMAC", await this.#key(), utf8(PURPOSE + text));
    return `${text}.${toText(new Uint8Array(seal))}`;
  }

  async #isSeal(text, code) {
    const seal = bytesOrNull(code);
    return seal !== null && this.#core.crypto.subtle.verify("HMAC", await this.#key(), seal, utf8(PURPOSE + text));
  }

  // The open registration in the visitor's cookie: its session, the account's name, and the number of the sign-in that began it. The
  // session is null if there is none that this site made.
  async #begun() {
    const [, session, told, code] = /^([^.]+)\.([^.]+)\.([^.]+)$/.exec(this.#cookie(REGISTRATION) ?? "") ?? [];
    if (session === undefined || !(await this.#isSeal(`${session}.${told}`, code))) return { session: null, name: "", number: null };
    const [name, number] = JSON.parse(new TextDecoder().decode(fromText(told)));
    return { session, name, number };
  }

  // The user handle and name for a registration that begins, and the number of the visitor's sign-in, if there is one.
  async #beginner() {
    const visitor = await this.visitor(), name = visitor?.name ?? nameIn(this.#said);
    if (visitor === null) {
      if (this.#has("userOf") && !this.#has("create")) throw new Told(401, NOBODY);
    } else if (!visitor.isFresh(this.#core.fresh)) throw new Told(401, SIGN_IN_AGAIN);
    if (this.#has("mayRegister") && !(await this.#ofSite("mayRegister", name, visitor === null ? null : visitor.user.slice())))
      throw new Denied(this.#text("a passkey may not be registered"));
    if (visitor === null) return { user: this.#core.crypto.getRandomValues(new Uint8Array(32)), name, number: null };
    return { user: visitor.user, name, number: visitor.number ?? (await this.#keeps(visitor.user, null)) };
  }

  // The sign-in for a server that stores sign-ins too, which checks it in the transaction of the call.
  #bound(number) {
    return number !== null && this.#store.looksUp ? { signIn: number } : {};
  }

  async registerBegin() {
    await this.posted();
    const { user, name, number } = await this.#orRefused("registration", null, () => this.#beginner());
    const { options, session } = await this.#server.registerBegin(user, name, { ...this.#core.registration, ...this.#bound(number) });
    this.#cookies.set(REGISTRATION, await this.#sealed(session, name, number));
    return options;
  }

  // A refusal meanwhile is logged, and passed to the site.
  async #orRefused(kind, session, work) {
    try {
      return await work();
    } catch (error) {
      if (error instanceof Refused || error instanceof Denied) await this.#refused(kind, session, error);
      throw error;
    }
  }

  // Whether the visitor is the one who began a registration: with this sign-in, or not signed in.
  async #isBy(number) {
    const visitor = await this.visitor();
    return number === null ? visitor === null : visitor?.number === number;
  }

  async #finished(user, name, made, number) {
    try {
      if (number === null) await this.#ofSite("create", name, user.slice());
      else if (!(await this.#isBy(number))) throw closed();
    } catch (error) {
      await this.#server.delete(made.credential.id);
      throw error;
    }
  }

  async registerFinish() {
    const said = await this.posted(), { session, name, number } = await this.#begun();
    return this.#orRefused("registration", session, async () => {
      if (!(await this.#isBy(number))) throw closed();
      const made = await this.#server.registerComplete(session, said, this.#bound(number)), { user, id } = made.credential;
      this.#cookies.set(REGISTRATION, null);
      await this.#finished(user, name, made, number);
      await this.#ofSite("registered", made);
      return { ...(number === null ? await this.#signsIn(user, made) : {}), id: toText(id) };
    });
  }

  // ---- sign-in

  async signInBegin() {
    const said = await this.posted();
    let user = await this.#ofSite("expected");
    if (user === null && said.again === true) ({ user } = await this.#wanted());
    const { options, session } = await this.#server.authenticateBegin({ ...this.#core.signIn, user });
    this.#cookies.set(SIGN_IN, session);
    return options;
  }

  async signInFinish() {
    const said = await this.posted(), session = this.#cookie(SIGN_IN);
    return this.#orRefused("sign-in", session, async () => {
      const who = await this.#server.authenticateComplete(session, said), { user } = who.credential;
      this.#cookies.set(SIGN_IN, null);
      const expected = await this.#ofSite("expected");
      if (expected !== null && !isSame(expected, user)) throw new Denied(this.#text("the passkey is another account's"));
      return { user: toText(user), ...(await this.#signsIn(user, who)) };
    });
  }

  /** Ends the visitor's sign-in and open ceremonies. */
  async end() {
    await this.#ends(this.#cookie(SIGNED_IN));
    for (const session of [(await this.#begun()).session, this.#cookie(SIGN_IN)]) if (session !== null) await this.#server.abandon(session);
  }

  async signOut() {
    await this.posted();
    await this.end();
    for (const name of [SIGNED_IN, REGISTRATION, SIGN_IN]) this.#cookies.set(name, null);
    await this.#ofSite("signedOut");
    return {};
  }

  // ---- the account's passkeys

  async list() {
    const { user } = await this.#wanted(), rows = await this.#server.rows(user), names = await this.#store.names(user);
    return rows.map(({ id, aaguid, createdAt, usedAt, backedUp, retired }) => ({
      id: toText(id), name: names.get(toText(id)) ?? null, model: modelOf(aaguid, this.#core.models), created: createdAt, used: usedAt, backed_up: backedUp, retired,
    }));
  }

  async rename() {
    const said = await this.posted(), { user } = await this.#wanted(), id = fromText(said.id, "id"), name = nameIn(said);
    if (!(await this.#server.rows(user)).some((row) => isSame(row.id, id))) return { renamed: false };
    await this.#store.rename(user, id, name);
    return { renamed: true };
  }

  async retire() {
    const said = await this.posted(), { user } = await this.#wanted();
    return { retired: await this.#server.retire(fromText(said.id, "id"), user) };
  }
}

const ACTS = {
  "register/begin": ["POST", (visit) => visit.registerBegin()], "register/finish": ["POST", (visit) => visit.registerFinish()],
  "sign-in/begin": ["POST", (visit) => visit.signInBegin()], "sign-in/finish": ["POST", (visit) => visit.signInFinish()],
  "sign-out": ["POST", (visit) => visit.signOut()], list: ["GET", (visit) => visit.list()], rename: ["POST", (visit) => visit.rename()],
  retire: ["POST", (visit) => visit.retire()],
};

/** The paths below the address of the acts, including the page's, with the method of each. */
export const METHODS = Object.freeze({
  ...Object.fromEntries(Object.keys(FILES).map((path) => [path, "GET"])), ...Object.fromEntries(Object.entries(ACTS).map(([path, [method]]) => [path, method])),
});
