// The sign-ins, the names of passkeys, and a secret, in the table of sessions. Python's garvoeng.sql has the same rows. `query` runs a
// statement in a transaction.
import { randomBytes } from "node:crypto";
import { BadInput } from "./errors.js";
import { fromText, toText } from "./forms.js";
import { isNumber, now } from "./keeping.js";
import { SIGNED_IN_FOR, checkFlag, isBytes, optionsIn, ownOf } from "./limits.js";

// A begin deletes up to 100 sessions that have ended, and does not wait for another begin's.
const EXPIRED = `delete from garvoeng_session where id in (
  select id from garvoeng_session where expires_at <= $1 limit 100 for update skip locked)`;
const SECRET = "secret";
// The end of rows for which no visitor has a number.
const NEVER = 2 ** 53;

/** The members of a session's row; empty if it is damaged. */
export function membersIn(data) {
  try {
    return ownOf(JSON.parse(data));
  } catch {
    return {};
  }
}

/** Stores a session. Returns its id, 32 random hexadecimal digits. */
export async function stored(query, data, lifetime) {
  const id = randomBytes(16).toString("hex");
  await query(EXPIRED, [now()]);
  await query("insert into garvoeng_session values ($1, $2, $3)", [id, JSON.stringify(data), now() + lifetime]);
  return id;
}

async function found(query, id) {
  const { rows: [row] } = await query("select data from garvoeng_session where id = $1 and expires_at > $2", [id, now()]);
  return row === undefined ? {} : membersIn(row.data);
}

function signInOf(number, { signed_in: at, user, credential }) {
  try {
    return Number.isSafeInteger(at) ? { number, user: fromText(user), credential: credential === null ? null : fromText(credential), at } : null;
  } catch (error) {
    if (!(error instanceof BadInput)) throw error;
    return null;
  }
}

/** The visitor who is signed in by this number, or null, also if the passkey is retired or deleted. The passkey is looked up unless another
 *  server has it. */
export async function signedInBy(query, number, looksUp) {
  const kept = isNumber(number) ? signInOf(number, await found(query, number)) : null;
  if (kept === null || kept.credential === null || !looksUp) return kept;
  const { rowCount } = await query("select 1 from garvoeng_credential where id = $1 and user_handle = $2 and retired = 0", [kept.credential, kept.user]);
  return rowCount === 1 ? kept : null;
}

/** Whether this user is signed in by this number; true if there is none to check. */
export async function isSignedIn(query, user, number) {
  const kept = number === null ? null : await signedInBy(query, number, true);
  return number === null || (kept !== null && toText(kept.user) === toText(user));
}

const idOfNames = (user) => `names ${toText(user)}`;

async function namesOf(query, user) {
  const { names } = await found(query, idOfNames(user));
  return new Map(Object.entries(Object(names)).filter(([, name]) => typeof name === "string"));
}

// Names a passkey. An empty name removes the name.
async function rename(query, user, credential, name) {
  // One at a time, as in Python.
  await query("select pg_advisory_xact_lock(hashtext($1))", [`garvoeng ${toText(user)}`]);
  const names = await namesOf(query, user);
  names.delete(toText(credential));
  if (name !== "") names.set(toText(credential), name);
  await query("delete from garvoeng_session where id = $1", [idOfNames(user)]);
  if (names.size > 0)
    await query("insert into garvoeng_session values ($1, $2, $3)", [idOfNames(user), JSON.stringify({ names: Object.fromEntries(names), user: toText(user) }), NEVER]);
}

/** Forgets the name of a passkey. */
export async function forgetName(query, user, credential) {
  if ((await namesOf(query, user)).has(toText(credential))) await rename(query, user, credential, "");
}

/** A `WebStore` as rows in the tables of a `SqlServer`: either one that keeps the passkeys too (`looksUp`), or one beside another
 *  server. */
export class SqlWebStore {
  #server;
  #secret = null;

  constructor(server, options) {
    const { looksUp = false } = optionsIn(options, "SqlWebStore", ["looksUp"]);
    if (typeof server?.within !== "function") throw new BadInput("a SqlWebStore is over a SqlServer: write new SqlWebStore(new SqlServer(new Server(..), pool))");
    this.#server = server;
    this.looksUp = checkFlag(looksUp, "looksUp");
  }

  async #made(query) {
    const made = JSON.stringify({ [SECRET]: toText(randomBytes(32)) });
    await query("insert into garvoeng_session values ($1, $2, $3) on conflict (id) do nothing", [SECRET, made, NEVER]);
    return fromText((await found(query, SECRET))[SECRET], SECRET);
  }

  async secret() {
    this.#secret ??= await this.#server.within((query) => this.#made(query));
    return this.#secret;
  }

  async keepSignIn(user, credential = null, lifetime = SIGNED_IN_FOR) {
    const data = { signed_in: now(), user: toText(user), credential: isBytes(credential) ? toText(credential) : null };
    return this.#server.within((query) => stored(query, data, lifetime));
  }

  async signedIn(number) {
    return this.#server.within((query) => signedInBy(query, number, this.looksUp));
  }

  async abandon(number) {
    return this.#server.abandon(number);
  }

  async names(user) {
    return this.#server.within((query) => namesOf(query, user));
  }

  async rename(user, credential, name) {
    await this.#server.within((query) => rename(query, user, credential, name));
  }

  async erase(user) {
    return this.#server.erase(user);
  }
}
