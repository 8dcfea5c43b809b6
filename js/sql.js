// A relying party whose sessions and credentials are rows in PostgreSQL, for sites of several machines. Each call is one transaction, by
// the rules for rows in docs/OPERATING.md. Python's `garvoeng.sql` has the same tables.
import { SessionDamaged, logTo, ofSession } from "./errors.js";
import { toText } from "./forms.js";
import {
  BadInput, KeptCredential, Refused, RegistrationSession, SignInSession, StoreFailed, coseKeyOf, credentialFromCose,
} from "./index.js";
import { LIFETIME, isNumber, now } from "./keeping.js";
import { allowed, checkCredential, checkFunction, checkId, checkIds, checkSession, checkUser, checkWhole, fitting, optionsIn, shown } from "./limits.js";
import { registrationOptionsIn, signInOptionsIn } from "./options.js";
import { ofRow, openIn, soundOf } from "./records.js";
import { SqlWebStore, forgetName, isSignedIn, membersIn, stored } from "./sql_visitors.js";

export { SqlWebStore } from "./sql_visitors.js";

const VERSION = 1;
const TABLES = [
  "create table garvoeng_version (version integer not null)",
  `create table garvoeng_credential (
    id bytea primary key, user_handle bytea not null, public_key bytea not null, sign_count bigint not null, backup_eligible integer,
    retired integer not null, backed_up integer, transports text not null default '', aaguid bytea, created_at bigint not null, used_at bigint)`,
  "create index garvoeng_credential_by_user on garvoeng_credential (user_handle)",
  "create table garvoeng_session (id text primary key, data text not null, expires_at bigint not null)",
  "create index garvoeng_session_by_expiry on garvoeng_session (expires_at)",
  `insert into garvoeng_version values (${VERSION})`,
];
// The SQLSTATE values after which a transaction may be repeated: serialization failure and deadlock.
const RETRIED = ["40001", "40P01"];
// How often a transaction is tried if another one is in its way.
const TRIES = 8;
const HOOKS = ["onRegistered", "onSignedIn", "onErased"];
const COLUMNS = "id, user_handle, public_key, sign_count, backup_eligible, retired, transports, backed_up, aaguid, created_at, used_at";

const flagOf = (value) => (value === null ? null : Number(value));
const isTrue = (value, name) => (value === null ? null : checkWhole(value, name, 0, 1) === 1);
const timeOf = (value) => (value === null ? null : Number(value));

// The number of a session, or null if a text is not one.
const numberOf = (session) => (isNumber(checkSession(session)) ? session : null);

// The member that only sessions of one kind have; the last is that of a kept sign-in.
const KINDS = ["algorithms", "allow", "signed_in"];

// The credential of a row. Throws `RowDamaged`.
function credentialOf(row) {
  return ofRow(new Uint8Array(row.id), () => {
    const credential = credentialFromCose({
      id: row.id, user: row.user_handle, coseKey: row.public_key, signCount: Number(row.sign_count), eligible: isTrue(row.backup_eligible, "backup_eligible"),
      retired: isTrue(row.retired, "retired"), transports: row.transports.split(",").filter((one) => one !== ""),
    });
    checkCredential(credential);
    checkUser(credential.user);
    checkIds([credential]);
    if (row.aaguid !== null && row.aaguid.length !== 16) throw new BadInput("aaguid is not of 16 bytes");
    return new KeptCredential({ ...credential, aaguid: row.aaguid === null ? null : new Uint8Array(row.aaguid), backedUp: isTrue(row.backed_up, "backed_up"),
                                createdAt: timeOf(row.created_at), usedAt: timeOf(row.used_at) });
  });
}

// The function that gives a client: a pool's `connect`, or a function.
function connectOf(pool) {
  if (typeof pool === "function") return pool;
  if (typeof pool?.connect !== "function") throw new BadInput("a SqlServer is over a pool of pg: write new SqlServer(new Server(..), new Pool(..)), or a function that gives a client");
  return () => pool.connect();
}

// Gives a client back, or ends it. What is committed stays committed, even if this fails.
async function givenBack(client, isSound) {
  try {
    if (typeof client.release === "function") client.release(!isSound);
    else await client.end?.();
  } catch {}
}

const failed = (error) => new StoreFailed(`the database failed: ${error?.message ?? shown(error)}`, { cause: error });
const isRetried = (error) => error instanceof StoreFailed && RETRIED.includes(error.cause?.code);
const queryOf = (run) => (text, values = []) => run(text, ...values);
const sleep = (milliseconds) => new Promise((resolve) => setTimeout(resolve, milliseconds));

/** A `Server` whose sessions and credentials are rows, over a pool of `pg`. */
export class SqlServer {
  #connect;
  #server;
  #lifetime;
  #logger;
  #hooks = {};
  #prepared = null;

  constructor(server, pool, options) {
    const { lifetime = LIFETIME, logger = console.error, ...hooks } = optionsIn(options, "SqlServer", ["lifetime", "logger", ...HOOKS]);
    if (typeof server?.relatedOrigins !== "function") throw new BadInput("a SqlServer is over a Server: write new SqlServer(new Server(..), pool)");
    this.#connect = connectOf(pool);
    for (const name of HOOKS) this.#hooks[name] = hooks[name] === undefined ? null : checkFunction(hooks[name], name, "async (query, told) => ..");
    this.#server = server;
    this.#lifetime = checkWhole(lifetime, "lifetime, in seconds,", 1);
    this.#logger = checkFunction(logger, "logger", "(error) => console.error(error)");
    this.origins = server.origins;
    this.topOrigins = server.topOrigins;
    this.webStore = new SqlWebStore(this, { looksUp: true });
    // If an idle connection ends and nobody listens, the process would end; the pool makes another in its place.
    if (typeof pool.listenerCount === "function" && pool.listenerCount("error") === 0) pool.on("error", () => {});
  }

  // Runs a transaction, and repeats it if another one was in its way.
  async #transaction(work) {
    for (let tried = 1; ; tried++) {
      try {
        return await this.#once(work);
      } catch (error) {
        if (tried === TRIES || !isRetried(error)) throw error;
      }
      await sleep(Math.random() * 5 * 2 ** tried);
    }
  }

  async #client() {
    let client;
    try {
      client = await this.#connect();
    } catch (error) {
      throw failed(error);
    }
    if (typeof client?.query !== "function") throw new StoreFailed(`the pool gave ${shown(client)}, and not a client of pg`);
    return client;
  }

  async #once(work) {
    const client = await this.#client(), ignored = () => {};
    const run = async (text, ...values) => {
      try {
        return await client.query(text, values);
      } catch (error) {
        throw failed(error);
      }
    };
    let isSound = false;
    client.on?.("error", ignored);
    try {
      await run("begin isolation level read committed");
      try {
        const told = await work(run);
        await run("commit");
        isSound = true;
        return told;
      } catch (error) {
        isSound = await run("rollback").then(() => true, () => false);
        throw error;
      }
    } finally {
      client.removeListener?.("error", ignored);
      await givenBack(client, isSound);
    }
  }

  // Calls one of the site's hooks. If it passed over an error of the database, the transaction has failed, and its commit would do nothing.
  async #tell(name, run, told) {
    if (this.#hooks[name] === null) return;
    await this.#hooks[name](queryOf(run), told);
    await run("select 1");
  }

  // The transaction of a call, once the tables are there and of this version.
  async #call(work) {
    this.#prepared ??= this.prepare();
    try {
      await this.#prepared;
    } catch (error) {
      this.#prepared = null;
      throw error;
    }
    return this.#transaction(work);
  }

  async within(work) {
    return this.#call((run) => work(queryOf(run)));
  }

  async prepare() {
    await this.#transaction(async (run) => {
      await run("select pg_advisory_xact_lock(hashtext('garvoeng'))");
      const { rows } = await run("select to_regclass('garvoeng_version') is not null as is_there");
      if (!rows[0].is_there) for (const statement of TABLES) await run(statement);
      const { rows: [row] } = await run("select version from garvoeng_version");
      if (row?.version !== VERSION) throw new StoreFailed(`the tables are of version ${row?.version}, and not of ${VERSION}`);
    });
  }

  async #begun(run, { options, session }, more = {}) {
    return { options, session: await stored(queryOf(run), { ...session.toJSON(), ...more }, this.#lifetime) };
  }

  #listed(rows) {
    return soundOf(rows, credentialOf, this.#logger);
  }

  // The credentials of an account that may sign in.
  async #ofAccount(run, user) {
    const { rows } = await run(`select ${COLUMNS} from garvoeng_credential where user_handle = $1 and retired = 0 order by created_at, id`, checkUser(user));
    return this.#listed(rows);
  }

  // Ends the open registrations of an account, or all its sessions. Sessions go before credentials, in the order in which a sign-in locks
  // them.
  async #endSessions(run, user, isOfAll = false) {
    const named = toText(user), forms = [`"user":"${named}"`, `"user": "${named}"`];
    await run("delete from garvoeng_session where (strpos(data, $1) > 0 or strpos(data, $2) > 0) and ($3 or strpos(data, '\"algorithms\":') > 0)", ...forms, isOfAll);
  }

  // The account of a credential; null if there is none, or it is not the named account.
  async #accountOf(run, id, user) {
    const { rows: [row] } = await run("select user_handle from garvoeng_credential where id = $1 and ($2::bytea is null or user_handle = $2)", id, user);
    return row?.user_handle ?? null;
  }

  // The open session with this id, whose row is deleted when the transaction commits; null if there is none of this kind, if it is bound to
  // a sign-in other than this one, or if it has ended.
  async #taken(run, session, kind, member, signIn = null) {
    if (session === null) return null;
    const { rows } = await run("delete from garvoeng_session where id = $1 and expires_at > $2 returning data", session, now());
    const kept = rows.length === 0 ? {} : membersIn(rows[0].data);
    if (rows.length === 0 || KINDS.some((one) => one !== member && Object.hasOwn(kept, one)) || (kept.sign_in ?? null) !== signIn) return null;
    try {
      const begun = ofSession(session, () => openIn(kind, kept));
      return (await isSignedIn(queryOf(run), begun.user, signIn)) ? begun : null;
    } catch (error) {
      if (error instanceof SessionDamaged) logTo(this.#logger, error);
      throw error;
    }
  }

  async registerBegin(user, userName, options) {
    const { exclude, signIn = null, ...how } = registrationOptionsIn(options, ["signIn"]), number = checkSession(signIn);
    return this.#call(async (run) => {
      if (!(await isSignedIn(queryOf(run), checkUser(user), number))) throw new BadInput("signIn is the number of no open sign-in of this user");
      const listed = exclude ?? fitting(await this.#ofAccount(run, user));
      return this.#begun(run, this.#server.registerBegin(user, userName, { ...how, exclude: listed }), number === null ? {} : { sign_in: number });
    });
  }

  async registerComplete(session, response, how) {
    const id = numberOf(session), { signIn = null } = optionsIn(how, "registerComplete", ["signIn"]), number = checkSession(signIn);
    return this.#call(async (run) => {
      const begun = await this.#taken(run, id, RegistrationSession, "algorithms", number);
      const isRegistered = async (asked) => (await run("select 1 from garvoeng_credential where id = $1", asked)).rowCount > 0;
      const made = await this.#server.registerComplete(begun, response, { isRegistered }), { credential } = made;
      const written = await run(
        "insert into garvoeng_credential values ($1, $2, $3, $4, $5, $6, $7, $8, $9, $10, null) on conflict (id) do nothing",
        credential.id, credential.user, coseKeyOf(credential), credential.signCount, flagOf(credential.eligible), 0, flagOf(made.backedUp),
        credential.transports.join(","), made.aaguid, now());
      if (written.rowCount !== 1) throw new Refused(true, 15, "the credential was registered meanwhile");
      await this.#tell("onRegistered", run, made);
      return made;
    });
  }

  async authenticateBegin(options) {
    const { user = null, allow, ...how } = signInOptionsIn(options);
    return this.#call(async (run) => {
      const own = allow === undefined && user !== null ? await this.#ofAccount(run, user) : [];
      return this.#begun(run, this.#server.authenticateBegin({ ...how, user, allow: allow ?? allowed(own) }));
    });
  }

  async authenticateComplete(session, response) {
    const id = numberOf(session);
    return this.#call(async (run) => {
      const begun = await this.#taken(run, id, SignInSession, "allow");
      // Of two sign-ins with one credential, the second is verified against what the first left.
      const find = async (asked) => {
        const { rows } = await run(`select ${COLUMNS} from garvoeng_credential where id = $1 for update`, asked);
        return rows.length === 0 ? null : credentialOf(rows[0]);
      };
      const signedIn = await this.#server.authenticateComplete(begun, response, { credential: find }), { credential, before, backedUp } = signedIn;
      const written = await run(
        `update garvoeng_credential set sign_count = $1, backup_eligible = $2, backed_up = $3, used_at = $4
         where id = $5 and sign_count = $6 and retired = 0`,
        credential.signCount, flagOf(credential.eligible), flagOf(backedUp), now(), credential.id, before.signCount);
      if (written.rowCount !== 1) throw new Refused(false, 15, "another sign-in of this credential was accepted meanwhile");
      const told = signedIn.stored();
      await this.#tell("onSignedIn", run, told);
      return told;
    });
  }

  // Changes the credential with an id, of a certain account if one is named. Returns whether there was something to change.
  async #changed(id, user, statement, more = async () => {}) {
    const asked = [checkId(id), user === null ? null : checkUser(user)];
    return this.#call(async (run) => {
      const account = await this.#accountOf(run, ...asked);
      if (account === null) return false;
      await this.#endSessions(run, account);
      await more(run, account);
      return (await run(statement, asked[0], account)).rowCount === 1;
    });
  }

  async retire(id, user = null) {
    return this.#changed(id, user, "update garvoeng_credential set retired = 1 where id = $1 and user_handle = $2 and retired = 0");
  }

  async delete(id, user = null) {
    return this.#changed(id, user, "delete from garvoeng_credential where id = $1 and user_handle = $2", (run, account) => forgetName(queryOf(run), account, id));
  }

  // Changes all credentials of an account. Returns how many were changed.
  async #changedAll(user, isOfAll, statement) {
    const account = checkUser(user);
    return this.#call(async (run) => {
      await this.#endSessions(run, account, isOfAll);
      const { rowCount } = await run(statement, account);
      if (isOfAll) await this.#tell("onErased", run, account.slice());
      return rowCount;
    });
  }

  async retireAll(user) {
    return this.#changedAll(user, false, "update garvoeng_credential set retired = 1 where user_handle = $1 and retired = 0");
  }

  async erase(user) {
    return this.#changedAll(user, true, "delete from garvoeng_credential where user_handle = $1");
  }

  async abandon(session) {
    const id = numberOf(session);
    return id !== null && (await this.#call((run) => run("delete from garvoeng_session where id = $1 and expires_at > $2", id, now()))).rowCount === 1;
  }

  async rows(user = null) {
    const where = user === null ? "" : "where user_handle = $1", values = user === null ? [] : [checkUser(user)];
    const { rows } = await this.#call((run) => run(`select ${COLUMNS} from garvoeng_credential ${where} order by created_at, id`, ...values));
    return this.#listed(rows);
  }
}
