// The same of the servers that store.
import { BadInput, Credential, KeepingServer, KeptCredential, MemoryStore, PasskeyServer, Refused, RowDamaged, Server, SessionDamaged, SignedIn, Store, StoreFailed, StoredServer } from "garvoeng";
import { SqlClient, SqlPool, SqlQuery, SqlServer } from "garvoeng/sql";

const how = { rpName: "A site", profile: "strict" as const };
const stored: StoredServer = new StoredServer("passkey-site", "site.db", "example.com", ["https://example.com"], { ...how, log: "all", lifetime: 300 });
declare const pool: SqlPool;
const sql: SqlServer = new SqlServer(new Server("example.com", ["https://example.com"], how), pool, { lifetime: 60 });

export async function visits(user: Uint8Array, page: (options: object) => Promise<unknown>): Promise<Credential[]> {
  const begun = await stored.registerBegin(user, "name", { residentKey: "preferred", exclude: await stored.rows(user) });
  const made = await stored.registerComplete(begun.session, await page(begun.options));
  const { options, session } = await sql.authenticateBegin({ allow: [made.credential], userVerification: "required" });
  const told: SignedIn = await sql.authenticateComplete(session, await page(options));
  const { id, user: account } = told.credential;
  await Promise.all([stored.backup("copy.db"), ...[stored, sql, kept].map((one) => ends(one, id, account, session))]);
  const counted: number | undefined = (await stored.status()).sign_ins_refused["W14"];
  if (counted === 0) throw new Error("0 is left out");
  await stored.close();
  return sql.rows(account);
}

// A site that knows no storage.
async function ends(server: PasskeyServer, id: Uint8Array, account: Uint8Array, session: string | null): Promise<[boolean, number, readonly KeptCredential[]]> {
  const did = [await server.retire(id, account), await server.delete(id), await server.abandon(session)].every((one) => one);
  return [did, await server.retireAll(account) + await server.erase(account), await server.rows()];
}

// A storage of the site's own, over another one.
class Counted implements Store {
  readonly inner = new MemoryStore();
  begins = 0;
  readonly session = this.inner.session.bind(this.inner);
  readonly register = this.inner.register.bind(this.inner);
  readonly signIn = this.inner.signIn.bind(this.inner);
  readonly abandon = this.inner.abandon.bind(this.inner);
  readonly row = async (id: Uint8Array): Promise<KeptCredential | null> => this.inner.row(id);
  readonly rows = async (user: Uint8Array | null): Promise<KeptCredential[]> => this.inner.rows(user);
  readonly retire = this.inner.retire.bind(this.inner);
  readonly retireAll = this.inner.retireAll.bind(this.inner);
  readonly delete = this.inner.delete.bind(this.inner);
  readonly erase = this.inner.erase.bind(this.inner);
  begin(session: Parameters<Store["begin"]>[0]): void {
    this.begins += session.kind === "registration" ? 1 : 0;
    this.inner.begin(session);
  }
}
const kept: KeepingServer = new KeepingServer(new Server("example.com", ["https://example.com"]), new Counted(), { lifetime: 60 });
// @ts-expect-error: a store has all of its calls
new KeepingServer(new Server("example.com", ["https://example.com"]), { begin: () => {} });

export function status(error: unknown): number {
  if (error instanceof Refused || error instanceof BadInput) return 400;
  if (error instanceof SessionDamaged) return error.session.length;
  return error instanceof StoreFailed ? 503 : error instanceof RowDamaged ? error.id.length : 500;
}

// @ts-expect-error: a session of the program is a text
stored.abandon(7);
// @ts-expect-error: and one of PostgreSQL
sql.abandon(7);
// @ts-expect-error: an id is bytes
sql.retire("AA");

// Rows of the site's own, in the transaction; and a client for each call.
declare const client: SqlClient;
new SqlServer(new Server("example.com", ["https://example.com"]), () => client, {
  onRegistered: async (query, { credential }) => void (await query("insert into own values ($1)", [credential.user])),
  onSignedIn: (query: SqlQuery, told: SignedIn) => query("select 1", [told.credential.signCount]), onErased: (_, user) => user.length,
});
// @ts-expect-error: a hook is a function
new SqlServer(new Server("example.com", ["https://example.com"]), pool, { onRegistered: 7 });
