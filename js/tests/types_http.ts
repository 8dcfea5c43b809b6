// The same of the requests of pages, in what is asked of fetch and of each framework.
import { PasskeyServer, Server, StoredServer, WebStore } from "garvoeng";
import * as fastify from "garvoeng/fastify";
import { Passkeys, SiteRequest, SiteResponse, passkeys } from "garvoeng/http";
import * as koa from "garvoeng/koa";
import { Accounts, Denied, MODELS, MemoryWebStore, RateLimit, Visitor, passkeys as fetched } from "garvoeng/site";
import { SqlServer, SqlWebStore } from "garvoeng/sql";

const stored: PasskeyServer = new StoredServer("passkey-site", "site.db", "example.com", ["https://example.com"]);
const site: Passkeys = passkeys(stored, { secret: "a text of thirty-two characters or more", logger: (told: unknown) => void told });

export async function answers(request: SiteRequest, response: SiteResponse): Promise<number> {
  await site(request, response);
  await site(request, response, () => undefined);
  return (await site.fresh(request, 60)) ? (await site.signedIn(request))?.length ?? 0 : 0;
}

interface User {
  handle: Uint8Array;
  name: string;
}
declare const users: Map<string, User>;
const accounts: Accounts = {
  userOf: async (request) => {
    const user = users.get(request.headers.get("cookie") ?? "");
    return user === undefined ? null : { user: user.handle, name: user.name, at: 0 };
  },
  expected: () => null,
  mayRegister: (_, name) => name !== "nobody",
  create: (_, name, handle) => {
    if (users.has(name)) throw new Denied("the name is another account's", 409);
    users.set(name, { handle, name });
  },
  signedIn: (_, user, accepted) => ({ next: `/${accepted.credential.id.length}/${user.length}` }),
  refused: (_, error) => void error.text,
};
const answered = fetched(stored, {
  accounts, base: "/auth", fresh: 60, lifetime: 3600, rateLimit: new RateLimit({ rate: 1 }), trustedOrigins: ["https://shop.example"], registration: { userVerification: true },
  signIn: { timeout: 60_000 }, models: { ...MODELS }, translate: (text) => text, timeout: 1_000, store: new MemoryWebStore(),
});

export async function fetches(request: Request): Promise<Response> {
  const visitor: Visitor | null = await answered.visitor(request);
  if (visitor?.isFresh(60)) await answered.end(request);
  return answered(request, { address: "192.0.2.7", native: {} });
}

declare const sql: SqlServer;
const store: WebStore = new SqlWebStore(sql, { looksUp: true });
fetched(stored, { store });
export const [plugin, middleware] = [fastify.passkeys(stored, { accounts: { signedOut: (request) => request.session.destroy() } }), koa.passkeys(stored)];
export const within: Promise<number> = sql.within(async (query) => (await query("select 1")).rows.length);
sql.registerBegin(new Uint8Array(1), "name", { signIn: "0" }).then(({ options }) => options.authenticatorSelection.residentKey);

// @ts-expect-error: an account may register or not
fetched(stored, { accounts: { mayRegister: () => undefined } });
// @ts-expect-error: a function of the accounts has one of eight names
fetched(stored, { accounts: { mayregister: () => true } });
// @ts-expect-error: what is listed is the core's
fetched(stored, { signIn: { allow: [] } });
// @ts-expect-error: an option has its name
passkeys(stored, { signOuts: {} });
// @ts-expect-error: a server that keeps nothing knows no session of a cookie
passkeys(new Server("example.com", ["https://example.com"]));
