// Visitors of sites by `passkeys`, over fetch alone or by a listener of node:http, each with the cookies of a browser.
import assert from "node:assert/strict";
import { once } from "node:events";
import { mkdtempSync, rmSync } from "node:fs";
import { createServer } from "node:http";
import { tmpdir } from "node:os";
import { join } from "node:path";
import { after } from "node:test";
import { KeepingServer, MemoryStore, Server, StoredServer, fromText } from "garvoeng";
import * as byHttp from "garvoeng/http";
import { passkeys } from "garvoeng/site";
import { Device, changed } from "./device.mjs";

export const ORIGIN = "http://localhost", folder = mkdtempSync(join(tmpdir(), "visits-")), logged = [];
after(() => rmSync(folder, { recursive: true }));
let files = 0;

export const stored = (how = {}, origins = [ORIGIN]) =>
  new StoredServer(process.env.PROGRAM, join(folder, `${++files}.db`), "localhost", origins, { logger: () => {}, ...how });
export const memory = (origins = [ORIGIN], how = {}) => new KeepingServer(new Server("localhost", origins, how), new MemoryStore());
export const own = (id, origin = ORIGIN) => new Device(undefined, { id: Buffer.from(id), rpId: "localhost", origin });
export const flipped = (response) => changed(response, "signature", (bytes) => ((bytes[bytes.length - 1] ^= 1), bytes));

/** Asks a site: `send(path, { method, headers, body })` is its answer. The cookies that are set stand in `jar`. */
export function visitor(send, jar = {}) {
  const ask = async (path, body, { headers = {}, raw = body === undefined ? undefined : JSON.stringify(body), type = "application/json" } = {}) => {
    const cookie = Object.entries(jar).map(([name, value]) => `${name}=${value}`).join("; "), of = raw === undefined || type === null ? {} : { "Content-Type": type };
    const answer = await send(path, { method: raw === undefined ? "GET" : "POST", body: raw, headers: { ...of, ...(cookie === "" ? {} : { cookie }), ...headers } });
    const text = await answer.text(), cookies = answer.headers.getSetCookie();
    for (const [, name, value] of cookies.map((one) => /^([^=]+)=([^;]*)/.exec(one))) value === "" ? delete jar[name] : (jar[name] = value);
    return { status: answer.status, told: /^[{[]/.test(text) ? JSON.parse(text) : text, cookies, headers: answer.headers };
  };
  return Object.assign(ask, { jar, copied: () => visitor(send, { ...jar }) });
}

/** A site over fetch, without a listener; `address` is the header `x-address`. */
export function sited(server, how = {}) {
  const site = passkeys(server, { logger: (told) => logged.push(told), ...how }), asked = (path, more) => new Request(`https://localhost/passkeys/${path}`, more);
  const send = async (path, more) => {
    const request = asked(path, more);
    return site(request, { address: request.headers.get("x-address") });
  };
  const requestOf = ({ jar }) => asked("", { headers: { cookie: Object.entries(jar).map(([name, value]) => `${name}=${value}`).join("; ") } });
  return { site, server, visitor: (jar) => visitor(send, jar), who: (one) => site.visitor(requestOf(one)), requestOf };
}

/** A site by a listener, which `make` makes of what `passkeys` gives. */
export async function serving(context, server, make = (site) => createServer(site), how = {}, kind = byHttp) {
  const site = kind.passkeys(server, { logger: (told) => logged.push(told), ...how }), listening = (await make(site)).listen(0, "localhost");
  await once(listening, "listening");
  context.after(async () => {
    listening.closeAllConnections();
    listening.close();
    await server.close?.().catch(() => {});
  });
  const { port } = listening.address(), origin = `http://localhost:${port}`;
  const send = (path, more) => fetch(`${origin}/passkeys/${path}`, { ...more, signal: AbortSignal.timeout(60_000) });
  return { site, server, port, origin, visitor: (jar) => visitor(send, jar) };
}

export async function registered(ask, device, name = "ada", how = {}) {
  const { status, told, ...rest } = await ask("register/begin", { name }, how);
  if (status !== 200) return { status, told, ...rest };
  device.user = fromText(told.user.id);
  return ask("register/finish", device.register(told), how);
}

export async function signedIn(ask, device, change = (response) => response, how = {}) {
  const begun = await ask("sign-in/begin", {}, how);
  assert.equal(begun.status, 200, JSON.stringify(begun.told));
  return ask("sign-in/finish", change(device.signIn(begun.told, { user: device.user })), how);
}

/** The clock of this process is so many seconds ahead, until the test ends. */
export function later(context, seconds) {
  const { now } = later;
  context.after(() => (Date.now = now));
  Date.now = () => now() + 1_000 * seconds;
}
later.now = Date.now;
