// `garvoeng/inline`, and what the modules for platforms without Node import.
import assert from "node:assert/strict";
import { readFileSync } from "node:fs";
import { test } from "node:test";
import { Device } from "./device.mjs";
import { own, registered, signedIn, visitor } from "./visits.mjs";

test("garvoeng/inline has all of garvoeng/web but `load`, reads no file and imports nothing of Node", async () => {
  const inline = await import("garvoeng/inline"), web = await import("garvoeng/web"), folder = new URL("../node_modules/garvoeng/", import.meta.url), seen = new Set();
  assert.deepEqual([...Object.keys(inline), "load"].sort(), Object.keys(web).sort());
  const look = (name) => {
    if (seen.has(name)) return;
    seen.add(name);
    for (const [, file] of readFileSync(new URL(name, folder), "utf8").matchAll(/^(?:import|export) [^;]*?from "(.*)";$/gm)) {
      assert.match(file, /^\.\/\w+\.js$/, `${name} imports ${file}`);
      look(file.slice(2));
    }
  };
  look("inline.js");
  look("site_web.js");
  assert.ok(seen.size > 20);
  const device = new Device(), server = new inline.Server("example.com", ["https://example.com"]), begun = server.registerBegin(Buffer.from("account 7"), "name");
  const { credential } = await server.registerComplete(begun.session, device.register(begun.options), { isRegistered: () => false });
  const { options, session } = server.authenticateBegin();
  assert.equal((await server.authenticateComplete(session, device.signIn(options, { user: credential.user }), { credential: () => credential })).credential.signCount, 1);
});

test("a site where there is no Node: its core over the module as text, by WebCrypto", async () => {
  const { KeepingServer, MemoryStore, Server, toText } = await import("garvoeng/inline"), { MemoryWebStore, RateLimit, passkeys } = await import("../node_modules/garvoeng/site_web.js");
  const server = new KeepingServer(new Server("localhost", ["http://localhost"]), new MemoryStore()), site = passkeys(server, { store: new MemoryWebStore(), rateLimit: new RateLimit(), logger: () => {} });
  const ask = visitor((path, more) => site(new Request(`https://localhost/passkeys/${path}`, more))), key = own("key");
  assert.deepEqual([(await registered(ask, key)).status, (await signedIn(ask, key)).told, (await ask("list")).told.length], [200, { user: toText(key.user) }, 1]);
  assert.deepEqual([(await ask("sign-out", {})).status, (await ask("list")).status], [200, 401]);
});
