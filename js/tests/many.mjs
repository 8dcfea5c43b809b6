// The memory of a process, and of its module, over many sign-ins without the mathematics. It is a process of its own,
// since node:test keeps a record of promises, which grows.
import assert from "node:assert/strict";
import { readFileSync } from "node:fs";
import { Device } from "./device.mjs";

const own = (name) => import(new URL(`../node_modules/garvoeng/${name}`, import.meta.url));
const { Module } = await own("module.js"), { serverOver } = await own("server.js");
const file = readFileSync(new URL("../node_modules/garvoeng/passkey.wasm", import.meta.url));
const module = new Module(new WebAssembly.Module(file)), first = module.bytes().length, times = Number(process.argv[2]), sizes = [];
const server = new (serverOver(() => module, (size) => new Uint8Array(size), () => true))("example.com", ["https://example.com"]);
const device = new Device(), user = Buffer.from("account 7"), begun = server.registerBegin(user, "name");
const { credential } = await server.registerComplete(begun.session, device.register(begun.options), { isRegistered: () => false });
const { options, session } = server.authenticateBegin({ user }), response = device.signIn(options);
for (let count = 0; count < times; count++) {
  const told = await server.authenticateComplete(session, response, { credential: () => credential });
  assert.equal(told.credential.signCount, 1);
  if (count % (times / 10) === times / 10 - 1) {
    globalThis.gc();
    sizes.push(process.memoryUsage().rss / 1e6);
  }
}
assert.equal(module.bytes().length, first);
assert.ok(sizes.at(-1) < sizes[1] * 1.3 + 20, `${sizes}`);
console.log(sizes.map((size) => size.toFixed(0)).join(" "));
