// The table of responses by each form of the package: malformed ones (MALFORMED), hostile ones (HOSTILE), and what browsers made
// (RECORDED).
import assert from "node:assert/strict";
import { readFileSync } from "node:fs";
import { createRequire } from "node:module";
import { webcrypto } from "node:crypto";
import { test } from "node:test";
import * as node from "garvoeng";
import * as web from "garvoeng/web";
import { hostile, malformed, recorded } from "./table.mjs";

globalThis.crypto ??= webcrypto; // which Node 18 does not have by itself
await web.load(readFileSync(createRequire(import.meta.url).resolve("garvoeng/passkey.wasm")));
const text = (file) => readFileSync(file, "utf8"), { MALFORMED, HOSTILE, RECORDED } = process.env;

for (const [name, form] of Object.entries({ node, web })) {
  test(`${name}: malformed responses`, async () => assert.deepEqual(await malformed(form, text(MALFORMED)), { tried: 2103, wrong: [] }));
  test(`${name}: what browsers made`, async () => assert.deepEqual(await recorded(form, RECORDED.split(":").map(text)), { tried: 192, wrong: [] }));
  test(`${name}: hostile values`, async () => {
    const { tried, wrong } = await hostile(form, text(HOSTILE));
    assert.deepEqual(wrong, []);
    assert.ok(tried >= 2_000, `${tried}`);
  });
}
