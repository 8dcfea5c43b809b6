// Makes the inspector, one file of HTML: node inspector/make.mjs MODULE FILE, of which MODULE is passkey.wasm.
import { createHash } from "node:crypto";
import { readFileSync, writeFileSync } from "node:fs";
import { posix } from "node:path";
import { gzipSync } from "node:zlib";
import { inCommonJs } from "../js/common_js.mjs";
import { explain } from "./explain.mjs";
import { libraryOf } from "./library.mjs";
import { stepsInPages } from "./tools.mjs";

const TOP = new URL("../", import.meta.url);
const ENTRY = "inspector/page.mjs";
const MOST_BYTES = 400_000;

const textOf = (name) => readFileSync(new URL(name, TOP), "utf8");

// The modules that a module imports, by their names below the repository, each before those that import it.
function modulesOf(name, found = new Map()) {
  const text = textOf(name), placed = (file) => posix.join(posix.dirname(name), file);
  for (const [, file] of text.matchAll(/^(?:import|export) [^;]*?from "(\..*)";$/gm)) if (!found.has(placed(file))) modulesOf(placed(file), found);
  return found.set(name, inCommonJs(text, placed));
}

// The modules in one script, and what begins it.
function script(data) {
  const modules = [...modulesOf(ENTRY)].map(([name, text]) => `modules[${JSON.stringify(name)}] = (exports, require) => {\n${text}};\n`);
  return `"use strict";
const modules = {}, made = {};
function required(name) {
  if (!(name in made)) modules[name]((made[name] = {}), required);
  return made[name];
}
${modules.join("")}required(${JSON.stringify(ENTRY)}).begin(${JSON.stringify(data).replace(/</g, "\\u003c")});
`;
}

// A registration and a sign-in that a browser made, as cases, both of which the module accepts.
async function examples(library, steps) {
  const { origin, visits } = JSON.parse(textOf("python/tests/recorded.json")), [{ registration, sign_ins: [signIn] }] = visits;
  const party = { rp_id: "localhost", origins: [origin], profile: "level3" };
  const first = { ...party, ...registration }, { credential } = await explain(first, library, steps), second = { ...party, ...signIn, credential };
  if ((await explain(second, library, steps)).verdict !== "accepted") throw new Error("an example is not accepted: the module is of other sources");
  return { registration: first, "sign-in": second };
}

const hash = (text) => `'sha256-${createHash("sha256").update(text).digest("base64")}'`;

async function page(module) {
  const library = libraryOf(await WebAssembly.compile(module)), steps = await stepsInPages();
  const data = { module: gzipSync(module, { level: 9 }).toString("base64"), steps, examples: await examples(library, steps) };
  const parts = { style: textOf("inspector/page.css"), script: script(data), version: textOf("VERSION").trim() };
  if (/<\/(script|style)|<!--/i.test(parts.script + parts.style)) throw new Error("a script or a style would end too early");
  const policy = `default-src 'none'; script-src ${hash(parts.script)} 'wasm-unsafe-eval'; style-src ${hash(parts.style)}; base-uri 'none'; form-action 'none'; ` +
    "require-trusted-types-for 'script'; trusted-types 'none'";
  return textOf("inspector/page.html").replace(/\{\{(\w+)\}\}/g, (_, name) => ({ ...parts, policy })[name]);
}

const [module, file] = process.argv.slice(2), made = await page(readFileSync(module));
if (Buffer.byteLength(made) > MOST_BYTES) throw new Error(`the page has more than ${MOST_BYTES} bytes`);
writeFileSync(file, made);
