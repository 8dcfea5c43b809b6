// Writes what the package carries and git does not: passkey.wasm, LICENSE and NOTICE as they stand in the repository, the module as text in
// wasm_text.js, what Python's package has too in site_files.js, and cjs/, the modules of Node in CommonJS. `npm install` and `npm pack` of
// this folder run it; the package itself does not have it.
import { copyFileSync, mkdirSync, readFileSync, rmSync, writeFileSync } from "node:fs";
import { inCommonJs } from "./common_js.mjs";

const here = (name) => new URL(name, import.meta.url);

// The name that a module of this package has in CommonJS.
function commonName(file) {
  return file.startsWith("./") ? file.replace(/\.js$/, ".cjs") : file;
}

// The types of Node's modules in one file, since one in CommonJS can't name one that is not.
function typesInCommonJs() {
  const [shared] = readFileSync(here("web.d.ts"), "utf8").split("\n/** Loads passkey.wasm"), own = readFileSync(here("index.d.ts"), "utf8");
  return shared + own.replace(/^(import|export) \{[^}]*\} from ".*";$/gm, "");
}

// The files that a site's pages load, by their paths, and the table of models.
function siteFiles() {
  const python = (name) => readFileSync(here(`../python/garvoeng/${name}`), "utf8"), script = "text/javascript";
  const files = {
    "": { type: "text/html", text: python("passkeys.html") }, "passkeys.js": { type: script, text: python("passkeys.js") },
    "page.js": { type: script, text: python("page.js") }, "browser.js": { type: script, text: readFileSync(here("browser.js"), "utf8") },
  };
  const models = JSON.parse(python("web/models.json"));
  return `// Written by prepare.mjs.\nexport const FILES = ${JSON.stringify(files)};\nexport const MODELS = Object.freeze(${JSON.stringify(models)});\n`;
}

const MODULES = ["errors", "extensions", "fastify", "forms", "http", "index", "keeping", "koa", "layout", "limits", "memory", "metrics", "module", "node_signatures", "options", "program", "rate_limit",
                 "records", "server", "shared", "site", "site_accounts", "site_acts", "site_core", "site_fetch", "site_files", "site_models", "site_node", "site_requests", "site_stores",
                 "simplewebauthn", "sql", "sql_visitors", "stored", "verdicts", "workers"];
writeFileSync(here("site_files.js"), siteFiles());
writeFileSync(here("wasm_text.js"), `// Written by prepare.mjs.\nexport const WASM = "${readFileSync(here("../dist/portable/passkey.wasm")).toString("base64")}";\n`);
rmSync(here("cjs"), { recursive: true, force: true });
mkdirSync(here("cjs"));
for (const name of MODULES) writeFileSync(here(`cjs/${name}.cjs`), inCommonJs(readFileSync(here(`${name}.js`), "utf8"), commonName));
writeFileSync(here("cjs/index.d.cts"), typesInCommonJs());
for (const name of ["sql", "site", "http", "koa", "fastify", "simplewebauthn", "extensions"])
  writeFileSync(here(`cjs/${name}.d.cts`), readFileSync(here(`${name}.d.ts`), "utf8").replace(/"\.\/(\w+)\.js"/g, '"./$1.cjs"'));
copyFileSync(here("../dist/portable/passkey.wasm"), here("passkey.wasm"));
copyFileSync(here("../LICENSE"), here("LICENSE"));
copyFileSync(here("../dist/NOTICE"), here("NOTICE"));
