// What the inspector is made of, and its programs run with, in Node: the library over the module of a file, and the steps.
import { readFile } from "node:fs/promises";
import { libraryOf } from "./library.mjs";

const here = (name) => new URL(name, import.meta.url);

/** The module that is handed out. */
export const MODULE = here("../dist/portable/passkey.wasm");

export async function libraryIn(file = MODULE) {
  return libraryOf(new WebAssembly.Module(await readFile(file)));
}

/** The steps of both kinds in the order in which the library tests them, with what each asks, as ./dev pages writes them. */
export async function stepsInPages() {
  return JSON.parse(await readFile(here("../python/garvoeng/steps.json"), "utf8"));
}
