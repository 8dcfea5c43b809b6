// The module of a page or a worker, once it is loaded.
import { Module } from "./module.js";

let loaded = null;

export function moduleOf() {
  if (loaded === null) throw new Error("await load() comes first");
  return loaded;
}

/** Takes the compiled module. */
export function take(compiled) {
  loaded = new Module(compiled);
}
