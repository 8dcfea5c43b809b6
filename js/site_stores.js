// What the core stores beside the credentials: the sign-ins, the names of passkeys, and a secret. A site of one process has them in its
// memory, and a `StoredServer` in the memory of the process that runs the program.
import { fromText, toText } from "./forms.js";
import { SIGNED_IN_FOR, checkWhole } from "./limits.js";

/** The most sign-ins that are kept; beyond it the oldest one ends. */
const MOST = 100_000;

const hexOf = (bytes) => Array.from(bytes, (byte) => byte.toString(16).padStart(2, "0")).join("");

/** What is kept, as JSON values. */
export class Visitors {
  #random;
  #most;
  #secret;
  #signIns = new Map();
  #names = new Map();

  constructor(random, most = MOST) {
    this.#random = random;
    this.#most = checkWhole(most, "the most sign-ins", 1);
    this.#secret = toText(random(32));
  }

  secret() {
    return this.#secret;
  }

  keepSignIn(user, credential, lifetime) {
    const number = hexOf(this.#random(16)), now = Date.now() / 1000;
    this.#signIns.set(number, { kept: { number, user, credential, at: Math.floor(now) }, endsAt: now + lifetime });
    if (this.#signIns.size > this.#most) this.#signIns.delete(this.#signIns.keys().next().value);
    return number;
  }

  signedIn(number) {
    const found = this.#signIns.get(number);
    if (found === undefined || found.endsAt > Date.now() / 1000) return found?.kept ?? null;
    this.#signIns.delete(number);
    return null;
  }

  abandon(number) {
    return this.#signIns.delete(number);
  }

  names(user) {
    return [...(this.#names.get(user) ?? [])];
  }

  rename(user, credential, name) {
    const named = new Map(this.#names.get(user));
    named.delete(credential);
    if (name !== "") named.set(credential, name);
    if (named.size > 0) this.#names.set(user, named);
    else this.#names.delete(user);
  }

  erase(user) {
    this.#names.delete(user);
    for (const [number, { kept }] of this.#signIns) if (kept.user === user) this.#signIns.delete(number);
  }
}

const textOrNull = (value) => (value === null ? null : toText(value));

/** A `WebStore` that passes its calls by `ask(call, ..words)` to `Visitors`, wherever they are. */
export class AskedWebStore {
  looksUp = false;
  #ask;

  constructor(ask) {
    this.#ask = ask;
  }

  async secret() {
    return fromText(await this.#ask("secret"), "secret");
  }

  async keepSignIn(user, credential = null, lifetime = SIGNED_IN_FOR) {
    return this.#ask("keepSignIn", toText(user), textOrNull(credential), lifetime);
  }

  async signedIn(number) {
    const found = await this.#ask("signedIn", number);
    if (found === null) return null;
    return { number: found.number, user: fromText(found.user), credential: found.credential === null ? null : fromText(found.credential), at: found.at };
  }

  async abandon(number) {
    return this.#ask("abandon", number);
  }

  async names(user) {
    return new Map(await this.#ask("names", toText(user)));
  }

  async rename(user, credential, name) {
    await this.#ask("rename", toText(user), toText(credential), name);
  }

  async erase(user) {
    await this.#ask("erase", toText(user));
  }
}

/** The class `MemoryWebStore`, with random bytes from Node or WebCrypto. */
export function memoryOver(random) {
  return class MemoryWebStore extends AskedWebStore {
    constructor(most) {
      const visitors = new Visitors(random, most);
      super((call, ...words) => visitors[call](...words));
    }
  };
}

export const CALLS = ["secret", "keepSignIn", "signedIn", "abandon", "names", "rename", "erase"];
