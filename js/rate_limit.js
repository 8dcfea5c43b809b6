// Limits how often a visitor may ask, by the address of the request.
import { BadInput } from "./errors.js";
import { checkFunction, optionsIn, shown } from "./limits.js";

// An IPv6 address as its eight groups of hexadecimal digits; null if it is not one.
function groupsOf(text) {
  if (!/^[0-9a-f:.]*:[0-9a-f:.]*$/i.test(text)) return null;
  try {
    const [front, back] = new URL(`http://[${text}]`).hostname.slice(1, -1).split("::").map((half) => half.split(":").filter((group) => group !== ""));
    return back === undefined ? front : [...front, ...Array(8 - front.length - back.length).fill("0"), ...back];
  } catch {
    return null;
  }
}

// An IPv4 address in groups of IPv6; null if they are of another.
function mappedIn(groups) {
  if (groups.slice(0, 5).some((group) => group !== "0") || groups[5] !== "ffff") return null;
  return groups.slice(6).flatMap((group) => [parseInt(group, 16) >> 8, parseInt(group, 16) & 255]).join(".");
}

// What an address counts as; undefined if it is not limited. A host's own name for a visitor counts as it is.
function counted(address) {
  if (typeof address !== "string" || address === "") return undefined;
  const [plain] = address.split("%"), groups = groupsOf(plain), one = groups === null ? plain : mappedIn(groups);
  if (one !== null) return /^127(?:\.\d{1,3}){3}$/.test(one) ? undefined : groups === null ? address : one;
  return groups.join(":") === "0:0:0:0:0:0:0:1" ? undefined : groups.slice(0, 4).join(":");
}

/** A token bucket for each address. */
export class RateLimit {
  #had = new Map();
  #clock;

  constructor(options) {
    const { rate = 5, burst = 50, addresses = 10_000, clock = () => performance.now() } = optionsIn(options, "RateLimit", ["rate", "burst", "addresses", "clock"]);
    for (const [name, value] of Object.entries({ rate, burst, addresses }))
      if (typeof value !== "number" || !(value > 0 && value < Infinity)) throw new BadInput(`${name} is ${shown(value)}: write a number above 0`);
    if (burst < 1) throw new BadInput(`burst is ${shown(burst)}: write 1 or more, since each request takes one`);
    Object.assign(this, { rate, burst, addresses });
    this.#clock = checkFunction(clock, "clock", "() => performance.now()");
  }

  /** Counts a request. Returns how many seconds the address has to wait, 0 if it may ask now. */
  wait(address) {
    const name = counted(address);
    if (name === undefined) return 0;
    const now = this.#clock(), { had, then } = this.#had.get(name) ?? { had: this.burst, then: now };
    const tokens = Math.min(this.burst, had + (Math.max(0, now - then) / 1_000) * this.rate), isFree = tokens >= 1;
    // Put back at the end: the first is the one that asked longest ago.
    this.#had.delete(name);
    this.#had.set(name, { had: isFree ? tokens - 1 : tokens, then: now });
    if (this.#had.size > this.addresses) this.#had.delete(this.#had.keys().next().value);
    return isFree ? 0 : Math.ceil((1 - tokens) / this.rate);
  }
}
