// The functions for a site's accounts.
import { marked } from "./errors.js";
import { MAX_USER, isBytes, memberOf, optionsIn, ownOf, shown } from "./limits.js";
import { isPlain } from "./site_requests.js";

/** A function of the accounts throws it to turn a visitor away: the answer has its text and its status. */
export class Denied extends Error {
  constructor(text, status = 403) {
    if (!Number.isInteger(status) || status < 400 || status > 499) throw new TypeError(`the status of Denied is ${shown(status)}, and no number from 400 to 499`);
    super(text);
    this.name = "Denied";
    this.code = "GARVOENG_DENIED";
    this.text = text;
    this.status = status;
  }
}
marked(Denied, "Denied");

/** A visitor who is signed in. */
export class Visitor {
  constructor(members) {
    const { user, name = null, at = null, credential = null, number = null } = optionsIn(members, "Visitor", ["user", "name", "at", "credential", "number"]);
    Object.assign(this, { user, name, at, credential });
    // A secret of this visitor is kept out of logs.
    Object.defineProperty(this, "number", { value: number });
    Object.freeze(this);
  }

  isFresh(seconds) {
    return this.at !== null && Math.abs(Date.now() / 1000 - this.at) <= seconds;
  }
}
marked(Visitor, "Visitor");

/** The functions that a site's accounts may have. */
export const FUNCTIONS = ["userOf", "expected", "mayRegister", "create", "registered", "signedIn", "signedOut", "refused"];

export const isHandle = (value) => isBytes(value) && value.length >= 1 && value.length <= MAX_USER;

/** The error if a function returned a value of another type. */
export const wrong = (name, said, wanted) => new TypeError(`${name} of the accounts answered ${shown(said)}, and not ${wanted}`);

/** The site's function of this name, or null. */
export function functionOf(accounts, name) {
  const found = accounts === null ? null : memberOf(accounts, name) ?? null;
  if (found !== null && typeof found !== "function") throw new TypeError(`${name} of the accounts is a function, and not ${shown(found)}`);
  return found === null ? null : (...words) => found.apply(accounts, words);
}

// The names of a value's members, its own or its class's.
function namesIn(value) {
  const names = [];
  for (let one = value; one !== null && Object.getPrototypeOf(one) !== null; one = Object.getPrototypeOf(one)) names.push(...Object.getOwnPropertyNames(one));
  return names.filter((name) => name !== "constructor");
}

/** The object with the site's functions, or null. One with other functions alone, such as a class or a slip, is refused, because everybody
 *  might register. */
export function checkAccounts(accounts) {
  if (accounts === null) return null;
  if (!["object", "function"].includes(typeof accounts) || Array.isArray(accounts)) throw new TypeError(`accounts is ${shown(accounts)}, and no object with functions`);
  const has = FUNCTIONS.map((name) => functionOf(accounts, name)).some((one) => one !== null), names = namesIn(accounts);
  if (!has && names.length > 0 && !names.some((name) => FUNCTIONS.includes(name)))
    throw new TypeError(`accounts has none of ${FUNCTIONS.join(", ")}${typeof accounts === "function" ? `: of a class write new ${accounts.name}()` : ""}`);
  return accounts;
}

/** Who is signed in, as the site says, or null. */
export function visitorIn(said) {
  if (said === undefined || said === null) return null;
  const told = isHandle(said) ? { user: said } : said instanceof Visitor || isPlain(said) ? said : {}, { user, name, at } = ownOf(told);
  if (!isHandle(user) || !["undefined", "string"].includes(typeof (name ?? undefined)) || !["undefined", "number"].includes(typeof (at ?? undefined)))
    throw wrong("userOf", said, "a user handle of 1 to 64 bytes, { user, name, at } or null");
  return new Visitor({ user: new Uint8Array(user), name: name ?? null, at: at ?? null });
}

function isJson(value) {
  try {
    return isPlain(value) && typeof JSON.stringify(value) === "string";
  } catch {
    return false;
  }
}

const ANSWERS = {
  expected: [(said) => said === null || isHandle(said), "a user handle of 1 to 64 bytes or null"],
  mayRegister: [(said) => typeof said === "boolean", "true or false"],
  signedIn: [(said) => said === null || isJson(said), "an object of JSON or null"],
};
const NOTHING = [(said) => said === null, "nothing"];

/** The result of a function, with null for nothing, if it is an answer. */
export function answerOf(name, said) {
  const [isAnswer, wanted] = Object.hasOwn(ANSWERS, name) ? ANSWERS[name] : NOTHING, told = said ?? null;
  if (!isAnswer(told)) throw wrong(name, said, wanted);
  return told;
}
