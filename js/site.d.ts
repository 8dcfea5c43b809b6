// The requests of a site with passkeys, by fetch's Request and Response.
import { Awaitable, KeptSignIn, PasskeyServer, Refused, Registered, RegistrationOptions, SignInOptions, SignedIn, WebStore } from "./index.js";

export { KeptSignIn, WebStore } from "./index.js";

/** A function of the accounts throws it to turn a visitor away: the answer has its text and its status, 400 to 499. */
export class Denied extends Error {
  constructor(text: string, status?: number);
  readonly code: "GARVOENG_DENIED";
  readonly text: string;
  readonly status: number;
}

/** A visitor who is signed in. */
export class Visitor {
  constructor(members: Pick<Visitor, "user"> & Partial<Pick<Visitor, "name" | "at" | "credential" | "number">>);
  /** The user handle of the account: 1 to 64 bytes. */
  readonly user: Uint8Array;
  /** The account's name, which the browser shows with a passkey; null if the page sends it. */
  readonly name: string | null;
  /** When the visitor signed in, in seconds since 1970; null if that is not known, which is never fresh. */
  readonly at: number | null;
  /** The id of the passkey that signed in; null if it was by other means. */
  readonly credential: Uint8Array | null;
  /** The number in the visitor's cookie, which only this visitor may have. */
  readonly number: string | null;
  /** Whether the visitor signed in at most this many seconds ago. If a sign-in is dated ahead of the clock, the difference counts. */
  isFresh(seconds: number): boolean;
}

/** The site's accounts. Each function is optional, takes the framework's own request first, and may return a promise. A result of another
 *  type than stated throws TypeError, and no result within 30 seconds `StoreFailed`. An exception other than `Denied` is thrown, and the
 *  visitor is not signed in by this request. */
export interface Accounts<Native = Request> {
  /** Returns who is signed in by the site's own means: a user handle, or one with the account's name and the time, or null. Without this
   *  function the core's own cookie decides. A passkey can be added only right after a sign-in, whose time must be in `at` or the core's
   *  cookie. A session of the site's own that `signedIn` began does not end with its passkey by itself: `credential` of the core's
   *  `visitor` is null then. */
  userOf?(request: Native): Awaitable<Uint8Array | { user: Uint8Array; name?: string | null; at?: number | null } | null | undefined>;
  /** Returns the only user handle whose passkeys may sign in now, or null for any: if a passkey is the second factor, that of the account
   *  whose password was given. */
  expected?(request: Native): Awaitable<Uint8Array | null | undefined>;
  /** Returns whether a registration may begin for the account with this handle, or for a new one if it is null. */
  mayRegister?(request: Native, name: string, user: Uint8Array | null): Awaitable<boolean>;
  /** Makes the account for a registered passkey, with its name and its user handle of 32 bytes. If it throws, the passkey is deleted again.
   *  If the site has `userOf` but not this function, nobody can make an account with a passkey. */
  create?(request: Native, name: string, user: Uint8Array): Awaitable<void>;
  /** A passkey was stored. */
  registered?(request: Native, registered: Registered): Awaitable<void>;
  /** A visitor has signed in, by a sign-in or by registering a new account: the place to begin a session of the site's own. The members of
   *  a returned object are added to the answer to the page. */
  signedIn?(request: Native, user: Uint8Array, accepted: SignedIn | Registered): Awaitable<Record<string, unknown> | null | void>;
  /** A visitor signs out: the place to end the site's own session. */
  signedOut?(request: Native): Awaitable<void>;
  /** A registration or a sign-in was refused. That is logged already; an exception from this function is logged too. */
  refused?(request: Native, error: Refused | Denied): Awaitable<void>;
}

/** A `WebStore` in the memory of this process, which ends with it: for a site of one process. */
export class MemoryWebStore implements WebStore {
  /** `most` is the greatest number of sign-ins, 100,000; beyond it the oldest ends. */
  constructor(most?: number);
  readonly looksUp: boolean;
  secret(): Promise<Uint8Array>;
  keepSignIn(user: Uint8Array, credential?: Uint8Array | null, lifetime?: number): Promise<string>;
  signedIn(number: string): Promise<KeptSignIn | null>;
  abandon(number: string): Promise<boolean>;
  names(user: Uint8Array): Promise<Map<string, string>>;
  rename(user: Uint8Array, credential: Uint8Array, name: string): Promise<void>;
  erase(user: Uint8Array): Promise<void>;
}

/** A token bucket for each address: `burst` requests at once, and `rate` a second from then on. An IPv6 address counts by its first 64
 *  bits, which belong to one visitor. This machine's own addresses, and requests without one, are not limited: they come from a proxy,
 *  which has limits of its own. */
export class RateLimit {
  /** `rate` is 5, `burst` 50, and at most 10,000 `addresses` are kept, in this process; `clock` returns milliseconds. */
  constructor(options?: { rate?: number; burst?: number; addresses?: number; clock?: () => number });
  readonly rate: number;
  readonly burst: number;
  readonly addresses: number;
  /** Counts a request. Returns how many seconds the address has to wait, 0 if it may ask now. */
  wait(address: string | null | undefined): number;
}

export interface PasskeysOptions<Native = Request> {
  accounts?: Accounts<Native> | null;
  /** Stores the sign-ins, and the names of passkeys: by default the tables of a `SqlServer`, for a `StoredServer` the memory of the process
   *  that runs the program, and for another server this process's. */
  store?: WebStore;
  /** Signs the cookie of an open registration: at least 32 characters or bytes, the same in all processes. By default it is the store's. */
  secret?: string | Uint8Array;
  /** The path of the acts: "/passkeys". */
  base?: string;
  /** Seconds after a sign-in during which its visitor may begin to add a passkey: 300. */
  fresh?: number;
  /** Seconds until a sign-in expires: 1,209,600, which is two weeks. */
  lifetime?: number;
  /** How often an address may post: by default a `RateLimit`, or an object that returns the whole seconds to wait; `false` for no limit. */
  rateLimit?: { wait(address: string | null | undefined): Awaitable<number> } | false;
  /** Origins of pages that may post, in addition to the server's. */
  trustedOrigins?: readonly string[];
  /** Passed to `registerBegin` and `authenticateBegin`. */
  registration?: Omit<RegistrationOptions, "exclude">;
  signIn?: Omit<SignInOptions, "user" | "allow">;
  /** The names of authenticators by their aaguid: `MODELS`. */
  models?: Readonly<Record<string, string>>;
  /** The text of an error in the visitor's language. */
  translate?: (text: string) => string;
  /** Milliseconds after which a missing body is refused, and a function of the accounts that has not answered has failed: 30,000. */
  timeout?: number;
  /** Receives a line for each refusal, and each error that is not the visitor's: `console.error`. */
  logger?: (told: unknown) => void;
}

/** The other calls for a site: each takes the framework's own request. They reject with what the storage throws, and the functions of the
 *  accounts. */
export interface Calls<Native> {
  /** The visitor who is signed in, or null: by a sign-in that has not ended, whose passkey is there and not retired. */
  visitor(request: Native): Promise<Visitor | null>;
  /** The visitor's user handle, or null. */
  signedIn(request: Native): Promise<Uint8Array | null>;
  /** Whether the visitor signed in at most this many seconds ago. Check it before a sensitive act; if it is false, the page begins a
   *  sign-in with `{ again: true }`. */
  fresh(request: Native, seconds: number): Promise<boolean>;
  /** Ends the visitor's sign-in and open ceremonies. Call it from the site's own sign-out. The old cookies sign nobody in any more. */
  end(request: Native): Promise<void>;
}

export interface Passkeys extends Calls<Request> {
  /** `address` is the visitor's, by which requests are counted; `native` is passed to the functions of the accounts in place of the
   *  request. */
  (request: Request, how?: { address?: string | null; native?: any }): Promise<Response>;
}

/** Answers the requests of pages. Each act except `list` is a POST of a JSON object of at most 131,072 bytes. `register/begin` (with
 *  `name`) and `sign-in/begin` answer options. `register/finish` and `sign-in/finish` take the browser's response and answer `id` and
 *  `user`. The others are `sign-out`; `list`, which answers `id`, `name`, `model`, `created`, `used`, `backed_up` and `retired` of each
 *  passkey; `rename`, which takes `id` and `name`; and `retire`, which takes `id`. `sign-in/begin` with `"again": true` is for a visitor
 *  who is signed in and has to sign in afresh. The empty path is a page, `passkeys.js` the script for the site's pages, and `browser.js`
 *  the one of `garvoeng/browser`.
 *
 *  Answers: 400 for invalid input, 401 if nobody is signed in or a fresher sign-in is needed, 403 for a refusal (`refusal` is its name),
 *  for a visitor who may not do this, and for a page of another site, 429 with Retry-After for an address that asks too often, 500 for a
 *  damaged row, and for a body that was read before and not passed on, 503 if the storage did not answer.
 *
 *  A sign-in ends after `lifetime`, by `sign-out`, and when its passkey is retired or deleted. A passkey can be added shortly after a
 *  sign-in, and only by the sign-in that began its registration. Cookies are HttpOnly and SameSite=Lax, and if an origin of the server is
 *  https also Secure, with `__Host-` before the name. Throws `TypeError` and `BadInput` for values that are out of their limits. */
export function passkeys(server: PasskeyServer, options?: PasskeysOptions): Passkeys;

/** The names that a list shows, by the aaguid as text: the authenticator's own claim. */
export const MODELS: Readonly<Record<string, string>>;
