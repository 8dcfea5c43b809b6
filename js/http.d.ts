// The requests of a site with passkeys, for node:http and Express.
import { PasskeyServer } from "./index.js";
import { Calls, PasskeysOptions } from "./site.js";

export { RateLimit } from "./site.js";

/** What is used of a request, as in `node:http` and Express. */
export interface SiteRequest {
  readonly method?: string;
  readonly url?: string;
  readonly headers: { readonly [name: string]: string | string[] | undefined };
  /** The visitor's address as Express determines it, by its `trust proxy`. */
  readonly ip?: string;
  readonly socket?: { readonly remoteAddress?: string };
  on(name: string, listener: (...told: any[]) => void): unknown;
  /** What the host has already read of the body, if anything: an object, its text or its bytes. */
  readonly body?: unknown;
  readonly rawBody?: unknown;
}

/** What is used of a response. */
export interface SiteResponse {
  readonly headersSent: boolean;
  statusCode: number;
  setHeader(name: string, value: string): unknown;
  appendHeader(name: string, value: string): unknown;
  end(body: any): unknown;
}

/** Answers the requests below `base`. All others go on to `next`, as do errors from a function of the accounts; without `next` these are
 *  answered with 404 and 500. */
export interface Passkeys extends Calls<Pick<SiteRequest, "headers">> {
  (request: SiteRequest, response: SiteResponse, next?: (error?: unknown) => void): Promise<void>;
}

/** A listener for `createServer` of `node:http`, or a middleware for Express 4 and 5, with the acts of `garvoeng/site`. */
export function passkeys(server: PasskeyServer, options?: PasskeysOptions<any>): Passkeys;
