// The requests of a site with passkeys, for Koa. If Koa is not installed, the tests use only the interfaces below,
// and not Koa itself.
import { PasskeyServer } from "./index.js";
import { Calls, PasskeysOptions } from "./site.js";

/** What is used of a context. */
export interface SiteContext {
  readonly req: { readonly headers: { readonly [name: string]: string | string[] | undefined } };
  readonly request: object;
  readonly originalUrl: string;
  readonly ip: string;
  status: number;
  body: unknown;
  set(name: string, value: string): unknown;
  append(name: string, value: string): unknown;
}

/** Answers the requests below `base`; all others go on to `next`. */
export interface Passkeys extends Calls<SiteContext> {
  (context: SiteContext, next: () => Promise<unknown>): Promise<unknown>;
}

/** A middleware for Koa, `app.use(passkeys(server))`, with the acts of `garvoeng/site`. A body that was read before is taken from
 *  `context.request.rawBody` or `body`. */
export function passkeys(server: PasskeyServer, options?: PasskeysOptions<any>): Passkeys;
