// The requests of a site with passkeys, for Fastify. If Fastify is not installed, the tests use only the interfaces
// below, and not Fastify itself.
import { PasskeyServer } from "./index.js";
import { Calls, PasskeysOptions } from "./site.js";

/** What is used of a request. */
export interface SiteRequest {
  readonly raw: { readonly headers: { readonly [name: string]: string | string[] | undefined } };
  readonly ip: string;
  readonly body?: unknown;
}

/** What is used of an application. */
export interface SiteApp {
  removeAllContentTypeParsers(): unknown;
  addContentTypeParser(type: "*", parser: (request: any, payload: any, done: any) => void): unknown;
  route(options: { method: any; url: string; handler: (request: any, reply: any) => Promise<any> }): unknown;
}

export interface Passkeys extends Calls<SiteRequest> {
  (app: SiteApp): Promise<void>;
}

/** A plugin for Fastify, `app.register(passkeys(server))`, with the acts of `garvoeng/site`. It reads bodies itself. */
export function passkeys(server: PasskeyServer, options?: PasskeysOptions<any>): Passkeys;
