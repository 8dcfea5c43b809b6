// The acts as a middleware of Koa.
import { webcrypto } from "node:crypto";
import { Core, callsOver } from "./site_core.js";
import { askedOf, eachHeader } from "./site_node.js";

/** Answers the requests of pages, for `app.use`. */
export function passkeys(server, options) {
  const core = new Core(webcrypto, server, options), asked = (context) => askedOf(context.req, { native: context, host: context.request, address: context.ip });

  async function middleware(context, next) {
    const path = core.pathOf(context.originalUrl);
    if (path === null) return next();
    const { status, headers, body } = await core.answer({ ...asked(context), path });
    context.status = status;
    eachHeader(headers, (name, value) => context.set(name, value), (name, value) => context.append(name, value));
    context.body = body;
  }
  return Object.assign(middleware, callsOver(core, asked));
}
