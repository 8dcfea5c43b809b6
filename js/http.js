// The acts for node:http, and as a middleware of Express.
import { webcrypto } from "node:crypto";
import { logTo } from "./errors.js";
import { Core, callsOver } from "./site_core.js";
import { askedOf, eachHeader } from "./site_node.js";

export { RateLimit } from "./rate_limit.js";

const FAILED = { status: 500, headers: [["Content-Type", "application/json"]], body: '{"error":"the site failed"}' };

function send(response, { status, headers, body }) {
  if (response.headersSent) return; // the host has answered meanwhile
  response.statusCode = status;
  eachHeader(headers, (name, value) => response.setHeader(name, value), (name, value) => response.appendHeader(name, value));
  response.end(body);
}

/** Answers the requests of pages, for `createServer` and for `app.use`. */
export function passkeys(server, options) {
  const core = new Core(webcrypto, server, options), asked = (request) => askedOf(request, { address: request?.ip ?? request?.socket?.remoteAddress });

  async function listener(request, response, next) {
    const path = core.pathOf(request.originalUrl ?? request.url);
    if (path === null && next) return next();
    try {
      send(response, await core.answer({ ...asked(request), path }));
    } catch (error) {
      if (next) return next(error);
      logTo(core.logger, error);
      send(response, FAILED);
    }
  }
  return Object.assign(listener, callsOver(core, asked));
}
