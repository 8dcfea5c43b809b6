// The acts as a plugin of Fastify.
import { webcrypto } from "node:crypto";
import { Core, callsOver } from "./site_core.js";
import { askedOf, eachHeader } from "./site_node.js";

/** Answers the requests of pages, for `app.register`. */
export function passkeys(server, options) {
  const core = new Core(webcrypto, server, options), asked = (request) => askedOf(request.raw, { native: request, host: request, address: request.ip });

  async function handler(request, reply) {
    const { status, headers, body } = await core.answer({ ...asked(request), path: core.pathOf(request.raw.url) });
    const append = (name, value) => reply.header(name, name === "Vary" ? [reply.getHeader(name) ?? [], value].flat().join(", ") : value);
    eachHeader(headers, (name, value) => reply.header(name, value), append);
    return reply.code(status).send(body);
  }

  // The core reads bodies itself, only for these paths: a plugin has its own parsers.
  async function plugin(app) {
    app.removeAllContentTypeParsers();
    app.addContentTypeParser("*", (request, payload, done) => done(null, payload));
    for (const url of [core.base, `${core.base}/*`]) app.route({ method: ["GET", "POST"], url, handler });
  }
  return Object.assign(plugin, callsOver(core, asked));
}
