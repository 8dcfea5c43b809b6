// What is asked of Koa and of Fastify by `passkeys`, made of node:http: the module of each, and a listener of a site.
import { createServer } from "node:http";
import * as byFastify from "garvoeng/fastify";
import * as byKoa from "garvoeng/koa";

export const LIKE = {
  Koa: [byKoa, (site) => createServer(async (request, response) => {
    const context = { req: request, request: {}, originalUrl: request.url, method: request.method, ip: "192.0.2.7", set: (name, value) => response.setHeader(name, value), append: (name, value) => response.appendHeader(name, value) };
    await site(context, () => Object.assign(context, { status: 404, body: "none" })).catch((error) => Object.assign(context, { status: 500, body: error.message }));
    response.writeHead(context.status).end(context.body);
  })],
  Fastify: [byFastify, async (site) => {
    const routes = [], parsers = [];
    await site({ removeAllContentTypeParsers() {}, addContentTypeParser: (type, parser) => parsers.push(parser), route: (one) => routes.push(one) });
    const found = ({ url, method }) => routes.find((one) => one.method.includes(method) && (one.url.endsWith("/*") ? url.startsWith(one.url.slice(0, -1)) : url === one.url));
    return createServer((raw, response) => parsers[0](null, raw, (_, body) => {
      let status = 200;
      const reply = { header: (name, value) => (name === "Set-Cookie" ? response.appendHeader(name, value) : response.setHeader(name, value)), getHeader: (name) => response.getHeader(name), code: (one) => ((status = one), reply), send: (text) => response.writeHead(status).end(text) };
      found(raw)?.handler({ raw, ip: "192.0.2.7", method: raw.method, body }, reply).catch((error) => response.writeHead(500).end(error.message)) ?? response.writeHead(404).end();
    }));
  }],
};
