// A request of node:http in the form of the core, and its answer; the frameworks over node:http use both.
import { BadInput } from "./errors.js";
import { isBytes, shown } from "./limits.js";
import { HostFault, MAX_BODY } from "./site_requests.js";

// A body that the host has read: its text or bytes, or the value in them.
function bodyReadBy({ body, rawBody }) {
  const [read] = [rawBody, body].filter((one) => typeof one === "string" || isBytes(one));
  if (read !== undefined) return read;
  if (typeof body !== "object" || body === null)
    throw new HostFault("the body was read before: hand it on as request.body, or call passkeys before what reads it");
  return body;
}

// A body that is too long is read to its end but not kept, so that the visitor gets an answer.
function bodyIn(stream) {
  return new Promise((resolve, reject) => {
    const parts = [];
    let size = 0;
    stream.on("data", (part) => {
      size += part.length;
      if (size <= MAX_BODY) return parts.push(part);
      parts.length = 0;
      reject(new BadInput("the body is too long"));
    });
    stream.on("end", () => resolve(Buffer.concat(parts)));
    for (const name of ["error", "close"]) stream.on(name, () => reject(new BadInput("the request ended early")));
  });
}

// A parser that did not read the body may have left an empty `body`, and Fastify's may have left a stream.
async function bodyOf(request, host) {
  const stream = typeof host.body?.on === "function" ? host.body : request;
  const wasRead = typeof stream.on !== "function" || stream.readableDidRead || stream.readableEnded;
  if (!wasRead && stream.destroyed) throw new BadInput("the request ended early");
  return wasRead ? bodyReadBy(host) : bodyIn(stream);
}

function checkRequest(request) {
  if (typeof request?.headers !== "object" || request.headers === null) throw new BadInput(`the request is ${shown(request)}: hand in that of the framework`);
  if (typeof request.headers.get === "function") throw new BadInput("the request is one of fetch: passkeys of garvoeng/site takes it");
}

/** The core's request without its path: `native` is the framework's own, and `host` says who reads the body. */
export function askedOf(request, { native = request, host = request, address }) {
  checkRequest(request);
  const { method, headers } = request, get = (name) => (Object.hasOwn(headers, name) ? headers[name] ?? null : null);
  return { method, headers: { get }, address, native, read: () => bodyOf(request, host) };
}

/** Calls `set(name, value)` for each header, and `append` for those that a host may also have set. */
export function eachHeader(headers, set, append) {
  for (const [name, value] of headers) (["Set-Cookie", "Vary"].includes(name) ? append : set)(name, value);
}
