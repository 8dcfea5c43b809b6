// The acts as a fetch handler, `(Request) => Response`: for Hono, Next, SvelteKit, Bun, Deno and workers.
import { BadInput } from "./errors.js";
import { ownOf, shown } from "./limits.js";
import { Core, callsOver } from "./site_core.js";
import { HostFault } from "./site_requests.js";

async function bodyIn(request, most) {
  if (request.bodyUsed || request.body?.locked) throw new HostFault("the body was read before: hand passkeys the request before it is read, or a clone of it");
  const parts = [], reader = request.body?.getReader();
  let size = 0;
  for (let one = await reader?.read(); one?.done === false && size < most; one = await reader.read()) {
    parts.push(one.value);
    size += one.value.length;
  }
  if (size >= most) await reader.cancel();
  return new Uint8Array(await new Blob(parts).arrayBuffer());
}

async function bodyOf(request, most) {
  try {
    return await bodyIn(request, most);
  } catch (error) {
    throw error instanceof HostFault ? error : new BadInput("the request ended early");
  }
}

/** The function `passkeys`, with the WebCrypto of a platform. */
export const passkeysOver = (crypto) => function passkeys(server, options) {
  const core = new Core(crypto, server, options);

  function asked(request, how) {
    if (typeof request?.headers?.get !== "function") throw new BadInput(`the request is ${shown(request)}: hand in one of fetch`);
    const { address, native = request } = ownOf(how);
    return { headers: request.headers, address, native, read: (most) => bodyOf(request, most) };
  }

  async function handler(request, how) {
    const its = asked(request, how), { method, url } = request, { status, headers, body } = await core.answer({ ...its, method, path: core.pathOf(new URL(url).pathname) });
    return new Response(method === "HEAD" ? null : body, { status, headers });
  }
  return Object.assign(handler, callsOver(core, asked));
};
