// The requests of a site with passkeys, with fetch's Request and Response, without Node.
import { passkeysOver } from "./site_fetch.js";
import { memoryOver } from "./site_stores.js";

export const passkeys = passkeysOver(crypto);
export const MemoryWebStore = memoryOver((size) => crypto.getRandomValues(new Uint8Array(size)));
export { RateLimit } from "./rate_limit.js";
export { Denied, Visitor } from "./site_accounts.js";
export { MODELS } from "./site_models.js";
