// The requests of a site with passkeys, with fetch's Request and Response, in Node.
import { randomBytes, webcrypto } from "node:crypto";
import { passkeysOver } from "./site_fetch.js";
import { memoryOver } from "./site_stores.js";

export const passkeys = passkeysOver(webcrypto);
export const MemoryWebStore = memoryOver(randomBytes);
export { RateLimit } from "./rate_limit.js";
export { Denied, Visitor } from "./site_accounts.js";
export { MODELS } from "./site_models.js";
