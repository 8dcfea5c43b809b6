// Names of authenticator models, by aaguid. The aaguid is the authenticator's own claim: good for a list, but no proof of anything.
import { uuidOf } from "./forms.js";
import { MODELS } from "./site_files.js";

export { MODELS } from "./site_files.js";

/** The name of a model, if the table has it. */
export function modelOf(aaguid, models = MODELS) {
  const written = uuidOf(aaguid ?? []);
  return Object.hasOwn(models, written) ? models[written] : null;
}
