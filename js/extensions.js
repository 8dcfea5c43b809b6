// Three extensions: what a begin takes as `extensions`, and what the client answered.
import { BadInput } from "./errors.js";
import { fromText, toText } from "./forms.js";
import { checkBytes, checkFlag, checkId, memberOf, shown } from "./limits.js";

const PRF_SIZE = 32;

function inputsOf(first, second) {
  const made = { first: toText(checkBytes(first, "first")) };
  return second === undefined ? made : { ...made, second: toText(checkBytes(second, "second")) };
}

function listed(inputs) {
  if (!Array.isArray(inputs) || inputs.length < 1 || inputs.length > 2) throw new BadInput("each entry of byCredential has an id, and a list of one or two inputs");
  return inputsOf(...inputs);
}

export const credProps = () => ({ credProps: true });

export function prf(first, second, { byCredential } = {}) {
  const made = {};
  if (first !== undefined) made.eval = inputsOf(first, second);
  else if (second !== undefined) throw new BadInput("second is given without first");
  if (byCredential !== undefined) {
    if (!(byCredential instanceof Map)) throw new BadInput(`byCredential is a Map of inputs by credential ids, and not ${shown(byCredential)}`);
    made.evalByCredential = Object.fromEntries([...byCredential].map(([id, inputs]) => [toText(checkId(id)), listed(inputs)]));
  }
  return { prf: made };
}

export const largeBlobSupport = (required = false) => ({ largeBlob: { support: checkFlag(required, "required") ? "required" : "preferred" } });

export const largeBlobRead = () => ({ largeBlob: { read: true } });
export const largeBlobWrite = (blob) => ({ largeBlob: { write: toText(checkBytes(blob, "blob")) } });

const valueIn = (value, name) => memberOf(value, name) ?? null;

function objectOf(value, what) {
  if (value === undefined || value === null) return {};
  if (typeof value !== "object" || Array.isArray(value)) throw new BadInput(`${what} is not an object`);
  return value;
}

function flagIn(value, name, what) {
  const found = valueIn(value, name);
  if (found !== null && typeof found !== "boolean") throw new BadInput(`${what}.${name} is not true or false`);
  return found;
}

function bytesIn(value, name, what) {
  const found = valueIn(value, name);
  return found === null ? null : fromText(found, `${what}.${name}`);
}

function outputIn(value, name) {
  const found = bytesIn(value, name, "clientExtensionResults.prf.results");
  if (found !== null && found.length !== PRF_SIZE)
    throw new BadInput(`clientExtensionResults.prf.results.${name} has ${found.length} bytes, and not ${PRF_SIZE}`);
  return found;
}

export function resultsOf(response) {
  const results = objectOf(valueIn(objectOf(response, "the response"), "clientExtensionResults"), "clientExtensionResults");
  const [properties, pseudo, blob] = ["credProps", "prf", "largeBlob"].map((name) => objectOf(valueIn(results, name), `clientExtensionResults.${name}`));
  const outputs = objectOf(valueIn(pseudo, "results"), "clientExtensionResults.prf.results");
  const first = outputIn(outputs, "first"), second = outputIn(outputs, "second");
  if (first === null && second !== null) throw new BadInput("clientExtensionResults.prf.results has second without first");
  return {
    discoverable: flagIn(properties, "rk", "clientExtensionResults.credProps"), prfEnabled: flagIn(pseudo, "enabled", "clientExtensionResults.prf"),
    prfFirst: first, prfSecond: second, largeBlobSupported: flagIn(blob, "supported", "clientExtensionResults.largeBlob"),
    largeBlob: bytesIn(blob, "blob", "clientExtensionResults.largeBlob"), largeBlobWritten: flagIn(blob, "written", "clientExtensionResults.largeBlob"),
  };
}
