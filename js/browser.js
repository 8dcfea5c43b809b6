// The page's side: takes W3C's options in JSON, and returns W3C's response in JSON (WebAuthn Level 3, section 5.1), also if the browser has
// no JSON calls. It imports nothing, so that a site can serve this one file.

function bytesOf(text) {
  return Uint8Array.from(atob(text.replace(/-/g, "+").replace(/_/g, "/")), (letter) => letter.charCodeAt(0));
}

function textOf(buffer) {
  const letters = Array.from(new Uint8Array(buffer), (byte) => String.fromCharCode(byte)).join("");
  return btoa(letters).replace(/\+/g, "-").replace(/\//g, "_").replace(/=/g, "");
}

const listed = (list = []) => list.map((one) => ({ ...one, id: bytesOf(one.id) }));
const mapped = (value, change) => Object.fromEntries(Object.entries(value).map(([name, one]) => [name, change(one)]));

// The inputs of extensions, some of which are bytes.
function inputsOf({ prf, largeBlob, ...rest }) {
  const made = { ...rest };
  if (prf !== undefined) {
    made.prf = { ...prf };
    if (prf.eval !== undefined) made.prf.eval = mapped(prf.eval, bytesOf);
    if (prf.evalByCredential !== undefined) made.prf.evalByCredential = mapped(prf.evalByCredential, (inputs) => mapped(inputs, bytesOf));
  }
  if (largeBlob !== undefined) made.largeBlob = largeBlob.write === undefined ? largeBlob : { ...largeBlob, write: bytesOf(largeBlob.write) };
  return made;
}

// The options of a kind, Creation or Request.
function optionsOf(kind, options) {
  if (!isSupported()) throw new DOMException("this browser has no passkeys", "NotSupportedError");
  const parse = `parse${kind}OptionsFromJSON`;
  if (PublicKeyCredential[parse] !== undefined) return PublicKeyCredential[parse](options);
  const { user, excludeCredentials, allowCredentials, extensions } = options, own = { ...options, challenge: bytesOf(options.challenge) };
  if (extensions !== undefined) own.extensions = inputsOf(extensions);
  if (kind === "Request") return { ...own, allowCredentials: listed(allowCredentials) };
  return { ...own, user: { ...user, id: bytesOf(user.id) }, excludeCredentials: listed(excludeCredentials) };
}

// The results of extensions, some of which contain bytes.
function resultsOf(value) {
  if (value instanceof ArrayBuffer) return textOf(value);
  if (typeof value !== "object" || value === null || Array.isArray(value)) return value;
  return Object.fromEntries(Object.entries(value).map(([name, one]) => [name, resultsOf(one)]));
}

function responseOf(credential) {
  if (credential.toJSON !== undefined) return credential.toJSON();
  const { id, type, authenticatorAttachment, response: given } = credential, response = { transports: given.getTransports?.() };
  for (const name of ["clientDataJSON", "attestationObject", "authenticatorData", "signature", "userHandle"])
    if (given[name]) response[name] = textOf(given[name]);
  const clientExtensionResults = resultsOf(credential.getClientExtensionResults());
  return { id, rawId: id, type, authenticatorAttachment: authenticatorAttachment ?? undefined, response, clientExtensionResults };
}

const anotherBegan = () => new DOMException("another call began", "AbortError");
let pending = null, begun = 0;

// A browser takes one call at a time: a new one ends the one that waits, such as that of autofill.
async function credentialBy(call, publicKey, { signal, mediation }) {
  const controller = new AbortController(), end = () => controller.abort(signal.reason);
  pending?.abort(anotherBegan());
  pending = controller;
  begun += 1;
  if (signal?.aborted) end();
  signal?.addEventListener("abort", end);
  try {
    return responseOf(await navigator.credentials[call]({ publicKey, mediation, signal: controller.signal }));
  } finally {
    signal?.removeEventListener("abort", end);
    if (pending === controller) pending = null;
  }
}

export const isSupported = () => globalThis.PublicKeyCredential !== undefined;
export const register = async (options, { signal, mediation } = {}) => credentialBy("create", optionsOf("Creation", options), { signal, mediation });
export const signIn = async (options, { signal, mediation } = {}) => credentialBy("get", optionsOf("Request", options), { signal, mediation });
export const canAutofill = async () => (await globalThis.PublicKeyCredential?.isConditionalMediationAvailable?.()) === true;

// Whether the browser has this call, which passes the site's values to the authenticator.
async function signalled(call, told) {
  if (globalThis.PublicKeyCredential?.[call] === undefined) return false;
  await PublicKeyCredential[call](told);
  return true;
}

export const signalUnknownCredential = (told) => signalled("signalUnknownCredential", told);
export const signalAllAccepted = (told) => signalled("signalAllAcceptedCredentials", told);
export const signalUserDetails = (told) => signalled("signalCurrentUserDetails", told);

export async function autofill(begin, { signal, milliseconds = 240_000 } = {}) {
  for (;;) {
    const controller = new AbortController(), end = () => controller.abort(signal.reason), before = begun;
    let isOld = false;
    const timer = setTimeout(() => ((isOld = true), controller.abort()), milliseconds);
    signal?.addEventListener("abort", end);
    if (signal?.aborted) end();
    try {
      const options = await begin();
      // What began while the site answered goes on: autofill ends no call of the visitor's.
      if (begun !== before) throw anotherBegan();
      return await signIn(options, { signal: controller.signal, mediation: "conditional" });
    } catch (error) {
      if (!isOld) throw error;
    } finally {
      clearTimeout(timer);
      signal?.removeEventListener("abort", end);
    }
  }
}
