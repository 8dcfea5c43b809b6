// A passkey made on the spot, where the page's origin lets the browser make one, and a sign-in with it.
import { isSupported, register, signIn } from "../js/browser.js";
import { find } from "./elements.mjs";
import { setCase, setRow } from "./form.mjs";

const USER_HANDLE = 16;
const NO_ORIGIN = "A page that was opened as a file has no origin of its own, and browsers make no passkeys for it: serve this one file from " +
  "http://localhost, or from https.";
const DIGITS = "Browsers make no passkeys for an address of digits: open this page by a name, as localhost.";

// Why no passkey can be made here; null where one can.
function hindrance() {
  if (!isSupported()) return "This browser has no passkeys, or has none for this page.";
  if (!/^https?:$/.test(location.protocol)) return NO_ORIGIN;
  return /^[0-9.]+$|^\[/.test(location.hostname) ? DIGITS : null;
}

export function prepareMaking() {
  const why = hindrance();
  find("making-controls").hidden = why !== null;
  const stays = `It is made for ${location.hostname}, and stays in the authenticator until you delete it there. The page forgets it when it is closed.`;
  find("making-hint").textContent = why ?? stays;
}

function serverHere({ Server }) {
  return new Server(location.hostname, [location.origin], { profile: find("profile").value });
}

const party = () => ({ rp_id: location.hostname, origins: [location.origin], profile: find("profile").value });

// What a call of the browser answers; null where it refuses, which is told.
async function answered(call) {
  find("making-said").textContent = "The browser is asked.";
  try {
    const response = await call();
    find("making-said").textContent = "";
    return JSON.parse(JSON.stringify(response));
  } catch (error) {
    find("making-said").textContent = `The browser refused: ${error.name}, ${error.message}`;
    return null;
  }
}

/** Makes a passkey, fills in its registration, inspects it, and keeps its row in the fields. */
export async function makePasskey(library, inspect) {
  const user = crypto.getRandomValues(new Uint8Array(USER_HANDLE)), userVerification = find("making-verification").value;
  const { options, session } = serverHere(library).registerBegin(user, "inspected", { userVerification, attestation: find("making-attestation").value });
  const response = await answered(() => register(options));
  if (response === null) return;
  setCase({ ...party(), response, session: session.toJSON() }, library);
  const told = await inspect();
  if (told?.credential) setRow(told.credential, library);
}

/** Signs in with a passkey that was made here, fills that in, and inspects it by the row in the fields. */
export async function usePasskey(library, inspect) {
  const { options, session } = serverHere(library).authenticateBegin({ userVerification: find("making-verification").value });
  const response = await answered(() => signIn(options));
  if (response === null) return;
  setCase({ ...party(), response, session: session.toJSON() }, library);
  await inspect();
}
