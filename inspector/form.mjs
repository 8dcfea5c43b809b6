// The form's fields and the case that they stand for, which is what `explain` takes.
import { clientDataOf } from "./decoded.mjs";
import { find } from "./elements.mjs";
import { kindOf, REGISTRATION } from "./explain.mjs";

const OFFERED = { es256: -7, eddsa: -8, rs256: -257 };

function lines(id) {
  return find(id).value.split("\n").map((line) => line.trim()).filter((line) => line !== "");
}

// Bytes as a person writes them, in the one spelling that JSON has: also of digits after 0x, or of base64 with padding.
function bytesText(text) {
  const own = text.replace(/\s/g, "");
  if (!/^0x([0-9a-f]{2})*$/i.test(own)) return own.replace(/\+/g, "-").replace(/\//g, "_").replace(/=+$/, "");
  const letters = String.fromCharCode(...(own.slice(2).match(/../g) ?? []).map((digits) => parseInt(digits, 16)));
  return bytesText(btoa(letters));
}

const bytes = (id) => bytesText(find(id).value);
const isChecked = (id) => find(id).checked;
const orNull = (text) => (text === "" ? null : text);

function numberIn(id) {
  const text = find(id).value.trim();
  return /^[0-9]+$/.test(text) ? Number(text) : text;
}

function sessionIn(kind) {
  if (!isChecked("has-session")) return null;
  const session = { challenge: bytes("challenge"), user_verification: isChecked("user-verification") };
  if (kind !== REGISTRATION) return { ...session, user: orNull(bytes("user")), allow: lines("allow").map(bytesText) };
  const algorithms = Object.keys(OFFERED).filter(isChecked).map((id) => OFFERED[id]);
  return { ...session, user: bytes("user"), algorithms, conditional: isChecked("conditional"), attestation: isChecked("attestation") };
}

// A key of SubjectPublicKeyInfo begins with a SEQUENCE of DER, and one of COSE with a map of CBOR.
function keyIn() {
  const key = bytes("row-key");
  return key.startsWith("M") ? { spki_key: key } : { cose_key: key };
}

function rowIn() {
  if (!isChecked("has-row")) return null;
  const eligible = find("row-eligible").value;
  return { id: bytes("row-id"), user: bytes("row-user"), ...keyIn(), sign_count: numberIn("row-count"),
           eligible: eligible === "" ? null : eligible === "true", retired: isChecked("row-retired") };
}

/** The response as it stands in its field. Throws where that is no JSON. */
export function responseIn() {
  return JSON.parse(find("response").value);
}

/** The case that the fields stand for. */
export function caseIn() {
  const response = responseIn(), kind = kindOf(response);
  const made = { response, rp_id: find("rp-id").value.trim(), origins: lines("origins"), top_origins: lines("top-origins"),
                 profile: find("profile").value, session: sessionIn(kind) };
  if (kind !== REGISTRATION) return { ...made, credential: rowIn() };
  return { ...made, accept_none: isChecked("accept-none"), accept_self: isChecked("accept-self"), registered: isChecked("registered"),
           full: isChecked("full") };
}

function setSession(session) {
  find("has-session").checked = session !== null;
  if (session === null) return;
  find("challenge").value = session.challenge ?? "";
  find("user").value = session.user ?? "";
  find("user-verification").checked = session.user_verification ?? false;
  find("allow").value = (session.allow ?? []).join("\n");
  for (const [id, number] of Object.entries(OFFERED)) find(id).checked = (session.algorithms ?? [number]).includes(number);
  find("conditional").checked = session.conditional ?? false;
  find("attestation").checked = session.attestation ?? true;
}

/** Writes a row into its fields. `library` writes its key as COSE_Key bytes. */
export function setRow(row, { coseKeyOf, fromText, toText }) {
  find("has-row").checked = row !== null;
  if (row === null) return;
  find("row-id").value = row.id ?? "";
  find("row-user").value = row.user ?? "";
  find("row-key").value = row.cose_key ?? row.spki_key ?? toText(coseKeyOf({ algorithm: row.algorithm, x: fromText(row.x), y: fromText(row.y ?? "") }));
  find("row-count").value = String(row.sign_count ?? 0);
  find("row-eligible").value = String(row.eligible ?? "");
  find("row-retired").checked = row.retired ?? false;
}

/** Takes as expected what the response says itself: its challenge and origin, and the origin's host as rp id. What is wrong, or nothing. */
export function takeFromResponse({ fromText }) {
  let members = null;
  try {
    ({ members } = clientDataOf(fromText(responseIn().response.clientDataJSON)));
  } catch {
    // There is no response, or no client data in it.
  }
  if (typeof members?.challenge !== "string" || !URL.canParse(members.origin)) return "The response has no client data with a challenge and an origin.";
  find("has-session").checked = true;
  find("challenge").value = members.challenge;
  find("origins").value = members.origin;
  find("rp-id").value = new URL(members.origin).hostname;
  return "";
}

/** Shows the fields of one kind alone, or of both where it is not known. */
export function showKind(kind) {
  for (const part of document.querySelectorAll("[data-kind]")) part.hidden = kind !== null && part.dataset.kind !== kind;
  find("response-kind").textContent = kind === null ? "" : `It is a response of a ${kind}.`;
}

/** Whether a value is a whole case, and not a response alone. */
export function isCase(value) {
  return kindOf(value?.response) !== null;
}

/** Writes a case into the fields. One without `credential` leaves those of the row as they are. */
export function setCase(given, library) {
  find("response").value = JSON.stringify(given.response, null, 1);
  find("rp-id").value = given.rp_id ?? "";
  find("origins").value = (given.origins ?? []).join("\n");
  find("top-origins").value = (given.top_origins ?? []).join("\n");
  find("profile").value = given.profile ?? "level3";
  find("accept-none").checked = given.accept_none ?? true;
  find("accept-self").checked = given.accept_self ?? true;
  find("registered").checked = given.registered ?? false;
  find("full").checked = given.full ?? false;
  setSession(given.session ?? null);
  if (given.credential !== undefined) setRow(given.credential, library);
  showKind(kindOf(given.response));
}
