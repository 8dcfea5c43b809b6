// What `explain` told, as elements.
import { made, table } from "./elements.mjs";

const STATES = { passed: "Passed", failed: "Failed", "not reached": "Not reached" };

// A text in which what stands in backquotes is code.
function marked(text) {
  return text.split("`").map((part, index) => (index % 2 === 0 ? part : made("code", {}, part)));
}

function digits(hex) {
  return made("code", {}, hex === "" ? "no bytes" : hex.replace(/(..)(?=.)/g, "$1 "));
}

function textOfHex(hex) {
  return String.fromCharCode(...(hex.match(/../g) ?? []).map((pair) => parseInt(pair, 16)));
}

function base64url(hex) {
  return btoa(textOfHex(hex)).replace(/\+/g, "-").replace(/\//g, "_").replace(/=/g, "");
}

function inBoth(hex) {
  return [digits(hex), made("br"), "in base64url ", made("code", {}, base64url(hex))];
}

function compared({ of, text, hex }) {
  const content = [text === null ? [] : made("code", {}, text), text === null || hex === null ? [] : ", in bytes ", hex === null ? [] : digits(hex)];
  return [made("dt", {}, of), made("dd", {}, content)];
}

function step({ code, asks, standard, state, bytes }) {
  const line = [made("span", { class: "state" }, STATES[state]), ` ${code}: ${asks} `, made("span", { class: "standard" }, `(${standard})`)];
  const body = bytes.length === 0 ? made("p", {}, line)
    : made("details", state === "failed" ? { open: "" } : {}, made("summary", {}, line), made("dl", {}, bytes.map(compared)));
  return made("li", { class: state.replace(" ", "-"), id: `step-${code}` }, body);
}

function verdictText({ verdict, refusal, kind }) {
  if (verdict === "accepted") return `The ${kind} is accepted`;
  return verdict === "refused" ? `The ${kind} is refused: ${refusal.text}` : "It is not judged";
}

function refused({ steps }) {
  const { code, name, standard, asks, when, advice } = steps.find(({ state }) => state === "failed");
  return [
    made("p", {}, made("strong", {}, `${code}, ${name}`), ` (${standard}). ${asks} No.`),
    made("p", {}, made("strong", {}, "It is refused where: "), marked(when)),
    advice === "" ? [] : made("p", {}, made("strong", {}, "What to do: "), advice),
    made("p", {}, made("a", { href: `#step-${code}` }, "The bytes that decided")),
  ];
}

function row(credential) {
  const heading = "The row to be stored";
  return [made("h3", {}, heading), made("pre", { tabindex: "0", role: "region", "aria-label": heading }, JSON.stringify(credential, null, 1))];
}

function verdict(told) {
  const heading = made("h2", { id: "verdict", tabindex: "-1", class: told.verdict.replace(" ", "-") }, verdictText(told));
  const rest = told.verdict === "refused" ? refused(told) : told.fault === null ? [] : [made("p", {}, `No step is reached: ${told.fault}.`)];
  return made("section", { "aria-labelledby": "verdict" }, heading, rest, told.credential === null ? [] : row(told.credential));
}

const code = (text) => made("code", {}, text);
const faultRows = (fault) => (fault === null ? [] : [["fault", fault]]);
const orNone = (hex) => (hex === null ? "not there" : hex === "" ? "no bytes" : digits(hex));

function clientData({ members, text, fault, size }) {
  const rows = Object.entries(members ?? {}).map(([name, value]) => [name, code(JSON.stringify(value))]);
  return table("Client data", [...rows, ["size", `${size} bytes`], ["text", code(text ?? "not there")], ...faultRows(fault)]);
}

function flagRows({ hex, text, bits }) {
  const listed = bits.map(({ name, means, set }, bit) => made("li", {}, `bit ${bit}, ${name}, ${means}: ${set ? "set" : "clear"}`));
  return [["flags", [code(hex), ` (${text})`, made("ul", {}, listed)]]];
}

function authenticatorData({ size, rp_id_hash: hash, flags, sign_count: count, attested, extensions, fault }) {
  const rows = flags === null ? [] : [["rpIdHash", digits(hash)], ...flagRows(flags), ["counter", String(count)]];
  if (attested !== null) rows.push(["AAGUID", digits(attested.aaguid)], ["credential id", inBoth(attested.id)]);
  if (extensions !== null) rows.push(["extensions", [code(extensions.diagnostic), canonical(extensions)]]);
  const first = table("Authenticator data", [...rows, ["size", `${size} bytes`], ...faultRows(fault)]);
  return attested === null ? [first] : [first, key(attested.key)];
}

function canonical(value) {
  return value.canonical ? ", in canonical CBOR" : ", not in canonical CBOR";
}

function key({ members, cose, size, canonical: is }) {
  const rows = members.map(({ name, value }) => [name, code(value)]);
  return table("Public key", [...rows, ["COSE_Key", inBoth(cose)], ["size", `${size} bytes${canonical({ canonical: is })}`]]);
}

function attestation(object) {
  const { format, statement, algorithm, signature, certificates, fault, size } = object;
  const rows = [["format", code(format ?? "not there")], ["statement", code(statement ?? "not there")]];
  if (algorithm !== null) rows.push(["algorithm", algorithm]);
  if (signature !== null) rows.push(["signature", digits(signature)]);
  certificates.forEach(({ pem, size: own }, index) => rows.push([`certificate ${index + 1}`, [`${own} bytes, as it is, not judged`, made("pre", {}, pem)]]));
  return table("Attestation object", [...rows, ["size", `${size} bytes${canonical(object)}`], ...faultRows(fault)]);
}

function client({ id, attachment, transports, user_handle: user, signature, extension_results: results }) {
  const rows = [["id", id === null ? "not there" : inBoth(id)]], json = (value) => code(JSON.stringify(value));
  if (user !== undefined) rows.push(["user handle", orNone(user)]);
  if (signature !== undefined) rows.push(["signature", orNone(signature)]);
  return table("What the client says", [...rows, ["attachment", json(attachment)], ["transports", json(transports)], ["extension results", json(results)]]);
}

function decoded({ client: said, client_data: data, authenticator_data: auth, attestation: object }) {
  const heading = made("h2", { id: "decoded" }, "What stands in the response");
  return made("section", { "aria-labelledby": "decoded" }, heading, client(said), clientData(data), authenticatorData(auth),
              object === null ? [] : attestation(object));
}

function copied(id, summary, value) {
  const label = made("label", { for: id }, "JSON"), area = made("textarea", { id, rows: "12", readonly: "", spellcheck: "false" });
  area.value = JSON.stringify(value, null, 1);
  return made("details", {}, made("summary", {}, summary), label, area);
}

/** The verdict, the steps, what is decoded, and the case itself. */
export function shown(told, given) {
  const steps = told.steps.length === 0 ? []
    : made("section", { "aria-labelledby": "steps" }, made("h2", { id: "steps" }, "The steps"), made("ol", { class: "steps", role: "list" }, told.steps.map(step)));
  return [verdict(told), steps, told.decoded === null ? [] : decoded(told.decoded),
          made("section", { "aria-labelledby": "json" }, made("h2", { id: "json" }, "As JSON"), copied("case", "The case", given),
               copied("told-json", "All that is told", told))].flat();
}
