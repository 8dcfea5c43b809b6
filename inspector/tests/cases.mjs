// Cases with one member wrong each, by what is wrong, and the step that is to refuse it.
import { createPublicKey, generateKeyPairSync } from "node:crypto";
import { AT, BE, BS, Device, ED, UP, UV } from "../../js/tests/device.mjs";
import { ES256, EDDSA, RS256 } from "../../js/limits.js";
import { toText } from "../../js/forms.js";

const CHALLENGE = toText(Uint8Array.from({ length: 32 }, (_, index) => 7 * index + 1)), USER = toText(Buffer.from("account 7")), OTHER = toText(Buffer.from("another"));
const ORIGIN = "https://example.com", FRAME = "https://one.example";
const party = { rp_id: "example.com", origins: [ORIGIN] };

const device = () => Object.assign(new Device(), { count: 5 });
const bytes = (front, rest) => Buffer.concat([Buffer.from(front, "hex"), rest]);
const text = (value) => toText(Buffer.from(value));
const clientData = (type, members = {}) => text(JSON.stringify({ type, challenge: CHALLENGE, origin: ORIGIN, crossOrigin: false, ...members }));

// A sign-in of a device, as a case: `said` stands in its client data, `how` in its call.
function signIn({ said = {}, how = {}, own = device() } = {}) {
  own.said = { crossOrigin: false, ...said };
  const response = own.signIn({ challenge: CHALLENGE }, how), { id, algorithm, x, y } = own;
  return { ...party, session: { challenge: CHALLENGE, user: USER, allow: [], user_verification: false }, response,
           credential: { id: toText(id), user: USER, algorithm, x: toText(x), y: toText(y), sign_count: 5, eligible: false, retired: false } };
}

function registration({ said = {}, how = {}, own = device() } = {}) {
  own.said = { crossOrigin: false, ...said };
  return { ...party, session: { challenge: CHALLENGE, user: USER, user_verification: false, algorithms: [ES256, EDDSA, RS256], conditional: false, attestation: true },
           response: own.register({ challenge: CHALLENGE }, how) };
}

const withSession = (made, members) => ({ ...made, session: { ...made.session, ...members } });
const withRow = (made, members) => ({ ...made, credential: { ...made.credential, ...members } });
const withParts = (made, members) => ({ ...made, response: { ...made.response, response: { ...made.response.response, ...members } } });

function changed(made, name, change) {
  return withParts(made, { [name]: toText(change(Buffer.from(made.response.response[name], "base64url"))) });
}

const without = (value, name) => Object.fromEntries(Object.entries(value).filter(([one]) => one !== name));

// An object in JSON with a member more that nests so deep.
const deeper = (json, depth) => `${json.slice(0, -1)},"more":${"[".repeat(depth)}${"]".repeat(depth)}}`;

// What is wrong with client data of either kind, and the steps of a registration and of a sign-in.
function ofClientData(make, type, other) {
  const whole = JSON.parse(Buffer.from(clientData(type), "base64url")), json = JSON.stringify(whole);
  const unread = { "no byte": "", "no JSON": "{", "a byte order mark": `\ufeff${json}`, "an array": `[${json}]`, null: "null", "a byte that is not UTF-8": Buffer.from([0xff, ...Buffer.from(json)]),
                   "UTF-16": Buffer.from(json, "utf16le"), "no end": json.slice(0, -1), "a byte after the end": `${json}}`, "too deep a member": deeper(json, 127), "a member that is far too deep": deeper(json, 9000), "a number as type": JSON.stringify({ ...whole, type: 1 }),
                   "a number as challenge": JSON.stringify({ ...whole, challenge: 1 }), "null as origin": JSON.stringify({ ...whole, origin: null }),
                   ...Object.fromEntries(["type", "challenge", "origin"].map((name) => [`no ${name}`, JSON.stringify(without(whole, name))])) };
  const said = [
    ...["", other, `${type} `, type.toUpperCase()].map((value) => ["type", value, 3, 6]),
    ...["", CHALLENGE.slice(1), `${CHALLENGE}=`, CHALLENGE.toLowerCase(), OTHER].map((value) => ["challenge", value, 4, 7]),
    ...["http://example.com", `${ORIGIN}/`, `${ORIGIN}:443`, "https://EXAMPLE.com", "https://example.org", "null", "https://ex\u0430mple.com"].map((value) => ["origin", value, 5, 8]),
    ...[true, "true", null, 0].map((value) => ["crossOrigin", value, 17, 17]),
    ["topOrigin", FRAME, 17, 17],
  ];
  return [
    ...Object.entries(unread).map(([what, value]) => [what, withParts(make(), { clientDataJSON: text(value) }), 2, 5]),
    ...said.map(([name, value, g, w]) => [`${name} is ${JSON.stringify(value)}`, make({ said: { type, challenge: CHALLENGE, origin: ORIGIN, [name]: value } }), g, w]),
    ["another page at the top", { ...make({ said: { crossOrigin: true, topOrigin: "https://two.example" } }), top_origins: [FRAME] }, 18, 18],
    ["no page at the top", { ...make({ said: { crossOrigin: true } }), top_origins: [FRAME] }, 18, 18],
    ["token binding", { ...make({ said: { tokenBinding: { status: "present", id: "AA" } } }), profile: "open" }, 6, 9],
    ["token binding in the strict profile", { ...make({ said: { tokenBinding: { status: "not-supported" } } }), profile: "strict" }, 6, 9],
    ["no session", { ...make(), session: null }, 1, 1],
    ["the session of another challenge", withSession(make(), { challenge: toText(new Uint8Array(32)) }), 4, 7],
    ["another relying party", { ...make(), rp_id: "www.example.com", origins: [ORIGIN, "https://www.example.com"] }, 8, 11],
    ["a device of another relying party", make({ own: Object.assign(device(), { rpId: "example.org" }) }), 8, 11],
    ["no presence", make({ how: { flags: make === signIn ? UV : UV | AT } }), 9, 12],
    ["no verification", withSession(make({ how: { flags: make === signIn ? UP : UP | AT } }), { user_verification: true }), 10, 13],
  ];
}

// A sign-in whose row has the key as a browser gives it.
function withSpki(algorithm) {
  const own = Object.assign(new Device(algorithm), { count: 5 }), { algorithm: _, x, y, ...row } = signIn({ own }).credential;
  const spki_key = toText(createPublicKey(own.key).export({ type: "spki", format: "der" }));
  return { ...signIn({ own: Object.assign(own, { count: 5 }) }), credential: { ...row, spki_key } };
}

// The attestation object of a registration with another map around its authenticator data.
function restated(made, front) {
  return changed(made, "attestationObject", (object) => bytes(front, object.subarray(object.indexOf("authData") - 1)));
}

// The authenticator data at the end of the object of a device.
const authDataOf = (object) => object.subarray(object.indexOf("authData") + 8 + 2);

function ofAttestation() {
  const object = (change) => changed(registration(), "attestationObject", change), data = (change) => object((value) => {
    const made = Buffer.from(value);
    change(authDataOf(made));
    return made;
  });
  const none = "a363666d74646e6f6e656761747453746d74", packed = () => registration({ how: { isPacked: true } });
  return [
    ["no object", object(() => Buffer.alloc(0)), 7],
    ["an object that ends", object((value) => value.subarray(0, -1)), 7],
    ["a byte after it", object((value) => Buffer.concat([value, Buffer.alloc(1)])), 7],
    ["no map", object((value) => bytes("81", value)), 7],
    ["another name in it", object((value) => Buffer.from(value.toString("latin1").replace("attStmt", "attStmT"), "latin1")), 7],
    ["AT is clear", data((made) => (made[32] &= ~AT)), 7],
    ["ED without extensions", data((made) => (made[32] |= ED)), 7],
    ["BS without BE", data((made) => (made[32] |= BS)), 7],
    ["an id without bytes", data((made) => (made[54] = 0)), 7],
    ["an id that is too long", data((made) => (made[53] = 0xff)), 7],
    ["a key of another type", data((made) => (made[55 + 22 + 2] = 1)), 7],
    ["a key of an unknown algorithm", data((made) => (made[55 + 22 + 4] = 0x28)), 7],
    ["a key that is no CBOR", data((made) => (made[55 + 22] = 0xff)), 7],
    ["rpIdHash is changed", data((made) => (made[0] ^= 1)), 8],
    ["another algorithm was offered", withSession(registration(), { algorithms: [EDDSA] }), 11],
    ["EdDSA was not offered", withSession(registration({ own: new Device(EDDSA) }), { algorithms: [ES256] }), 11],
    ["RS256 was not offered", withSession(registration({ own: new Device(RS256) }), { algorithms: [ES256, EDDSA] }), 11],
    ["the client names another id", { ...registration(), response: { ...registration().response, id: OTHER, rawId: OTHER } }, 19],
    ["a format that is not known", restated(registration(), "a363666d746474706d326761747453746d74a0"), 12],
    ["the format of U2F", restated(registration(), "a363666d74686669646f2d7532666761747453746d74a0"), 12],
    ["no attestation with a statement", restated(registration(), `${none}a163616c6726`), 13],
    ["a signature of no attestation", changed(packed(), "attestationObject", (value) => (value[value.indexOf("sig") + 40] ^= 1, value)), 13],
    ["packed, of other client data", withParts(packed(), { clientDataJSON: clientData("webauthn.create", { more: 1 }) }), 13],
    ["packed, with certificates", restated(registration(), "a363666d74667061636b65646761747453746d74a363616c672663736967410063783563814130"), 13],
    ["no attestation is not accepted", { ...registration(), accept_none: false }, 14],
    ["self attestation is not accepted", { ...packed(), accept_self: false }, 14],
    ["it is registered", { ...registration(), registered: true }, 15],
    ["there is no room", { ...registration(), full: true }, 16],
  ];
}

function ofSignIn() {
  const data = (change) => changed(signIn(), "authenticatorData", change), flip = (at) => (value) => (value[at] ^= 1, value);
  return [
    ["the session lists another credential", withSession(signIn(), { allow: [OTHER] }), 2],
    ["no row", { ...signIn(), credential: null }, 3],
    ["the row of another credential", withRow(signIn(), { id: OTHER }), 3],
    ["a retired row", withRow(signIn(), { retired: true }), 3],
    ["the session of another user", withSession(signIn(), { user: OTHER }), 4],
    ["the response of another user", withParts(signIn(), { userHandle: OTHER }), 4],
    ["the row of another user", withRow(signIn(), { user: OTHER }), 4],
    ["nobody is named", withSession(signIn(), { user: null }), 4],
    ["no authenticator data", data(() => Buffer.alloc(0)), 10],
    ["authenticator data that end", data((value) => value.subarray(0, 36)), 10],
    ["a byte after them", data((value) => Buffer.concat([value, Buffer.alloc(1)])), 10],
    ["ED without extensions", signIn({ how: { flags: UP | ED } }), 10],
    ["AT without a credential", signIn({ how: { flags: UP | AT } }), 10],
    ["BS without BE", signIn({ how: { flags: UP | BS } }), 10],
    ["rpIdHash is changed", data(flip(0)), 11],
    ["reserved flags are changed", data((value) => (value[32] ^= 2, value)), 14],
    ["no signature", changed(signIn(), "signature", () => Buffer.alloc(0)), 14],
    ["another signature", changed(signIn(), "signature", (value) => flip(value.length - 1)(value)), 14],
    ["a byte after the signature", changed(signIn(), "signature", (value) => Buffer.concat([value, Buffer.alloc(1)])), 14],
    ["the signature of another key", withRow(signIn(), { x: toText(new Device().x) }), 14],
    ["client data with a member more", withParts(signIn(), { clientDataJSON: clientData("webauthn.get", { more: 1 }) }), 14],
    ["a key of another algorithm", withRow(signIn(), { algorithm: EDDSA, y: "" }), 14],
    ["the counter that is stored", withRow(signIn(), { sign_count: 6 }), 15],
    ["a counter that was higher", withRow(signIn(), { sign_count: 4294967295 }), 15],
    ["a counter of 0", signIn({ own: Object.assign(device(), { count: -1 }) }), 15],
    ["BE is clear, and was set", withRow(signIn(), { eligible: true }), 16],
    ["BE is set, and was clear", signIn({ how: { flags: UP | BE } }), 16],
  ];
}

function nested(depth) {
  let made = [];
  for (let level = 1; level < depth; level++) made = [made];
  return made;
}

const deep = signIn({ said: { more: nested(126) } });

/** Cases that are accepted, by what they are. */
export const accepted = {
  "a registration": registration(), "a registration with self attestation": registration({ how: { isPacked: true } }),
  "a registration that was begun as conditional": withSession(registration({ how: { flags: AT } }), { conditional: true }),
  "a statement that nobody asked for": withSession(registration({ how: { isPacked: true } }), { attestation: false }),
  "deep client data": deep, "deep results of extensions": { ...deep, response: { ...deep.response, clientExtensionResults: { more: nested(700) } } },
  "a sign-in": signIn(), "a sign-in in a frame": { ...signIn({ said: { crossOrigin: true, topOrigin: FRAME } }), top_origins: [FRAME] },
  ...Object.fromEntries([ES256, EDDSA, RS256].map((algorithm) => [`a sign-in by ${algorithm}, with the key of getPublicKey()`, withSpki(algorithm)])),
  ...Object.fromEntries([EDDSA, RS256].flatMap((algorithm) => [
    [`a registration by ${algorithm}`, registration({ own: Object.assign(new Device(algorithm), { count: 5 }) })],
    [`a sign-in by ${algorithm}`, signIn({ own: Object.assign(new Device(algorithm), { count: 5 }) })],
  ])),
};

/** `[what, case, code of the step]` of each case with a member that is wrong. */
export const refused = [
  ...ofClientData(registration, "webauthn.create", "webauthn.get").map(([what, made, number]) => [what, made, `G${number}`]),
  ...ofAttestation().map(([what, made, number]) => [what, made, `G${number}`]),
  ...ofClientData(signIn, "webauthn.get", "webauthn.create").map(([what, made, , number]) => [what, made, `W${number}`]),
  ...ofSignIn().map(([what, made, number]) => [what, made, `W${number}`]),
];

function otherCurve() {
  return toText(generateKeyPairSync("ec", { namedCurve: "P-384", publicKeyEncoding: { type: "spki", format: "der" }, privateKeyEncoding: { type: "pkcs8", format: "der" } }).publicKey);
}

const { response, ...rest } = signIn();
/** `[what, input, words of the fault]` of what no library judges. */
export const notJudged = [
  ["nothing", null, "no response"],
  ["no response", rest, "no response"],
  ["a response of nothing", { ...rest, response: { id: "AA", rawId: "AA", type: "public-key", response: {} } }, "no response"],
  ["id is not rawId", { ...rest, response: { ...response, id: "AA" } }, "id is not rawId"],
  ["another type", { ...rest, response: { ...response, type: "password" } }, "type is not public-key"],
  ["no signature", withParts(signIn(), { signature: undefined }), "signature is missing"],
  ["a number as signature", withParts(signIn(), { signature: 7 }), "signature is not a text"],
  ["padding", withParts(signIn(), { clientDataJSON: "AA==" }), "clientDataJSON is not base64url"],
  ["no rp id", { ...signIn(), rp_id: undefined }, "the rp id is undefined"],
  ["an origin with a path", { ...signIn(), origins: [`${ORIGIN}/path`] }, "is not an origin"],
  ["origins as a text", { ...signIn(), origins: ORIGIN }, "origins is"],
  ["an unknown profile", { ...signIn(), profile: "level4" }, "profile is"],
  ["a challenge of 16 bytes", withSession(signIn(), { challenge: "AAAAAAAAAAAAAAAAAAAAAA" }), "challenge"],
  ["a session that is a text", { ...signIn(), session: "open" }, "session is no object"],
  ["another name in the session", withSession(signIn(), { userVerification: true }), "session has no member userVerification"],
  ["another name in the case", { ...signIn(), rpId: "example.com" }, "no member rpId"],
  ["a counter that is a text", withRow(signIn(), { sign_count: "5" }), "signCount"],
  ["a key of three bytes", withRow(signIn(), { x: "AAAA" }), "x"],
  ["a key that is no COSE_Key", { ...signIn(), credential: { id: "AA", cose_key: "AA" } }, "COSE_Key"],
  ["a key that is no SubjectPublicKeyInfo", { ...signIn(), credential: { id: "AA", spki_key: "MFkw" } }, "SubjectPublicKeyInfo"],
  ["the key of another curve", { ...signIn(), credential: { id: "AA", spki_key: otherCurve() } }, "SubjectPublicKeyInfo"],
  ["registered is a number", { ...registration(), registered: 1 }, "isRegistered answered"],
];
