// A browser and its authenticator, played by node:crypto.
import { createHash, createPrivateKey, createPublicKey, generateKeyPairSync, sign } from "node:crypto";
import { EDDSA, ES256, RS256, toText } from "garvoeng";

export const UP = 1, UV = 4, BE = 8, BS = 16, AT = 64, ED = 128;
const KINDS = { [ES256]: ["ec", { namedCurve: "P-256" }], [EDDSA]: ["ed25519", {}], [RS256]: ["rsa", { modulusLength: 2048 }] };
const bytes = (...parts) => Buffer.concat(parts.map((part) => (typeof part === "string" ? Buffer.from(part, "hex") : Buffer.from(part))));
const sha256 = (value) => createHash("sha256").update(value).digest();

export function number(value, size) {
  const made = Buffer.alloc(size);
  made.writeUIntBE(value, 0, size);
  return made;
}

function byteString(value) {
  const { length } = value;
  const head = length < 24 ? [0x40 + length] : length < 256 ? [0x58, length] : [0x59, length >> 8, length & 255];
  return bytes(head, value);
}

// A new key. It is read anew from DER, since Node 20 may hang for ever where the very key that was made is exported as a JWK: if the
// garbage of its making is collected meanwhile, that waits for the key's lock.
function keyPair(algorithm) {
  const [kind, how] = KINDS[algorithm], spki = { type: "spki", format: "der" }, pkcs8 = { type: "pkcs8", format: "der" };
  const { publicKey, privateKey } = generateKeyPairSync(kind, { ...how, publicKeyEncoding: spki, privateKeyEncoding: pkcs8 });
  return { publicKey: createPublicKey({ key: publicKey, ...spki }), privateKey: createPrivateKey({ key: privateKey, ...pkcs8 }) };
}

export class Device {
  constructor(algorithm = ES256, { id = Buffer.from("credential of 22 bytes"), rpId = "example.com", origin = "https://example.com" } = {}) {
    Object.assign(this, { algorithm, id, rpId, origin, count: 0, aaguid: Buffer.from([...Array(16).keys()]), said: { crossOrigin: false } });
    const { publicKey, privateKey } = keyPair(algorithm), { x, y, n, e } = publicKey.export({ format: "jwk" });
    this.key = privateKey;
    this.x = Buffer.from(x ?? n, "base64url");
    this.y = Buffer.from(y ?? e ?? "", "base64url");
  }

  sign(message) {
    return sign(this.algorithm === EDDSA ? null : "sha256", message, this.key);
  }

  coseKey() {
    if (this.algorithm === EDDSA) return bytes("a4010103272006215820", this.x);
    if (this.algorithm === RS256) return bytes("a401030339010020", byteString(this.x), "21", byteString(this.y));
    return bytes("a5010203262001215820", this.x, "225820", this.y);
  }

  authData(flags, isAttested, outputs) {
    const attested = isAttested ? bytes(this.aaguid, number(this.id.length, 2), this.id, this.coseKey()) : [];
    return bytes(sha256(this.rpId), [flags], number(this.count, 4), attested, outputs);
  }

  clientData(type, challenge) {
    return Buffer.from(JSON.stringify({ type, challenge, origin: this.origin, ...this.said }));
  }

  response(parts) {
    const id = toText(this.id), response = {};
    for (const [name, value] of Object.entries(parts)) response[name] = typeof value === "string" ? value : toText(value);
    return { id, rawId: id, type: "public-key", clientExtensionResults: {}, response };
  }

  register({ challenge }, { flags = UP | UV | AT, isPacked = false, outputs = "" } = {}) {
    const clientDataJSON = this.clientData("webauthn.create", challenge), data = this.authData(flags, true, outputs);
    const alg = this.algorithm === RS256 ? "390100" : [0x1f - this.algorithm];
    const front = isPacked
      ? bytes("a363666d74667061636b65646761747453746d74a263616c67", alg, "63736967", byteString(this.sign(bytes(data, sha256(clientDataJSON)))))
      : bytes("a363666d74646e6f6e656761747453746d74a0");
    return this.response({ clientDataJSON, attestationObject: bytes(front, "686175746844617461", byteString(data)) });
  }

  signIn({ challenge }, { user = null, flags = UP | UV, outputs = "" } = {}) {
    this.count += 1;
    const clientDataJSON = this.clientData("webauthn.get", challenge), authenticatorData = this.authData(flags, false, outputs);
    const signature = this.sign(bytes(authenticatorData, sha256(clientDataJSON)));
    return this.response({ clientDataJSON, authenticatorData, signature, ...(user === null ? {} : { userHandle: user }) });
  }
}

/** The response with a member of bytes changed. */
export function changed(response, name, change) {
  const value = Buffer.from(response.response[name], "base64url");
  return { ...response, response: { ...response.response, [name]: toText(change(value)) } };
}
